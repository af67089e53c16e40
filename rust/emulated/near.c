/* The functions of shelf.h on a machine that is not x86-64: each sends what it is lent to the program `far`, which runs
 * under an emulator with the proved library in it, and takes back what the library gave. For the tests; of its speed it
 * says nothing. Each thread has a `far` of its own, which ends when its input does. */
#define _GNU_SOURCE
#include "shelf.h"
#include "wire.h"

#include <fcntl.h>
#include <stdio.h>
#include <stdlib.h>
#include <unistd.h>

struct part {
    uint64_t kind;
    uint64_t number; /* or the length */
    const uint8_t *lent;
    uint8_t *to_change;
};

static _Thread_local int to_far = -1;
static _Thread_local int from_far = -1;

static void give_up(const char *why) {
    perror(why);
    abort();
}

/* FAR_RUNNER and FAR_PROGRAM are given when this file is compiled. */
static void start(void) {
    int there[2], back[2];
    if (pipe2(there, O_CLOEXEC) != 0 || pipe2(back, O_CLOEXEC) != 0) {
        give_up("pipe");
    }
    pid_t child = fork();
    if (child < 0) {
        give_up("fork");
    }
    if (child == 0) {
        dup2(there[0], 0);
        dup2(back[1], 1);
        execl(FAR_RUNNER, FAR_RUNNER, FAR_PROGRAM, (char *)NULL);
        give_up(FAR_RUNNER);
    }
    close(there[0]);
    close(back[1]);
    to_far = there[1];
    from_far = back[0];
}

static void send_bytes(const void *bytes, size_t length) {
    const uint8_t *from = bytes;
    while (length > 0) {
        ssize_t sent = write(to_far, from, length);
        if (sent <= 0) {
            give_up("the emulated library ended");
        }
        from += sent;
        length -= (size_t)sent;
    }
}

static void take_bytes(void *bytes, size_t length) {
    uint8_t *to = bytes;
    while (length > 0) {
        ssize_t taken = read(from_far, to, length);
        if (taken <= 0) {
            give_up("the emulated library ended");
        }
        to += taken;
        length -= (size_t)taken;
    }
}

static uint64_t ask(enum function function, const struct part *parts, uint64_t many) {
    if (to_far < 0) {
        start();
    }
    uint64_t head[2] = {function, many};
    send_bytes(head, sizeof head);
    for (uint64_t i = 0; i < many; i++) {
        uint64_t row[2] = {parts[i].kind, parts[i].number};
        send_bytes(row, sizeof row);
        if (parts[i].kind != NUMBER) {
            send_bytes(parts[i].lent, parts[i].number);
        }
    }
    uint64_t answer;
    take_bytes(&answer, sizeof answer);
    for (uint64_t i = 0; i < many; i++) {
        if (parts[i].kind == LENT_TO_CHANGE) {
            take_bytes(parts[i].to_change, parts[i].number);
        }
    }
    return answer;
}

#define ASK(function, ...)                                                                         \
    ask(function, (struct part[]){__VA_ARGS__}, sizeof(struct part[]){__VA_ARGS__} / sizeof(struct part))
#define IN(name) {LENT, name##_len, name, NULL}
#define OUT(name) {LENT_TO_CHANGE, name##_len, name, name}
#define OF(name) {NUMBER, name, NULL, NULL}

uint64_t shqemtuli_open(const uint8_t *sheet, size_t sheet_len, uint8_t *shelf, size_t shelf_len) {
    return ASK(OPEN, IN(sheet), OUT(shelf));
}

uint64_t shqemtuli_write_back(const uint8_t *shelf, size_t shelf_len, uint8_t *sheet, size_t sheet_len) {
    return ASK(WRITE_BACK, IN(shelf), OUT(sheet));
}

uint64_t shqemtuli_sheet_length(const uint8_t *shelf, size_t shelf_len) {
    return ASK(SHEET_LENGTH, IN(shelf));
}

uint64_t shqemtuli_image_size(const uint8_t *shelf, size_t shelf_len) {
    return ASK(IMAGE_SIZE, IN(shelf));
}

uint64_t shqemtuli_unit_size(const uint8_t *shelf, size_t shelf_len) {
    return ASK(UNIT_SIZE, IN(shelf));
}

uint64_t shqemtuli_stripes(const uint8_t *shelf, size_t shelf_len) {
    return ASK(STRIPES, IN(shelf));
}

uint64_t shqemtuli_addresses(const uint8_t *shelf, size_t shelf_len) {
    return ASK(ADDRESSES, IN(shelf));
}

uint64_t shqemtuli_offsets(const uint8_t *shelf, size_t shelf_len) {
    return ASK(OFFSETS, IN(shelf));
}

uint64_t shqemtuli_place(const uint8_t *shelf, size_t shelf_len, uint64_t address, uint8_t *place,
                         size_t place_len) {
    return ASK(PLACE, IN(shelf), OF(address), OUT(place));
}

uint64_t shqemtuli_look_up(const uint8_t *shelf, size_t shelf_len, uint64_t disk, uint64_t offset,
                           uint8_t *found, size_t found_len) {
    return ASK(LOOK_UP, IN(shelf), OF(disk), OF(offset), OUT(found));
}

uint64_t shqemtuli_run(const uint8_t *shelf, size_t shelf_len, uint64_t first, uint8_t *list,
                       size_t list_len) {
    return ASK(RUN, IN(shelf), OF(first), OUT(list));
}

uint64_t shqemtuli_blank(const uint8_t *shelf, size_t shelf_len, uint8_t *image, size_t image_len) {
    return ASK(BLANK, IN(shelf), OUT(image));
}

uint64_t shqemtuli_write(const uint8_t *shelf, size_t shelf_len, uint8_t *image, size_t image_len,
                         uint64_t address, const uint8_t *unit, size_t unit_len, uint8_t *cost,
                         size_t cost_len) {
    return ASK(WRITE, IN(shelf), OUT(image), OF(address), IN(unit), OUT(cost));
}

uint64_t shqemtuli_write_stripe(const uint8_t *shelf, size_t shelf_len, uint8_t *image,
                                size_t image_len, uint64_t stripe, const uint8_t *buffer,
                                size_t buffer_len, uint8_t *cost, size_t cost_len) {
    return ASK(WRITE_STRIPE, IN(shelf), OUT(image), OF(stripe), IN(buffer), OUT(cost));
}

uint64_t shqemtuli_read(const uint8_t *shelf, size_t shelf_len, const uint8_t *image,
                        size_t image_len, uint64_t address, uint8_t *buffer, size_t buffer_len,
                        uint8_t *cost, size_t cost_len) {
    return ASK(READ, IN(shelf), IN(image), OF(address), OUT(buffer), OUT(cost));
}

uint64_t shqemtuli_lose(uint8_t *shelf, size_t shelf_len, uint64_t disk) {
    return ASK(LOSE, OUT(shelf), OF(disk));
}

uint64_t shqemtuli_rebuild(uint8_t *shelf, size_t shelf_len, uint8_t *image, size_t image_len,
                           uint8_t *counts, size_t counts_len) {
    return ASK(REBUILD, OUT(shelf), OUT(image), OUT(counts));
}

uint64_t shqemtuli_scrub(const uint8_t *shelf, size_t shelf_len, const uint8_t *image,
                         size_t image_len, uint8_t *wrong, size_t wrong_len) {
    return ASK(SCRUB, IN(shelf), IN(image), OUT(wrong));
}

uint64_t shqemtuli_show_place(const uint8_t *shelf, size_t shelf_len, const uint8_t *image,
                              size_t image_len, uint64_t disk, uint64_t offset) {
    return ASK(SHOW_PLACE, IN(shelf), IN(image), OF(disk), OF(offset));
}

uint64_t shqemtuli_show_address(const uint8_t *shelf, size_t shelf_len, const uint8_t *image,
                                size_t image_len, uint64_t address, const uint8_t *other,
                                size_t other_len) {
    return ASK(SHOW_ADDRESS, IN(shelf), IN(image), OF(address), IN(other));
}
