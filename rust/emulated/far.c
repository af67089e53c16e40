/* Makes the calls that come on standard input, with the proved library, and writes the answers to standard output.
 *
 * Each part lent stands between pages that may not be touched, once flush with the page before it and once with the page
 * after it, so that a byte read or written outside ends the program. What is lent only to be read must be unchanged
 * after the call. It is compiled with no headers but the project's own, so the C library's functions are declared here. */
#include "shelf.h"
#include "wire.h"

long read(int file, void *to, size_t length);
long write(int file, const void *from, size_t length);
void *mmap(void *at, size_t length, int protection, int flags, int file, long offset);
int mprotect(void *at, size_t length, int protection);
void *memcpy(void *to, const void *from, size_t length);
int memcmp(const void *one, const void *other, size_t length);
void _exit(int status);

/* As Linux on x86-64 has them. */
enum { NO_ACCESS = 0, READ_AND_WRITE = 3, PRIVATE_UNBACKED = 0x4022 };

enum { PAGE = 4096 };

/* Room for one part; address space alone, until it is touched. */
#define ROOM (1UL << 28)

struct part {
    uint64_t kind;
    uint64_t number; /* or the length */
    uint8_t *bytes;
};

static uint8_t *rooms[MOST_PARTS];
static uint8_t *copies[MOST_PARTS];
static struct part parts[MOST_PARTS];

static void end(int status, const char *why, size_t length) {
    write(2, why, length);
    _exit(status);
}

#define END(why) end(3, "far: " why "\n", sizeof("far: " why "\n") - 1)

static void take(void *bytes, size_t length) {
    uint8_t *to = bytes;
    while (length > 0) {
        long taken = read(0, to, length);
        if (taken <= 0) {
            _exit(0);
        }
        to += taken;
        length -= (size_t)taken;
    }
}

static void give(const void *bytes, size_t length) {
    const uint8_t *from = bytes;
    while (length > 0) {
        long given = write(1, from, length);
        if (given <= 0) {
            _exit(0);
        }
        from += given;
        length -= (size_t)given;
    }
}

/* A room with a page before and after it that may not be touched. */
static uint8_t *fenced(void) {
    uint8_t *all = mmap(0, ROOM + 2 * PAGE, READ_AND_WRITE, PRIVATE_UNBACKED, -1, 0);
    if (all == (uint8_t *)-1 || mprotect(all, PAGE, NO_ACCESS) != 0 ||
        mprotect(all + PAGE + ROOM, PAGE, NO_ACCESS) != 0) {
        END("no memory");
    }
    return all + PAGE;
}

/* Takes a part in, at the start or at the end of its room. */
static void take_part(uint64_t i, int at_end) {
    uint64_t row[2];
    take(row, sizeof row);
    struct part *part = &parts[i];
    part->kind = row[0];
    part->number = row[1];
    if (part->kind == NUMBER) {
        return;
    }
    if (part->number > ROOM) {
        END("a part is too long");
    }
    part->bytes = at_end ? rooms[i] + ROOM - part->number : rooms[i];
    take(part->bytes, part->number);
    if (part->kind == LENT) {
        memcpy(copies[i], part->bytes, part->number);
    }
}

#define P(i) parts[i].bytes, parts[i].number
#define N(i) parts[i].number

static uint64_t called(uint64_t function) {
    switch (function) {
    case OPEN: return shqemtuli_open(P(0), P(1));
    case WRITE_BACK: return shqemtuli_write_back(P(0), P(1));
    case SHEET_LENGTH: return shqemtuli_sheet_length(P(0));
    case IMAGE_SIZE: return shqemtuli_image_size(P(0));
    case UNIT_SIZE: return shqemtuli_unit_size(P(0));
    case STRIPES: return shqemtuli_stripes(P(0));
    case ADDRESSES: return shqemtuli_addresses(P(0));
    case OFFSETS: return shqemtuli_offsets(P(0));
    case PLACE: return shqemtuli_place(P(0), N(1), P(2));
    case LOOK_UP: return shqemtuli_look_up(P(0), N(1), N(2), P(3));
    case RUN: return shqemtuli_run(P(0), N(1), P(2));
    case BLANK: return shqemtuli_blank(P(0), P(1));
    case WRITE: return shqemtuli_write(P(0), P(1), N(2), P(3), P(4));
    case WRITE_STRIPE: return shqemtuli_write_stripe(P(0), P(1), N(2), P(3), P(4));
    case READ: return shqemtuli_read(P(0), P(1), N(2), P(3), P(4));
    case LOSE: return shqemtuli_lose(P(0), N(1));
    case REBUILD: return shqemtuli_rebuild(P(0), P(1), P(2));
    case SCRUB: return shqemtuli_scrub(P(0), P(1), P(2));
    case SHOW_PLACE: return shqemtuli_show_place(P(0), P(1), N(2), N(3));
    case SHOW_ADDRESS: return shqemtuli_show_address(P(0), P(1), N(2), P(3));
    }
    END("no such function");
    return 0;
}

int main(void) {
    for (int i = 0; i < MOST_PARTS; i++) {
        rooms[i] = fenced();
        copies[i] = fenced();
    }
    for (int at_end = 0;; at_end = !at_end) {
        uint64_t head[2];
        take(head, sizeof head);
        if (head[1] > MOST_PARTS) {
            END("too many parts");
        }
        for (uint64_t i = 0; i < head[1]; i++) {
            take_part(i, at_end);
        }
        uint64_t answer = called(head[0]);
        give(&answer, sizeof answer);
        for (uint64_t i = 0; i < head[1]; i++) {
            struct part *part = &parts[i];
            if (part->kind == LENT && memcmp(part->bytes, copies[i], part->number) != 0) {
                END("what was lent to be read was changed");
            }
            if (part->kind == LENT_TO_CHANGE) {
                give(part->bytes, part->number);
            }
        }
    }
}
