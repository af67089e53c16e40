/* Opens a sheet, writes two units, loses a disk, reads from what is left, and rebuilds the disk: the run that document 01
 * gives the answers of. The tests of rust/ compile it and hold what it prints against them. By hand:
 *
 *     cc -I rust/include rust/examples/shelf.c crates/host/out/libhost.a -o shelf && ./shelf
 */
#include "shelf.h"

#include <inttypes.h>
#include <stdio.h>
#include <string.h>

/* Four disks, three units in a stripe, units of one byte. */
static const uint8_t sheet[] = {0x10, 0x83, 0x00, 0x40, 0x00, 0x10, 0x00, 0x10,
                                0x80, 0x04, 0x30, 0x02, 0x0C, 0x10, 0x83};

static uint8_t shelf[SHQEMTULI_SHELF_BYTES];
static uint8_t image[36];
static uint8_t cost[SHQEMTULI_COST_BYTES];

static void write_unit(uint64_t address, uint8_t unit) {
    uint64_t number = shqemtuli_write(shelf, sizeof shelf, image, sizeof image, address, &unit, 1,
                                      cost, sizeof cost);
    printf("write %02X at %" PRIu64 ": number %" PRIu64 ", %" PRIu64 " read, %" PRIu64 " written\n",
           unit, address, number, shqemtuli_number(cost, 0), shqemtuli_number(cost, 1));
}

static void read_unit(uint64_t address) {
    uint8_t unit = 0;
    uint64_t number = shqemtuli_read(shelf, sizeof shelf, image, sizeof image, address, &unit, 1,
                                     cost, sizeof cost);
    printf("read at %" PRIu64 ": number %" PRIu64 ", %02X, %" PRIu64 " read\n", address, number,
           unit, shqemtuli_number(cost, 0));
}

int main(void) {
    printf("open: number %" PRIu64 "\n", shqemtuli_open(sheet, sizeof sheet, shelf, sizeof shelf));
    printf("image of %" PRIu64 " bytes, %" PRIu64 " addresses\n",
           shqemtuli_image_size(shelf, sizeof shelf), shqemtuli_addresses(shelf, sizeof shelf));

    shqemtuli_blank(shelf, sizeof shelf, image, sizeof image);
    write_unit(0, 0x5A);
    write_unit(1, 0x0F);
    uint64_t parity = shqemtuli_show_place(shelf, sizeof shelf, image, sizeof image, 2, 0);
    printf("parity at byte %" PRIu64 ": %02X\n", parity, image[parity]);

    printf("lose disk 0: number %" PRIu64 "\n", shqemtuli_lose(shelf, sizeof shelf, 0));
    memset(image, 0xEE, 9);
    read_unit(0);
    write_unit(0, 0xFF);
    printf("parity: %02X\n", image[parity]);

    uint8_t counts[SHQEMTULI_COUNTS_BYTES];
    uint64_t number =
        shqemtuli_rebuild(shelf, sizeof shelf, image, sizeof image, counts, sizeof counts);
    printf("rebuild: number %" PRIu64 ", units read:", number);
    for (size_t disk = 0; disk < 5; disk++) {
        printf(" %" PRIu64, shqemtuli_number(counts, disk));
    }
    printf("\n0:0 holds %02X\n", image[0]);

    uint8_t wrong[SHQEMTULI_WRONG_BYTES];
    number = shqemtuli_scrub(shelf, sizeof shelf, image, sizeof image, wrong, sizeof wrong);
    printf("scrub: number %" PRIu64 ", %" PRIu64 " wrong\n", number, shqemtuli_number(wrong, 0));
    return 0;
}
