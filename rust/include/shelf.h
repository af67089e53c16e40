/* Parity-declustered disk shelves: the functions of libhost.a for C, on x86-64.
 *
 * The rules are those of document 01. Every function may be called with any bytes and any numbers. Of the caller it asks
 * only that each pointer is not null and goes with its length, also where that is 0, and that no two things lent to one
 * call overlap. No function keeps a pointer, allocates, or holds anything between calls.
 *
 * A call gives 0 where it is accepted and otherwise the lowest number of enum shqemtuli_refusal that applies. Refused, it
 * leaves everything lent as it was, except that a cost, the 64 counts and a count of wrong stripes become zeros.
 *
 * A buffer for an answer (shelf bytes, a place, what stands at it, a list of places, a cost, counts, a count) has exactly
 * the answer's length. With another length the call gives 13 before it looks at anything, and alters nothing at all.
 *
 * Numbers in bytes have 4 bytes each, most significant first. */
#ifndef SHQEMTULI_SHELF_H
#define SHQEMTULI_SHELF_H

#include <stddef.h>
#include <stdint.h>

#ifdef __cplusplus
extern "C" {
#endif

/* The numbers that a caller can get. Given exactly when: */
enum shqemtuli_refusal {
    /* sheet under 6 bytes */
    SHQEMTULI_SHORT_SHEET = 1,
    /* edition is not 1 */
    SHQEMTULI_OTHER_EDITION = 2,
    /* v, k, b, b·k, T or u outside its limit */
    SHQEMTULI_OUTSIDE_LIMITS = 3,
    /* sheet length not exact */
    SHQEMTULI_OTHER_LENGTH = 4,
    /* some disk number is v or more */
    SHQEMTULI_DISK_OUTSIDE = 5,
    /* a disk twice in a tuple */
    SHQEMTULI_DISK_TWICE = 6,
    /* a filling bit is not zero */
    SHQEMTULI_FILLING_SET = 7,
    /* disks not equally often */
    SHQEMTULI_DISKS_UNEVEN = 8,
    /* pairs not equally often */
    SHQEMTULI_PAIRS_UNEVEN = 9,
    /* the shelf value is not one that an accepted opening can give (a lost disk below v apart) */
    SHQEMTULI_NOT_A_SHELF = 10,
    /* image length is not v·T·r·k·U */
    SHQEMTULI_OTHER_IMAGE = 11,
    /* an address not below N (a run's first apart); a stripe not below S; a place whose disk is not below v or whose
     * offset is not below T·r·k; a disk not below v; a run whose first address plus list length is above N */
    SHQEMTULI_OUT_OF_RANGE = 12,
    /* unit or stripe buffer of another length; sheet buffer too short */
    SHQEMTULI_OTHER_BUFFER = 13,
    /* lose, blank or scrub with a disk lost; show place on the lost disk */
    SHQEMTULI_SOME_LOST = 14,
    /* rebuild with no disk lost */
    SHQEMTULI_NONE_LOST = 15
};

/* The shelf bytes, which the caller owns and may keep on stable storage: the numbers v k b T u r lambda; the lost disk
 * plus 1, or 0 where none is lost; from byte 32 on the table of 2,048 disk numbers, a byte each. Other bytes and other
 * lengths are no shelf: 10. */
#define SHQEMTULI_SHELF_BYTES 2080
/* A place: disk, offset, parity disk, parity offset. */
#define SHQEMTULI_PLACE_BYTES 16
/* What stands at a place: stripe, address, and 0 for data or 1 for parity; the address of a parity is 0. */
#define SHQEMTULI_FOUND_BYTES 12
/* A cost: units read, units written. */
#define SHQEMTULI_COST_BYTES 8
/* The counts of a rebuild: units read from each of 64 disks. */
#define SHQEMTULI_COUNTS_BYTES 256
/* The number of wrong stripes. */
#define SHQEMTULI_WRONG_BYTES 4
/* What a refused show gives, and what showing an address gives where the second buffer is to be shown. */
#define SHQEMTULI_SHOWN_NOTHING UINT64_MAX
#define SHQEMTULI_SHOWN_OTHER (UINT64_MAX - 1)

/* The number at this place of a row of numbers. */
static inline uint64_t shqemtuli_number(const uint8_t *row, size_t place) {
    uint64_t number = 0;
    for (size_t i = 0; i < 4; i++) {
        number = number << 8 | row[4 * place + i];
    }
    return number;
}

/* Opens a sheet into shelf bytes: 13 for them, 1 to 9. */
uint64_t shqemtuli_open(const uint8_t *sheet, size_t sheet_len, uint8_t *shelf, size_t shelf_len);

/* Writes the sheet into the first bytes of the buffer: 10, 13. The bytes after it keep their values. The lost disk is
 * not part of a sheet. */
uint64_t shqemtuli_write_back(const uint8_t *shelf, size_t shelf_len, uint8_t *sheet, size_t sheet_len);

/* The bytes of the sheet, of the image (v·T·r·k·U) and of a unit (U), the number of stripes (S), of addresses (N) and of
 * units on each disk (T·r·k); 0 where it is no shelf. */
uint64_t shqemtuli_sheet_length(const uint8_t *shelf, size_t shelf_len);
uint64_t shqemtuli_image_size(const uint8_t *shelf, size_t shelf_len);
uint64_t shqemtuli_unit_size(const uint8_t *shelf, size_t shelf_len);
uint64_t shqemtuli_stripes(const uint8_t *shelf, size_t shelf_len);
uint64_t shqemtuli_addresses(const uint8_t *shelf, size_t shelf_len);
uint64_t shqemtuli_offsets(const uint8_t *shelf, size_t shelf_len);

/* Where an address stands: 13 for the place, 10, 12. */
uint64_t shqemtuli_place(const uint8_t *shelf, size_t shelf_len, uint64_t address, uint8_t *place,
                         size_t place_len);

/* What stands at a place: 13 for what is found, 10, 12. */
uint64_t shqemtuli_look_up(const uint8_t *shelf, size_t shelf_len, uint64_t disk, uint64_t offset,
                           uint8_t *found, size_t found_len);

/* Fills the list with the places of consecutive addresses from the first one on: 13 where its length is no multiple of
 * SHQEMTULI_PLACE_BYTES, 10, 12. */
uint64_t shqemtuli_run(const uint8_t *shelf, size_t shelf_len, uint64_t first, uint8_t *list,
                       size_t list_len);

/* Makes every image byte zero: 10, 11, 14. */
uint64_t shqemtuli_blank(const uint8_t *shelf, size_t shelf_len, uint8_t *image, size_t image_len);

/* Writes the unit of an address, and its parity: 13 for the cost, 10, 11, 12, 13 for the unit. */
uint64_t shqemtuli_write(const uint8_t *shelf, size_t shelf_len, uint8_t *image, size_t image_len,
                         uint64_t address, const uint8_t *unit, size_t unit_len, uint8_t *cost,
                         size_t cost_len);

/* Writes all data units of a stripe, in address order, and its parity: 13 for the cost, 10, 11, 12, 13 for the buffer. */
uint64_t shqemtuli_write_stripe(const uint8_t *shelf, size_t shelf_len, uint8_t *image,
                                size_t image_len, uint64_t stripe, const uint8_t *buffer,
                                size_t buffer_len, uint8_t *cost, size_t cost_len);

/* Reads the unit of an address into the buffer: 13 for the cost, 10, 11, 12, 13 for the buffer. */
uint64_t shqemtuli_read(const uint8_t *shelf, size_t shelf_len, const uint8_t *image,
                        size_t image_len, uint64_t address, uint8_t *buffer, size_t buffer_len,
                        uint8_t *cost, size_t cost_len);

/* Marks a disk as lost, in the shelf bytes: 10, 12, 14. No byte of it is read or written until the rebuild. */
uint64_t shqemtuli_lose(uint8_t *shelf, size_t shelf_len, uint64_t disk);

/* Writes every unit of the lost disk anew, marks none lost in the shelf bytes, and counts: 13 for the counts, 10, 11, 15. */
uint64_t shqemtuli_rebuild(uint8_t *shelf, size_t shelf_len, uint8_t *image, size_t image_len,
                           uint8_t *counts, size_t counts_len);

/* Counts the wrong stripes: 13 for the count, 10, 11, 14. */
uint64_t shqemtuli_scrub(const uint8_t *shelf, size_t shelf_len, const uint8_t *image,
                         size_t image_len, uint8_t *wrong, size_t wrong_len);

/* The byte of the image at which the unit at a place begins; SHQEMTULI_SHOWN_NOTHING where 10, 11, 12 or 14 would
 * apply. */
uint64_t shqemtuli_show_place(const uint8_t *shelf, size_t shelf_len, const uint8_t *image,
                              size_t image_len, uint64_t disk, uint64_t offset);

/* The byte of the image at which the unit of an address begins; SHQEMTULI_SHOWN_OTHER where its disk is lost and so the
 * second buffer, which a read has filled, is to be shown; SHQEMTULI_SHOWN_NOTHING where 10, 11, 12 or 13 would apply.
 * The second buffer is one unit long in any case. */
uint64_t shqemtuli_show_address(const uint8_t *shelf, size_t shelf_len, const uint8_t *image,
                                size_t image_len, uint64_t address, const uint8_t *other,
                                size_t other_len);

#ifdef __cplusplus
}
#endif

#endif
