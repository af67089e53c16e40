/* What passes between the two sides. A call is the function, the number of parts, and then each part: its kind, its
 * number or its length in bytes, and its bytes if it has any. The answer is the number given and then the bytes of each
 * part that was lent to be changed. All numbers have 8 bytes, least significant first, as both machines have them. */
#ifndef SHQEMTULI_WIRE_H
#define SHQEMTULI_WIRE_H

enum function {
    OPEN,
    WRITE_BACK,
    SHEET_LENGTH,
    IMAGE_SIZE,
    UNIT_SIZE,
    STRIPES,
    ADDRESSES,
    OFFSETS,
    PLACE,
    LOOK_UP,
    RUN,
    BLANK,
    WRITE,
    WRITE_STRIPE,
    READ,
    LOSE,
    REBUILD,
    SCRUB,
    SHOW_PLACE,
    SHOW_ADDRESS
};

enum kind { NUMBER, LENT, LENT_TO_CHANGE };

/* No call has more parts. */
enum { MOST_PARTS = 5 };

#endif
