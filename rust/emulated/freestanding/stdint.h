/* What shelf.h needs of it, for a compiler that comes with no headers. x86-64 alone. */
typedef unsigned char uint8_t;
typedef unsigned long uint64_t;
#define UINT64_MAX 0xffffffffffffffffUL
