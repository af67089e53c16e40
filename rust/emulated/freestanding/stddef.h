/* What shelf.h needs of it, for a compiler that comes with no headers. x86-64 alone. */
typedef unsigned long size_t;
