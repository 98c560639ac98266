/* A part of memory that a call is lent: how many entries, of so many bytes each. */
#include <stddef.h>
#include <stdint.h>

struct part {
    void *at;
    size_t count;
    size_t width;
};

enum { MOST_PARTS = 8, MOST_NUMBERS = 24 };
