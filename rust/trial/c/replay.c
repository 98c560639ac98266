/*
 * Makes the calls of a file again, which record.c wrote, and holds each to what stands there: its answer and every byte that
 * it was lent, with guards on both sides. replay FILE says the first difference and exits with 1, or says how many calls
 * there were. replay FILE N takes one expected bit of call N (from 0) for the other, which must be found.
 * It needs nothing but the library and calls.inc, which is made from include/bellnewt.h by tools/emulated.
 */
#include "part.h"
#include <bellnewt.h>
#include <stdio.h>
#include <stdlib.h>
#include <string.h>

enum { GUARD = 64, FILL = 0xA5 };

static FILE *file;
static long calls;
static char name[256];

static void broken(const char *why) {
    fprintf(stderr, "call %ld, %s: %s\n", calls, name, why);
    exit(2);
}

static void take(void *at, size_t bytes) {
    if (fread(at, 1, bytes, file) != bytes) {
        broken("the file ends inside of it");
    }
}

static uint64_t get(int bytes) {
    unsigned char read[8];
    uint64_t number = 0;
    take(read, (size_t)bytes);
    while (bytes > 0) {
        number = number << 8 | read[--bytes];
    }
    return number;
}

/* How many numbers and parts each function takes (`shapes`), and the call itself (`answer`). */
struct shape {
    const char *name;
    int numbers;
    int parts;
};
#include "calls.inc"

/* Which of them were made. */
static int functions, made[sizeof shapes / sizeof *shapes];

static const struct shape *shape_of(void) {
    for (const struct shape *shape = shapes; shape->name; shape++) {
        if (!strcmp(shape->name, name)) {
            functions += !made[shape - shapes]++;
            return shape;
        }
    }
    broken("no such call");
    return NULL;
}

/* A part that is lent: all of its memory, guards included, and what is due there. */
struct lent {
    unsigned char *memory;
    unsigned char *due;
    size_t size;
    size_t start;
};

/* Lends memory between guards, at another alignment each time. */
static struct lent lend(struct part *part) {
    struct lent lent;
    part->width = get(1);
    part->count = get(4);
    lent.start = GUARD + (size_t)(calls % 8) * part->width;
    lent.size = lent.start + part->count * part->width + GUARD;
    lent.memory = malloc(lent.size);
    lent.due = malloc(lent.size);
    if (!lent.memory || !lent.due) {
        broken("no memory");
    }
    memset(lent.memory, FILL, lent.size);
    part->at = lent.memory + lent.start;
    take(part->at, part->count * part->width);
    memcpy(lent.due, lent.memory, lent.size);
    return lent;
}

/* Says where a part differs first from what is due, counted from its start. Gives its memory back. */
static int differs(int k, struct lent lent) {
    size_t at = 0;
    while (at < lent.size && lent.memory[at] == lent.due[at]) {
        at++;
    }
    if (at < lent.size) {
        printf("call %ld, %s, part %d: byte %ld is %d, due %d\n", calls, name, k, (long)at - (long)lent.start,
               lent.memory[at], lent.due[at]);
    }
    free(lent.memory);
    free(lent.due);
    return at < lent.size;
}

/* Makes the next call of the file again. Answers 1 if it differs. */
static int again(int wrong) {
    const struct shape *shape = shape_of();
    uint64_t numbers[MOST_NUMBERS] = {0};
    struct part parts[MOST_PARTS] = {{0, 0, 0}};
    struct lent lent[MOST_PARTS];
    int found = 0, last = shape->parts - 1;
    for (int k = 0; k < shape->numbers; k++) {
        numbers[k] = get(8);
    }
    for (int k = 0; k < shape->parts; k++) {
        lent[k] = lend(&parts[k]);
    }
    for (int k = 0; k < shape->parts; k++) {
        size_t first = get(4), bytes = get(4);
        take(lent[k].due + lent[k].start + first, bytes);
    }
    uint32_t due = (uint32_t)get(4);
    if (wrong && last >= 0) {
        lent[last].due[lent[last].size - GUARD - 1] ^= 1;
    } else {
        due ^= (uint32_t)wrong;
    }
    uint32_t said = answer(parts, numbers);
    if (said != due) {
        printf("call %ld, %s: answers %d at bit %u, due %d at bit %u\n", calls, name, bellnewt_code(said),
               (unsigned)bellnewt_bit(said), bellnewt_code(due), (unsigned)bellnewt_bit(due));
        found = 1;
    }
    for (int k = 0; k < shape->parts; k++) {
        found |= differs(k, lent[k]);
    }
    return found;
}

int main(int count, char **words) {
    long wrong = count > 2 ? atol(words[2]) : -1;
    file = count > 1 ? fopen(words[1], "rb") : NULL;
    if (!file) {
        fprintf(stderr, "replay FILE [N]\n");
        return 2;
    }
    for (int size = getc(file); size != EOF; size = getc(file), calls++) {
        take(name, (size_t)size);
        name[size] = 0;
        if (again(calls == wrong)) {
            return 1;
        }
    }
    printf("%ld calls of %d functions, none differs\n", calls, functions);
    return 0;
}
