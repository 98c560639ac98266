/*
 * Writes down every call of the library that a program makes, with all that it is lent and what it leaves: loaded before the
 * library (LD_PRELOAD), it stands in for each call and hands it on. The file is the one that BELLNEWT_CALLS names; replay.c
 * reads it. calls.inc, the calls themselves, is made from include/bellnewt.h by tools/emulated.
 *
 * A call in the file, least byte first: the size of its name, its name; 8 bytes for each number, in order; for each part
 * that it is lent the width of an entry, how many entries (4 bytes) and the entries; then for each part the stretch that
 * changed: where it begins and how many bytes it has (4 each), and those; last the answer (4). One call is made at a time.
 */
#define _GNU_SOURCE
#include "part.h"
#include <bellnewt.h>
#include <dlfcn.h>
#include <pthread.h>
#include <stdio.h>
#include <stdlib.h>
#include <string.h>

static pthread_mutex_t one = PTHREAD_MUTEX_INITIALIZER;
static FILE *file;
static unsigned char *before[MOST_PARTS];

static void put(uint64_t number, int bytes) {
    for (; bytes > 0; bytes--, number >>= 8) {
        putc((int)(number & 0xFF), file);
    }
}

static void *callee(const char *name) {
    void *found = dlsym(RTLD_NEXT, name);
    if (!found) {
        fprintf(stderr, "%s: no library has it\n", name);
        exit(2);
    }
    return found;
}

static void begin(const char *name, const uint64_t *numbers, int many, const struct part *parts, int lent) {
    pthread_mutex_lock(&one);
    if (!file && !(file = fopen(getenv("BELLNEWT_CALLS"), "wb"))) {
        perror("BELLNEWT_CALLS");
        exit(2);
    }
    put(strlen(name), 1);
    fputs(name, file);
    for (int k = 0; k < many; k++) {
        put(numbers[k], 8);
    }
    for (int k = 0; k < lent; k++) {
        size_t bytes = parts[k].count * parts[k].width;
        put(parts[k].width, 1);
        put(parts[k].count, 4);
        fwrite(parts[k].at, 1, bytes, file);
        before[k] = realloc(before[k], bytes + 1);
        memcpy(before[k], parts[k].at, bytes);
    }
}

static uint32_t end(const struct part *parts, int lent, uint32_t answer) {
    for (int k = 0; k < lent; k++) {
        const unsigned char *now = parts[k].at;
        size_t first = 0, past = parts[k].count * parts[k].width;
        while (first < past && now[first] == before[k][first]) {
            first++;
        }
        while (first < past && now[past - 1] == before[k][past - 1]) {
            past--;
        }
        put(first, 4);
        put(past - first, 4);
        fwrite(now + first, 1, past - first, file);
    }
    put(answer, 4);
    pthread_mutex_unlock(&one);
    return answer;
}

#include "calls.inc"
