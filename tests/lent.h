/* What the C tests lend to a library, so that a write, or a read past an end, is seen: between guards that must stay as they are; in memory of just
 * its length, where valgrind looks; and at the end of pages that cannot be written and have nothing behind them. */
#ifndef LENT_H
#define LENT_H

#include <stdbool.h>
#include <stdint.h>
#include <stdio.h>
#include <stdlib.h>
#include <string.h>
#include <sys/mman.h>
#include <unistd.h>

/* the most bytes that are lent, a multiple of a page */
enum { MOST_BYTES = 64 * 1024 };
/* a guard has so many bytes, and what is read begins at so many places in turn */
enum { SPARE = 64, PLACES = 16, GUARD_BYTE = 0xc5 };

/* some bytes, and those of some words */
struct span {
    const void *at;
    size_t size;
};

/* where a span is laid to be read */
struct guarded {
    uint32_t room[(SPARE + MOST_BYTES + SPARE) / 4 + PLACES];
    uint8_t *lent;
    size_t size;
};

/* the same memory twice: once to be written, and once to be lent, which ends where nothing can be read */
struct pages {
    uint8_t *written;
    const uint8_t *lent;
};

/* how many calls the test has made */
static unsigned long calls;

/* the test's own: ends it where something does not hold */
static void check(bool holds, const char *what);

static bool all_are(const uint8_t *bytes, size_t size, uint8_t value)
{
    for (size_t i = 0; i < size; i++) {
        if (bytes[i] != value) {
            return false;
        }
    }
    return true;
}

static bool equal(const void *bytes, struct span from)
{
    return from.size == 0 || memcmp(bytes, from.at, from.size) == 0;
}

static void copy(void *to, struct span from)
{
    if (from.size > 0) {
        memcpy(to, from.at, from.size);
    }
}

/* Where it begins varies, by so many bytes from call to call: those of an element. */
static void lay(struct guarded *in, struct span from, size_t element)
{
    uint8_t *const room = (uint8_t *)in->room;
    const size_t before = SPARE + calls % PLACES * element;
    check(from.size <= MOST_BYTES, "what the test lends is too long");
    in->lent = room + before;
    in->size = from.size;
    memset(room, GUARD_BYTE, before);
    copy(in->lent, from);
    memset(in->lent + from.size, GUARD_BYTE, SPARE);
}

static void check_kept(const struct guarded *in, struct span from)
{
    const uint8_t *const room = (const uint8_t *)in->room;
    check(equal(in->lent, from), "what was lent changed");
    check(all_are(room, (size_t)(in->lent - room), GUARD_BYTE), "a byte before what was lent changed");
    check(all_are(in->lent + in->size, SPARE, GUARD_BYTE), "a byte behind what was lent changed");
}

/* No bytes have no memory at all. */
static void *bare_copy(struct span from)
{
    if (from.size == 0) {
        return NULL;
    }
    void *const bare = malloc(from.size);
    check(bare != NULL, "no memory for the test");
    copy(bare, from);
    return bare;
}

static struct pages map_pages(void)
{
    const size_t page = (size_t)sysconf(_SC_PAGESIZE);
    FILE *const file = tmpfile();
    check(MOST_BYTES % page == 0 && file != NULL && ftruncate(fileno(file), MOST_BYTES) == 0, "no file for the test");
    void *const written = mmap(NULL, MOST_BYTES, PROT_READ | PROT_WRITE, MAP_SHARED, fileno(file), 0);
    void *const lent = mmap(NULL, MOST_BYTES + page, PROT_READ, MAP_SHARED, fileno(file), 0);
    check(written != MAP_FAILED && lent != MAP_FAILED, "no pages for the test");
    check(mprotect((uint8_t *)lent + MOST_BYTES, page, PROT_NONE) == 0, "no page without access for the test");
    fclose(file);
    return (struct pages){.written = written, .lent = lent};
}

/* Where it is lent at the end of the pages: a write, or a read past the end, ends the test by a signal. */
static const void *at_the_end(const struct pages *in, struct span from)
{
    copy(in->written + MOST_BYTES - from.size, from);
    return in->lent + MOST_BYTES - from.size;
}

#endif
