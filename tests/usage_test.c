/* Links libusage.a: worked lists, every value of each byte that decides, lists that are cut at each byte, the longest lists and those of a byte
 * more, a null pointer, lists that are made at random and random bytes. Each list is counted between guards and again in memory of just its
 * length, where valgrind sees a read past its end; neither may change. */
#include <inttypes.h>
#include <stdbool.h>
#include <stdio.h>
#include <stdlib.h>
#include <string.h>

#include "random.h"
#include "usage.h"

enum { DOCUMENT = 0x03, COOKIES = 0x04, SCRIPT = 0x0b, PICTURE = 0x43 };
enum { CONNECTIONS = 32, HANDLERS = 16, KEYS = 8, ALL_KEYS = 0xff, BYTE_VALUES = 256, LONGEST_REQUEST = 37 };
/* lists may be too long by so much; a guard has as many bytes */
enum { SPARE = 64, PLACES = 16, GUARD_BYTE = 0xc5 };

/* a list, and what there is to count in it as long as it is wholly requests */
struct list {
    uint8_t bytes[USAGE_LIST_BYTES + SPARE];
    size_t length;
    struct usage_tally counts;
};

static const uint8_t MAPS[] = {DOCUMENT, DOCUMENT | COOKIES, SCRIPT, SCRIPT | COOKIES, PICTURE, PICTURE | COOKIES};
static const struct usage_tally BAD = {.number = USAGE_LIST_BAD};
static uint8_t guarded[PLACES + SPARE + USAGE_LIST_BYTES + SPARE + SPARE];
static struct list list;
static const char *doing = "nothing yet";
static unsigned long calls;

static void check(bool holds, const char *what)
{
    if (!holds) {
        fprintf(stderr, "usage: %s: %s (list %lu)\n", doing, what, calls);
        exit(EXIT_FAILURE);
    }
}

static bool same(const struct usage_tally *a, const struct usage_tally *b)
{
    return memcmp(a, b, sizeof *a) == 0;
}

/* ---- counting */

static bool all_are(const uint8_t *bytes, size_t length, uint8_t value)
{
    for (size_t i = 0; i < length; i++) {
        if (bytes[i] != value) {
            return false;
        }
    }
    return true;
}

/* Where the list begins varies, and with it its alignment. */
static struct usage_tally count_guarded(const uint8_t *bytes, size_t length)
{
    size_t before = SPARE + calls % PLACES;
    uint8_t *lent = guarded + before;
    memset(guarded, GUARD_BYTE, before);
    memcpy(lent, bytes, length);
    memset(lent + length, GUARD_BYTE, SPARE);
    struct usage_tally tally = usage_count(lent, length);
    check(memcmp(lent, bytes, length) == 0, "the list changed");
    check(all_are(guarded, before, GUARD_BYTE), "a byte before the list changed");
    check(all_are(lent + length, SPARE, GUARD_BYTE), "a byte behind the list changed");
    return tally;
}

/* A list of no bytes has no memory at all. */
static struct usage_tally count_bare(const uint8_t *bytes, size_t length)
{
    if (length == 0) {
        return usage_count(NULL, 0);
    }
    uint8_t *lent = malloc(length);
    check(lent != NULL, "no memory for the test");
    memcpy(lent, bytes, length);
    struct usage_tally tally = usage_count(lent, length);
    check(memcmp(lent, bytes, length) == 0, "the list changed, in memory of its length");
    free(lent);
    return tally;
}

static struct usage_tally count(const uint8_t *bytes, size_t length)
{
    calls++;
    struct usage_tally tally = count_guarded(bytes, length);
    struct usage_tally again = count_bare(bytes, length);
    check(same(&tally, &again), "the same list was counted in two ways");
    return tally;
}

static void gives(const uint8_t *bytes, size_t length, const struct usage_tally *want)
{
    struct usage_tally tally = count(bytes, length);
    if (same(&tally, want)) {
        return;
    }
    fprintf(stderr, "usage: number %" PRIu32 ", all %" PRIu32 " %" PRIu32 ", expected number %" PRIu32 ", all %" PRIu32 " %" PRIu32 "\n",
            tally.number, tally.all_records, tally.all_cookies, want->number, want->all_records, want->all_cookies);
    for (int url = 0; url < USAGE_URLS; url++) {
        if (tally.records[url] != want->records[url] || tally.cookies[url] != want->cookies[url]) {
            fprintf(stderr, "usage: URL %d: %" PRIu32 " %" PRIu32 ", expected %" PRIu32 " %" PRIu32 "\n", url, tally.records[url], tally.cookies[url],
                    want->records[url], want->cookies[url]);
        }
    }
    check(false, "the tally is another");
}

/* ---- making lists */

static void clear(void)
{
    list.length = 0;
    memset(&list.counts, 0, sizeof list.counts);
}

static void append(const uint8_t *bytes, size_t length)
{
    check(list.length + length <= sizeof list.bytes, "the test's own list is too long");
    memcpy(list.bytes + list.length, bytes, length);
    list.length += length;
}

static void append_byte(uint8_t byte)
{
    append(&byte, 1);
}

/* The values of cookies look like the beginning of a request. */
static uint32_t append_cookies(uint8_t keys)
{
    static const uint8_t value[] = {DOCUMENT, 1, 2, SCRIPT};
    uint32_t cookies = 0;
    append_byte(keys);
    for (int key = 0; key < KEYS; key++) {
        if ((keys >> key & 1) == 1) {
            append(value, sizeof value);
            cookies++;
        }
    }
    return cookies;
}

static bool has_cookies(uint8_t map)
{
    return (map & COOKIES) != 0;
}

static bool has_handler(uint8_t map)
{
    return (map & SCRIPT) == SCRIPT;
}

/* Keys and handler are written where the map has them. Any map and any field may be given; the counts are for those that are good. */
static void request(uint8_t map, uint8_t url, uint8_t connection, uint8_t keys, uint8_t handler)
{
    uint32_t cookies = 0;
    append((const uint8_t[]){map, url, connection}, 3);
    if (has_cookies(map)) {
        cookies = append_cookies(keys);
    }
    if (has_handler(map)) {
        append_byte(handler);
    }
    if (url < USAGE_URLS) {
        list.counts.records[url]++;
        list.counts.cookies[url] += cookies;
    }
    list.counts.all_records++;
    list.counts.all_cookies += cookies;
}

static void is_counted(void)
{
    gives(list.bytes, list.length, &list.counts);
}

static void is_bad(void)
{
    gives(list.bytes, list.length, &BAD);
}

static void judged(bool good)
{
    gives(list.bytes, list.length, good ? &list.counts : &BAD);
}

/* ---- worked lists */

struct row {
    size_t url;
    uint32_t records, cookies;
};

/* Bytes, and the counts as they are known beforehand. */
static void worked(const char *name, const uint8_t *bytes, size_t length, const struct row *rows, size_t count_of_rows)
{
    struct usage_tally want = {0};
    for (size_t i = 0; i < count_of_rows; i++) {
        want.records[rows[i].url] = rows[i].records;
        want.cookies[rows[i].url] = rows[i].cookies;
        want.all_records += rows[i].records;
        want.all_cookies += rows[i].cookies;
    }
    doing = name;
    gives(bytes, length, &want);
}

/* Alone, and after a request that is good. */
static void bad(const char *name, const uint8_t *bytes, size_t length)
{
    doing = name;
    clear();
    append(bytes, length);
    is_bad();
    clear();
    request(DOCUMENT, 0, 0, 0, 0);
    append(bytes, length);
    is_bad();
}

#define BYTES(...) (const uint8_t[]){__VA_ARGS__}, sizeof((const uint8_t[]){__VA_ARGS__})
#define ROWS(...) (const struct row[]){__VA_ARGS__}, sizeof((const struct row[]){__VA_ARGS__}) / sizeof(struct row)

static void worked_lists(void)
{
    doing = "a null pointer";
    struct usage_tally none = usage_count(NULL, 0);
    check(same(&none, &(struct usage_tally){0}), "the empty list has counts");
    worked("a document request", BYTES(0x03, 5, 31), ROWS({5, 1, 0}));
    worked("a script request", BYTES(0x0b, 63, 0, 15), ROWS({63, 1, 0}));
    worked("a picture request", BYTES(0x43, 7, 3), ROWS({7, 1, 0}));
    worked("a picture request with cookies", BYTES(0x47, 7, 3, 0x81, 0, 0, 0, 1, 0, 0, 0, 2), ROWS({7, 1, 2}));
    worked("a request of each kind", BYTES(0x03, 5, 2, 0x0b, 5, 2, 15, 0x43, 5, 2, 0x47, 3, 2, 0x01, 0, 0, 0, 9), ROWS({3, 1, 1}, {5, 3, 0}));
    worked("one cookie", BYTES(0x07, 0, 0, 0x80, 0, 0, 0, 7), ROWS({0, 1, 1}));
    worked("three cookies", BYTES(0x0f, 1, 2, 0x07, 0, 0, 0, 1, 0, 0, 0, 2, 0, 0, 0, 3, 4), ROWS({1, 1, 3}));
    worked("what document 01's cases f, f and g send", BYTES(0x07, 0, 0, 0x01, 0, 0, 0, 7, 0x07, 0, 0, 0x01, 0, 0, 0, 7, 0x03, 3, 3),
           ROWS({0, 2, 2}, {3, 1, 0}));
    worked("URLs in falling order", BYTES(0x03, 9, 0, 0x0b, 4, 0, 0, 0x07, 9, 1, 0x03, 0, 0, 0, 1, 0, 0, 0, 2), ROWS({4, 1, 0}, {9, 2, 2}));

    bad("a script response", BYTES(0x13, 0, 0, 0, 0, 0, 5));
    bad("a script response with cookies", BYTES(0x17, 0, 0, 0x01, 0, 0, 0, 7, 0, 0, 0, 5));
    bad("a redirect", BYTES(0x23, 0, 0, 1));
    bad("a redirect with cookies", BYTES(0x27, 0, 0, 0x01, 0, 0, 0, 7, 1));
    bad("length bytes", BYTES(3, 0x03, 0, 0));
    bad("a key map of zero", BYTES(0x07, 0, 0, 0));
    bad("a key map of zero and a handler", BYTES(0x0f, 0, 0, 0, 1));
    bad("a key map of zero and a request", BYTES(0x07, 0, 0, 0, 0x03, 0, 0));
    bad("URL 64", BYTES(0x03, 64, 0));
    bad("connection 32", BYTES(0x03, 0, 32));
    bad("handler 16", BYTES(0x0b, 0, 0, 16));
    bad("URL 64 with cookies", BYTES(0x07, 64, 0, 0x01, 0, 0, 0, 7));
    bad("handler 16 after cookies", BYTES(0x0f, 0, 0, 0x01, 0, 0, 0, 7, 16));
    bad("a byte too many", BYTES(0x03, 0, 0, 0));
    bad("a picture request with a handler", BYTES(0x43, 0, 0, 15));
    bad("a picture's map with the script's bit", BYTES(0x4b, 0, 0, 15));
    bad("a key map of zero on a picture", BYTES(0x47, 0, 0, 0));
    bad("a picture of URL 64", BYTES(0x43, 64, 0));
    bad("a map alone", BYTES(0x03));
}

/* ---- every value of each byte that decides */

static bool is_request(uint8_t map)
{
    return memchr(MAPS, map, sizeof MAPS) != NULL;
}

/* A request of any map whatever, with other good ones around it. */
static void between(uint8_t map, uint8_t url, uint8_t connection, uint8_t keys, uint8_t handler, bool good)
{
    clear();
    request(SCRIPT, 1, 1, 0, 1);
    request(map, url, connection, keys, handler);
    request(DOCUMENT | COOKIES, 2, 2, 0x05, 0);
    judged(good);
}

static void each_value(void)
{
    for (unsigned value = 0; value < BYTE_VALUES; value++) {
        uint8_t byte = (uint8_t)value;
        doing = "each map";
        between(byte, 7, 7, 0x03, 7, is_request(byte));
        for (size_t i = 0; i < sizeof MAPS; i++) {
            doing = "each URL";
            between(MAPS[i], byte, 7, 0x81, 7, value < USAGE_URLS);
            doing = "each connection";
            between(MAPS[i], 7, byte, 0x81, 7, value < CONNECTIONS);
            doing = "each key map";
            between(MAPS[i], 7, 7, byte, 7, !has_cookies(MAPS[i]) || value != 0);
            doing = "each handler";
            between(MAPS[i], 7, 7, 0x81, byte, !has_handler(MAPS[i]) || value < HANDLERS);
        }
    }
}

/* ---- lengths */

/* The beginnings of a list that has every kind of request: bad but where a request ends. */
static void each_cut(void)
{
    static const uint8_t keys[] = {0x01, 0x80, 0x55, ALL_KEYS};
    doing = "a list that is cut";
    clear();
    size_t whole = 0;
    struct usage_tally counts = list.counts;
    for (uint8_t i = 0; i < sizeof keys * sizeof MAPS; i++) {
        request(MAPS[i % sizeof MAPS], i, i, keys[i / sizeof MAPS], i % HANDLERS);
        gives(list.bytes, whole, &counts);
        for (size_t end = whole + 1; end < list.length; end++) {
            gives(list.bytes, end, &BAD);
        }
        whole = list.length;
        counts = list.counts;
    }
    is_counted();
}

/* Fills a list to so many bytes with one kind of request, and what is left with those of three and four bytes. */
static void fill(size_t bytes, uint8_t map, uint8_t url)
{
    clear();
    while (list.length + 2 * LONGEST_REQUEST <= bytes) {
        request(map, url, CONNECTIONS - 1, ALL_KEYS, HANDLERS - 1);
    }
    while ((bytes - list.length) % 3 != 0) {
        request(SCRIPT, url, 0, 0, 0);
    }
    while (list.length < bytes) {
        request(DOCUMENT, url, 0, 0, 0);
    }
}

static void longest(void)
{
    for (size_t i = 0; i < sizeof MAPS; i++) {
        for (size_t less = 0; less < 3; less++) {
            doing = "the longest lists";
            fill(USAGE_LIST_BYTES - less, MAPS[i], USAGE_URLS - 1);
            is_counted();
        }
        for (size_t more = 1; more <= SPARE; more++) {
            doing = "lists that are too long";
            fill(USAGE_LIST_BYTES + more, MAPS[i], 0);
            is_bad();
        }
        doing = "the longest list, cut";
        fill(USAGE_LIST_BYTES + 1, MAPS[i], 0);
        list.length--;
        is_bad();
    }
}

/* ---- random lists */

static uint8_t below(uint32_t bound)
{
    return (uint8_t)((next_random() >> 8) % bound);
}

static void random_request(void)
{
    uint8_t keys = (uint8_t)(1 + below(ALL_KEYS));
    request(MAPS[below(sizeof MAPS)], below(USAGE_URLS), below(CONNECTIONS), keys, below(HANDLERS));
}

/* As it was made, without its last byte, and with a byte more. */
static void random_requests(void)
{
    doing = "random requests";
    for (int k = 0; k < 1000; k++) {
        clear();
        for (uint8_t left = (uint8_t)(1 + below(100)); left > 0; left--) {
            random_request();
        }
        is_counted();
        list.length--;
        is_bad();
        list.length++;
        append_byte(below(BYTE_VALUES));
        is_bad();
    }
}

/* What holds of the tally of any bytes. */
static void check_any(const struct usage_tally *tally)
{
    uint32_t records = 0, cookies = 0;
    for (int url = 0; url < USAGE_URLS; url++) {
        records += tally->records[url];
        cookies += tally->cookies[url];
    }
    check(tally->number == USAGE_ACCEPTED || same(tally, &BAD), "another number, or a bad list with counts");
    check(records == tally->all_records && cookies == tally->all_cookies, "the totals are not those of the URLs");
    check(3 * (size_t)records + 4 * (size_t)cookies <= list.length, "there is more than the list has room for");
}

/* Half of the bytes are such as begin a short request, so that some lists are good. */
static void random_bytes(void)
{
    unsigned long good = 0;
    doing = "random bytes";
    for (int k = 0; k < 20000; k++) {
        clear();
        for (uint8_t left = below(32); left > 0; left--) {
            append_byte(below(2) == 0 ? (uint8_t)DOCUMENT : below(BYTE_VALUES));
        }
        struct usage_tally tally = count(list.bytes, list.length);
        check_any(&tally);
        good += tally.number == USAGE_ACCEPTED && tally.all_records > 0;
    }
    check(good > 100, "next to no list was counted");
}

int main(void)
{
    worked_lists();
    each_value();
    each_cut();
    longest();
    random_requests();
    random_bytes();
    printf("usage: worked lists, every value of each byte that decides, every cut, the longest lists and random ones agree: %lu lists\n", calls);
    return 0;
}
