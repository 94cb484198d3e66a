/* A tally of requests: how many request records a list has for each URL, and how many cookies they carry.
 * Link with libusage.a.
 *
 * A list is request records one right after another, without length bytes: for instance what monitor_feed wrote in a week, joined. What a
 * request record is, monitor.h describes under Records. So, in hexadecimal, 03 05 00 07 02 00 05 00 00 00 07 00 00 00 09 is a document
 * request to URL 5 on connection 0 without cookies, and one to URL 2 that carries two. Requests of every kind are counted alike.
 *
 * Nothing is kept between calls and nothing is allocated; a call takes less than 2 KiB of stack. What it costs is in docs/PERFORMANCE.md. */
#ifndef USAGE_H
#define USAGE_H

#include <stddef.h>
#include <stdint.h>

#ifdef __cplusplus
extern "C" {
#endif

enum {
    /* the most bytes that a list may have */
    USAGE_LIST_BYTES = 65536,
    /* URLs are below this */
    USAGE_URLS = 64
};

/* The number of a tally. */
enum usage_number {
    USAGE_ACCEPTED = 0,
    /* the list has more than USAGE_LIST_BYTES bytes; or it is not wholly request records: a map byte is no request's, a key map is 0, or the last
     * record is cut; or a record has a URL above 63, a connection above 31 or a handler above 15 */
    USAGE_LIST_BAD = 13
};

struct usage_tally {
    /* one of enum usage_number; every count is 0 where it is USAGE_LIST_BAD */
    uint32_t number;
    /* for each URL, how many records it has */
    uint32_t records[USAGE_URLS];
    /* for each URL, how many cookies its records carry, each for itself: a key map of 07 stands for three */
    uint32_t cookies[USAGE_URLS];
    /* how many records and how many cookies the whole list has */
    uint32_t all_records;
    uint32_t all_cookies;
};

/* Counts the requests of a list, which is read and not changed. Any contents and any length are allowed: what is no list of requests gets
 * USAGE_LIST_BAD. The empty list is one, and has every count 0. What is asked of the caller is memory: `requests` has `requests_length` bytes,
 * and is null only where that is 0; and nobody writes them during the call. */
struct usage_tally usage_count(const uint8_t *requests, size_t requests_length);

#ifdef __cplusplus
}
#endif

#endif
