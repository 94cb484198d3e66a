/* The policy that the C tests make and lend: worked ones, random ones, and what the monitor says of it. */
#ifndef POLICIES_H
#define POLICIES_H

#include <stdbool.h>
#include <stdint.h>
#include <string.h>

#include "monitor.h"
#include "random.h"

enum { URLS = 64, HOSTS = 16, CONNECTIONS = 32 };
/* in a policy, the connections, the partners of the URLs and before these the word of https hosts */
enum { CONNECTIONS_AT = 448, PARTNERS = MONITOR_POLICY_WORDS - URLS, HTTPS_HOSTS = PARTNERS - 1, NO_PARTNER = 255 };
/* the most words that are lent, with room for lengths that are too long */
enum { MOST_WORDS = 2 * MONITOR_POLICY_WORDS };

static uint32_t policy[MOST_WORDS];

static const uint32_t *url_words(uint32_t url)
{
    return policy + 3 * url;
}

static uint32_t *connection_words(uint32_t connection)
{
    return policy + CONNECTIONS_AT + 3 * connection;
}

static bool is_url(uint32_t url)
{
    return url < URLS && url_words(url)[0] < 2 * MONITOR_ENTRY;
}

/* ---- what the monitor says */

static struct monitor_answer feed(uint32_t *state, const uint8_t *record, size_t size)
{
    static uint8_t scripts[MONITOR_SCRIPT_BYTES], out[MONITOR_OUT_BYTES];
    return monitor_feed(policy, MONITOR_POLICY_WORDS, scripts, sizeof scripts, state, MONITOR_STATE_WORDS, record, size, out, sizeof out);
}

static bool is_well_formed(void)
{
    uint32_t state[MONITOR_STATE_WORDS] = {0};
    return feed(state, NULL, 0).number != MONITOR_POLICY_BAD;
}

/* ---- making one */

/* No URL, no host that is listed, and connections that nobody reads or writes, on which nothing can be loaded. */
static void empty_policy(void)
{
    memset(policy, 0, MONITOR_POLICY_WORDS * sizeof *policy);
    for (size_t row = 0; row < URLS; row++) {
        policy[3 * row] = 255;
        policy[PARTNERS + row] = NO_PARTNER;
    }
}

static void set_url(size_t url, uint32_t word, uint32_t readers, uint32_t writers)
{
    memcpy(policy + 3 * url, (const uint32_t[]){word, readers, writers}, 3 * sizeof *policy);
}

/* Its scripts have no readers, so that nothing depends on them. */
static void set_connection(uint32_t connection, uint32_t readers, uint32_t writers)
{
    memcpy(connection_words(connection), (const uint32_t[]){readers, 0, writers}, 3 * sizeof *policy);
}

static void list_host(uint32_t host, size_t http, uint32_t https)
{
    policy[HTTPS_HOSTS] |= UINT32_C(1) << host;
    policy[PARTNERS + http] = https;
}

/* Document 01's policy P. */
static void small_post(void)
{
    empty_policy();
    set_url(0, 16, 0x00010001, 0x00010000);
    set_url(1, 1, UINT32_MAX, UINT32_MAX);
    set_url(2, 17, UINT32_MAX, 0x00030000);
    set_url(3, 0, 0x00010001, 0x00010001);
    set_connection(0, 0x00010001, 0x00010000);
    set_connection(1, UINT32_MAX, UINT32_MAX);
    set_connection(2, 0x00010000, 0x00010000);
    set_connection(3, 0x00010001, 0x00010001);
}

/* Calls with policy P, host 0 always https, and one bit of one word changed, each in turn. Gives how many of these are not well formed. */
static unsigned long with_each_bit(void (*called)(void))
{
    unsigned long bad = 0;
    small_post();
    list_host(0, 3, 0);
    for (size_t word = 0; word < MONITOR_POLICY_WORDS; word++) {
        for (unsigned bit = 0; bit < 32; bit += word < 12 || (word >= CONNECTIONS_AT && word < CONNECTIONS_AT + 12) ? 1 : 5) {
            policy[word] ^= UINT32_C(1) << bit;
            called();
            bad += !is_well_formed();
            policy[word] ^= UINT32_C(1) << bit;
        }
    }
    return bad;
}

/* ---- making a random one */

static uint32_t below(uint32_t bound)
{
    return (next_random() >> 8) % bound;
}

/* Nearly everyone, or any set. */
static uint32_t large_set(void)
{
    const uint32_t set = below(4) == 0 ? next_random() | next_random() | next_random() : UINT32_MAX;
    return below(3) == 0 ? set & ~(UINT32_C(1) << below(32)) : set;
}

/* Lists hosts whose http rows can all have a partner. */
static void list_hosts(uint32_t hosts)
{
    uint32_t https[HOSTS] = {0};
    for (uint32_t row = 0; row < URLS; row++) {
        const uint32_t word = url_words(row)[0];
        if (word < 2 * MONITOR_ENTRY && word % MONITOR_ENTRY >= HOSTS) {
            https[word % HOSTS] = row + 1;
        }
    }
    for (uint32_t row = 0; row < URLS; row++) {
        const uint32_t word = url_words(row)[0], host = word % HOSTS;
        const bool is_http = word < 2 * MONITOR_ENTRY && word % MONITOR_ENTRY < HOSTS;
        if (is_http && (hosts >> host & 1u) == 1 && https[host] != 0) {
            list_host(host, row, https[host] - 1);
        }
    }
}

/* Readers of URLs are many and those of connections few, and writers are many: so much can be loaded. */
static void random_policy(void)
{
    empty_policy();
    for (uint32_t row = 0; row < URLS; row++) {
        const uint32_t word = below(2 * MONITOR_ENTRY);
        if (below(8) != 0) {
            set_url(row, word, large_set() | UINT32_C(1) << word % HOSTS, large_set());
        }
    }
    const uint32_t first = below(3) == 0 ? CONNECTIONS - 1 : below(4) == 0 ? 0 : below(CONNECTIONS);
    for (uint32_t connection = first; connection < CONNECTIONS; connection++) {
        set_connection(connection, below(4) == 0 ? large_set() : large_set() & 0xffff, large_set());
    }
    if (below(2) == 0) {
        list_hosts(next_random() >> 8);
    }
    if (below(16) == 0) {
        policy[below(MONITOR_POLICY_WORDS)] ^= UINT32_C(1) << below(32);
    }
}

#endif
