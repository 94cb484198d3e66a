/* The reach table of a policy: how many URLs each connection reaches, so that one sees how wide a policy is before it goes out.
 * Link with libreach_table.a.
 *
 * A connection reaches a URL where it fits it (see monitor.h): the connection's readers are within the URL's, and the URL's message endpoint, its
 * address, is among the connection's writers. So the connection reaches the URLs that can be loaded on it, if partners are left aside; a redirect
 * or a script's request asks for more. Counted are the URLs of the policy, the rows that are not empty, each as it stands: a URL by http
 * at a host that is always https is counted by its own labels, though the monitor asks for its partner in its place. Entries are counted as all
 * others: a load asks for no writers of a URL. Cookie labels and the readers of scripts have no part in it.
 *
 *     struct reach_table table = reach_count(policy, MONITOR_POLICY_WORDS);
 *     if (table.number == REACH_ACCEPTED) {
 *         printf("connection 0 reaches %u URLs, and there are %u such pairs in all\n", (unsigned)table.urls[0], (unsigned)table.all);
 *     }
 *
 * Which URLs they are, reach_fits tells one by one; the program `reach` prints the counts, and `zolherima reach` draws the whole table.
 *
 * What is proved. reach_count answers, for every input, what the definition says: each count is the number of URLs for which reach_fits is true,
 * and `all` is the sum of the counts. monitor_feed accepts a load of a URL on a connection, from a state of zeros, with any script table of
 * MONITOR_SCRIPT_BYTES bytes and an output that is long enough, just where reach_fits is true of what is asked for: the URL's partner where it has
 * one, and else the URL itself. And how much a change to a policy can do. Take two policies that are well formed:
 *     one URL row differs     The other rows have the same words, and the connections the same readers and writers; cookie labels, script readers,
 *                             listed hosts and partners may all differ. Then each connection's counts are at most 1 apart, and the totals at most
 *                             REACH_CONNECTIONS.
 *     one connection differs  The rows have the same words, and the other connections the same readers and writers; all else may differ. Then the
 *                             counts of the other connections are the same, and the totals at most REACH_URLS apart.
 * In either direction, and some policies are just as far apart.
 *
 * Nothing is kept between calls and nothing is allocated. The loops have fixed bounds, REACH_CONNECTIONS connections and REACH_URLS URLs, and a call
 * takes less than 1 KiB of stack. What it costs is in docs/PERFORMANCE.md. */
#ifndef REACH_TABLE_H
#define REACH_TABLE_H

#include <stdbool.h>
#include <stddef.h>
#include <stdint.h>

#ifdef __cplusplus
extern "C" {
#endif

enum {
    /* connections are below this */
    REACH_CONNECTIONS = 32,
    /* URLs are below this */
    REACH_URLS = 64
};

/* The number of a table. */
enum reach_number {
    REACH_ACCEPTED = 0,
    /* the policy does not have its length, or is not well formed: just where monitor_feed answers MONITOR_POLICY_BAD, given a long output */
    REACH_POLICY_BAD = 2
};

struct reach_table {
    /* one of enum reach_number; every count is 0 where it is REACH_POLICY_BAD */
    uint32_t number;
    /* for each connection, how many URLs it reaches, 0 to REACH_URLS */
    uint32_t urls[REACH_CONNECTIONS];
    /* their sum */
    uint32_t all;
};

/* Counts, for each connection, the URLs that it reaches. Any contents and any length are allowed: what is no policy gets REACH_POLICY_BAD. The policy
 * is read and not changed. What is asked of the caller is memory: `policy` has `policy_length` words and is aligned for them, it is null only where
 * its length is 0, and nobody writes it during the call. */
struct reach_table reach_count(const uint32_t *policy, size_t policy_length);

/* Whether the table counts this URL for this connection: true just where the policy has its length and is well formed, the connection is below
 * REACH_CONNECTIONS, the URL is below REACH_URLS and its row is not empty, and the connection fits the row as it stands. Any numbers, contents and
 * lengths are allowed. Of the caller the same is asked as above. */
bool reach_fits(const uint32_t *policy, size_t policy_length, uint32_t connection, uint32_t url);

#ifdef __cplusplus
}
#endif

#endif
