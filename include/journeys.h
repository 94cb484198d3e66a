/* Journeys: the lowest connection of a policy on which a list of URLs can be visited, each reached from the one before; and where and why a
 * connection stops on the way. Link with libjourneys.a.
 *
 * A journey is one to JOURNEY_MOST_URLS URLs, each a byte, its number in the policy (see monitor.h): the first is loaded, and each further one is
 * reached by a redirect from the one before, all on the same connection. A payment that goes canteen, bank, canteen is three URLs: a load and two
 * redirects. A URL may come several times, also right after itself.
 *
 * A connection carries a journey where labels forbid none of these records: neither MONITOR_READERS_FORBID nor MONITOR_WRITERS_FORBID, 8 and 9 in
 * monitor.h, applies to a load of the first URL on it, or to a redirect to any further one. These ask nothing about the URL that a redirect leaves.
 * As in the monitor, a URL that has a partner is replaced by it before anything is asked, so that the partner's labels decide, and whether it is an
 * entry; and a redirect to an entry may come from writers that the entry does not have. Cookies, scripts and what is pending on a connection have
 * no part in it.
 *
 * journey_find tells the lowest connection that carries the journey. That none of the 32 does is an answer too, and no refusal:
 * JOURNEY_NO_CONNECTION. journey_stop tells of one connection the first URL of the journey that it does not take, and why; the program `journey`
 * prints this of each.
 *
 *     static const uint8_t payment[] = {CANTEEN, BANK, CANTEEN};
 *     struct journey_found found = journey_find(policy, MONITOR_POLICY_WORDS, payment, sizeof payment);
 *     if (found.number == JOURNEY_ACCEPTED && found.connection != JOURNEY_NO_CONNECTION) {
 *         start_payment(found.connection);
 *     }
 *     struct journey_stop stop = journey_stop(policy, MONITOR_POLICY_WORDS, payment, sizeof payment, OWN_CONNECTION);
 *     if (stop.number == JOURNEY_ACCEPTED && stop.place < sizeof payment) {
 *         show("endpoint %u is missing among the %s of %s %u", stop.missing, stop.refusal == MONITOR_READERS_FORBID ? "readers" : "writers",
 *              stop.of_url ? "URL" : "connection", stop.of_url ? stop.url : OWN_CONNECTION);
 *     }
 *
 * What is proved. The connection that is told carries the journey, and no lower one does; JOURNEY_NO_CONNECTION is told just where each of the 32
 * fails on some URL of the journey. And the monitor takes the journey on the connection that is told: from a state of zeros, under the same policy
 * and any script table of MONITOR_SCRIPT_BYTES bytes, with outputs that are long enough, monitor_feed accepts the load and then each redirect without
 * cookies. A redirect's record names the URL that the connection then holds, which is the one before, or its partner where it has one. On a
 * connection that stops it accepts what is before the stop, and there refuses, by the number and for the endpoint that are told; and the set that is
 * told lacks the endpoint.
 *
 * Nothing is kept between calls and nothing is allocated. The loops have fixed bounds, 32 connections and JOURNEY_MOST_URLS URLs, and a call takes
 * less than 1 KiB of stack. What it costs is in docs/PERFORMANCE.md. */
#ifndef JOURNEYS_H
#define JOURNEYS_H

#include <stddef.h>
#include <stdint.h>

#ifdef __cplusplus
extern "C" {
#endif

enum {
    /* the most URLs that a journey may have */
    JOURNEY_MOST_URLS = 16,
    /* what is told in place of a connection where none carries the journey */
    JOURNEY_NO_CONNECTION = 32,
    /* what is told in place of a missing endpoint where the connection carries the journey */
    JOURNEY_NONE_MISSING = 32
};

/* The number of a journey: of the first refusal that applies, in this order, or 0 where none does. */
enum journey_number {
    JOURNEY_ACCEPTED = 0,
    /* the policy does not have its length, or is not well formed: just where monitor_feed answers MONITOR_POLICY_BAD, given a long output */
    JOURNEY_POLICY_BAD = 2,
    /* the journey is empty, has more than JOURNEY_MOST_URLS URLs, or names one that the policy does not have: a number above 63, or an empty row.
     * The numbers are asked about as they are given, before any is replaced by its partner */
    JOURNEY_BAD = 17,
    /* the connection is above 31; of journey_stop alone */
    JOURNEY_CONNECTION_UNKNOWN = 6
};

struct journey_found {
    /* one of enum journey_number */
    uint32_t number;
    /* the lowest connection that carries the journey, 0 to 31, or JOURNEY_NO_CONNECTION; 0 in a refusal */
    uint32_t connection;
};

/* Finds the connection for a journey. Any contents and any lengths are allowed: whatever does not fit is refused. Policy and journey are read and not
 * changed. What is asked of the caller is memory: `policy` has `policy_length` words and is aligned for them, `urls` has `urls_length` bytes, each is
 * null only where its length is 0, and nobody writes them during the call. */
struct journey_found journey_find(const uint32_t *policy, size_t policy_length, const uint8_t *urls, size_t urls_length);

/* Where and why a connection stops on a journey. In a refusal all but the number are 0. */
struct journey_stop {
    /* one of enum journey_number */
    uint32_t number;
    /* the first URL that the connection does not take, by its place in the journey, from 0 on; the journey's length where it carries the journey,
     * and then the members below are 0, JOURNEY_NONE_MISSING, 0 and 0 */
    uint32_t place;
    /* what monitor_feed answers there: MONITOR_READERS_FORBID or MONITOR_WRITERS_FORBID */
    uint32_t refusal;
    /* the missing endpoint that it tells, 0 to 31 */
    uint32_t missing;
    /* the URL that is asked for there: the partner of the one that the journey names, or that one itself */
    uint32_t url;
    /* whose set lacks the endpoint, of readers or of writers as the refusal says: 1 where it is that URL's, while the connection's has it; 0 where it
     * is the connection's, and the endpoint is that URL's own */
    uint32_t of_url;
};

/* Tells where and why a connection stops on a journey. Any contents, lengths and numbers are allowed, and of the caller the same is asked as by
 * journey_find. */
struct journey_stop journey_stop(const uint32_t *policy, size_t policy_length, const uint8_t *urls, size_t urls_length, uint32_t connection);

#ifdef __cplusplus
}
#endif

#endif
