/* Links libjourneys.a, and libmonitor.a for what a monitor takes: journeys under document 01's policy P and under one with a canteen and a bank, each
 * condition at each place of a journey, the lower of every two connections, every number of a URL at each place, every row with its partner, every
 * length of journey and policy, connections that there are not, the order of the refusals, null pointers and random policies. With each journey that
 * is searched goes one connection, another from call to call, of which is asked where it stops; of worked journeys and of some random ones each
 * connection is asked. Each call is made between guards, in memory of just its length, where valgrind sees a read past an end, and at the end of
 * pages that cannot be written and have nothing behind them; neither policy nor journey may change. What is told is held to monitor.h, read slowly,
 * and to the monitor itself: what is before the stop is accepted, and there it refuses by that number and for that endpoint. */
#define _XOPEN_SOURCE 700
#include <inttypes.h>
#include <stdbool.h>
#include <stdio.h>
#include <stdlib.h>
#include <string.h>

#include "journeys.h"
#include "lent.h"
#include "monitor.h"
#include "policies.h"
#include "random.h"

enum { BYTE_VALUES = 256 };
/* in a state, the connections */
enum { OPEN_AT = 144 };
/* the bytes of a journey, as an argument */
#define JOURNEY(...) ((struct span){(const uint8_t[]){__VA_ARGS__}, sizeof((const uint8_t[]){__VA_ARGS__})})

static struct guarded guarded_policy, guarded_journey;
static struct pages policy_pages, journey_pages;
static const char *doing = "nothing yet";

static void check(bool holds, const char *what)
{
    if (!holds) {
        fprintf(stderr, "journeys: %s: %s (call %lu)\n", doing, what, calls);
        exit(EXIT_FAILURE);
    }
}

static bool same(struct journey_found a, struct journey_found b)
{
    return a.number == b.number && a.connection == b.connection;
}

static struct journey_found refused(uint32_t number)
{
    return (struct journey_found){.number = number, .connection = 0};
}

static struct journey_found told(uint32_t connection)
{
    return (struct journey_found){.number = JOURNEY_ACCEPTED, .connection = connection};
}

static bool same_stop(struct journey_stop a, struct journey_stop b)
{
    return a.number == b.number && a.place == b.place && a.refusal == b.refusal && a.missing == b.missing && a.url == b.url && a.of_url == b.of_url;
}

static struct journey_stop refused_stop(uint32_t number)
{
    return (struct journey_stop){.number = number};
}

static struct journey_stop no_stop(size_t length)
{
    return (struct journey_stop){.place = (uint32_t)length, .missing = JOURNEY_NONE_MISSING};
}

/* ---- calling */

/* Both are asked, about the same: for a connection, and where one stops. */
struct answers {
    struct journey_found found;
    struct journey_stop stop;
};

static struct answers ask(const void *lent_policy, struct span words, const void *lent_journey, struct span urls, uint32_t connection)
{
    const size_t length = words.size / sizeof *policy;
    return (struct answers){.found = journey_find(lent_policy, length, lent_journey, urls.size),
                            .stop = journey_stop(lent_policy, length, lent_journey, urls.size, connection)};
}

static struct answers ask_guarded(struct span words, struct span urls, uint32_t connection)
{
    lay(&guarded_policy, words, sizeof *policy);
    lay(&guarded_journey, urls, 1);
    struct answers answers = ask(guarded_policy.lent, words, guarded_journey.lent, urls, connection);
    check_kept(&guarded_policy, words);
    check_kept(&guarded_journey, urls);
    return answers;
}

static struct answers ask_bare(struct span words, struct span urls, uint32_t connection)
{
    void *const lent_policy = bare_copy(words);
    void *const lent_journey = bare_copy(urls);
    struct answers answers = ask(lent_policy, words, lent_journey, urls, connection);
    check(equal(lent_policy, words) && equal(lent_journey, urls), "policy or journey changed, in memory of their length");
    free(lent_policy);
    free(lent_journey);
    return answers;
}

/* A write, or a read past an end, ends the test by a signal. */
static struct answers ask_at_the_end(struct span words, struct span urls, uint32_t connection)
{
    return ask(at_the_end(&policy_pages, words), words, at_the_end(&journey_pages, urls), urls, connection);
}

static void print_journey(struct span urls)
{
    const uint8_t *const url = urls.at;
    fprintf(stderr, "journeys: %zu URLs:", urls.size);
    for (size_t i = 0; i < urls.size && i < 40; i++) {
        fprintf(stderr, " %d", url[i]);
    }
    fprintf(stderr, "\n");
}

static void print_answers(const char *name, struct answers it)
{
    fprintf(stderr, "journeys: %s: number %" PRIu32 ", connection %" PRIu32 "\n", name, it.found.number, it.found.connection);
    fprintf(stderr, "journeys: %s: number %" PRIu32 ", place %" PRIu32 ", refusal %" PRIu32, name, it.stop.number, it.stop.place, it.stop.refusal);
    fprintf(stderr, ", missing %" PRIu32 ", URL %" PRIu32 ", of the URL %" PRIu32 "\n", it.stop.missing, it.stop.url, it.stop.of_url);
}

static bool same_answers(struct answers a, struct answers b)
{
    return same(a.found, b.found) && same_stop(a.stop, b.stop);
}

/* ---- what should be told: monitor.h, read slowly, under a policy that is well formed */

static uint32_t lowest(uint32_t set)
{
    uint32_t member = 0;
    while (member < 32 && (set >> member & 1u) == 0) {
        member++;
    }
    return member;
}

static uint32_t asked_for(uint8_t url)
{
    const uint32_t partner = policy[PARTNERS + url];
    return partner == NO_PARTNER ? url : partner;
}

/* A condition, unless one before it fails: all that is asked for is in a set. */
static void want_within(struct journey_stop *stop, uint32_t asked, uint32_t set, uint32_t refusal, uint32_t of_url)
{
    if (stop->refusal == MONITOR_ACCEPTED && (asked & ~set) != 0) {
        stop->refusal = refusal;
        stop->missing = lowest(asked & ~set);
        stop->of_url = of_url;
    }
}

/* The conditions in the order of monitor.h: of a load, or of a redirect. */
static struct journey_stop judged_slowly(const uint32_t *connection, const uint32_t *url, bool is_load)
{
    const uint32_t message = UINT32_C(1) << url[0] % MONITOR_ENTRY, event = UINT32_C(1) << url[0] % HOSTS;
    struct journey_stop stop = no_stop(0);
    want_within(&stop, is_load ? 0 : event, connection[0], MONITOR_READERS_FORBID, 0);
    want_within(&stop, connection[0], url[1], MONITOR_READERS_FORBID, 1);
    want_within(&stop, message, connection[2], MONITOR_WRITERS_FORBID, 0);
    want_within(&stop, is_load || url[0] >= MONITOR_ENTRY ? 0 : connection[2], url[2], MONITOR_WRITERS_FORBID, 1);
    return stop;
}

static struct journey_stop stop_slowly(uint32_t connection, struct span urls)
{
    const uint8_t *const url = urls.at;
    for (uint32_t place = 0; place < urls.size; place++) {
        const uint32_t asked = asked_for(url[place]);
        struct journey_stop stop = judged_slowly(connection_words(connection), url_words(asked), place == 0);
        if (stop.refusal != MONITOR_ACCEPTED) {
            stop.place = place;
            stop.url = asked;
            return stop;
        }
    }
    return no_stop(urls.size);
}

static bool carries(uint32_t connection, struct span urls)
{
    return stop_slowly(connection, urls).place == urls.size;
}

static struct journey_found found_slowly(struct span urls)
{
    const uint8_t *const url = urls.at;
    if (urls.size < 1 || urls.size > JOURNEY_MOST_URLS) {
        return refused(JOURNEY_BAD);
    }
    for (size_t i = 0; i < urls.size; i++) {
        if (!is_url(url[i])) {
            return refused(JOURNEY_BAD);
        }
    }
    uint32_t connection = 0;
    while (connection < CONNECTIONS && !carries(connection, urls)) {
        connection++;
    }
    return told(connection < CONNECTIONS ? connection : JOURNEY_NO_CONNECTION);
}

/* ---- what a monitor takes */

/* From a state of zeros: where it refuses, and how. A redirect names the URL that the connection holds, which is in the lowest byte of its word. */
static struct journey_stop fed(uint8_t connection, struct span urls)
{
    const uint8_t *const url = urls.at;
    uint32_t state[MONITOR_STATE_WORDS] = {0};
    struct monitor_answer answer = feed(state, (const uint8_t[]){0x03, url[0], connection}, 3);
    uint32_t place = 0;
    while (answer.number == MONITOR_ACCEPTED && ++place < urls.size) {
        const uint8_t held = (uint8_t)state[OPEN_AT + connection];
        answer = feed(state, (const uint8_t[]){0x23, held, connection, url[place]}, 4);
    }
    return (struct journey_stop){.place = place, .refusal = answer.number, .missing = answer.missing};
}

static bool monitor_takes(uint8_t connection, struct span urls)
{
    return fed(connection, urls).refusal == MONITOR_ACCEPTED;
}

/* It takes the journey on what should be told, and on no connection below. */
static void check_taken(struct span urls, struct journey_found want)
{
    if (want.number != JOURNEY_ACCEPTED) {
        return;
    }
    for (uint8_t connection = 0; connection < want.connection; connection++) {
        check(!monitor_takes(connection, urls), "the monitor takes the journey on a lower connection");
    }
    check(want.connection == JOURNEY_NO_CONNECTION || monitor_takes((uint8_t)want.connection, urls), "the monitor does not take the journey");
}

/* It stops where and as should be told; and below the connection that should be found each stops, and that one does not. */
static void check_stopped(uint32_t connection, struct span urls, struct journey_found found, struct journey_stop want)
{
    const struct journey_stop by_monitor = fed((uint8_t)connection, urls);
    const bool agree = by_monitor.place == want.place && by_monitor.refusal == want.refusal && by_monitor.missing == want.missing;
    check(agree, "the monitor stops elsewhere or otherwise");
    check(connection >= found.connection || want.place < urls.size, "a lower connection does not stop");
    check(connection != found.connection || want.place == urls.size, "the connection that is found stops");
}

/* ---- holding the library to it */

static struct journey_stop stop_wanted(struct span urls, struct journey_found found, uint32_t connection)
{
    if (found.number != JOURNEY_ACCEPTED) {
        return refused_stop(found.number);
    }
    if (connection >= CONNECTIONS) {
        return refused_stop(JOURNEY_CONNECTION_UNKNOWN);
    }
    const struct journey_stop want = stop_slowly(connection, urls);
    check_stopped(connection, urls, found, want);
    return want;
}

/* With so many words of the policy. */
static void gives_on(size_t words, struct span urls, struct journey_found found, uint32_t connection)
{
    const struct span lent = {policy, words * sizeof *policy};
    const struct answers want = {.found = found, .stop = stop_wanted(urls, found, connection)};
    calls++;
    struct answers guarded = ask_guarded(lent, urls, connection), bare = ask_bare(lent, urls, connection);
    struct answers at_end = ask_at_the_end(lent, urls, connection);
    if (same_answers(guarded, want) && same_answers(bare, want) && same_answers(at_end, want)) {
        return;
    }
    print_journey(urls);
    fprintf(stderr, "journeys: connection %" PRIu32 "\n", connection);
    print_answers("between guards", guarded);
    print_answers("in memory of its length", bare);
    print_answers("at the end of pages", at_end);
    print_answers("expected", want);
    check(false, "something else is told");
}

/* The connection of which is asked where it stops is another from call to call; at times it is none of the 32. */
static void gives_with(size_t words, struct span urls, struct journey_found want)
{
    gives_on(words, urls, want, (uint32_t)(calls % (CONNECTIONS + 1)));
}

static void gives(struct span urls, struct journey_found want)
{
    gives_with(MONITOR_POLICY_WORDS, urls, want);
}

/* The same of each connection. */
static void gives_on_each(struct span urls, struct journey_found want)
{
    for (uint32_t connection = 0; connection <= CONNECTIONS; connection++) {
        gives_on(MONITOR_POLICY_WORDS, urls, want, connection);
    }
}

static void found_as_slowly(struct span urls)
{
    const struct journey_found want = is_well_formed() ? found_slowly(urls) : refused(JOURNEY_POLICY_BAD);
    check_taken(urls, want);
    gives(urls, want);
}

/* What is known beforehand: the slow reading and the monitor are held to it as well, so that they can be trusted elsewhere. */
static void worked(struct span urls, struct journey_found want)
{
    check(is_well_formed() && same(found_slowly(urls), want), "the test itself finds something else");
    check_taken(urls, want);
    gives(urls, want);
}

static void worked_on_each(struct span urls, struct journey_found want)
{
    worked(urls, want);
    gives_on_each(urls, want);
}

static void stops(struct span urls, uint32_t connection, struct journey_stop want)
{
    check(is_well_formed() && same_stop(stop_slowly(connection, urls), want), "the test itself stops elsewhere");
    gives_on(MONITOR_POLICY_WORDS, urls, found_slowly(urls), connection);
}

/* A stop at a place by a refusal, for want of an endpoint, at the URL that is asked for there: by the URL's set, or by the connection's. */
static struct journey_stop by_url(uint32_t place, uint32_t refusal, uint32_t missing, uint32_t url)
{
    return (struct journey_stop){.place = place, .refusal = refusal, .missing = missing, .url = url, .of_url = 1};
}

static struct journey_stop by_connection(uint32_t place, uint32_t refusal, uint32_t missing, uint32_t url)
{
    return (struct journey_stop){.place = place, .refusal = refusal, .missing = missing, .url = url, .of_url = 0};
}

/* ---- worked journeys */

static void small_post_journeys(void)
{
    doing = "policy P";
    small_post();
    worked_on_each(JOURNEY(0), told(0));
    worked_on_each(JOURNEY(1), told(1));
    worked_on_each(JOURNEY(2), told(1));
    worked_on_each(JOURNEY(3), told(3));
    worked_on_each(JOURNEY(0, 0), told(0));
    worked_on_each(JOURNEY(1, 1, 1), told(1));
    worked_on_each(JOURNEY(2, 1), told(1));
    worked_on_each(JOURNEY(1, 2), told(JOURNEY_NO_CONNECTION));
    worked_on_each(JOURNEY(3, 3), told(3));
    worked_on_each(JOURNEY(3, 0), told(JOURNEY_NO_CONNECTION));
    worked_on_each(JOURNEY(0, 1), told(JOURNEY_NO_CONNECTION));
    worked_on_each(JOURNEY(4), refused(JOURNEY_BAD));
    worked_on_each(JOURNEY(0, 64), refused(JOURNEY_BAD));

    doing = "policy P, connection 0 fails on the last URL";
    worked_on_each(JOURNEY(0, 3), told(3));
    worked_on_each(JOURNEY(0, 0, 0, 0, 0, 0, 0, 0, 0, 0, 0, 0, 0, 0, 0, 0), told(0));
    worked_on_each(JOURNEY(0, 0, 0, 0, 0, 0, 0, 0, 0, 0, 0, 0, 0, 0, 0, 3), told(JOURNEY_NO_CONNECTION));
    worked_on_each(JOURNEY(0, 3, 3, 3, 3, 3, 3, 3, 3, 3, 3, 3, 3, 3, 3, 3), told(3));

    doing = "policy P with entries";
    policy[3 * 2] += MONITOR_ENTRY;
    worked_on_each(JOURNEY(1, 2, 1), told(1));
    policy[3 * 0] += MONITOR_ENTRY;
    worked_on_each(JOURNEY(3, 0, 3), told(3));

    doing = "policy P with host 0 always https";
    small_post();
    list_host(0, 3, 0);
    worked_on_each(JOURNEY(3), told(0));
    worked_on_each(JOURNEY(0, 3, 0), told(0));
    worked_on_each(JOURNEY(3, 3, 3), told(0));
    worked_on_each(JOURNEY(67), refused(JOURNEY_BAD));
}

/* A canteen at host 0 and a bank at host 1, each by https and by http. */
enum { CANTEEN, CANTEEN_HTTP, BANK, BANK_HTTP };
/* the connection of the canteen alone, and the one of both */
enum { OWN = 3, PAYING = 5 };

static void canteen_and_bank(void)
{
    empty_policy();
    set_url(CANTEEN, 16, 0x00030003, 0x00030000);
    set_url(CANTEEN_HTTP, 0, 0x00030003, 0x00030003);
    set_url(BANK, 17, 0x00030003, 0x00030000);
    set_url(BANK_HTTP, 1, 0x00030003, 0x00030003);
    set_connection(OWN, 0x00000001, 0x00010000);
    set_connection(PAYING, 0x00000003, 0x00030000);
}

static void payments(void)
{
    const struct span payment = JOURNEY(CANTEEN, BANK, CANTEEN), by_http = JOURNEY(CANTEEN_HTTP, BANK_HTTP, CANTEEN_HTTP);
    doing = "canteen, bank, canteen";
    canteen_and_bank();
    worked_on_each(JOURNEY(CANTEEN), told(OWN));
    worked_on_each(JOURNEY(CANTEEN, CANTEEN), told(OWN));
    worked_on_each(JOURNEY(BANK), told(PAYING));
    worked_on_each(payment, told(PAYING));
    worked_on_each(by_http, told(JOURNEY_NO_CONNECTION));
    connection_words(PAYING)[0] = 0x00000001;
    worked_on_each(payment, told(JOURNEY_NO_CONNECTION));

    doing = "canteen, bank, canteen, typed without a scheme";
    canteen_and_bank();
    list_host(0, CANTEEN_HTTP, CANTEEN);
    worked_on_each(JOURNEY(CANTEEN_HTTP, BANK, CANTEEN_HTTP), told(PAYING));
    worked_on_each(by_http, told(JOURNEY_NO_CONNECTION));
    list_host(1, BANK_HTTP, BANK);
    worked_on_each(by_http, told(PAYING));

    doing = "a bank that takes no writer but itself";
    canteen_and_bank();
    policy[3 * BANK + 2] = 0x00020000;
    worked_on_each(payment, told(JOURNEY_NO_CONNECTION));
    worked_on_each(JOURNEY(BANK, CANTEEN), told(PAYING));
    policy[3 * BANK] += MONITOR_ENTRY;
    worked_on_each(payment, told(PAYING));
    list_host(1, BANK_HTTP, BANK);
    worked_on_each(JOURNEY(CANTEEN, BANK_HTTP, CANTEEN), told(PAYING));
    policy[3 * BANK] -= MONITOR_ENTRY;
    policy[3 * BANK_HTTP] += MONITOR_ENTRY;
    worked_on_each(JOURNEY(CANTEEN, BANK_HTTP, CANTEEN), told(JOURNEY_NO_CONNECTION));
}

/* Each refusal by each of the two sets, with a partner, and with nothing. */
static void worked_stops(void)
{
    const struct span payment = JOURNEY(CANTEEN, BANK, CANTEEN);
    doing = "where connections stop on the way to the bank and back";
    canteen_and_bank();
    stops(payment, PAYING, no_stop(3));
    stops(payment, OWN, by_connection(1, MONITOR_READERS_FORBID, 1, BANK));
    stops(payment, 0, by_connection(0, MONITOR_WRITERS_FORBID, 16, CANTEEN));
    set_connection(OWN, 0x00000003, 0x00010000);
    stops(payment, OWN, by_connection(1, MONITOR_WRITERS_FORBID, 17, BANK));
    policy[3 * BANK + 2] = 0x00020000;
    stops(payment, PAYING, by_url(1, MONITOR_WRITERS_FORBID, 16, BANK));
    policy[3 * CANTEEN + 1] = 0x00000001;
    stops(payment, PAYING, by_url(0, MONITOR_READERS_FORBID, 1, CANTEEN));
    stops(JOURNEY(BANK, CANTEEN), PAYING, by_url(1, MONITOR_READERS_FORBID, 1, CANTEEN));
    list_host(0, CANTEEN_HTTP, CANTEEN);
    stops(JOURNEY(BANK, CANTEEN_HTTP, BANK), PAYING, by_url(1, MONITOR_READERS_FORBID, 1, CANTEEN));
    stops(JOURNEY(CANTEEN_HTTP), 0, by_connection(0, MONITOR_WRITERS_FORBID, 16, CANTEEN));
}

/* ---- each condition */

/* One endpoint, unless the condition of this number fails. */
static uint32_t unless(uint32_t fails, unsigned condition, unsigned endpoint)
{
    return (fails >> condition & 1u) != 0 ? 0 : UINT32_C(1) << endpoint;
}

/* The conditions of a redirect, of which a load asks the second and the third: event endpoint, readers, message endpoint, writers. The URL of one
 * place, https at host 5, fails some of them; those of the others are http at host 2, and fail none. */
static void fail_at(size_t place, uint32_t connection, uint32_t fails, bool is_entry)
{
    empty_policy();
    for (size_t url = 0; url < JOURNEY_MOST_URLS; url++) {
        set_url(url, 2, UINT32_MAX, UINT32_MAX);
    }
    set_url(place, is_entry ? MONITOR_ENTRY + 21 : 21, 1u << 5 | unless(fails, 1, 2), 1u << 2 | 1u << 21 | unless(fails, 3, 3));
    set_connection(connection, 1u << 2 | unless(fails, 0, 5), 1u << 2 | 1u << 3 | unless(fails, 2, 21));
}

/* On the first connection, the last, and one between, which is another from call to call. */
static void conditions_at(size_t place, uint32_t fails, bool is_entry)
{
    const struct span journey = JOURNEY(0, 1, 2, 3, 4, 5, 6, 7, 8, 9, 10, 11, 12, 13, 14, 15);
    const uint32_t asked = place == 0 ? fails & 6u : is_entry ? fails & 7u : fails;
    const uint32_t connections[] = {0, 1 + (uint32_t)calls % (CONNECTIONS - 2), CONNECTIONS - 1};
    for (size_t i = 0; i < sizeof connections / sizeof *connections; i++) {
        fail_at(place, connections[i], fails, is_entry);
        gives_on(MONITOR_POLICY_WORDS, journey, told(asked == 0 ? connections[i] : JOURNEY_NO_CONNECTION), connections[i]);
    }
}

static void each_condition(void)
{
    doing = "each condition at each place";
    for (uint32_t fails = 0; fails < 16; fails++) {
        for (size_t place = 0; place < JOURNEY_MOST_URLS; place++) {
            conditions_at(place, fails, false);
            conditions_at(place, fails, true);
        }
    }
}

/* Each endpoint for each address word: a load wants the message endpoint among the writers, a redirect the event endpoint among the readers. */
static void each_endpoint(void)
{
    doing = "the endpoints of each address";
    for (uint32_t word = 0; word < 2 * MONITOR_ENTRY; word++) {
        const uint32_t message = word % MONITOR_ENTRY, event = word % HOSTS;
        empty_policy();
        set_url(63, word, UINT32_MAX, UINT32_MAX);
        for (uint32_t endpoint = 0; endpoint < 32; endpoint++) {
            set_connection(31, UINT32_MAX, UINT32_C(1) << endpoint);
            worked(JOURNEY(63), told(endpoint == message ? 31 : JOURNEY_NO_CONNECTION));
            set_connection(31, UINT32_C(1) << endpoint, UINT32_C(1) << message);
            worked(JOURNEY(63, 63), told(endpoint == event ? 31 : JOURNEY_NO_CONNECTION));
        }
    }
}

/* ---- the search */

/* Just these connections carry the journey; each of the others fails on one URL of it, which is the last or another one. */
static void set_carrying(uint32_t connections, size_t length)
{
    for (uint32_t connection = 0; connection < CONNECTIONS; connection++) {
        const bool does = (connections >> connection & 1u) == 1;
        const size_t place = calls % 2 == 0 ? length - 1 : (calls + connection) % length;
        set_connection(connection, UINT32_MAX, does ? UINT32_MAX : ~(UINT32_C(1) << place));
    }
}

/* URLs that everyone reads and writes: the lowest connection that carries them is told, whichever else do. */
static void search(uint32_t connections, size_t length)
{
    uint8_t urls[JOURNEY_MOST_URLS];
    for (size_t i = 0; i < length; i++) {
        urls[i] = (uint8_t)(URLS - 1 - i);
        set_url(urls[i], (uint32_t)i, UINT32_MAX, UINT32_MAX);
    }
    set_carrying(connections, length);
    gives((struct span){urls, length}, told(connections == 0 ? JOURNEY_NO_CONNECTION : lowest(connections)));
}

static void each_search(void)
{
    doing = "the lowest of some connections";
    empty_policy();
    for (size_t length = 1; length <= JOURNEY_MOST_URLS; length += 5) {
        search(0, length);
        search(0, length);
        for (uint32_t low = 0; low < CONNECTIONS; low++) {
            for (uint32_t high = low; high < CONNECTIONS; high++) {
                search(UINT32_C(1) << low | UINT32_C(1) << high, length);
            }
            search(UINT32_MAX << low, length);
            search(next_random() << low, length);
        }
    }
}

/* ---- numbers and lengths */

/* At each place of a journey of each length, alone in it or not. Every third row is empty. */
static void each_number(void)
{
    uint8_t urls[JOURNEY_MOST_URLS];
    doing = "each number of a URL";
    empty_policy();
    for (uint32_t row = 0; row < URLS; row++) {
        if (row % 3 != 2) {
            set_url(row, row % 32, UINT32_MAX, UINT32_MAX);
        }
    }
    set_connection(7, UINT32_MAX, UINT32_MAX);
    for (unsigned value = 0; value < BYTE_VALUES; value++) {
        const bool is_there = value < URLS && value % 3 != 2;
        for (size_t length = 1; length <= JOURNEY_MOST_URLS; length += length == 1 ? 1 : 7) {
            for (size_t place = 0; place < length; place++) {
                memset(urls, 63, sizeof urls);
                urls[place] = (uint8_t)value;
                worked((struct span){urls, length}, is_there ? told(7) : refused(JOURNEY_BAD));
            }
        }
    }
}

/* An empty row is refused, whatever is asked for in its place or in another's. */
static void empty_rows(void)
{
    doing = "a policy without URLs";
    empty_policy();
    for (unsigned value = 0; value < BYTE_VALUES; value++) {
        worked(JOURNEY((uint8_t)value), refused(JOURNEY_BAD));
    }
}

static void lengths_of_the_journey(void)
{
    static uint8_t urls[MOST_BYTES];
    doing = "every length of the journey";
    small_post();
    for (size_t length = 0; length <= 300; length++) {
        worked((struct span){urls, length}, length >= 1 && length <= JOURNEY_MOST_URLS ? told(0) : refused(JOURNEY_BAD));
    }
    for (size_t length = 512; length <= MOST_BYTES; length *= 2) {
        gives((struct span){urls, length}, refused(JOURNEY_BAD));
        gives((struct span){urls, length - JOURNEY_MOST_URLS + 1}, refused(JOURNEY_BAD));
    }
    /* what no policy has, just behind the longest journey and where it is too long anyway */
    memset(urls + JOURNEY_MOST_URLS, 0xff, sizeof urls - JOURNEY_MOST_URLS);
    gives((struct span){urls, JOURNEY_MOST_URLS}, told(0));
    gives((struct span){urls, JOURNEY_MOST_URLS + 1}, refused(JOURNEY_BAD));
}

/* Behind the policy it stands a second time. */
static void lengths_of_the_policy(void)
{
    doing = "every length of the policy";
    small_post();
    memcpy(policy + MONITOR_POLICY_WORDS, policy, MONITOR_POLICY_WORDS * sizeof *policy);
    for (size_t words = 0; words <= MOST_WORDS; words++) {
        const bool right = words == MONITOR_POLICY_WORDS;
        gives_with(words, JOURNEY(0), right ? told(0) : refused(JOURNEY_POLICY_BAD));
        gives_with(words, JOURNEY(64), refused(right ? JOURNEY_BAD : JOURNEY_POLICY_BAD));
    }
}

/* ---- partners */

/* A pair of each host at each place: everyone may read and write the one row, and the other has the labels of the host alone. */
static void each_partner(void)
{
    doing = "each row with its partner";
    for (uint8_t row = 0; row < URLS; row++) {
        const uint8_t host = row % HOSTS, other = (uint8_t)((row + 29) % URLS);
        const uint32_t http = UINT32_C(1) << host, https = http << HOSTS;
        const struct span once = JOURNEY(row), twice = JOURNEY(row, row), away = JOURNEY(other, row, other);
        for (int is_open = 0; is_open < 2; is_open++) {
            empty_policy();
            set_url(row, host, is_open != 0 ? http : UINT32_MAX, is_open != 0 ? 0 : UINT32_MAX);
            set_url(other, HOSTS + host, is_open != 0 ? UINT32_MAX : http, is_open != 0 ? UINT32_MAX : 0);
            set_connection(4, UINT32_MAX, UINT32_MAX);
            set_connection(9, http, https);
            worked(once, told(is_open != 0 ? JOURNEY_NO_CONNECTION : 4));
            worked(twice, told(is_open != 0 ? JOURNEY_NO_CONNECTION : 4));
            worked(away, told(JOURNEY_NO_CONNECTION));
            list_host(host, row, other);
            worked(once, told(is_open != 0 ? 4 : 9));
            worked(twice, told(is_open != 0 ? 4 : JOURNEY_NO_CONNECTION));
            worked(away, told(is_open != 0 ? 4 : JOURNEY_NO_CONNECTION));
            stops(away, is_open != 0 ? 4 : 9, is_open != 0 ? no_stop(3) : by_url(1, MONITOR_WRITERS_FORBID, host + HOSTS, other));
            stops(once, is_open != 0 ? 9 : 4, is_open != 0 ? no_stop(1) : by_url(0, MONITOR_READERS_FORBID, host == 0 ? 1 : 0, other));
            policy[3u * row] += MONITOR_ENTRY;
            worked(twice, told(is_open != 0 ? 4 : JOURNEY_NO_CONNECTION));
            policy[3u * other] += MONITOR_ENTRY;
            worked(twice, told(is_open != 0 ? 4 : 9));
            policy[PARTNERS + row] = NO_PARTNER;
            gives(once, refused(JOURNEY_POLICY_BAD));
            /* what follows the rows would make of 64 an https row of the host */
            set_url(URLS, HOSTS + host, UINT32_MAX, UINT32_MAX);
            policy[PARTNERS + row] = URLS;
            gives(once, refused(JOURNEY_POLICY_BAD));
        }
    }
}

/* ---- refusals */

static void found_by_http(void)
{
    found_as_slowly(JOURNEY(0, 3));
}

/* Refused where the monitor refuses it, and found as the monitor takes it elsewhere. */
static void each_bit_of_the_policy(void)
{
    doing = "each bit of policy P";
    check(with_each_bit(found_by_http) > 1000, "next to nothing was refused");
}

/* A connection that there is not, whatever its low bits are. */
static void connections_above(void)
{
    doing = "connections that there are not";
    small_post();
    for (uint32_t connection = CONNECTIONS; connection < 10 * CONNECTIONS; connection++) {
        gives_on(MONITOR_POLICY_WORDS, JOURNEY(0), told(0), connection);
        gives_on(MONITOR_POLICY_WORDS, JOURNEY(0), told(0), ~connection);
    }
    for (unsigned bit = 5; bit < 32; bit++) {
        gives_on(MONITOR_POLICY_WORDS, JOURNEY(0, 3), told(3), UINT32_C(1) << bit);
        gives_on(MONITOR_POLICY_WORDS, JOURNEY(0, 3), told(3), UINT32_C(1) << bit | 3u);
        gives_on(MONITOR_POLICY_WORDS, JOURNEY(4), refused(JOURNEY_BAD), UINT32_C(1) << bit);
        gives_on(MONITOR_POLICY_WORDS - 1, JOURNEY(4), refused(JOURNEY_POLICY_BAD), UINT32_C(1) << bit);
    }
}

/* The policy is asked about first. */
static void each_order(void)
{
    doing = "several refusals";
    small_post();
    gives(JOURNEY(0), told(0));
    gives(JOURNEY(64), refused(JOURNEY_BAD));
    policy[1] = 0;
    gives(JOURNEY(0), refused(JOURNEY_POLICY_BAD));
    gives(JOURNEY(64), refused(JOURNEY_POLICY_BAD));
    gives((struct span){policy, 0}, refused(JOURNEY_POLICY_BAD));
    gives((struct span){policy, JOURNEY_MOST_URLS + 1}, refused(JOURNEY_POLICY_BAD));
}

static void null_pointers(void)
{
    static const uint8_t urls[1];
    doing = "null pointers";
    small_post();
    check(same(journey_find(NULL, 0, NULL, 0), refused(JOURNEY_POLICY_BAD)), "nothing at all gives something else");
    check(same(journey_find(NULL, 0, urls, 1), refused(JOURNEY_POLICY_BAD)), "no policy gives something else");
    check(same(journey_find(policy, MONITOR_POLICY_WORDS, NULL, 0), refused(JOURNEY_BAD)), "no journey gives something else");
    check(same_stop(journey_stop(NULL, 0, NULL, 0, CONNECTIONS), refused_stop(JOURNEY_POLICY_BAD)), "nothing at all stops otherwise");
    check(same_stop(journey_stop(NULL, 0, urls, 1, 0), refused_stop(JOURNEY_POLICY_BAD)), "no policy stops otherwise");
    check(same_stop(journey_stop(policy, MONITOR_POLICY_WORDS, NULL, 0, CONNECTIONS), refused_stop(JOURNEY_BAD)), "no journey stops otherwise");
}

/* ---- random policies */

static struct span random_journey(uint8_t *urls)
{
    const size_t length = below(8) == 0 ? below(JOURNEY_MOST_URLS + 4) : 1 + below(5);
    for (size_t i = 0; i < length; i++) {
        do {
            urls[i] = (uint8_t)below(URLS);
        } while (!is_url(urls[i]) && below(32) != 0);
    }
    return (struct span){urls, length};
}

/* Each answer comes often enough. */
static void random_policies(void)
{
    uint8_t urls[JOURNEY_MOST_URLS + 4];
    unsigned long numbers[JOURNEY_BAD + 1] = {0}, connections[JOURNEY_NO_CONNECTION + 1] = {0};
    doing = "random policies";
    for (int k = 0; k < 2000; k++) {
        random_policy();
        for (int i = 0; i < 2; i++) {
            const struct span journey = random_journey(urls);
            found_as_slowly(journey);
            const struct journey_found want = is_well_formed() ? found_slowly(journey) : refused(JOURNEY_POLICY_BAD);
            if (k % 8 == 0) {
                gives_on_each(journey, want);
            }
            numbers[want.number]++;
            connections[want.connection] += want.number == JOURNEY_ACCEPTED;
        }
    }
    check(numbers[JOURNEY_POLICY_BAD] > 50 && numbers[JOURNEY_BAD] > 100, "a refusal is rare");
    check(connections[0] > 50 && connections[31] > 100 && connections[JOURNEY_NO_CONNECTION] > 500, "0, 31 or none is rare");
    for (uint32_t connection = 1; connection < 31; connection++) {
        check(connections[connection] > 5, "a connection is rare");
    }
}

int main(void)
{
    policy_pages = map_pages();
    journey_pages = map_pages();
    small_post_journeys();
    payments();
    worked_stops();
    each_condition();
    each_endpoint();
    each_search();
    each_number();
    empty_rows();
    lengths_of_the_journey();
    lengths_of_the_policy();
    each_partner();
    each_bit_of_the_policy();
    connections_above();
    each_order();
    null_pointers();
    random_policies();
    printf("journeys: policy P, canteen and bank, each condition at each place, every lowest connection, every number, partners, every length, "
           "where connections stop, refusals and random policies agree with the monitor: %lu calls\n",
           calls);
    return 0;
}
