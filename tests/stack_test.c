/* Links libmonitor.a, libusage.a, libcookie.a, libjourneys.a and libreach_table.a: how much stack one call takes. The call runs on a stack of its own
 * that was painted before, so that what it wrote is seen afterwards; the same call of a function that does nothing is taken off. Printed for the
 * calls that could take most: the largest output, the longest script, everything that is refused, lists that are counted, lines that are read,
 * journeys that are carried or not, connections that stop, reach tables; and bounded, so that it is seen where it grows. */
#define _XOPEN_SOURCE 700
#include <stdbool.h>
#include <stdio.h>
#include <stdlib.h>
#include <string.h>
#include <ucontext.h>

#include "cookie.h"
#include "journeys.h"
#include "monitor.h"
#include "reach_table.h"
#include "usage.h"

enum { STACK_BYTES = 64 * 1024, PAINT = 0x5a, MOST = 1024, MOST_COUNTING = 2 * 1024, SENDS = 0, REGISTERS = 1, WRITES = 2 };
enum { STEPS = 32, STEP_BYTES = 4, KEYS = 8, LINE_BYTES = 4096 };
/* in a policy, the partners of the URLs and before them the word of https hosts */
enum { URLS = 64, PARTNERS = MONITOR_POLICY_WORDS - URLS, HTTPS_HOSTS = PARTNERS - 1 };

typedef void calls(void);
typedef struct usage_tally counts(const uint8_t *, size_t);
typedef struct cookie_imported imports(uint32_t, const uint8_t *, size_t, const uint8_t *, size_t);
typedef struct journey_found finds(const uint32_t *, size_t, const uint8_t *, size_t);
typedef struct journey_stop stops(const uint32_t *, size_t, const uint8_t *, size_t, uint32_t);
typedef struct reach_table reaches(const uint32_t *, size_t);
typedef bool fits(const uint32_t *, size_t, uint32_t, uint32_t);
typedef struct monitor_answer feeds(const uint32_t *, size_t, const uint8_t *, size_t, uint32_t *, size_t, const uint8_t *, size_t, uint8_t *, size_t);

static uint8_t stack[STACK_BYTES];
static ucontext_t here, there;
static feeds *feeder;
static counts *counter;
static struct usage_tally tally;
static imports *importer;
static struct cookie_imported imported;
static const uint8_t names[COOKIE_NAMES_BYTES] = "sid";
static uint8_t line[LINE_BYTES];
static uint32_t host;
static finds *finder;
static struct journey_found found;
static stops *stopper;
static struct journey_stop stopped;
static uint8_t urls[JOURNEY_MOST_URLS + 1];
static size_t policy_words, journey_urls;
static uint32_t stopping;
static reaches *reacher;
static struct reach_table table;
static fits *fitter;
static bool is_fitted;
static uint32_t policy[MONITOR_POLICY_WORDS], state[MONITOR_STATE_WORDS];
static uint8_t scripts[MONITOR_SCRIPT_BYTES], out[MONITOR_OUT_BYTES], record[MONITOR_LONGEST_RECORD];
static size_t state_words, record_bytes, out_bytes;
static struct monitor_answer answer;

static struct monitor_answer feeds_nothing(const uint32_t *p, size_t pn, const uint8_t *c, size_t cn, uint32_t *s, size_t sn, const uint8_t *r, size_t rn,
                                           uint8_t *o, size_t on)
{
    (void)p, (void)pn, (void)c, (void)cn, (void)s, (void)sn, (void)r, (void)rn, (void)o, (void)on;
    return (struct monitor_answer){.number = 0};
}

static struct usage_tally counts_nothing(const uint8_t *r, size_t rn)
{
    (void)r, (void)rn;
    return (struct usage_tally){.number = 0};
}

static struct cookie_imported imports_nothing(uint32_t h, const uint8_t *n, size_t nn, const uint8_t *t, size_t tn)
{
    (void)h, (void)n, (void)nn, (void)t, (void)tn;
    return (struct cookie_imported){.number = 0};
}

static struct journey_found finds_nothing(const uint32_t *p, size_t pn, const uint8_t *u, size_t un)
{
    (void)p, (void)pn, (void)u, (void)un;
    return (struct journey_found){.number = 0};
}

static struct journey_stop stops_nowhere(const uint32_t *p, size_t pn, const uint8_t *u, size_t un, uint32_t c)
{
    (void)p, (void)pn, (void)u, (void)un, (void)c;
    return (struct journey_stop){.number = 0};
}

static struct reach_table reaches_nothing(const uint32_t *p, size_t pn)
{
    (void)p, (void)pn;
    return (struct reach_table){.number = 0};
}

static bool fits_nothing(const uint32_t *p, size_t pn, uint32_t c, uint32_t u)
{
    (void)p, (void)pn, (void)c, (void)u;
    return false;
}

static void count(void)
{
    tally = counter(record, record_bytes);
}

static void import(void)
{
    imported = importer(host, names, sizeof names, line, sizeof line);
}

static void find(void)
{
    found = finder(policy, policy_words, urls, journey_urls);
}

static void stop(void)
{
    stopped = stopper(policy, policy_words, urls, journey_urls, stopping);
}

static void reach(void)
{
    table = reacher(policy, policy_words);
}

static void fit(void)
{
    is_fitted = fitter(policy, policy_words, REACH_CONNECTIONS - 1, REACH_URLS - 1);
}

static void feed(void)
{
    answer = feeder(policy, MONITOR_POLICY_WORDS, scripts, sizeof scripts, state, state_words, record, record_bytes, out, out_bytes);
}

/* The bytes of the painted stack that the call wrote, or that lie above one that it wrote. */
static size_t depth(calls *called)
{
    memset(stack, PAINT, sizeof stack);
    if (getcontext(&there) != 0) {
        abort();
    }
    there.uc_stack.ss_sp = stack;
    there.uc_stack.ss_size = sizeof stack;
    there.uc_link = &here;
    makecontext(&there, called, 0);
    if (swapcontext(&here, &there) != 0) {
        abort();
    }
    size_t untouched = 0;
    while (untouched < sizeof stack && stack[untouched] == PAINT) {
        untouched++;
    }
    return sizeof stack - untouched;
}

static void step(size_t script, size_t at, uint8_t op, uint8_t a, uint8_t b, uint8_t c)
{
    const uint8_t bytes[STEP_BYTES] = {op, a, b, c};
    memcpy(scripts + STEP_BYTES * (STEPS * script + at), bytes, sizeof bytes);
}

/* Every URL, connection and cookie is there and open to all, no host is listed as always https, every cookie is present, every connection awaits
 * a document. */
static void everything(void)
{
    memset(policy, 0xff, sizeof policy);
    policy[HTTPS_HOSTS] = 0;
    for (uint32_t url = 0; url < URLS; url++) {
        policy[3 * url] = url % 32;
        policy[PARTNERS + url] = 255;
    }
    for (uint32_t i = 0; i < MONITOR_STATE_WORDS; i++) {
        state[i] = i < 128 ? 0xffffffffu : i < 144 ? 0xffu : 0x01000000u | (i - 144);
    }
    for (uint8_t at = 0; at < STEPS; at++) {
        step(SENDS, at, 5, at, at, 15);
        step(REGISTERS, at, 2, at % 4, 3, 3);
        step(WRITES, at, at % 2 == 0 ? 3 : 4, at % 4, at % 4, 0);
    }
    state_words = MONITOR_STATE_WORDS;
    out_bytes = sizeof out;
}

/* A document's response on connection 0 with every cookie, which runs a script. */
static void respond(uint8_t script)
{
    everything();
    memset(record, 0xff, sizeof record);
    const uint8_t front[4] = {0x0f, 0, 0, 0xff};
    memcpy(record, front, sizeof front);
    record_bytes = sizeof front + 4 * KEYS;
    record[record_bytes++] = script;
}

static void bound(const char *name, size_t taken, size_t most)
{
    printf("stack: %-44s %5zu bytes\n", name, taken);
    if (taken > most) {
        fprintf(stderr, "stack: %s: more than %zu bytes\n", name, most);
        exit(EXIT_FAILURE);
    }
}

static void measure_missing(const char *name, uint32_t number, uint32_t bytes, uint32_t steps, uint32_t missing)
{
    feeder = feeds_nothing;
    size_t around = depth(feed);
    feeder = monitor_feed;
    bound(name, depth(feed) - around, MOST);
    if (answer.number != number || answer.bytes != bytes || answer.steps != steps || answer.missing != missing) {
        fprintf(stderr, "stack: %s: answered %u %u %u %u\n", name, answer.number, answer.bytes, answer.steps, answer.missing);
        exit(EXIT_FAILURE);
    }
}

static void measure(const char *name, uint32_t number, uint32_t bytes, uint32_t steps)
{
    measure_missing(name, number, bytes, steps, MONITOR_NONE_MISSING);
}

static void measure_count(const char *name, uint32_t number, uint32_t records)
{
    counter = counts_nothing;
    size_t around = depth(count);
    counter = usage_count;
    count(); /* the dynamic linker finds memcpy at its first call, and takes stack for that */
    bound(name, depth(count) - around, MOST_COUNTING);
    if (tally.number != number || tally.all_records != records) {
        fprintf(stderr, "stack: %s: counted %u %u\n", name, tally.number, tally.all_records);
        exit(EXIT_FAILURE);
    }
}

/* A line of a front and then the same piece over and over, up to the line's end. */
static void measure_import(const char *name, const char *front, const char *piece, uint32_t number)
{
    const size_t start = strlen(front), step = strlen(piece);
    memcpy(line, front, start);
    for (size_t at = start; at < sizeof line; at++) {
        line[at] = (uint8_t)piece[(at - start) % step];
    }
    importer = imports_nothing;
    size_t around = depth(import);
    importer = cookie_import;
    import(); /* as above */
    bound(name, depth(import) - around, MOST);
    if (imported.number != number) {
        fprintf(stderr, "stack: %s: answered %u\n", name, imported.number);
        exit(EXIT_FAILURE);
    }
}

static void measure_find(const char *name, uint32_t number, uint32_t connection)
{
    finder = finds_nothing;
    size_t around = depth(find);
    finder = journey_find;
    find(); /* as above */
    bound(name, depth(find) - around, MOST);
    if (found.number != number || found.connection != connection) {
        fprintf(stderr, "stack: %s: answered %u %u\n", name, found.number, found.connection);
        exit(EXIT_FAILURE);
    }
}

static void measure_stop(const char *name, uint32_t number, uint32_t place)
{
    stopper = stops_nowhere;
    size_t around = depth(stop);
    stopper = journey_stop;
    stop(); /* as above */
    bound(name, depth(stop) - around, MOST);
    if (stopped.number != number || stopped.place != place) {
        fprintf(stderr, "stack: %s: answered %u %u\n", name, stopped.number, stopped.place);
        exit(EXIT_FAILURE);
    }
}

static void measure_reach(const char *name, uint32_t number, uint32_t all)
{
    reacher = reaches_nothing;
    size_t around = depth(reach);
    reacher = reach_count;
    reach(); /* as above */
    bound(name, depth(reach) - around, MOST);
    if (table.number != number || table.all != all) {
        fprintf(stderr, "stack: %s: answered %u %u\n", name, table.number, table.all);
        exit(EXIT_FAILURE);
    }
}

static void measure_fit(const char *name, bool want)
{
    fitter = fits_nothing;
    size_t around = depth(fit);
    fitter = reach_fits;
    fit(); /* as above */
    bound(name, depth(fit) - around, MOST);
    if (is_fitted != want) {
        fprintf(stderr, "stack: %s: answered %d\n", name, is_fitted);
        exit(EXIT_FAILURE);
    }
}

static void feeds_and_counts(void)
{
    respond(SENDS);
    measure("the largest output: 32 requests of 37 bytes", MONITOR_ACCEPTED, STEPS * MONITOR_LONGEST_REQUEST, STEPS);
    respond(REGISTERS);
    measure("the longest script: 32 additions", MONITOR_ACCEPTED, 0, STEPS);
    respond(WRITES);
    measure("32 reads and writes of cookies", MONITOR_ACCEPTED, 0, STEPS);
    everything();
    const uint8_t redirect[4] = {0x23, 1, 1, 1};
    memcpy(record, redirect, sizeof redirect);
    record_bytes = sizeof redirect;
    measure("a redirect", MONITOR_ACCEPTED, MONITOR_LONGEST_REQUEST - 1, 0); /* a document's: no handler */
    policy[3 * 2 + 2] = UINT32_MAX >> 1;
    record[3] = 2;
    measure_missing("refused last: a redirect that writers forbid", MONITOR_WRITERS_FORBID, 0, 0, 31);
    everything();
    record_bytes = 0;
    measure("refused after policy and state: an empty record", MONITOR_KIND_UNKNOWN, 0, 0);
    state_words = 0;
    measure("refused: a state of no words", MONITOR_STATE_UNSOUND, 0, 0);
    out_bytes = 0;
    measure("refused at once: no output", MONITOR_OUTPUT_SHORT, 0, 0);
    const uint8_t requests[8] = {0x03, 0, 0, 0x03, 1, 0, 0x03, 64};
    memcpy(record, requests, sizeof requests);
    record_bytes = 6;
    measure_count("a list that is counted", USAGE_ACCEPTED, 2);
    record_bytes = 8;
    measure_count("a list that is refused", USAGE_LIST_BAD, 0);
}

static void lines(void)
{
    measure_import("a line of many attributes", "sid=7;", "Secure;", COOKIE_ACCEPTED);
    measure_import("a line of one long attribute", "sid=7;", "x", COOKIE_ACCEPTED);
    measure_import("a line whose value is no number", "sid=", "7", COOKIE_NO_NUMBER);
    measure_import("a line whose name has no key", "id=", "7", COOKIE_NO_KEY);
    measure_import("a line without a name", "", " ", COOKIE_NO_NAME);
    host = UINT32_MAX;
    measure_import("a line of a host that there is not", "", " ", COOKIE_HOST_UNKNOWN);
}

/* Of as many URLs as may be, which every connection carries, until the last URL lacks a writer. */
static void journeys(void)
{
    everything();
    policy_words = MONITOR_POLICY_WORDS;
    journey_urls = JOURNEY_MOST_URLS;
    for (uint8_t place = 0; place < JOURNEY_MOST_URLS; place++) {
        urls[place] = place;
    }
    measure_find("a journey that connection 0 carries", JOURNEY_ACCEPTED, 0);
    measure_stop("a connection that stops nowhere", JOURNEY_ACCEPTED, JOURNEY_MOST_URLS);
    policy[3 * (JOURNEY_MOST_URLS - 1) + 2] = UINT32_MAX >> 1;
    measure_find("a journey that no connection carries", JOURNEY_ACCEPTED, JOURNEY_NO_CONNECTION);
    measure_stop("a connection that stops at the last URL", JOURNEY_ACCEPTED, JOURNEY_MOST_URLS - 1);
    stopping = UINT32_MAX;
    measure_stop("a connection that there is not", JOURNEY_CONNECTION_UNKNOWN, 0);
    urls[JOURNEY_MOST_URLS - 1] = URLS;
    measure_find("a journey to a URL that there is not", JOURNEY_BAD, 0);
    journey_urls = JOURNEY_MOST_URLS + 1;
    measure_find("a journey that is too long", JOURNEY_BAD, 0);
    policy_words = 0;
    measure_find("a journey under a policy of no words", JOURNEY_POLICY_BAD, 0);
}

static void reach_tables(void)
{
    everything();
    policy_words = MONITOR_POLICY_WORDS;
    measure_reach("a reach table: everything is reached", REACH_ACCEPTED, REACH_CONNECTIONS * REACH_URLS);
    measure_fit("a cell of a reach table", true);
    policy[3 * (URLS - 1) + 1] = 0;
    measure_reach("a reach table that is refused by its form", REACH_POLICY_BAD, 0);
    policy_words = 0;
    measure_reach("a reach table under a policy of no words", REACH_POLICY_BAD, 0);
    measure_fit("a cell under a policy of no words", false);
}

int main(void)
{
    feeds_and_counts();
    lines();
    journeys();
    reach_tables();
    return EXIT_SUCCESS;
}
