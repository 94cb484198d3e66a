/* Links libmonitor.a: document 01's small post case by case, a script that is stopped on one connection and goes on on another, pictures, hosts that
 * are always https, entries, every endpoint that can be missing, the endpoints of every address and of its entry, every wrong length of every buffer,
 * null pointers, and random records. Every call is checked for what it must leave alone, and tells a missing endpoint just where labels forbid. */
#include <inttypes.h>
#include <stdbool.h>
#include <stdio.h>
#include <stdlib.h>
#include <string.h>

#include "monitor.h"
#include "random.h"

/* Each buffer has this much more than is right: room for lengths that are too long, and past the length that is lent a canary. */
enum { SPARE = 64, LONGEST = 255 };
/* steps of a script, and bytes of one */
enum { STEPS = 32, SCRIPT = 4 * STEPS };
/* in a policy, the partners of the URLs and before them the word of https hosts */
enum { URLS = 64, PARTNERS = MONITOR_POLICY_WORDS - URLS, HTTPS_HOSTS = PARTNERS - 1, NO_PARTNER = 255 };

struct buffers {
    uint32_t policy[MONITOR_POLICY_WORDS + SPARE];
    uint8_t scripts[MONITOR_SCRIPT_BYTES + SPARE];
    uint32_t state[MONITOR_STATE_WORDS + SPARE];
    uint8_t record[LONGEST + SPARE];
    uint8_t out[MONITOR_OUT_BYTES + SPARE];
};

struct lengths {
    size_t policy, scripts, state, out;
};

static const struct lengths RIGHT = {MONITOR_POLICY_WORDS, MONITOR_SCRIPT_BYTES, MONITOR_STATE_WORDS, MONITOR_OUT_BYTES};

/* what is lent, and how it was before the call */
static struct buffers lent, before;
static const char *doing = "nothing yet";
static unsigned long calls;

static void fail(const char *what)
{
    fprintf(stderr, "monitor: %s: %s (call %lu)\n", doing, what, calls);
    exit(EXIT_FAILURE);
}

static void check(bool holds, const char *what)
{
    if (!holds) {
        fail(what);
    }
}

static bool is_number(uint32_t number)
{
    /* no default: the compiler tells where a number of the header is missing */
    switch ((enum monitor_number)number) {
    case MONITOR_ACCEPTED:
    case MONITOR_OUTPUT_SHORT:
    case MONITOR_POLICY_BAD:
    case MONITOR_SCRIPTS_BAD:
    case MONITOR_STATE_UNSOUND:
    case MONITOR_KIND_UNKNOWN:
    case MONITOR_KEY_MAP_EMPTY:
    case MONITOR_CUT_OR_TOO_LONG:
    case MONITOR_NAME_UNKNOWN:
    case MONITOR_NOT_AWAITED:
    case MONITOR_READERS_FORBID:
    case MONITOR_WRITERS_FORBID:
        return true;
    }
    return false;
}

static bool is_forbidden(struct monitor_answer answer)
{
    return answer.number == MONITOR_READERS_FORBID || answer.number == MONITOR_WRITERS_FORBID;
}

/* What holds of every call, whatever is lent. */
static void check_answer(struct monitor_answer answer, struct lengths n)
{
    check(memcmp(lent.policy, before.policy, sizeof lent.policy) == 0, "the policy changed");
    check(memcmp(lent.scripts, before.scripts, sizeof lent.scripts) == 0, "the script table changed");
    check(memcmp(lent.record, before.record, sizeof lent.record) == 0, "the record changed");
    check(is_number(answer.number), "the answer is no number that there is");
    check(is_forbidden(answer) ? answer.missing < MONITOR_NONE_MISSING : answer.missing == MONITOR_NONE_MISSING,
          "no endpoint is missing where labels forbid, or one where they do not");
    if (answer.number != MONITOR_ACCEPTED) {
        check(answer.bytes == 0 && answer.steps == 0, "a refusal has counts");
        check(memcmp(lent.state, before.state, sizeof lent.state) == 0, "a refusal changed the state, or past it");
        check(memcmp(lent.out, before.out, sizeof lent.out) == 0, "a refusal changed the output, or past it");
        return;
    }
    check(n.policy == RIGHT.policy && n.scripts == RIGHT.scripts && n.state == RIGHT.state && n.out >= RIGHT.out, "a wrong length was accepted");
    check(answer.bytes <= MONITOR_OUT_BYTES && answer.steps <= STEPS, "the counts are too large");
    check(memcmp(lent.state + RIGHT.state, before.state + RIGHT.state, sizeof lent.state - RIGHT.state * sizeof *lent.state) == 0,
          "a word past the state changed");
    check(memcmp(lent.out + answer.bytes, before.out + answer.bytes, sizeof lent.out - answer.bytes) == 0, "a byte past the output changed");
}

/* Puts a record and a fresh output where they are lent. */
static void prepare(const uint8_t *record, size_t size)
{
    check(size <= LONGEST, "the test's own record is too long");
    memset(lent.record, 0xc5, sizeof lent.record);
    memcpy(lent.record, record, size);
    memset(lent.out, 0xa7, sizeof lent.out);
    memcpy(&before, &lent, sizeof lent);
    calls++;
}

static struct monitor_answer feed_with(struct lengths n, const uint8_t *record, size_t size)
{
    prepare(record, size);
    struct monitor_answer answer = monitor_feed(lent.policy, n.policy, lent.scripts, n.scripts, lent.state, n.state, lent.record, size, lent.out, n.out);
    check_answer(answer, n);
    return answer;
}

/* ---- document 01's small post */

/* Sets `count` words from `at` on. */
static void set_words(uint32_t *words, size_t at, size_t count, const uint32_t *values)
{
    memcpy(words + at, values, count * sizeof *values);
}

/* Policy P, a script table of zeros, the empty state; canaries past each. */
static void small_post(void)
{
    static const uint32_t urls[] = {16, 0x00010001, 0x00010000, 1, 0xffffffff, 0xffffffff, 17, 0xffffffff, 0x00030000, 0, 0x00010001, 0x00010001};
    static const uint32_t cookie[] = {0x00010000, 0x00010000};
    static const uint32_t connections[] = {0x00010001, 0x00010001, 0x00010000, 0xffffffff, 0xffffffff, 0xffffffff,
                                           0x00010000, 0x00010000, 0x00010000, 0x00010001, 0x00010001, 0x00010001};
    memset(&lent, 0xb9, sizeof lent);
    memset(lent.policy, 0, MONITOR_POLICY_WORDS * sizeof *lent.policy);
    memset(lent.scripts, 0, MONITOR_SCRIPT_BYTES);
    memset(lent.state, 0, MONITOR_STATE_WORDS * sizeof *lent.state);
    for (size_t url = 0; url < URLS; url++) {
        lent.policy[3 * url] = 255;
        lent.policy[PARTNERS + url] = NO_PARTNER;
    }
    set_words(lent.policy, 0, 12, urls);
    set_words(lent.policy, 192, 2, cookie);
    set_words(lent.policy, 448, 12, connections);
}

/* Feeds a record, and compares the whole answer and the output. */
static void gives(const char *name, const uint8_t *record, size_t size, struct monitor_answer want, const uint8_t *sent)
{
    doing = name;
    struct monitor_answer answer = feed_with(RIGHT, record, size);
    if (answer.number != want.number || answer.bytes != want.bytes || answer.steps != want.steps || answer.missing != want.missing) {
        fprintf(stderr,
                "monitor: %s: answered %" PRIu32 " %" PRIu32 " %" PRIu32 " %" PRIu32 ", expected %" PRIu32 " %" PRIu32 " %" PRIu32 " %" PRIu32 "\n",
                name, answer.number, answer.bytes, answer.steps, answer.missing, want.number, want.bytes, want.steps, want.missing);
        exit(EXIT_FAILURE);
    }
    check(memcmp(lent.out, sent, want.bytes) == 0, "other bytes were sent");
}

#define BYTES(...) (const uint8_t[]){__VA_ARGS__}, sizeof((const uint8_t[]){__VA_ARGS__})
#define ACCEPTED(bytes, steps) (struct monitor_answer){MONITOR_ACCEPTED, bytes, steps, MONITOR_NONE_MISSING}
#define REFUSED(number) (struct monitor_answer){number, 0, 0, MONITOR_NONE_MISSING}
/* refused by labels, which tell the endpoint that is missing */
#define READERS_FORBID(missing) (struct monitor_answer){MONITOR_READERS_FORBID, 0, 0, missing}
#define WRITERS_FORBID(missing) (struct monitor_answer){MONITOR_WRITERS_FORBID, 0, 0, missing}
static const uint8_t NOTHING[1];

/* The words of the state that are not 0. */
static void check_state(uint32_t value, uint32_t present, uint32_t connection_0)
{
    uint32_t want[MONITOR_STATE_WORDS] = {0};
    want[0] = value;
    want[128] = present;
    want[144] = connection_0;
    check(memcmp(lent.state, want, sizeof want) == 0, "the state after is another");
}

static void load_0(const char *name)
{
    small_post();
    gives(name, BYTES(0x03, 0, 0), ACCEPTED(3, 0), (const uint8_t[]){0x03, 0, 0});
    check_state(0, 0, 1u << 24);
}

static void store_7(const char *name)
{
    load_0(name);
    gives(name, BYTES(0x0f, 0, 0, 0x01, 0, 0, 0, 7, 0), ACCEPTED(0, 1), NOTHING);
    check_state(7, 1, 0);
}

static void loads(void)
{
    load_0("case a");
    small_post();
    gives("case b", BYTES(0x03, 0, 1), READERS_FORBID(1), NOTHING);
    gives("case c", BYTES(0x03, 3, 0), WRITERS_FORBID(0), NOTHING);
    gives("case d, URL 4", BYTES(0x03, 4, 0), REFUSED(MONITOR_NAME_UNKNOWN), NOTHING);
    gives("case d, URL 64", BYTES(0x03, 64, 0), REFUSED(MONITOR_NAME_UNKNOWN), NOTHING);
    gives("case d, connection 32", BYTES(0x03, 0, 32), REFUSED(MONITOR_NAME_UNKNOWN), NOTHING);
    check_state(0, 0, 0);
}

static void cookies(void)
{
    store_7("case e");
    gives("case f", BYTES(0x03, 0, 0), ACCEPTED(8, 0), (const uint8_t[]){0x07, 0, 0, 0x01, 0, 0, 0, 7});
    check_state(7, 1, 1u << 24);
    store_7("case g");
    gives("case g", BYTES(0x03, 3, 3), ACCEPTED(3, 0), (const uint8_t[]){0x03, 3, 3});
    load_0("case h");
    gives("case h", BYTES(0x27, 0, 0, 0x01, 0, 0, 0, 7, 2), READERS_FORBID(1), NOTHING);
    check_state(0, 0, 1u << 24);
    small_post();
    gives("case i", BYTES(0x03, 1, 1), ACCEPTED(3, 0), (const uint8_t[]){0x03, 1, 1});
    gives("case i", BYTES(0x23, 1, 1, 2), WRITERS_FORBID(0), NOTHING);
}

static void malformed(void)
{
    small_post();
    gives("case j, empty", NOTHING, 0, REFUSED(MONITOR_KIND_UNKNOWN), NOTHING);
    gives("case j, map 07", BYTES(0x07, 0, 0, 0x01, 0, 0, 0, 7), REFUSED(MONITOR_KIND_UNKNOWN), NOTHING);
    gives("case j, map 07 alone", BYTES(0x07), REFUSED(MONITOR_KIND_UNKNOWN), NOTHING);
    gives("case j, key map 00", BYTES(0x0f, 0, 0, 0, 0), REFUSED(MONITOR_KEY_MAP_EMPTY), NOTHING);
    gives("key map 00, cut after it", BYTES(0x0f, 0, 0, 0), REFUSED(MONITOR_KEY_MAP_EMPTY), NOTHING);
    gives("key map 00, a byte too many", BYTES(0x0f, 0, 0, 0, 0, 0), REFUSED(MONITOR_KEY_MAP_EMPTY), NOTHING);
    gives("no key map", BYTES(0x0f, 0, 0), REFUSED(MONITOR_CUT_OR_TOO_LONG), NOTHING);
    gives("a load that is cut", BYTES(0x03, 0), REFUSED(MONITOR_CUT_OR_TOO_LONG), NOTHING);
    gives("a load that is too long", BYTES(0x03, 0, 0, 0), REFUSED(MONITOR_CUT_OR_TOO_LONG), NOTHING);
}

/* After e and a second load, a script that reads key 0 is stopped in connection 0 and goes on in connection 2. */
static void scripts(void)
{
    static const uint8_t reads_key_0[] = {3, 1, 0, 0, 4, 0, 1, 0};
    for (uint8_t connection = 0; connection <= 2; connection += 2) {
        store_7("the script's cookie");
        memcpy(lent.scripts + SCRIPT, reads_key_0, sizeof reads_key_0);
        gives("the script's page", BYTES(0x03, 0, connection), ACCEPTED(8, 0), (const uint8_t[]){0x07, 0, connection, 0x01, 0, 0, 0, 7});
        gives(connection == 0 ? "a script that is stopped" : "a script that goes on", BYTES(0x0b, 0, connection, 1),
              ACCEPTED(0, connection == 0 ? 1 : 3), NOTHING);
        check_state(7, 1, 0);
    }
}

/* A page requests a picture, whose response runs nothing though script 0 would send a request. No other kind of response is awaited with it. */
static void pictures(void)
{
    static const uint8_t picture_of_0[] = {7, 0, 0, 255}, requests_0[] = {5, 0, 0, 0};
    store_7("the picture's cookie");
    memcpy(lent.scripts, requests_0, sizeof requests_0);
    memcpy(lent.scripts + SCRIPT, picture_of_0, sizeof picture_of_0);
    gives("the picture's page", BYTES(0x03, 0, 0), ACCEPTED(8, 0), (const uint8_t[]){0x07, 0, 0, 0x01, 0, 0, 0, 7});
    gives("a picture on a document's connection", BYTES(0x43, 0, 0), REFUSED(MONITOR_NOT_AWAITED), NOTHING);
    gives("a picture that is requested", BYTES(0x0b, 0, 0, 1), ACCEPTED(8, 2), (const uint8_t[]){0x47, 0, 0, 0x01, 0, 0, 0, 7});
    check_state(7, 1, 3u << 24);
    gives("a document on a picture's connection", BYTES(0x0b, 0, 0, 0), REFUSED(MONITOR_NOT_AWAITED), NOTHING);
    gives("a script's value on a picture's connection", BYTES(0x13, 0, 0, 0, 0, 0, 5), REFUSED(MONITOR_NOT_AWAITED), NOTHING);
    gives("a picture that is redirected", BYTES(0x23, 0, 0, 0), ACCEPTED(8, 0), (const uint8_t[]){0x47, 0, 0, 0x01, 0, 0, 0, 7});
    check_state(7, 1, 3u << 24);
    gives("a picture's response", BYTES(0x47, 0, 0, 0x01, 0, 0, 0, 9), ACCEPTED(0, 0), NOTHING);
    check_state(9, 1, 0);
    gives("a picture on a free connection", BYTES(0x43, 0, 0), REFUSED(MONITOR_NOT_AWAITED), NOTHING);
    gives("a picture that is too long", BYTES(0x43, 0, 0, 0), REFUSED(MONITOR_CUT_OR_TOO_LONG), NOTHING);
    static const uint32_t unsound[] = {3u << 24 | 1u << 8, 3u << 24 | 1u << 16, 3u << 24 | 64, 4u << 24};
    for (size_t i = 0; i < sizeof unsound / sizeof *unsound; i++) {
        lent.state[144] = unsound[i];
        gives("a picture with a handler, an origin or no URL, or kind 4", BYTES(0x43, 0, 0), REFUSED(MONITOR_STATE_UNSOUND), NOTHING);
    }
}

/* ---- hosts that are always https */

/* Lists host 0 of policy P: URL 0, https, is the partner of URL 3, http. */
static void list_host_0(void)
{
    lent.policy[HTTPS_HOSTS] = 1;
    lent.policy[PARTNERS + 3] = 0;
}

/* What is asked for at URL 3 goes to URL 0, and its response names URL 0. */
static void upgrades(void)
{
    static const uint8_t requests_3[] = {5, 3, 0, 9, 7, 3, 0, 255}, requests_67[] = {5, 67, 0, 9}, picture_of_67[] = {7, 67, 0, 9};
    small_post();
    list_host_0();
    gives("a load that goes to the partner", BYTES(0x03, 3, 0), ACCEPTED(3, 0), (const uint8_t[]){0x03, 0, 0});
    check_state(0, 0, 1u << 24);
    gives("a response that names the row itself", BYTES(0x0b, 3, 0, 0), REFUSED(MONITOR_NOT_AWAITED), NOTHING);
    gives("a redirect that leaves the row itself", BYTES(0x23, 3, 0, 0), REFUSED(MONITOR_NOT_AWAITED), NOTHING);
    gives("a redirect that goes to the partner", BYTES(0x23, 0, 0, 3), ACCEPTED(3, 0), (const uint8_t[]){0x03, 0, 0});
    check_state(0, 0, 1u << 24);
    memcpy(lent.scripts, requests_3, sizeof requests_3);
    memcpy(lent.scripts + SCRIPT, requests_67, sizeof requests_67);
    memcpy(lent.scripts + 2 * SCRIPT, picture_of_67, sizeof picture_of_67);
    gives("a script whose requests go to the partner", BYTES(0x0b, 0, 0, 0), ACCEPTED(7, 3), (const uint8_t[]){0x0b, 0, 0, 9, 0x43, 0, 0});
    check_state(0, 0, 3u << 24);
    gives("URL 67 is not URL 3", BYTES(0x03, 67, 0), REFUSED(MONITOR_NAME_UNKNOWN), NOTHING);
    gives("target 67 is not URL 3", BYTES(0x23, 0, 0, 67), REFUSED(MONITOR_NAME_UNKNOWN), NOTHING);
    gives("the picture's response", BYTES(0x43, 0, 0), ACCEPTED(0, 0), NOTHING);
    gives("the next page", BYTES(0x03, 3, 0), ACCEPTED(3, 0), (const uint8_t[]){0x03, 0, 0});
    gives("a script that requests URL 67", BYTES(0x0b, 0, 0, 1), ACCEPTED(0, 1), NOTHING);
    gives("the last page", BYTES(0x03, 3, 0), ACCEPTED(3, 0), (const uint8_t[]){0x03, 0, 0});
    gives("a script that requests a picture of URL 67", BYTES(0x0b, 0, 0, 2), ACCEPTED(0, 1), NOTHING);
    check_state(0, 0, 0);
}

/* The labels of URL 0 allow and forbid, and not those of URL 3; cookies are those of URL 0. */
static void upgraded_labels(void)
{
    store_7("the partner's cookie");
    list_host_0();
    gives("the partner's cookie", BYTES(0x03, 3, 0), ACCEPTED(8, 0), (const uint8_t[]){0x07, 0, 0, 0x01, 0, 0, 0, 7});
    small_post();
    lent.policy[3 * 3 + 1] = UINT32_MAX;
    gives("the row itself, which all may read", BYTES(0x03, 3, 1), ACCEPTED(3, 0), (const uint8_t[]){0x03, 3, 1});
    list_host_0();
    gives("the partner, which not all may read", BYTES(0x03, 3, 1), READERS_FORBID(1), NOTHING);
    gives("the row of a host that is not listed", BYTES(0x03, 1, 1), ACCEPTED(3, 0), (const uint8_t[]){0x03, 1, 1});
    gives("a redirect to the partner, which not all may read", BYTES(0x23, 1, 1, 3), READERS_FORBID(1), NOTHING);
    lent.state[144 + 3] = 1u << 24 | 3;
    gives("a redirect to the partner, with a writer too many", BYTES(0x23, 3, 3, 3), WRITERS_FORBID(0), NOTHING);
    gives("a response that names the partner of what is held", BYTES(0x0b, 0, 3, 0), REFUSED(MONITOR_NOT_AWAITED), NOTHING);
    gives("a response that names the row that is held", BYTES(0x0b, 3, 3, 0), ACCEPTED(0, 1), NOTHING);
}

/* Lists these hosts of policy P, and gives one row this partner: what is well formed loads a URL. */
static void partner_gives(const char *name, uint32_t hosts, size_t row, uint32_t partner, bool accepted)
{
    small_post();
    if ((hosts & 1u) != 0) {
        lent.policy[PARTNERS + 3] = 0;
    }
    lent.policy[HTTPS_HOSTS] = hosts;
    lent.policy[PARTNERS + row] = partner;
    gives(name, BYTES(0x03, 0, 0), accepted ? ACCEPTED(3, 0) : REFUSED(MONITOR_POLICY_BAD), (const uint8_t[]){0x03, 0, 0});
}

static void partners(void)
{
    for (uint32_t bit = 0; bit < 32; bit++) {
        /* host 1 has an http row without a partner, hosts 2 to 15 have no row */
        partner_gives("each host listed", 1u << bit, URLS - 1, NO_PARTNER, bit != 1 && bit < 16);
    }
    for (uint32_t partner = 0; partner < 1024; partner++) {
        partner_gives("the partner of an http row", 1, 3, partner, partner == 0);
        partner_gives("the partner of an https row", 1, 0, partner, partner == NO_PARTNER);
        partner_gives("the partner of an http row whose host is not listed", 1, 1, partner, partner == NO_PARTNER);
        partner_gives("the partner of an http row, and no host is listed", 0, 3, partner, partner == NO_PARTNER);
        partner_gives("the partner of an empty row", 1, 4, partner, partner == NO_PARTNER);
        partner_gives("the partner of the last row", 0, URLS - 1, partner, partner == NO_PARTNER);
    }
    small_post();
    doing = "a policy without https hosts and partners";
    struct lengths short_policy = RIGHT;
    short_policy.policy = HTTPS_HOSTS;
    check(feed_with(short_policy, BYTES(0x03, 0, 0)).number == MONITOR_POLICY_BAD, "it was taken");
}

/* A pair of each host at each place: rows are checked in groups, and the compiler makes code for each place. */
static void pairs(void)
{
    for (uint8_t row = 0; row < URLS; row++) {
        const uint8_t host = row % 16, other = (uint8_t)((row + 29) % URLS);
        const uint8_t load[] = {0x03, row, 1}, request[] = {0x03, other, 1};
        small_post();
        for (size_t url = 0; url < 4; url++) {
            set_words(lent.policy, 3 * url, 3, (const uint32_t[]){255, 0, 0});
        }
        set_words(lent.policy, 3u * row, 3, (const uint32_t[]){host, UINT32_MAX, UINT32_MAX});
        set_words(lent.policy, 3u * other, 3, (const uint32_t[]){16u + host, UINT32_MAX, UINT32_MAX});
        gives("an http row whose host is not listed", load, sizeof load, ACCEPTED(3, 0), load);
        lent.policy[HTTPS_HOSTS] = 1u << host;
        gives("a listed http row without a partner", load, sizeof load, REFUSED(MONITOR_POLICY_BAD), NOTHING);
        lent.policy[PARTNERS + row] = row;
        gives("a listed http row that is its own partner", load, sizeof load, REFUSED(MONITOR_POLICY_BAD), NOTHING);
        /* what follows the rows would make of 64 an https row of the host */
        set_words(lent.policy, 3 * URLS, 3, (const uint32_t[]){16u + host, UINT32_MAX, UINT32_MAX});
        lent.policy[PARTNERS + row] = URLS;
        gives("a listed http row with a partner past the rows", load, sizeof load, REFUSED(MONITOR_POLICY_BAD), NOTHING);
        lent.policy[PARTNERS + row] = other;
        gives("a listed http row with its partner", load, sizeof load, ACCEPTED(3, 0), request);
        lent.policy[PARTNERS + other] = other;
        gives("an https row that is its own partner", load, sizeof load, REFUSED(MONITOR_POLICY_BAD), NOTHING);
        lent.policy[PARTNERS + other] = NO_PARTNER;
        lent.policy[HTTPS_HOSTS] = 0xffffu ^ 1u << host;
        gives("an http row whose host is not listed with a partner", load, sizeof load, REFUSED(MONITOR_POLICY_BAD), NOTHING);
    }
}

static void always_https(void)
{
    upgrades();
    upgraded_labels();
    partners();
    pairs();
}

enum { READERS, SCRIPT_READERS, WRITERS };

static uint32_t *connection_sets(uint8_t connection)
{
    return lent.policy + 448 + 3u * connection;
}

/* ---- entries */

/* At host 0 of policy P, by https, URL 4 is a front page that anyone may link to and URL 5 the page behind it. URL 1 is a search page, which everyone
 * has shaped, on connection 1. */
static void front_page(void)
{
    small_post();
    set_words(lent.policy, 3 * 4, 3, (const uint32_t[]){MONITOR_ENTRY + 16, UINT32_MAX, 0x00010000});
    set_words(lent.policy, 3 * 5, 3, (const uint32_t[]){16, UINT32_MAX, 0x00010000});
    gives("the search page", BYTES(0x03, 1, 1), ACCEPTED(3, 0), (const uint8_t[]){0x03, 1, 1});
}

static void search_page(void)
{
    static const uint8_t requests[] = {5, 4, 1, 9, 7, 4, 1, 0, 5, 5, 1, 9}, picture_of_5[] = {7, 5, 1, 0};
    front_page();
    gives("the page behind the front page", BYTES(0x23, 1, 1, 5), WRITERS_FORBID(0), NOTHING);
    gives("the front page", BYTES(0x23, 1, 1, 4), ACCEPTED(3, 0), (const uint8_t[]){0x03, 4, 1});
    gives("the page behind it, from there", BYTES(0x23, 4, 1, 5), WRITERS_FORBID(0), NOTHING);
    gives("the page behind it, loaded", BYTES(0x03, 5, 1), ACCEPTED(3, 0), (const uint8_t[]){0x03, 5, 1});
    front_page();
    memcpy(lent.scripts, requests, sizeof requests);
    memcpy(lent.scripts + SCRIPT, picture_of_5, sizeof picture_of_5);
    gives("a script that gets to the front page", BYTES(0x0b, 1, 1, 0), ACCEPTED(7, 3), (const uint8_t[]){0x0b, 4, 1, 9, 0x43, 4, 1});
    gives("the search page again", BYTES(0x03, 1, 1), ACCEPTED(3, 0), (const uint8_t[]){0x03, 1, 1});
    gives("a script that does not get further", BYTES(0x0b, 1, 1, 1), ACCEPTED(0, 1), NOTHING);
}

/* What is asked for is URL 11, https at host 5, from the page of URL 10, http at host 2, that connection 8 awaits. */
enum { PAGE = 10, LINKED = 11, OWN = 8, OTHER = 9 };

static void link_post(bool is_entry, uint32_t readers, uint32_t writers)
{
    small_post();
    set_words(lent.policy, 3 * PAGE, 3, (const uint32_t[]){2, UINT32_MAX, UINT32_MAX});
    set_words(lent.policy, 3 * LINKED, 3, (const uint32_t[]){is_entry ? MONITOR_ENTRY + 21 : 21, readers, writers});
    lent.state[144 + OWN] = 1u << 24 | PAGE;
}

/* One endpoint, unless the condition of this number fails. */
static uint32_t unless(uint32_t fails, unsigned condition, unsigned endpoint)
{
    return (fails >> condition & 1u) != 0 ? 0 : 1u << endpoint;
}

/* What comes of a redirect where these conditions fail: the first of them tells. */
static struct monitor_answer redirect_failing(uint32_t fails)
{
    return (fails & 1u) != 0   ? READERS_FORBID(5)
           : (fails & 2u) != 0 ? READERS_FORBID(2)
           : (fails & 4u) != 0 ? WRITERS_FORBID(21)
           : (fails & 8u) != 0 ? WRITERS_FORBID(3)
                               : ACCEPTED(3, 0);
}

/* The conditions of a redirect, each alone and every few of them together: event endpoint, readers, message endpoint, writers. */
static void redirect_conditions(bool is_entry)
{
    for (uint32_t fails = 0; fails < 16; fails++) {
        const uint32_t asked = is_entry ? fails & 7u : fails;
        link_post(is_entry, 1u << 5 | unless(fails, 1, 2), 1u << 2 | 1u << 21 | unless(fails, 3, 3));
        set_words(connection_sets(OWN), 0, 3, (const uint32_t[]){1u << 2 | unless(fails, 0, 5), 0, 1u << 2 | 1u << 3 | unless(fails, 2, 21)});
        gives("the conditions of a redirect", BYTES(0x23, PAGE, OWN, LINKED), redirect_failing(asked), (const uint8_t[]){0x03, LINKED, OWN});
    }
}

/* The conditions of steps 5 and 7: the event endpoint in S, the other connection's readers within S and within the URL's, the message endpoint in its
 * writers, J within these and within the URL's writers. */
static void step_conditions(bool is_entry, uint8_t operation)
{
    const uint8_t step[] = {operation, LINKED, OTHER, 6};
    const uint8_t request[] = {operation == 5 ? 0x0b : 0x43, LINKED, OTHER, 6};
    for (uint32_t fails = 0; fails < 64; fails++) {
        const uint32_t script_readers = 1u << 2 | unless(fails, 0, 5) | unless(fails, 1, 7);
        const uint32_t asked = is_entry ? fails & 31u : fails;
        link_post(is_entry, 1u << 2 | 1u << 5 | unless(fails, 2, 7), 1u << 2 | unless(fails, 5, 3));
        set_words(connection_sets(OWN), 0, 3, (const uint32_t[]){script_readers, script_readers, 1u << 2 | 1u << 3});
        set_words(connection_sets(OTHER), 0, 3,
                  (const uint32_t[]){1u << 2 | 1u << 7, 0, 1u << 2 | unless(fails, 3, 21) | unless(fails, 4, 3)});
        memcpy(lent.scripts, step, sizeof step);
        gives("the conditions of a step", BYTES(0x0b, PAGE, OWN, 0), asked != 0 ? ACCEPTED(0, 1) : ACCEPTED(operation == 5 ? 4 : 3, 2), request);
    }
}

/* With host 0 of policy P listed, URL 0 is asked for in place of URL 3. Neither has the writers of connection 3, which awaits URL 0. */
static void linked_pair(uint32_t named, uint32_t partner)
{
    static const uint8_t requests_3[] = {5, 3, 3, 9}, picture_of_3[] = {7, 3, 3, 0};
    const bool is_entry = partner != 0;
    small_post();
    list_host_0();
    lent.policy[3 * 3] += named;
    lent.policy[0] += partner;
    lent.policy[3 * 3 + 2] = 0;
    gives("a load of a pair", BYTES(0x03, 3, 3), ACCEPTED(3, 0), (const uint8_t[]){0x03, 0, 3});
    gives("a redirect to a pair", BYTES(0x23, 0, 3, 3), is_entry ? ACCEPTED(3, 0) : WRITERS_FORBID(0), (const uint8_t[]){0x03, 0, 3});
    memcpy(lent.scripts, requests_3, sizeof requests_3);
    gives("a script that requests a pair", BYTES(0x0b, 0, 3, 0), is_entry ? ACCEPTED(4, 2) : ACCEPTED(0, 1), (const uint8_t[]){0x0b, 0, 3, 9});
    lent.state[144 + 3] = 1u << 24;
    memcpy(lent.scripts, picture_of_3, sizeof picture_of_3);
    gives("a script that requests a picture of a pair", BYTES(0x0b, 0, 3, 0), is_entry ? ACCEPTED(3, 2) : ACCEPTED(0, 1),
          (const uint8_t[]){0x43, 0, 3});
    lent.policy[PARTNERS + 3] = NO_PARTNER;
    gives("a pair without its partner", BYTES(0x03, 0, 0), REFUSED(MONITOR_POLICY_BAD), NOTHING);
    lent.policy[HTTPS_HOSTS] = 0;
    gives("a row alone", BYTES(0x03, 3, 3), ACCEPTED(3, 0), (const uint8_t[]){0x03, 3, 3});
}

static void entries(void)
{
    search_page();
    for (int is_entry = 0; is_entry < 2; is_entry++) {
        redirect_conditions(is_entry != 0);
        step_conditions(is_entry != 0, 5);
        step_conditions(is_entry != 0, 7);
        linked_pair(0, is_entry != 0 ? MONITOR_ENTRY : 0);
        linked_pair(MONITOR_ENTRY, is_entry != 0 ? MONITOR_ENTRY : 0);
    }
}

/* ---- the endpoint that is missing */

/* One endpoint or two, where they are the same. */
static uint32_t both(uint32_t low, uint32_t high)
{
    return 1u << low | 1u << high;
}

static uint32_t lowest(uint32_t set)
{
    uint32_t endpoint = 0;
    while (endpoint < 32 && (set >> endpoint & 1u) == 0) {
        endpoint++;
    }
    return endpoint;
}

/* The three words of URL LINKED, and readers and writers of connections OWN, which awaits PAGE, and OTHER, which is free. PAGE has an address that is
 * among the writers, so that OWN may hold it. */
static void lacking_post(uint32_t word, uint32_t url_readers, uint32_t url_writers, uint32_t readers, uint32_t writers)
{
    small_post();
    set_words(lent.policy, 3 * PAGE, 3, (const uint32_t[]){lowest(writers), UINT32_MAX, UINT32_MAX});
    set_words(lent.policy, 3 * LINKED, 3, (const uint32_t[]){word, url_readers, url_writers});
    set_words(connection_sets(OWN), 0, 3, (const uint32_t[]){readers, 0, writers});
    set_words(connection_sets(OTHER), 0, 3, (const uint32_t[]){readers, 0, writers});
    lent.state[144 + OWN] = 1u << 24 | PAGE;
}

static void load_tells(const char *name, struct monitor_answer want)
{
    gives(name, BYTES(0x03, LINKED, OTHER), want, (const uint8_t[]){0x03, LINKED, OTHER});
}

static void redirect_tells(const char *name, struct monitor_answer want)
{
    gives(name, BYTES(0x23, PAGE, OWN, LINKED), want, (const uint8_t[]){0x03, LINKED, OWN});
}

/* The conditions that ask of a set to be within another, which lacks two endpoints or one: the lowest is told. The URL is by https at a host whose
 * event endpoint is neither of them. */
static void lacks_pair(uint32_t low, uint32_t high)
{
    const uint32_t host = low > 0 ? 0 : high == 1 ? 2 : 1, pair = both(low, high);
    lacking_post(16 + host, ~pair, UINT32_MAX, UINT32_MAX, UINT32_MAX);
    load_tells("readers that a load's URL lacks", READERS_FORBID(low));
    redirect_tells("readers that a redirect's target lacks", READERS_FORBID(low));
    lacking_post(16 + host, ~pair, UINT32_MAX, pair | 1u << host, UINT32_MAX);
    load_tells("the only readers but one, which a load's URL lacks", READERS_FORBID(low));
    redirect_tells("the only readers but one, which a redirect's target lacks", READERS_FORBID(low));
    lacking_post(16 + host, UINT32_MAX, ~pair, UINT32_MAX, UINT32_MAX);
    load_tells("writers that a load's URL lacks, which is not asked", ACCEPTED(3, 0));
    redirect_tells("writers that a redirect's target lacks", WRITERS_FORBID(low));
    lacking_post(MONITOR_ENTRY + 16 + host, UINT32_MAX, ~pair, UINT32_MAX, UINT32_MAX);
    redirect_tells("writers that an entry lacks, which is not asked", ACCEPTED(3, 0));
}

/* The conditions that ask of a set to have an endpoint of the URL. Where the first of two fails, what is missing in the second is not told. */
static void lacks_endpoint(uint32_t word)
{
    const uint32_t message = word % 32, event = word % 16, other = event == 3 ? 4 : 3;
    for (int k = 0; k < 2; k++) {
        const uint32_t url_readers = k == 0 ? UINT32_MAX : ~(1u << other), url_writers = k == 0 ? UINT32_MAX : 0;
        lacking_post(word, url_readers, url_writers, ~(1u << event), UINT32_MAX);
        redirect_tells("the event endpoint of a redirect's target", READERS_FORBID(event));
        lacking_post(word, UINT32_MAX, url_writers, UINT32_MAX, ~(1u << message));
        load_tells("the message endpoint of a load's URL", WRITERS_FORBID(message));
        redirect_tells("the message endpoint of a redirect's target", WRITERS_FORBID(message));
    }
    lacking_post(word, ~(1u << other), 0, UINT32_MAX, ~(1u << message));
    load_tells("readers of a load's URL, and its message endpoint", READERS_FORBID(other));
    redirect_tells("readers of a redirect's target, and its message endpoint", READERS_FORBID(other));
}

/* With host 0 of policy P listed, URL 0 is asked for in place of URL 3: of URL 3 another endpoint would be told. */
static void partner_lacks(void)
{
    small_post();
    list_host_0();
    set_words(lent.policy, 0, 3, (const uint32_t[]){16, ~both(9, 9), ~both(7, 7)});
    set_words(lent.policy, 3 * 3, 3, (const uint32_t[]){0, ~both(8, 8), ~both(6, 6)});
    gives("readers that the partner of a load's URL lacks", BYTES(0x03, 3, 1), READERS_FORBID(9), NOTHING);
    connection_sets(OTHER)[WRITERS] = 1u << 5;
    gives("the message endpoint of the partner of a load's URL", BYTES(0x03, 3, OTHER), WRITERS_FORBID(16), NOTHING);
    gives("the page", BYTES(0x03, 1, 1), ACCEPTED(3, 0), (const uint8_t[]){0x03, 1, 1});
    gives("readers that the partner of a redirect's target lacks", BYTES(0x23, 1, 1, 3), READERS_FORBID(9), NOTHING);
    set_words(connection_sets(1), 0, 3, (const uint32_t[]){1, 0, ~both(0, 16)});
    gives("the message endpoint of the partner of a redirect's target", BYTES(0x23, 1, 1, 3), WRITERS_FORBID(16), NOTHING);
    connection_sets(1)[WRITERS] = UINT32_MAX;
    gives("writers that the partner of a redirect's target lacks", BYTES(0x23, 1, 1, 3), WRITERS_FORBID(7), NOTHING);
}

static void missing(void)
{
    for (uint32_t low = 0; low < 32; low++) {
        for (uint32_t high = low; high < 32; high++) {
            lacks_pair(low, high);
        }
    }
    for (uint32_t word = 0; word < 2 * MONITOR_ENTRY; word++) {
        lacks_endpoint(word);
    }
    partner_lacks();
}

/* ---- the endpoints of an address: each question that is about one, asked of a set that has one endpoint */

/* A URL with its address word and what its endpoints should be; another URL, that a redirect or a script comes from; a connection that awaits a
 * document, and a free one. */
struct asked {
    uint32_t word;
    uint8_t message, event, url, from, awaiting, free;
};

/* Everyone reads and writes the two URLs; no one reads the two connections, and everyone writes them. */
static void open_post(const struct asked *a, uint32_t from_address, uint8_t awaited)
{
    small_post();
    for (size_t row = 0; row < 4; row++) {
        set_words(lent.policy, 3 * row, 3, (const uint32_t[]){255, 0, 0});
    }
    set_words(lent.policy, 3u * a->url, 3, (const uint32_t[]){a->word, UINT32_MAX, UINT32_MAX});
    set_words(lent.policy, 3u * a->from, 3, (const uint32_t[]){from_address, UINT32_MAX, UINT32_MAX});
    set_words(connection_sets(a->awaiting), 0, 3, (const uint32_t[]){0, 0, UINT32_MAX});
    set_words(connection_sets(a->free), 0, 3, (const uint32_t[]){0, 0, UINT32_MAX});
    lent.state[144 + a->awaiting] = 1u << 24 | awaited;
}

/* Loads the URL on the free connection. */
static void load_gives(const char *name, const struct asked *a, bool accepted, struct monitor_answer refusal)
{
    const uint8_t load[] = {0x03, a->url, a->free};
    gives(name, load, sizeof load, accepted ? ACCEPTED(3, 0) : refusal, load);
}

/* A row is well formed with its event endpoint alone as reader. */
static void ask_row(const struct asked *a, uint8_t endpoint)
{
    open_post(a, 0, a->from);
    lent.policy[3u * a->url + 1] = 1u << endpoint;
    load_gives("a row's event endpoint", a, endpoint == a->event, REFUSED(MONITOR_POLICY_BAD));
}

/* A load, and a connection that awaits the URL, want the message endpoint among the connection's writers. */
static void ask_fit(const struct asked *a, uint8_t endpoint)
{
    open_post(a, 0, a->from);
    connection_sets(a->free)[WRITERS] = 1u << endpoint;
    load_gives("a load's message endpoint", a, endpoint == a->message, WRITERS_FORBID(a->message));
    open_post(a, 0, a->url);
    connection_sets(a->awaiting)[WRITERS] = 1u << endpoint;
    load_gives("an awaited URL's message endpoint", a, endpoint == a->message, REFUSED(MONITOR_STATE_UNSOUND));
}

/* A redirect wants the event endpoint among the connection's readers, and the message endpoint among its writers. */
static void ask_redirect(const struct asked *a, uint8_t endpoint)
{
    const uint8_t request[] = {0x03, a->url, a->awaiting};
    open_post(a, 0, a->from);
    connection_sets(a->awaiting)[READERS] = 1u << endpoint;
    gives("a redirect's event endpoint", BYTES(0x23, a->from, a->awaiting, a->url),
          endpoint == a->event ? ACCEPTED(3, 0) : READERS_FORBID(a->event), request);
    open_post(a, endpoint, a->from);
    connection_sets(a->awaiting)[READERS] = 1u << a->event;
    connection_sets(a->awaiting)[WRITERS] = 1u << endpoint;
    gives("a redirect's message endpoint", BYTES(0x23, a->from, a->awaiting, a->url),
          endpoint == a->message ? ACCEPTED(3, 0) : WRITERS_FORBID(a->message), request);
}

/* The response of the page that is awaited runs a script, which requests the URL on the free connection: by step 5, or as a picture by step 7. */
static void script_gives(const char *name, const struct asked *a, uint8_t operation, bool allowed)
{
    const uint8_t step[] = {operation, a->url, a->free, 0};
    const uint8_t request[] = {operation == 5 ? 0x0b : 0x43, a->url, a->free, 0};
    const uint32_t bytes = operation == 5 ? 4 : 3;
    memcpy(lent.scripts, step, sizeof step);
    gives(name, BYTES(0x0b, a->from, a->awaiting, 0), allowed ? ACCEPTED(bytes, 2) : ACCEPTED(0, 1), request);
}

/* A script wants the event endpoint among its own readers, and the message endpoint among the free connection's writers. */
static void ask_script(const struct asked *a, uint8_t endpoint, uint8_t operation)
{
    uint32_t *const sets = connection_sets(a->awaiting);
    open_post(a, 0, a->from);
    sets[READERS] = sets[SCRIPT_READERS] = 1u << endpoint;
    script_gives("a script's event endpoint", a, operation, endpoint == a->event);
    open_post(a, endpoint, a->from);
    sets[READERS] = sets[SCRIPT_READERS] = 1u << a->event;
    sets[WRITERS] = connection_sets(a->free)[WRITERS] = 1u << endpoint;
    script_gives("a script's message endpoint", a, operation, endpoint == a->message);
}

/* Nobody writes the URL: a load asks for that in no case, and a redirect and a script where the URL is no entry. */
static void ask_writers(const struct asked *a)
{
    const bool is_entry = a->word >= MONITOR_ENTRY;
    const uint8_t request[] = {0x03, a->url, a->awaiting};
    uint32_t *const sets = connection_sets(a->awaiting);
    open_post(a, 0, a->from);
    lent.policy[3u * a->url + 2] = 0;
    load_gives("a load of a URL that nobody writes", a, true, ACCEPTED(3, 0));
    sets[READERS] = sets[SCRIPT_READERS] = 1u << a->event;
    gives("a redirect to a URL that nobody writes", BYTES(0x23, a->from, a->awaiting, a->url),
          is_entry ? ACCEPTED(3, 0) : WRITERS_FORBID(0), request);
    for (uint8_t operation = 5; operation <= 7; operation += 2) {
        lent.state[144 + a->awaiting] = 1u << 24 | a->from;
        script_gives("a script that requests a URL that nobody writes", a, operation, is_entry);
    }
}

/* A request carries a cookie of the URL's host whose readers have the message endpoint. */
static void ask_cookie(const struct asked *a, uint8_t endpoint)
{
    const bool carried = endpoint == a->message;
    open_post(a, 0, a->from);
    lent.policy[192 + 16u * a->event] = 1u << endpoint;
    lent.state[8u * a->event] = 7;
    lent.state[128 + a->event] = 1;
    gives("a cookie's message endpoint", BYTES(0x03, a->url, a->free), ACCEPTED(carried ? 8 : 3, 0),
          (const uint8_t[]){carried ? 0x07 : 0x03, a->url, a->free, 0x01, 0, 0, 0, 7});
}

/* Rows and connections at each place of a group: the compiler makes code for each. */
static void ask_all(uint32_t word, uint8_t message, uint8_t event)
{
    struct asked a = {.word = word, .message = message, .event = event};
    for (uint8_t place = 0; place < 8; place++) {
        a.url = (uint8_t)(8 * ((word + place) % 8) + place);
        a.from = 63 - a.url;
        a.awaiting = place;
        a.free = 31 - place;
        ask_writers(&a);
        for (uint8_t endpoint = 0; endpoint < 32; endpoint++) {
            ask_row(&a, endpoint);
            ask_fit(&a, endpoint);
            ask_redirect(&a, endpoint);
            ask_script(&a, endpoint, 5);
            ask_script(&a, endpoint, 7);
            ask_cookie(&a, endpoint);
        }
    }
}

static void endpoints(void)
{
    for (uint8_t host = 0; host < 16; host++) {
        const uint8_t http = host, https = 16 + host;
        ask_all(http, http, http);
        ask_all(https, https, http);
        ask_all(MONITOR_ENTRY + http, http, http);
        ask_all(MONITOR_ENTRY + https, https, http);
    }
}

/* Loads a URL under a policy that has another one of this address word, which everyone reads. */
static void word_gives(uint32_t word)
{
    const struct asked a = {.word = word, .url = 1, .from = 0, .awaiting = 0, .free = 1};
    open_post(&a, 0, 0);
    gives("an address word", BYTES(0x03, 0, 1), word < 2 * MONITOR_ENTRY ? ACCEPTED(3, 0) : REFUSED(MONITOR_POLICY_BAD),
          (const uint8_t[]){0x03, 0, 1});
}

/* Every word up to 1,023; and above them each that a narrower type would turn into an address or an entry. */
static void address_words(void)
{
    for (uint32_t word = 0; word < 1024; word++) {
        word_gives(word);
    }
    for (uint32_t high = 1024; high != 0; high <<= 1) {
        for (uint32_t low = 0; low < 2 * MONITOR_ENTRY; low++) {
            word_gives(high + low);
        }
    }
    small_post();
    gives("empty rows", BYTES(0x03, 0, 0), ACCEPTED(3, 0), (const uint8_t[]){0x03, 0, 0});
    lent.policy[3 * 4] = 254;
    gives("a row that is empty but for its word", BYTES(0x03, 0, 0), REFUSED(MONITOR_POLICY_BAD), NOTHING);
}

/* ---- wrong lengths */

/* Every length of one buffer from none to SPARE more than right, of a call that is accepted at the right one. */
static void lengths_of(const char *name, size_t right, size_t *length, struct lengths *n, uint32_t number, bool longer)
{
    doing = name;
    for (size_t k = 0; k <= right + SPARE; k++) {
        store_7(name);
        *length = k;
        struct monitor_answer answer = feed_with(*n, BYTES(0x03, 0, 0));
        if (k == right || (longer && k > right)) {
            check(answer.number == MONITOR_ACCEPTED && answer.bytes == 8, "a right length was refused");
        } else {
            check(answer.number == number, "a wrong length got another number");
        }
    }
    *length = right;
}

static void wrong_lengths(void)
{
    struct lengths n = RIGHT;
    lengths_of("length of the policy", RIGHT.policy, &n.policy, &n, MONITOR_POLICY_BAD, false);
    lengths_of("length of the script table", RIGHT.scripts, &n.scripts, &n, MONITOR_SCRIPTS_BAD, false);
    lengths_of("length of the state", RIGHT.state, &n.state, &n, MONITOR_STATE_UNSOUND, false);
    lengths_of("length of the output", RIGHT.out, &n.out, &n, MONITOR_OUTPUT_SHORT, true);
    /* the first that applies */
    static const uint32_t order[] = {MONITOR_OUTPUT_SHORT, MONITOR_POLICY_BAD, MONITOR_SCRIPTS_BAD, MONITOR_STATE_UNSOUND,
                                     MONITOR_KIND_UNKNOWN};
    struct lengths wrong = {RIGHT.policy + 1, RIGHT.scripts - 1, RIGHT.state + 1, RIGHT.out - 1};
    size_t *const parts[] = {&wrong.out, &wrong.policy, &wrong.scripts, &wrong.state};
    const size_t rights[] = {RIGHT.out, RIGHT.policy, RIGHT.scripts, RIGHT.state};
    doing = "several wrong lengths";
    for (size_t k = 0; k < 5; k++) {
        check(feed_with(wrong, NOTHING, 0).number == order[k], "the number is not the first that applies");
        if (k < 4) {
            *parts[k] = rights[k];
        }
    }
}

/* ---- null pointers, each with length 0: every set of the five buffers */

enum { OUT = 1, POLICY = 2, SCRIPTS = 4, STATE = 8, RECORD = 16, EVERY = 31 };

static uint32_t number_without(unsigned null)
{
    return null & OUT       ? MONITOR_OUTPUT_SHORT
           : null & POLICY  ? MONITOR_POLICY_BAD
           : null & SCRIPTS ? MONITOR_SCRIPTS_BAD
           : null & STATE   ? MONITOR_STATE_UNSOUND
           : null & RECORD  ? MONITOR_KIND_UNKNOWN
                            : MONITOR_ACCEPTED;
}

static void null_pointers(void)
{
    static const uint8_t load[] = {0x03, 0, 0};
    for (unsigned null = 0; null <= EVERY; null++) {
        small_post();
        doing = "null pointers";
        prepare(load, sizeof load);
        struct lengths n = {null & POLICY ? 0 : RIGHT.policy, null & SCRIPTS ? 0 : RIGHT.scripts, null & STATE ? 0 : RIGHT.state,
                            null & OUT ? 0 : RIGHT.out};
        struct monitor_answer answer =
            monitor_feed(null & POLICY ? NULL : lent.policy, n.policy, null & SCRIPTS ? NULL : lent.scripts, n.scripts,
                         null & STATE ? NULL : lent.state, n.state, null & RECORD ? NULL : lent.record, null & RECORD ? 0 : sizeof load,
                         null & OUT ? NULL : lent.out, n.out);
        check_answer(answer, n);
        check(answer.number == number_without(null), "another number");
    }
}

/* ---- random records */

/* Sessions of policy P with random scripts, every second one with both hosts listed, and some with entries. Records are mostly near good ones, so
 * that many are accepted. */
static void random_records(void)
{
    static const uint8_t maps[] = {0x03, 0x03, 0x0b, 0x0f, 0x13, 0x17, 0x23, 0x27, 0x43, 0x47};
    static const uint8_t sizes[] = {3, 3, 4, 9, 7, 12, 4, 9, 3, 8};
    unsigned long accepted = 0, forbidden = 0;
    doing = "random records";
    for (uint32_t k = 0; k < 20000; k++) {
        if (k % 50 == 0) {
            small_post();
            if (k % 100 == 0) {
                list_host_0();
                lent.policy[HTTPS_HOSTS] |= 2;
                lent.policy[PARTNERS + 1] = 2;
            }
            for (size_t url = 0; url < 4; url++) {
                lent.policy[3 * url] += (k / 50 >> url & 1u) * MONITOR_ENTRY;
            }
            for (size_t i = 0; i < MONITOR_SCRIPT_BYTES; i++) {
                lent.scripts[i] = (uint8_t)(next_random() >> 8 & (i % 4 == 0 ? 7u : 3u));
            }
        }
        uint8_t record[LONGEST];
        for (size_t i = 0; i < sizeof record; i++) {
            record[i] = (uint8_t)(next_random() >> 8 & 3u);
        }
        size_t kind = (next_random() >> 8) % sizeof maps;
        record[0] = maps[kind];
        if ((record[0] & 0x04u) != 0) {
            record[3] = 1;
        }
        size_t size = sizes[kind];
        if (k % 16 == 0) {
            size = next_random() >> 8 & 0xffu;
            record[next_random() >> 8 & 7u] = (uint8_t)(next_random() >> 8 & 0xffu);
        }
        const struct monitor_answer answer = feed_with(RIGHT, record, size);
        accepted += answer.number == MONITOR_ACCEPTED;
        forbidden += is_forbidden(answer);
    }
    check(accepted > 1000, "next to nothing was accepted");
    check(forbidden > 1000, "next to nothing was forbidden by labels");
}

int main(void)
{
    loads();
    cookies();
    malformed();
    scripts();
    pictures();
    always_https();
    entries();
    missing();
    endpoints();
    address_words();
    wrong_lengths();
    null_pointers();
    random_records();
    printf("monitor: cases a to j, the script in two connections, pictures, https hosts, entries, every missing endpoint, the endpoints of every "
           "address and of its entry, every wrong length, null pointers agree, and random records touch nothing else: %lu calls\n",
           calls);
    return 0;
}
