/* Links libreach_table.a, and libmonitor.a for what a monitor loads: the table of document 01's policy P and of others that are known beforehand,
 * each cell alone, each address with each endpoint, rows that have a partner, every length, each way in which a policy is not well formed, numbers
 * that no connection and no URL has, null pointers, random policies, and pairs of them that differ in one row or in one connection. The policy is
 * counted between guards, in memory of just its length, where valgrind sees a read past an end, and at the end of pages that cannot be written and
 * have nothing behind them. Cells are held to the definition, read slowly, and to the loads that the monitor accepts, and counts to the cells. */
#define _XOPEN_SOURCE 700
#include <inttypes.h>
#include <stdbool.h>
#include <stdio.h>
#include <stdlib.h>
#include <string.h>

#include "lent.h"
#include "monitor.h"
#include "policies.h"
#include "random.h"
#include "reach_table.h"

enum { ALL_CELLS = REACH_CONNECTIONS * REACH_URLS, POLICY_SIZE = MONITOR_POLICY_WORDS * sizeof(uint32_t) };

/* the counts of the first connections, as an argument; the others reach nothing */
#define COUNTS(...) ((const uint32_t[REACH_CONNECTIONS]){__VA_ARGS__})

static struct guarded guarded_policy;
static struct pages policy_pages;
static const char *doing = "nothing yet";

static void check(bool holds, const char *what)
{
    if (!holds) {
        fprintf(stderr, "reach_table: %s: %s (call %lu)\n", doing, what, calls);
        exit(EXIT_FAILURE);
    }
}

static bool same(const struct reach_table *a, const struct reach_table *b)
{
    return a->number == b->number && a->all == b->all && memcmp(a->urls, b->urls, sizeof a->urls) == 0;
}

static struct reach_table refused(void)
{
    return (struct reach_table){.number = REACH_POLICY_BAD};
}

static struct reach_table counted(const uint32_t *urls)
{
    struct reach_table table = {.number = REACH_ACCEPTED};
    for (size_t connection = 0; connection < REACH_CONNECTIONS; connection++) {
        table.urls[connection] = urls[connection];
        table.all += urls[connection];
    }
    return table;
}

/* ---- calling */

static struct reach_table count_guarded(struct span words)
{
    lay(&guarded_policy, words, sizeof *policy);
    const void *const lent = guarded_policy.lent;
    struct reach_table table = reach_count(lent, words.size / sizeof *policy);
    check_kept(&guarded_policy, words);
    return table;
}

static struct reach_table count_bare(struct span words)
{
    void *const lent = bare_copy(words);
    struct reach_table table = reach_count(lent, words.size / sizeof *policy);
    check(equal(lent, words), "the policy changed, in memory of its length");
    free(lent);
    return table;
}

static struct reach_table count_at_the_end(struct span words)
{
    return reach_count(at_the_end(&policy_pages, words), words.size / sizeof *policy);
}

static void print_table(const char *name, const struct reach_table *it)
{
    fprintf(stderr, "reach_table: %s: number %" PRIu32 ", counts", name, it->number);
    for (size_t connection = 0; connection < REACH_CONNECTIONS; connection++) {
        fprintf(stderr, " %" PRIu32, it->urls[connection]);
    }
    fprintf(stderr, ", all %" PRIu32 "\n", it->all);
}

/* With so many words of the policy. */
static void gives_with(size_t words, struct reach_table want)
{
    const struct span lent = {policy, words * sizeof *policy};
    calls++;
    struct reach_table guarded = count_guarded(lent), bare = count_bare(lent), at_end = count_at_the_end(lent);
    if (same(&guarded, &want) && same(&bare, &want) && same(&at_end, &want)) {
        return;
    }
    print_table("between guards", &guarded);
    print_table("in memory of its length", &bare);
    print_table("at the end of pages", &at_end);
    print_table("expected", &want);
    check(false, "something else is counted");
}

static void gives(struct reach_table want)
{
    gives_with(MONITOR_POLICY_WORDS, want);
}

/* One way is enough where there are many policies: valgrind takes its time. */
static void gives_once(struct reach_table want)
{
    calls++;
    const struct reach_table table = count_at_the_end((struct span){policy, POLICY_SIZE});
    if (!same(&table, &want)) {
        gives(want);
    }
}

static struct reach_table count(void)
{
    calls++;
    return reach_count(policy, MONITOR_POLICY_WORDS);
}

/* Of the policy that was last counted at the end of the pages. */
static bool fits(uint32_t connection, uint32_t url)
{
    const void *const lent = policy_pages.lent + MOST_BYTES - POLICY_SIZE;
    calls++;
    return reach_fits(lent, MONITOR_POLICY_WORDS, connection, url);
}

/* ---- what should be counted: the definition, read slowly, under a policy that is well formed */

static bool holds(uint32_t set, uint32_t endpoint)
{
    return (set >> endpoint & 1u) == 1;
}

static bool fits_slowly(uint32_t connection, uint32_t url)
{
    const uint32_t *const of_url = url_words(url), *const of_connection = connection_words(connection);
    if (!is_url(url)) {
        return false;
    }
    for (uint32_t endpoint = 0; endpoint < 32; endpoint++) {
        if (holds(of_connection[0], endpoint) && !holds(of_url[1], endpoint)) {
            return false;
        }
    }
    return holds(of_connection[2], of_url[0] % MONITOR_ENTRY);
}

/* From a state of zeros. */
static bool monitor_loads(uint32_t connection, uint32_t url)
{
    uint32_t state[MONITOR_STATE_WORDS] = {0};
    return feed(state, (const uint8_t[]){0x03, (uint8_t)url, (uint8_t)connection}, 3).number == MONITOR_ACCEPTED;
}

static struct reach_table counted_slowly(void)
{
    uint32_t urls[REACH_CONNECTIONS] = {0};
    for (uint32_t connection = 0; connection < REACH_CONNECTIONS; connection++) {
        for (uint32_t url = 0; url < REACH_URLS; url++) {
            urls[connection] += fits_slowly(connection, url);
        }
    }
    return counted(urls);
}

/* Every cell. What the monitor loads is the partner of a URL that has one. */
static void check_cells(void)
{
    for (uint32_t cell = 0; cell < ALL_CELLS; cell++) {
        const uint32_t connection = cell / REACH_URLS, url = cell % REACH_URLS, partner = policy[PARTNERS + url];
        check(fits(connection, url) == fits_slowly(connection, url), "a cell is another");
        const bool is_loaded = fits_slowly(connection, partner == NO_PARTNER ? url : partner);
        check(monitor_loads(connection, url) == is_loaded, "the monitor loads something else");
    }
}

/* Nothing is reached under a policy that is not well formed. */
static void check_no_cells(void)
{
    for (uint32_t i = 0; i < REACH_URLS; i++) {
        check(!fits(i % REACH_CONNECTIONS, i) && !fits(below(REACH_CONNECTIONS), i), "a cell of a refused policy is counted");
    }
}

static void counts_as_slowly(void)
{
    gives_once(is_well_formed() ? counted_slowly() : refused());
}

/* With every cell. */
static void counts_and_cells_as_slowly(void)
{
    if (is_well_formed()) {
        gives(counted_slowly());
        check_cells();
    } else {
        gives(refused());
        check_no_cells();
    }
}

/* What is known beforehand: the slow reading and the monitor are held to it as well, so that they can be trusted elsewhere. */
static void worked(const uint32_t *urls)
{
    const struct reach_table want = counted(urls), slowly = counted_slowly();
    check(is_well_formed() && same(&slowly, &want), "the test itself counts something else");
    gives(want);
    check_cells();
}

static void worked_bad(void)
{
    check(!is_well_formed(), "the test's policy is well formed");
    gives(refused());
    check_no_cells();
}

/* ---- worked tables */

static void small_post_table(void)
{
    doing = "policy P";
    small_post();
    worked(COUNTS(1, 2, 1, 2));
    check(fits(0, 0) && fits(1, 1) && fits(1, 2) && fits(2, 0) && fits(3, 0) && fits(3, 3), "a cell that is known is not counted");

    doing = "policy P with entries";
    for (size_t url = 0; url < 4; url++) {
        policy[3 * url] += MONITOR_ENTRY;
    }
    worked(COUNTS(1, 2, 1, 2));

    doing = "policy P with host 0 always https";
    small_post();
    list_host(0, 3, 0);
    worked(COUNTS(1, 2, 1, 2));
    check(!fits(0, 3) && monitor_loads(0, 3) && fits(3, 3), "URL 3 is not counted by its own labels");
}

/* Every URL by every connection. */
static void open_policy(void)
{
    empty_policy();
    for (uint32_t i = 0; i < REACH_URLS; i++) {
        set_url(i, i, UINT32_MAX, UINT32_MAX);
        set_connection(i % REACH_CONNECTIONS, UINT32_MAX, UINT32_MAX);
    }
}

static void whole_tables(void)
{
    doing = "64 empty rows";
    empty_policy();
    worked(COUNTS(0));
    for (uint32_t connection = 0; connection < REACH_CONNECTIONS; connection++) {
        set_connection(connection, connection % 2 == 0 ? 0 : UINT32_MAX, UINT32_MAX);
    }
    worked(COUNTS(0));

    doing = "everything";
    open_policy();
    counts_and_cells_as_slowly();
    check(count().all == ALL_CELLS, "not everything is counted");
}

/* One URL and one connection: its cell is the only one. */
static void each_cell(void)
{
    doing = "each cell alone";
    for (uint32_t connection = 0; connection < REACH_CONNECTIONS; connection++) {
        for (uint32_t url = 0; url < REACH_URLS; url++) {
            uint32_t urls[REACH_CONNECTIONS] = {0};
            empty_policy();
            set_url(url, url, UINT32_MAX, 0);
            set_connection(connection, 0, UINT32_MAX);
            urls[connection] = 1;
            gives_once(counted(urls));
            check(fits(connection, url) && !fits(connection, (url + 1) % REACH_URLS), "a cell is another");
            check(!fits((connection + 1) % REACH_CONNECTIONS, url), "a cell is another");
        }
    }
}

/* Each endpoint for each address word: it is to be the message endpoint among the writers, and to be among the URL's readers. */
static void each_endpoint(void)
{
    doing = "the endpoints of each address";
    for (uint32_t word = 0; word < 2 * MONITOR_ENTRY; word++) {
        const uint32_t message = word % MONITOR_ENTRY, event = word % HOSTS;
        for (uint32_t endpoint = 0; endpoint < 32; endpoint++) {
            empty_policy();
            set_url(63, word, 1u << event, 0);
            set_connection(30, 0, UINT32_C(1) << endpoint);
            set_connection(31, UINT32_C(1) << endpoint, UINT32_MAX);
            uint32_t urls[REACH_CONNECTIONS] = {[30] = endpoint == message, [31] = endpoint == event};
            gives_once(counted(urls));
        }
    }
}

/* A row that has a partner is counted by its own labels, and its partner by its own. */
static void each_partner(void)
{
    doing = "each row with its partner";
    for (uint32_t row = 0; row < URLS; row++) {
        const uint32_t host = row % HOSTS, other = (row + 29) % URLS, http = UINT32_C(1) << host;
        empty_policy();
        set_url(row, host, UINT32_MAX, UINT32_MAX);
        set_url(other, HOSTS + host, http, 0);
        set_connection(4, UINT32_MAX, UINT32_MAX);
        set_connection(9, http, http << HOSTS);
        set_connection(11, http, http | http << HOSTS);
        gives(counted(COUNTS([4] = 1, [9] = 1, [11] = 2)));
        list_host(host, row, other);
        gives(counted(COUNTS([4] = 1, [9] = 1, [11] = 2)));
        check(fits(4, row) && !fits(9, row) && fits(11, row), "a row is not counted by its own labels");
        check(!monitor_loads(4, row) && monitor_loads(9, row) && monitor_loads(11, row), "the monitor does not load the partner");
    }
}

/* ---- lengths and numbers */

/* Behind the policy it stands a second time. */
static void lengths(void)
{
    doing = "every length";
    open_policy();
    memcpy(policy + MONITOR_POLICY_WORDS, policy, POLICY_SIZE);
    const struct reach_table whole = counted_slowly();
    for (size_t words = 0; words <= MOST_WORDS; words++) {
        const bool is_right = words == MONITOR_POLICY_WORDS;
        gives_with(words, is_right ? whole : refused());
        check(reach_fits(policy, words, 31, 63) == is_right, "a cell is counted by another length");
    }
}

/* Some of them, times three, come to a small number where a word wraps. */
static void numbers_beyond(void)
{
    static const uint32_t beyond[] = {64, 65, 95, 96, 127, 128, 255, 256, 0x10000, 0x55555556, 0x7fffffff, 0x80000000, 0xaaaaaaab, UINT32_MAX};
    doing = "numbers that nothing has";
    open_policy();
    gives(counted_slowly());
    check(fits(31, 63), "the last cell is not counted");
    for (size_t i = 0; i < sizeof beyond / sizeof *beyond; i++) {
        check(!fits(0, beyond[i]) && !fits(31, beyond[i]), "a URL above 63 is counted");
        check(!fits(beyond[i], 0) && !fits(beyond[i], 63) && !fits(beyond[i], beyond[i]), "a connection above 31 is counted");
    }
    for (uint32_t connection = REACH_CONNECTIONS; connection < 300; connection++) {
        check(!fits(connection, 0), "a connection above 31 is counted");
    }
}

static void null_pointers(void)
{
    const struct reach_table none = refused(), table = reach_count(NULL, 0);
    doing = "null pointers";
    check(same(&table, &none) && !reach_fits(NULL, 0, 0, 0), "no policy gives something else");
}

/* ---- each way in which a policy is not well formed */

/* The policy with one word changed. */
static void bad_word(size_t at, uint32_t value)
{
    const uint32_t kept = policy[at];
    policy[at] = value;
    worked_bad();
    policy[at] = kept;
}

static void bad_rows(void)
{
    static const uint32_t words[] = {64, 127, 128, 254, 255, 256, 0x80000000, UINT32_MAX};
    doing = "rows that are not well formed";
    open_policy();
    for (size_t row = 0; row < URLS; row++) {
        for (size_t i = 0; i < sizeof words / sizeof *words; i++) {
            bad_word(3 * row, words[i]); /* no address; 255 with readers and writers */
        }
        bad_word(3 * row + 1, ~(UINT32_C(1) << row % HOSTS)); /* without its event endpoint */
        set_url(row, 255, 0, 0);
        gives(counted_slowly());
        bad_word(3 * row + 1, 1);
        bad_word(3 * row + 2, 1);
        bad_word(PARTNERS + row, 0); /* a partner of an empty row */
    }
}

static void bad_connections(void)
{
    doing = "script readers that are not within the readers";
    open_policy();
    for (uint32_t connection = 0; connection < CONNECTIONS; connection++) {
        set_connection(connection, 0x0000ffff, UINT32_MAX);
        bad_word(CONNECTIONS_AT + 3 * connection + 1, UINT32_C(1) << (HOSTS + connection % HOSTS));
        bad_word(CONNECTIONS_AT + 3 * connection + 1, UINT32_MAX);
    }
}

/* In the open policy the rows from 0 on are by http and those from 16 on by https; the last 32 are entries of the same. */
static void bad_partners(void)
{
    doing = "hosts and partners that are not well formed";
    open_policy();
    for (uint32_t host = 0; host < HOSTS; host++) {
        bad_word(HTTPS_HOSTS, UINT32_C(1) << (HOSTS + host)); /* no host */
        bad_word(HTTPS_HOSTS, UINT32_C(1) << host);           /* no partner */
        bad_word(PARTNERS + host, HOSTS + host);              /* not called for */
        bad_word(PARTNERS + HOSTS + host, HOSTS + host);
    }
    list_host(5, 5, HOSTS + 5);
    list_host(5, 5 + 2 * HOSTS, HOSTS + 5);
    counts_and_cells_as_slowly();
    check(is_well_formed(), "the test's own partners are refused");
    static const uint32_t partners[] = {5, HOSTS + 6, 2 * HOSTS + 5, URLS, NO_PARTNER, UINT32_MAX};
    for (size_t i = 0; i < sizeof partners / sizeof *partners; i++) {
        bad_word(PARTNERS + 5, partners[i]); /* by http, of another host, an entry by http, no row, none */
    }
    set_url(HOSTS + 5, 255, 0, 0);
    worked_bad();
}

/* Refused where the monitor refuses it, and counted slowly elsewhere. */
static void each_bit_of_the_policy(void)
{
    doing = "each bit of policy P";
    check(with_each_bit(counts_as_slowly) > 1000, "next to nothing was refused");
}

/* ---- random policies, and pairs of them */

static void random_policies(void)
{
    unsigned long bad = 0, cells = 0;
    doing = "random policies";
    for (int k = 0; k < 60; k++) {
        random_policy();
        counts_and_cells_as_slowly();
        const struct reach_table table = count();
        bad += table.number == REACH_POLICY_BAD;
        cells += table.all;
    }
    check(bad > 0 && cells > 5000, "refusals or counts are rare");
}

static void well_formed_policy(void)
{
    do {
        random_policy();
    } while (!is_well_formed());
}

/* What the count does not look at: cookie labels, script readers, listed hosts and partners. */
static void change_the_rest(void)
{
    for (size_t word = 3 * URLS; word < CONNECTIONS_AT; word++) {
        policy[word] = next_random();
    }
    for (uint32_t connection = 0; connection < CONNECTIONS; connection++) {
        connection_words(connection)[1] = next_random() & connection_words(connection)[0];
    }
    policy[HTTPS_HOSTS] = 0;
    for (size_t row = 0; row < URLS; row++) {
        policy[PARTNERS + row] = NO_PARTNER;
    }
    list_hosts(next_random() >> 8);
}

static uint32_t apart(uint32_t a, uint32_t b)
{
    return a > b ? a - b : b - a;
}

/* The most that the totals of a well formed policy and the same with a row, or with a connection, changed are apart. */
struct most {
    uint32_t by_row, by_connection;
};

static void change_a_row(struct most *most)
{
    const struct reach_table before = count();
    const uint32_t row = below(URLS), word = below(2 * MONITOR_ENTRY);
    set_url(row, 255, 0, 0);
    if (below(3) != 0) {
        set_url(row, word, (below(2) == 0 ? next_random() : UINT32_MAX) | UINT32_C(1) << word % HOSTS, next_random());
    }
    change_the_rest();
    const struct reach_table after = count();
    check(before.number == REACH_ACCEPTED && after.number == REACH_ACCEPTED, "a policy of a pair is refused");
    for (size_t connection = 0; connection < REACH_CONNECTIONS; connection++) {
        check(apart(before.urls[connection], after.urls[connection]) <= 1, "one row moves a count by more than 1");
    }
    const uint32_t moved = apart(before.all, after.all);
    check(moved <= REACH_CONNECTIONS, "one row moves the total by more than 32");
    most->by_row = moved > most->by_row ? moved : most->by_row;
}

static void change_a_connection(struct most *most)
{
    const struct reach_table before = count();
    const uint32_t changed = below(CONNECTIONS);
    set_connection(changed, below(3) == 0 ? next_random() : 0, below(2) == 0 ? 0 : UINT32_MAX);
    change_the_rest();
    const struct reach_table after = count();
    check(before.number == REACH_ACCEPTED && after.number == REACH_ACCEPTED, "a policy of a pair is refused");
    for (size_t connection = 0; connection < REACH_CONNECTIONS; connection++) {
        check(connection == changed || before.urls[connection] == after.urls[connection], "one connection moves another's count");
    }
    const uint32_t moved = apart(before.all, after.all);
    check(moved <= REACH_URLS, "one connection moves the total by more than 64");
    most->by_connection = moved > most->by_connection ? moved : most->by_connection;
}

static void pairs(void)
{
    struct most most = {0, 0};
    doing = "pairs of policies";
    for (int k = 0; k < 1000; k++) {
        well_formed_policy();
        change_a_row(&most);
        change_a_connection(&most);
    }
    check(most.by_row > REACH_CONNECTIONS / 2 && most.by_connection > REACH_URLS / 2, "no pair is far apart");

    doing = "pairs that are as far apart as may be";
    open_policy();
    set_url(17, 255, 0, 0);
    check(ALL_CELLS - count().all == REACH_CONNECTIONS, "one row does not move the total by 32");
    open_policy();
    set_connection(17, 0, 0);
    check(ALL_CELLS - count().all == REACH_URLS, "one connection does not move the total by 64");
}

int main(void)
{
    policy_pages = map_pages();
    small_post_table();
    whole_tables();
    each_cell();
    each_endpoint();
    each_partner();
    lengths();
    numbers_beyond();
    null_pointers();
    bad_rows();
    bad_connections();
    bad_partners();
    each_bit_of_the_policy();
    random_policies();
    pairs();
    printf("reach_table: policy P, whole and empty tables, each cell, each address, partners, every length, refusals, random policies and pairs of "
           "them agree with the monitor: %lu calls\n",
           calls);
    return 0;
}
