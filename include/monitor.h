/* The session monitor: it stands between a web page and the network, is fed one record at a time, keeps cookies and pending
 * connections in a state that the caller lends, and writes the requests that may go out.
 * Link with libmonitor.a.
 *
 * The caller keeps everything: the monitor has no memory of its own, allocates nothing and never fails. Its loops have fixed bounds, and it
 * takes less than 1 KiB of stack; what calls cost is in docs/PERFORMANCE.md. A session starts from a state of zeros; each record is fed
 * with the state as the last call left it:
 *
 *     uint32_t state[MONITOR_STATE_WORDS] = {0};
 *     uint8_t out[MONITOR_OUT_BYTES];
 *     struct monitor_answer answer = monitor_feed(policy, MONITOR_POLICY_WORDS, scripts, MONITOR_SCRIPT_BYTES,
 *                                                 state, MONITOR_STATE_WORDS, record, record_bytes, out, sizeof out);
 *     if (answer.number == MONITOR_ACCEPTED) {
 *         send_requests(out, answer.bytes);
 *     }
 *
 * What the monitor promises of secrecy and integrity it promises for a session as a whole: from a state of zeros on, the same policy and the
 * same script table throughout, and a state that nobody else writes between calls. Secrecy: what has none of a set of endpoints among its
 * readers does not show to that set, in requests and state. Integrity: what has some of a set among its writers does not reach the requests to
 * URLs that have none of it among theirs and are no entries; it neither causes, changes nor prevents one (docs/PROVED.md). The answer is for
 * the caller alone: its members may depend on what others must not learn.
 *
 * Words are in the machine's byte order. A host is 0 to 15; an address is 0 to 31, http at host a for a below 16 and https at host a - 16
 * from there on. Each address is an endpoint. A set of endpoints is a word: bit a stands for endpoint a. A set is within another where each
 * of its endpoints is in the other (see labels.h). Readers are those who may learn of something, writers those who may have shaped it.
 * The message endpoint of a URL is its address: where a message to it goes. The event endpoint is http at its host, for https too: whoever
 * sees that a message goes to that host. */
#ifndef MONITOR_H
#define MONITOR_H

#include <stddef.h>
#include <stdint.h>

#ifdef __cplusplus
extern "C" {
#endif

/* The length of each buffer. An output may be longer; any other difference is refused. */
enum {
    /* words 0 to 191: 64 URLs of address (0 to 31; MONITOR_ENTRY more for an entry), readers, writers; no URL: 255, 0, 0, all three
     * words 192 to 447: readers, writers of the cookie of host h (0 to 15) and key k (0 to 7), at 192 + 2 * (8 * h + k)
     * words 448 to 543: 32 connections of readers, script readers, writers
     * word 544: the hosts that are always https, bit h for host h, bits 16 to 31 zero (see Hosts that are always https below)
     * words 545 to 608: the partner of each of the 64 URLs, a URL by https; 255 where it has none
     * Well formed: each URL has its event endpoint among its readers, an entry too; each connection's script readers are within its readers;
     * each URL by http at a host that is always https has a partner at the same host, and no other row has one, whether it is a URL or not.
     * Nothing else is asked, and any set may be empty. A policy of zeros is not well formed: it has 64 URLs without readers. */
    MONITOR_POLICY_WORDS = 609,
    /* 16 scripts of 32 steps of 4 bytes: op, a, b, c */
    MONITOR_SCRIPT_BYTES = 2048,
    /* words 0 to 127: cookie values, at 8 * h + k; words 128 to 143: for each host, the keys present as bits 0 to 7
     * words 144 to 175: connections, 0 where free, else kind << 24 | origin << 16 | handler << 8 | URL, where kind is
     * 1 for a document (origin and handler 0), 2 for a script's request (origin a URL, handler a script, 0 to 15) and
     * 3 for a picture (origin and handler 0)
     * A cookie that is present may have the value 0; one that is not has it. An open connection fits its URL: the connection's readers are
     * within the URL's, and the URL's message endpoint is among the connection's writers. */
    MONITOR_STATE_WORDS = 176,
    /* room for 32 requests, the most that one record can send */
    MONITOR_OUT_BYTES = 1184
};

/* A URL whose first word in the policy is so much more than its address is an entry: a front page that anyone may link to. Its host and its endpoints
 * are those of the address. A redirect to an entry, or a script's request (steps 5 and 7), may come from writers that the entry does not have: that
 * alone is not asked of it. Its readers and its event endpoint decide as of any URL, its message endpoint must be among the writers of the connection
 * on which it is asked for, and the script's writers within these. A load asks for no writers of any URL. Where the URL that is named has a partner
 * (see Hosts that are always https below), the partner decides whether it is an entry. */
enum {
    MONITOR_ENTRY = 32
};

/* The longest record that is not malformed, and the longest request. */
enum {
    MONITOR_LONGEST_RECORD = 40,
    MONITOR_LONGEST_REQUEST = 37
};

/* The number of an answer: of the first refusal that applies, in this order, or 0 where none does. */
enum monitor_number {
    MONITOR_ACCEPTED = 0,
    /* the output has fewer than MONITOR_OUT_BYTES bytes, however few this record needs */
    MONITOR_OUTPUT_SHORT = 1,
    /* the policy does not have its length, or is not well formed: a URL with an address word above 63 or without its event endpoint (http at
     * its host) among its readers; a connection with script readers that are not among its readers; a bit above 15 in the word of hosts;
     * a URL by http at a listed host whose partner is not a URL by https at that host; or a partner of any other row but 255 */
    MONITOR_POLICY_BAD = 2,
    /* the script table does not have its length */
    MONITOR_SCRIPTS_BAD = 3,
    /* the state does not have its length, or is not sound: a value of a cookie that is not present, a key above 7, or a connection that
     * is not as described above, names a URL that the policy does not have, or does not fit its URL (a load of it would give 8 or 9).
     * A state of zeros is sound, and a state that is sound under a policy stays sound under it, whatever is fed. */
    MONITOR_STATE_UNSOUND = 4,
    /* Malformed, in three ways. Unknown kind: the record is empty, or its map byte is none of those that are fed (see Records below), as
     * from a newer sender. */
    MONITOR_KIND_UNKNOWN = 10,
    /* empty key map: the map byte says that cookies follow, and the key map byte is there and 0, whatever the record's length */
    MONITOR_KEY_MAP_EMPTY = 12,
    /* cut or too long: the record does not have the length that its map byte and key map call for, as a torn line; also where it ends
     * before its key map byte */
    MONITOR_CUT_OR_TOO_LONG = 11,
    /* the record names a URL or target that the policy does not have, a connection above 31 or a script above 15 */
    MONITOR_NAME_UNKNOWN = 6,
    /* a response or redirect on a connection that is free or holds another URL, or a response of another kind than the connection */
    MONITOR_NOT_AWAITED = 7,
    /* readers forbid it: a load's connection has readers that the URL does not have; or a redirect's connection lacks the target's event
     * endpoint, or has readers that the target does not have. URL and target are those that are asked for, here and in 9. Which endpoint is
     * missing is told (see What a policy lacks below), here and in 9 */
    MONITOR_READERS_FORBID = 8,
    /* writers forbid it: the message endpoint (the address itself) of a load's URL or a redirect's target is not among the connection's
     * writers; or a redirect's connection has writers that the target does not have, and the target is no entry */
    MONITOR_WRITERS_FORBID = 9
};

/* What an answer has in place of an endpoint where none is missing. */
enum {
    MONITOR_NONE_MISSING = 32
};

struct monitor_answer {
    /* one of enum monitor_number */
    uint32_t number;
    /* how many bytes of the output were written: requests, one right after another; 0 in a refusal */
    uint32_t bytes;
    /* how many steps of a script ran, the one that ended it included; 0 in a refusal and where no script ran */
    uint32_t steps;
    /* the endpoint that is missing, 0 to 31, where number is MONITOR_READERS_FORBID or MONITOR_WRITERS_FORBID; else MONITOR_NONE_MISSING,
     * in every other refusal too */
    uint32_t missing;
};

/* What a policy lacks. Where the number is 8 or 9, `missing` tells the endpoint that keeps the record from being accepted: below 16 it is http at
 * the host of that number, from 16 on https at the host of the number less 16. So endpoint 17 is https at host 1. It is of the first condition that
 * fails, in the order below, and where several endpoints are missing in that condition it is the lowest: once it is put right, another may be told.
 * URL and target are those that are asked for, which is the partner where the record names a URL that has one.
 *     number  record    missing                                                        which set lacks it, and what else could be changed
 *     8       load      the lowest of the connection's readers that the URL lacks      the URL's readers; or take it from the connection's
 *     8       redirect  the target's event endpoint, http at its host                  the connection's readers
 *     8       redirect  the lowest of the connection's readers that the target lacks   the target's readers; or take it from the connection's
 *     9       load      the URL's message endpoint, its address                        the connection's writers
 *     9       redirect  the target's message endpoint, its address                     the connection's writers
 *     9       redirect  the lowest of the connection's writers that the target lacks   the target's writers; or take it from the connection's,
 *                       (not asked of an entry)                                        or make the target an entry
 * What is taken from a connection's readers is to be taken from its script readers too, which must be within them. */

/* Records. A record is a map byte, whose bits say which fields follow, in this order: URL (bit 0, one byte), connection (bit 1, one byte),
 * cookies (bit 2), script (bit 3, one byte), value (bit 4), target URL (bit 5, one byte). A value has four bytes, the most significant first.
 * Cookies are a key map byte, not 0, whose bit k stands for key k, and then a value for each key in it, lowest first. Bit 6 says that the record
 * is a picture's, and no field follows for it. Nothing follows the last field. What is fed, by its map without and with cookies, in hexadecimal:
 *     03      load                 URL, connection
 *     0b 0f   document response    URL, connection, [cookies,] script
 *     13 17   script response      URL, connection, [cookies,] value
 *     23 27   redirect             URL, connection, [cookies,] target
 *     43 47   picture response     URL, connection [, cookies]
 * What is sent:
 *     03 07   document request     URL, connection [, cookies]
 *     0b 0f   script request       URL, connection, [cookies,] handler
 *     43 47   picture request      URL, connection [, cookies]
 * So 0f 00 02 05 00 00 00 07 00 00 00 09 01 is the document response of URL 0 on connection 2 that brings 7 for key 0 and 9 for key 2, and
 * names script 1.
 *
 * What an accepted record does, in this order:
 *     load        The connection is opened as a document at the URL, whatever was pending on it, and a document request goes out.
 *     response    Its cookies are stored and the connection is freed; then, but for a picture response, a script runs. A document response
 *                 runs the script that it names, and the page is the connection's URL. A script response runs the connection's handler, the page
 *                 is the connection's origin, and register 0 is the value.
 *     redirect    Its cookies are stored. The connection moves to the target and keeps kind, origin and handler, and a request of its kind goes
 *                 out to the target, a script request with the connection's handler.
 *
 * Hosts that are always https (RFC 6797). Where a load, a redirect's target or step 5 or 7 names a URL that has a partner, the partner is asked
 * for in its place, before anything else is asked: its sets decide, it is in the request and in the connection's word, and its cookies are
 * carried. So no request goes by http to a listed host. What arrives then names the partner: a response or redirect for the URL by http gets 7.
 * The page of a script is never replaced.
 *
 * Cookies. One that a response or redirect delivers belongs to the host of the record's URL, which for a redirect is the URL that it leaves.
 * It is stored if its readers are within the connection's and the connection's writers are within its own; else it is passed over, and the
 * rest goes on. A request carries each cookie of its URL's host that is present and whose readers hold the URL's message endpoint, also one
 * that the same record brought or its script wrote. A cookie that was stored or written is present from then on: nothing takes it away.
 *
 * Scripts. A script has 32 steps of four bytes: op, a, b, c. There are four registers of 32 bits, 0 at the start but for the value of a script
 * response. S is the script readers and J the writers of the connection of the response.
 *     0   end
 *     1   register a = 256 * b + c
 *     2   register a = register b + register c, modulo 2^32
 *     3   register a = cookie b of the page's host, if S is within its readers and its writers are within J
 *     4   cookie a of the page's host = register b, if its readers are within S and J is within its writers; else passed over
 *     5   request URL a on connection b with handler c, if a's event endpoint is in S, b's readers are within S, b fits a, and J is within b's
 *         writers and, where a is no entry, within a's writers. It opens b as a script's request with the page as its origin, whatever was pending
 *         there, and sends a script request. The connection of the response is free by then, and may be opened too.
 *     6   if register a is 0, skip the b steps that follow
 *     7   request a picture of URL a on connection b, if step 5 would be allowed. It opens b as a picture, whatever was pending there, and sends a
 *         picture request; c is not used.
 * A script ends at step 0; at an unknown op; at a field that its op uses and that is out of range (a register above 3, a key above 7, a URL that
 * the policy does not have, a connection above 31, a handler above 15), allowed or not; at a read or request that is not allowed; at a read
 * of a cookie that is not present; and past its last step. Bytes that an op does not use are ignored. Each step that is met counts, the one
 * that ends the script too; steps that are skipped do not, and nothing is met past the last. */

/* Feeds one record. Policy, script table and record are read; state and output are changed only where the answer is MONITOR_ACCEPTED, and
 * of the output only the first `bytes` bytes. A refusal changes nothing.
 *
 * Any contents and any lengths are allowed: whatever does not fit is refused. What is asked of the caller is memory: each pointer is
 * aligned for its type, and null only where its length is 0; each buffer has the length that is given (script table, record and output in
 * bytes, policy and state in words); state and output overlap no other buffer; and nobody else writes a buffer, or reads state or
 * output, during the call. Calls on different states may run at the same time.
 *
 * Records, and what each of them does, are described above. */
struct monitor_answer monitor_feed(const uint32_t *policy, size_t policy_words,
                                   const uint8_t *scripts, size_t script_bytes,
                                   uint32_t *state, size_t state_words,
                                   const uint8_t *record, size_t record_bytes,
                                   uint8_t *out, size_t out_bytes);

#ifdef __cplusplus
}
#endif

#endif
