/* Set-Cookie lines: what one of them says of a cookie of a host, as the numbers that a policy and a record take.
 * Link with libcookie.a.
 *
 * A line is the text after the colon of a Set-Cookie header, without the end of the header's line. So for `Set-Cookie: sid=7; Secure` it is
 * ` sid=7; Secure`. It is bytes, of whatever encoding. RFC 6265, section 5.2, says how it is read; a blank is a space or a tab, and nothing else is:
 *     pair         What stands before the first semicolon, or the whole line where there is none. It must have an equals sign: the name stands
 *                  before the first one, the value is all that stands after it, further equals signs too.
 *     trim         Blanks at both ends of the name and of the value are taken off. Those within stay, and quotation marks do.
 *     attributes   After each semicolon stands one, up to the next semicolon or the end of the line. Its name is what stands before its first
 *                  equals sign, or all of it, without the blanks at both ends. It is Secure or HttpOnly where its name is that word, in any
 *                  case of its letters, whatever stands after an equals sign: `Secure=false` is Secure. Every other attribute is passed over.
 *
 * Beware of the carriage return. It is no blank but a byte like any other. Left on from the end of the header's line, it hides the last attribute:
 * `sid=7; Secure\r` is read without Secure, so that both endpoints of the host may read the cookie, and `sid=7\r` is refused, since its value is no
 * number. The RFC reads them so. Take it off before the call.
 *
 * Names. A cookie has a key for its name, 0 to 7, and which name has which key is told for each call: COOKIE_NAMES_BYTES bytes, COOKIE_NAME_BYTES
 * for each key, from key 0 on. The name of a key ends before its first zero byte, and what follows that does not matter; without one it has all
 * 16 bytes. An empty one is no cookie's name. Names are compared byte for byte, so SID is not sid; where several keys have the name it is the lowest.
 *
 * Readers. Who may read the cookie, as the word for a policy (see monitor.h): bit h is http at host h, bit 16 + h is https there. With Secure it is
 * https at the host alone, without it both. Of host h and key k it is the policy's word 192 + 2 * (8 * h + k). The writers, in the word behind it,
 * are the caller's to choose: no line tells them. HttpOnly is only reported, since no word of a policy says it.
 *
 * For host 1, and names of which sid has key 3 and no other key has one:
 *     sid=7                        key 3, value 7, readers 00020002
 *     sid = 7 ; Path=/; secure     key 3, value 7, secure, readers 00020000
 *     sid=007; httponly=0          key 3, value 7, http_only, readers 00020002
 *     sid                          COOKIE_NO_NAME
 *     ; Secure; sid=7              COOKIE_NO_NAME: the pair is empty
 *     SID=7                        COOKIE_NO_KEY
 *     sid="7"                      COOKIE_NO_NUMBER
 *
 * Nothing is kept between calls and nothing is allocated. A call takes time in proportion to the length of the line, whatever is in it, and less
 * than 1 KiB of stack. What it costs is in docs/PERFORMANCE.md. */
#ifndef COOKIE_H
#define COOKIE_H

#include <stdbool.h>
#include <stddef.h>
#include <stdint.h>

#ifdef __cplusplus
extern "C" {
#endif

enum {
    /* the names of eight keys */
    COOKIE_NAMES_BYTES = 128,
    /* the most bytes that a name may have */
    COOKIE_NAME_BYTES = 16
};

/* The number of a line: of the first refusal that applies, in this order, or 0 where none does. */
enum cookie_number {
    COOKIE_ACCEPTED = 0,
    /* the host is above 15 */
    COOKIE_HOST_UNKNOWN = 6,
    /* the pair has no equals sign, or nothing but blanks stands before the first one */
    COOKIE_NO_NAME = 14,
    /* the names do not have COOKIE_NAMES_BYTES bytes, or none of them is the cookie's */
    COOKIE_NO_KEY = 15,
    /* the value is not one to ten digits that make at most 4,294,967,295: it is empty, has another byte (a sign, a blank within, a quotation mark)
     * or more digits, or is larger. Zeros in front are digits: 0000000007 is 7, and with a zero more it is refused */
    COOKIE_NO_NUMBER = 16
};

struct cookie_imported {
    /* one of enum cookie_number; all that follows is 0 and false where it is not COOKIE_ACCEPTED */
    uint32_t number;
    /* the lowest key that has the name, 0 to 7 */
    uint32_t key;
    uint32_t value;
    /* whether the line has these attributes */
    bool secure;
    bool http_only;
    /* https at the host, and without Secure http there too; never 0 where the line is accepted */
    uint32_t readers;
};

/* Reads one line that a host, 0 to 15, sent. Any contents and any lengths are allowed: whatever does not fit is refused. Names and line are read and
 * not changed. What is asked of the caller is memory: `names` has `names_length` bytes and `text` has `text_length`, each is null only where its
 * length is 0, and nobody writes them during the call. */
struct cookie_imported cookie_import(uint32_t host, const uint8_t *names, size_t names_length, const uint8_t *text, size_t text_length);

#ifdef __cplusplus
}
#endif

#endif
