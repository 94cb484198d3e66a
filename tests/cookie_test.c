/* Links libcookie.a: worked lines, every value of each byte that decides, lines that are cut at each byte, the names of keys and their lengths,
 * hosts, the order of the refusals, null pointers, long lines and random ones. Each line is read between guards and again in memory of just its
 * length, where valgrind sees a read past an end; neither line nor names may change. */
#include <inttypes.h>
#include <stdbool.h>
#include <stdio.h>
#include <stdlib.h>
#include <string.h>

#include "cookie.h"
#include "random.h"

enum { HOSTS = 16, KEYS = 8, BYTE_VALUES = 256, LONG_LINE = 64 * 1024 };
enum { PLAIN = 0, SECURE = 1, HTTP_ONLY = 2, BOTH = SECURE | HTTP_ONLY };
/* of most tests: the host, and the key that has the name sid */
enum { HOST = 5, KEY = 3 };
/* a guard has so many bytes, and what is read begins at so many places in turn */
enum { SPARE = 64, PLACES = 16, GUARD_BYTE = 0xc5 };

/* some bytes */
struct span {
    const uint8_t *at;
    size_t length;
};

/* where a span is laid to be read */
struct guarded {
    uint8_t room[PLACES + SPARE + 2 * LONG_LINE + SPARE];
    uint8_t *lent;
    size_t length;
};

/* the bytes of a literal, as they stand in a list of spans and as an argument */
#define BYTES(literal) {(const uint8_t *)(literal), sizeof(literal) - 1}
#define TEXT(literal) ((struct span)BYTES(literal))

static struct guarded guarded_names, guarded_line;
/* sid has its key; the other keys have names that are nearly so, or none */
static const uint8_t NAMES[COOKIE_NAMES_BYTES] = "si\0\0\0\0\0\0\0\0\0\0\0\0\0\0"
                                                 "\0sid\0\0\0\0\0\0\0\0\0\0\0\0"
                                                 "SID\0\0\0\0\0\0\0\0\0\0\0\0\0"
                                                 "sid\0\0\0\0\0\0\0\0\0\0\0\0\0"
                                                 " sid\0\0\0\0\0\0\0\0\0\0\0\0"
                                                 "sid=7\0\0\0\0\0\0\0\0\0\0\0"
                                                 "sidsidsidsidsids"
                                                 "id\0\0\0\0\0\0\0\0\0\0\0\0\0";
static const struct span TABLE = {NAMES, sizeof NAMES};
static uint8_t built[2 * LONG_LINE];
static size_t built_length;
static const char *doing = "nothing yet";
static unsigned long calls;

static void check(bool holds, const char *what)
{
    if (!holds) {
        fprintf(stderr, "cookie: %s: %s (line %lu)\n", doing, what, calls);
        exit(EXIT_FAILURE);
    }
}

/* not memcmp: what lies between the members may be anything */
static bool same(const struct cookie_imported *a, const struct cookie_imported *b)
{
    return a->number == b->number && a->key == b->key && a->value == b->value && a->secure == b->secure && a->http_only == b->http_only
           && a->readers == b->readers;
}

/* ---- reading */

static bool all_are(const uint8_t *bytes, size_t length, uint8_t value)
{
    for (size_t i = 0; i < length; i++) {
        if (bytes[i] != value) {
            return false;
        }
    }
    return true;
}

static bool equal(const uint8_t *bytes, struct span from)
{
    return from.length == 0 || memcmp(bytes, from.at, from.length) == 0;
}

/* Where it begins varies, and with it its alignment. */
static void lay(struct guarded *in, struct span from)
{
    size_t before = SPARE + calls % PLACES;
    in->lent = in->room + before;
    in->length = from.length;
    memset(in->room, GUARD_BYTE, before);
    if (from.length > 0) {
        memcpy(in->lent, from.at, from.length);
    }
    memset(in->lent + from.length, GUARD_BYTE, SPARE);
}

static void check_kept(const struct guarded *in, struct span from)
{
    check(equal(in->lent, from), "names or line changed");
    check(all_are(in->room, (size_t)(in->lent - in->room), GUARD_BYTE), "a byte before names or line changed");
    check(all_are(in->lent + in->length, SPARE, GUARD_BYTE), "a byte behind names or line changed");
}

static struct cookie_imported import_guarded(uint32_t host, struct span names, struct span line)
{
    lay(&guarded_names, names);
    lay(&guarded_line, line);
    struct cookie_imported imported = cookie_import(host, guarded_names.lent, names.length, guarded_line.lent, line.length);
    check_kept(&guarded_names, names);
    check_kept(&guarded_line, line);
    return imported;
}

/* No bytes have no memory at all. */
static uint8_t *bare_copy(struct span from)
{
    if (from.length == 0) {
        return NULL;
    }
    uint8_t *copy = malloc(from.length);
    check(copy != NULL, "no memory for the test");
    memcpy(copy, from.at, from.length);
    return copy;
}

static struct cookie_imported import_bare(uint32_t host, struct span names, struct span line)
{
    uint8_t *lent_names = bare_copy(names);
    uint8_t *lent_line = bare_copy(line);
    struct cookie_imported imported = cookie_import(host, lent_names, names.length, lent_line, line.length);
    check(equal(lent_names, names) && equal(lent_line, line), "names or line changed, in memory of their length");
    free(lent_names);
    free(lent_line);
    return imported;
}

static void print_line(struct span line)
{
    fprintf(stderr, "cookie: line `");
    for (size_t i = 0; i < line.length && i < 200; i++) {
        bool shown = line.at[i] >= ' ' && line.at[i] <= '~';
        fprintf(stderr, shown ? "%c" : "\\x%02x", line.at[i]);
    }
    fprintf(stderr, "` of %zu bytes\n", line.length);
}

static void print_imported(const char *name, const struct cookie_imported *it)
{
    fprintf(stderr, "cookie: %s: number %" PRIu32 ", key %" PRIu32 ", value %" PRIu32 ", secure %d, http_only %d, readers %08" PRIx32 "\n", name,
            it->number, it->key, it->value, it->secure, it->http_only, it->readers);
}

static void gives(uint32_t host, struct span names, struct span line, struct cookie_imported want)
{
    calls++;
    struct cookie_imported imported = import_guarded(host, names, line);
    struct cookie_imported again = import_bare(host, names, line);
    if (same(&imported, &want) && same(&again, &want)) {
        return;
    }
    print_line(line);
    print_imported("between guards", &imported);
    print_imported("in memory of its length", &again);
    print_imported("expected", &want);
    check(false, "something else is imported");
}

/* ---- what should be imported */

static struct cookie_imported refused(uint32_t number)
{
    return (struct cookie_imported){.number = number};
}

static struct cookie_imported accepted(uint32_t host, uint32_t key, uint32_t value, int flags)
{
    const uint32_t http = UINT32_C(1) << host, https = http << HOSTS;
    return (struct cookie_imported){
        .number = COOKIE_ACCEPTED,
        .key = key,
        .value = value,
        .secure = (flags & SECURE) != 0,
        .http_only = (flags & HTTP_ONLY) != 0,
        .readers = (flags & SECURE) != 0 ? https : https | http,
    };
}

static struct cookie_imported of_sid(uint32_t value, int flags)
{
    return accepted(HOST, KEY, value, flags);
}

static bool is_blank(uint8_t byte)
{
    return byte == ' ' || byte == '\t';
}

static bool is_digit(uint8_t byte)
{
    return byte >= '0' && byte <= '9';
}

/* For lines that are made at random or cut, what cookie.h says of them, read slowly. */

static bool has(struct span text, uint8_t byte)
{
    return text.length > 0 && memchr(text.at, byte, text.length) != NULL;
}

static struct span before(struct span text, uint8_t byte)
{
    if (has(text, byte)) {
        text.length = (size_t)((const uint8_t *)memchr(text.at, byte, text.length) - text.at);
    }
    return text;
}

/* There is such a byte. */
static struct span after(struct span text, uint8_t byte)
{
    size_t gone = before(text, byte).length + 1;
    return (struct span){text.at + gone, text.length - gone};
}

static struct span trimmed(struct span text)
{
    for (; text.length > 0 && is_blank(text.at[0]); text.at++) {
        text.length--;
    }
    while (text.length > 0 && is_blank(text.at[text.length - 1])) {
        text.length--;
    }
    return text;
}

static bool is_word(struct span text, const char *small, const char *capital)
{
    bool is = text.length == strlen(small);
    for (size_t i = 0; is && i < text.length; i++) {
        is = text.at[i] == (uint8_t)small[i] || text.at[i] == (uint8_t)capital[i];
    }
    return is;
}

static int flags_of(struct span line)
{
    int flags = PLAIN;
    while (has(line, ';')) {
        line = after(line, ';');
        struct span name = trimmed(before(before(line, ';'), '='));
        flags |= is_word(name, "secure", "SECURE") ? SECURE : PLAIN;
        flags |= is_word(name, "httponly", "HTTPONLY") ? HTTP_ONLY : PLAIN;
    }
    return flags;
}

static uint32_t key_of(struct span names, struct span name)
{
    uint32_t key = 0;
    for (; key < KEYS; key++) {
        struct span field = before((struct span){names.at + COOKIE_NAME_BYTES * key, COOKIE_NAME_BYTES}, 0);
        if (field.length > 0 && field.length == name.length && equal(field.at, name)) {
            break;
        }
    }
    return key;
}

/* More than a number may be where it is none. */
static uint64_t number_of(struct span value)
{
    uint64_t number = 0;
    bool good = value.length >= 1 && value.length <= 10;
    for (size_t i = 0; good && i < value.length; i++) {
        good = is_digit(value.at[i]);
        number = 10 * number + (uint64_t)(value.at[i] - '0');
    }
    return good ? number : UINT64_MAX;
}

static struct cookie_imported read_slowly(uint32_t host, struct span names, struct span line)
{
    struct span pair = before(line, ';');
    struct span name = trimmed(before(pair, '='));
    if (host >= HOSTS) {
        return refused(COOKIE_HOST_UNKNOWN);
    }
    if (!has(pair, '=') || name.length == 0) {
        return refused(COOKIE_NO_NAME);
    }
    if (names.length != COOKIE_NAMES_BYTES || key_of(names, name) == KEYS) {
        return refused(COOKIE_NO_KEY);
    }
    uint64_t value = number_of(trimmed(after(pair, '=')));
    if (value > UINT32_MAX) {
        return refused(COOKIE_NO_NUMBER);
    }
    return accepted(host, key_of(names, name), (uint32_t)value, flags_of(line));
}

/* ---- making lines */

static void clear(void)
{
    built_length = 0;
}

static void append(struct span text)
{
    check(built_length + text.length <= sizeof built, "the test's own line is too long");
    if (text.length > 0) {
        memcpy(built + built_length, text.at, text.length);
    }
    built_length += text.length;
}

static void append_word(const char *word)
{
    append((struct span){(const uint8_t *)word, strlen(word)});
}

static void append_bytes(uint8_t byte, size_t count)
{
    check(built_length + count <= sizeof built, "the test's own line is too long");
    memset(built + built_length, byte, count);
    built_length += count;
}

static struct span line(void)
{
    return (struct span){built, built_length};
}

/* ---- worked lines */

/* What is known beforehand: the slow reading is held to it as well, so that it can be trusted elsewhere. */
static void worked(struct span text, struct cookie_imported want)
{
    struct cookie_imported slow = read_slowly(HOST, TABLE, text);
    if (!same(&slow, &want)) {
        print_line(text);
        check(false, "the test itself reads it otherwise");
    }
    gives(HOST, TABLE, text, want);
}

static void accepted_lines(void)
{
    doing = "lines that are accepted";
    worked(TEXT("sid=7"), of_sid(7, PLAIN));
    worked(TEXT(" sid = 7 ; Secure"), of_sid(7, SECURE));
    worked(TEXT("\tsid\t=\t7\t;\tSecure"), of_sid(7, SECURE));
    worked(TEXT(" \t sid \t = \t 7 \t ; \t HttpOnly \t = \t"), of_sid(7, HTTP_ONLY));
    worked(TEXT("sid=7;secure;HTTPONLY"), of_sid(7, BOTH));
    worked(TEXT("sid=7;hTTPoNLY;sECURE"), of_sid(7, BOTH));
    worked(TEXT("sid=7; Secure=false"), of_sid(7, SECURE));
    worked(TEXT("sid=7; Secure=false=true; HttpOnly="), of_sid(7, BOTH));
    worked(TEXT("sid=7; Path=/; Secure "), of_sid(7, SECURE));
    worked(TEXT("sid=7; Secure; Secure; Path=/"), of_sid(7, SECURE));
    worked(TEXT("sid=7;"), of_sid(7, PLAIN));
    worked(TEXT("sid=7;;Secure"), of_sid(7, SECURE));
    worked(TEXT("sid=7;;;; ;\t;=;"), of_sid(7, PLAIN));
    worked(TEXT("sid=0"), of_sid(0, PLAIN));
    worked(TEXT("sid=4294967295"), of_sid(UINT32_MAX, PLAIN));
    worked(TEXT("sid=0000000007"), of_sid(7, PLAIN));
    worked(TEXT("sid=0000000000"), of_sid(0, PLAIN));
    worked(TEXT("sid=7;sid=8"), of_sid(7, PLAIN));
    worked(TEXT("sid=7; Expires=Thu, 01 Jan 1970 00:00:00 GMT; Domain=.a.example; Max-Age=0; SameSite=None"), of_sid(7, PLAIN));

    doing = "lines without Secure or HttpOnly";
    worked(TEXT("sid=7; Secured"), of_sid(7, PLAIN));
    worked(TEXT("sid=7; Secur; ecure; Sec ure; \"Secure\"; Secure,"), of_sid(7, PLAIN));
    worked(TEXT("sid=7; HttpOnlyx; Http-Only; HttpOnl; Only"), of_sid(7, PLAIN));
    worked(TEXT("sid=7; =Secure; Path=Secure; x=;y=HttpOnly"), of_sid(7, PLAIN));
    worked(TEXT("sid=7; Secure\r"), of_sid(7, PLAIN));
    worked(TEXT("sid=7; Secure\r; HttpOnly"), of_sid(7, HTTP_ONLY));
    worked(TEXT("sid=7; Secure\0; HttpOnly\n"), of_sid(7, PLAIN));
    worked(TEXT("sid=7; Secure\240;\302\240HttpOnly; \305\277ecure; S\311cure"), of_sid(7, PLAIN));
    worked(TEXT("sid=7; Secure\v; \fHttpOnly"), of_sid(7, PLAIN));
}

static const struct span NAMELESS[] = {
    BYTES(""), BYTES("sid"), BYTES("=7"), BYTES(" =7"), BYTES("\t \t=7"), BYTES(";Secure"), BYTES(";"), BYTES("="), BYTES(" "),
    BYTES("sid;=7"), BYTES(";sid=7"), BYTES(" ;sid=7"), BYTES("sid 7; Secure"), BYTES("==7"), BYTES("=;Secure"), BYTES("7"), BYTES("\xff"),
};
static const struct span KEYLESS[] = {
    BYTES("other=7"), BYTES("Sid=7"), BYTES("sid\r=7"), BYTES("s=7"), BYTES("sidd=7"), BYTES("s id=7"),
    BYTES("\"sid\"=7"), BYTES("s\303\255d=7"), BYTES("sid\0=7"), BYTES("\0=7"), BYTES("\0sid=7"), BYTES("\n=7"),
    BYTES("other=x"), BYTES("other=; Secure"), BYTES("sidsidsidsidsid=7"), BYTES("sidsidsidsidsidsi=7"),
};
static const struct span NUMBERLESS[] = {
    BYTES("sid="), BYTES("sid= "), BYTES("sid=;Secure"), BYTES("sid=4294967296"), BYTES("sid=9999999999"),
    BYTES("sid=+7"), BYTES("sid=00000000007"), BYTES("sid=10000000000"), BYTES("sid=-7"), BYTES("sid=18446744073709551617"),
    BYTES("sid=7 7"), BYTES("sid=7=7"), BYTES("sid==7"), BYTES("sid=\"7\""), BYTES("sid=0x7"),
    BYTES("sid=7.0"), BYTES("sid=7,0"), BYTES("sid=7\r"), BYTES("sid=7\0"), BYTES("sid=\xb7"),
    BYTES("sid=seven"), BYTES("sid=\331\247"), BYTES("sid=7\r; Secure"), BYTES("sid=7\n"), BYTES("sid = \t ; Secure"),
};

static void all_refused(const char *name, uint32_t number, const struct span *lines, size_t count)
{
    doing = name;
    for (size_t i = 0; i < count; i++) {
        worked(lines[i], refused(number));
    }
}

static void refused_lines(void)
{
    all_refused("lines without a name", COOKIE_NO_NAME, NAMELESS, sizeof NAMELESS / sizeof NAMELESS[0]);
    all_refused("lines whose name has no key", COOKIE_NO_KEY, KEYLESS, sizeof KEYLESS / sizeof KEYLESS[0]);
    all_refused("lines whose value is no number", COOKIE_NO_NUMBER, NUMBERLESS, sizeof NUMBERLESS / sizeof NUMBERLESS[0]);
}

/* ---- every value of each byte that decides */

static struct cookie_imported flags_if(bool holds, int flags)
{
    return of_sid(7, holds ? flags : PLAIN);
}

static struct cookie_imported value_if(bool holds, uint32_t value)
{
    return holds ? of_sid(value, PLAIN) : refused(COOKIE_NO_NUMBER);
}

static struct cookie_imported before_name(uint8_t byte)
{
    return is_blank(byte) ? of_sid(7, PLAIN) : refused(byte == ';' || byte == '=' ? COOKIE_NO_NAME : COOKIE_NO_KEY);
}

static struct cookie_imported within_name(uint8_t byte)
{
    return byte == 'i' ? of_sid(7, PLAIN) : refused(byte == ';' ? COOKIE_NO_NAME : COOKIE_NO_KEY);
}

static struct cookie_imported behind_name(uint8_t byte)
{
    if (is_blank(byte)) {
        return of_sid(7, PLAIN);
    }
    return refused(byte == ';' ? COOKIE_NO_NAME : byte == '=' ? COOKIE_NO_NUMBER : COOKIE_NO_KEY);
}

static struct cookie_imported for_equals(uint8_t byte)
{
    return byte == '=' ? of_sid(7, PLAIN) : refused(COOKIE_NO_NAME);
}

static struct cookie_imported before_value(uint8_t byte)
{
    return value_if(is_blank(byte) || is_digit(byte), is_digit(byte) ? 10 * (uint32_t)(byte - '0') + 7 : 7);
}

static struct cookie_imported within_value(uint8_t byte)
{
    return value_if(byte == ';' || is_digit(byte), byte == ';' ? 1 : 102 + 10 * (uint32_t)(byte - '0'));
}

static struct cookie_imported behind_value(uint8_t byte)
{
    return value_if(byte == ';' || is_blank(byte) || is_digit(byte), is_digit(byte) ? 70 + (uint32_t)(byte - '0') : 7);
}

/* the last digit of the largest number */
static struct cookie_imported tenth_digit(uint8_t byte)
{
    const uint32_t nine = UINT32_MAX / 10;
    if (is_digit(byte)) {
        return value_if(byte <= '5', 10 * nine + (uint32_t)(byte - '0'));
    }
    return value_if(byte == ';' || is_blank(byte), nine);
}

static struct cookie_imported eleventh_digit(uint8_t byte)
{
    return value_if(byte == ';' || is_blank(byte), 7);
}

static struct cookie_imported for_semicolon(uint8_t byte)
{
    return byte == ';' ? of_sid(7, SECURE) : refused(COOKIE_NO_NUMBER);
}

static struct cookie_imported before_attribute(uint8_t byte)
{
    return flags_if(byte == ';' || is_blank(byte), SECURE);
}

static struct cookie_imported behind_attribute(uint8_t byte)
{
    return flags_if(byte == ';' || byte == '=' || is_blank(byte), HTTP_ONLY);
}

static struct cookie_imported within_attribute_value(uint8_t byte)
{
    return flags_if(byte == ';', SECURE);
}

/* A line with a byte in it, and what comes of each value of that. */
static void each_value_at(const char *name, const char *front, const char *back, struct cookie_imported (*want)(uint8_t))
{
    doing = name;
    for (unsigned value = 0; value < BYTE_VALUES; value++) {
        clear();
        append_word(front);
        append_bytes((uint8_t)value, 1);
        append_word(back);
        worked(line(), want((uint8_t)value));
    }
}

/* Each letter of an attribute's name in turn: it may have either case, and nothing else. */
static void each_letter(const char *word, int flag)
{
    doing = "each letter of an attribute";
    for (size_t i = 0; i < strlen(word); i++) {
        for (unsigned value = 0; value < BYTE_VALUES; value++) {
            clear();
            append_word("sid=7;");
            append_word(word);
            built[built_length - strlen(word) + i] = (uint8_t)value;
            worked(line(), flags_if(value == (uint8_t)word[i] || value == (uint8_t)(word[i] ^ 0x20), flag));
        }
    }
}

static void each_value(void)
{
    each_value_at("before the name", "", "sid=7", before_name);
    each_value_at("before the name, after a blank", " ", "sid=7", before_name);
    each_value_at("within the name", "s", "d=7", within_name);
    each_value_at("behind the name", "sid", "=7", behind_name);
    each_value_at("behind the name, before a blank", "sid", " =7", behind_name);
    each_value_at("for the equals sign", "sid", "7", for_equals);
    each_value_at("before the value", "sid=", "7", before_value);
    each_value_at("within the value", "sid=1", "2", within_value);
    each_value_at("behind the value", "sid=7", "", behind_value);
    each_value_at("behind the value, before a semicolon", "sid=7", ";", behind_value);
    each_value_at("the tenth digit", "sid=429496729", "", tenth_digit);
    each_value_at("the eleventh digit", "sid=0000000007", "", eleventh_digit);
    each_value_at("for the semicolon", "sid=7", "Secure", for_semicolon);
    each_value_at("before an attribute", "sid=7;", "Secure", before_attribute);
    each_value_at("before an attribute, between blanks", "sid=7; ", " Secure", before_attribute);
    each_value_at("behind an attribute", "sid=7;HttpOnly", "", behind_attribute);
    each_value_at("behind an attribute, before an equals sign", "sid=7;HttpOnly", "=0", behind_attribute);
    each_value_at("behind an attribute, between blanks", "sid=7;HttpOnly ", " ;", behind_attribute);
    each_value_at("within the value of an attribute", "sid=7;x=", "Secure", within_attribute_value);
    each_letter("SECURE", SECURE);
    each_letter("httponly", HTTP_ONLY);
}

/* ---- cuts */

static void read_as_slowly(uint32_t host, struct span names, struct span text)
{
    gives(host, names, text, read_slowly(host, names, text));
}

/* Every beginning, every end, and the line without each of its bytes. */
static void each_cut(void)
{
    static const struct span whole[] = {BYTES("sid=7"), BYTES(" sid = 7 ; Secure ; HttpOnly "), BYTES("\tsid=4294967295;;path=/;SECURE=0;hTtPoNlY"),
                                        BYTES("sidsidsidsidsids=0000000000; Domain=a; Secure=x=y; =; HttpOnly=;"), BYTES(" ; = ; Secure = ; =sid=7")};
    doing = "lines that are cut";
    for (size_t i = 0; i < sizeof whole / sizeof whole[0]; i++) {
        for (size_t at = 0; at <= whole[i].length; at++) {
            struct span beginning = {whole[i].at, at}, end = {whole[i].at + at, whole[i].length - at};
            read_as_slowly(HOST, TABLE, beginning);
            read_as_slowly(HOST, TABLE, end);
            clear();
            append(beginning);
            append((struct span){end.at + (end.length > 0), end.length - (end.length > 0)});
            read_as_slowly(HOST, TABLE, line());
        }
    }
}

/* ---- names */

/* A name of each length against a name of each length, between neighbours that have the bytes before and behind. */
static void lengths_of_a_name(void)
{
    static const char letters[] = "abcdefghijklmnopq";
    doing = "names of every length";
    for (size_t has_bytes = 0; has_bytes <= COOKIE_NAME_BYTES; has_bytes++) {
        uint8_t names[COOKIE_NAMES_BYTES] = {0};
        memcpy(names + COOKIE_NAME_BYTES * KEY, letters, has_bytes);
        names[COOKIE_NAME_BYTES * (KEY + 1)] = (uint8_t)letters[COOKIE_NAME_BYTES];
        for (size_t bytes = 1; bytes <= COOKIE_NAME_BYTES + 1; bytes++) {
            clear();
            append((struct span){(const uint8_t *)letters, bytes});
            append_word("=7");
            gives(HOST, (struct span){names, sizeof names}, line(), bytes == has_bytes ? of_sid(7, PLAIN) : refused(COOKIE_NO_KEY));
        }
    }
}

/* Every byte as a name, and within one. A zero byte ends the name of the key, and is a byte like any other in a line. */
static void bytes_of_a_name(void)
{
    doing = "every byte of a name";
    for (unsigned value = 0; value < BYTE_VALUES; value++) {
        uint8_t byte = (uint8_t)value, names[COOKIE_NAMES_BYTES] = {0};
        struct span table = {names, sizeof names};
        bool parts = byte == ';' || byte == '=';
        names[COOKIE_NAME_BYTES * KEY] = byte;
        struct cookie_imported alone = byte == 0 ? refused(COOKIE_NO_KEY) : parts || is_blank(byte) ? refused(COOKIE_NO_NAME) : of_sid(7, PLAIN);
        gives(HOST, table, (struct span){(const uint8_t[]){byte, '=', '7'}, 3}, alone);
        memcpy(names + COOKIE_NAME_BYTES * KEY, (const uint8_t[]){'s', byte, 'd'}, 3);
        struct cookie_imported within = byte == ';' ? refused(COOKIE_NO_NAME) : byte == 0 || parts ? refused(COOKIE_NO_KEY) : of_sid(7, PLAIN);
        gives(HOST, table, (struct span){(const uint8_t[]){'s', byte, 'd', '=', '7'}, 5}, within);
    }
}

/* One bit of one byte is another. */
static void each_bit_of_a_name(void)
{
    uint8_t names[COOKIE_NAMES_BYTES];
    doing = "a bit of a name";
    for (size_t at = 0; at < COOKIE_NAME_BYTES; at++) {
        for (int bit = 0; bit < 8; bit++) {
            memset(names, 'e', sizeof names);
            memcpy(names + COOKIE_NAME_BYTES * KEY, "HMOQUWYhmoquwy_~", COOKIE_NAME_BYTES);
            struct span table = {names, sizeof names};
            gives(HOST, table, TEXT("HMOQUWYhmoquwy_~=7"), of_sid(7, PLAIN));
            names[COOKIE_NAME_BYTES * KEY + at] ^= (uint8_t)(1 << bit);
            gives(HOST, table, TEXT("HMOQUWYhmoquwy_~=7"), refused(COOKIE_NO_KEY));
        }
    }
}

/* For every set of keys that have the name, the lowest is told. The others have a longer name, a shorter one, or none; what stands behind the zero
 * byte of a name does not matter. */
static void equal_names(void)
{
    static const char others[4][COOKIE_NAME_BYTES] = {"sidd", "si\0d", "", "\0sid"};
    doing = "equal names";
    for (unsigned keys = 0; keys < 1u << KEYS; keys++) {
        uint8_t names[COOKIE_NAMES_BYTES];
        uint32_t lowest = KEYS;
        for (uint32_t key = KEYS; key-- > 0;) {
            bool named = (keys >> key & 1) == 1;
            memcpy(names + COOKIE_NAME_BYTES * key, named ? "sid\0sid;=7 \0\0\0\0\0" : others[(keys + key) % 4], COOKIE_NAME_BYTES);
            lowest = named ? key : lowest;
        }
        gives(HOST, (struct span){names, sizeof names}, TEXT("sid=7"), keys == 0 ? refused(COOKIE_NO_KEY) : accepted(HOST, lowest, 7, PLAIN));
    }
}

/* Every key has every name: nothing but the length is wrong. */
static void lengths_of_the_names(void)
{
    static uint8_t names[LONG_LINE + 2 * COOKIE_NAMES_BYTES];
    doing = "every length of the names";
    for (size_t at = 0; at < sizeof names; at += COOKIE_NAME_BYTES) {
        memcpy(names + at, "sid", 3);
    }
    for (size_t length = 0; length < 4 * COOKIE_NAMES_BYTES; length++) {
        bool right = length == COOKIE_NAMES_BYTES;
        gives(HOST, (struct span){names, length}, TEXT("sid=7"), right ? accepted(HOST, 0, 7, PLAIN) : refused(COOKIE_NO_KEY));
        gives(HOST, (struct span){names, length}, TEXT("sid=x"), refused(right ? COOKIE_NO_NUMBER : COOKIE_NO_KEY));
    }
    gives(HOST, (struct span){names, LONG_LINE + COOKIE_NAMES_BYTES}, TEXT("sid=7"), refused(COOKIE_NO_KEY));
}

/* ---- hosts, and the order of the refusals */

static void each_host(void)
{
    doing = "hosts";
    for (uint32_t host = 0; host < HOSTS; host++) {
        gives(host, TABLE, TEXT("sid=7"), accepted(host, KEY, 7, PLAIN));
        gives(host, TABLE, TEXT("sid=7;Secure"), accepted(host, KEY, 7, SECURE));
        gives(host, TABLE, TEXT("sid=7;HttpOnly"), accepted(host, KEY, 7, HTTP_ONLY));
        gives(host, TABLE, TEXT("sid=7;HttpOnly;Secure"), accepted(host, KEY, 7, BOTH));
        /* such as a narrower number would take for hosts */
        for (uint32_t above = HOSTS; above != 0; above <<= 1) {
            gives(above | host, TABLE, TEXT("sid=7"), refused(COOKIE_HOST_UNKNOWN));
        }
    }
    for (uint32_t host = HOSTS; host <= 20; host++) {
        gives(host, TABLE, TEXT("sid=7;Secure"), refused(COOKIE_HOST_UNKNOWN));
    }
    gives(UINT32_MAX, TABLE, TEXT("sid=7"), refused(COOKIE_HOST_UNKNOWN));
}

static void known_readers(void)
{
    doing = "readers in hexadecimal";
    check(accepted(0, 0, 0, PLAIN).readers == 0x00010001 && accepted(0, 0, 0, SECURE).readers == 0x00010000, "the test itself has other ones");
    check(accepted(15, 0, 0, PLAIN).readers == 0x80008000 && accepted(15, 0, 0, SECURE).readers == 0x80000000, "the test itself has other ones");
}

/* the first of them, in the order of cookie.h; the names' length and a name that they lack are one number */
static uint32_t first_of(bool host, bool name, bool key, bool number)
{
    return host ? COOKIE_HOST_UNKNOWN : name ? COOKIE_NO_NAME : key ? COOKIE_NO_KEY : number ? COOKIE_NO_NUMBER : COOKIE_ACCEPTED;
}

/* Every set of reasons at once, and the first of them is told. */
static void each_order(void)
{
    /* without and with a name, a key, a number */
    static const struct span lines[2][2][2] = {{{BYTES("sid=7"), BYTES("sid=x")}, {BYTES("other=7"), BYTES("other=x")}},
                                               {{BYTES(" =7"), BYTES(" =x")}, {BYTES("other"), BYTES("")}}};
    doing = "several refusals";
    for (int reasons = 0; reasons < 32; reasons++) {
        bool host = (reasons & 1) != 0, name = (reasons & 2) != 0, key = (reasons & 4) != 0;
        bool number = (reasons & 8) != 0, length = (reasons & 16) != 0;
        uint32_t first = first_of(host, name, key || length, number);
        struct span names = {NAMES, sizeof NAMES - (length ? 1 : 0)};
        gives(host ? HOSTS : HOST, names, lines[name][key][number], first == COOKIE_ACCEPTED ? of_sid(7, PLAIN) : refused(first));
    }
}

static void null_pointers(void)
{
    static const struct span none = {NULL, 0};
    doing = "null pointers";
    gives(HOST, none, none, refused(COOKIE_NO_NAME));
    gives(HOST, TABLE, none, refused(COOKIE_NO_NAME));
    gives(HOST, none, TEXT("sid=7"), refused(COOKIE_NO_KEY));
    gives(HOSTS, none, none, refused(COOKIE_HOST_UNKNOWN));
    struct cookie_imported direct = cookie_import(HOST, NULL, 0, NULL, 0);
    check(same(&direct, &(struct cookie_imported){.number = COOKIE_NO_NAME}), "no bytes at all give something else");
}

/* ---- long lines */

/* So many of a byte in each part of a line. */
static void filled(uint8_t byte, size_t count)
{
    static const char *const fronts[] = {"", "sid", "sid=", "sid=7", "sid=7;", "sid=7;Secure", "sid=7;Secure=", "sid=7;x", "sid=7;HttpOnly;"};
    static const char *const backs[] = {"", "sid=7;Secure", "=7;HttpOnly", "7", ";Secure", "Secure;HttpOnly", "=;x=y"};
    for (size_t i = 0; i < sizeof fronts / sizeof fronts[0]; i++) {
        for (size_t k = 0; k < sizeof backs / sizeof backs[0]; k++) {
            clear();
            append_word(fronts[i]);
            append_bytes(byte, count);
            append_word(backs[k]);
            read_as_slowly(HOST, TABLE, line());
        }
    }
}

static void long_lines(void)
{
    static const uint8_t bytes[] = {' ', '\t', ';', '=', 'x', '0', '\r', 0, 0xff};
    static const size_t counts[] = {2, 9, 10, 15, 16, 17, 31, 32, 33, 63, 64, 65, 255, 256, 257, 4096, LONG_LINE};
    doing = "long lines";
    for (size_t i = 0; i < sizeof bytes; i++) {
        for (size_t k = 0; k < sizeof counts / sizeof counts[0]; k++) {
            filled(bytes[i], counts[k]);
        }
    }
    clear();
    append_bytes(' ', LONG_LINE / 4);
    append_word("sid");
    append_bytes('\t', LONG_LINE / 4);
    append_word("=");
    append_bytes(' ', LONG_LINE / 4);
    append_word("7");
    append_bytes('\t', LONG_LINE / 4);
    append_bytes(';', LONG_LINE / 4);
    append_word("HttpOnly");
    worked(line(), of_sid(7, HTTP_ONLY));
}

/* ---- random lines */

static size_t below(size_t bound)
{
    return (next_random() >> 8) % bound;
}

/* Half of the lines begin well. */
static void random_pieces(void)
{
    static const char *const pieces[] = {" ",        "\t",       ";",      "=",       ";",      "=",         "sid",         "id",
                                         "7",        "0",        "Secure", "secured", "x",      "HttpOnly",  "httponly",    "SECURE",
                                         "; secure", ";HttpOnly=", "Path=/", "\r\n",    "\xe9", "4294967295"};
    clear();
    append_word(below(2) == 0 ? "sid=7" : below(2) == 0 ? "id = 42;" : "");
    for (size_t left = below(12); left > 0; left--) {
        append_word(pieces[below(sizeof pieces / sizeof pieces[0])]);
    }
}

static void random_bytes(void)
{
    static const char few[] = "==;; \tsid7x";
    bool any = below(4) == 0;
    clear();
    append_word(below(2) == 0 ? "sid=" : "");
    for (size_t left = below(24); left > 0; left--) {
        append_bytes(any ? (uint8_t)below(BYTE_VALUES) : (uint8_t)few[below(sizeof few - 1)], 1);
    }
}

/* Each number, and both flags apart and together, come often enough. */
static void random_lines(void)
{
    unsigned long numbers[COOKIE_NO_NUMBER + 1] = {0}, flags[4] = {0};
    doing = "random lines";
    for (int k = 0; k < 60000; k++) {
        uint32_t host = (uint32_t)below(HOSTS + 1);
        if (below(2) == 0) {
            random_pieces();
        } else {
            random_bytes();
        }
        struct cookie_imported want = read_slowly(host, TABLE, line());
        gives(host, TABLE, line(), want);
        numbers[want.number]++;
        flags[(want.secure ? SECURE : PLAIN) | (want.http_only ? HTTP_ONLY : PLAIN)]++;
    }
    check(numbers[COOKIE_ACCEPTED] > 1000 && numbers[COOKIE_HOST_UNKNOWN] > 1000 && numbers[COOKIE_NO_NAME] > 1000, "a number is rare");
    check(numbers[COOKIE_NO_KEY] > 1000 && numbers[COOKIE_NO_NUMBER] > 1000, "a number is rare");
    check(flags[SECURE] > 100 && flags[HTTP_ONLY] > 100 && flags[BOTH] > 100, "a flag is rare");
}

int main(void)
{
    known_readers();
    accepted_lines();
    refused_lines();
    each_value();
    each_cut();
    lengths_of_a_name();
    bytes_of_a_name();
    each_bit_of_a_name();
    equal_names();
    lengths_of_the_names();
    each_host();
    each_order();
    null_pointers();
    long_lines();
    random_lines();
    printf("cookie: worked lines, every value of each byte that decides, every cut, names, hosts, long and random lines agree: %lu lines\n", calls);
    return 0;
}
