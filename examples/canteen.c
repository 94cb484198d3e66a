/* The session of canteen.policy, fed to the monitor from C. The policy, the scripts and the numbers of all names are in canteen.h, which
 * `zolherima compile --c canteen.policy` makes. It prints what examples/canteen.out has. */
#include "canteen.h"
#include <stdio.h>

static uint32_t state[MONITOR_STATE_WORDS]; /* a session starts from a state of zeros */
static uint8_t out[MONITOR_OUT_BYTES];

/* Prints a request and answers its length: a map byte, URL, connection, cookies (bit 2), handler (bit 3). */
static size_t print_request(const uint8_t *request) {
    uint8_t map = request[0], keys = 0;
    size_t length = 3;
    if (map & 4) {
        keys = request[length];
        length += 1 + 4 * (size_t)__builtin_popcount(keys);
    }
    length += map >> 3 & 1;
    const char *kind = map & 64 ? "picture" : map & 8 ? "script" : "document";
    printf("  %s request to URL %u on connection %u, cookies %02x\n", kind, request[1], request[2], keys);
    return length;
}

static void feed(const char *what, const uint8_t *record, size_t bytes) {
    struct monitor_answer answer = monitor_feed(policy, MONITOR_POLICY_WORDS, scripts, MONITOR_SCRIPT_BYTES,
                                                state, MONITOR_STATE_WORDS, record, bytes, out, sizeof out);
    if (answer.number != MONITOR_ACCEPTED) {
        printf("%s: refused %u, endpoint %u is missing\n", what, answer.number, answer.missing);
        return;
    }
    printf("%s: accepted\n", what);
    for (size_t at = 0; at < answer.bytes;) {
        at += print_request(out + at);
    }
}

int main(void) {
    const uint8_t typed[] = {0x03, URL_TOP_UP_TYPED, CONNECTION_SHOP};
    const uint8_t page[] = {0x0f, URL_TOP_UP, CONNECTION_SHOP, 1 << COOKIE_CANTEEN_SESSION, 0, 0, 0, 7, SCRIPT_START};
    const uint8_t led_astray[] = {0x23, URL_BANNER, CONNECTION_BANNERS, URL_PAY};
    const uint8_t banner[] = {0x43, URL_BANNER, CONNECTION_BANNERS};
    const uint8_t paid[] = {0x13, URL_PAY, CONNECTION_PAYMENT, 0, 0, 0, 250};
    const uint8_t again[] = {0x03, URL_TOP_UP, CONNECTION_SHOP};
    feed("the page is loaded", typed, sizeof typed);
    feed("it comes with a session", page, sizeof page);
    feed("the advertiser leads to the bank", led_astray, sizeof led_astray);
    feed("the banner comes", banner, sizeof banner);
    feed("the bank has taken the money", paid, sizeof paid);
    feed("the page is loaded again", again, sizeof again);
    return 0;
}
