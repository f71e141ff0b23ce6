/* An empty slice may be NULL with the length 0: every function that takes a slice, called so. What it answers is what it
 * answers to any other empty slice. */
#include "ghjalvestru.h"

#include <stdio.h>

static int faults;

/* The same number with NULL as with a pointer to bytes, each with the length 0; and which one. */
#define SAME(call, expected)                                                                                            \
    do {                                                                                                                \
        const uint8_t *in = NULL;                                                                                       \
        uint8_t *out = NULL;                                                                                            \
        uint64_t null = (call);                                                                                         \
        in = out = bytes;                                                                                               \
        if (null != (call) || null != (expected)) {                                                                     \
            printf("c: %s\n", #call);                                                                                   \
            faults++;                                                                                                   \
        }                                                                                                               \
        (void)in;                                                                                                       \
        (void)out;                                                                                                      \
    } while (0)

#define REFUSED(refusal) (((uint64_t)1 << 63) + (refusal))

static uint8_t bytes[64];
static const uint8_t sixteen[16] = {1}, list[5] = {0xC0, 0x03, 0x01, 0x41, 0x81};
static const struct ghj_access_record access = {2, 0, 0, 0, 4};
static const struct ghj_settings_record settings = {{2, 0, 0, 0, 4}, {2, 0, 0, 0, 4}};

static void requests(void) {
    const uint8_t *record = (const uint8_t *)&access, *both = (const uint8_t *)&settings;
    SAME(ghj_access_request(1, GHJ_VOLATILE, out, 0), REFUSED(GHJ_NO_ROOM));
    SAME(ghj_info_request(1, out, 0), REFUSED(GHJ_NO_ROOM));
    SAME(ghj_capabilities_request(1, GHJ_LEVEL_ADMINISTRATOR, out, 0), REFUSED(GHJ_NO_ROOM));
    SAME(ghj_challenge_request(GHJ_AUTH_MD5, in, 0, out, 0), REFUSED(GHJ_NO_ROOM));
    SAME(ghj_challenge_request(GHJ_AUTH_MD5, in, 0, bytes, 17), GHJ_CHALLENGE_REQUEST_SIZE);
    SAME(ghj_activation_request(GHJ_AUTH_MD5, GHJ_LEVEL_USER, sixteen, 1, out, 0), REFUSED(GHJ_NO_ROOM));
    SAME(ghj_suites_request(1, 0, out, 0), REFUSED(GHJ_NO_ROOM));
    SAME(ghj_by_suite_request(1, 0, out, 0), REFUSED(GHJ_NO_ROOM));
    SAME(ghj_set_access_request(1, GHJ_LEAVE, GHJ_LEAVE, record, out, 0), REFUSED(GHJ_NO_ROOM));
    SAME(ghj_set_access(in, 0, out, 0), REFUSED(GHJ_NOT_A_REQUEST));
    SAME(ghj_set_access((const uint8_t *)"\x01\x62\x84", 3, out, 0), REFUSED(GHJ_NO_ROOM));
    SAME(ghj_set_access_apply(GHJ_LEAVE, GHJ_LEAVE, record, both, out, 0), REFUSED(GHJ_NO_ROOM));
}

static void responses(void) {
    static const uint8_t challenge[20] = {1}, activation[10] = {2, 1, 0, 0, 0, 0, 0, 0, 0, 4}, info[9] = {1};
    SAME(ghj_access(in, 0, out, 0), REFUSED(GHJ_NOT_ENOUGH_DATA));
    SAME(ghj_access(list, 5, out, 0), REFUSED(GHJ_NO_ROOM));
    SAME(ghj_info(in, 0, out, 0), REFUSED(GHJ_NOT_ENOUGH_DATA));
    SAME(ghj_info(info, 9, out, 0), REFUSED(GHJ_NO_ROOM));
    SAME(ghj_capabilities(in, 0, out, 0), REFUSED(GHJ_NOT_ENOUGH_DATA));
    SAME(ghj_capabilities(info, 9, out, 0), REFUSED(GHJ_NO_ROOM));
    SAME(ghj_challenge(in, 0, out, 0), REFUSED(GHJ_NOT_ENOUGH_DATA));
    SAME(ghj_challenge(challenge, 20, out, 0), REFUSED(GHJ_NO_ROOM));
    SAME(ghj_activation(in, 0, out, 0), REFUSED(GHJ_NOT_ENOUGH_DATA));
    SAME(ghj_activation(activation, 10, out, 0), REFUSED(GHJ_NO_ROOM));
    SAME(ghj_suites(in, 0, out, 0), 0);
    SAME(ghj_suites(list, 5, out, 0), REFUSED(GHJ_NO_ROOM));
    SAME(ghj_by_suite(in, 0, out, 0), REFUSED(GHJ_NOT_ENOUGH_DATA));
    SAME(ghj_by_suite(list, 5, out, 0), REFUSED(GHJ_NO_ROOM));
}

static void texts(void) {
    SAME(ghj_channel_text(1, out, 0), REFUSED(GHJ_NO_ROOM));
    SAME(ghj_mode_text(2, out, 0), REFUSED(GHJ_NO_ROOM));
    SAME(ghj_limit_text(4, out, 0), REFUSED(GHJ_NO_ROOM));
    SAME(ghj_medium_text(4, out, 0), REFUSED(GHJ_NO_ROOM));
    SAME(ghj_protocol_text(1, out, 0), REFUSED(GHJ_NO_ROOM));
    SAME(ghj_session_support_text(2, out, 0), REFUSED(GHJ_NO_ROOM));
    SAME(ghj_auth_type_name(GHJ_AUTH_MD5, out, 0), REFUSED(GHJ_NO_ROOM));
}

static void lists(void) {
    size_t position = 0;
    uint8_t failed = 0;
    SAME(ghj_suite_algorithms(3, out, 0), REFUSED(GHJ_NO_ROOM));
    SAME(ghj_suite_algorithms(20, out, 0), GHJ_NONE);
    SAME(ghj_suite_step(in, 0, &position, &failed), GHJ_NONE);
    SAME(ghj_suite_numbers(in, 0, out, 0), 0);
    SAME(ghj_suite_numbers(list, 5, out, 0), REFUSED(GHJ_NO_ROOM));
    SAME(ghj_tagged_step(in, 0, 0, out, 0), 0);
    SAME(ghj_tagged_step(in, 0, SIZE_MAX, out, 0), 0);
    SAME(ghj_tagged_step(list, 5, 0, out, 0), REFUSED(GHJ_NO_ROOM));
    SAME(ghj_tagged_count(in, 0), 0);
    SAME(ghj_tagged_numbers(in, 0, out, 0), 0);
    SAME(ghj_tagged_numbers(list, 5, out, 0), REFUSED(GHJ_NO_ROOM));
    SAME(ghj_tagged_listing(in, 0, out, 0), 0);
    SAME(ghj_tagged_listing(list, 5, out, 0), REFUSED(GHJ_NO_ROOM));
    SAME(ghj_tagged_algorithms(in, 0, out, 0), 0);
    SAME(ghj_tagged_algorithms(list, 5, out, 0), REFUSED(GHJ_NO_ROOM));
    SAME(ghj_tagged_write(GHJ_STANDARD, 0, 3, 1, in, 0, in, 0, out, 0), REFUSED(GHJ_NO_ROOM));
    SAME(ghj_tagged_write(GHJ_STANDARD, 0, 3, 1, in, 0, in, 0, bytes, 64), 3);
}

static void collectors(void) {
    struct ghj_collector c = GHJ_FRESH;
    uint8_t *known = ghj_collect_known(&c);
    SAME(ghj_collector_list(c.bytes, c.marks, known, out, 0), REFUSED(GHJ_INCOMPLETE));
    SAME(ghj_collector_suites(c.bytes, c.marks, known, out, 0), REFUSED(GHJ_INCOMPLETE));
    SAME(ghj_collector_answer(c.bytes, c.marks, known, 0, in, 0), 0);
    SAME(ghj_collector_take(&c, 0, in, 0), 0);
    SAME(ghj_collector_list(c.bytes, c.marks, known, out, 0), 0);
    SAME(ghj_collector_suites(c.bytes, c.marks, known, out, 0), 0);
    c = (struct ghj_collector)GHJ_FRESH;
    SAME(ghj_collector_answer(c.bytes, c.marks, known, 0, list, 5), 0);
    SAME(ghj_collector_list(c.bytes, c.marks, known, out, 0), REFUSED(GHJ_NO_ROOM));
    SAME(ghj_collector_suites(c.bytes, c.marks, known, out, 0), REFUSED(GHJ_NO_ROOM));
}

static void channel_collectors(void) {
    static const uint8_t silent[1] = {1}, answer[6] = {0x01, 0xC0, 0x03, 0x01, 0x41, 0x81};
    struct ghj_channel_collector s;
    struct ghj_collector *c = &s.collector;
    uint8_t *known = ghj_collect_known(c);
    ghj_channel_collect_fresh(&s, 1);
    SAME(ghj_channel_collector_answer(1, &s.from, c->bytes, c->marks, known, 0, in, 0), REFUSED(GHJ_NOT_ENOUGH_DATA));
    SAME(ghj_channel_collector_list(1, s.from, c->bytes, c->marks, known, out, 0), REFUSED(GHJ_INCOMPLETE));
    SAME(ghj_channel_collector_suites(1, s.from, c->bytes, c->marks, known, out, 0), REFUSED(GHJ_INCOMPLETE));
    /* The channel alone: a list of no bytes. */
    SAME(ghj_channel_collector_answer(1, &s.from, c->bytes, c->marks, known, 0, silent, 1), 0);
    SAME(ghj_channel_collector_list(1, s.from, c->bytes, c->marks, known, out, 0), 0);
    SAME(ghj_channel_collector_suites(1, s.from, c->bytes, c->marks, known, out, 0), 0);
    ghj_channel_collect_fresh(&s, 1);
    SAME(ghj_channel_collector_answer(1, &s.from, c->bytes, c->marks, known, 0, answer, 6), 0);
    SAME(ghj_channel_collector_list(1, s.from, c->bytes, c->marks, known, out, 0), REFUSED(GHJ_NO_ROOM));
    SAME(ghj_channel_collector_suites(1, s.from, c->bytes, c->marks, known, out, 0), REFUSED(GHJ_NO_ROOM));
}

int main(void) {
    requests();
    responses();
    texts();
    lists();
    collectors();
    channel_collectors();
    if (faults == 0)
        printf("c: an empty slice may be NULL\n");
    return faults != 0;
}
