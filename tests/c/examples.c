/* The examples of the scope document and of later requests that the C functions can say, and the header's own words. */
#include "ghjalvestru.h"

#include <stdio.h>
#include <string.h>

static int faults;

static void check(const char *what, int holds) {
    if (!holds) {
        printf("c: %s\n", what);
        faults++;
    }
}

static int refused(uint64_t number, unsigned refusal, uint64_t carried) {
    return GHJ_IS_REFUSED(number) && GHJ_REFUSAL(number) == refusal && GHJ_CARRIED(number) == carried;
}

typedef uint64_t reader(const uint8_t *, size_t, uint8_t *, size_t);

/* What the reader writes, and that a buffer which is too short by one stays as it was. */
static void gives(const char *what, reader *read, const uint8_t *response, size_t length, const uint8_t *record,
                  size_t record_length) {
    uint8_t out[32];
    memset(out, 0xA5, sizeof out);
    if (record_length > 0) {
        check(what, refused(read(response, length, out, record_length - 1), GHJ_NO_ROOM, 0));
        for (size_t i = 0; i < sizeof out; i++)
            check(what, out[i] == 0xA5);
    }
    check(what, read(response, length, out, sizeof out) == record_length);
    check(what, memcmp(out, record, record_length) == 0);
    for (size_t i = record_length; i < sizeof out; i++)
        check(what, out[i] == 0xA5);
}

static void responses(void) {
    static const uint8_t access[] = {0x22, 0x04}, access_record[] = {2, 1, 0, 0, 4};
    gives("access", ghj_access, access, 2, access_record, 5);
    static const uint8_t info[] = {0x01, 0x04, 0x01, 0x81, 0xF2, 0x1B, 0x00, 0x00, 0x00};
    static const uint8_t info_record[] = {1, 4, 1, 2, 1, 0xF2, 0x1B, 0, 0, 0, 0};
    gives("info", ghj_info, info, 9, info_record, 11);
    static const uint8_t caps[] = {0x01, 0x96, 0x04, 0x03, 0x00, 0x00, 0x00, 0x00};
    static const uint8_t caps_record[] = {1, 0, 1, 1, 1, 0, 0, 1, 1, 1, 0, 0, 1, 1, 0, 0, 0, 0};
    gives("capabilities", ghj_capabilities, caps, 8, caps_record, 18);
    uint8_t out[32];
    /* P6 */
    static const uint8_t seven[] = {0x01, 0x16, 0, 0, 0, 0, 0};
    check("P6", ghj_capabilities(seven, 7, out, sizeof out) == 18);
    check("P6", refused(ghj_capabilities(caps, 7, out, sizeof out), GHJ_NOT_ENOUGH_DATA, 0));
    /* P7 */
    uint8_t challenge[21] = {1};
    check("P7", refused(ghj_challenge(challenge, 21, out, sizeof out), GHJ_NOT_ENOUGH_DATA, 0));
    gives("challenge", ghj_challenge, challenge, 20, challenge, 20);
    challenge[0] = 0;
    check("P7", refused(ghj_challenge(challenge, 20, out, sizeof out), GHJ_INVALID_ZERO_SESSION, 0));
    /* P8, P9 */
    uint8_t activation[10] = {3};
    check("P8", refused(ghj_activation(activation, 10, out, sizeof out), GHJ_INVALID_AUTH_TYPE, 3));
    activation[0] = 2;
    activation[1] = 1;
    activation[9] = 0x06;
    check("P9", refused(ghj_activation(activation, 10, out, sizeof out), GHJ_INVALID_PRIVILEGE_LEVEL, 6));
    activation[9] = 0xF4;
    check("P9", ghj_activation(activation, 10, out, sizeof out) == 10 && out[9] == 4);
    /* The reserved bits of the type's byte. */
    activation[0] = 0x12;
    check("reserved bits", ghj_activation(activation, 10, out, sizeof out) == 10 && out[0] == 2);
    activation[0] = 0x13;
    check("reserved bits", refused(ghj_activation(activation, 10, out, sizeof out), GHJ_INVALID_AUTH_TYPE, 0x13));
    static const uint8_t part[17] = {0xC0};
    gives("suites", ghj_suites, part, 16, part, 16);
    gives("suites", ghj_suites, part, 0, part, 0);
    check("suites", refused(ghj_suites(part, 17, out, sizeof out), GHJ_TOO_MUCH_DATA, 0));
    /* By suite: the low nibble is the channel, and the high one is not looked at. */
    static const uint8_t by_suite[18] = {0xF1, 0xC0, 0x03, 0x01, 0x41, 0x81};
    static const uint8_t by_suite_record[17] = {0x01, 0xC0, 0x03, 0x01, 0x41, 0x81};
    gives("by suite", ghj_by_suite, by_suite, 1, by_suite_record, 1);
    gives("by suite", ghj_by_suite, by_suite, 6, by_suite_record, 6);
    gives("by suite", ghj_by_suite, by_suite, 17, by_suite_record, 17);
    check("by suite", refused(ghj_by_suite(by_suite, 0, out, sizeof out), GHJ_NOT_ENOUGH_DATA, 0));
    check("by suite", refused(ghj_by_suite(by_suite, 18, out, sizeof out), GHJ_TOO_MUCH_DATA, 0));
    for (unsigned first = 0; first < 256; first++) {
        uint8_t answer[18] = {(uint8_t)first}, nibble = first % 16;
        uint64_t number = ghj_by_suite(answer, 1, out, sizeof out);
        if (nibble == 0xC || nibble == 0xD)
            check("by suite", refused(number, GHJ_NO_CHANNEL, 0));
        else
            check("by suite", number == 1 && out[0] == nibble);
        check("by suite", refused(ghj_by_suite(answer, 18, out, sizeof out), GHJ_TOO_MUCH_DATA, 0));
    }
}

/* The calls that write into a buffer, so that each is tried with any room. */
#define WRITER(name, call)                                                                                              \
    static uint64_t name(uint8_t *out, size_t room) { return call; }
static const uint8_t sixteen[16] = {1, 2, 3, 4, 5, 6, 7, 8, 9, 10, 11, 12, 13, 14, 15, 16};
WRITER(access_request, ghj_access_request(0x0E, 1, out, room))
WRITER(access_volatile, ghj_access_request(0x0B, 2, out, room))
WRITER(info_request, ghj_info_request(0x0F, out, room))
WRITER(capabilities_request, ghj_capabilities_request(1, 4, out, room))
WRITER(challenge_request, ghj_challenge_request(2, (const uint8_t *)"admin", 5, out, room))
WRITER(challenge_longest, ghj_challenge_request(4, sixteen, 16, out, room))
WRITER(activation_request, ghj_activation_request(1, 5, sixteen, 0x12345678, out, room))
WRITER(suites_request, ghj_suites_request(1, 2, out, room))
WRITER(by_suite_request, ghj_by_suite_request(1, 2, out, room))
WRITER(by_suite_last, ghj_by_suite_request(0x0E, 0x3F, out, room))
WRITER(channel_text, ghj_channel_text(1, out, room))
WRITER(system_text, ghj_channel_text(0x0F, out, room))
WRITER(mode_text, ghj_mode_text(2, out, room))
WRITER(mode_unknown, ghj_mode_text(5, out, room))
WRITER(limit_text, ghj_limit_text(4, out, room))
WRITER(medium_text, ghj_medium_text(4, out, room))
WRITER(medium_oem, ghj_medium_text(0x60, out, room))
WRITER(protocol_text, ghj_protocol_text(1, out, room))
WRITER(session_text, ghj_session_support_text(2, out, room))
WRITER(auth_name, ghj_auth_type_name(2, out, room))
WRITER(algorithms, ghj_suite_algorithms(17, out, room))

/* What the call writes, and that a buffer which is too short by one stays as it was. */
static void writes(const char *what, uint64_t (*write)(uint8_t *, size_t), const void *message, size_t length) {
    uint8_t out[32], before[32];
    memset(out, 0xA5, sizeof out);
    memcpy(before, out, sizeof out);
    check(what, refused(write(out, length - 1), GHJ_NO_ROOM, 0) && memcmp(out, before, sizeof out) == 0);
    memcpy(before, message, length);
    check(what, write(out, sizeof out) == length && memcmp(out, before, sizeof out) == 0);
}

/* The refusal comes before any lack of room. */
static void refuses(const char *what, uint64_t number, unsigned refusal, uint64_t carried) {
    check(what, refused(number, refusal, carried));
}

/* It names nothing: none, which is no refusal, whatever the room; and it writes nothing. */
static void names_nothing(const char *what, uint64_t (*write)(uint8_t *, size_t)) {
    uint8_t out[32], before[32];
    memset(out, 0xA5, sizeof out);
    memcpy(before, out, sizeof out);
    for (size_t room = 0; room <= sizeof out; room += sizeof out) {
        uint64_t number = write(out, room);
        check(what, number == GHJ_NONE && !GHJ_IS_REFUSED(number) && !GHJ_IS_MISSING(number));
    }
    check(what, memcmp(out, before, sizeof out) == 0);
}
WRITER(level_0, ghj_capabilities_request(0, 0, out, room))
WRITER(level_6, ghj_capabilities_request(0, 6, out, room))
WRITER(level_f4, ghj_capabilities_request(0, 0xF4, out, room))
WRITER(type_3, ghj_challenge_request(3, sixteen, 16, out, room))
WRITER(type_12, ghj_challenge_request(0x12, sixteen, 16, out, room))
WRITER(type_3_longer, ghj_challenge_request(3, (const uint8_t *)"a name of seventeen", 19, out, room))
WRITER(activation_type_5, ghj_activation_request(5, 0, sixteen, 0, out, room))
WRITER(activation_type_12, ghj_activation_request(0x12, 4, sixteen, 0, out, room))
WRITER(activation_level_14, ghj_activation_request(4, 0x14, sixteen, 0, out, room))
WRITER(name_3, ghj_auth_type_name(3, out, room))
WRITER(name_12, ghj_auth_type_name(0x12, out, room))

static void unnamed(void) {
    names_nothing("capabilities request", level_0);
    names_nothing("capabilities request", level_6);
    names_nothing("capabilities request", level_f4);
    names_nothing("challenge request", type_3);
    names_nothing("challenge request", type_12);
    names_nothing("challenge request", type_3_longer);
    names_nothing("activation request", activation_type_5);
    names_nothing("activation request", activation_type_12);
    names_nothing("activation request", activation_level_14);
    names_nothing("auth name", name_3);
    names_nothing("auth name", name_12);
}

static void requests(void) {
    static const uint8_t padded[] = {2, 'a', 'd', 'm', 'i', 'n', 0, 0, 0, 0, 0, 0, 0, 0, 0, 0, 0};
    static const uint8_t longest[] = {4, 1, 2, 3, 4, 5, 6, 7, 8, 9, 10, 11, 12, 13, 14, 15, 16};
    static const uint8_t activation[] = {1, 5, 1,  2,  3,  4,  5,  6,    7,    8,    9,
                                         10, 11, 12, 13, 14, 15, 16, 0x78, 0x56, 0x34, 0x12};
    writes("P5", access_request, "\x0E\x40", 2);
    writes("access request", access_volatile, "\x0B\x80", 2);
    writes("info request", info_request, "\x0F", 1);
    writes("P4", capabilities_request, "\x81\x04", 2);
    writes("challenge request", challenge_request, padded, 17);
    writes("challenge request", challenge_longest, longest, 17);
    writes("activation request", activation_request, activation, 22);
    writes("P3", suites_request, "\x01\x00\x02", 3);
    writes("by suite request", by_suite_request, "\x01\x00\x82", 3);
    writes("by suite request", by_suite_last, "\x0E\x00\xBF", 3);
    uint8_t out[32];
    /* P1, P2 */
    check("P1", ghj_info_request(0x0B, out, 1) == 1 && out[0] == 0x0B);
    refuses("P1", ghj_info_request(0x0C, out, 0), GHJ_NO_CHANNEL, 0);
    check("P2", ghj_info_request(0x0E, out, 1) == 1 && out[0] == 0x0E);
    refuses("P2", ghj_info_request(0x10, out, 0), GHJ_NO_CHANNEL, 0);
    refuses("access request", ghj_access_request(0x0C, 0, out, 0), GHJ_NO_CHANNEL, 0);
    refuses("access request", ghj_access_request(0, 0, out, 0), GHJ_NO_FORM, 0);
    refuses("access request", ghj_access_request(0, 3, out, 0), GHJ_NO_FORM, 0);
    refuses("access request", ghj_access_request(0, 0x40, out, 0), GHJ_NO_FORM, 0);
    refuses("capabilities request", ghj_capabilities_request(0x0D, 0, out, 0), GHJ_NO_CHANNEL, 0);
    refuses("challenge request", ghj_challenge_request(0, longest, 17, out, 0), GHJ_LONG_NAME, 0);
    refuses("suites request", ghj_suites_request(0x0C, 0x40, out, 0), GHJ_NO_CHANNEL, 0);
    refuses("P3", ghj_suites_request(1, 0x40, out, 0), GHJ_BAD_INDEX, 0);
    refuses("by suite request", ghj_by_suite_request(0x0C, 0x40, out, 0), GHJ_NO_CHANNEL, 0);
    refuses("by suite request", ghj_by_suite_request(0x10, 0, out, 0), GHJ_NO_CHANNEL, 0);
    refuses("by suite request", ghj_by_suite_request(1, 0x40, out, 0), GHJ_BAD_INDEX, 0);
    refuses("by suite request", ghj_by_suite_request(1, 0x82, out, 0), GHJ_BAD_INDEX, 0);
}

/* Set Channel Access: the request, its reader, and the command applied. */
static const uint8_t always[5] = {2, 1, 0, 0, 4}, all_set[5] = {7, 0xFF, 2, 1, 15};
static const uint8_t settings[10] = {2, 0, 1, 0, 4, 7, 1, 0, 1, 15};
WRITER(set_request, ghj_set_access_request(1, 1, 2, always, out, room))
WRITER(set_current, ghj_set_access_request(0x0E, 2, 0, all_set, out, room))
WRITER(set_beside, ghj_set_access_request(1, 0, 0, all_set, out, room))
WRITER(set_none, ghj_set_access_apply(0, 0, all_set, settings, out, room))
WRITER(set_both, ghj_set_access_apply(1, 2, always, settings, out, room))
WRITER(set_mode, ghj_set_access_apply(2, 0, always, settings, out, room))
WRITER(set_limit, ghj_set_access_apply(0, 1, all_set, settings, out, room))

static void set_requests(void) {
    writes("set request", set_request, "\x01\x62\x84", 3);
    writes("set request", set_current, "\x0E\xBF\x0F", 3);
    writes("set request", set_beside, "\x01\x3F\x0F", 3);
    static const uint8_t mode[5] = {8}, limit[5] = {0, 0, 0, 0, 16};
    uint8_t out[8];
    refuses("set request", ghj_set_access_request(0x0C, 3, 3, mode, out, 0), GHJ_NO_CHANNEL, 0);
    refuses("set request", ghj_set_access_request(0x10, 0, 0, always, out, 0), GHJ_NO_CHANNEL, 0);
    refuses("set request", ghj_set_access_request(0, 3, 0, always, out, 0), GHJ_NO_FORM, 0);
    refuses("set request", ghj_set_access_request(0, 0, 0xFF, always, out, 0), GHJ_NO_FORM, 0);
    refuses("set request", ghj_set_access_request(0, 0, 0, mode, out, 0), GHJ_NO_FORM, 0);
    refuses("set request", ghj_set_access_request(0, 0, 0, limit, out, 0), GHJ_NO_FORM, 0);
}

static void set_readers(void) {
    static const uint8_t request[] = {0x01, 0x62, 0x84, 0x00}, record[] = {1, 1, 2, 2, 1, 0, 0, 4};
    gives("set", ghj_set_access, request, 3, record, 8);
    /* A command that leaves everything, its fields set all the same. */
    static const uint8_t beside[] = {0x01, 0x3F, 0x04}, beside_record[] = {1, 0, 0, 7, 1, 1, 1, 4};
    gives("set", ghj_set_access, beside, 3, beside_record, 8);
    static const uint8_t bad[][3] = {{0x0C, 0x62, 0x84}, {0x10, 0x62, 0x84}, {0x01, 0xE2, 0x84}, {0x01, 0x62, 0xC4},
                                     {0x01, 0x62, 0x94}, {0x01, 0x62, 0xA4}, {0x01, 0x62, 0xB4}};
    uint8_t out[8];
    for (size_t i = 0; i < sizeof bad / sizeof *bad; i++) {
        refuses("set", ghj_set_access(bad[i], 3, out, 0), GHJ_NOT_A_REQUEST, 0);
        memset(out, 0xA5, sizeof out);
        refuses("set", ghj_set_access(bad[i], 3, out, sizeof out), GHJ_NOT_A_REQUEST, 0);
        for (size_t k = 0; k < sizeof out; k++)
            check("set", out[k] == 0xA5);
    }
    refuses("set", ghj_set_access(request, 0, out, 0), GHJ_NOT_A_REQUEST, 0);
    refuses("set", ghj_set_access(request, 2, out, 0), GHJ_NOT_A_REQUEST, 0);
    refuses("set", ghj_set_access(request, 4, out, 0), GHJ_NOT_A_REQUEST, 0);
}

/* Each request of channel 1 that is read is written again as it was. */
static void set_again(void) {
    unsigned taken = 0;
    for (unsigned n = 0; n < 0x10000; n++) {
        uint8_t request[3] = {0x01, (uint8_t)(n >> 8), (uint8_t)n}, record[8], out[3];
        if (ghj_set_access(request, 3, record, sizeof record) != 8)
            continue;
        taken++;
        check("set again", ghj_set_access_request(record[0], record[1], record[2], record + 3, out, 3) == 3);
        check("set again", memcmp(out, request, 3) == 0);
    }
    check("set again", taken == 3 * 64 * 3 * 16);
}

static void set_applied(void) {
    writes("apply", set_none, settings, 10);
    writes("apply", set_both, "\x02\x01\x00\x00\x04\x07\x01\x00\x01\x04", 10);
    writes("apply", set_mode, "\x02\x00\x01\x00\x04\x02\x01\x00\x00\x0F", 10);
    writes("apply", set_limit, "\x02\x00\x01\x00\x0F\x07\x01\x00\x01\x0F", 10);
    static const uint8_t mode[5] = {8}, limit[5] = {0, 0, 0, 0, 16};
    /* Settings are taken as they are: modes and limits of any number, a flag that is not 0. */
    static const uint8_t odd[10] = {8, 0x80, 0, 2, 16, 0xFF, 0, 1, 0, 0xFE};
    static const uint8_t odd_after[10] = {8, 1, 0, 1, 16, 2, 1, 0, 0, 0xFE};
    uint8_t record[8], out[10];
    check("apply", ghj_set_access_apply(2, 0, always, odd, out, 10) == 10 && memcmp(out, odd_after, 10) == 0);
    /* Read, then applied: nothing changes. */
    check("apply", ghj_set_access((const uint8_t *)"\x01\x3F\x04", 3, record, sizeof record) == 8);
    check("apply", ghj_set_access_apply(record[1], record[2], record + 3, settings, out, 10) == 10);
    check("apply", memcmp(out, settings, 10) == 0);
    refuses("apply", ghj_set_access_apply(3, 0, always, settings, out, 0), GHJ_NO_FORM, 0);
    refuses("apply", ghj_set_access_apply(0, 3, always, settings, out, 0), GHJ_NO_FORM, 0);
    refuses("apply", ghj_set_access_apply(0, 0, mode, settings, out, 0), GHJ_NO_FORM, 0);
    refuses("apply", ghj_set_access_apply(0, 0, limit, settings, out, 0), GHJ_NO_FORM, 0);
    refuses("apply", ghj_set_access_apply(1, 1, limit, settings, out, 10), GHJ_NO_FORM, 0);
    check("apply", memcmp(out, settings, 10) == 0);
}

static void texts(void) {
    writes("channel text", channel_text, "Channel 0x1", 11);
    writes("channel text", system_text, "System channel", 14);
    writes("mode text", mode_text, "Always Available", 16);
    writes("mode text", mode_unknown, "Unknown (0x05)", 14);
    writes("limit text", limit_text, "Administrator", 13);
    writes("medium text", medium_text, "802.3 LAN", 9);
    writes("medium text", medium_oem, "OEM (0x60)", 10);
    writes("protocol text", protocol_text, "IPMB-1.0", 8);
    writes("session text", session_text, "Multi-session", 13);
    writes("auth name", auth_name, "MD5", 3);
    uint8_t out[1];
    refuses("channel text", ghj_channel_text(0x0C, out, 0), GHJ_NO_CHANNEL, 0);
}

static void types(void) {
    check("best auth", ghj_best_auth(1, 1, 1, 1) == 2 && ghj_best_auth(1, 0x80, 0, 0) == 2);
    check("best auth", ghj_best_auth(1, 0, 1, 1) == 1 && ghj_best_auth(1, 0, 0, 1) == 4);
    check("best auth", ghj_best_auth(0, 0, 0, 1) == 0 && ghj_best_auth(0, 0, 0, 0) == GHJ_NONE);
    static const uint8_t weakest_first[] = {0, 4, 1, 2};
    for (unsigned i = 0; i < 4; i++)
        for (unsigned j = 0; j < 4; j++)
            check("strength",
                  ghj_compare_strength(weakest_first[i], weakest_first[j]) == (i < j ? 0u : i == j ? 1u : 2u));
    check("strength", ghj_compare_strength(3, 5) == GHJ_NONE && ghj_compare_strength(0, 5) == GHJ_NONE);
    check("strength", ghj_compare_strength(3, 0) == GHJ_NONE && ghj_compare_strength(0x12, 2) == GHJ_NONE);
}

static void table(void) {
    static const char *const rows[] = {"000", "100", "110", "111", "112", "113", "200", "220", "221", "222",
                                       "223", "230", "231", "232", "233", "300", "340", "341", "342", "343"};
    for (unsigned n = 0; n < 256; n++) {
        uint8_t out[4] = {0xA5, 0xA5, 0xA5, 0xA5};
        uint64_t number = ghj_suite_algorithms((uint8_t)n, out, sizeof out);
        const char *row = n < 20 ? rows[n] : "";
        if (n < 20) {
            check("table", number == 3 && out[0] == row[0] - '0' && out[1] == row[1] - '0' && out[2] == row[2] - '0');
            check("table", ghj_suite_of(out[0], out[1], out[2]) == n);
        } else {
            check("table", number == GHJ_NONE && out[0] == 0xA5 && out[1] == 0xA5 && out[2] == 0xA5);
        }
        check("table", out[3] == 0xA5);
    }
    check("table", ghj_suite_of(0, 1, 0) == GHJ_NONE && ghj_suite_of(3, 4, 4) == GHJ_NONE);
    writes("table", algorithms, "\x03\x04\x01", 3);
}

static void step(const char *what, const uint8_t *list, size_t length, size_t position, uint8_t failed, uint64_t number,
                 size_t position_after, uint8_t failed_after) {
    check(what, ghj_suite_step(list, length, &position, &failed) == number);
    check(what, position == position_after && failed == failed_after);
}

static void lists(void) {
    uint8_t out[4];
    /* P10 */
    static const uint8_t unknown[] = {0xC0, 0x14, 0xC0, 0x03, 0x01, 0x41, 0x81};
    check("P10", ghj_suite_numbers(unknown, 7, out, sizeof out) == 0);
    check("list", ghj_suite_numbers(unknown + 2, 5, out, sizeof out) == 1 && out[0] == 3);
    check("list", refused(ghj_suite_numbers(unknown + 2, 5, out, 0), GHJ_NO_ROOM, 0));
    step("P10", unknown, 7, 0, 0, GHJ_NONE, 2, 0);
    step("P10", unknown, 7, 2, 0, 3, 7, 0);
    step("step", unknown, 7, 7, 0, GHJ_NONE, 7, 0);
    step("step", unknown, 7, SIZE_MAX, 0, GHJ_NONE, SIZE_MAX, 0);
    step("step", unknown, 7, 1, 0, GHJ_NONE, 2, 1);
    step("step", unknown, 7, 2, 1, GHJ_NONE, 2, 1);
    step("step", unknown, 7, 2, 0x80, GHJ_NONE, 2, 1);
    step("step", unknown, 6, 2, 0, GHJ_NONE, 6, 0);
    step("step", unknown, 3, 2, 0, GHJ_NONE, 3, 0);
}

/* Records with tags: suite 3, and what vendor 7154 calls suite 80h, of two integrity algorithms and no confidentiality. */
static const uint8_t records[13] = {0xC0, 0x03, 0x01, 0x41, 0x81, 0xC1, 0x80, 0xF2, 0x1B, 0x00, 0x00, 0x41, 0x44};
static const uint8_t numbers[2] = {1, 4};
WRITER(tagged_first, ghj_tagged_step(records, sizeof records, 0, out, room))
WRITER(tagged_second, ghj_tagged_step(records, sizeof records, 5, out, room))
WRITER(tagged_numbers, ghj_tagged_numbers(records, sizeof records, out, room))
WRITER(tagged_listing, ghj_tagged_listing(records, sizeof records, out, room))
WRITER(tagged_algorithms, ghj_tagged_algorithms(records + 11, 2, out, room))
WRITER(tagged_standard, ghj_tagged_write(0, 0, 3, 1, numbers, 1, numbers, 1, out, room))
WRITER(tagged_own, ghj_tagged_write(1, 7154, 0x80, 0, numbers, 2, numbers, 0, out, room))

static void tagged(void) {
    static const uint8_t first[32] = {3, 0, 0, 0, 0, 1, 0, 0, 3, 0, 0, 0, 0, 0, 0, 0, 4, 0, 0, 0, 0, 0, 0, 0, 5};
    static const uint8_t second[32] = {0x80, 1,  0xF2, 0x1B, 0, 0, 0, 0, 11, 0, 0, 0, 0, 0, 0, 0,
                                       13,   0,  0,    0,    0, 0, 0, 0, 13};
    writes("tagged step", tagged_first, first, 32);
    writes("tagged step", tagged_second, second, 32);
    writes("tagged numbers", tagged_numbers, "\x03\x80", 2);
    writes("tagged listing", tagged_listing, "\x03\x00\x00\x00\x00\x80\x01\xF2\x1B\x00", 10);
    writes("tagged algorithms", tagged_algorithms, "\x01\x04", 2);
    writes("tagged write", tagged_standard, records, 5);
    writes("tagged write", tagged_own, records + 5, 8);
    check("tagged count", ghj_tagged_count(records, sizeof records) == 2);
    /* At the end and past it, nothing is written. */
    uint8_t out[32];
    check("tagged end", ghj_tagged_step(records, sizeof records, 13, out, 0) == 0);
    check("tagged end", ghj_tagged_step(records, sizeof records, 14, out, 0) == 0);
    check("tagged end", ghj_tagged_step(records, sizeof records, SIZE_MAX, out, 0) == 0);
    check("tagged end", ghj_tagged_count(records, 0) == 0 && ghj_tagged_numbers(records, 0, out, 0) == 0);
    /* The suites of a list that the older reading knows are the same. */
    check("tagged old", ghj_suite_numbers(records, 5, out, 1) == 1 && out[0] == 3);
}

/* All that read the whole list say the place, whatever the room. */
static void bad_record(const char *what, const void *list, size_t length, uint64_t place) {
    uint8_t out[32], before[32];
    memset(out, 0xA5, sizeof out);
    memcpy(before, out, sizeof out);
    refuses(what, ghj_tagged_count(list, length), GHJ_BAD_RECORD, place);
    for (size_t room = 0; room <= sizeof out; room += sizeof out) {
        refuses(what, ghj_tagged_numbers(list, length, out, room), GHJ_BAD_RECORD, place);
        refuses(what, ghj_tagged_listing(list, length, out, room), GHJ_BAD_RECORD, place);
    }
    check(what, memcmp(out, before, sizeof out) == 0);
}

static void tagged_refused(void) {
    bad_record("C0", "\xC0", 1, 1);
    bad_record("C0 03 41", "\xC0\x03\x41", 3, 2);
    bad_record("C0 03 01 00", "\xC0\x03\x01\x00", 4, 3);
    bad_record("C0 03 01 81 41", "\xC0\x03\x01\x81\x41", 5, 4);
    check("C0 03 01", ghj_tagged_count((const uint8_t *)"\xC0\x03\x01", 3) == 1);
    bad_record("no start", "\x03\x01", 2, 0);
    bad_record("another start", "\xC2\x03\x01", 3, 0);
    bad_record("within a vendor's number", "\xC1\x80\xF2\x1B", 4, 4);
    bad_record("no authentication", "\xC1\x80\xF2\x1B\x00\x41", 6, 5);
    /* A step says so of the record at its position alone. */
    uint8_t out[32];
    check("a step before it", ghj_tagged_step((const uint8_t *)"\xC0\x03\x01\x00", 4, 0, out, 32) == 32);
    refuses("a step", ghj_tagged_step((const uint8_t *)"\xC0\x03\x01\x00", 4, 3, out, 0), GHJ_BAD_RECORD, 3);
    refuses("a step", ghj_tagged_step((const uint8_t *)"\xC0\x03\x01\xC1", 4, 3, out, 32), GHJ_BAD_RECORD, 4);
    /* A place that needs more than a byte. */
    static uint8_t longer[0x20003] = {0xC0, 0x03, 0x01};
    memset(longer + 3, 0x41, 0x20000);
    check("a long record", ghj_tagged_count(longer, sizeof longer) == 1);
    longer[0x12345] = 0x3F;
    bad_record("a long record", longer, sizeof longer, 0x12345);
}

/* A count is never taken for none or for a missing index, however many records there are. */
static void many_records(void) {
    static uint8_t list[3 * 0x20001], out[0x20001];
    static const uint64_t counts[] = {0xFFFF, 0x10000, 0x10001, 0x1FFFF, 0x20000, 0x20001};
    for (size_t i = 0; i < sizeof list; i += 3)
        memcpy(list + i, "\xC0\x03\x01", 3);
    for (size_t i = 0; i < sizeof counts / sizeof *counts; i++) {
        uint64_t count = ghj_tagged_count(list, 3 * counts[i]);
        check("many records", count == counts[i] && ghj_tagged_numbers(list, 3 * counts[i], out, sizeof out) == count);
        check("many records", !GHJ_IS_REFUSED(count) && count != GHJ_NONE && !GHJ_IS_MISSING(count));
    }
}

static uint64_t written_as(uint8_t owner, uint32_t vendor, uint8_t authentication, uint8_t integrity, uint8_t confidentiality) {
    uint8_t out[8];
    return ghj_tagged_write(owner, vendor, 0xFF, authentication, &integrity, 1, &confidentiality, 1, out, sizeof out);
}

static void tagged_forms(void) {
    check("tagged form", written_as(0, 0, 63, 63, 63) == 5 && written_as(1, 0xFFFFFF, 63, 63, 63) == 8);
    refuses("tagged form", written_as(2, 0, 0, 0, 0), GHJ_NO_FORM, 0);
    refuses("tagged form", written_as(0xFF, 0, 0, 0, 0), GHJ_NO_FORM, 0);
    refuses("tagged form", written_as(0, 1, 0, 0, 0), GHJ_NO_FORM, 0);
    refuses("tagged form", written_as(1, 0x1000000, 0, 0, 0), GHJ_NO_FORM, 0);
    refuses("tagged form", written_as(1, UINT32_MAX, 0, 0, 0), GHJ_NO_FORM, 0);
    refuses("tagged form", written_as(0, 0, 64, 0, 0), GHJ_NO_FORM, 0);
    refuses("tagged form", written_as(0, 0, 0, 64, 0), GHJ_NO_FORM, 0);
    refuses("tagged form", written_as(0, 0, 0, 0, 0xFF), GHJ_NO_FORM, 0);
    uint8_t out[1];
    refuses("tagged form", ghj_tagged_write(2, 0, 0, 64, numbers, 2, numbers, 2, out, 0), GHJ_NO_FORM, 0);
}

static uint64_t answer(struct ghj_collector *c, uint8_t index, const uint8_t *part, size_t length) {
    struct ghj_collector other = *c;
    uint64_t number = ghj_collector_answer(c->bytes, c->marks, ghj_collect_known(c), index, part, length);
    check("lent whole", ghj_collector_take(&other, index, part, length) == number && memcmp(c, &other, sizeof other) == 0);
    return number;
}

static int stored(const struct ghj_collector *c, unsigned lowest, unsigned complete) {
    return c->lowest == lowest && c->complete == complete;
}

/* Refused with 9 at every entry, which changes nothing. */
static void no_form(const struct ghj_collector *c) {
    static const uint8_t untouched[64];
    struct ghj_collector after = *c;
    uint8_t out[64] = {0};
    check("no form", refused(answer(&after, 0, untouched, 0), GHJ_NO_FORM, 0));
    check("no form", refused(ghj_collect_status(c), GHJ_NO_FORM, 0));
    check("no form", refused(ghj_collect_list(c, out, sizeof out), GHJ_NO_FORM, 0));
    check("no form", refused(ghj_collect_suites(c, out, sizeof out), GHJ_NO_FORM, 0));
    check("no form", memcmp(c, &after, sizeof after) == 0 && memcmp(out, untouched, sizeof out) == 0);
}

static void collectors(void) {
    static const uint8_t part[17] = {0xC0, 0x03, 0x01, 0x41, 0x81};
    uint8_t out[64];
    struct ghj_collector c = GHJ_FRESH;
    const uint8_t *known = ghj_collect_known_const(&c);
    /* P11 */
    check("P11", answer(&c, 0, part, 0) == 0 && ghj_collector_status(c.bytes, c.marks, known) == 0);
    check("P11", stored(&c, 1, 1));
    /* P12 */
    c = (struct ghj_collector)GHJ_FRESH;
    check("P12", stored(&c, 0, 0) && answer(&c, 0, part, 16) == 0 && stored(&c, 1, 0));
    check("P12", answer(&c, 2, part, 0) == 0 && stored(&c, 1, 0));
    uint64_t status = ghj_collector_status(c.bytes, c.marks, known);
    check("P12", GHJ_IS_MISSING(status) && GHJ_MISSING(status) == 1);
    check("P12", refused(ghj_collector_list(c.bytes, c.marks, known, out, sizeof out), GHJ_INCOMPLETE, 1));
    check("P12", answer(&c, 1, part, 3) == 0 && ghj_collector_status(c.bytes, c.marks, known) == 19);
    check("P12", stored(&c, 3, 1));
    check("P12", ghj_collector_list(c.bytes, c.marks, known, out, sizeof out) == 19 && memcmp(out, part, 16) == 0);
    check("P12", ghj_collector_suites(c.bytes, c.marks, known, out, sizeof out) == 1 && out[0] == 3);
    /* Other stored values than a search finds. */
    c.lowest = 2;
    no_form(&c);
    c.lowest = 3;
    c.complete = 0;
    no_form(&c);
    c.complete = 1;
    check("stored", ghj_collect_status(&c) == 19);
    /* P13 */
    c = (struct ghj_collector)GHJ_FRESH;
    check("P13", answer(&c, 1, part, 3) == 0 && refused(answer(&c, 2, part, 1), GHJ_DISAGREES, 0));
    check("P13", stored(&c, 0, 0));
    /* Sixteen bytes accepted at index 63; seventeen refused 2. */
    c = (struct ghj_collector)GHJ_FRESH;
    check("index 63", refused(answer(&c, 63, part, 17), GHJ_TOO_MUCH_DATA, 0) && answer(&c, 63, part, 16) == 0);
    check("index 64", refused(answer(&c, 64, part, 0), GHJ_BAD_INDEX, 0));
    /* No calls make this one. */
    c.bytes[5] = 1;
    no_form(&c);
}

/* The answer to an index, which is accepted. */
static void takes(const char *what, struct ghj_channel_collector *s, uint8_t index, const void *answer, size_t length) {
    check(what, ghj_channel_collect_answer(s, index, answer, length) == 0);
}

/* Refused, which changes nothing. */
static void turns_down(const char *what, const struct ghj_channel_collector *s, uint8_t index, const void *answer,
                       size_t length, unsigned refusal) {
    struct ghj_channel_collector after = *s;
    check(what, refused(ghj_channel_collect_answer(&after, index, answer, length), refusal, 0));
    check(what, memcmp(s, &after, sizeof after) == 0);
}

/* Refused with 9 at every entry, before every other refusal. */
static void no_channel_form(const char *what, const struct ghj_channel_collector *s) {
    static const uint8_t untouched[64], longest[18] = {0x0C};
    uint8_t out[64] = {0};
    turns_down(what, s, 0, "\x01", 1, GHJ_NO_FORM);
    turns_down(what, s, 64, longest, 18, GHJ_NO_FORM);
    turns_down(what, s, 0, longest, 0, GHJ_NO_FORM);
    check(what, refused(ghj_channel_collect_status(s), GHJ_NO_FORM, 0));
    check(what, refused(ghj_channel_collect_list(s, out, sizeof out), GHJ_NO_FORM, 0));
    check(what, refused(ghj_channel_collect_suites(s, out, 0), GHJ_NO_FORM, 0));
    check(what, memcmp(out, untouched, sizeof out) == 0);
}

static void channel_collectors(void) {
    static const uint8_t answer[18] = {0x01, 0xC0, 0x03, 0x01, 0x41, 0x81}, none[18] = {0x0C}, other[18] = {0x02};
    struct ghj_channel_collector s;
    uint8_t out[64];
    for (unsigned channel = 0; channel < 256; channel++) {
        uint64_t from = ghj_channel_collector_from((uint8_t)channel);
        if (channel <= 0xB || channel == 0xF)
            check("made for", from == channel + 1);
        else
            check("made for", channel == 0xE ? from == 0 : refused(from, GHJ_NO_CHANNEL, 0));
    }
    /* A real answer, for its channel. */
    check("by suite", ghj_channel_collect_fresh(&s, 1) == 0 && s.from == 2);
    uint64_t status = ghj_channel_collect_status(&s);
    check("by suite", GHJ_IS_MISSING(status) && GHJ_MISSING(status) == 0);
    check("by suite", refused(ghj_channel_collect_suites(&s, out, sizeof out), GHJ_INCOMPLETE, 0));
    /* In this order; the last one is of a list that has ended. */
    turns_down("order", &s, 64, answer, 0, GHJ_BAD_INDEX);
    turns_down("order", &s, 64, none, 18, GHJ_BAD_INDEX);
    turns_down("order", &s, 63, answer, 0, GHJ_NOT_ENOUGH_DATA);
    turns_down("order", &s, 63, none, 18, GHJ_TOO_MUCH_DATA);
    turns_down("order", &s, 63, none, 17, GHJ_NO_CHANNEL);
    turns_down("order", &s, 63, "\xFD", 1, GHJ_NO_CHANNEL);
    turns_down("order", &s, 63, other, 17, GHJ_WRONG_CHANNEL);
    takes("by suite", &s, 0, answer, 6);
    turns_down("order", &s, 0, other, 6, GHJ_WRONG_CHANNEL);
    turns_down("order", &s, 0, answer, 7, GHJ_DISAGREES);
    turns_down("order", &s, 1, answer, 2, GHJ_DISAGREES);
    turns_down("0xE is another channel", &s, 0, "\x0E\xC0\x03\x01\x41\x81", 6, GHJ_WRONG_CHANNEL);
    takes("the high nibble", &s, 0, "\xA1\xC0\x03\x01\x41\x81", 6);
    check("by suite", ghj_channel_collect_status(&s) == 5 && s.channel == 1 && s.from == 2);
    check("by suite", ghj_channel_collect_list(&s, out, sizeof out) == 5 && memcmp(out, answer + 1, 5) == 0);
    check("by suite", refused(ghj_channel_collect_list(&s, out, 4), GHJ_NO_ROOM, 0));
    check("by suite", ghj_channel_collect_suites(&s, out, sizeof out) == 1 && out[0] == 3);
    check("by suite", refused(ghj_channel_collect_suites(&s, out, 0), GHJ_NO_ROOM, 0));
    /* Made for Current: a refused first answer takes no channel, the first accepted one does, 0xE too. */
    check("current", ghj_channel_collect_fresh(&s, GHJ_CHANNEL_CURRENT) == 0 && s.from == 0);
    turns_down("current", &s, 64, answer, 6, GHJ_BAD_INDEX);
    turns_down("current", &s, 0, none, 6, GHJ_NO_CHANNEL);
    takes("current", &s, 1, "\x3E", 1);
    check("current", s.channel == 0xE && s.from == 0xF);
    turns_down("current", &s, 0, answer, 6, GHJ_WRONG_CHANNEL);
    takes("current", &s, 0, "\x0E", 1);
    check("current", ghj_channel_collect_status(&s) == 0);
}

static void channel_forms(void) {
    static const struct ghj_channel_collector zeros;
    struct ghj_channel_collector s = zeros;
    no_channel_form("all zeros", &zeros);
    /* Another channel than it takes answers from; none; one that does not exist. */
    ghj_channel_collect_fresh(&s, 1);
    s.from = 3;
    no_channel_form("from", &s);
    s.from = 0;
    no_channel_form("from", &s);
    s.channel = 0xC;
    s.from = 0xD;
    no_channel_form("channel", &s);
    s.channel = 0xFF;
    s.from = 0;
    no_channel_form("channel", &s);
    /* Made for Current: a channel is taken exactly where a part was heard. */
    ghj_channel_collect_fresh(&s, GHJ_CHANNEL_CURRENT);
    s.from = 2;
    no_channel_form("taken unheard", &s);
    s.from = 0;
    takes("current", &s, 0, "\x01", 1);
    s.from = 0;
    no_channel_form("heard untaken", &s);
    s.from = 0xC + 1;
    no_channel_form("taken from none", &s);
    s.from = 2;
    check("current", ghj_channel_collect_status(&s) == 0);
    /* What the collector stores is tested too. */
    s.collector.lowest = 0;
    no_channel_form("stored", &s);
}

int main(void) {
    unnamed();
    requests();
    set_requests();
    set_readers();
    set_again();
    set_applied();
    responses();
    texts();
    types();
    table();
    lists();
    tagged();
    tagged_refused();
    many_records();
    tagged_forms();
    collectors();
    channel_collectors();
    channel_forms();
    if (faults == 0)
        printf("c: the examples hold\n");
    return faults != 0;
}
