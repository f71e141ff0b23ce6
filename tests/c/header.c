/* What the header says beside its functions: structs, sizes, names of numbers, texts of refusals, the functions on a
 * collector's struct. */
#include "ghjalvestru.h"

#include <stdio.h>
#include <string.h>

static int faults;

static void check(const char *what, int holds) {
    if (!holds) {
        printf("c: %s\n", what);
        faults++;
    }
}

/* Not compiled where a struct has holes or another size. */
typedef char collector_size[sizeof(struct ghj_collector) == GHJ_COLLECTOR_SIZE ? 1 : -1];
typedef char channel_collector_size[sizeof(struct ghj_channel_collector) == GHJ_CHANNEL_COLLECTOR_SIZE ? 1 : -1];

static void sizes(void) {
    check("sizes", sizeof(struct ghj_access_record) == GHJ_ACCESS_SIZE);
    check("sizes", sizeof(struct ghj_set_access_record) == GHJ_SET_ACCESS_SIZE);
    check("sizes", sizeof(struct ghj_settings_record) == GHJ_SETTINGS_SIZE);
    check("sizes", sizeof(struct ghj_info_record) == GHJ_INFO_SIZE);
    check("sizes", sizeof(struct ghj_capabilities_record) == GHJ_CAPABILITIES_SIZE);
    check("sizes", sizeof(struct ghj_challenge_record) == GHJ_CHALLENGE_SIZE);
    check("sizes", sizeof(struct ghj_activation_record) == GHJ_ACTIVATION_SIZE);
    check("sizes", sizeof(struct ghj_algorithms_record) == GHJ_ALGORITHMS_SIZE);
    check("sizes", sizeof(struct ghj_tagged_record) == GHJ_TAGGED_SIZE);
    check("sizes", sizeof(struct ghj_tagged_entry) == GHJ_TAGGED_ENTRY_SIZE);
    check("sizes", GHJ_COLLECTOR_SIZE == GHJ_LIST_SIZE + GHJ_PARTS + GHJ_KNOWN_SIZE);
    check("sizes", GHJ_LIST_SIZE == GHJ_PARTS * GHJ_PART_SIZE && GHJ_LAST_INDEX == GHJ_PARTS - 1);
    check("sizes", GHJ_CHANNEL_COLLECTOR_SIZE == 2 + GHJ_COLLECTOR_SIZE && GHJ_BY_SUITE_SIZE == 1 + GHJ_PART_SIZE);
}

static const uint8_t sixteen[GHJ_CHALLENGE_STRING_SIZE] = {1};
static const struct ghj_access_record always = {GHJ_MODE_ALWAYS_AVAILABLE, 1, 0, 0, GHJ_LEVEL_ADMINISTRATOR};

static void requests(void) {
    uint8_t out[64];
    check("request sizes", ghj_access_request(1, GHJ_VOLATILE, out, sizeof out) == GHJ_ACCESS_REQUEST_SIZE);
    check("request sizes", ghj_info_request(GHJ_CHANNEL_CURRENT, out, sizeof out) == GHJ_INFO_REQUEST_SIZE);
    check("request sizes", ghj_capabilities_request(1, GHJ_LEVEL_USER, out, sizeof out) == GHJ_CAPABILITIES_REQUEST_SIZE);
    check("request sizes", ghj_challenge_request(GHJ_AUTH_MD5, sixteen, 16, out, sizeof out) == GHJ_CHALLENGE_REQUEST_SIZE);
    check("request sizes", ghj_activation_request(GHJ_AUTH_KEY, GHJ_LEVEL_OEM, sixteen, 1, out, sizeof out) ==
                               GHJ_ACTIVATION_REQUEST_SIZE);
    check("request sizes", ghj_suites_request(1, GHJ_LAST_INDEX, out, sizeof out) == GHJ_SUITES_REQUEST_SIZE);
    check("request sizes", ghj_by_suite_request(1, GHJ_LAST_INDEX, out, sizeof out) == GHJ_BY_SUITE_REQUEST_SIZE);
    check("request sizes", ghj_set_access_request(1, GHJ_NON_VOLATILE, GHJ_VOLATILE, (const uint8_t *)&always, out,
                                                  sizeof out) == GHJ_SET_ACCESS_REQUEST_SIZE);
    struct ghj_set_access_record set;
    check("set access", ghj_set_access(out, 3, (uint8_t *)&set, sizeof set) == sizeof set);
    check("set access", set.channel == 1 && set.mode_pair == GHJ_NON_VOLATILE && set.limit_pair == GHJ_VOLATILE);
    check("set access", memcmp(&set.access, &always, sizeof always) == 0);
    struct ghj_settings_record before = {{0, 0, 0, 0, 1}, {1, 0, 0, 0, 2}}, after;
    check("settings", ghj_set_access_apply(set.mode_pair, set.limit_pair, (const uint8_t *)&set.access, (uint8_t *)&before,
                                           (uint8_t *)&after, sizeof after) == sizeof after);
    check("settings", after.stored.mode == GHJ_MODE_ALWAYS_AVAILABLE && after.stored.alerting_disabled == 1);
    check("settings", after.stored.limit == GHJ_LEVEL_CALLBACK && after.in_use.mode == GHJ_MODE_PRE_BOOT_ONLY);
    check("settings", after.in_use.alerting_disabled == 0 && after.in_use.limit == GHJ_LEVEL_ADMINISTRATOR);
}

/* A bit of a response changes the field of its name, and no other. */
typedef uint64_t reader(const uint8_t *, size_t, uint8_t *, size_t);
struct bit {
    size_t byte;
    uint8_t bit;
    size_t field;
};
static void bits(const char *what, reader *read, uint8_t *response, size_t length, const struct bit *rows, size_t count) {
    for (size_t i = 0; i < count; i++) {
        uint8_t without[64], with[64];
        uint64_t size = read(response, length, without, sizeof without);
        response[rows[i].byte] ^= (uint8_t)(1 << rows[i].bit);
        check(what, read(response, length, with, sizeof with) == size);
        response[rows[i].byte] ^= (uint8_t)(1 << rows[i].bit);
        for (size_t k = 0; k < size; k++)
            check(what, (without[k] != with[k]) == (k == rows[i].field));
    }
}
#define ROW(byte, bit, record, field) {byte, bit, offsetof(struct ghj_##record##_record, field)}
#define COUNT(rows) (sizeof rows / sizeof *rows)

static void flags(void) {
    static const struct bit access[] = {ROW(0, 0, access, mode), ROW(0, 5, access, alerting_disabled),
                                        ROW(0, 4, access, per_message_disabled), ROW(0, 3, access, user_level_disabled),
                                        ROW(1, 0, access, limit)};
    uint8_t two[2] = {0};
    bits("access", ghj_access, two, 2, access, COUNT(access));
    static const struct bit capabilities[] = {
        ROW(0, 0, capabilities, channel),        ROW(1, 5, capabilities, oem),
        ROW(1, 4, capabilities, key),            ROW(1, 2, capabilities, md5),
        ROW(1, 1, capabilities, md2),            ROW(1, 0, capabilities, none),
        ROW(2, 5, capabilities, kg_status),      ROW(2, 4, capabilities, per_message_enabled),
        ROW(2, 3, capabilities, user_level_enabled), ROW(2, 2, capabilities, non_null_names),
        ROW(2, 1, capabilities, null_names),     ROW(2, 0, capabilities, anonymous),
        ROW(3, 1, capabilities, v2_0),           ROW(3, 0, capabilities, v1_5),
        ROW(4, 0, capabilities, oem_id[0]),      ROW(6, 0, capabilities, oem_id[2]),
        ROW(7, 0, capabilities, auxiliary)};
    uint8_t eight[8] = {0, 0x80};
    bits("capabilities", ghj_capabilities, eight, 8, capabilities, COUNT(capabilities));
    static const struct bit info[] = {ROW(0, 0, info, channel),         ROW(1, 0, info, medium),
                                      ROW(2, 0, info, protocol),        ROW(3, 6, info, session_support),
                                      ROW(3, 0, info, active_sessions), ROW(4, 0, info, vendor[0]),
                                      ROW(6, 0, info, vendor[2]),       ROW(7, 0, info, auxiliary[0]),
                                      ROW(8, 0, info, auxiliary[1])};
    uint8_t nine[9] = {0};
    bits("info", ghj_info, nine, 9, info, COUNT(info));
    static const struct bit challenge[] = {ROW(0, 1, challenge, session), ROW(19, 0, challenge, challenge[15])};
    uint8_t twenty[20] = {1};
    bits("challenge", ghj_challenge, twenty, 20, challenge, COUNT(challenge));
    static const struct bit activation[] = {ROW(0, 0, activation, auth_type), ROW(4, 0, activation, session[3]),
                                            ROW(8, 7, activation, sequence[3]), ROW(9, 0, activation, level)};
    uint8_t ten[10] = {0, 1, 0, 0, 0, 0, 0, 0, 0, GHJ_LEVEL_ADMINISTRATOR};
    bits("activation", ghj_activation, ten, 10, activation, COUNT(activation));
}

typedef uint64_t writer(uint8_t, uint8_t *, size_t);
static void says(writer *write, uint8_t number, const char *text) {
    char out[GHJ_TEXT_SIZE];
    uint64_t length = write(number, (uint8_t *)out, sizeof out);
    check(text, length == strlen(text) && memcmp(out, text, (size_t)length) == 0);
}

/* The names of numbers are those of their texts. */
struct name {
    writer *write;
    uint8_t number;
    const char *text;
};
static const struct name names[] = {
    {ghj_channel_text, GHJ_CHANNEL_PRIMARY, "Primary channel"},
    {ghj_channel_text, GHJ_CHANNEL_CURRENT, "Current channel"},
    {ghj_channel_text, GHJ_CHANNEL_SYSTEM, "System channel"},
    {ghj_auth_type_name, GHJ_AUTH_NONE, "None"},
    {ghj_auth_type_name, GHJ_AUTH_MD2, "MD2"},
    {ghj_auth_type_name, GHJ_AUTH_MD5, "MD5"},
    {ghj_auth_type_name, GHJ_AUTH_KEY, "Key"},
    {ghj_mode_text, GHJ_MODE_DISABLED, "Disabled"},
    {ghj_mode_text, GHJ_MODE_PRE_BOOT_ONLY, "Pre-boot Only"},
    {ghj_mode_text, GHJ_MODE_ALWAYS_AVAILABLE, "Always Available"},
    {ghj_mode_text, GHJ_MODE_SHARED, "Shared"},
    {ghj_limit_text, GHJ_LEVEL_RESERVED, "Reserved"},
    {ghj_limit_text, GHJ_LEVEL_CALLBACK, "Callback"},
    {ghj_limit_text, GHJ_LEVEL_USER, "User"},
    {ghj_limit_text, GHJ_LEVEL_OPERATOR, "Operator"},
    {ghj_limit_text, GHJ_LEVEL_ADMINISTRATOR, "Administrator"},
    {ghj_limit_text, GHJ_LEVEL_OEM, "OEM"},
    {ghj_medium_text, GHJ_MEDIUM_RESERVED, "Reserved"},
    {ghj_medium_text, GHJ_MEDIUM_IPMB, "IPMB (I2C)"},
    {ghj_medium_text, GHJ_MEDIUM_ICMB_1_0, "ICMB v1.0"},
    {ghj_medium_text, GHJ_MEDIUM_ICMB_0_9, "ICMB v0.9"},
    {ghj_medium_text, GHJ_MEDIUM_LAN_802_3, "802.3 LAN"},
    {ghj_medium_text, GHJ_MEDIUM_SERIAL_MODEM, "Asynchronous Serial/Modem"},
    {ghj_medium_text, GHJ_MEDIUM_OTHER_LAN, "Other LAN"},
    {ghj_medium_text, GHJ_MEDIUM_PCI_SMBUS, "PCI SMBus"},
    {ghj_medium_text, GHJ_MEDIUM_SMBUS_1_0, "SMBus v1.0/1.1"},
    {ghj_medium_text, GHJ_MEDIUM_SMBUS_2_0, "SMBus v2.0"},
    {ghj_medium_text, GHJ_MEDIUM_USB_1_X, "USB 1.x (reserved)"},
    {ghj_medium_text, GHJ_MEDIUM_USB_2_X, "USB 2.x (reserved)"},
    {ghj_medium_text, GHJ_MEDIUM_SYSTEM_INTERFACE, "System Interface"},
    {ghj_protocol_text, GHJ_PROTOCOL_RESERVED, "Reserved"},
    {ghj_protocol_text, GHJ_PROTOCOL_IPMB_1_0, "IPMB-1.0"},
    {ghj_protocol_text, GHJ_PROTOCOL_ICMB_1_0, "ICMB-1.0"},
    {ghj_protocol_text, GHJ_PROTOCOL_IPMI_SMBUS, "IPMI-SMBus"},
    {ghj_protocol_text, GHJ_PROTOCOL_KCS, "KCS"},
    {ghj_protocol_text, GHJ_PROTOCOL_SMIC, "SMIC"},
    {ghj_protocol_text, GHJ_PROTOCOL_BT_1_0, "BT-10"},
    {ghj_protocol_text, GHJ_PROTOCOL_BT_1_5, "BT-15"},
    {ghj_protocol_text, GHJ_PROTOCOL_TERMINAL_MODE, "Terminal Mode"},
    {ghj_session_support_text, GHJ_SESSION_LESS, "Session-less"},
    {ghj_session_support_text, GHJ_SESSION_SINGLE, "Single-session"},
    {ghj_session_support_text, GHJ_SESSION_MULTI, "Multi-session"},
    {ghj_session_support_text, GHJ_SESSION_BASED, "Session-based"},
};

/* Of every number that has one. */
static void texts_fit(void) {
    static writer *const writers[] = {ghj_mode_text,     ghj_limit_text,           ghj_medium_text,
                                      ghj_protocol_text, ghj_session_support_text, ghj_channel_text};
    uint64_t longest = 0;
    for (size_t i = 0; i < COUNT(writers); i++)
        for (unsigned number = 0; number < 256; number++) {
            uint8_t out[2 * GHJ_TEXT_SIZE];
            uint64_t length = writers[i]((uint8_t)number, out, sizeof out);
            if (!GHJ_IS_REFUSED(length) && length > longest)
                longest = length;
        }
    check("texts fit", longest > 0 && longest < GHJ_TEXT_SIZE);
}

static void suites(void) {
    check("strength", ghj_compare_strength(GHJ_AUTH_KEY, GHJ_AUTH_MD2) == GHJ_WEAKER);
    check("strength", ghj_compare_strength(GHJ_AUTH_KEY, GHJ_AUTH_KEY) == GHJ_EQUAL);
    check("strength", ghj_compare_strength(GHJ_AUTH_MD5, GHJ_AUTH_NONE) == GHJ_STRONGER);
    struct ghj_algorithms_record row;
    check("suite 17", ghj_suite_algorithms(17, (uint8_t *)&row, sizeof row) == sizeof row);
    check("suite 17", row.authentication == GHJ_RAKP_HMAC_SHA256 && row.integrity == GHJ_INTEGRITY_HMAC_SHA256_128);
    check("suite 17", row.confidentiality == GHJ_CONFIDENTIALITY_AES_CBC_128);
    static const uint8_t list[] = {0xC0, 0x03, 0x01, 0x41, 0x81, 0xC1, 0x80, 0xF2, 0x1B, 0x00, 0x00, 0x41, 0x44};
    struct ghj_tagged_record record;
    check("tagged", ghj_tagged_step(list, sizeof list, 5, (uint8_t *)&record, sizeof record) == sizeof record);
    check("tagged", record.number == 0x80 && record.owner == GHJ_VENDOR && ghj_number(record.vendor, 3) == 7154);
    check("tagged", record.authentication == 0 && record.zeros[0] == 0 && record.zeros[1] == 0);
    check("tagged", ghj_number(record.integrity, 8) == 11 && ghj_number(record.confidentiality, 8) == 13);
    check("tagged", ghj_number(record.end, 8) == 13);
    struct ghj_tagged_entry entries[2];
    check("tagged", ghj_tagged_listing(list, sizeof list, (uint8_t *)entries, sizeof entries) == sizeof entries);
    check("tagged", entries[0].number == 3 && entries[0].owner == GHJ_STANDARD && ghj_number(entries[0].vendor, 3) == 0);
    check("tagged", entries[1].number == 0x80 && entries[1].owner == GHJ_VENDOR);
    check("tagged", ghj_number(entries[1].vendor, 3) == 7154);
    check("number", ghj_number(list, 0) == 0 && ghj_number(list + 5, 8) == 0x444100001BF280C1u);
}

/* The longest list, of as many suites as there can be, through the functions on the struct. */
static void collected(void) {
    struct ghj_collector collector = GHJ_FRESH;
    uint8_t list[GHJ_LIST_SIZE], out[GHJ_LIST_SIZE], numbers[GHJ_LIST_SUITES];
    for (size_t i = 0; i < sizeof list; i++)
        list[i] = i % 5 == 0 ? 0xC0 : 0x03;
    for (unsigned i = 0; i < GHJ_PARTS; i++) {
        uint64_t status = ghj_collect_status(&collector);
        check("collected", GHJ_IS_MISSING(status) && GHJ_MISSING(status) == i);
        check("collected", collector.lowest == i && collector.complete == 0);
        check("collected", ghj_collect_answer(&collector, (uint8_t)i, list + GHJ_PART_SIZE * i, GHJ_PART_SIZE) == 0);
    }
    check("collected", ghj_collect_status(&collector) == GHJ_LIST_SIZE);
    check("collected", collector.lowest == GHJ_PARTS && collector.complete == 1);
    check("collected", ghj_collect_known(&collector) == &collector.lowest);
    check("collected", ghj_collect_known_const(&collector) + 1 == &collector.complete);
    check("collected", ghj_collect_list(&collector, out, sizeof out) == GHJ_LIST_SIZE);
    check("collected", memcmp(list, out, sizeof list) == 0);
    check("collected", ghj_collect_suites(&collector, numbers, sizeof numbers) == GHJ_LIST_SUITES);
}

/* The same from a channel, its answers as they come, the longest that there are. */
static void collected_by_suite(void) {
    struct ghj_channel_collector collector;
    uint8_t list[GHJ_LIST_SIZE], out[GHJ_LIST_SIZE], numbers[GHJ_LIST_SUITES], answer[GHJ_BY_SUITE_SIZE];
    for (size_t i = 0; i < sizeof list; i++)
        list[i] = i % 5 == 0 ? 0xC0 : 0x03;
    /* Fresh whatever it held; for no channel, it stays as it was. */
    memset(&collector, 0xA5, sizeof collector);
    check("by suite", GHJ_REFUSAL(ghj_channel_collect_fresh(&collector, 0x0C)) == GHJ_NO_CHANNEL);
    for (size_t i = 0; i < sizeof collector; i++)
        check("by suite", ((const uint8_t *)&collector)[i] == 0xA5);
    check("by suite", ghj_channel_collect_fresh(&collector, GHJ_CHANNEL_CURRENT) == 0);
    check("by suite", collector.channel == GHJ_CHANNEL_CURRENT && collector.from == 0);
    for (unsigned i = 0; i < GHJ_PARTS; i++) {
        uint64_t status = ghj_channel_collect_status(&collector);
        check("by suite", GHJ_IS_MISSING(status) && GHJ_MISSING(status) == i && collector.collector.lowest == i);
        answer[0] = 0x0B;
        memcpy(answer + 1, list + GHJ_PART_SIZE * i, GHJ_PART_SIZE);
        check("by suite", ghj_by_suite(answer, sizeof answer, out, sizeof out) == sizeof answer);
        check("by suite", memcmp(out, answer, sizeof answer) == 0);
        check("by suite", ghj_channel_collect_answer(&collector, (uint8_t)i, answer, sizeof answer) == 0);
        check("by suite", collector.channel == GHJ_CHANNEL_CURRENT && collector.from == 0x0B + 1);
    }
    check("by suite", ghj_channel_collect_status(&collector) == GHJ_LIST_SIZE && collector.collector.complete == 1);
    check("by suite", ghj_channel_collect_list(&collector, out, sizeof out) == GHJ_LIST_SIZE);
    check("by suite", memcmp(list, out, sizeof list) == 0);
    check("by suite", ghj_channel_collect_suites(&collector, numbers, sizeof numbers) == GHJ_LIST_SUITES);
}

/* With a word, the refusals that have a text and their names, as README.md's table has them. */
int main(int count, char **words) {
    (void)words;
    if (count > 1) {
        for (unsigned refusal = 0; refusal < 256; refusal++) {
            const char *text = ghj_refusal_text(refusal), *colon = strchr(text, ':');
            if (colon)
                printf("%u %.*s\n", refusal, (int)(colon - text), text);
        }
        return 0;
    }
    sizes();
    requests();
    flags();
    for (size_t i = 0; i < COUNT(names); i++)
        says(names[i].write, names[i].number, names[i].text);
    texts_fit();
    suites();
    collected();
    collected_by_suite();
    char version[32];
    snprintf(version, sizeof version, "%d.%d.%d", GHJ_VERSION_MAJOR, GHJ_VERSION_MINOR, GHJ_VERSION_PATCH);
    check("version", strcmp(version, GHJ_VERSION) == 0);
    if (faults == 0)
        printf("c: structs, sizes and names as the header says\n");
    return faults != 0;
}
