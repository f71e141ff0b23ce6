/* Ghjalvestru from C: readers of IPMI channel and session answers, writers of their requests, texts, a channel's settings
 * after a Set Channel Access, the table of cipher suites, two collectors of a list of them, and the strict reading and
 * writing of such a list's records.
 *
 * Every function takes any bytes and any numbers. A pair `const uint8_t *x, size_t x_length` is a slice; an empty one may be
 * NULL with the length 0. Every other pointer leads to as many bytes as it says. What is written to overlaps with nothing else
 * that is lent.
 *
 * Every function returns a number: what was accepted (0, the length that was written, or what the function says), or a
 * refusal. A refusal changes no byte that was lent. Records and messages are written at the start of `out`, and nothing
 * behind them; they are refused with GHJ_NO_ROOM, after all other refusals, where `out` is too short.
 *
 * A record is a struct of bytes without holes, which can be lent as `out`:
 *
 *     struct ghj_access_record access;
 *     uint64_t number = ghj_access(response, length, (uint8_t *)&access, sizeof access);
 *     if (GHJ_IS_REFUSED(number))
 *         fprintf(stderr, "%s\n", ghj_refusal_text(GHJ_REFUSAL(number)));
 *
 * There is no state but what is lent: any thread may call any function, on bytes that no other thread is changing.
 *
 * Sections and tables are those of IPMI 2.0. */
#ifndef GHJALVESTRU_H
#define GHJALVESTRU_H

#include <stddef.h>
#include <stdint.h>

/* Of this header, the archive and the Rust crate; rust/CHANGELOG.md says what changed. */
#define GHJ_VERSION "0.4.0"
#define GHJ_VERSION_MAJOR 0
#define GHJ_VERSION_MINOR 4
#define GHJ_VERSION_PATCH 0

#ifdef __cplusplus
extern "C" {
#endif

/* Is this number a refusal? Which one, and what does it carry: a byte, or a place of up to 55 bits, as a uint64_t? */
#define GHJ_IS_REFUSED(number) (((number) >> 63) != 0)
#define GHJ_REFUSAL(number) ((unsigned)((number) & 0xFF))
#define GHJ_CARRIED(number) (((uint64_t)(number) & ~((uint64_t)1 << 63)) >> 8)

enum ghj_refusal {
    GHJ_NOT_ENOUGH_DATA = 1,
    GHJ_TOO_MUCH_DATA = 2,
    GHJ_INVALID_ZERO_SESSION = 3,
    GHJ_INVALID_AUTH_TYPE = 4,       /* carries the whole byte */
    GHJ_INVALID_PRIVILEGE_LEVEL = 5, /* carries the byte */
    GHJ_NO_CHANNEL = 6,
    GHJ_BAD_INDEX = 7,
    GHJ_LONG_NAME = 8,
    GHJ_NO_FORM = 9,
    GHJ_NOT_A_REQUEST = 10,
    GHJ_NO_ROOM = 11,
    GHJ_DISAGREES = 12,
    GHJ_INCOMPLETE = 13, /* carries the lowest unheard index */
    GHJ_BAD_LINE = 14,
    GHJ_WRONG_CHANNEL = 15,
    GHJ_BAD_RECORD = 16 /* carries the place; one above 2^55 - 1 counts as 2^55 - 1 */
};

/* A refusal's name and what it means. */
static inline const char *ghj_refusal_text(unsigned refusal) {
    switch (refusal) {
    case GHJ_NOT_ENOUGH_DATA: return "NotEnoughData: a response has a wrong length, or its channel does not exist";
    case GHJ_TOO_MUCH_DATA: return "TooMuchData: a suite response is above 16 bytes, or one by suite above 17";
    case GHJ_INVALID_ZERO_SESSION: return "InvalidZeroSession: the session number is 0";
    case GHJ_INVALID_AUTH_TYPE: return "InvalidAuthType: no such authentication type";
    case GHJ_INVALID_PRIVILEGE_LEVEL: return "InvalidPrivilegeLevel: no such privilege level";
    case GHJ_NO_CHANNEL: return "NoChannel: no channel has this number";
    case GHJ_BAD_INDEX: return "BadIndex: a list index is above 0x3F";
    case GHJ_LONG_NAME: return "LongName: a user name is above 16 bytes";
    case GHJ_NO_FORM: return "NoForm: a record, command or collector that cannot be";
    case GHJ_NOT_A_REQUEST: return "NotARequest: no command writes these bytes";
    case GHJ_NO_ROOM: return "NoRoom: the lent buffer is too short";
    case GHJ_DISAGREES: return "Disagrees: no list explains this answer and those accepted";
    case GHJ_INCOMPLETE: return "Incomplete: a part of the list was not heard";
    case GHJ_BAD_LINE: return "BadLine: a line that cannot be read";
    case GHJ_WRONG_CHANNEL: return "WrongChannel: an answer comes from another channel than the collector's";
    case GHJ_BAD_RECORD: return "BadRecord: a list that is no sequence of records";
    default: return "no such refusal";
    }
}

/* The number names no type, level, row or suite, or there is none: "answers none, which counts as accepted". Nothing is
 * written. Like GHJ_IS_MISSING's numbers it is apart from every length and count: these are below 2^61, as no slice is as
 * long. */
#define GHJ_NONE ((uint64_t)1 << 62)

/* The network function of all requests (5.1, Table 5-1) and their commands (Appendix G). */
#define GHJ_NETFN_APP 0x06
enum ghj_command {
    GHJ_GET_CHANNEL_AUTHENTICATION_CAPABILITIES = 0x38, /* 22.13, Table 22-15 */
    GHJ_GET_SESSION_CHALLENGE = 0x39,                   /* 22.16 */
    GHJ_ACTIVATE_SESSION = 0x3A,                        /* 22.17 */
    GHJ_SET_CHANNEL_ACCESS = 0x40,                      /* 22.22 */
    GHJ_GET_CHANNEL_ACCESS = 0x41,                      /* 22.23, Table 22-28 */
    GHJ_GET_CHANNEL_INFO = 0x42,                        /* 22.24, Table 22-29 */
    GHJ_GET_CHANNEL_CIPHER_SUITES = 0x54                /* 22.15, Table 22-17 */
};

/* Channels (6.3, Table 6-1); 1 to 0xB are numbered ones. */
enum ghj_channel { GHJ_CHANNEL_PRIMARY = 0x0, GHJ_CHANNEL_CURRENT = 0xE, GHJ_CHANNEL_SYSTEM = 0xF };

/* Authentication types (13.6). */
enum ghj_auth_type { GHJ_AUTH_NONE = 0, GHJ_AUTH_MD2 = 1, GHJ_AUTH_MD5 = 2, GHJ_AUTH_KEY = 4 };

/* How the first of two types compares with the second. */
enum ghj_strength { GHJ_WEAKER = 0, GHJ_EQUAL = 1, GHJ_STRONGER = 2 };

/* Privilege levels, and the limit of a channel, which may also be another number up to 15 (6.8). */
enum ghj_level {
    GHJ_LEVEL_RESERVED = 0, /* as a limit alone */
    GHJ_LEVEL_CALLBACK = 1,
    GHJ_LEVEL_USER = 2,
    GHJ_LEVEL_OPERATOR = 3,
    GHJ_LEVEL_ADMINISTRATOR = 4,
    GHJ_LEVEL_OEM = 5
};

/* Access modes; a controller may show another number up to 7 (6.6, Table 6-4). */
enum ghj_mode { GHJ_MODE_DISABLED = 0, GHJ_MODE_PRE_BOOT_ONLY = 1, GHJ_MODE_ALWAYS_AVAILABLE = 2, GHJ_MODE_SHARED = 3 };

/* Which of a channel's two settings. GHJ_LEAVE, neither, is for the pairs of Set Channel Access alone. */
enum ghj_kind { GHJ_LEAVE = 0, GHJ_NON_VOLATILE = 1, GHJ_VOLATILE = 2 };

/* What a channel runs over (6.5, Table 6-3); 0x0D to 0x5F are reserved, 0x60 to 0x7F a vendor's own. */
enum ghj_medium {
    GHJ_MEDIUM_RESERVED = 0x00,
    GHJ_MEDIUM_IPMB = 0x01,
    GHJ_MEDIUM_ICMB_1_0 = 0x02,
    GHJ_MEDIUM_ICMB_0_9 = 0x03,
    GHJ_MEDIUM_LAN_802_3 = 0x04,
    GHJ_MEDIUM_SERIAL_MODEM = 0x05,
    GHJ_MEDIUM_OTHER_LAN = 0x06,
    GHJ_MEDIUM_PCI_SMBUS = 0x07,
    GHJ_MEDIUM_SMBUS_1_0 = 0x08,
    GHJ_MEDIUM_SMBUS_2_0 = 0x09,
    GHJ_MEDIUM_USB_1_X = 0x0A,
    GHJ_MEDIUM_USB_2_X = 0x0B,
    GHJ_MEDIUM_SYSTEM_INTERFACE = 0x0C
};

/* What is spoken on it (6.4, Table 6-2); 3 and 0x0A to 0x1B are reserved, 0x1C to 0x1F a vendor's own. */
enum ghj_protocol {
    GHJ_PROTOCOL_RESERVED = 0x00,
    GHJ_PROTOCOL_IPMB_1_0 = 0x01,
    GHJ_PROTOCOL_ICMB_1_0 = 0x02,
    GHJ_PROTOCOL_IPMI_SMBUS = 0x04,
    GHJ_PROTOCOL_KCS = 0x05,
    GHJ_PROTOCOL_SMIC = 0x06,
    GHJ_PROTOCOL_BT_1_0 = 0x07,
    GHJ_PROTOCOL_BT_1_5 = 0x08,
    GHJ_PROTOCOL_TERMINAL_MODE = 0x09
};

/* Which sessions it has (22.24, Table 22-29). */
enum ghj_session_support {
    GHJ_SESSION_LESS = 0,
    GHJ_SESSION_SINGLE = 1,
    GHJ_SESSION_MULTI = 2,
    GHJ_SESSION_BASED = 3
};

/* The algorithms of a suite (13.28, Tables 13-17 to 13-19). */
enum ghj_authentication {
    GHJ_RAKP_NONE = 0,
    GHJ_RAKP_HMAC_SHA1 = 1,
    GHJ_RAKP_HMAC_MD5 = 2,
    GHJ_RAKP_HMAC_SHA256 = 3
};
enum ghj_integrity {
    GHJ_INTEGRITY_NONE = 0,
    GHJ_INTEGRITY_HMAC_SHA1_96 = 1,
    GHJ_INTEGRITY_HMAC_MD5_128 = 2,
    GHJ_INTEGRITY_MD5_128 = 3,
    GHJ_INTEGRITY_HMAC_SHA256_128 = 4
};
enum ghj_confidentiality {
    GHJ_CONFIDENTIALITY_NONE = 0,
    GHJ_CONFIDENTIALITY_AES_CBC_128 = 1,
    GHJ_CONFIDENTIALITY_XRC4_128 = 2,
    GHJ_CONFIDENTIALITY_XRC4_40 = 3
};

/* A number that a record has in several bytes, low first. */
static inline uint64_t ghj_number(const uint8_t *bytes, size_t length) {
    uint64_t number = 0;
    while (length > 0)
        number = number << 8 | bytes[--length];
    return number;
}

/* How many bytes each request has. */
#define GHJ_ACCESS_REQUEST_SIZE 2
#define GHJ_INFO_REQUEST_SIZE 1
#define GHJ_CAPABILITIES_REQUEST_SIZE 2
#define GHJ_CHALLENGE_REQUEST_SIZE 17
#define GHJ_ACTIVATION_REQUEST_SIZE 22
#define GHJ_SUITES_REQUEST_SIZE 3
#define GHJ_BY_SUITE_REQUEST_SIZE 3
#define GHJ_SET_ACCESS_REQUEST_SIZE 3

/* How many bytes each record has, which is the size of its struct, and the parts that have a length of their own. */
#define GHJ_ACCESS_SIZE 5
#define GHJ_SETTINGS_SIZE 10
#define GHJ_SET_ACCESS_SIZE 8
#define GHJ_INFO_SIZE 11
#define GHJ_CAPABILITIES_SIZE 18
#define GHJ_CHALLENGE_SIZE 20
#define GHJ_CHALLENGE_STRING_SIZE 16
#define GHJ_ACTIVATION_SIZE 10
#define GHJ_ALGORITHMS_SIZE 3
#define GHJ_TAGGED_SIZE 32
#define GHJ_TAGGED_ENTRY_SIZE 5

/* Longer than every text, so that a zero can be put behind it. */
#define GHJ_TEXT_SIZE 32

/* Of a list that is collected: its bytes and its suites at most, its parts, the bytes of each, the last one's index. */
#define GHJ_LIST_SIZE 1024
#define GHJ_LIST_SUITES 204
#define GHJ_PARTS 64
#define GHJ_PART_SIZE 16
#define GHJ_LAST_INDEX 0x3F

/* The most bytes of an answer by suite: its channel and a part. */
#define GHJ_BY_SUITE_SIZE 17

/* Of a collector: all of its struct, the two bytes behind its arrays, all of the struct of one for a channel. */
#define GHJ_COLLECTOR_SIZE 1090
#define GHJ_KNOWN_SIZE 2
#define GHJ_CHANNEL_COLLECTOR_SIZE 1092

/* Requests: the data of each command at the start of `out`; the number is their length. The first argument at fault
 * decides, and GHJ_NO_ROOM comes last. The whole number of a type or level counts, as a command writes no reserved bits. */

/* Get Channel Access, 41h. 2 bytes: GHJ_NO_CHANNEL, then GHJ_NO_FORM where kind is not 1 (non-volatile) or 2
 * (volatile). */
uint64_t ghj_access_request(uint8_t channel, uint8_t kind, uint8_t *out, size_t out_length);

/* Get Channel Info, 42h. 1 byte: GHJ_NO_CHANNEL. */
uint64_t ghj_info_request(uint8_t channel, uint8_t *out, size_t out_length);

/* Get Channel Authentication Capabilities, 38h. 2 bytes: GHJ_NO_CHANNEL, then GHJ_NONE where privilege is not 1 to 5. */
uint64_t ghj_capabilities_request(uint8_t channel, uint8_t privilege, uint8_t *out, size_t out_length);

/* Get Session Challenge, 39h. 17 bytes: GHJ_NONE where auth_type is not 0, 1, 2 or 4, then GHJ_LONG_NAME where the name
 * has more than 16 bytes. */
uint64_t ghj_challenge_request(uint8_t auth_type, const uint8_t *name, size_t name_length, uint8_t *out,
                               size_t out_length);

/* Activate Session, 3Ah. 22 bytes: GHJ_NONE where auth_type is not 0, 1, 2 or 4 or privilege is not 1 to 5. */
uint64_t ghj_activation_request(uint8_t auth_type, uint8_t privilege, const uint8_t challenge[16], uint32_t sequence,
                                uint8_t *out, size_t out_length);

/* Get Channel Cipher Suites, 54h. 3 bytes: GHJ_NO_CHANNEL, then GHJ_BAD_INDEX above 0x3F. There are two readings of this
 * command. For a real controller it is the one by suite: ghj_by_suite_request, ghj_by_suite and the struct
 * ghj_channel_collector, which take its answers as they come. The other, ghj_suites_request, ghj_suites and the struct
 * ghj_collector, is that of the Rust crate ipmi-rs-core: bit 7 of the request's last byte is clear, and every byte of an
 * answer is one of the list. */
uint64_t ghj_suites_request(uint8_t channel, uint8_t index, uint8_t *out, size_t out_length);

/* The same by suite: bit 7 of the last byte is set. */
uint64_t ghj_by_suite_request(uint8_t channel, uint8_t index, uint8_t *out, size_t out_length);

/* The access settings of a channel. */
struct ghj_access_record {
    uint8_t mode; /* enum ghj_mode */
    /* DISABLED where 1, else 0. */
    uint8_t alerting_disabled;
    uint8_t per_message_disabled;
    uint8_t user_level_disabled;
    uint8_t limit; /* enum ghj_level */
};

/* Set Channel Access, 40h. 3 bytes: GHJ_NO_CHANNEL, then GHJ_NO_FORM where a pair is not 0 to 2, the mode above 7 or the
 * limit above 15. `access` is the record that ghj_access gives: any other number than 0 sets a flag. mode_pair says where
 * its mode and flags go, limit_pair where its limit goes: enum ghj_kind. */
uint64_t ghj_set_access_request(uint8_t channel, uint8_t mode_pair, uint8_t limit_pair,
                                const uint8_t access[GHJ_ACCESS_SIZE], uint8_t *out, size_t out_length);

/* A request of Set Channel Access, read back: a struct ghj_set_access_record. GHJ_NOT_A_REQUEST for what the writer does
 * not write. */
uint64_t ghj_set_access(const uint8_t *request, size_t request_length, uint8_t *out, size_t out_length);
struct ghj_set_access_record {
    uint8_t channel;
    uint8_t mode_pair;  /* enum ghj_kind */
    uint8_t limit_pair; /* enum ghj_kind */
    struct ghj_access_record access;
};

/* A channel's two settings after the command; `settings` has them before, both as a struct ghj_settings_record.
 * GHJ_NO_FORM as in the request. What a pair leaves stays as it was: modes and limits of the settings may be any numbers,
 * and a flag that is not 0 is 1 afterwards. */
uint64_t ghj_set_access_apply(uint8_t mode_pair, uint8_t limit_pair, const uint8_t access[GHJ_ACCESS_SIZE],
                              const uint8_t settings[GHJ_SETTINGS_SIZE], uint8_t *out, size_t out_length);
struct ghj_settings_record {
    struct ghj_access_record stored; /* non-volatile */
    struct ghj_access_record in_use; /* volatile */
};

/* Responses. `response` is the data behind the completion code; the number is the record's length. */

/* Get Channel Access, 41h: a struct ghj_access_record. GHJ_NOT_ENOUGH_DATA below 2 bytes. */
uint64_t ghj_access(const uint8_t *response, size_t response_length, uint8_t *out, size_t out_length);

/* Get Channel Info, 42h: a struct ghj_info_record. GHJ_NOT_ENOUGH_DATA below 9 bytes, and where the channel's nibble is 0xC
 * or 0xD. */
uint64_t ghj_info(const uint8_t *response, size_t response_length, uint8_t *out, size_t out_length);
struct ghj_info_record {
    uint8_t channel;
    uint8_t medium;          /* enum ghj_medium */
    uint8_t protocol;        /* enum ghj_protocol */
    uint8_t session_support; /* enum ghj_session_support */
    uint8_t active_sessions;
    uint8_t vendor[4]; /* low first */
    uint8_t auxiliary[2];
};

/* Get Channel Authentication Capabilities, 38h: a struct ghj_capabilities_record. GHJ_NOT_ENOUGH_DATA below 7 bytes, and
 * below 8 where bit 7 of the second one is set. */
uint64_t ghj_capabilities(const uint8_t *response, size_t response_length, uint8_t *out, size_t out_length);
struct ghj_capabilities_record {
    uint8_t channel; /* the whole byte */
    /* Offered types, then what else holds, each 0 or 1. */
    uint8_t oem;
    uint8_t key;
    uint8_t md5;
    uint8_t md2;
    uint8_t none;
    uint8_t kg_status;
    uint8_t per_message_enabled;
    uint8_t user_level_enabled;
    uint8_t non_null_names;
    uint8_t null_names;
    uint8_t anonymous;
    uint8_t v2_0; /* connections */
    uint8_t v1_5;
    uint8_t oem_id[3]; /* low first */
    uint8_t auxiliary;
};

/* Get Session Challenge, 39h: a struct ghj_challenge_record. GHJ_NOT_ENOUGH_DATA where it is not 20 bytes, then
 * GHJ_INVALID_ZERO_SESSION. */
uint64_t ghj_challenge(const uint8_t *response, size_t response_length, uint8_t *out, size_t out_length);
struct ghj_challenge_record {
    uint8_t session[4]; /* temporary; low first */
    uint8_t challenge[GHJ_CHALLENGE_STRING_SIZE];
};

/* Activate Session, 3Ah: a struct ghj_activation_record. Type and level count by the low nibble of their byte, whose high
 * nibble is reserved: 12h is MD5, and the record has 2. GHJ_NOT_ENOUGH_DATA below 10 bytes, then GHJ_INVALID_AUTH_TYPE where
 * the low nibble is not 0, 1, 2 or 4, GHJ_INVALID_ZERO_SESSION, GHJ_INVALID_PRIVILEGE_LEVEL where it is not 1 to 5; type and
 * level with the whole byte. */
uint64_t ghj_activation(const uint8_t *response, size_t response_length, uint8_t *out, size_t out_length);
struct ghj_activation_record {
    uint8_t auth_type;   /* enum ghj_auth_type */
    uint8_t session[4];  /* low first */
    uint8_t sequence[4]; /* the first one; low first */
    uint8_t level;       /* enum ghj_level, from 1 */
};

/* Get Channel Cipher Suites, 54h. The part of the list that the answer has, 0 to 16 bytes. GHJ_TOO_MUCH_DATA above
 * GHJ_PART_SIZE. As in the Rust crate ipmi-rs-core the whole response counts as list bytes: a real controller's answer
 * begins with its channel, and is ghj_by_suite's to read. */
uint64_t ghj_suites(const uint8_t *response, size_t response_length, uint8_t *out, size_t out_length);

/* The same by suite: the channel's number in one byte, then the part of the list, 1 to 17 bytes. The channel is the low
 * nibble of the first byte, whose high nibble is not looked at and is written 0. GHJ_NOT_ENOUGH_DATA for no bytes,
 * GHJ_TOO_MUCH_DATA above GHJ_BY_SUITE_SIZE, GHJ_NO_CHANNEL where the nibble is 0xC or 0xD. */
uint64_t ghj_by_suite(const uint8_t *response, size_t response_length, uint8_t *out, size_t out_length);

/* Texts, without a zero behind: the number is their length, which is below GHJ_TEXT_SIZE. GHJ_NO_ROOM alone where nothing
 * else is said. */

/* A channel: GHJ_NO_CHANNEL, then GHJ_NO_ROOM. */
uint64_t ghj_channel_text(uint8_t channel, uint8_t *out, size_t out_length);

/* The fields of an access record: mode and privilege limit. */
uint64_t ghj_mode_text(uint8_t mode, uint8_t *out, size_t out_length);
uint64_t ghj_limit_text(uint8_t limit, uint8_t *out, size_t out_length);

/* The fields of an info record: medium, protocol and session support. */
uint64_t ghj_medium_text(uint8_t medium, uint8_t *out, size_t out_length);
uint64_t ghj_protocol_text(uint8_t protocol, uint8_t *out, size_t out_length);
uint64_t ghj_session_support_text(uint8_t support, uint8_t *out, size_t out_length);

/* An authentication type's name: GHJ_NONE where the number is not 0, 1, 2 or 4, then GHJ_NO_ROOM. */
uint64_t ghj_auth_type_name(uint8_t auth_type, uint8_t *out, size_t out_length);

/* The number of the strongest authentication type that is offered (each argument: 0 for not offered), or GHJ_NONE. */
uint64_t ghj_best_auth(uint8_t key, uint8_t md5, uint8_t md2, uint8_t none);

/* 0 where auth_type is weaker than other, 1 equal, 2 stronger; weakest first: none, Key, MD2, MD5. GHJ_NONE where one of
 * the numbers is not 0, 1, 2 or 4. */
uint64_t ghj_compare_strength(uint8_t auth_type, uint8_t other);

/* A suite's three algorithms: a struct ghj_algorithms_record. GHJ_NONE, and nothing written, where the number has no row in
 * the table (22.15); then GHJ_NO_ROOM. */
uint64_t ghj_suite_algorithms(uint8_t suite, uint8_t *out, size_t out_length);
struct ghj_algorithms_record {
    uint8_t authentication;  /* enum ghj_authentication */
    uint8_t integrity;       /* enum ghj_integrity */
    uint8_t confidentiality; /* enum ghj_confidentiality */
};

/* The suite of three algorithms, or GHJ_NONE; nothing is refused. */
uint64_t ghj_suite_of(uint8_t authentication, uint8_t integrity, uint8_t confidentiality);

/* One step of the reading of a list: the suite's number, or GHJ_NONE; nothing is refused. Moves *position and sets *failed
 * to 0 or 1; any other number than 0 counts as failed. A reading starts with both 0. */
uint64_t ghj_suite_step(const uint8_t *list, size_t list_length, size_t *position, uint8_t *failed);

/* The numbers of the suites of a whole list, a byte each, up to the first step of the reading that gives none: at most one
 * for every five bytes. GHJ_NO_ROOM. */
uint64_t ghj_suite_numbers(const uint8_t *list, size_t list_length, uint8_t *out, size_t out_length);

/* Records with tags: a list of suites read strictly, by the standard's format (Table 22-18). A record is C0h and a suite
 * number, or C1h, a number and a vendor number (three bytes, low first); then one authentication byte with the top bits 00,
 * any integrity bytes with 01, any confidentiality bytes with 10. The six bits below are an algorithm's number. Exactly the
 * sequences of such records are accepted, the empty one too. GHJ_BAD_RECORD carries the place of the first byte from
 * which no continuation gives such a sequence, or the length if only the end is missing. */

/* The record at a position: a struct ghj_tagged_record. At the end of the list or past it the number is 0, and nothing is
 * written. GHJ_BAD_RECORD, then GHJ_NO_ROOM. */
uint64_t ghj_tagged_step(const uint8_t *list, size_t list_length, size_t position, uint8_t *out, size_t out_length);
enum ghj_owner { GHJ_STANDARD = 0, GHJ_VENDOR = 1 };
struct ghj_tagged_record {
    uint8_t number;
    uint8_t owner;     /* enum ghj_owner */
    uint8_t vendor[3]; /* low first; zeros for a standard suite */
    uint8_t authentication;
    uint8_t zeros[2];
    /* Places in the list, low first: where its integrity bytes begin; where these end and its confidentiality bytes begin;
     * where these end. There the next record begins or the list ends, which the next step says. */
    uint8_t integrity[8];
    uint8_t confidentiality[8];
    uint8_t end[8];
};

/* How many records the list has, or GHJ_BAD_RECORD. */
uint64_t ghj_tagged_count(const uint8_t *list, size_t list_length);

/* The suite numbers of all records in order, a byte each: GHJ_BAD_RECORD, then GHJ_NO_ROOM. */
uint64_t ghj_tagged_numbers(const uint8_t *list, size_t list_length, uint8_t *out, size_t out_length);

/* The same with whose suites they are: a struct ghj_tagged_entry each. GHJ_BAD_RECORD, then GHJ_NO_ROOM. */
uint64_t ghj_tagged_listing(const uint8_t *list, size_t list_length, uint8_t *out, size_t out_length);
struct ghj_tagged_entry {
    uint8_t number;
    uint8_t owner;
    uint8_t vendor[3];
};

/* The numbers of algorithm bytes, a byte each: GHJ_NO_ROOM. Those of a record lie between its places. */
uint64_t ghj_tagged_algorithms(const uint8_t *bytes, size_t bytes_length, uint8_t *out, size_t out_length);

/* A record's bytes, the algorithms given by their numbers. GHJ_NO_FORM where owner is neither 0, a standard suite, with
 * vendor 0, nor 1, a vendor's own, where vendor is 2^24 or more, or where an algorithm's number is above 63; then
 * GHJ_NO_ROOM. */
uint64_t ghj_tagged_write(uint8_t owner, uint32_t vendor, uint8_t number, uint8_t authentication,
                          const uint8_t *integrity, size_t integrity_length, const uint8_t *confidentiality,
                          size_t confidentiality_length, uint8_t *out, size_t out_length);

/* The collector: joins a list that arrives sixteen bytes at a time. Every byte of an answer is one of the list: for a real
 * controller's answers, which begin with their channel, the struct ghj_channel_collector is wanted. A fresh one is all zeros:
 *
 *     struct ghj_collector collector = GHJ_FRESH;
 *
 * The functions below take its three arrays, the last one being the fields lowest and complete; those behind them take the
 * struct. All fields are the caller's to read alone: values that no calls make are refused with GHJ_NO_FORM. */
struct ghj_collector {
    uint8_t bytes[GHJ_LIST_SIZE]; /* what was heard, at its place; zeros elsewhere */
    uint8_t marks[GHJ_PARTS];     /* one more than a part's length; 0 where it was not heard */
    uint8_t lowest;               /* the lowest unheard index; GHJ_PARTS where all were heard */
    uint8_t complete;             /* 1 where the list is complete, else 0 */
};
#define GHJ_FRESH {{0}, {0}, 0, 0}

/* The answer to an index: 0, or GHJ_NO_FORM, GHJ_BAD_INDEX, GHJ_TOO_MUCH_DATA, GHJ_DISAGREES, in this order. */
uint64_t ghj_collector_answer(uint8_t bytes[1024], uint8_t marks[64], uint8_t known[2], uint8_t index,
                              const uint8_t *response, size_t response_length);

/* The same, the collector lent whole: by copies, so slower than ghj_collect_answer. */
uint64_t ghj_collector_take(struct ghj_collector *collector, uint8_t index, const uint8_t *response,
                            size_t response_length);

/* Complete: the list's length. Not: GHJ_IS_MISSING, and the lowest unheard index. Or GHJ_NO_FORM. */
uint64_t ghj_collector_status(const uint8_t bytes[1024], const uint8_t marks[64], const uint8_t known[2]);
#define GHJ_IS_MISSING(number) (((number) >> 61) == 1)
#define GHJ_MISSING(number) ((unsigned)((number) & 0xFF))

/* The whole list, and the numbers of its suites: GHJ_NO_FORM, then GHJ_INCOMPLETE, then GHJ_NO_ROOM. */
uint64_t ghj_collector_list(const uint8_t bytes[1024], const uint8_t marks[64], const uint8_t known[2], uint8_t *out,
                            size_t out_length);
uint64_t ghj_collector_suites(const uint8_t bytes[1024], const uint8_t marks[64], const uint8_t known[2], uint8_t *out,
                              size_t out_length);

/* A struct's third array, its fields lowest and complete. From the struct's address: a pointer to lowest ends behind lowest. */
static inline uint8_t *ghj_collect_known(struct ghj_collector *collector) {
    return (uint8_t *)collector + offsetof(struct ghj_collector, lowest);
}
static inline const uint8_t *ghj_collect_known_const(const struct ghj_collector *collector) {
    return (const uint8_t *)collector + offsetof(struct ghj_collector, lowest);
}

/* The same four on the struct. */
static inline uint64_t ghj_collect_answer(struct ghj_collector *collector, uint8_t index, const uint8_t *response,
                                          size_t response_length) {
    return ghj_collector_answer(collector->bytes, collector->marks, ghj_collect_known(collector), index, response,
                                response_length);
}
static inline uint64_t ghj_collect_status(const struct ghj_collector *collector) {
    return ghj_collector_status(collector->bytes, collector->marks, ghj_collect_known_const(collector));
}
static inline uint64_t ghj_collect_list(const struct ghj_collector *collector, uint8_t *out, size_t out_length) {
    return ghj_collector_list(collector->bytes, collector->marks, ghj_collect_known_const(collector), out, out_length);
}
static inline uint64_t ghj_collect_suites(const struct ghj_collector *collector, uint8_t *out, size_t out_length) {
    return ghj_collector_suites(collector->bytes, collector->marks, ghj_collect_known_const(collector), out, out_length);
}

/* The collector for a channel: joins the answers of a real controller, asked by suite, as they come. It is made for a channel,
 * and takes answers of no other; one that is made for GHJ_CHANNEL_CURRENT takes the channel of its first accepted answer, and
 * from then on no other.
 *
 *     struct ghj_channel_collector collector;
 *     ghj_channel_collect_fresh(&collector, 1);
 *
 * All fields are the caller's to read alone: values that no calls make are refused with GHJ_NO_FORM by every function. All
 * zeros are such values, for no channel: made for channel 0, `from` is 1. The functions below take the channel, the byte
 * `from` and the collector's three arrays; those behind them take the struct. */
struct ghj_channel_collector {
    uint8_t channel; /* the number that it was made for */
    uint8_t from;    /* one more than the number of the channel that its answers come from; 0 while none is taken */
    struct ghj_collector collector;
};

/* The byte `from` of a fresh one, or GHJ_NO_CHANNEL; its arrays are zeros. */
uint64_t ghj_channel_collector_from(uint8_t channel);

/* The answer to an index, its channel first: 0, or GHJ_NO_FORM, GHJ_BAD_INDEX, GHJ_NOT_ENOUGH_DATA for no bytes,
 * GHJ_TOO_MUCH_DATA above GHJ_BY_SUITE_SIZE, GHJ_NO_CHANNEL where the low nibble of the first byte is 0xC or 0xD,
 * GHJ_WRONG_CHANNEL, GHJ_DISAGREES, in this order. */
uint64_t ghj_channel_collector_answer(uint8_t channel, uint8_t *from, uint8_t bytes[1024], uint8_t marks[64],
                                      uint8_t known[2], uint8_t index, const uint8_t *response, size_t response_length);

/* As of the collector. */
uint64_t ghj_channel_collector_status(uint8_t channel, uint8_t from, const uint8_t bytes[1024], const uint8_t marks[64],
                                      const uint8_t known[2]);
uint64_t ghj_channel_collector_list(uint8_t channel, uint8_t from, const uint8_t bytes[1024], const uint8_t marks[64],
                                    const uint8_t known[2], uint8_t *out, size_t out_length);
uint64_t ghj_channel_collector_suites(uint8_t channel, uint8_t from, const uint8_t bytes[1024], const uint8_t marks[64],
                                      const uint8_t known[2], uint8_t *out, size_t out_length);

/* Makes the struct a fresh one for a channel, whatever it held: 0, or GHJ_NO_CHANNEL. */
static inline uint64_t ghj_channel_collect_fresh(struct ghj_channel_collector *collector, uint8_t channel) {
    static const struct ghj_collector fresh = GHJ_FRESH;
    uint64_t from = ghj_channel_collector_from(channel);
    if (GHJ_IS_REFUSED(from))
        return from;
    collector->channel = channel;
    collector->from = (uint8_t)from;
    collector->collector = fresh;
    return 0;
}

/* The same four on the struct. */
static inline uint64_t ghj_channel_collect_answer(struct ghj_channel_collector *collector, uint8_t index,
                                                  const uint8_t *response, size_t response_length) {
    struct ghj_collector *heard = &collector->collector;
    return ghj_channel_collector_answer(collector->channel, &collector->from, heard->bytes, heard->marks,
                                        ghj_collect_known(heard), index, response, response_length);
}
static inline uint64_t ghj_channel_collect_status(const struct ghj_channel_collector *collector) {
    const struct ghj_collector *heard = &collector->collector;
    return ghj_channel_collector_status(collector->channel, collector->from, heard->bytes, heard->marks,
                                        ghj_collect_known_const(heard));
}
static inline uint64_t ghj_channel_collect_list(const struct ghj_channel_collector *collector, uint8_t *out,
                                                size_t out_length) {
    const struct ghj_collector *heard = &collector->collector;
    return ghj_channel_collector_list(collector->channel, collector->from, heard->bytes, heard->marks,
                                      ghj_collect_known_const(heard), out, out_length);
}
static inline uint64_t ghj_channel_collect_suites(const struct ghj_channel_collector *collector, uint8_t *out,
                                                  size_t out_length) {
    const struct ghj_collector *heard = &collector->collector;
    return ghj_channel_collector_suites(collector->channel, collector->from, heard->bytes, heard->marks,
                                        ghj_collect_known_const(heard), out, out_length);
}

#ifdef __cplusplus
}
#endif

#endif
