/* Reads lines and prints what the port says to each: bytes in hex, or `refused`, the number and what it carries, or `none`.
 *     response COMMAND DATA     the record of a response with these data
 *     request COMMAND PARTS     the request that is made of these parts, in the order of the C function's arguments
 *     read COMMAND DATA         the parts of a request with these data
 *     apply COMMAND PARTS       the settings after a command, both in the order of the C function's arguments
 * And of a list of suites, COMMAND being 54:
 *     numbers, listing, older   the suite numbers and the listing by the strict reading, the numbers by the older one
 *     step                      the record at the position of the first two bytes, low first; the rest is the list
 *     write                     the record that is made of these parts: owner, vendor (four bytes, low first), number,
 *                               authentication, how many numbers of integrity, these, then those of confidentiality
 *     row                       the algorithms of the suite of this number
 * And of answers by suite, COMMAND being 54 too:
 *     asked                     the request by suite that is made of these parts
 *     heard                     the record of an answer with these data
 *     made                      a collector for this channel is made, and is the one that the next lines are of
 *     take                      it takes the answer to the index of the first byte; the rest is the answer's data
 *     status                    its lowest unheard index, or nothing where it is complete
 *     from                      the channel that it takes answers from, or nothing where none is taken
 *     list, suites              its list, and the numbers of its suites
 * All in hex, `-` for no bytes. */
#include "ghjalvestru.h"

#include <inttypes.h>
#include <stdio.h>
#include <stdlib.h>
#include <string.h>

static uint64_t response(unsigned command, const uint8_t *data, size_t length, uint8_t *out, size_t room) {
    switch (command) {
    case 0x38: return ghj_capabilities(data, length, out, room);
    case 0x39: return ghj_challenge(data, length, out, room);
    case 0x3A: return ghj_activation(data, length, out, room);
    case 0x41: return ghj_access(data, length, out, room);
    case 0x42: return ghj_info(data, length, out, room);
    default: exit(2);
    }
}

static uint32_t number(const uint8_t *low_first) {
    return low_first[0] | (uint32_t)low_first[1] << 8 | (uint32_t)low_first[2] << 16 | (uint32_t)low_first[3] << 24;
}

static uint64_t request(unsigned command, const uint8_t *parts, size_t length, uint8_t *out, size_t room) {
    switch (command) {
    case 0x38: return ghj_capabilities_request(parts[0], parts[1], out, room);
    case 0x39: return ghj_challenge_request(parts[0], parts + 1, length - 1, out, room);
    case 0x3A: return ghj_activation_request(parts[0], parts[1], parts + 2, number(parts + 18), out, room);
    case 0x40: return ghj_set_access_request(parts[0], parts[1], parts[2], parts + 3, out, room);
    case 0x41: return ghj_access_request(parts[0], parts[1], out, room);
    case 0x42: return ghj_info_request(parts[0], out, room);
    case 0x54: return ghj_suites_request(parts[0], parts[1], out, room);
    default: exit(2);
    }
}

static uint64_t set(const char *what, const uint8_t *bytes, size_t length, uint8_t *out, size_t room) {
    if (strcmp(what, "read") == 0)
        return ghj_set_access(bytes, length, out, room);
    if (strcmp(what, "apply") == 0 && length == 17)
        return ghj_set_access_apply(bytes[0], bytes[1], bytes + 2, bytes + 7, out, room);
    exit(2);
}

static uint64_t by_suite(const char *what, const uint8_t *bytes, size_t length, uint8_t *out, size_t room) {
    static struct ghj_channel_collector collector;
    if (strcmp(what, "asked") == 0 && length == 2)
        return ghj_by_suite_request(bytes[0], bytes[1], out, room);
    if (strcmp(what, "heard") == 0)
        return ghj_by_suite(bytes, length, out, room);
    if (strcmp(what, "made") == 0 && length == 1)
        return ghj_channel_collect_fresh(&collector, bytes[0]);
    if (strcmp(what, "take") == 0 && length >= 1)
        return ghj_channel_collect_answer(&collector, bytes[0], bytes + 1, length - 1);
    if (strcmp(what, "status") == 0) {
        uint64_t status = ghj_channel_collect_status(&collector);
        out[0] = (uint8_t)GHJ_MISSING(status);
        return GHJ_IS_REFUSED(status) ? status : GHJ_IS_MISSING(status);
    }
    if (strcmp(what, "from") == 0) {
        out[0] = (uint8_t)(collector.from - 1);
        return collector.from != 0;
    }
    if (strcmp(what, "list") == 0)
        return ghj_channel_collect_list(&collector, out, room);
    if (strcmp(what, "suites") == 0)
        return ghj_channel_collect_suites(&collector, out, room);
    exit(2);
}

static uint64_t suites(const char *what, const uint8_t *bytes, size_t length, uint8_t *out, size_t room) {
    if (strcmp(what, "numbers") == 0)
        return ghj_tagged_numbers(bytes, length, out, room);
    if (strcmp(what, "listing") == 0)
        return ghj_tagged_listing(bytes, length, out, room);
    if (strcmp(what, "older") == 0)
        return ghj_suite_numbers(bytes, length, out, room);
    if (strcmp(what, "step") == 0 && length >= 2)
        return ghj_tagged_step(bytes + 2, length - 2, bytes[0] | (size_t)bytes[1] << 8, out, room);
    if (strcmp(what, "write") == 0 && length >= 8 && length >= 8u + bytes[7])
        return ghj_tagged_write(bytes[0], number(bytes + 1), bytes[5], bytes[6], bytes + 8, bytes[7], bytes + 8 + bytes[7],
                                length - 8 - bytes[7], out, room);
    if (strcmp(what, "row") == 0 && length == 1)
        return ghj_suite_algorithms(bytes[0], out, room);
    return by_suite(what, bytes, length, out, room);
}

static uint64_t answer(const char *what, unsigned command, const uint8_t *bytes, size_t length, uint8_t *out, size_t room) {
    if (strcmp(what, "response") == 0)
        return response(command, bytes, length, out, room);
    if (strcmp(what, "request") == 0)
        return request(command, bytes, length, out, room);
    if (command == 0x40)
        return set(what, bytes, length, out, room);
    if (command == 0x54)
        return suites(what, bytes, length, out, room);
    exit(2);
}

int main(void) {
    char what[16], pairs[1024];
    unsigned command, byte;
    /* A question may wait for the answer to the one before. */
    setvbuf(stdout, NULL, _IOLBF, BUFSIZ);
    while (scanf("%15s %x %1023s", what, &command, pairs) == 3) {
        uint8_t bytes[512] = {0}, out[512];
        size_t length = 0;
        for (const char *at = pairs; sscanf(at, "%2x", &byte) == 1; at += 2)
            bytes[length++] = (uint8_t)byte;
        uint64_t said = answer(what, command, bytes, length, out, sizeof out);
        if (GHJ_IS_REFUSED(said)) {
            printf("refused %u %" PRIu64 "\n", GHJ_REFUSAL(said), GHJ_CARRIED(said));
            continue;
        }
        if (said == GHJ_NONE) {
            puts("none");
            continue;
        }
        for (size_t i = 0; i < said; i++)
            printf("%02x", out[i]);
        puts("");
    }
    return 0;
}
