/* The suites of a list, a vendor's own among them, and what is wrong with another list. */
#include "ghjalvestru.h"

#include <inttypes.h>
#include <stdio.h>

static size_t place(const uint8_t bytes[8]) {
    return (size_t)ghj_number(bytes, 8);
}

static void algorithms(const char *what, const uint8_t *list, size_t from, size_t to) {
    uint8_t number;
    printf(", %s", what);
    for (size_t at = from; at < to; at++) {
        ghj_tagged_algorithms(list + at, 1, &number, 1);
        printf(" %u", number);
    }
}

static void show(const uint8_t *list, size_t length) {
    struct ghj_tagged_record record;
    size_t position = 0;
    uint64_t number;
    while ((number = ghj_tagged_step(list, length, position, (uint8_t *)&record, sizeof record)) == sizeof record) {
        printf("suite %u", record.number);
        if (record.owner == GHJ_VENDOR)
            printf(" of vendor %" PRIu64, ghj_number(record.vendor, sizeof record.vendor));
        printf(", authentication %u", record.authentication);
        algorithms("integrity", list, place(record.integrity), place(record.confidentiality));
        algorithms("confidentiality", list, place(record.confidentiality), place(record.end));
        puts("");
        position = place(record.end);
    }
    if (GHJ_IS_REFUSED(number))
        printf("%s, at %" PRIu64 "\n", ghj_refusal_text(GHJ_REFUSAL(number)), GHJ_CARRIED(number));
}

int main(void) {
    static const uint8_t list[] = {0xC0, 0x03, 0x01, 0x41, 0x81, 0xC1, 0x80, 0xF2, 0x1B, 0x00, 0x03, 0x44, 0x81, 0x82};
    static const uint8_t bad[] = {0xC0, 0x03, 0x01, 0x81, 0x41};
    show(list, sizeof list);
    show(bad, sizeof bad);
    return 0;
}
