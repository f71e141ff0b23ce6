/* What a controller said of a channel: its access, and the suites of a list that is collected. */
#include "ghjalvestru.h"

#include <stdio.h>

int main(void) {
    static const uint8_t response[] = {0x22, 0x04};
    static const uint8_t answer[] = {0x01, 0xC0, 0x03, 0x01, 0x41, 0x81};
    struct ghj_access_record access;
    struct ghj_channel_collector collector;
    uint8_t text[GHJ_TEXT_SIZE], suites[GHJ_LIST_SUITES];

    uint64_t number = ghj_access(response, sizeof response, (uint8_t *)&access, sizeof access);
    if (GHJ_IS_REFUSED(number)) {
        fprintf(stderr, "%s\n", ghj_refusal_text(GHJ_REFUSAL(number)));
        return 1;
    }
    number = ghj_mode_text(access.mode, text, sizeof text);
    printf("%.*s, alerting %s\n", (int)number, (const char *)text, access.alerting_disabled ? "off" : "on");

    ghj_channel_collect_fresh(&collector, 1);
    ghj_channel_collect_answer(&collector, 0, answer, sizeof answer);
    number = ghj_channel_collect_suites(&collector, suites, sizeof suites);
    for (uint64_t i = 0; i < number && !GHJ_IS_REFUSED(number); i++)
        printf("suite %u\n", suites[i]);
    return 0;
}
