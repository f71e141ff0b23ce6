// The same from C++.
#include "ghjalvestru.h"

#include <array>
#include <cstdio>

int main() {
    constexpr std::array<uint8_t, 2> response{0x22, 0x04};
    constexpr std::array<uint8_t, 6> answer{0x01, 0xC0, 0x03, 0x01, 0x41, 0x81};
    ghj_access_record access;
    std::array<uint8_t, GHJ_TEXT_SIZE> text;
    std::array<uint8_t, GHJ_LIST_SUITES> suites;

    uint64_t number = ghj_access(response.data(), response.size(), reinterpret_cast<uint8_t *>(&access), sizeof access);
    if (GHJ_IS_REFUSED(number)) {
        std::fprintf(stderr, "%s\n", ghj_refusal_text(GHJ_REFUSAL(number)));
        return 1;
    }
    number = ghj_mode_text(access.mode, text.data(), text.size());
    std::printf("%.*s, alerting %s\n", static_cast<int>(number), reinterpret_cast<const char *>(text.data()),
                access.alerting_disabled != 0 ? "off" : "on");

    ghj_channel_collector collector;
    ghj_channel_collect_fresh(&collector, 1);
    ghj_channel_collect_answer(&collector, 0, answer.data(), answer.size());
    number = ghj_channel_collect_suites(&collector, suites.data(), suites.size());
    for (uint64_t i = 0; i < number && !GHJ_IS_REFUSED(number); i++)
        std::printf("suite %u\n", suites[i]);
    return 0;
}
