// Does a path travel over a plan of three stations? From C++; and with nothing at all, as empty vectors give it.
#include "scion_step.h"

#include <cstdint>
#include <cstdio>
#include <cstring>
#include <vector>

using Bytes = std::vector<std::uint8_t>;

static const std::uint8_t key[SCION_KEY_BYTES] = {'a', ' ', 'k', 'e', 'y'};
static const unsigned stations = 3, timestamp = 1000;

static void put16(Bytes &bytes, std::size_t at, unsigned value) {
    bytes[at] = static_cast<std::uint8_t>(value >> 8);
    bytes[at + 1] = static_cast<std::uint8_t>(value & 255);
}

// One segment in construction direction. Each station is come to by interface 1 and left by interface 2.
static Bytes make_path() {
    Bytes path(SCION_META_BYTES + SCION_INFO_BYTES + SCION_HOP_BYTES * stations);
    unsigned segment_id = 0x1234;
    path[2] = stations << 4;
    path[SCION_META_BYTES] = 1;
    put16(path, SCION_META_BYTES + 2, segment_id);
    put16(path, SCION_META_BYTES + 6, timestamp);
    for (unsigned i = 0; i < stations; i++) {
        std::size_t hop = SCION_META_BYTES + SCION_INFO_BYTES + SCION_HOP_BYTES * i;
        unsigned in = i == 0 ? 0 : 1, out = i + 1 == stations ? 0 : 2;
        put16(path, hop + 2, in);
        put16(path, hop + 4, out);
        scion_calculate_hop_mac(static_cast<std::uint16_t>(segment_id), timestamp, 0, static_cast<std::uint16_t>(in),
                                static_cast<std::uint16_t>(out), key, &path[hop + 6]);
        segment_id ^= path[hop + 6] * 256U + path[hop + 7];
    }
    return path;
}

// Record 0, the stations, then the two interfaces, which all of them have.
static Bytes make_plan() {
    Bytes plan(SCION_RECORD_BYTES * (1 + stations + 2));
    put16(plan, 0, 1);
    for (unsigned i = 1; i <= stations; i++) {
        std::size_t station = SCION_RECORD_BYTES * i;
        put16(plan, station, i == stations ? 0 : i + 1);
        put16(plan, station + 2, i == 1 ? 0 : 1);
        put16(plan, station + 4, stations + 1);
        std::memcpy(&plan[station + 8], key, sizeof key);
    }
    for (unsigned i = 1; i <= 2; i++) {
        std::size_t interface = SCION_RECORD_BYTES * (stations + i);
        put16(plan, interface, i == 1 ? stations + 2 : 0);
        put16(plan, interface + 2, i);
        plan[interface + 4] = SCION_LINK_UP | SCION_LINK_TO_CHILD;
    }
    return plan;
}

static const char *word(const ScionReply &reply) {
    switch (reply.number) {
    case SCION_PASSED: return "it travels";
    case SCION_NOT_PASSED: return "it does not travel";
    case SCION_UNFIT_ITINERARY: return "the plan does not fit";
    case SCION_META_TOO_SHORT: return "there is no path";
    default: return "refused";
    }
}

static void ask(const char *what, const Bytes &path, const Bytes &plan, unsigned latest) {
    ScionReply reply = scion_check_journey(path.data(), path.size(), plan.data(), plan.size(), timestamp, latest);
    std::printf("%s: %u, %s\n", what, reply.number, word(reply));
}

int main() {
    if (scion_step_version_2() != SCION_STEP_VERSION) return 1;
    ask("in time", make_path(), make_plan(), 1337);
    ask("a second late", make_path(), make_plan(), 1338);
    ask("no plan", make_path(), Bytes(), 1337);
    ask("nothing", Bytes(), Bytes(), 1337);
    return 0;
}
