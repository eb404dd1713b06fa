// Each answer of scion_step.h by an input that gets it: the number, the values in the header's order, the SCMP error.
// So a constant with another answer's number is an error, and so are values in another order.
//
// Each call is made on a stack of its own, filled with a pattern. What it took is seen afterwards, and more than
// SCION_STEP_STACK is an error. The lines printed are the most that each call took.
#define _DEFAULT_SOURCE
#include "scion_step.h"

#include <stdio.h>
#include <string.h>
#include <ucontext.h>

// ---- a call, and the stack it takes

// Those that have editions first, then the same in an edition.
enum { STEP, INGRESS, EGRESS, JOURNEY, IN_EDITION };
enum { REVERSE = 2 * IN_EDITION, EXPIRATION, SEGMENT, CMAC, HOP_MAC, VERSION, CALLS };

static const char *const names[CALLS] = {
    "scion_handle_standard_path",
    "scion_standard_path_ingress",
    "scion_standard_path_egress",
    "scion_check_journey",
    "scion_handle_standard_path_in_edition",
    "scion_standard_path_ingress_in_edition",
    "scion_standard_path_egress_in_edition",
    "scion_check_journey_in_edition",
    "scion_try_reverse",
    "scion_expiration",
    "scion_calculate_segment_index",
    "scion_aes_cmac",
    "scion_calculate_hop_mac",
    "scion_step_version_2",
};

static int wrong;

static void check(int line, bool is_right) {
    if (is_right) return;
    fprintf(stderr, "answers: line %d: not so\n", line);
    wrong = 1;
}

#define CHECK(fact) check(__LINE__, fact)

// What the next call is made with.
static uint16_t ids[SCION_MAX_INTERFACES + 1];
static uint8_t states[SCION_MAX_INTERFACES + 1], path[SCION_MAX_PATH_BYTES + SCION_HOP_BYTES];
static uint8_t itinerary[(SCION_MAX_RECORDS + 1) * SCION_RECORD_BYTES], key[SCION_KEY_BYTES] = "a forwarding key";
static uint8_t mac[SCION_MAC_BYTES], message[1000];
static size_t entries, path_length, itinerary_length, message_length;
static uint16_t interface;
static uint32_t now, earliest, latest;
static uint8_t hop_idx;
static bool ignore_macs, is_second;

enum { STACK = 1 << 16, PATTERN = 0xA5 };

static uint8_t stack[STACK];
static ucontext_t here, there;
static int call;
static uint8_t *before;
static ScionReply reply;
static uint32_t version;
static size_t taken[CALLS];

// The stack pointer is noted right before a call, so that its arguments and its return address count.
#define NOTED(made)                                                                                                    \
    do {                                                                                                               \
        __asm__ volatile("mov %%rsp, %0" : "=r"(before));                                                              \
        made;                                                                                                          \
    } while (0)

static void make_call(void) {
    switch (call) {
    case STEP:
        NOTED(reply = scion_handle_standard_path(ids, entries, states, entries, path, path_length, interface, now, key,
                                                 ignore_macs));
        break;
    case INGRESS:
        NOTED(reply = scion_standard_path_ingress(ids, entries, states, entries, path, path_length, interface, now,
                                                  key, ignore_macs));
        break;
    case EGRESS:
        NOTED(reply = scion_standard_path_egress(ids, entries, states, entries, path, path_length, interface, now, key,
                                                 ignore_macs));
        break;
    case JOURNEY:
        NOTED(reply = scion_check_journey(path, path_length, itinerary, itinerary_length, earliest, latest));
        break;
    case IN_EDITION + STEP:
        NOTED(reply = scion_handle_standard_path_in_edition(is_second, ids, entries, states, entries, path, path_length,
                                                            interface, now, key, ignore_macs));
        break;
    case IN_EDITION + INGRESS:
        NOTED(reply = scion_standard_path_ingress_in_edition(is_second, ids, entries, states, entries, path,
                                                             path_length, interface, now, key, ignore_macs));
        break;
    case IN_EDITION + EGRESS:
        NOTED(reply = scion_standard_path_egress_in_edition(is_second, ids, entries, states, entries, path, path_length,
                                                            interface, now, key, ignore_macs));
        break;
    case IN_EDITION + JOURNEY:
        NOTED(reply = scion_check_journey_in_edition(is_second, path, path_length, itinerary, itinerary_length,
                                                     earliest, latest));
        break;
    case REVERSE: NOTED(reply = scion_try_reverse(path, path_length)); break;
    case EXPIRATION: NOTED(reply = scion_expiration(path, path_length)); break;
    case SEGMENT: NOTED(reply = scion_calculate_segment_index(path, path_length, hop_idx)); break;
    case CMAC: NOTED(scion_aes_cmac(key, message, message_length, mac)); break;
    case HOP_MAC: NOTED(scion_calculate_hop_mac(0x1234, 1000, 0, 3, 1, key, mac)); break;
    case VERSION: NOTED(version = scion_step_version_2()); break;
    }
}

static void run(int which) {
    call = which;
    memset(stack, PATTERN, sizeof stack);
    getcontext(&there);
    there.uc_stack.ss_sp = stack;
    there.uc_stack.ss_size = sizeof stack;
    there.uc_link = &here;
    makecontext(&there, make_call, 0);
    swapcontext(&here, &there);
    const uint8_t *lowest = stack;
    while (*lowest == PATTERN) lowest++;
    if ((size_t)(before - lowest) > taken[call]) taken[call] = (size_t)(before - lowest);
}

// ---- inputs

static void put16(uint8_t *at, uint32_t value) {
    at[0] = (uint8_t)(value >> 8);
    at[1] = value & 255;
}

static uint32_t get16(const uint8_t *at) {
    return at[0] * 256U + at[1];
}

static uint32_t infos, hops;
static bool has_peering; // P in each info field, and a peering link between two segments

static uint8_t *info_at(uint32_t info) {
    return path + SCION_META_BYTES + SCION_INFO_BYTES * info;
}

static uint8_t *hop_at(uint32_t hop) {
    return path + SCION_META_BYTES + SCION_INFO_BYTES * infos + SCION_HOP_BYTES * hop;
}

static uint8_t *record_at(uint32_t record) {
    return itinerary + SCION_RECORD_BYTES * record;
}

// A header of these segment lengths, at its first hop.
static void put_header(uint32_t first, uint32_t second, uint32_t third) {
    infos = (first != 0) + (second != 0) + (third != 0);
    hops = first + second + third;
    path_length = SCION_META_BYTES + SCION_INFO_BYTES * infos + SCION_HOP_BYTES * hops;
    memset(path, 0, sizeof path);
    put16(path, first >> 4);
    put16(path + 2, (first & 15) << 12 | second << 6 | third);
}

// A path of one or two segments in construction direction, in by 1 and out by 2 everywhere, good from 1000 to 1337.
static void put_path(uint32_t first, uint32_t second) {
    put_header(first, second, 0);
    uint32_t segment_id = 0;
    for (uint32_t hop = 0; hop < hops; hop++) {
        uint32_t info = hop >= first;
        uint8_t *at = hop_at(hop);
        bool opens = hop == first, closes = hop + 1 == first, peers = has_peering && (opens || closes);
        if (hop == 0 || opens) {
            segment_id = 0x1234 + info;
            info_at(info)[0] = has_peering ? 3 : 1;
            put16(info_at(info) + 2, segment_id);
            put16(info_at(info) + 6, 1000);
        }
        put16(at + 2, hop == 0 || (opens && !peers) ? 0 : 1);
        put16(at + 4, hop + 1 == hops || (closes && !peers) ? 0 : 2);
        scion_calculate_hop_mac((uint16_t)segment_id, 1000, 0, (uint16_t)get16(at + 2), (uint16_t)get16(at + 4), key,
                                at + 6);
        if (!peers) segment_id ^= get16(at + 6);
    }
}

// An AS with two interfaces to children, both up.
static void put_table(void) {
    entries = 2;
    ids[0] = 1;
    ids[1] = 2;
    states[0] = states[1] = SCION_LINK_UP | SCION_LINK_TO_CHILD;
}

// That path, moved on to this hop. The packet came in by 1.
static void stand(uint32_t first, uint32_t second, uint32_t hop) {
    put_table();
    put_path(first, second);
    now = 1337;
    ignore_macs = false;
    is_second = true;
    for (uint32_t left = 0; left < hop; left++) {
        interface = left == 0 ? 0 : 1;
        run(has_peering ? IN_EDITION + STEP : STEP);
        CHECK(reply.number == SCION_FORWARD_NEXT_HOP);
    }
    interface = 1;
}

// Against construction direction: the MACs no longer fit, so they are ignored.
static void turn(void) {
    ignore_macs = true;
    for (uint32_t info = 0; info < infos; info++) info_at(info)[0] = 0;
    for (uint32_t hop = 0; hop < hops; hop++) {
        uint32_t in = get16(hop_at(hop) + 2);
        put16(hop_at(hop) + 2, get16(hop_at(hop) + 4));
        put16(hop_at(hop) + 4, in);
    }
}

// That path at its start and an itinerary that fits: a station for each AS, the table of the two interfaces for all.
static void put_journey(uint32_t first, uint32_t second) {
    put_path(first, second);
    uint32_t stations = has_peering && second != 0 ? hops : hops - infos + 1;
    memset(itinerary, 0, sizeof itinerary);
    itinerary_length = (1 + stations + 2) * SCION_RECORD_BYTES;
    put16(record_at(0), 1);
    for (uint32_t station = 1; station <= stations; station++) {
        put16(record_at(station), station < stations ? station + 1 : 0);
        put16(record_at(station) + 2, station > 1);
        put16(record_at(station) + 4, stations + 1);
        memcpy(record_at(station) + 8, key, sizeof key);
    }
    for (uint32_t i = 1; i <= 2; i++) {
        uint8_t *at = record_at(stations + i);
        put16(at, i == 1 ? stations + 2 : 0);
        put16(at + 2, i);
        at[4] = SCION_LINK_UP | SCION_LINK_TO_CHILD;
    }
    earliest = 1000;
    latest = 1337;
}

// ---- what is answered

// An SCMP error as a number.
enum { NONE, DOWN = SCION_SCMP_EXTERNAL_INTERFACE_DOWN * 256 };
#define PROBLEM(code) (SCION_SCMP_PARAMETER_PROBLEM * 256 + (code))

// Expected are the error, then the values.
static void expect_one(int line, int which, unsigned number, const uint64_t *expected, size_t count) {
    run(which);
    bool same = reply.number == number && reply.count == count - 1 &&
                reply.scmp_type * 256U + reply.scmp_code == expected[0] &&
                reply.scmp_pointer == (expected[0] == DOWN ? reply.values[1] : 0);
    for (size_t i = 0; i < 4; i++) same = same && reply.values[i] == (i + 1 < count ? expected[i + 1] : 0);
    if (same) return;
    wrong = 1;
    fprintf(stderr, "answers: line %d: %s gave %u with %u values:", line, names[which], reply.number, reply.count);
    for (int i = 0; i < 4; i++) fprintf(stderr, " %llu", (unsigned long long)reply.values[i]);
    fprintf(stderr, ", SCMP %u %u %u\n", reply.scmp_type, reply.scmp_code, (unsigned)reply.scmp_pointer);
}

// In both editions, too, where the call has them: there is no P, so the answer and the bytes are the same.
static void expect(int line, int which, unsigned number, const uint64_t *expected, size_t count) {
    static uint8_t given[sizeof path], left[sizeof path];
    memcpy(given, path, sizeof path);
    expect_one(line, which, number, expected, count);
    if (which >= IN_EDITION) return;
    memcpy(left, path, sizeof path);
    for (int second = 0; second < 2; second++) {
        memcpy(path, given, sizeof path);
        is_second = second;
        expect_one(line, IN_EDITION + which, number, expected, count);
        check(line, memcmp(path, left, sizeof path) == 0);
    }
}

#define EXPECT(which, number, ...)                                                                                     \
    expect(__LINE__, which, number, (const uint64_t[]){__VA_ARGS__}, sizeof((const uint64_t[]){__VA_ARGS__}) / 8)

// In one edition, on a path with P.
#define FIRST(which, ...)                                                                                              \
    do {                                                                                                               \
        is_second = false;                                                                                             \
        EXPECT(IN_EDITION + which, __VA_ARGS__);                                                                       \
    } while (0)
#define SECOND(which, ...)                                                                                             \
    do {                                                                                                               \
        is_second = true;                                                                                              \
        EXPECT(IN_EDITION + which, __VA_ARGS__);                                                                       \
    } while (0)

static void sizes(void) {
    stand(3, 0, 1);
    path_length = SCION_META_BYTES - 1;
    EXPECT(STEP, SCION_META_TOO_SHORT, NONE);
    EXPECT(REVERSE, SCION_META_TOO_SHORT, NONE);
    EXPECT(EXPIRATION, SCION_META_TOO_SHORT, NONE);
    EXPECT(SEGMENT, SCION_META_TOO_SHORT, NONE);
    EXPECT(JOURNEY, SCION_META_TOO_SHORT, NONE);
    stand(3, 0, 1);
    path_length--;
    EXPECT(STEP, SCION_DATA_TOO_SHORT, NONE);
    EXPECT(REVERSE, SCION_DATA_TOO_SHORT, NONE);
    EXPECT(EXPIRATION, SCION_DATA_TOO_SHORT, NONE);
    EXPECT(SEGMENT, SCION_DATA_TOO_SHORT, NONE);
    EXPECT(JOURNEY, SCION_DATA_TOO_SHORT, NONE);
    put_header(22, 21, SCION_MAX_HOPS + 1 - 22 - 21);
    EXPECT(STEP, SCION_TOO_MANY_HOPS, NONE);
    EXPECT(REVERSE, SCION_TOO_MANY_HOPS, NONE);
    EXPECT(EXPIRATION, SCION_TOO_MANY_HOPS, NONE);
    EXPECT(SEGMENT, SCION_TOO_MANY_HOPS, NONE);
    EXPECT(JOURNEY, SCION_TOO_MANY_HOPS, NONE);
    put_header(22, 21, SCION_MAX_HOPS - 22 - 21);
    CHECK(infos == SCION_MAX_INFOS && path_length == SCION_MAX_PATH_BYTES);
    EXPECT(REVERSE, SCION_REVERSED, NONE);
    path_length--;
    EXPECT(REVERSE, SCION_DATA_TOO_SHORT, NONE);
}

static void tables(void) {
    stand(3, 0, 1);
    entries = SCION_MAX_INTERFACES;
    for (uint16_t i = 0; i <= SCION_MAX_INTERFACES; i++) ids[i] = i;
    memset(states, SCION_LINK_UP | SCION_LINK_TO_PEER, sizeof states);
    EXPECT(STEP, SCION_FORWARD_NEXT_HOP, NONE, 2);
    entries++;
    EXPECT(STEP, SCION_UNSOUND_TABLE, NONE);
    put_table();
    states[0] = (SCION_LINK_UP | SCION_LINK_TO_PEER) + 1;
    EXPECT(STEP, SCION_UNSOUND_TABLE, NONE);
}

static void places(void) {
    stand(3, 0, 1);
    path[0] = 3;
    EXPECT(STEP, SCION_HOP_OUT_OF_BOUNDS, NONE, 3);
    stand(1, 0, 0);
    EXPECT(STEP, SCION_SINGLE_HOP_SEGMENT, NONE);
    stand(3, 0, 1);
    path[0] |= 2 << 6;
    EXPECT(STEP, SCION_INVALID_SEGMENT_INDEX, NONE, 0, 2);
    put_header(2, 0, 2);
    path[0] = 2 << 6 | 2;
    EXPECT(STEP, SCION_INFO_OUT_OF_BOUNDS, NONE, 2);
    stand(2, 2, 1);
    EXPECT(EGRESS, SCION_SEGMENT_END, NONE);
}

// An interface that the hop field names as its ConsIngress, or as its ConsEgress.
#define CONS_INGRESS PROBLEM(SCION_SCMP_UNKNOWN_HOP_FIELD_CONS_INGRESS_INTERFACE)
#define CONS_EGRESS PROBLEM(SCION_SCMP_UNKNOWN_HOP_FIELD_CONS_EGRESS_INTERFACE)

static void checks(void) {
    stand(3, 0, 1);
    interface = 4;
    EXPECT(INGRESS, SCION_INVALID_INGRESS_INTERFACE, CONS_INGRESS, 1, 4, 1, 1);
    stand(3, 0, 1);
    turn();
    interface = 4;
    EXPECT(INGRESS, SCION_INVALID_INGRESS_INTERFACE, CONS_EGRESS, 1, 4, 1, 0);
    stand(3, 0, 1);
    interface = 4;
    EXPECT(EGRESS, SCION_INVALID_EGRESS_INTERFACE, CONS_EGRESS, 1, 4, 2, 1);
    stand(3, 0, 1);
    turn();
    interface = 4;
    EXPECT(EGRESS, SCION_INVALID_EGRESS_INTERFACE, CONS_INGRESS, 1, 4, 2, 0);
    stand(3, 0, 1);
    now = 999;
    EXPECT(STEP, SCION_FUTURE_TIMESTAMP, PROBLEM(SCION_SCMP_INVALID_PATH), 1);
    stand(3, 0, 1);
    now = 1338;
    EXPECT(STEP, SCION_SEGMENT_EXPIRED, PROBLEM(SCION_SCMP_PATH_EXPIRED), 1);

    stand(3, 0, 1);
    uint8_t *at = hop_at(1) + 6;
    uint64_t right = 0;
    for (int i = 0; i < SCION_HOP_MAC_BYTES; i++) right = right << 8 | at[i];
    at[0] ^= 128;
    uint64_t found = right ^ (uint64_t)128 << 40;
    EXPECT(STEP, SCION_INVALID_MAC_ERROR, PROBLEM(SCION_SCMP_INVALID_HOP_FIELD_MAC), 1, right, found);
    stand(2, 2, 1); // the second hop's, with two MACs worked out
    hop_at(2)[11] ^= 1;
    run(STEP);
    CHECK(reply.number == SCION_INVALID_MAC_ERROR && reply.values[0] == 2);
}

// At a segment change, and between the halves.
static void interfaces(void) {
    stand(2, 2, 1);
    hop_at(1)[0] = 1; // the alert of ConsEgress
    EXPECT(STEP, SCION_INVALID_SCMP_ALERT, PROBLEM(SCION_SCMP_ERRONEOUS_HEADER_FIELD), 1, 1);
    stand(2, 2, 1);
    ids[0] = 0;
    EXPECT(STEP, SCION_UNKNOWN_INGRESS_INTERFACE, CONS_INGRESS, 1, 1, 1);
    stand(2, 2, 1);
    turn();
    ids[0] = 0;
    EXPECT(STEP, SCION_UNKNOWN_INGRESS_INTERFACE, CONS_EGRESS, 1, 1, 0);
    stand(2, 2, 1);
    ids[1] = 3;
    EXPECT(STEP, SCION_UNKNOWN_EGRESS_INTERFACE, CONS_EGRESS, 1, 2, 1);
    stand(3, 0, 1);
    turn();
    ids[1] = 3;
    EXPECT(STEP, SCION_UNKNOWN_EGRESS_INTERFACE, CONS_INGRESS, 1, 2, 0);
    stand(3, 0, 1);
    states[1] = SCION_LINK_TO_CHILD;
    EXPECT(STEP, SCION_EGRESS_INTERFACE_DOWN, DOWN, 1, 2);

    static const uint8_t links[] = {SCION_LINK_TO_CORE, SCION_LINK_TO_PARENT, SCION_LINK_TO_CHILD, SCION_LINK_TO_PEER};
    // From the link of a row to the link of a column.
    static const bool may[4][4] = {{false, false, true, false},
                                   {false, false, false, false},
                                   {true, false, true, true},
                                   {false, false, true, false}};
    for (int in = 0; in < 4; in++) {
        for (int out = 0; out < 4; out++) {
            stand(2, 2, 1);
            states[0] = SCION_LINK_UP | links[in];
            states[1] = SCION_LINK_UP | links[out];
            if (may[in][out])
                EXPECT(STEP, SCION_FORWARD_NEXT_HOP, NONE, 2);
            else
                EXPECT(STEP, SCION_INVALID_SEGMENT_CHANGE, PROBLEM(SCION_SCMP_INVALID_SEGMENT_CHANGE), 1);
        }
    }
}

static void actions(void) {
    stand(3, 0, 1);
    EXPECT(INGRESS, SCION_CONTINUE_EGRESS, NONE, 2);
    interface = 2;
    EXPECT(EGRESS, SCION_FORWARD_NEXT_HOP, NONE, 2);
    stand(3, 0, 2);
    EXPECT(STEP, SCION_FORWARD_LOCAL, NONE);
    stand(3, 0, 1);
    hop_at(1)[0] = 2; // the alert of ConsIngress
    EXPECT(STEP, SCION_INGRESS_SCMP_HANDLE_REQUEST, NONE, 1);
    stand(3, 0, 1);
    hop_at(1)[0] = 1;
    EXPECT(STEP, SCION_EGRESS_SCMP_HANDLE_REQUEST, NONE, 2);
}

static void paths(void) {
    put_path(2, 2);
    EXPECT(EXPIRATION, SCION_EXPIRATION, NONE, 1337);
    hop_idx = 1;
    EXPECT(SEGMENT, SCION_SEGMENT_INDEX, NONE, 0, 0, 1);
    hop_idx = 2;
    EXPECT(SEGMENT, SCION_SEGMENT_INDEX, NONE, 1, 1, 0);
    hop_idx = 4;
    EXPECT(SEGMENT, SCION_HOP_OUT_OF_BOUNDS, NONE, 4);
    EXPECT(REVERSE, SCION_REVERSED, NONE);
    put_header(0, 0, 0);
    EXPECT(EXPIRATION, SCION_EXPIRATION, NONE, 0);
    EXPECT(REVERSE, SCION_NO_SEGMENTS, NONE);
    put_path(2, 2);
    path[0] = 4;
    EXPECT(REVERSE, SCION_REVERSE_HOP_OUT_OF_BOUNDS, NONE);
    put_path(2, 2);
    path[0] = 2 << 6;
    EXPECT(REVERSE, SCION_REVERSE_INFO_OUT_OF_BOUNDS, NONE);
}

static void journeys(void) {
    put_journey(2, 2);
    EXPECT(JOURNEY, SCION_PASSED, NONE);
    latest++;
    EXPECT(JOURNEY, SCION_NOT_PASSED, NONE);
    path[0] = 1;
    EXPECT(JOURNEY, SCION_NOT_AT_START, NONE);
    path[0] = 0;
    hop_at(3)[0] = 1;
    EXPECT(JOURNEY, SCION_ALERT_SET, NONE);
    itinerary_length--;
    EXPECT(JOURNEY, SCION_UNFIT_ITINERARY, NONE);
    put_journey(SCION_MAX_HOPS / 2, SCION_MAX_HOPS / 2);
    itinerary_length = SCION_MAX_RECORDS * SCION_RECORD_BYTES;
    EXPECT(JOURNEY, SCION_PASSED, NONE);
    itinerary_length += SCION_RECORD_BYTES;
    EXPECT(JOURNEY, SCION_UNFIT_ITINERARY, NONE);
}

// P in an info field of a path that is no peering path: the second edition refuses, and changes nothing.
static void misplaced(void) {
    static const int steps[] = {STEP, INGRESS, EGRESS};
    static uint8_t given[sizeof path];
    memcpy(given, path, sizeof path);
    for (int i = 0; i < 3; i++) {
        SECOND(steps[i], SCION_MISPLACED_PEERING, NONE);
        CHECK(memcmp(path, given, sizeof path) == 0);
    }
}

// Over the peering link, at whose ends hops leave by 2 and are come to by 1.
static void peerings(void) {
    has_peering = true;
    stand(2, 2, 1);
    SECOND(INGRESS, SCION_CONTINUE_EGRESS, NONE, 2);
    interface = 2;
    FIRST(EGRESS, SCION_SEGMENT_END, NONE);
    SECOND(EGRESS, SCION_FORWARD_NEXT_HOP, NONE, 2);
    CHECK(path[0] == (1 << 6 | 2)); // both indices are moved
    CHECK(get16(info_at(1) + 2) == 0x1235);
    interface = 1;
    SECOND(STEP, SCION_FORWARD_NEXT_HOP, NONE, 2);
    CHECK(get16(info_at(1) + 2) == 0x1235); // no beta step
    stand(2, 2, 3);
    SECOND(STEP, SCION_FORWARD_LOCAL, NONE);
    stand(2, 2, 2); // a peering hop's own MAC is checked
    hop_at(2)[11] ^= 1;
    run(IN_EDITION + STEP);
    CHECK(reply.number == SCION_INVALID_MAC_ERROR && reply.values[0] == 2);

    // A segment of one hop.
    stand(1, 1, 0);
    interface = 0;
    FIRST(STEP, SCION_SINGLE_HOP_SEGMENT, NONE);
    SECOND(STEP, SCION_FORWARD_NEXT_HOP, NONE, 2);
    CHECK(path[0] == (1 << 6 | 1));
    interface = 1;
    SECOND(STEP, SCION_FORWARD_LOCAL, NONE);

    stand(3, 0, 0);
    interface = 0;
    misplaced();
    FIRST(STEP, SCION_FORWARD_NEXT_HOP, NONE, 2);
    for (uint32_t info = 0; info < 2; info++) {
        stand(2, 2, 0);
        interface = 0;
        info_at(info)[0] = 1;
        misplaced();
    }
    put_header(2, 2, 2);
    for (uint32_t info = 0; info < SCION_MAX_INFOS; info++) info_at(info)[0] = 2;
    misplaced();

    // As many stations as hops.
    put_journey(2, 2);
    SECOND(JOURNEY, SCION_PASSED, NONE);
    FIRST(JOURNEY, SCION_UNFIT_ITINERARY, NONE);
    put_journey(1, 1);
    SECOND(JOURNEY, SCION_PASSED, NONE);
    put_journey(SCION_MAX_HOPS / 2, SCION_MAX_HOPS / 2);
    SECOND(JOURNEY, SCION_PASSED, NONE);
    put_journey(3, 0);
    SECOND(JOURNEY, SCION_NOT_PASSED, NONE);
    FIRST(JOURNEY, SCION_PASSED, NONE);
    has_peering = false;
}

// The MAC of no message is that of RFC 4493.
static void macs(void) {
    static const uint8_t rfc_key[] = {0x2b, 0x7e, 0x15, 0x16, 0x28, 0xae, 0xd2, 0xa6,
                                      0xab, 0xf7, 0x15, 0x88, 0x09, 0xcf, 0x4f, 0x3c};
    static const uint8_t of_nothing[] = {0xbb, 0x1d, 0x69, 0x29, 0xe9, 0x59, 0x37, 0x28,
                                         0x7f, 0xa3, 0x7d, 0x12, 0x9b, 0x75, 0x67, 0x46};
    memcpy(key, rfc_key, sizeof key);
    message_length = 0;
    run(CMAC);
    CHECK(memcmp(mac, of_nothing, sizeof mac) == 0);
    for (message_length = 1; message_length < sizeof message; message_length += 11) run(CMAC);
    run(HOP_MAC);
    run(VERSION);
    CHECK(version == SCION_STEP_VERSION);
}

int main(void) {
    sizes();
    tables();
    places();
    checks();
    interfaces();
    actions();
    paths();
    journeys();
    peerings();
    macs();
    size_t most = 0;
    for (int i = 0; i < CALLS; i++) {
        printf("%s: %zu bytes of stack\n", names[i], taken[i]);
        if (taken[i] > most) most = taken[i];
    }
    if (most > SCION_STEP_STACK) {
        fprintf(stderr, "answers: a call took %zu bytes of stack, and the header says %d\n", most, SCION_STEP_STACK);
        wrong = 1;
    }
    printf("%zu bytes of stack at most\n", most);
    return wrong;
}
