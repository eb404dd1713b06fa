// Random lengths and bytes of every kind for each function of scion_step.h.
//
// A sanitizer sees this program, but not the archive's code. So each argument lies between two pages that can't be
// touched, flush with the lower one and then, in a second call, flush with the upper one, with other bytes around it. A
// byte read or written beyond the flush end faults; one written beyond the other end is found changed; an answer that
// hangs on one read there is not the same in both calls. Inputs are random bytes, and paths that would travel, damaged
// here and there, so that each answer is reached: one that is not, or one that the call never gives, is an error too.
//
// Also what the header allows of pointers: null where the length is 0, and arguments that are only read laid over one
// another. And what it says of the editions: the first is the call without one; without P the second is the first; 28
// is for P on a path that is no peering path.
//
// Two numbers can be given: the rounds and the seed. The lines printed are, for each call, its answers and how often
// each was given.
#define _DEFAULT_SOURCE
#include "scion_step.h"

#include <stdio.h>
#include <stdlib.h>
#include <string.h>
#include <sys/mman.h>
#include <unistd.h>

enum { MAX_PATH = 2400, MAX_TABLE = 300, RECORD = 32, MAX_ITINERARY = 2049 * RECORD, NUMBERS = 122 };

static _Noreturn void fail(const char *call, const char *what) {
    fprintf(stderr, "fuzz: %s: %s\n", call, what);
    exit(1);
}

// ---- random numbers (xorshift64*, so that a seed gives the same run everywhere)

static uint64_t random_state;

static uint32_t draw(uint32_t below) {
    random_state ^= random_state >> 12;
    random_state ^= random_state << 25;
    random_state ^= random_state >> 27;
    return (uint32_t)(random_state * 0x2545F4914F6CDD1D >> 32) % below;
}

static bool one_in(uint32_t count) {
    return draw(count) == 0;
}

static void draw_bytes(uint8_t *at, size_t length) {
    for (size_t i = 0; i < length; i++) at[i] = draw(256);
}

// ---- rooms: memory between two pages that can't be touched

typedef struct {
    uint8_t *start;
    size_t size;
    uint8_t *at; // where the argument lies
    size_t length;
    uint8_t around; // every byte that is not the argument's
} Room;

static Room make_room(size_t size) {
    size_t page = (size_t)sysconf(_SC_PAGESIZE);
    Room room = {.size = (size + page - 1) / page * page};
    uint8_t *all = mmap(NULL, room.size + 2 * page, PROT_NONE, MAP_PRIVATE | MAP_ANONYMOUS, -1, 0);
    room.start = all + page;
    if (all == MAP_FAILED || mprotect(room.start, room.size, PROT_READ | PROT_WRITE) != 0) fail("mmap", "no memory");
    return room;
}

static void *place(Room *room, const void *bytes, size_t length, bool high) {
    room->around = high ? 0xA5 : 0x5A;
    room->at = high ? room->start + room->size - length : room->start;
    room->length = length;
    memset(room->start, room->around, room->size);
    memcpy(room->at, bytes, length);
    // An empty argument is no one's to read: null, or as Rust passes an empty slice, its element's alignment.
    return length != 0 || high ? room->at : one_in(2) ? NULL : (uint8_t *)2;
}

static bool all_are(const uint8_t *at, size_t length, uint8_t byte) {
    return length == 0 || (*at == byte && memcmp(at, at + 1, length - 1) == 0);
}

static void check_around(const Room *room, const char *call) {
    const uint8_t *end = room->at + room->length;
    if (!all_are(room->start, (size_t)(room->at - room->start), room->around) ||
        !all_are(end, (size_t)(room->start + room->size - end), room->around))
        fail(call, "a byte beyond an argument was changed");
}

static void check_kept(const Room *room, const void *bytes, const char *call) {
    check_around(room, call);
    if (memcmp(room->at, bytes, room->length) != 0) fail(call, "an argument that is only read was changed");
}

static Room ids_room, states_room, path_room, key_room, itinerary_room, mac_room;

// ---- the input of a call

static uint16_t ids[MAX_TABLE];
static uint8_t states[MAX_TABLE], path[MAX_PATH], key[16], itinerary[MAX_ITINERARY];
static size_t ids_length, states_length, path_length, itinerary_length;

static uint16_t get16(const uint8_t *at) {
    return (uint16_t)(at[0] * 256 + at[1]);
}

static void put16(uint8_t *at, uint16_t value) {
    at[0] = value >> 8;
    at[1] = value & 255;
}

static void put32(uint8_t *at, uint32_t value) {
    put16(at, value >> 16);
    put16(at + 2, value & 0xFFFF);
}

static uint32_t lengths[3], infos, hops;
static bool has_peering; // the header is that of a peering path

static uint8_t *info_at(uint32_t info) {
    return path + 4 + 8 * info;
}

static uint8_t *hop_at(uint32_t hop) {
    return path + 4 + 8 * infos + 12 * hop;
}

static bool cons_dir(uint32_t info) {
    return info_at(info)[0] & 1;
}

static uint8_t *travel_ingress(uint32_t hop, uint32_t info) {
    return hop_at(hop) + (cons_dir(info) ? 2 : 4);
}

static uint8_t *travel_egress(uint32_t hop, uint32_t info) {
    return hop_at(hop) + (cons_dir(info) ? 4 : 2);
}

// The info field of a hop, and whether the hop is its segment's last. Right where no length before it is zero.
static uint32_t segment_of(uint32_t hop, bool *is_last) {
    uint32_t end = 0;
    for (uint32_t segment = 0; segment < 3; segment++) {
        end += lengths[segment];
        *is_last = hop + 1 == end;
        if (hop < end) return segment;
    }
    return 0;
}

static void put_mac(uint32_t hop, uint32_t info, uint16_t segment_id, const uint8_t hop_key[16]) {
    uint8_t *at = hop_at(hop);
    uint32_t timestamp = (uint32_t)get16(info_at(info) + 4) << 16 | get16(info_at(info) + 6);
    scion_calculate_hop_mac(segment_id, timestamp, at[1], get16(at + 2), get16(at + 4), hop_key, at + 6);
}

static bool is_peering_hop(uint32_t hop) {
    return has_peering && (hop + 1 == lengths[0] || hop == lengths[0]);
}

// A header with these lengths, and fields with small numbers, without alerts and MACs.
static void draw_header(void) {
    has_peering = lengths[0] != 0 && lengths[1] != 0 && lengths[2] == 0 && one_in(2);
    bool misplaced = one_in(16);
    infos = (lengths[0] != 0) + (lengths[1] != 0) + (lengths[2] != 0);
    hops = lengths[0] + lengths[1] + lengths[2];
    path_length = 4 + 8 * infos + 12 * hops;
    memset(path, 0, path_length);
    put32(path, lengths[0] << 12 | lengths[1] << 6 | lengths[2]);
    for (uint32_t info = 0; info < infos; info++) {
        info_at(info)[0] = draw(misplaced ? 4 : 2) | (has_peering ? 2 : 0);
        put16(info_at(info) + 2, draw(65536));
        put32(info_at(info) + 4, 1000 + draw(3));
    }
    for (uint32_t hop = 0; hop < hops; hop++) {
        hop_at(hop)[1] = one_in(8) ? draw(256) : 0;
        put16(hop_at(hop) + 2, draw(5));
        put16(hop_at(hop) + 4, draw(5));
    }
}

static void draw_lengths(void) {
    uint32_t used = 1 + draw(3), most = one_in(16) ? 63 : one_in(4) ? 21 : 4;
    for (uint32_t i = 0; i < 3; i++) lengths[i] = i < used ? 2 + draw(most - 1) : 0;
    if (one_in(4)) lengths[draw(3)] = draw(3);
}

// With the indices at some hop, and MACs that are right at the AS of that hop.
static void draw_path(bool outside) {
    draw_lengths();
    draw_header();
    if (hops == 0 || hops > 64) return;
    bool is_last;
    // Often at the end of the first segment, for the questions of a segment change.
    uint32_t hop = lengths[0] != 0 && one_in(4) ? lengths[0] - 1 : draw(hops);
    uint32_t info = segment_of(hop, &is_last);
    path[0] = (uint8_t)(info << 6 | hop);
    if (one_in(4)) hop_at(hop)[0] = draw(4);
    if (info >= infos) return;
    uint16_t segment_id = get16(info_at(info) + 2);
    put_mac(hop, info, segment_id, key);
    if (outside && !cons_dir(info) && !is_peering_hop(hop))
        put16(info_at(info) + 2, segment_id ^ get16(hop_at(hop) + 6));
    if (is_last && info + 1 < infos && !has_peering) {
        if (one_in(4)) hop_at(hop + 1)[0] = draw(4);
        put16(travel_ingress(hop + 1, info + 1), one_in(8) ? draw(5) : 0);
        put_mac(hop + 1, info + 1, get16(info_at(info + 1) + 2), key);
    }
}

static void damage_path(void) {
    if (one_in(4) && path_length != 0) path[draw((uint32_t)path_length)] ^= (uint8_t)(1 << draw(8));
    if (one_in(16) && path_length != 0) path[draw(4) % path_length] = draw(256);
    if (one_in(16)) path_length -= draw((uint32_t)path_length + 1);
    if (one_in(16)) {
        size_t longer = path_length + draw((uint32_t)(MAX_PATH - path_length) + 1);
        draw_bytes(path + path_length, longer - path_length);
        path_length = longer;
    }
}

static void draw_any_path(bool outside) {
    if (one_in(8)) {
        path_length = draw(MAX_PATH + 1);
        draw_bytes(path, path_length);
    } else {
        draw_path(outside);
        damage_path();
    }
}

static void draw_table(void) {
    uint32_t entries = one_in(4) ? draw(MAX_TABLE + 1) : 2 + draw(5), gap = one_in(8) ? 200 : 1;
    ids_length = states_length = entries;
    uint32_t id = draw(2);
    for (uint32_t i = 0; i < entries; i++, id += 1 + draw(gap)) {
        ids[i] = (uint16_t)id;
        states[i] = one_in(4) ? draw(8) : 6;
    }
    if (one_in(32)) ids_length = draw(MAX_TABLE + 1);
    if (one_in(32)) states_length = draw(MAX_TABLE + 1);
    if (one_in(32)) ids[draw(MAX_TABLE)] = draw(65536);
    if (one_in(32)) states[draw(MAX_TABLE)] = draw(256);
}

static size_t ids_start, states_start; // in the key of a shared table

// A table and a key of the same 16 bytes: the numbers 0 to 7, whose bytes are states too.
static void draw_shared_table(void) {
    uint16_t numbers[8];
    for (uint16_t i = 0; i < 8; i++) numbers[i] = i;
    memcpy(key, numbers, sizeof key);
    ids_length = states_length = 1 + draw(8);
    ids_start = draw(9 - (uint32_t)ids_length);
    states_start = draw(17 - (uint32_t)states_length);
    memcpy(ids, numbers + ids_start, ids_length * 2);
    memcpy(states, key + states_start, states_length);
}

// ---- an itinerary

static const uint8_t *station_key(uint32_t station) {
    return itinerary + RECORD * (1 + station) + 8;
}

// The MACs of a segment whose first hop is at `station`.
static void put_segment_macs(uint32_t info, uint32_t first, uint32_t station) {
    uint16_t segment_id = get16(info_at(info) + 2);
    for (uint32_t i = 0; i < lengths[info]; i++) {
        uint32_t walked = cons_dir(info) ? i : lengths[info] - 1 - i;
        put_mac(first + walked, info, segment_id, station_key(station + walked));
        if (is_peering_hop(first + walked)) continue;
        if (cons_dir(info) || walked != 0) segment_id ^= get16(hop_at(first + walked) + 6);
    }
    if (!cons_dir(info)) put16(info_at(info) + 2, segment_id);
}

// A path and an itinerary that fit: one table of five interfaces to children for all stations.
static void draw_journey(void) {
    draw_lengths();
    draw_header();
    uint32_t stations = has_peering ? hops : hops - infos + 1, records = 1 + stations + 5;
    if (hops == 0 || hops > 64) stations = 1;
    itinerary_length = records * RECORD;
    memset(itinerary, 0, itinerary_length);
    put16(itinerary, 1);
    for (uint32_t station = 0; station < stations; station++) {
        uint8_t *at = itinerary + RECORD * (1 + station);
        put16(at, station + 1 < stations ? station + 2 : 0);
        put16(at + 2, station == 0 ? 0 : 1 + draw(5));
        put16(at + 4, 1 + stations);
        draw_bytes(at + 8, 16);
    }
    for (uint32_t i = 0; i < 5; i++) {
        uint8_t *at = itinerary + RECORD * (1 + stations + i);
        put16(at, i < 4 ? 2 + stations + i : 0);
        put16(at + 2, 1 + i);
        at[4] = 6;
    }
    if (hops == 0 || hops > 64) return;
    for (uint32_t info = 0, first = 0, station = 0; info < infos && lengths[info] != 0; info++) {
        for (uint32_t i = 0; i < lengths[info]; i++) {
            put16(travel_ingress(first + i, info), get16(itinerary + RECORD * (1 + station + i) + 2));
            put16(travel_egress(first + i, info), 1 + draw(5));
        }
        put_segment_macs(info, first, station);
        first += lengths[info];
        station += has_peering ? lengths[info] : lengths[info] - 1;
    }
}

static void damage_journey(void) {
    if (one_in(4)) damage_path();
    if (one_in(8)) path[0] = draw(256);
    if (one_in(4)) itinerary[draw((uint32_t)itinerary_length)] ^= (uint8_t)(1 << draw(8));
    if (one_in(16)) itinerary_length = draw((uint32_t)itinerary_length + 1);
    if (one_in(64)) {
        itinerary_length = one_in(2) ? draw(MAX_ITINERARY + 1) : draw(MAX_ITINERARY / RECORD + 1) * RECORD;
        draw_bytes(itinerary, itinerary_length);
    }
}

// ---- answers

typedef struct {
    const char *name;
    uint8_t answers[25]; // those that it can give, 0 behind the last
    bool has_scmp;
} Call;

// Those that have editions first, then the same in an edition.
enum { STEP, INGRESS, EGRESS, JOURNEY, IN_EDITION, REVERSE = 2 * IN_EDITION, EXPIRATION, SEGMENT, CALLS };

// In an edition: the answers of the second.
static const Call calls[CALLS] = {
    {"scion_handle_standard_path",
     {1, 2, 3, 4, 5, 6, 7, 8, 9, 10, 11, 12, 13, 14, 15, 16, 17, 18, 101, 102, 103, 104},
     true},
    {"scion_standard_path_ingress", {1, 2, 3, 4, 5, 6, 7, 8, 9, 10, 11, 12, 13, 14, 15, 16, 100, 102, 103}, true},
    {"scion_standard_path_egress", {1, 2, 3, 4, 5, 7, 8, 10, 11, 12, 18, 19, 101, 104}, true},
    {"scion_check_journey", {2, 3, 4, 23, 24, 25, 120, 121}, false},
    {"scion_handle_standard_path_in_edition",
     {1, 2, 3, 4, 5, 6, 7, 8, 9, 10, 11, 12, 13, 14, 15, 16, 17, 18, 28, 101, 102, 103, 104},
     true},
    {"scion_standard_path_ingress_in_edition",
     {1, 2, 3, 4, 5, 6, 7, 8, 9, 10, 11, 12, 13, 14, 15, 16, 28, 100, 102, 103},
     true},
    {"scion_standard_path_egress_in_edition", {1, 2, 3, 4, 5, 7, 8, 10, 11, 12, 18, 19, 28, 101, 104}, true},
    {"scion_check_journey_in_edition", {2, 3, 4, 23, 24, 25, 120, 121}, false},
    {"scion_try_reverse", {2, 3, 4, 20, 21, 22, 110}, false},
    {"scion_expiration", {2, 3, 4, 111}, false},
    {"scion_calculate_segment_index", {2, 3, 4, 5, 112}, false},
};

static uint64_t counts[CALLS][NUMBERS];

static void check_reply(const Call *call, ScionReply reply) {
    if (reply.number == 0 || memchr(call->answers, reply.number, sizeof call->answers) == NULL)
        fail(call->name, "an answer that it never gives");
    counts[call - calls][reply.number]++;
    if (reply.count > 4) fail(call->name, "more than four values");
    for (int i = reply.count; i < 4; i++)
        if (reply.values[i] != 0) fail(call->name, "a value behind the last");
    bool expected = call->has_scmp && reply.number >= 9 && reply.number <= 19 && reply.number != 18;
    uint8_t type = !expected ? 0 : reply.number == 17 ? 5 : 4;
    if (reply.scmp_type != type) fail(call->name, "a wrong SCMP type");
    if (type != 4 && reply.scmp_code != 0) fail(call->name, "a code without a type 4");
    if (type != 5 && reply.scmp_pointer != 0) fail(call->name, "a pointer that is not 0");
}

static bool are_same(ScionReply one, ScionReply other) {
    return one.number == other.number && one.count == other.count &&
           memcmp(one.values, other.values, sizeof one.values) == 0 && one.scmp_type == other.scmp_type &&
           one.scmp_code == other.scmp_code && one.scmp_pointer == other.scmp_pointer;
}

static void check_same(const Call *call, ScionReply one, ScionReply other) {
    if (!are_same(one, other))
        fail(call->name, "an answer that depends on bytes beyond an argument, or on where it lies");
}

// ---- editions

// A call as it is without an edition, in the first, and in the second.
enum { PLAIN, FIRST, SECOND, MODES };

static const Call *in_mode(const Call *call, int mode) {
    return mode == PLAIN ? call : call + IN_EDITION;
}

// What P is on the path as it is given, whatever it was drawn as.
enum { NO_P, PEERING, MISPLACED };

static int p_of_path(void) {
    if (path_length < 4) return NO_P;
    uint32_t word = (uint32_t)get16(path) << 16 | get16(path + 2);
    uint32_t first = word >> 12 & 63, second = word >> 6 & 63, third = word & 63, with = 0;
    uint32_t there = (first != 0) + (second != 0) + (third != 0);
    for (uint32_t info = 0; info < there; info++) with += 4 + 8 * info < path_length && info_at(info)[0] & 2;
    return with == 0 ? NO_P : first != 0 && second != 0 && third == 0 && with == 2 ? PEERING : MISPLACED;
}

static uint64_t without_p, changed_by_p; // calls without P, and those with it that the editions answer otherwise

static void check_editions(const Call *call, const ScionReply replies[MODES], bool same_first, bool same_second) {
    if (!same_first || !are_same(replies[PLAIN], replies[FIRST]))
        fail(call->name, "in the first edition it is not the call without one");
    int p = p_of_path();
    bool same = same_second && are_same(replies[FIRST], replies[SECOND]);
    if (p == NO_P && !same) fail(call->name, "the editions differ without P");
    without_p += p == NO_P;
    changed_by_p += !same;
    uint16_t number = replies[SECOND].number;
    if (call == &calls[JOURNEY] ? p == MISPLACED && number == SCION_PASSED
                                : p == MISPLACED ? number > 8 && number != 28 : number == 28)
        fail(call->name, "28 is not for just those paths that it is for");
}

// ---- the calls, each made twice

typedef ScionReply Step(const uint16_t *, size_t, const uint8_t *, size_t, uint8_t *, size_t, uint16_t, uint32_t,
                        const uint8_t *, bool);
typedef ScionReply StepInEdition(bool, const uint16_t *, size_t, const uint8_t *, size_t, uint8_t *, size_t, uint16_t,
                                 uint32_t, const uint8_t *, bool);

static Step *const steps[] = {scion_handle_standard_path, scion_standard_path_ingress, scion_standard_path_egress};
static StepInEdition *const steps_in_edition[] = {scion_handle_standard_path_in_edition,
                                                  scion_standard_path_ingress_in_edition,
                                                  scion_standard_path_egress_in_edition};

// The lengths are those of the input.
static ScionReply make_step(int which, int mode, const uint16_t *given_ids, const uint8_t *given_states,
                            uint8_t *given_path, uint16_t interface, uint32_t time, const uint8_t *given_key,
                            bool ignore_macs) {
    if (mode == PLAIN)
        return steps[which](given_ids, ids_length, given_states, states_length, given_path, path_length, interface,
                            time, given_key, ignore_macs);
    return steps_in_edition[which](mode == SECOND, given_ids, ids_length, given_states, states_length, given_path,
                                   path_length, interface, time, given_key, ignore_macs);
}

static void fuzz_step(int which) {
    bool is_egress = which == EGRESS, outside = !is_egress && !one_in(4);
    bool shared = one_in(8);
    draw_bytes(key, sizeof key);
    draw_table();
    if (shared) draw_shared_table();
    draw_any_path(outside);
    // Hop fields are good from about 1000 to 1337.
    uint32_t time = one_in(32) ? draw(0xFFFFFFFF) : (one_in(8) ? 990 : one_in(8) ? 1325 : 1002) + draw(20);
    uint16_t interface = (uint16_t)draw(6);
    uint32_t hop = path[0] % 64, info = path[0] / 64;
    if (!one_in(16) && path_length >= 4 && info < infos && hop < hops)
        interface = get16(is_egress ? travel_egress(hop, info) : travel_ingress(hop, info));
    if (!is_egress && !outside) interface = 0;
    bool ignore_macs = one_in(8);

    static uint8_t left[MODES][MAX_PATH];
    ScionReply replies[MODES];
    for (int mode = 0; mode < MODES; mode++) {
        const Call *call = in_mode(&calls[which], mode);
        for (int high = 0; high < 2; high++) {
            const uint16_t *given_ids = place(&ids_room, ids, ids_length * 2, high);
            const uint8_t *given_states = place(&states_room, states, states_length, high);
            uint8_t *given_path = place(&path_room, path, path_length, high);
            const uint8_t *given_key = place(&key_room, key, sizeof key, high);
            ScionReply reply = make_step(which, mode, given_ids, given_states, given_path, interface, time, given_key,
                                         ignore_macs);
            check_kept(&ids_room, ids, call->name);
            check_kept(&states_room, states, call->name);
            check_kept(&key_room, key, call->name);
            check_around(&path_room, call->name);
            if (high) check_same(call, replies[mode], reply);
            if (high && memcmp(left[mode], path_room.at, path_length) != 0) fail(call->name, "bytes left that differ");
            replies[mode] = reply;
            memcpy(left[mode], path_room.at, path_length);
        }
        if (mode != FIRST) check_reply(call, replies[mode]);
        if ((replies[mode].number <= 4 || replies[mode].number == 28) && memcmp(left[mode], path, path_length) != 0)
            fail(call->name, "a change by 1 to 4 or 28");
        if (!shared) continue;
        const uint8_t *given = place(&key_room, key, sizeof key, true);
        uint8_t *given_path = place(&path_room, path, path_length, true);
        check_same(call, replies[mode],
                   make_step(which, mode, (const uint16_t *)(const void *)given + ids_start, given + states_start,
                             given_path, interface, time, given, ignore_macs));
        check_kept(&key_room, key, call->name);
        check_around(&path_room, call->name);
        if (memcmp(left[mode], path_room.at, path_length) != 0) fail(call->name, "bytes left that differ");
    }
    check_editions(&calls[which], replies, memcmp(left[PLAIN], left[FIRST], path_length) == 0,
                   memcmp(left[FIRST], left[SECOND], path_length) == 0);
}

static void fuzz_reverse(const Call *call) {
    static uint8_t left[MAX_PATH];
    ScionReply replies[2];
    draw_any_path(false);
    if (one_in(8) && path_length != 0) path[0] = draw(256);
    for (int high = 0; high < 2; high++) {
        replies[high] = scion_try_reverse(place(&path_room, path, path_length, high), path_length);
        check_around(&path_room, call->name);
        if (high && memcmp(left, path_room.at, path_length) != 0) fail(call->name, "bytes left that differ");
        memcpy(left, path_room.at, path_length);
    }
    check_reply(call, replies[0]);
    check_same(call, replies[0], replies[1]);
}

static void fuzz_readers(void) {
    ScionReply expirations[2], segments[2];
    draw_any_path(false);
    uint8_t hop = one_in(8) ? draw(256) : draw(70);
    for (int high = 0; high < 2; high++) {
        const uint8_t *given = place(&path_room, path, path_length, high);
        expirations[high] = scion_expiration(given, path_length);
        check_kept(&path_room, path, calls[EXPIRATION].name);
        segments[high] = scion_calculate_segment_index(given, path_length, hop);
        check_kept(&path_room, path, calls[SEGMENT].name);
    }
    check_reply(&calls[EXPIRATION], expirations[0]);
    check_same(&calls[EXPIRATION], expirations[0], expirations[1]);
    check_reply(&calls[SEGMENT], segments[0]);
    check_same(&calls[SEGMENT], segments[0], segments[1]);
}

// Also: the hop MAC is the first six bytes of the MAC of its input.
static void fuzz_macs(void) {
    static const uint8_t zeros[16];
    uint8_t macs[2][16];
    draw_bytes(key, sizeof key);
    path_length = one_in(2) ? draw(MAX_PATH + 1) : draw(50);
    draw_bytes(path, path_length);
    for (int high = 0; high < 2; high++) {
        const uint8_t *given_key = place(&key_room, key, sizeof key, high);
        const uint8_t *message = place(&path_room, path, path_length, high);
        scion_aes_cmac(given_key, message, path_length, place(&mac_room, zeros, 16, high));
        check_kept(&key_room, key, "scion_aes_cmac");
        check_kept(&path_room, path, "scion_aes_cmac");
        check_around(&mac_room, "scion_aes_cmac");
        memcpy(macs[high], mac_room.at, 16);
    }
    if (memcmp(macs[0], macs[1], 16) != 0) fail("scion_aes_cmac", "two MACs of one message");
    if (path_length >= sizeof key) { // a message that starts with the key
        memcpy(path, key, sizeof key);
        const uint8_t *message = place(&path_room, path, path_length, true);
        scion_aes_cmac(key, message, path_length, macs[0]);
        scion_aes_cmac(message, message, path_length, macs[1]);
        check_kept(&path_room, path, "scion_aes_cmac");
        if (memcmp(macs[0], macs[1], 16) != 0) fail("scion_aes_cmac", "a MAC that depends on where the key lies");
    }

    uint8_t input[16];
    draw_bytes(input, sizeof input);
    put16(input, 0);
    input[8] = 0;
    put16(input + 14, 0);
    scion_aes_cmac(key, input, sizeof input, macs[0]);
    for (int high = 0; high < 2; high++) {
        const uint8_t *given_key = place(&key_room, key, sizeof key, high);
        uint32_t timestamp = (uint32_t)get16(input + 4) << 16 | get16(input + 6);
        scion_calculate_hop_mac(get16(input + 2), timestamp, input[9], get16(input + 10), get16(input + 12), given_key,
                                place(&mac_room, zeros, 6, high));
        check_kept(&key_room, key, "scion_calculate_hop_mac");
        check_around(&mac_room, "scion_calculate_hop_mac");
        if (memcmp(macs[0], mac_room.at, 6) != 0) fail("scion_calculate_hop_mac", "not the head of the MAC");
    }
}

static uint64_t shared_verdicts[2]; // how many paths that lie in the itinerary did not pass, and did

static ScionReply make_check(int mode, const uint8_t *given_path, const uint8_t *given, uint32_t earliest,
                             uint32_t latest) {
    if (mode == PLAIN)
        return scion_check_journey(given_path, path_length, given, itinerary_length, earliest, latest);
    return scion_check_journey_in_edition(mode == SECOND, given_path, path_length, given, itinerary_length, earliest,
                                          latest);
}

static void fuzz_journey(void) {
    draw_journey();
    if (one_in(16) && hops != 0) hop_at(draw(hops))[0] = draw(4);
    damage_journey();
    // A copy of the path in records that no chain reaches.
    bool shared = one_in(8) && itinerary_length + path_length + RECORD <= MAX_ITINERARY;
    size_t path_start = itinerary_length;
    if (shared) {
        itinerary_length += (path_length + RECORD - 1) / RECORD * RECORD;
        memcpy(itinerary + path_start, path, path_length);
        memset(itinerary + path_start + path_length, 0, itinerary_length - path_start - path_length);
    }
    uint32_t earliest = one_in(16) ? draw(2000) : 1002 + draw(50);
    uint32_t latest = one_in(16) ? draw(2000) : earliest + draw(50);
    ScionReply replies[MODES];
    for (int mode = 0; mode < MODES; mode++) {
        const Call *call = in_mode(&calls[JOURNEY], mode);
        for (int high = 0; high < 2; high++) {
            const uint8_t *given_path = place(&path_room, path, path_length, high);
            const uint8_t *given = place(&itinerary_room, itinerary, itinerary_length, high);
            ScionReply reply = make_check(mode, given_path, given, earliest, latest);
            check_kept(&path_room, path, call->name);
            check_kept(&itinerary_room, itinerary, call->name);
            if (high) check_same(call, replies[mode], reply);
            replies[mode] = reply;
        }
        if (mode != FIRST) check_reply(call, replies[mode]);
        if (!shared) continue;
        const uint8_t *given = place(&itinerary_room, itinerary, itinerary_length, true);
        check_same(call, replies[mode], make_check(mode, given + path_start, given, earliest, latest));
        check_kept(&itinerary_room, itinerary, call->name);
        shared_verdicts[replies[mode].number == SCION_PASSED]++;
    }
    check_editions(&calls[JOURNEY], replies, true, true);
}

// ---- null

static void check_number(const Call *call, ScionReply reply, uint16_t number) {
    if (reply.number != number) fail(call->name, "null with length 0 is not taken as nothing");
}

// Null with length 0, for each argument and for all.
static void call_with_null(void) {
    lengths[0] = 3;
    lengths[1] = lengths[2] = 0;
    draw_header();
    path[0] = 3;
    ids[1] = ids[0] + 1;
    states[0] = states[1] = 6;
    size_t length = path_length;
    for (int i = 0; i < 3 * MODES * 7; i++) {
        int which = i % 3, mode = i / 3 % MODES, none = 1 + i / 3 / MODES;
        ids_length = none & 1 ? 0 : 2;
        states_length = none & 2 ? 0 : 2;
        path_length = none & 4 ? 0 : length;
        ScionReply reply = make_step(which, mode, none & 1 ? NULL : ids, none & 2 ? NULL : states,
                                     none & 4 ? NULL : path, 0, 0, key, false);
        check_number(in_mode(&calls[which], mode), reply,
                     ids_length != states_length ? SCION_UNSOUND_TABLE
                     : path_length == 0          ? SCION_META_TOO_SHORT
                                                 : SCION_HOP_OUT_OF_BOUNDS);
    }
    for (int i = 0; i < MODES * 3; i++) {
        int mode = i % MODES, none = 1 + i / MODES;
        path_length = none & 1 ? 0 : length;
        itinerary_length = none & 2 ? 0 : RECORD;
        ScionReply reply = make_check(mode, none & 1 ? NULL : path, none & 2 ? NULL : itinerary, 0, 0);
        check_number(in_mode(&calls[JOURNEY], mode), reply, none & 1 ? SCION_META_TOO_SHORT : SCION_UNFIT_ITINERARY);
    }
    check_number(&calls[REVERSE], scion_try_reverse(NULL, 0), SCION_META_TOO_SHORT);
    check_number(&calls[EXPIRATION], scion_expiration(NULL, 0), SCION_META_TOO_SHORT);
    check_number(&calls[SEGMENT], scion_calculate_segment_index(NULL, 0, 0), SCION_META_TOO_SHORT);
    uint8_t macs[2][16];
    scion_aes_cmac(key, NULL, 0, macs[0]);
    scion_aes_cmac(key, path, 0, macs[1]);
    if (memcmp(macs[0], macs[1], 16) != 0) fail("scion_aes_cmac", "null with length 0 is not taken as nothing");
}

// ----

static void report(const Call *call) {
    printf("%s:", call->name);
    for (int i = 0; call->answers[i] != 0; i++) {
        uint64_t count = counts[call - calls][call->answers[i]];
        printf(" %u x %llu", call->answers[i], (unsigned long long)count);
        if (count == 0) fail(call->name, "an answer was not reached");
    }
    printf("\n");
}

int main(int count, char **words) {
    uint32_t rounds = count > 1 ? (uint32_t)strtoul(words[1], NULL, 10) : 50000;
    random_state = count > 2 ? strtoull(words[2], NULL, 10) | 1 : 866;
    ids_room = make_room(sizeof ids);
    states_room = make_room(sizeof states);
    path_room = make_room(sizeof path);
    key_room = make_room(sizeof key);
    itinerary_room = make_room(sizeof itinerary);
    mac_room = make_room(16);
    call_with_null();
    for (uint32_t i = 0; i < rounds; i++) {
        for (int which = STEP; which <= EGRESS; which++) fuzz_step(which);
        fuzz_reverse(&calls[REVERSE]);
        fuzz_readers();
        fuzz_macs();
        fuzz_journey();
    }
    for (int i = 0; i < CALLS; i++) report(&calls[i]);
    if (shared_verdicts[0] == 0 || shared_verdicts[1] == 0) fail("scion_check_journey", "a path in an itinerary");
    if (without_p == 0 || changed_by_p == 0) fail("editions", "no path without P, or none with it");
    printf("editions: %llu inputs without P, %llu with P that they answer otherwise\n", (unsigned long long)without_p,
           (unsigned long long)changed_by_p);
    printf("%u rounds of thirteen calls, each made twice\n", (unsigned)rounds);
    return 0;
}
