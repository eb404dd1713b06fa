// A path of three hops through its middle AS, then turned around.
#include "scion_step.h"

#include <stdio.h>
#include <string.h>

enum { HOPS = 3, PATH = SCION_META_BYTES + SCION_INFO_BYTES + SCION_HOP_BYTES * HOPS };

static void put16(uint8_t *at, uint16_t value) {
    at[0] = value >> 8;
    at[1] = value & 255;
}

// One segment in construction direction, timestamp 1000, at its second hop; MACs under one key.
static void make_path(uint8_t path[PATH], const uint8_t key[SCION_KEY_BYTES]) {
    static const uint16_t interfaces[HOPS][2] = {{0, 1}, {3, 1}, {3, 0}};
    uint16_t segment_id = 0x1234;

    memset(path, 0, PATH);
    path[0] = 1;
    path[2] = HOPS * 16;
    path[4] = 1;
    path[4 + 6] = 1000 >> 8;
    path[4 + 7] = 1000 & 255;
    for (int i = 0; i < HOPS; i++) {
        uint8_t *hop = path + 12 + 12 * i;
        put16(hop + 2, interfaces[i][0]);
        put16(hop + 4, interfaces[i][1]);
        scion_calculate_hop_mac(segment_id, 1000, 0, interfaces[i][0], interfaces[i][1], key, hop + 6);
        if (i == 0) put16(path + 6, segment_id ^ (uint16_t)(hop[6] * 256 + hop[7]));
        segment_id ^= (uint16_t)(hop[6] * 256 + hop[7]);
    }
}

static void show(const char *what, ScionReply reply) {
    printf("%s: %u", what, reply.number);
    for (int i = 0; i < reply.count; i++) printf(" %llu", (unsigned long long)reply.values[i]);
    if (reply.scmp_type != 0) printf(", SCMP %u %u %u", reply.scmp_type, reply.scmp_code, (unsigned)reply.scmp_pointer);
    printf("\n");
}

int main(void) {
    const uint8_t key[SCION_KEY_BYTES] = "a forwarding key";
    const uint16_t ids[2] = {1, 3};
    const uint8_t states[2] = {SCION_LINK_UP | SCION_LINK_TO_CHILD, SCION_LINK_UP | SCION_LINK_TO_PARENT};
    uint8_t path[PATH];

    if (scion_step_version_2() != SCION_STEP_VERSION) {
        fprintf(stderr, "example: the archive is not of version %d\n", SCION_STEP_VERSION);
        return 1;
    }
    make_path(path, key);
    show("in time", scion_handle_standard_path(ids, 2, states, 2, path, PATH, 3, 1337, key, false));
    make_path(path, key);
    show("a second late", scion_handle_standard_path(ids, 2, states, 2, path, PATH, 3, 1338, key, false));
    show("expiration", scion_expiration(path, PATH));
    show("reversed", scion_try_reverse(path, PATH));
    show("cut short", scion_try_reverse(path, PATH - 1));
    return 0;
}
