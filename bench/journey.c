// Times the journey check on the longest path and the largest plan: 64 hops in two segments, 63 stations with 256 interfaces each,
// 2,048 records. The path passes, so every condition is asked.
#define _POSIX_C_SOURCE 199309L
#include "../c/scion_step.h"

#include <stdio.h>
#include <stdlib.h>
#include <string.h>
#include <time.h>

enum { SEGMENT = 32, HOPS = 64, STATIONS = 63, TABLE = 256, RECORDS = 2048, PATH = 4 + 2 * 8 + HOPS * 12, ROUNDS = 200 };

static uint8_t path[PATH], plan[32 * RECORDS], keys[STATIONS][16];

static double seconds(void) {
    struct timespec at;
    clock_gettime(CLOCK_MONOTONIC, &at);
    return at.tv_sec + 1e-9 * at.tv_nsec;
}

static void put16(uint8_t *at, unsigned value) {
    at[0] = value >> 8;
    at[1] = value & 255;
}

// Each hop comes in by the last but one interface of the table and leaves by the last: the longest lookups.
static void make_path(void) {
    path[1] = SEGMENT / 16;
    path[2] = SEGMENT % 16 * 16 + SEGMENT / 4;
    path[3] = SEGMENT % 4 * 64;
    for (int hop = 0; hop < HOPS; hop++) {
        int segment = hop / SEGMENT;
        uint8_t *info = path + 4 + 8 * segment, *field = path + 20 + 12 * hop;
        unsigned in = hop == 0 ? 0 : TABLE - 1, out = hop == HOPS - 1 ? 0 : TABLE;
        static unsigned segment_id;
        if (hop % SEGMENT == 0) {
            segment_id = 0x1234 + segment;
            info[0] = 1;
            put16(info + 2, segment_id);
            info[7] = 100;
        }
        field[1] = 255;
        put16(field + 2, in);
        put16(field + 4, out);
        scion_calculate_hop_mac(segment_id, 100, 255, in, out, keys[hop - segment], field + 6);
        segment_id ^= field[6] * 256 + field[7];
    }
}

// As many tables of their own as there are records; the last one serves the other stations too.
static void make_plan(void) {
    int next_table = 1 + STATIONS, table = 0;
    put16(plan, 1);
    for (int k = 0; k < STATIONS; k++) {
        uint8_t *station = plan + 32 * (1 + k);
        if (next_table + TABLE <= RECORDS) {
            table = next_table;
            for (int i = 0; i < TABLE; i++) {
                uint8_t *entry = plan + 32 * (table + i);
                put16(entry, i + 1 < TABLE ? table + i + 1 : 0);
                put16(entry + 2, i + 1);
                entry[4] = 4 + 2;
            }
            next_table += TABLE;
        }
        put16(station, k + 1 < STATIONS ? k + 2 : 0);
        put16(station + 2, k == 0 ? 0 : TABLE - 1);
        put16(station + 4, table);
        memcpy(station + 8, keys[k], 16);
    }
}

int main(void) {
    double best = 1;
    for (int k = 0; k < STATIONS; k++) memset(keys[k], k + 1, 16);
    make_path();
    make_plan();
    for (int round = 0; round < ROUNDS; round++) {
        double start = seconds();
        ScionReply reply = scion_check_journey(path, PATH, plan, sizeof plan, 200, 300);
        double took = seconds() - start;
        if (reply.number != SCION_PASSED) {
            printf("not passed: %u\n", reply.number);
            return 1;
        }
        if (took < best) best = took;
    }
    printf("the journey check, 64 hops, 63 stations, 2048 records: %.0f us\n", best * 1e6);
    return 0;
}
