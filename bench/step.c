// Times the step and its halves in both editions, in one process and on the same inputs: random paths that the call lets go on, each
// with a table of its own, each call with a copy of its path, the editions by turns, the best of many rounds. No path has P, so
// that the editions give the same answers.
#define _POSIX_C_SOURCE 199309L
#include "../c/scion_step.h"

#include <stdio.h>
#include <stdlib.h>
#include <string.h>
#include <time.h>

enum { CASES = 4096, ROUNDS = 200, NOW = 200, MADE = 100, MAX_TABLE = 25, MAX_PATH = 4 + 3 * 8 + 18 * 12 };

typedef enum { STEP, INGRESS, EGRESS } Call;

typedef struct {
    uint16_t ids[MAX_TABLE];
    uint8_t states[MAX_TABLE];
    size_t table;
    uint8_t path[MAX_PATH];
    size_t length;
    uint16_t interface;
} Case;

static const char *names[] = {"step", "ingress", "egress"};
static const uint8_t key[16] = {7};
static Case cases[CASES];

static double nanoseconds(void) {
    struct timespec at;
    clock_gettime(CLOCK_MONOTONIC, &at);
    return 1e9 * at.tv_sec + at.tv_nsec;
}

static unsigned below(unsigned bound) {
    static uint64_t state = 88172645463325252u;
    state ^= state << 13;
    state ^= state >> 7;
    state ^= state << 17;
    return state % bound;
}

static unsigned get16(const uint8_t *at) {
    return at[0] * 256u + at[1];
}

static void put16(uint8_t *at, unsigned value) {
    at[0] = value >> 8;
    at[1] = value & 255;
}

static ScionReply run(Call call, bool is_second, bool ignore_macs, const Case *at, uint8_t *path) {
    switch (call) {
    case STEP:
        return is_second ? scion_handle_standard_path_in_edition(true, at->ids, at->table, at->states, at->table, path, at->length,
                                                                 at->interface, NOW, key, ignore_macs)
                         : scion_handle_standard_path(at->ids, at->table, at->states, at->table, path, at->length,
                                                      at->interface, NOW, key, ignore_macs);
    case INGRESS:
        return is_second ? scion_standard_path_ingress_in_edition(true, at->ids, at->table, at->states, at->table, path, at->length,
                                                                  at->interface, NOW, key, ignore_macs)
                         : scion_standard_path_ingress(at->ids, at->table, at->states, at->table, path, at->length,
                                                       at->interface, NOW, key, ignore_macs);
    default:
        return is_second ? scion_standard_path_egress_in_edition(true, at->ids, at->table, at->states, at->table, path, at->length,
                                                                 at->interface, NOW, key, ignore_macs)
                         : scion_standard_path_egress(at->ids, at->table, at->states, at->table, path, at->length,
                                                      at->interface, NOW, key, ignore_macs);
    }
}

static void make_table(Case *at) {
    unsigned id = 0;
    at->table = 2 + below(MAX_TABLE - 1);
    for (size_t i = 0; i < at->table; i++) {
        id += 1 + below(5);
        at->ids[i] = id;
        at->states[i] = SCION_LINK_UP + below(4);
    }
}

static void make_mac(uint8_t *hop, unsigned segment_id) {
    scion_calculate_hop_mac(segment_id, MADE, hop[1], get16(hop + 2), get16(hop + 4), key, hop + 6);
}

// One to three segments of two to six hops, the current hop anywhere, its MAC right; at a segment's end the next one's too.
static void make_path(Case *at, Call call) {
    unsigned segments = 1 + below(3), lengths[3] = {0}, hops = 0, hop, segment = 0, end;
    for (unsigned s = 0; s < segments; s++) hops += lengths[s] = 2 + below(5);
    hop = below(hops);
    for (end = lengths[0]; end <= hop; end += lengths[++segment]) {}
    uint8_t *path = at->path, *infos = path + 4, *fields = infos + 8 * segments;
    at->length = 4 + 8 * segments + 12 * hops;
    path[0] = 64 * segment + hop;
    path[1] = lengths[0] / 16;
    path[2] = lengths[0] % 16 * 16 + lengths[1] / 4;
    path[3] = lengths[1] % 4 * 64 + lengths[2];
    for (unsigned s = 0; s < segments; s++) {
        infos[8 * s] = below(2);
        put16(infos + 8 * s + 2, below(65536));
        infos[8 * s + 7] = MADE;
    }
    for (unsigned h = 0; h < hops; h++) {
        fields[12 * h + 1] = 255;
        put16(fields + 12 * h + 2, at->ids[below(at->table)]);
        put16(fields + 12 * h + 4, at->ids[below(at->table)]);
        for (int k = 6; k < 12; k++) fields[12 * h + k] = below(256);
    }
    uint8_t *info = infos + 8 * segment, *field = fields + 12 * hop;
    bool forward = info[0] & 1;
    unsigned into = get16(field + (forward ? 2 : 4)), out = get16(field + (forward ? 4 : 2)), beta = get16(info + 2);
    at->interface = call == EGRESS ? out : below(8) ? into : 0;
    make_mac(field, beta);
    if (call != EGRESS && at->interface && !forward) put16(info + 2, beta ^ get16(field + 6));
    if (hop + 1 == end && segment + 1 < segments) make_mac(field + 12, get16(info + 10));
}

static void make_case(Case *at, Call call) {
    uint8_t path[MAX_PATH];
    do {
        memset(at, 0, sizeof *at);
        make_table(at);
        make_path(at, call);
        memcpy(path, at->path, at->length);
    } while (run(call, false, false, at, path).number != (call == INGRESS ? SCION_CONTINUE_EGRESS : SCION_FORWARD_NEXT_HOP));
}

static double round_of(Call call, bool is_second, bool ignore_macs) {
    double start = nanoseconds();
    unsigned sum = 0;
    for (int i = 0; i < CASES; i++) {
        uint8_t path[MAX_PATH];
        memcpy(path, cases[i].path, cases[i].length);
        sum += run(call, is_second, ignore_macs, &cases[i], path).number + path[0];
    }
    if (sum == 0) exit(1);
    return (nanoseconds() - start) / CASES;
}

int main(void) {
    for (Call call = STEP; call <= EGRESS; call++) {
        for (int i = 0; i < CASES; i++) make_case(&cases[i], call);
        for (int ignore_macs = 0; ignore_macs <= 1; ignore_macs++) {
            double best[2] = {1e9, 1e9};
            for (int round = 0; round < ROUNDS; round++) {
                for (int is_second = 0; is_second <= 1; is_second++) {
                    double took = round_of(call, is_second, ignore_macs);
                    if (took < best[is_second]) best[is_second] = took;
                }
            }
            printf("%s%s: first edition %.0f ns, second %.0f ns, ratio %.2f\n", names[call], ignore_macs ? ", MACs ignored" : "",
                   best[0], best[1], best[1] / best[0]);
        }
    }
    return 0;
}
