// Times the hop MAC of Rattle and of OpenSSL, in one run and on the same inputs.
//
// OpenSSL's side is its low-level AES, AES_set_encrypt_key and AES_encrypt, with no AES instructions. Seen of 3.0.19 on
// x86-64: both are assembly of integer instructions and lookups in tables, with no test of the processor, and their times
// do not change with OPENSSL_ia32cap=0:0, where that of EVP more than doubles.
// Each MAC goes into the next input and picks its key, so none is computed ahead or left out. Before anything is timed
// both sides compute every MAC of the timed run, and each pair is compared.
#define _POSIX_C_SOURCE 199309L
#define OPENSSL_SUPPRESS_DEPRECATED
#include <openssl/aes.h>
#include <openssl/crypto.h>
#include <openssl/evp.h>
#include <stdint.h>
#include <stdio.h>
#include <stdlib.h>
#include <string.h>
#include <time.h>

enum { STEPS = 10000, ROUNDS = 128, KEYS = 64 };

// crates/bench_mac
void bench_hop_mac(uint16_t segment_id, uint32_t timestamp, uint8_t exp_time, uint16_t cons_ingress, uint16_t cons_egress,
                   const uint8_t key[16], uint8_t mac[6]);
void bench_three_hop_macs(uint16_t first, uint16_t second, uint16_t third, uint32_t timestamp, uint8_t exp_time,
                          uint16_t cons_ingress, uint16_t cons_egress, const uint8_t key[16], uint8_t macs[3][6]);

typedef struct {
    uint16_t segment_ids[3];
    uint32_t timestamp;
    uint8_t exp_time;
    uint16_t cons_ingress;
    uint16_t cons_egress;
    const uint8_t *key;
} Input;

typedef void Macs(const Input *in, uint8_t macs[3][6]);

static uint8_t keys[KEYS][16];

static void fail(const char *why) {
    fprintf(stderr, "bench/mac.c: %s\n", why);
    exit(1);
}

static void rattle_one(const Input *in, uint8_t macs[3][6]) {
    bench_hop_mac(in->segment_ids[0], in->timestamp, in->exp_time, in->cons_ingress, in->cons_egress, in->key, macs[0]);
}

static void rattle_three(const Input *in, uint8_t macs[3][6]) {
    bench_three_hop_macs(in->segment_ids[0], in->segment_ids[1], in->segment_ids[2], in->timestamp, in->exp_time,
                         in->cons_ingress, in->cons_egress, in->key, macs);
}

// The MAC input, two halves of eight bytes.
static void mac_input(const Input *in, uint16_t segment_id, uint64_t half[2]) {
    half[0] = __builtin_bswap64((uint64_t)segment_id << 32 | in->timestamp);
    half[1] = __builtin_bswap64((uint64_t)in->exp_time << 48 | (uint64_t)in->cons_ingress << 32
                                | (uint64_t)in->cons_egress << 16);
}

// K1 from L, the cipher of the block of zeros.
static void subkey(const uint64_t l[2], uint64_t k1[2]) {
    uint64_t high = __builtin_bswap64(l[0]), low = __builtin_bswap64(l[1]);
    k1[0] = __builtin_bswap64(high << 1 | low >> 63);
    k1[1] = __builtin_bswap64(low << 1 ^ (0x87 & -(high >> 63)));
}

static inline void openssl_macs(const Input *in, uint8_t macs[3][6], int count) {
    AES_KEY schedule;
    uint64_t block[2] = {0, 0}, k1[2];
    AES_set_encrypt_key(in->key, 128, &schedule);
    AES_encrypt((uint8_t *)block, (uint8_t *)block, &schedule);
    subkey(block, k1);
    for (int i = 0; i < count; i++) {
        mac_input(in, in->segment_ids[i], block);
        block[0] ^= k1[0];
        block[1] ^= k1[1];
        AES_encrypt((uint8_t *)block, (uint8_t *)block, &schedule);
        memcpy(macs[i], block, 6);
    }
}

static void openssl_one(const Input *in, uint8_t macs[3][6]) {
    openssl_macs(in, macs, 1);
}

static void openssl_three(const Input *in, uint8_t macs[3][6]) {
    openssl_macs(in, macs, 3);
}

// By OpenSSL's EVP, which uses the processor's AES instructions where there are any. For information only.
static EVP_CIPHER_CTX *evp;

static void evp_encrypt(uint64_t block[2]) {
    int size;
    if (!EVP_EncryptUpdate(evp, (uint8_t *)block, &size, (uint8_t *)block, 16))
        fail("EVP refuses");
}

static void evp_one(const Input *in, uint8_t macs[3][6]) {
    uint64_t block[2] = {0, 0}, k1[2];
    if (!EVP_EncryptInit_ex(evp, NULL, NULL, in->key, NULL))
        fail("EVP refuses");
    evp_encrypt(block);
    subkey(block, k1);
    mac_input(in, in->segment_ids[0], block);
    block[0] ^= k1[0];
    block[1] ^= k1[1];
    evp_encrypt(block);
    memcpy(macs[0], block, 6);
}

static Input first_input(void) {
    Input in = {{0x1234, 0x5678, 0x9abc}, 0x65432100, 63, 17, 42, keys[0]};
    return in;
}

static inline void feed(Input *in, uint8_t macs[3][6], int count) {
    uint8_t last = 0;
    for (int i = 0; i < count; i++) {
        in->segment_ids[i] ^= (uint16_t)(macs[i][0] << 8 | macs[i][1]);
        last ^= macs[i][5];
    }
    in->timestamp += (uint32_t)(macs[0][2] << 8 | macs[0][3]);
    in->exp_time = macs[0][4];
    in->cons_ingress += macs[0][3];
    in->cons_egress ^= last;
    in->key = keys[last % KEYS];
}

static void compare(Macs *a, Macs *b, int count) {
    Input in = first_input();
    for (int i = 0; i < STEPS; i++) {
        uint8_t by_a[3][6] = {0}, by_b[3][6] = {0};
        a(&in, by_a);
        b(&in, by_b);
        if (memcmp(by_a, by_b, sizeof by_a) != 0)
            fail("the two sides give different MACs");
        feed(&in, by_a, count);
    }
}

static double now(void) {
    struct timespec t;
    if (clock_gettime(CLOCK_MONOTONIC, &t) != 0)
        fail("no clock");
    return t.tv_sec * 1e9 + t.tv_nsec;
}

typedef struct {
    Macs *macs;
    int count;
    double best;
    uint32_t end;
} Timed;

// Each round stands at another place of the stack, 64 bytes on. The copy of a constant onto the stack takes longer where
// the two lie next to each other modulo 4096 bytes, and the system picks the first place anew for each run.
static void measure(Timed *t, int round) {
    volatile uint8_t passed[1 + round * 64 % 4096];
    passed[0] = 0;
    (void)passed[0];
    Input in = first_input();
    uint8_t macs[3][6];
    double start = now();
    for (int i = 0; i < STEPS; i++) {
        t->macs(&in, macs);
        feed(&in, macs, t->count);
    }
    double each = (now() - start) / STEPS;
    if (t->best == 0 || each < t->best)
        t->best = each;
    t->end = in.timestamp;
}

static void row(const char *name, double rattle, double openssl) {
    printf("%-38s %8.1f %8.1f %8.2f\n", name, rattle, openssl, rattle / openssl);
}

int main(void) {
    for (int i = 0; i < KEYS * 16; i++)
        keys[i / 16][i % 16] = (uint8_t)(i * 167 + i / 16 * 29 + 5);
    evp = EVP_CIPHER_CTX_new();
    if (evp == NULL || !EVP_EncryptInit_ex(evp, EVP_aes_128_ecb(), NULL, keys[0], NULL) || !EVP_CIPHER_CTX_set_padding(evp, 0))
        fail("EVP refuses");

    compare(rattle_one, openssl_one, 1);
    compare(rattle_three, openssl_three, 3);
    compare(rattle_one, evp_one, 1);

    Timed rattle = {rattle_one, 1, 0, 0}, openssl = {openssl_one, 1, 0, 0}, by_evp = {evp_one, 1, 0, 0};
    Timed rattle3 = {rattle_three, 3, 0, 0}, openssl3 = {openssl_three, 3, 0, 0};
    for (int round = 0; round < ROUNDS; round++) {
        measure(&rattle, round);
        measure(&openssl, round);
        measure(&by_evp, round);
        measure(&rattle3, round);
        measure(&openssl3, round);
    }
    if (rattle.end != openssl.end || rattle.end != by_evp.end || rattle3.end != openssl3.end)
        fail("the timed runs end apart");

    printf("%s\n", OpenSSL_version(OPENSSL_VERSION));
    printf("the same MACs on both sides, on each of %d inputs; ns, best of %d rounds\n\n", STEPS, ROUNDS);
    printf("%-38s %8s %8s %8s\n", "", "Rattle", "OpenSSL", "ratio");
    row("a hop MAC (schedule, K1, one block)", rattle.best, openssl.best);
    row("three hop MACs under one schedule", rattle3.best, openssl3.best);
    printf("%-38s %8.2f %8.2f\n", "three under one schedule / one", rattle3.best / rattle.best, openssl3.best / openssl.best);
    printf("%-38s %8s %8.1f %8.2f\n", "a hop MAC by EVP, for information", "", by_evp.best, rattle.best / by_evp.best);
    return 0;
}
