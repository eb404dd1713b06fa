/*
 * SCION's standard-path step for C (C99 on) and C++ (C++11 on) programs on x86-64 Linux.
 *
 * A call takes any bytes, any numbers and any lengths, and returns. What it promises is its contract in
 * crates/exports/src. Only the pointers are trusted:
 *
 * - A pointer is valid for the length that is passed with it, or for the array that is declared. Where the length is 0
 *   it may be null. A key or a MAC is never null.
 * - What a call writes (`path` where it is not const, `mac`) overlaps no other argument. Arguments that are only read
 *   may overlap one another.
 * - `ids` is aligned as a uint16_t is.
 *
 * A call is thread-safe: it has no state. It allocates nothing, makes no system call and leaves errno alone. Of the C
 * library it asks for memset alone, which gcc and clang ask of a freestanding environment too. So calls
 * may run on many threads at a time, and in signal handlers, as long as none writes what another one is given. A call
 * takes at most SCION_STEP_STACK bytes of stack.
 *
 * The calls are for rehearsal offline, not for live traffic:
 *
 * - AES goes by a table, so its time depends on key and data.
 * - Nothing is wiped: the key stays on the stack after a call.
 * - Plans hold keys: an itinerary has the key of each station. Keys appear in no reply and no message.
 * - SCION_INVALID_MAC_ERROR carries the right MAC. Whoever logs it or sends it back helps a forger.
 */
#ifndef SCION_STEP_H
#define SCION_STEP_H

#ifndef __cplusplus
#include <stdbool.h>
#endif
#include <stddef.h>
#include <stdint.h>

/* Arguments, counted from 1, that are never null. */
#ifdef __GNUC__
#define SCION_STEP_NONNULL(...) __attribute__((nonnull(__VA_ARGS__)))
#else
#define SCION_STEP_NONNULL(...)
#endif

/* A fact that the compiler checks; not in C99. */
#if defined(__cplusplus) || (defined(__STDC_VERSION__) && __STDC_VERSION__ >= 202311L)
#define SCION_STEP_FACT(fact) static_assert(fact, #fact);
#elif defined(__STDC_VERSION__) && __STDC_VERSION__ >= 201112L
#define SCION_STEP_FACT(fact) _Static_assert(fact, #fact);
#else
#define SCION_STEP_FACT(fact)
#endif

#ifdef __cplusplus
extern "C" {
#endif

/*
 * The version. Each change to a call or to what it answers raises it; a call that is added does not. The call's name
 * has the version, so a program that makes the call does not link with an archive of another version. It returns
 * SCION_STEP_VERSION.
 */
#define SCION_STEP_VERSION 2
uint32_t scion_step_version_2(void);

/* The most bytes of stack that a call takes. The whole step takes most: 2,568 when it was measured. */
#define SCION_STEP_STACK 4096

/* ---- what a call takes */

/* Sizes in bytes, and limits. A path is its meta header, then its info fields, then its hop fields. */
enum {
    SCION_META_BYTES = 4,
    SCION_INFO_BYTES = 8,
    SCION_HOP_BYTES = 12,
    SCION_MAX_INFOS = 3,
    SCION_MAX_HOPS = 64,
    SCION_MAX_PATH_BYTES = 796,  /* what lies behind a path is left alone */
    SCION_MAX_INTERFACES = 256,  /* in the table of an AS */
    SCION_RECORD_BYTES = 32,     /* of an itinerary */
    SCION_MAX_RECORDS = 2048,
    SCION_KEY_BYTES = 16,
    SCION_MAC_BYTES = 16,
    SCION_HOP_MAC_BYTES = 6
};

/* The state of an interface: the link behind it, and SCION_LINK_UP if it is up. */
enum {
    SCION_LINK_TO_CORE = 0,
    SCION_LINK_TO_PARENT = 1,
    SCION_LINK_TO_CHILD = 2,
    SCION_LINK_TO_PEER = 3,
    SCION_LINK_UP = 4
};

/* ---- what a call answers */

/* An answer. Compare its fields, and never two answers by memcmp: the padding between the fields is undefined. */
typedef struct {
    uint16_t number;       /* one of the numbers below */
    uint16_t count;        /* how many values it has */
    uint64_t values[4];    /* in the order that stands beside the number, 0 behind the last */
    uint8_t scmp_type;     /* of the SCMP error that goes back, 0 for none */
    uint8_t scmp_code;
    uint32_t scmp_pointer; /* 0, or for type 5 the interface */
} ScionReply;

SCION_STEP_FACT(sizeof(ScionReply) == 48)
SCION_STEP_FACT(offsetof(ScionReply, number) == 0)
SCION_STEP_FACT(offsetof(ScionReply, count) == 2)
SCION_STEP_FACT(offsetof(ScionReply, values) == 8)
SCION_STEP_FACT(offsetof(ScionReply, scmp_type) == 40)
SCION_STEP_FACT(offsetof(ScionReply, scmp_code) == 41)
SCION_STEP_FACT(offsetof(ScionReply, scmp_pointer) == 44)

/*
 * The numbers. Those below 100 refuse. More will be added, so a caller needs a default.
 *
 * Beside a number stand its values, and the code of its SCMP error if it has one. A hop is an index, from 0. C is 1 if
 * the hop's segment is travelled in construction direction, else 0. A MAC is a number, its first byte the highest.
 */
enum {
    SCION_UNSOUND_TABLE = 1,                 /* unlike lengths, over 256 entries, not ascending, or a state over 7 */
    SCION_META_TOO_SHORT = 2,                /* the path is shorter than its meta header */
    SCION_DATA_TOO_SHORT = 3,                /* the path is shorter than its segment lengths say */
    SCION_TOO_MANY_HOPS = 4,                 /* more than 64 */
    SCION_HOP_OUT_OF_BOUNDS = 5,             /* value: hop */
    SCION_SINGLE_HOP_SEGMENT = 6,
    SCION_INVALID_SEGMENT_INDEX = 7,         /* values: the segment of the current hop, the current info field */
    SCION_INFO_OUT_OF_BOUNDS = 8,            /* value: info field */
    SCION_INVALID_INGRESS_INTERFACE = 9,     /* values: hop, interfaces given and found, C; code 49 if C, else 50 */
    SCION_FUTURE_TIMESTAMP = 10,             /* value: hop; code 48 */
    SCION_SEGMENT_EXPIRED = 11,              /* value: hop; code 52 */
    SCION_INVALID_MAC_ERROR = 12,            /* values: hop, the right MAC, the MAC found; code 51 */
    SCION_INVALID_SCMP_ALERT = 13,           /* values: hop, C; code 0 */
    SCION_UNKNOWN_INGRESS_INTERFACE = 14,    /* values: hop, interface, C; code 49 if C, else 50 */
    SCION_UNKNOWN_EGRESS_INTERFACE = 15,     /* values: hop, interface, C; code 50 if C, else 49 */
    SCION_INVALID_SEGMENT_CHANGE = 16,       /* value: hop; code 53 */
    SCION_EGRESS_INTERFACE_DOWN = 17,        /* values: hop, interface; type 5 */
    SCION_SEGMENT_END = 18,                  /* the current hop is its segment's last: no packet leaves by it */
    SCION_INVALID_EGRESS_INTERFACE = 19,     /* values: hop, interfaces given and found, C; code 50 if C, else 49 */
    SCION_NO_SEGMENTS = 20,
    SCION_REVERSE_HOP_OUT_OF_BOUNDS = 21,
    SCION_REVERSE_INFO_OUT_OF_BOUNDS = 22,
    SCION_UNFIT_ITINERARY = 23,              /* unsound, not for this path, or `earliest` is later than `latest` */
    SCION_NOT_AT_START = 24,                 /* the path's current hop or info field is not its first */
    SCION_ALERT_SET = 25,                    /* on a hop field of the path */
    SCION_MISPLACED_PEERING = 28,            /* P on a path that is no peering path; in the second edition only */

    SCION_CONTINUE_EGRESS = 100,             /* value: the interface to leave by */
    SCION_FORWARD_NEXT_HOP = 101,            /* value: the interface to leave by */
    SCION_FORWARD_LOCAL = 102,
    SCION_INGRESS_SCMP_HANDLE_REQUEST = 103, /* value: the interface */
    SCION_EGRESS_SCMP_HANDLE_REQUEST = 104,  /* value: the interface */
    SCION_REVERSED = 110,
    SCION_EXPIRATION = 111,                  /* value: the time, 0 for a path without segments */
    SCION_SEGMENT_INDEX = 112,               /* values: the segment, whether the hop is its first, whether its last */
    SCION_PASSED = 120,
    SCION_NOT_PASSED = 121
};

/* Types of an SCMP error. */
enum {
    SCION_SCMP_PARAMETER_PROBLEM = 4,
    SCION_SCMP_EXTERNAL_INTERFACE_DOWN = 5
};

/* Codes of type 4; type 5 has code 0. */
enum {
    SCION_SCMP_ERRONEOUS_HEADER_FIELD = 0,
    SCION_SCMP_INVALID_PATH = 48,
    SCION_SCMP_UNKNOWN_HOP_FIELD_CONS_INGRESS_INTERFACE = 49,
    SCION_SCMP_UNKNOWN_HOP_FIELD_CONS_EGRESS_INTERFACE = 50,
    SCION_SCMP_INVALID_HOP_FIELD_MAC = 51,
    SCION_SCMP_PATH_EXPIRED = 52,
    SCION_SCMP_INVALID_SEGMENT_CHANGE = 53
};

/* ---- the step */

/*
 * The whole step, on `path` in place: 1 to 18, or 101 to 104. A path that is refused may be changed, too.
 *
 * `ids` are the numbers of the AS's interfaces, ascending; `states` has the state of each. The packet came in by
 * `ingress_interface_id`, 0 from a host of this AS. `time` is in seconds since 1970. `ignore_macs` drops 12.
 */
ScionReply scion_handle_standard_path(const uint16_t *ids, size_t ids_length,
                                      const uint8_t *states, size_t states_length,
                                      uint8_t *path, size_t path_length,
                                      uint16_t ingress_interface_id, uint32_t time,
                                      const uint8_t as_forwarding_key[SCION_KEY_BYTES], bool ignore_macs)
    SCION_STEP_NONNULL(9);

/* The ingress half alone: 1 to 16, 100, 102 or 103. */
ScionReply scion_standard_path_ingress(const uint16_t *ids, size_t ids_length,
                                       const uint8_t *states, size_t states_length,
                                       uint8_t *path, size_t path_length,
                                       uint16_t ingress_interface_id, uint32_t time,
                                       const uint8_t forwarding_key[SCION_KEY_BYTES], bool ignore_macs)
    SCION_STEP_NONNULL(9);

/* The egress half alone, leaving by `egress_if_id`: 1 to 5, 7, 8, 10 to 12, 18, 19, 101 or 104. */
ScionReply scion_standard_path_egress(const uint16_t *ids, size_t ids_length,
                                      const uint8_t *states, size_t states_length,
                                      uint8_t *path, size_t path_length,
                                      uint16_t egress_if_id, uint32_t time,
                                      const uint8_t forwarding_key[SCION_KEY_BYTES], bool ignore_macs)
    SCION_STEP_NONNULL(9);

/* ---- the path by itself */

/* Turns the path around, in place: 2 to 4, 20 to 22 or 110. */
ScionReply scion_try_reverse(uint8_t *path, size_t path_length);

/* When the path expires: 2 to 4 or 111. */
ScionReply scion_expiration(const uint8_t *path, size_t path_length);

/* The segment that a hop lies in: 2 to 5 or 112. */
ScionReply scion_calculate_segment_index(const uint8_t *path, size_t path_length, uint8_t hop_idx);

/* ---- the journey check */

/*
 * Whether the path travels over the itinerary's stations, whatever their clocks read from `earliest` to `latest`:
 * 2 to 4, 23 to 25, 120 or 121. Nothing is written.
 *
 * An itinerary is records, named by their index. Numbers are big-endian, and a byte that is not named here is 0.
 *
 *     record 0    0-1 the first station
 *     station     0-1 the next station, 2-3 the arrival interface, 4-5 its first interface record, 8-23 its key
 *     interface   0-1 the next interface record, 2-3 the number, 4 the state
 *
 * 0 stands for none. A next record has a higher index. The arrival interface is 0 at the first station only.
 */
ScionReply scion_check_journey(const uint8_t *path, size_t path_length,
                               const uint8_t *itinerary, size_t itinerary_length,
                               uint32_t earliest, uint32_t latest);

/* ---- the same in an edition */

/*
 * The step, its halves and the journey check by the edition of their rules: `is_second` false is the first, true the
 * second. The editions differ in P alone, the flag 2 in the first byte of an info field.
 *
 * In the first edition P has no meaning. The calls above are of this edition: each is its call here with false.
 *
 * The second edition has the peering rule of SCION's data plane draft. On a peering path just the first two lengths are
 * nonzero and both info fields have P. The last hop of its first segment and the first hop of its second are peering
 * hops, each in an AS of its own. A packet goes from one to the other over a peering link: there is no segment change.
 * The MACs of both are checked, but the MAC chain leaves them out. A segment may have one hop. On any other path with P
 * the step and its halves answer 28, unless one of 1 to 8 comes first.
 *
 * Where no info field of a path has P, both editions give the same answers and leave the same bytes.
 */

/* The whole step: 1 to 18, 28 if `is_second`, or 101 to 104. */
ScionReply scion_handle_standard_path_in_edition(bool is_second,
                                                 const uint16_t *ids, size_t ids_length,
                                                 const uint8_t *states, size_t states_length,
                                                 uint8_t *path, size_t path_length,
                                                 uint16_t ingress_interface_id, uint32_t time,
                                                 const uint8_t as_forwarding_key[SCION_KEY_BYTES], bool ignore_macs)
    SCION_STEP_NONNULL(10);

/* The ingress half alone: 1 to 16, 28 if `is_second`, 100, 102 or 103. */
ScionReply scion_standard_path_ingress_in_edition(bool is_second,
                                                  const uint16_t *ids, size_t ids_length,
                                                  const uint8_t *states, size_t states_length,
                                                  uint8_t *path, size_t path_length,
                                                  uint16_t ingress_interface_id, uint32_t time,
                                                  const uint8_t forwarding_key[SCION_KEY_BYTES], bool ignore_macs)
    SCION_STEP_NONNULL(10);

/* The egress half alone: 1 to 5, 7, 8, 10 to 12, 18, 19, 28 if `is_second`, 101 or 104. */
ScionReply scion_standard_path_egress_in_edition(bool is_second,
                                                 const uint16_t *ids, size_t ids_length,
                                                 const uint8_t *states, size_t states_length,
                                                 uint8_t *path, size_t path_length,
                                                 uint16_t egress_if_id, uint32_t time,
                                                 const uint8_t forwarding_key[SCION_KEY_BYTES], bool ignore_macs)
    SCION_STEP_NONNULL(10);

/*
 * The journey check: 2 to 4, 23 to 25, 120 or 121. In the second edition a peering path has as many stations as hops,
 * and any other path with P is not passed.
 */
ScionReply scion_check_journey_in_edition(bool is_second,
                                          const uint8_t *path, size_t path_length,
                                          const uint8_t *itinerary, size_t itinerary_length,
                                          uint32_t earliest, uint32_t latest);

/* ---- MACs */

/* AES-CMAC (RFC 4493) of a message of any length. */
void scion_aes_cmac(const uint8_t key[SCION_KEY_BYTES], const uint8_t *message, size_t message_length,
                    uint8_t mac[SCION_MAC_BYTES]) SCION_STEP_NONNULL(1, 4);

/* The hop MAC: the first six bytes of the AES-CMAC of SCION's MAC input. */
void scion_calculate_hop_mac(uint16_t segment_id, uint32_t timestamp, uint8_t exp_time, uint16_t cons_ingress,
                             uint16_t cons_egress, const uint8_t key[SCION_KEY_BYTES],
                             uint8_t mac[SCION_HOP_MAC_BYTES]) SCION_STEP_NONNULL(6, 7);

#ifdef __cplusplus
}
#endif

#undef SCION_STEP_NONNULL
#undef SCION_STEP_FACT

#endif
