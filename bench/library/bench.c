/*
 * bench [RUNS]: nanoseconds a call of the library and of conventional functions, the best of RUNS
 * runs over 1,024 random inputs, of tagged values where it is an instruction. Both are called
 * through their object files, and must answer the same.
 */
#include "conventional.h"

#include <stdio.h>
#include <stdlib.h>
#include <string.h>
#include <time.h>

#define N 1024

static uint64_t state = 88172645463325252u;
static cheri_word words[N];
static cheri_range ranges[N];
static cheri_bounds out[N];
static cheri_cap caps[N];
static uint64_t addrs[N], near[N], lens[N];
/* Code and data, alike sealed; the aligned addresses in the bounds of caps, and what holds all memory. */
static cheri_cap codes[N], datas[N], pccs[N];
static uint64_t places[N];
/* Of caps: near addresses, lengths of parts and of exact parts, their words; and what sealed codes. */
static cheri_cap nears[N], sizes[N], exacts[N], bare[N], sealers[N];
static cheri_range everywhere = {0, ~UINT64_C(0)};
static volatile uint64_t sink;

static uint64_t random_number(void) {
    state ^= state << 13;
    state ^= state >> 7;
    state ^= state << 17;
    return state * UINT64_C(0x2545F4914F6CDD1D);
}

/* Of any size. */
static uint64_t random_size(void) { return random_number() >> (random_number() & 63); }

static void make_inputs(void) {
    for (int i = 0; i < N; i++) {
        words[i].upper = random_number();
        words[i].addr = random_number();
        near[i] = words[i].addr + random_size();
        ranges[i].base = random_number();
        ranges[i].len = random_size();
        do {
            cheri_cap at = cheri_caps_set_address(cheri_caps_root(CHERI_CAPS_ALL), random_number());
            caps[i] = cheri_caps_set_bounds(at, random_size() | 1);
        } while (!caps[i].tag);
        uint64_t inside = cheri_caps_read(caps[i]).len / 2;
        addrs[i] = cheri_caps_read(caps[i]).base + (inside ? random_number() % inside : 0);
        lens[i] = inside ? random_number() % inside : 0;
    }
}

static void make_jumps(void) {
    cheri_cap root = cheri_caps_root(CHERI_CAPS_ALL);
    cheri_cap plain = cheri_caps_root(CHERI_CAPS_ALL & ~CHERI_CAPS_EXECUTE);
    for (int i = 0; i < N; i++) {
        cheri_cap sealer = cheri_caps_set_address(root, random_number() % CHERI_CAPS_LAST_SEALABLE);
        cheri_cap at = cheri_caps_set_address(root, random_number() >> 1 & ~UINT64_C(0xffff));
        pccs[i] = cheri_caps_inc_offset(cheri_caps_set_bounds(at, random_size() % 0x100000 + 64), 16);
        codes[i] = cheri_caps_seal(pccs[i], sealer);
        sealers[i] = sealer;
        datas[i] = cheri_caps_seal(cheri_caps_set_address(plain, random_number()), sealer);
        do {
            caps[i] = cheri_caps_set_bounds(cheri_caps_set_address(root, random_number()), random_size() | 1024);
        } while (!caps[i].tag);
        cheri_parts parts = cheri_caps_read(caps[i]);
        places[i] = (parts.base + 31) & ~UINT64_C(15);
        uint64_t inside = random_number() % (parts.len ? parts.len : 1);
        bare[i] = cheri_caps_clear_tag(caps[i]);
        nears[i] = cheri_caps_of_integer(parts.base + inside / 2);
        uint64_t left = parts.base + parts.len - caps[i].addr;
        sizes[i] = cheri_caps_of_integer(left ? random_number() % left : 0);
        uint64_t exact = random_number() % 4096;
        exacts[i] = cheri_caps_of_integer(exact < left ? exact : 0);
    }
}

/* Whether the two tell reasons alike, and none for what keeps its tag. */
static int reasons_differ(void) {
    int differ = 0;
    for (int i = 0; i < N; i++) {
        cheri_cap others[] = {nears[i], sizes[i], exacts[i], sealers[i], caps[i ^ 1], bare[i]};
        for (unsigned op = 0; op <= CHERI_CAPS_OP_UNSEALED_BY_JUMP + 1; op++)
            for (int k = 0; k < 6; k++) {
                differ += cheri_caps_why(op, caps[i], others[k]) != conventional_why(op, caps[i], others[k]);
                differ += cheri_caps_why(op, codes[i], others[k]) != conventional_why(op, codes[i], others[k]);
            }
        differ += cheri_caps_why(CHERI_CAPS_OP_SET_ADDRESS, caps[i], nears[i]) != 0;
        differ += cheri_caps_why(CHERI_CAPS_OP_SET_BOUNDS, caps[i], sizes[i]) != 0;
        differ += cheri_caps_why(CHERI_CAPS_OP_SET_BOUNDS_EXACT, caps[i], exacts[i]) != 0;
        differ += cheri_caps_why(CHERI_CAPS_OP_SEAL, caps[i], sealers[i]) != 0;
        differ += cheri_caps_why(CHERI_CAPS_OP_UNSEAL, codes[i], sealers[i]) != 0;
        differ += cheri_caps_why(CHERI_CAPS_OP_BUILD, caps[i], bare[i]) != 0;
    }
    return differ;
}

static int checks_differ(void) {
#define DIFFERS(name, arguments)                                                                   \
    (cheri_caps_##name arguments.cause != conventional_##name arguments.cause ||                   \
     cheri_caps_##name arguments.cause != 0)
    int differ = 0;
    for (int i = 0; i < N; i++) {
        differ += DIFFERS(check_load, (caps[i], 1, places[i], 3, everywhere));
        differ += DIFFERS(check_store_cap, (caps[i], 1, places[i], caps[i ^ 1], everywhere));
        differ += DIFFERS(check_fetch, (pccs[i], everywhere));
        differ += DIFFERS(check_jump, (pccs[i], 1, 4));
        differ += DIFFERS(check_invoke, (codes[i], 1, datas[i], 2));
        cheri_jumped a = cheri_caps_jump(pccs[i], pccs[i ^ 1], 1, 4), b = conventional_jump(pccs[i], pccs[i ^ 1], 1, 4);
        cheri_jumped c = cheri_caps_invoke(codes[i], 1, datas[i], 2), d = conventional_invoke(codes[i], 1, datas[i], 2);
        differ += !cheri_caps_equal_exact(a.pcc, b.pcc) || !cheri_caps_equal_exact(a.left, b.left) || !a.pcc.tag;
        differ += !cheri_caps_equal_exact(c.pcc, d.pcc) || !cheri_caps_equal_exact(c.left, d.left) || !c.left.tag;
    }
    return differ;
}

static double now(void) {
    struct timespec time;
    clock_gettime(CLOCK_MONOTONIC, &time);
    return (double)time.tv_sec * 1e9 + (double)time.tv_nsec;
}

static uint64_t sum_bytes(const void *from, size_t bytes) {
    uint64_t sum = 0, part;
    if (bytes < 8) {
        part = 0;
        memcpy(&part, from, bytes);
        return part;
    }
    for (size_t i = 0; i + 8 <= bytes; i += 8) {
        memcpy(&part, (const char *)from + i, 8);
        sum ^= part;
    }
    return sum;
}

#define BEST(best, call)                                                                           \
    double best = 1e18;                                                                            \
    for (int run = 0; run < runs; run++) {                                                         \
        uint64_t sum = 0;                                                                          \
        double start = now();                                                                      \
        for (int i = 0; i < N; i++) {                                                              \
            __auto_type found = call;                                                              \
            sum += sum_bytes(&found, sizeof found);                                   \
        }                                                                                          \
        double taken = (now() - start) / N;                                                        \
        sink = sum;                                                                                \
        if (taken < best)                                                                          \
            best = taken;                                                                          \
    }

#define BOTH(name, arguments)                                                                      \
    do {                                                                                           \
        BEST(library, cheri_caps_##name arguments)                                                 \
        BEST(usual, conventional_##name arguments)                                                 \
        printf("%-22s %6.1f %6.1f %5.2f\n", #name, library, usual, library / usual);               \
    } while (0)

/* Why a result has no tag: of results that keep theirs, so that each condition is looked at. */
#define WHY(name, op, a, b)                                                                        \
    do {                                                                                           \
        BEST(library, cheri_caps_why(op, a, b))                                                    \
        BEST(usual, conventional_why(op, a, b))                                                    \
        printf("why %-18s %6.1f %6.1f %5.2f\n", name, library, usual, library / usual);            \
    } while (0)

#define ALONE(name, arguments)                                                                     \
    do {                                                                                           \
        BEST(library, cheri_caps_##name arguments)                                                 \
        printf("%-22s %6.1f\n", #name, library);                                                   \
    } while (0)

int main(int argc, char **argv) {
    int runs = argc > 1 ? atoi(argv[1]) : 4000;
    make_inputs();
    for (int i = 0; i < N; i++) {
        cheri_cap a = cheri_caps_set_bounds(caps[i], lens[i]), b = conventional_set_bounds(caps[i], lens[i]);
        cheri_cap c = cheri_caps_set_address(caps[i], addrs[i]), d = conventional_set_address(caps[i], addrs[i]);
        if (!cheri_caps_equal_exact(a, b) || !cheri_caps_equal_exact(c, d) || !a.tag || !c.tag) {
            printf("the two differ\n");
            return 1;
        }
    }
    printf("%-22s library  usual ratio\n", "ns a call");
    BOTH(bounds, (words[i].upper, words[i].addr));
    BOTH(is_representable, (words[i].upper, words[i].addr, near[i]));
    BOTH(round, (ranges[i].base, ranges[i].len));
    BOTH(representable_length, (ranges[i].len));
    BOTH(alignment_mask, (ranges[i].len));
    BOTH(set_address, (caps[i], addrs[i]));
    BOTH(set_bounds, (caps[i], lens[i]));
    BOTH(and_perms, (caps[i], lens[i]));
    ALONE(is_capability, (caps[i].upper, caps[i].addr));
    ALONE(read, (caps[i]));
    ALONE(seal, (caps[i], caps[i ^ 1]));
    ALONE(test_subset, (caps[i], caps[i ^ 1]));
    make_jumps();
    if (checks_differ()) {
        printf("the checks differ\n");
        return 1;
    }
    BOTH(check_load, (caps[i], 1, places[i], 3, everywhere));
    BOTH(check_store, (caps[i], 1, places[i], 3, everywhere));
    BOTH(check_load_cap, (caps[i], 1, places[i], everywhere));
    BOTH(check_store_cap, (caps[i], 1, places[i], caps[i ^ 1], everywhere));
    BOTH(check_swap, (caps[i], 1, places[i], caps[i ^ 1], everywhere));
    BOTH(check_fetch, (pccs[i], everywhere));
    BOTH(check_branch, (pccs[i], pccs[i].addr + 4));
    BOTH(check_jump, (pccs[i], 1, 4));
    BOTH(check_invoke, (codes[i], 1, datas[i], 2));
    BOTH(jump, (pccs[i], pccs[i ^ 1], 1, 4));
    BOTH(invoke, (codes[i], 1, datas[i], 2));
    if (reasons_differ()) {
        printf("the reasons differ\n");
        return 1;
    }
    WHY("move", CHERI_CAPS_OP_MOVE, caps[i], caps[i]);
    WHY("clear_tag", CHERI_CAPS_OP_CLEAR_TAG, caps[i], caps[i]);
    WHY("set_address", CHERI_CAPS_OP_SET_ADDRESS, caps[i], nears[i]);
    WHY("inc_offset", CHERI_CAPS_OP_INC_OFFSET, caps[i], exacts[i]);
    WHY("set_bounds", CHERI_CAPS_OP_SET_BOUNDS, caps[i], sizes[i]);
    WHY("set_bounds_exact", CHERI_CAPS_OP_SET_BOUNDS_EXACT, caps[i], exacts[i]);
    WHY("and_perms", CHERI_CAPS_OP_AND_PERMS, caps[i], caps[i]);
    WHY("set_flags", CHERI_CAPS_OP_SET_FLAGS, caps[i], caps[i]);
    WHY("set_high", CHERI_CAPS_OP_SET_HIGH, caps[i], caps[i]);
    WHY("seal", CHERI_CAPS_OP_SEAL, caps[i], sealers[i]);
    WHY("unseal", CHERI_CAPS_OP_UNSEAL, codes[i], sealers[i]);
    WHY("seal_entry", CHERI_CAPS_OP_SEAL_ENTRY, caps[i], caps[i]);
    WHY("build", CHERI_CAPS_OP_BUILD, caps[i], bare[i]);
    WHY("unsealed_by_jump", CHERI_CAPS_OP_UNSEALED_BY_JUMP, caps[i], caps[i]);
    double best = 1e18;
    for (int run = 0; run < runs; run++) {
        double start = now();
        cheri_caps_bounds_of(words, N, out, N);
        double taken = (now() - start) / N;
        if (taken < best)
            best = taken;
    }
    printf("%-22s %6.1f a place\n", "bounds_of", best);
    return 0;
}
