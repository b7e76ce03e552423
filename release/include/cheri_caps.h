/*
 * cheri_caps: bounds, words and instructions of compressed CHERI capabilities.
 *
 * The format is CHERI Concentrate's of 128 bits for RV64, with the fields that docs/MODEL.md of this
 * project gives: a word in memory is its fields exclusive-or null's, so that null is all 0. A word
 * crosses as two halves, `addr` (bits 0 to 63, the address) and `upper` (bits 64 to 127), and a
 * top, which has 65 bits, as `top + top_high * 2^64`.
 *
 * Every function answers for all arguments, takes no memory, keeps no state and may be called from
 * any thread. What each answers is proved, by the contract of the Rattle function of its name in
 * crates/cheri_caps. Sources: "ISA" is the CHERI ISA, version 9, by its topics; "CC" is CHERI
 * Concentrate.
 */
#ifndef CHERI_CAPS_H
#define CHERI_CAPS_H

#include <stdbool.h>
#include <stddef.h>
#include <stdint.h>

#define CHERI_CAPS_VERSION 1

#ifdef __cplusplus
extern "C" {
#define CHERI_CAPS_SIZE(type, size) static_assert(sizeof(type) == (size), #type " has another size")
#else
#define CHERI_CAPS_SIZE(type, size) _Static_assert(sizeof(type) == (size), #type " has another size")
#endif

/*
 * A word and a tag. It means the tagged capability where `tag` is set and the word is that of a
 * lawful capability, else the untagged word. So a tag on a word that no capability has counts as
 * none, in every function. `tag` is 0 or 1, as C's bool is.
 */
typedef struct cheri_cap {
    uint64_t addr, upper;
    bool tag;
} cheri_cap;
CHERI_CAPS_SIZE(cheri_cap, 24);

/* A word. */
typedef struct cheri_word {
    uint64_t addr, upper;
} cheri_word;
CHERI_CAPS_SIZE(cheri_word, 16);

/* The `len` addresses from `base` on. */
typedef struct cheri_range {
    uint64_t base, len;
} cheri_range;
CHERI_CAPS_SIZE(cheri_range, 16);

/* Bounds: `base`, and `top + top_high * 2^64`, the first address above them. */
typedef struct cheri_bounds {
    uint64_t base, top, top_high;
} cheri_bounds;
CHERI_CAPS_SIZE(cheri_bounds, 24);

/* Fields of a word. */
typedef struct cheri_fields {
    uint32_t perms;   /* as CGetPerm shows them: bits 0 to 11, software bits 15 to 18 */
    uint32_t otype;   /* the object type, of 18 bits */
    uint8_t flag;     /* 0 or 1 */
    uint8_t reserved; /* two bits, which are 0 in each capability */
    uint8_t ie;       /* the internal exponent bit */
    uint8_t e;        /* the exponent that is used, 0 to 52: a greater one counts as 52 */
} cheri_fields;
CHERI_CAPS_SIZE(cheri_fields, 12);

/* The rounding of a range. */
typedef struct cheri_rounded {
    uint64_t base, top, top_high;
    uint16_t b, t; /* the fields B (14 bits) and T (12 bits) */
    uint8_t ie, e; /* the internal exponent bit and the exponent */
    bool exact;    /* whether the bounds are the range */
} cheri_rounded;
CHERI_CAPS_SIZE(cheri_rounded, 32);

/* What instructions read off a value. */
typedef struct cheri_parts {
    uint64_t base, top, top_high;
    uint64_t len;    /* CGetLen: top less base, at most 2^64 - 1 */
    uint64_t offset; /* CGetOffset: address less base, modulo 2^64 */
    uint64_t otype;  /* CGetType: above the sealable ones sign-extended, so unsealed is -1 */
    uint32_t perms;  /* CGetPerm */
    uint8_t flags;   /* CGetFlags: 0 or 1 */
    bool sealed;     /* CGetSealed: any type but unsealed */
    bool tag;        /* CGetTag: whether the tag is set and counts */
} cheri_parts;
CHERI_CAPS_SIZE(cheri_parts, 56);

/* What `cheri_caps_make` gives: a capability and status 0, or null and another status. */
typedef struct cheri_made {
    cheri_cap cap;
    uint8_t status;
} cheri_made;
CHERI_CAPS_SIZE(cheri_made, 32);

/* The first check that fails: the number of its cause, and the register that it speaks of, 32 for
   PCC. Both are 0 where no check fails. */
typedef struct cheri_trap {
    uint8_t cause, reg;
} cheri_trap;
CHERI_CAPS_SIZE(cheri_trap, 2);

/* A jump: what becomes of PCC, and what the jump leaves in a register; or null twice, and why it
   traps. */
typedef struct cheri_jumped {
    cheri_cap pcc, left;
    cheri_trap trap;
} cheri_jumped;
CHERI_CAPS_SIZE(cheri_jumped, 56);

/* The causes of traps. The numbers are this project's own. */
enum {
    CHERI_CAPS_TRAP_NONE = 0,
    CHERI_CAPS_TRAP_TAG = 1,         /* untagged */
    CHERI_CAPS_TRAP_SEAL = 2,        /* sealed, or of no type that can be invoked */
    CHERI_CAPS_TRAP_EXECUTE = 3,     /* without Execute, or with it where it may not be */
    CHERI_CAPS_TRAP_LOAD = 4,        /* without Load */
    CHERI_CAPS_TRAP_STORE = 5,       /* without Store */
    CHERI_CAPS_TRAP_STORE_CAP = 6,   /* without Store_Capability */
    CHERI_CAPS_TRAP_STORE_LOCAL = 7, /* without Store_Local_Capability */
    CHERI_CAPS_TRAP_LENGTH = 8,      /* the bytes are not in the bounds */
    CHERI_CAPS_TRAP_ALIGNMENT = 9,   /* the address is no multiple of the size */
    CHERI_CAPS_TRAP_PLACE = 10,      /* the bytes are not wholly in memory */
    CHERI_CAPS_TRAP_FETCH = 11,      /* the bytes are not wholly in the code */
    CHERI_CAPS_TRAP_TYPE = 12,       /* the object types of a pair differ */
    CHERI_CAPS_TRAP_CINVOKE = 13     /* without CInvoke */
};

/* The register number that means PCC. */
#define CHERI_CAPS_TRAP_PCC 32

/* The statuses of `cheri_caps_make`. */
enum {
    CHERI_CAPS_MADE = 0,
    CHERI_CAPS_PAST_END = 1,        /* base and length together exceed 2^64 */
    CHERI_CAPS_INEXACT = 2,         /* rounding would change a bound */
    CHERI_CAPS_UNREPRESENTABLE = 3, /* the bounds cannot have this address */
    CHERI_CAPS_RESERVED_TYPE = 4    /* the type is reserved, or none of 18 bits */
};

/* Permissions (ISA, "capability permissions"), as CGetPerm shows them. */
enum {
    CHERI_CAPS_GLOBAL = 1 << 0,
    CHERI_CAPS_EXECUTE = 1 << 1,
    CHERI_CAPS_LOAD = 1 << 2,
    CHERI_CAPS_STORE = 1 << 3,
    CHERI_CAPS_LOAD_CAP = 1 << 4,
    CHERI_CAPS_STORE_CAP = 1 << 5,
    CHERI_CAPS_STORE_LOCAL = 1 << 6,
    CHERI_CAPS_SEAL = 1 << 7,
    CHERI_CAPS_CINVOKE = 1 << 8,
    CHERI_CAPS_UNSEAL = 1 << 9,
    CHERI_CAPS_SYSREGS = 1 << 10,
    CHERI_CAPS_SET_CID = 1 << 11,
    CHERI_CAPS_SW0 = 1 << 15,
    CHERI_CAPS_SW1 = 1 << 16,
    CHERI_CAPS_SW2 = 1 << 17,
    CHERI_CAPS_SW3 = 1 << 18,
    CHERI_CAPS_ALL = 0x78FFF
};

/* Object types (ISA, "object types"). The two between the last sealable one and sentry are
   reserved. */
enum {
    CHERI_CAPS_LAST_SEALABLE = 0x3FFFB,
    CHERI_CAPS_SENTRY = 0x3FFFE,
    CHERI_CAPS_UNSEALED = 0x3FFFF
};

/*
 * Words, whether or not a capability has them (CC, "decoding of bounds"; ISA, "capability
 * encoding").
 */

/* The bounds that the word is read with. The top, below 2^65, may lie below the base where no
   instruction makes the word. */
cheri_bounds cheri_caps_bounds(uint64_t upper, uint64_t addr);

/* The fields of the word with this upper half. */
cheri_fields cheri_caps_fields(uint64_t upper);

/* Whether the bounds are the same at both addresses (CC, "representable region"). */
bool cheri_caps_is_representable(uint64_t upper, uint64_t addr, uint64_t new_addr);

/* Whether a tagged capability can have this word. */
bool cheri_caps_is_capability(uint64_t upper, uint64_t addr);

/*
 * Ranges (CC, "encoding of bounds"; ISA, CSetBounds).
 */

/* The least bounds that hold the `len` addresses from `base` on, the fields that encode them, and
   whether they are that range. The top has up to 66 bits where the range ends past 2^64. */
cheri_rounded cheri_caps_round(uint64_t base, uint64_t len);

/* The least length, from this one on, that bounds at an aligned base can have, modulo 2^64 (ISA,
   CRoundRepresentableLength). */
uint64_t cheri_caps_representable_length(uint64_t len);

/* The mask that aligns a base for that length (ISA, CRepresentableAlignmentMask). */
uint64_t cheri_caps_alignment_mask(uint64_t len);

/*
 * Values.
 */

/* Null: the untagged word 0. */
cheri_cap cheri_caps_null(void);

/* What a register holds to which this integer was written. */
cheri_cap cheri_caps_of_integer(uint64_t number);

/* The capability of the whole address space with these permissions, unsealed, at address 0. Bits
   that no permission has are dropped. */
cheri_cap cheri_caps_root(uint32_t perms);

/* The capability of just the `len + len_high * 2^64` addresses from `base` on, with flag 0 and
   these parts, or null and the first status that applies of 4, 1, 2, 3. Bits that no permission
   has are dropped. */
cheri_made cheri_caps_make(uint64_t base, uint64_t len, uint64_t len_high, uint64_t addr,
                           uint32_t perms, uint32_t otype);

/* What instructions read off a value, tagged or not. */
cheri_parts cheri_caps_read(cheri_cap cap);

/*
 * Instructions (ISA, "capability instructions"): a value in, a value out. A change that is not
 * allowed gives the edited word without a tag. A value is open where it is tagged and unsealed.
 */

/* CClearTag: the same word without a tag. */
cheri_cap cheri_caps_clear_tag(cheri_cap cap);

/* CSetAddr: another address. Tagged where `cap` is open and its bounds stay the same. */
cheri_cap cheri_caps_set_address(cheri_cap cap, uint64_t addr);

/* CIncOffset: the address raised by `offset`, modulo 2^64; the tag as above. */
cheri_cap cheri_caps_inc_offset(cheri_cap cap, uint64_t offset);

/* CSetBounds: the rounding of the `len` addresses from the address on. Tagged where `cap` is open
   and that range, before rounding, lies in its bounds. */
cheri_cap cheri_caps_set_bounds(cheri_cap cap, uint64_t len);

/* CSetBoundsExact: the same, and tagged only where nothing is rounded. */
cheri_cap cheri_caps_set_bounds_exact(cheri_cap cap, uint64_t len);

/* CAndPerm: the permissions that are also in `mask`. Tagged where `cap` is open. */
cheri_cap cheri_caps_and_perms(cheri_cap cap, uint64_t mask);

/* CSetFlags: the lowest bit of `flags` as the flag. Tagged where `cap` is open. */
cheri_cap cheri_caps_set_flags(cheri_cap cap, uint64_t flags);

/* CSetHigh: another upper half, never tagged. */
cheri_cap cheri_caps_set_high(cheri_cap cap, uint64_t upper);

/* CSeal: sealed with the authority's address as the type. Tagged where both are open, the
   authority has Seal and its address in its bounds, and that is a sealable type. */
cheri_cap cheri_caps_seal(cheri_cap cap, cheri_cap authority);

/* CUnseal: unsealed; Global stays only where both have it. Tagged where `cap` is tagged with a
   sealable type, and the authority is open, has Unseal and that type as its address, in its
   bounds. */
cheri_cap cheri_caps_unseal(cheri_cap cap, cheri_cap authority);

/* CSealEntry: sealed as a sentry. Tagged where `cap` is open and has Execute. */
cheri_cap cheri_caps_seal_entry(cheri_cap cap);

/* CBuildCap: the capability that the source's word says, unsealed. Tagged where the authority is
   open, the source's bounds and permissions lie in its own, and a capability can have these bounds
   and this address, with no reserved bit. Whether the source has a tag does not matter. */
cheri_cap cheri_caps_build(cheri_cap authority, cheri_cap source);

/* CTestSubset: whether the tags are equal, and the other's bounds and permissions lie in `cap`'s. */
bool cheri_caps_test_subset(cheri_cap cap, cheri_cap other);

/* CSetEqualExact: whether the tags and the words are equal. */
bool cheri_caps_equal_exact(cheri_cap cap, cheri_cap other);

/*
 * Checks (ISA, "capability exceptions", which leaves their order to the implementation): the first
 * that fails of a list in this machine's order. `reg` is the number of the register that holds the
 * capability, and comes back in the trap. Memory and code are the `len` addresses from `base` on;
 * the whole address space is more than a range can say. Nothing is read or written.
 */

/* A load of 2^log2_bytes bytes at `addr` through `auth`, by the lowest two bits of `log2_bytes`, so
   that a load's funct3 can be passed. In this order: TAG, SEAL, LOAD, LENGTH, ALIGNMENT, PLACE. */
cheri_trap cheri_caps_check_load(cheri_cap auth, uint8_t reg, uint64_t addr, uint8_t log2_bytes,
                                 cheri_range memory);

/* A store of as many bytes: TAG, SEAL, STORE, LENGTH, ALIGNMENT, PLACE. */
cheri_trap cheri_caps_check_store(cheri_cap auth, uint8_t reg, uint64_t addr, uint8_t log2_bytes,
                                  cheri_range memory);

/* A load of a capability, 16 bytes: TAG, SEAL, LOAD, LENGTH, ALIGNMENT, PLACE. Where it passes, and
   `auth` lacks Load_Capability, what is loaded loses its tag. */
cheri_trap cheri_caps_check_load_cap(cheri_cap auth, uint8_t reg, uint64_t addr,
                                     cheri_range memory);

/* A store of a capability: TAG, SEAL, STORE; STORE_CAP where `stored` is tagged; STORE_LOCAL where
   it is tagged and lacks Global; LENGTH, ALIGNMENT, PLACE. */
cheri_trap cheri_caps_check_store_cap(cheri_cap auth, uint8_t reg, uint64_t addr, cheri_cap stored,
                                      cheri_range memory);

/* A swap (AMOSWAP.C): TAG, SEAL, LOAD, then as a store of a capability from STORE on. */
cheri_trap cheri_caps_check_swap(cheri_cap auth, uint8_t reg, uint64_t addr, cheri_cap stored,
                                 cheri_range memory);

/* A fetch of the four bytes at PCC's address: TAG, SEAL, EXECUTE, LENGTH, ALIGNMENT, FETCH. */
cheri_trap cheri_caps_check_fetch(cheri_cap pcc, cheri_range code);

/* A taken branch, and CJAL: LENGTH, of the four bytes at the target. */
cheri_trap cheri_caps_check_branch(cheri_cap pcc, uint64_t target);

/* CJALR to the address of `through` and `offset`, modulo 2^64 and with bit 0 cleared: TAG; SEAL,
   which a sentry passes where `offset` is 0; EXECUTE, LENGTH, ALIGNMENT. */
cheri_trap cheri_caps_check_jump(cheri_cap through, uint8_t reg, uint64_t offset);

/* CInvoke of the sealed pair of `code`, in c1, and `data`, in c2: TAG of each, SEAL of each, TYPE,
   CINVOKE of each; EXECUTE of the code, which must have it, and of the data, which must not;
   LENGTH, ALIGNMENT. */
cheri_trap cheri_caps_check_invoke(cheri_cap code, uint8_t c1, cheri_cap data, uint8_t c2);

/* CJALR: `left` is what it leaves to come back by, the address after `pcc`'s sealed as a sentry. */
cheri_jumped cheri_caps_jump(cheri_cap pcc, cheri_cap through, uint8_t reg, uint64_t offset);

/* CInvoke: `left` is the unsealed data, which the machine leaves in c31. */
cheri_jumped cheri_caps_invoke(cheri_cap code, uint8_t c1, cheri_cap data, uint8_t c2);

/*
 * Why a result has no tag. For each instruction there is a list of conditions, in this project's
 * order (docs/MODEL.md, "reasons"); the first of them that holds is the reason.
 */

/* The instructions that make a capability. */
enum {
    CHERI_CAPS_OP_MOVE = 1,             /* CMove */
    CHERI_CAPS_OP_CLEAR_TAG = 2,        /* CClearTag */
    CHERI_CAPS_OP_SET_ADDRESS = 3,      /* CSetAddr */
    CHERI_CAPS_OP_INC_OFFSET = 4,       /* CIncOffset */
    CHERI_CAPS_OP_SET_BOUNDS = 5,       /* CSetBounds */
    CHERI_CAPS_OP_SET_BOUNDS_EXACT = 6, /* CSetBoundsExact */
    CHERI_CAPS_OP_AND_PERMS = 7,        /* CAndPerm */
    CHERI_CAPS_OP_SET_FLAGS = 8,        /* CSetFlags */
    CHERI_CAPS_OP_SET_HIGH = 9,         /* CSetHigh */
    CHERI_CAPS_OP_SEAL = 10,            /* CSeal */
    CHERI_CAPS_OP_UNSEAL = 11,          /* CUnseal */
    CHERI_CAPS_OP_SEAL_ENTRY = 12,      /* CSealEntry */
    CHERI_CAPS_OP_BUILD = 13,           /* CBuildCap */
    CHERI_CAPS_OP_UNSEALED_BY_JUMP = 14 /* what CJALR and CInvoke do to the values that they unseal */
};

/*
 * The reasons, each with its number, its name after CHERI_CAPS_WHY_, and its text. The source is
 * `a`, and the authority is `b`; under BUILD the source is the authority `a`, and the word is `b`.
 * NOT_ALIGNED is never the first: the bounds of a word are always aligned where they lie in those
 * of a capability.
 */
#define CHERI_CAPS_REASONS(REASON)                                                                 \
    REASON(0, NONE, "the result keeps its tag")                                                    \
    REASON(1, CLEARED, "the instruction clears the tag")                                           \
    REASON(2, UPPER_REPLACED, "the upper half is replaced")                                        \
    REASON(3, SOURCE_UNTAGGED, "the source is untagged")                                           \
    REASON(4, SOURCE_SEALED, "the source is sealed")                                               \
    REASON(5, SOURCE_UNSEALED, "the source is not sealed")                                         \
    REASON(6, SOURCE_SENTRY, "the source is a sentry")                                             \
    REASON(7, AUTHORITY_UNTAGGED, "the authority is untagged")                                     \
    REASON(8, AUTHORITY_SEALED, "the authority is sealed")                                         \
    REASON(9, NO_EXECUTE, "the source lacks Execute")                                              \
    REASON(10, NO_SEAL, "the authority lacks Seal")                                                \
    REASON(11, NO_UNSEAL, "the authority lacks Unseal")                                            \
    REASON(12, NOT_REPRESENTABLE, "the address is outside the representable region")               \
    REASON(13, BASE_BELOW, "the new base is below the source's")                                   \
    REASON(14, END_ABOVE, "the end of the requested range is above the source's top")              \
    REASON(15, TOP_ABOVE, "the new top is above the source's")                                     \
    REASON(16, ROUNDED, "the requested range is rounded")                                          \
    REASON(17, TYPE_OUTSIDE, "the object type is not in the authority's bounds")                   \
    REASON(18, TYPE_NOT_SEALABLE, "no capability can be sealed with the object type")              \
    REASON(19, TYPE_DIFFERS, "the authority's address is not the source's object type")            \
    REASON(20, RESERVED_BITS, "the word has a reserved bit")                                       \
    REASON(21, BASE_ABOVE_TOP, "the word's base is above its top")                                 \
    REASON(22, MORE_PERMISSIONS, "the word has a permission that the source lacks")                \
    REASON(23, NOT_ALIGNED, "the word's bounds are not aligned for their length")                  \
    REASON(255, NO_OPERATION, "no instruction has this number")

#define CHERI_CAPS_REASON_NAME(number, name, text) CHERI_CAPS_WHY_##name = number,
enum { CHERI_CAPS_REASONS(CHERI_CAPS_REASON_NAME) };
#undef CHERI_CAPS_REASON_NAME

/* The reason for which the result of the instruction with the number `op` has no tag, where c1 is
   `a` and c2 is `b`; 0 where it has one. An integer in c2, or an immediate in its place, is
   `cheri_caps_of_integer` of it. Instructions without a c2 leave `b` unread. */
uint8_t cheri_caps_why(uint8_t op, cheri_cap a, cheri_cap b);

/*
 * Arrays: they fill the first min(n, m) places of `out`, answer that count, and leave the rest.
 * Pointers aren't null, also for 0 places, and the arrays don't overlap; nothing checks that.
 */

/* `cheri_caps_bounds` of each word. */
size_t cheri_caps_bounds_of(const cheri_word *words, size_t n, cheri_bounds *out, size_t m);

/* `cheri_caps_round` of each range. */
size_t cheri_caps_round_of(const cheri_range *ranges, size_t n, cheri_rounded *out, size_t m);

/*
 * Helpers, which are not part of the library.
 */

/* The 16 bytes of a word in memory, least significant first, with a tag from elsewhere. */
static inline cheri_cap cheri_caps_load(const void *from, bool tag) {
    const unsigned char *bytes = (const unsigned char *)from;
    cheri_cap cap = {0, 0, tag};
    for (int i = 7; i >= 0; i--) {
        cap.addr = cap.addr << 8 | bytes[i];
        cap.upper = cap.upper << 8 | bytes[i + 8];
    }
    return cap;
}

/* Writes the 16 bytes of the word. The tag goes elsewhere. */
static inline void cheri_caps_store(void *to, cheri_cap cap) {
    unsigned char *bytes = (unsigned char *)to;
    for (int i = 0; i < 8; i++) {
        bytes[i] = (unsigned char)(cap.addr >> 8 * i);
        bytes[i + 8] = (unsigned char)(cap.upper >> 8 * i);
    }
}

/* The text of a reason. */
static inline const char *cheri_caps_why_text(uint8_t why) {
#define CHERI_CAPS_REASON_CASE(number, name, text) case number: return text;
    switch (why) {
        CHERI_CAPS_REASONS(CHERI_CAPS_REASON_CASE)
    }
#undef CHERI_CAPS_REASON_CASE
    return "no reason has this number";
}

#ifdef __SIZEOF_INT128__
__extension__ typedef unsigned __int128 cheri_caps_u128;

/* The word as one number. */
static inline cheri_caps_u128 cheri_caps_word(cheri_cap cap) {
    return (cheri_caps_u128)cap.upper << 64 | cap.addr;
}

/* The top as one number. */
static inline cheri_caps_u128 cheri_caps_top(cheri_bounds bounds) {
    return (cheri_caps_u128)bounds.top_high << 64 | bounds.top;
}
#endif

#undef CHERI_CAPS_SIZE

#ifdef __cplusplus
}
#endif

#endif
