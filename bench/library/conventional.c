/*
 * Some functions of the library as they are usually written: fields by shifts and masks, and each
 * tag taken as it is.
 */
#include "conventional.h"

#define NULL_FIELDS 0x00001FFFFC018004u

typedef unsigned __int128 wide;

static inline wide decode(uint64_t upper, uint64_t addr, uint64_t *base_found) {
    uint64_t fields = upper ^ NULL_FIELDS;
    unsigned ie = fields >> 26 & 1, t = fields >> 14 & 0xfff, b = fields & 0x3fff, e = 0;
    if (ie) {
        e = (t & 7) << 3 | (b & 7);
        if (e > 52)
            e = 52;
        t &= ~7u;
        b &= ~7u;
    }
    unsigned carry = t < (b & 0xfff);
    t |= ((b >> 12) + carry + ie & 3) << 12;
    unsigned edge = (b >> 11) - 1 & 7;
    int addr_high = (addr >> e & 0x3fff) >> 11 < edge, base_high = b >> 11 < edge, top_high = t >> 11 < edge;
    unsigned shift = e + 14;
    uint64_t middle = shift < 64 ? addr >> shift : 0;
    wide base = ((wide)(int64_t)(middle + base_high - addr_high) << shift) + ((wide)b << e);
    wide top = ((wide)(int64_t)(middle + top_high - addr_high) << shift) + ((wide)t << e);
    top &= ((wide)1 << 65) - 1;
    if (e < 51 && ((unsigned)(top >> 63) - (unsigned)((uint64_t)base >> 63) & 3) > 1)
        top ^= (wide)1 << 64;
    *base_found = (uint64_t)base;
    return top;
}

cheri_bounds conventional_bounds(uint64_t upper, uint64_t addr) {
    cheri_bounds found;
    wide top = decode(upper, addr, &found.base);
    found.top = (uint64_t)top;
    found.top_high = (uint64_t)(top >> 64);
    return found;
}

bool conventional_is_representable(uint64_t upper, uint64_t addr, uint64_t new_addr) {
    uint64_t base, new_base;
    wide top = decode(upper, addr, &base), new_top = decode(upper, new_addr, &new_base);
    return base == new_base && top == new_top;
}

static inline cheri_rounded round_range(uint64_t base, uint64_t len) {
    cheri_rounded r;
    wide end = (wide)base + len;
    if (len < 1 << 12) {
        r.base = base, r.top = (uint64_t)end, r.top_high = (uint64_t)(end >> 64);
        r.b = base & 0x3fff, r.t = end & 0xfff, r.ie = 0, r.e = 0, r.exact = true;
        return r;
    }
    unsigned e = len >> 13 ? 64 - (unsigned)__builtin_clzll(len >> 13) : 0;
    uint64_t mask = (UINT64_C(1) << (e + 3)) - 1, low = base & ~mask;
    wide top = (end + mask) & ~(wide)mask;
    if ((top - low) >> (e + 13)) {
        e++;
        mask = mask << 1 | 1;
        low = base & ~mask;
        top = (end + mask) & ~(wide)mask;
    }
    r.base = low, r.top = (uint64_t)top, r.top_high = (uint64_t)(top >> 64);
    r.b = (low >> e & 0x3fff) | (e & 7), r.t = ((unsigned)(top >> e) & 0xfff) | e >> 3;
    r.ie = 1, r.e = e, r.exact = top - low == len;
    return r;
}

cheri_rounded conventional_round(uint64_t base, uint64_t len) { return round_range(base, len); }

uint64_t conventional_representable_length(uint64_t len) { return round_range(0, len).top; }

uint64_t conventional_alignment_mask(uint64_t len) {
    cheri_rounded r = round_range(0, len);
    return r.ie ? ~UINT64_C(0) << (r.e + 3) : ~UINT64_C(0);
}

static inline bool is_open(cheri_cap cap) {
    return cap.tag && ((cap.upper ^ NULL_FIELDS) >> 27 & 0x3ffff) == 0x3ffff;
}

cheri_cap conventional_set_address(cheri_cap cap, uint64_t addr) {
    cap.tag = is_open(cap) && conventional_is_representable(cap.upper, cap.addr, addr);
    cap.addr = addr;
    return cap;
}

cheri_cap conventional_set_bounds(cheri_cap cap, uint64_t len) {
    uint64_t base;
    wide top = decode(cap.upper, cap.addr, &base);
    cheri_rounded r = round_range(cap.addr, len);
    cap.tag = is_open(cap) && base <= cap.addr && (wide)cap.addr + len <= top;
    uint64_t fields = cap.upper ^ NULL_FIELDS;
    fields = fields >> 27 << 27 | (uint64_t)r.ie << 26 | (uint64_t)r.t << 14 | r.b;
    cap.upper = fields ^ NULL_FIELDS;
    return cap;
}

cheri_cap conventional_and_perms(cheri_cap cap, uint64_t mask) {
    uint64_t fields = cap.upper ^ NULL_FIELDS, kept = (mask & 0xfff) | (mask >> 15 & 0xf) << 12;
    cap.tag = is_open(cap);
    cap.upper = ((fields & 0xffffffffffff) | (fields >> 48 & kept) << 48) ^ NULL_FIELDS;
    return cap;
}

/*
 * Checks, which test a tag as the library does: it counts on the word of a capability alone.
 */

static inline uint64_t fields_of(cheri_cap cap) { return cap.upper ^ NULL_FIELDS; }

static inline unsigned type_of(cheri_cap cap) { return fields_of(cap) >> 27 & 0x3ffff; }

static inline bool has(cheri_cap cap, unsigned permission) { return fields_of(cap) >> (48 + permission) & 1; }

static inline bool counts(cheri_cap cap) {
    uint64_t fields = fields_of(cap), base;
    if (!cap.tag || fields >> 46 & 3)
        return false;
    unsigned type = fields >> 27 & 0x3ffff, ie = fields >> 26 & 1, e = 0, b = fields & 0x3fff;
    if (type == 0x3fffc || type == 0x3fffd)
        return false;
    if (ie) {
        e = (fields >> 14 & 7) << 3 | (b & 7);
        if (e > 52)
            return false;
        b &= ~7u;
    }
    wide top = decode(cap.upper, cap.addr, &base);
    return (base >> e & 0x3fff) == b && base <= top && top <= (wide)1 << 64;
}

static inline bool holds(cheri_cap cap, uint64_t from, unsigned bytes) {
    uint64_t base;
    wide top = decode(cap.upper, cap.addr, &base);
    return base <= from && (wide)from + bytes <= top;
}

static inline bool lies_in(cheri_range range, uint64_t from, unsigned bytes) {
    return range.base <= from && (wide)from + bytes <= (wide)range.base + range.len;
}

static inline cheri_trap trap(unsigned cause, unsigned reg) {
    return (cheri_trap){(uint8_t)cause, (uint8_t)reg};
}

static inline cheri_trap check_access(cheri_cap auth, uint8_t reg, uint64_t addr, unsigned bytes, bool loads,
                                      bool stores, const cheri_cap *stored, cheri_range memory) {
    if (!counts(auth))
        return trap(CHERI_CAPS_TRAP_TAG, reg);
    if (type_of(auth) != CHERI_CAPS_UNSEALED)
        return trap(CHERI_CAPS_TRAP_SEAL, reg);
    if (loads && !has(auth, 2))
        return trap(CHERI_CAPS_TRAP_LOAD, reg);
    if (stores && !has(auth, 3))
        return trap(CHERI_CAPS_TRAP_STORE, reg);
    if (stored && counts(*stored)) {
        if (!has(auth, 5))
            return trap(CHERI_CAPS_TRAP_STORE_CAP, reg);
        if (!has(*stored, 0) && !has(auth, 6))
            return trap(CHERI_CAPS_TRAP_STORE_LOCAL, reg);
    }
    if (!holds(auth, addr, bytes))
        return trap(CHERI_CAPS_TRAP_LENGTH, reg);
    if (addr & (bytes - 1))
        return trap(CHERI_CAPS_TRAP_ALIGNMENT, reg);
    if (!lies_in(memory, addr, bytes))
        return trap(CHERI_CAPS_TRAP_PLACE, reg);
    return trap(0, 0);
}

cheri_trap conventional_check_load(cheri_cap auth, uint8_t reg, uint64_t addr, uint8_t log2_bytes, cheri_range memory) {
    return check_access(auth, reg, addr, 1u << (log2_bytes & 3), true, false, NULL, memory);
}

cheri_trap conventional_check_store(cheri_cap auth, uint8_t reg, uint64_t addr, uint8_t log2_bytes, cheri_range memory) {
    return check_access(auth, reg, addr, 1u << (log2_bytes & 3), false, true, NULL, memory);
}

cheri_trap conventional_check_load_cap(cheri_cap auth, uint8_t reg, uint64_t addr, cheri_range memory) {
    return check_access(auth, reg, addr, 16, true, false, NULL, memory);
}

cheri_trap conventional_check_store_cap(cheri_cap auth, uint8_t reg, uint64_t addr, cheri_cap stored, cheri_range memory) {
    return check_access(auth, reg, addr, 16, false, true, &stored, memory);
}

cheri_trap conventional_check_swap(cheri_cap auth, uint8_t reg, uint64_t addr, cheri_cap stored, cheri_range memory) {
    return check_access(auth, reg, addr, 16, true, true, &stored, memory);
}

cheri_trap conventional_check_fetch(cheri_cap pcc, cheri_range code) {
    if (!counts(pcc))
        return trap(CHERI_CAPS_TRAP_TAG, CHERI_CAPS_TRAP_PCC);
    if (type_of(pcc) != CHERI_CAPS_UNSEALED)
        return trap(CHERI_CAPS_TRAP_SEAL, CHERI_CAPS_TRAP_PCC);
    if (!has(pcc, 1))
        return trap(CHERI_CAPS_TRAP_EXECUTE, CHERI_CAPS_TRAP_PCC);
    if (!holds(pcc, pcc.addr, 4))
        return trap(CHERI_CAPS_TRAP_LENGTH, CHERI_CAPS_TRAP_PCC);
    if (pcc.addr & 3)
        return trap(CHERI_CAPS_TRAP_ALIGNMENT, CHERI_CAPS_TRAP_PCC);
    return lies_in(code, pcc.addr, 4) ? trap(0, 0) : trap(CHERI_CAPS_TRAP_FETCH, CHERI_CAPS_TRAP_PCC);
}

cheri_trap conventional_check_branch(cheri_cap pcc, uint64_t target) {
    return holds(pcc, target, 4) ? trap(0, 0) : trap(CHERI_CAPS_TRAP_LENGTH, CHERI_CAPS_TRAP_PCC);
}

static inline cheri_trap check_jump(cheri_cap through, uint8_t reg, uint64_t offset) {
    uint64_t target = (through.addr + offset) & ~UINT64_C(1);
    if (!counts(through))
        return trap(CHERI_CAPS_TRAP_TAG, reg);
    if (type_of(through) != CHERI_CAPS_UNSEALED && !(type_of(through) == CHERI_CAPS_SENTRY && offset == 0))
        return trap(CHERI_CAPS_TRAP_SEAL, reg);
    if (!has(through, 1))
        return trap(CHERI_CAPS_TRAP_EXECUTE, reg);
    if (!holds(through, target, 4))
        return trap(CHERI_CAPS_TRAP_LENGTH, reg);
    return target & 3 ? trap(CHERI_CAPS_TRAP_ALIGNMENT, reg) : trap(0, 0);
}

cheri_trap conventional_check_jump(cheri_cap through, uint8_t reg, uint64_t offset) {
    return check_jump(through, reg, offset);
}

static inline cheri_trap check_invoke(cheri_cap code, uint8_t c1, cheri_cap data, uint8_t c2) {
    uint64_t target = code.addr & ~UINT64_C(1);
    if (!counts(code))
        return trap(CHERI_CAPS_TRAP_TAG, c1);
    if (!counts(data))
        return trap(CHERI_CAPS_TRAP_TAG, c2);
    if (type_of(code) > CHERI_CAPS_LAST_SEALABLE)
        return trap(CHERI_CAPS_TRAP_SEAL, c1);
    if (type_of(data) > CHERI_CAPS_LAST_SEALABLE)
        return trap(CHERI_CAPS_TRAP_SEAL, c2);
    if (type_of(code) != type_of(data))
        return trap(CHERI_CAPS_TRAP_TYPE, c1);
    if (!has(code, 8))
        return trap(CHERI_CAPS_TRAP_CINVOKE, c1);
    if (!has(data, 8))
        return trap(CHERI_CAPS_TRAP_CINVOKE, c2);
    if (!has(code, 1))
        return trap(CHERI_CAPS_TRAP_EXECUTE, c1);
    if (has(data, 1))
        return trap(CHERI_CAPS_TRAP_EXECUTE, c2);
    if (!holds(code, target, 4))
        return trap(CHERI_CAPS_TRAP_LENGTH, c1);
    return target & 3 ? trap(CHERI_CAPS_TRAP_ALIGNMENT, c1) : trap(0, 0);
}

cheri_trap conventional_check_invoke(cheri_cap code, uint8_t c1, cheri_cap data, uint8_t c2) {
    return check_invoke(code, c1, data, c2);
}

/* Unsealed, at an address that the checks have found in its bounds. */
static inline cheri_cap entered(cheri_cap cap, uint64_t addr) {
    cap.upper = (fields_of(cap) | (uint64_t)CHERI_CAPS_UNSEALED << 27) ^ NULL_FIELDS;
    cap.addr = addr;
    return cap;
}

cheri_jumped conventional_jump(cheri_cap pcc, cheri_cap through, uint8_t reg, uint64_t offset) {
    cheri_jumped jumped = {{0, 0, false}, {0, 0, false}, check_jump(through, reg, offset)};
    if (jumped.trap.cause)
        return jumped;
    jumped.pcc = entered(through, (through.addr + offset) & ~UINT64_C(1));
    jumped.left = pcc;
    jumped.left.tag = counts(pcc) && type_of(pcc) == CHERI_CAPS_UNSEALED && has(pcc, 1) &&
                      conventional_is_representable(pcc.upper, pcc.addr, pcc.addr + 4);
    jumped.left.addr += 4;
    uint64_t fields = fields_of(pcc) & ~(UINT64_C(0x3ffff) << 27);
    jumped.left.upper = (fields | (uint64_t)CHERI_CAPS_SENTRY << 27) ^ NULL_FIELDS;
    return jumped;
}

cheri_jumped conventional_invoke(cheri_cap code, uint8_t c1, cheri_cap data, uint8_t c2) {
    cheri_jumped jumped = {{0, 0, false}, {0, 0, false}, check_invoke(code, c1, data, c2)};
    if (jumped.trap.cause)
        return jumped;
    jumped.pcc = entered(code, code.addr & ~UINT64_C(1));
    jumped.left = entered(data, data.addr);
    return jumped;
}

/*
 * Why a result has no tag.
 */

static inline bool is_sealed(cheri_cap cap) { return type_of(cap) != CHERI_CAPS_UNSEALED; }

static inline unsigned perms_of(cheri_cap cap) { return (unsigned)(fields_of(cap) >> 48); }

static inline uint8_t open_reason(cheri_cap cap) {
    if (!counts(cap))
        return CHERI_CAPS_WHY_SOURCE_UNTAGGED;
    return is_sealed(cap) ? CHERI_CAPS_WHY_SOURCE_SEALED : 0;
}

static inline uint8_t address_reason(cheri_cap cap, uint64_t addr) {
    uint8_t why = open_reason(cap);
    if (why)
        return why;
    return conventional_is_representable(cap.upper, cap.addr, addr) ? 0 : CHERI_CAPS_WHY_NOT_REPRESENTABLE;
}

static inline uint8_t bounds_reason(cheri_cap cap, uint64_t len, bool exact) {
    uint8_t why = open_reason(cap);
    if (why)
        return why;
    uint64_t base;
    wide top = decode(cap.upper, cap.addr, &base);
    if (cap.addr < base)
        return CHERI_CAPS_WHY_BASE_BELOW;
    if ((wide)cap.addr + len > top)
        return CHERI_CAPS_WHY_END_ABOVE;
    return exact && !round_range(cap.addr, len).exact ? CHERI_CAPS_WHY_ROUNDED : 0;
}

static inline uint8_t authority_reason(cheri_cap authority, unsigned permission, uint8_t lacks) {
    if (!counts(authority))
        return CHERI_CAPS_WHY_AUTHORITY_UNTAGGED;
    if (is_sealed(authority))
        return CHERI_CAPS_WHY_AUTHORITY_SEALED;
    if (!has(authority, permission))
        return lacks;
    return holds(authority, authority.addr, 1) ? 0 : CHERI_CAPS_WHY_TYPE_OUTSIDE;
}

static inline uint8_t seal_reason(cheri_cap cap, cheri_cap authority) {
    uint8_t why = open_reason(cap);
    if (!why)
        why = authority_reason(authority, 7, CHERI_CAPS_WHY_NO_SEAL);
    if (why)
        return why;
    return authority.addr > CHERI_CAPS_LAST_SEALABLE ? CHERI_CAPS_WHY_TYPE_NOT_SEALABLE : 0;
}

static inline uint8_t unseal_reason(cheri_cap cap, cheri_cap authority) {
    if (!counts(cap))
        return CHERI_CAPS_WHY_SOURCE_UNTAGGED;
    if (!is_sealed(cap))
        return CHERI_CAPS_WHY_SOURCE_UNSEALED;
    if (type_of(cap) == CHERI_CAPS_SENTRY)
        return CHERI_CAPS_WHY_SOURCE_SENTRY;
    uint8_t why = authority_reason(authority, 9, CHERI_CAPS_WHY_NO_UNSEAL);
    if (why)
        return why;
    return authority.addr != type_of(cap) ? CHERI_CAPS_WHY_TYPE_DIFFERS : 0;
}

static inline uint8_t build_reason(cheri_cap cap, cheri_cap word) {
    uint8_t why = open_reason(cap);
    if (why)
        return why;
    if (fields_of(word) >> 46 & 3)
        return CHERI_CAPS_WHY_RESERVED_BITS;
    uint64_t limit_base, base;
    wide limit_top = decode(cap.upper, cap.addr, &limit_base), top = decode(word.upper, word.addr, &base);
    if (base < limit_base)
        return CHERI_CAPS_WHY_BASE_BELOW;
    if (top > limit_top)
        return CHERI_CAPS_WHY_TOP_ABOVE;
    if (top < base)
        return CHERI_CAPS_WHY_BASE_ABOVE_TOP;
    if (perms_of(word) & ~perms_of(cap))
        return CHERI_CAPS_WHY_MORE_PERMISSIONS;
    /* the region that the bounds' own exponent gives */
    wide len = top - base;
    unsigned e = len >> 13 ? 64 - (unsigned)__builtin_clzll((uint64_t)(len >> 13)) : 0;
    uint64_t start = ((base >> (e + 11)) - 1) << (e + 11);
    return e >= 50 || word.addr - start < UINT64_C(1) << (e + 14) ? 0 : CHERI_CAPS_WHY_NOT_REPRESENTABLE;
}

uint8_t conventional_why(uint8_t op, cheri_cap a, cheri_cap b) {
    switch (op) {
    case CHERI_CAPS_OP_MOVE:
    case CHERI_CAPS_OP_UNSEALED_BY_JUMP: return counts(a) ? 0 : CHERI_CAPS_WHY_SOURCE_UNTAGGED;
    case CHERI_CAPS_OP_CLEAR_TAG: return CHERI_CAPS_WHY_CLEARED;
    case CHERI_CAPS_OP_SET_ADDRESS: return address_reason(a, b.addr);
    case CHERI_CAPS_OP_INC_OFFSET: return address_reason(a, a.addr + b.addr);
    case CHERI_CAPS_OP_SET_BOUNDS: return bounds_reason(a, b.addr, false);
    case CHERI_CAPS_OP_SET_BOUNDS_EXACT: return bounds_reason(a, b.addr, true);
    case CHERI_CAPS_OP_AND_PERMS:
    case CHERI_CAPS_OP_SET_FLAGS: return open_reason(a);
    case CHERI_CAPS_OP_SET_HIGH: return CHERI_CAPS_WHY_UPPER_REPLACED;
    case CHERI_CAPS_OP_SEAL: return seal_reason(a, b);
    case CHERI_CAPS_OP_UNSEAL: return unseal_reason(a, b);
    case CHERI_CAPS_OP_SEAL_ENTRY: {
        uint8_t why = open_reason(a);
        return why ? why : has(a, 1) ? 0 : CHERI_CAPS_WHY_NO_EXECUTE;
    }
    case CHERI_CAPS_OP_BUILD: return build_reason(a, b);
    default: return CHERI_CAPS_WHY_NO_OPERATION;
    }
}
