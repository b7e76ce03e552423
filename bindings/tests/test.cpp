// Calls each function of the header once from C++, on worked examples. Prints the number of calls
// that answered otherwise; ends with 0 where it is 0.
#include "cheri_caps.h"

#include <cstdio>
#include <string>

static int differ = 0;

static void expect(bool holds, const char *what) {
    if (!holds) {
        differ++;
        std::printf("differs: %s\n", what);
    }
}

static bool is(const cheri_cap &cap, bool tag, uint64_t upper, uint64_t addr) {
    return cap.tag == tag && cap.upper == upper && cap.addr == addr;
}

int main() {
    // sixteen bytes from 0x80000000 on, with all permissions
    const uint64_t upper = 0xffff000004058004, addr = 0x80000000;
    const cheri_cap sixteen = {addr, upper, true};

    cheri_bounds bounds = cheri_caps_bounds(upper, addr);
    expect(bounds.base == addr && bounds.top == addr + 16 && bounds.top_high == 0, "bounds");
    cheri_fields fields = cheri_caps_fields(upper);
    expect(fields.perms == CHERI_CAPS_ALL && fields.otype == CHERI_CAPS_UNSEALED && fields.flag == 0 &&
               fields.reserved == 0 && fields.ie == 0 && fields.e == 0,
           "fields");
    expect(cheri_caps_is_representable(upper, addr, addr + 8), "is_representable");
    expect(cheri_caps_is_capability(upper, addr), "is_capability");

    cheri_rounded rounded = cheri_caps_round(1, 4096);
    expect(rounded.base == 0 && rounded.top == 0x1008 && rounded.top_high == 0 && rounded.b == 0 &&
               rounded.t == 8 && rounded.ie == 1 && rounded.e == 0 && !rounded.exact,
           "round");
    expect(cheri_caps_representable_length(8191) == 8192, "representable_length");
    expect(cheri_caps_alignment_mask(8191) == 0xfffffffffffffff0, "alignment_mask");

    expect(is(cheri_caps_null(), false, 0, 0), "null");
    expect(is(cheri_caps_of_integer(5), false, 0, 5), "of_integer");
    cheri_cap root = cheri_caps_root(0xffffffff);
    expect(is(root, true, 0xffff000000000000, 0), "root");
    cheri_made made = cheri_caps_make(addr, 16, 0, addr, CHERI_CAPS_ALL, CHERI_CAPS_UNSEALED);
    expect(made.status == CHERI_CAPS_MADE && is(made.cap, true, upper, addr), "make");
    made = cheri_caps_make(0, 0, 1, 0, 0xffffffff, CHERI_CAPS_UNSEALED);
    expect(made.status == CHERI_CAPS_MADE && cheri_caps_equal_exact(made.cap, root), "make the root");
    made = cheri_caps_make(1, 0, 1, 1, 0, CHERI_CAPS_UNSEALED);
    expect(made.status == CHERI_CAPS_PAST_END && is(made.cap, false, 0, 0), "make past the end");
    made = cheri_caps_make(1, 4096, 0, 1, 0, CHERI_CAPS_UNSEALED);
    expect(made.status == CHERI_CAPS_INEXACT, "make inexact");
    made = cheri_caps_make(addr, 16, 0, addr + 0x10000, 0, CHERI_CAPS_UNSEALED);
    expect(made.status == CHERI_CAPS_UNREPRESENTABLE, "make unrepresentable");
    made = cheri_caps_make(1, 0, 1, 1, 0, CHERI_CAPS_LAST_SEALABLE + 1);
    expect(made.status == CHERI_CAPS_RESERVED_TYPE, "make of a reserved type");
    made = cheri_caps_make(addr, 16, 0, addr, 0, 1 << 18);
    expect(made.status == CHERI_CAPS_RESERVED_TYPE, "make of a type of 19 bits");

    cheri_parts parts = cheri_caps_read(sixteen);
    expect(parts.base == addr && parts.top == addr + 16 && parts.top_high == 0 && parts.len == 16 &&
               parts.offset == 0 && parts.otype == 0xffffffffffffffff &&
               parts.perms == CHERI_CAPS_ALL && parts.flags == 0 && !parts.sealed && parts.tag,
           "read");

    expect(is(cheri_caps_clear_tag(sixteen), false, upper, addr), "clear_tag");
    expect(is(cheri_caps_set_address(sixteen, addr + 8), true, upper, addr + 8), "set_address");
    expect(is(cheri_caps_inc_offset(sixteen, ~UINT64_C(0)), true, upper, addr - 1), "inc_offset");
    cheri_cap wide = cheri_caps_set_address(root, 1);
    expect(cheri_caps_read(cheri_caps_set_bounds(wide, 4096)).top == 0x1008, "set_bounds");
    expect(!cheri_caps_set_bounds_exact(wide, 4096).tag, "set_bounds_exact");
    expect(cheri_caps_read(cheri_caps_and_perms(sixteen, CHERI_CAPS_LOAD)).perms == CHERI_CAPS_LOAD, "and_perms");
    expect(cheri_caps_read(cheri_caps_set_flags(sixteen, 3)).flags == 1, "set_flags");
    expect(is(cheri_caps_set_high(sixteen, 7), false, 7, addr), "set_high");
    cheri_cap authority = cheri_caps_set_address(root, 5);
    cheri_cap sealed = cheri_caps_seal(sixteen, authority);
    expect(sealed.tag && cheri_caps_read(sealed).otype == 5, "seal");
    expect(cheri_caps_equal_exact(cheri_caps_unseal(sealed, authority), sixteen), "unseal");
    expect(cheri_caps_read(cheri_caps_seal_entry(sixteen)).sealed, "seal_entry");
    expect(cheri_caps_equal_exact(cheri_caps_build(root, cheri_caps_clear_tag(sixteen)), sixteen), "build");
    expect(cheri_caps_test_subset(root, sixteen) && !cheri_caps_test_subset(sixteen, root), "test_subset");
    expect(!cheri_caps_equal_exact(sixteen, cheri_caps_clear_tag(sixteen)), "equal_exact");

    const cheri_range ram = {addr, 4096}, code = {0x10000000, 64};
    auto traps = [](cheri_trap trap, int cause, int reg) { return trap.cause == cause && trap.reg == reg; };
    expect(traps(cheri_caps_check_load(sixteen, 3, addr + 8, 3, ram), 0, 0), "check_load");
    expect(traps(cheri_caps_check_load(sixteen, 3, addr + 12, 3, ram), CHERI_CAPS_TRAP_LENGTH, 3), "check_load past the end");
    expect(traps(cheri_caps_check_store(root, 4, addr + 4096, 0, ram), CHERI_CAPS_TRAP_PLACE, 4), "check_store");
    expect(traps(cheri_caps_check_load_cap(root, 4, addr + 8, ram), CHERI_CAPS_TRAP_ALIGNMENT, 4), "check_load_cap");
    cheri_cap data_only = cheri_caps_and_perms(sixteen, CHERI_CAPS_LOAD | CHERI_CAPS_STORE);
    expect(traps(cheri_caps_check_store_cap(data_only, 5, addr, root, ram), CHERI_CAPS_TRAP_STORE_CAP, 5), "check_store_cap");
    expect(traps(cheri_caps_check_store_cap(data_only, 5, addr, cheri_caps_null(), ram), 0, 0), "check_store_cap of null");
    expect(traps(cheri_caps_check_swap(cheri_caps_and_perms(root, CHERI_CAPS_STORE), 6, addr, root, ram), CHERI_CAPS_TRAP_LOAD, 6), "check_swap");
    cheri_cap pcc = cheri_caps_set_bounds(cheri_caps_set_address(root, 0x10000000), 64);
    expect(traps(cheri_caps_check_fetch(pcc, code), 0, 0), "check_fetch");
    expect(traps(cheri_caps_check_fetch(cheri_caps_null(), code), CHERI_CAPS_TRAP_TAG, CHERI_CAPS_TRAP_PCC), "check_fetch of null");
    expect(traps(cheri_caps_check_branch(pcc, 0x10000040), CHERI_CAPS_TRAP_LENGTH, CHERI_CAPS_TRAP_PCC), "check_branch");
    cheri_cap entry = cheri_caps_seal_entry(cheri_caps_inc_offset(pcc, 8));
    expect(traps(cheri_caps_check_jump(entry, 7, 0), 0, 0), "check_jump");
    expect(traps(cheri_caps_check_jump(entry, 7, 4), CHERI_CAPS_TRAP_SEAL, 7), "check_jump of a sentry by an offset");
    cheri_jumped jumped = cheri_caps_jump(pcc, entry, 7, 0);
    expect(is(jumped.pcc, true, pcc.upper, 0x10000008) && jumped.left.addr == 0x10000004 &&
               cheri_caps_read(jumped.left).otype == UINT64_C(0xfffffffffffffffe) && traps(jumped.trap, 0, 0),
           "jump");
    cheri_cap sealed_code = cheri_caps_seal(pcc, authority);
    expect(traps(cheri_caps_check_invoke(sealed_code, 8, sealed, 9), CHERI_CAPS_TRAP_EXECUTE, 9), "check_invoke");
    cheri_cap sealed_data = cheri_caps_seal(cheri_caps_and_perms(sixteen, CHERI_CAPS_ALL & ~CHERI_CAPS_EXECUTE), authority);
    jumped = cheri_caps_invoke(sealed_code, 8, sealed_data, 9);
    expect(is(jumped.pcc, true, pcc.upper, 0x10000000) && jumped.left.tag && !cheri_caps_read(jumped.left).sealed, "invoke");
    jumped = cheri_caps_invoke(sealed_code, 8, sixteen, 9);
    expect(is(jumped.pcc, false, 0, 0) && is(jumped.left, false, 0, 0) && traps(jumped.trap, CHERI_CAPS_TRAP_SEAL, 9), "invoke of open data");

    expect(cheri_caps_why(CHERI_CAPS_OP_SET_BOUNDS, sixteen, cheri_caps_of_integer(16)) == CHERI_CAPS_WHY_NONE, "why of no reason");
    uint8_t why = cheri_caps_why(CHERI_CAPS_OP_SET_BOUNDS, sixteen, cheri_caps_of_integer(17));
    expect(why == CHERI_CAPS_WHY_END_ABOVE, "why");
    expect(std::string("the end of the requested range is above the source's top") == cheri_caps_why_text(why), "why_text");
    expect(cheri_caps_why(0, sixteen, sixteen) == CHERI_CAPS_WHY_NO_OPERATION, "why of no operation");

    const cheri_word words[] = {{addr, upper}, {0, 0}};
    cheri_bounds out[2];
    expect(cheri_caps_bounds_of(words, 2, out, 2) == 2 && out[0].top == addr + 16 && out[1].top_high == 1, "bounds_of");
    const cheri_range ranges[] = {{1, 4096}};
    cheri_rounded roundings[1];
    expect(cheri_caps_round_of(ranges, 1, roundings, 1) == 1 && roundings[0].top == 0x1008, "round_of");

    unsigned char memory[16];
    cheri_caps_store(memory, sixteen);
    expect(memory[0] == 0 && memory[3] == 0x80 && memory[8] == 0x04 && memory[15] == 0xff, "store");
    expect(cheri_caps_equal_exact(cheri_caps_load(memory, true), sixteen), "load");
#ifdef __SIZEOF_INT128__
    expect(cheri_caps_word(sixteen) >> 64 == upper && cheri_caps_top(out[1]) >> 64 == 1, "numbers of 128 bits");
#endif

    // a tag on a word that no capability has counts as none
    cheri_cap unlawful = {addr, upper ^ UINT64_C(1) << 46, true};
    expect(!cheri_caps_read(unlawful).tag && !cheri_caps_set_address(unlawful, addr).tag, "unlawful tag");

    std::printf("%d differ\n", differ);
    return differ == 0 ? 0 : 1;
}
