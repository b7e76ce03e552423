/*
 * Compares the library with vectors of whole steps: steps FILE..
 *
 * Takes each row's step by calls of the library: the checks of the fetch and of what the instruction
 * does, its result where it makes a capability or reads one, and where it jumps. The format is that of
 * docs/FORMATS.md, "Test vectors of steps". Prints each difference and, last, the counts. Ends with 0
 * where no row differs and each file is whole.
 */
#include "cheri_caps.h"

#include <stdio.h>
#include <stdlib.h>
#include <string.h>

#define CODE_BASE 0x10000000u
#define RAM_BASE 0x80000000u

/* A row: what the step finds, and what it leaves. */
typedef struct row {
    char name[24];
    uint64_t cd, c1, c2, imm, code, granules;
    cheri_cap pcc, first, second;
    uint64_t outcome;
    cheri_trap trap;
    cheri_cap result, pcc_after;
} row;

/* What the library says of a step: the trap, whether it tells the result, and whether it jumps. */
typedef struct step {
    cheri_trap trap;
    bool has_result, jumps;
    cheri_cap result, pcc;
} step;

static bool is(const row *r, const char *name) { return strcmp(r->name, name) == 0; }

static const char *read_cap(const char *from, cheri_cap *cap) {
    char *next;
    cap->tag = strtoull(from, &next, 16) == 1;
    cap->upper = strtoull(next, &next, 16);
    cap->addr = strtoull(next, &next, 16);
    return next;
}

static bool read_row(const char *line, row *r) {
    int used = 0;
    char *next;
    if (sscanf(line, "step %*u %23s %n", r->name, &used) != 1)
        return false;
    uint64_t *operands[] = {&r->cd, &r->c1, &r->c2, &r->imm, &r->code, &r->granules};
    const char *from = line + used;
    for (size_t i = 0; i < 6; i++) {
        *operands[i] = strtoull(from, &next, 16);
        from = next;
    }
    from = read_cap(read_cap(read_cap(from, &r->pcc), &r->first), &r->second);
    strtoull(from, &next, 16); /* the granule's number and its value */
    cheri_cap granule;
    from = read_cap(next, &granule);
    r->outcome = strtoull(from, &next, 16);
    r->trap.cause = (uint8_t)strtoull(next, &next, 16);
    r->trap.reg = (uint8_t)strtoull(next, &next, 16);
    from = read_cap(read_cap(read_cap(next, &r->result), &r->pcc_after), &granule);
    return *from == 0;
}

/* The first check that fails of an access; 0 and 0 where the instruction is none. */
static cheri_trap access_trap(const row *r) {
    static const char *const loads[] = {"lb", "lh", "lw", "ld", "lbu", "lhu", "lwu"};
    static const char *const stores[] = {"sb", "sh", "sw", "sd"};
    cheri_range memory = {RAM_BASE, 16 * r->granules};
    uint64_t addr = r->first.addr + r->imm;
    uint8_t reg = (uint8_t)r->c1;
    for (uint8_t i = 0; i < 7; i++) /* its funct3 */
        if (is(r, loads[i]))
            return cheri_caps_check_load(r->first, reg, addr, i, memory);
    for (uint8_t i = 0; i < 4; i++)
        if (is(r, stores[i]))
            return cheri_caps_check_store(r->first, reg, addr, i, memory);
    if (is(r, "lc"))
        return cheri_caps_check_load_cap(r->first, reg, addr, memory);
    if (is(r, "sc"))
        return cheri_caps_check_store_cap(r->first, reg, addr, r->second, memory);
    if (is(r, "amoswap.c"))
        return cheri_caps_check_swap(r->first, reg, r->first.addr, r->second, memory);
    return (cheri_trap){0, 0};
}

static bool is_taken(const row *r) {
    uint64_t a = r->first.addr, b = r->second.addr;
    bool less = (a ^ UINT64_C(1) << 63) < (b ^ UINT64_C(1) << 63);
    return is(r, "cjal") || (is(r, "beq") && a == b) || (is(r, "bne") && a != b) || (is(r, "blt") && less) ||
           (is(r, "bge") && !less) || (is(r, "bltu") && a < b) || (is(r, "bgeu") && a >= b);
}

/* Jumps, by the functions that answer the whole jump and by those that check it alone. */
static bool take_jump(const row *r, step *s) {
    cheri_jumped jumped;
    cheri_trap trap;
    if (is(r, "cjalr")) {
        jumped = cheri_caps_jump(r->pcc, r->first, (uint8_t)r->c1, r->imm);
        trap = cheri_caps_check_jump(r->first, (uint8_t)r->c1, r->imm);
    } else if (is(r, "cinvoke")) {
        jumped = cheri_caps_invoke(r->first, (uint8_t)r->c1, r->second, (uint8_t)r->c2);
        trap = cheri_caps_check_invoke(r->first, (uint8_t)r->c1, r->second, (uint8_t)r->c2);
    } else if (is_taken(r)) {
        uint64_t target = CODE_BASE + 4 * r->imm;
        trap = jumped.trap = cheri_caps_check_branch(r->pcc, target);
        jumped.pcc = cheri_caps_set_address(r->pcc, target);
        jumped.left = is(r, "cjal") ? cheri_caps_seal_entry(cheri_caps_inc_offset(r->pcc, 4)) : r->result;
    } else {
        return false;
    }
    *s = (step){jumped.trap, true, true, jumped.left, jumped.pcc};
    return trap.cause == jumped.trap.cause && trap.reg == jumped.trap.reg;
}

/* Instructions on values. */
static bool take_value(const row *r, step *s) {
    cheri_cap v = r->first, w = r->second;
    s->has_result = true;
#define MAKES(word, made)                                                                          \
    if (is(r, word)) {                                                                             \
        s->result = made;                                                                          \
        return true;                                                                               \
    }
#define READS(word, number) MAKES(word, cheri_caps_of_integer(number))
    MAKES("cmove", v)
    MAKES("ccleartag", cheri_caps_clear_tag(v))
    MAKES("csetaddr", cheri_caps_set_address(v, w.addr))
    MAKES("cincoffset", cheri_caps_inc_offset(v, w.addr))
    MAKES("cincoffsetimm", cheri_caps_inc_offset(v, r->imm))
    MAKES("csetbounds", cheri_caps_set_bounds(v, w.addr))
    MAKES("csetboundsimm", cheri_caps_set_bounds(v, r->imm))
    MAKES("csetboundsexact", cheri_caps_set_bounds_exact(v, w.addr))
    MAKES("candperm", cheri_caps_and_perms(v, w.addr))
    MAKES("csetflags", cheri_caps_set_flags(v, w.addr))
    MAKES("csethigh", cheri_caps_set_high(v, w.addr))
    MAKES("cseal", cheri_caps_seal(v, w))
    MAKES("cunseal", cheri_caps_unseal(v, w))
    MAKES("csealentry", cheri_caps_seal_entry(v))
    MAKES("cbuildcap", cheri_caps_build(v, w))
    READS("ctestsubset", cheri_caps_test_subset(v, w))
    READS("csetequalexact", cheri_caps_equal_exact(v, w))
    READS("cgetperm", cheri_caps_read(v).perms)
    READS("cgettype", cheri_caps_read(v).otype)
    READS("cgetbase", cheri_caps_read(v).base)
    READS("cgetlen", cheri_caps_read(v).len)
    READS("cgettag", cheri_caps_read(v).tag)
    READS("cgetsealed", cheri_caps_read(v).sealed)
    READS("cgetoffset", cheri_caps_read(v).offset)
    READS("cgetflags", cheri_caps_read(v).flags)
    READS("crrl", cheri_caps_representable_length(v.addr))
    READS("cram", cheri_caps_alignment_mask(v.addr))
    s->has_result = false;
    return true;
}

static bool check_row(const row *r) {
    step s = {{0, 0}, false, false, {0, 0, false}, {0, 0, false}};
    cheri_range code = {CODE_BASE, 4 * r->code};
    s.trap = cheri_caps_check_fetch(r->pcc, code);
    if (s.trap.cause == 0) {
        s.trap = access_trap(r);
        if (s.trap.cause == 0 && !take_jump(r, &s) && (s.jumps || !take_value(r, &s)))
            return false;
    }
    if (s.trap.cause != r->trap.cause || s.trap.reg != r->trap.reg || (r->outcome == 2) != (s.trap.cause != 0))
        return false;
    if (r->outcome != 0) /* a step that ends otherwise leaves PCC */
        return cheri_caps_equal_exact(r->pcc_after, r->pcc);
    if (s.has_result && r->cd != 0 && !cheri_caps_equal_exact(s.result, r->result))
        return false;
    return cheri_caps_equal_exact(r->pcc_after, s.jumps ? s.pcc : cheri_caps_inc_offset(r->pcc, 4));
}

/* Counts the rows of a file and those that differ; -1 where the file is not whole. */
static long check_file(const char *name, long *rows) {
    FILE *file = fopen(name, "r");
    char line[1024];
    long announced = -1, count = 0, differ = 0;
    bool ended = false;
    if (file == NULL)
        return -1;
    if (fgets(line, sizeof line, file) == NULL || strcmp(line, "cheri-steps vectors 1\n") != 0) {
        fclose(file);
        return -1;
    }
    while (!ended && fgets(line, sizeof line, file) != NULL) {
        row found;
        line[strcspn(line, "\n")] = 0;
        if (line[0] == '#')
            continue;
        if (strcmp(line, "end") == 0) {
            ended = true;
        } else if (strncmp(line, "rows ", 5) == 0) {
            announced = strtol(line + 5, NULL, 10);
        } else {
            count++;
            if (!read_row(line, &found) || !check_row(&found)) {
                differ++;
                printf("%s: %s\n", name, line);
            }
        }
    }
    fclose(file);
    *rows += count;
    return ended && announced == count ? differ : -1;
}

int main(int argc, char **argv) {
    long rows = 0, differ = 0;
    for (int i = 1; i < argc; i++) {
        long found = check_file(argv[i], &rows);
        if (found < 0) {
            printf("%s: not a whole file of vectors\n", argv[i]);
            return 1;
        }
        differ += found;
    }
    printf("%ld rows, %ld differ\n", rows, differ);
    return rows > 0 && differ == 0 ? 0 : 1;
}
