/*
 * Compares the library with rows of test vectors: test FILE..
 *
 * Each row says what a function answers; the format is that of docs/FORMATS.md, "Test vectors", and
 * that of rows of reasons, which is told there too.
 * Prints each difference and, last, the counts. Ends with 0 where no row differs and each file is
 * whole.
 */
#include "cheri_caps.h"

#include <stdio.h>
#include <stdlib.h>
#include <string.h>

#define MOST_FIELDS 16
#define MOST_ROWS 65536

/* A number of up to 128 bits: tops have 66. */
typedef struct wide {
    uint64_t low, high;
} wide;

/* The words and the ranges of all rows with what was expected, to be asked for once more as arrays. */
static cheri_word words[MOST_ROWS];
static cheri_bounds word_bounds[MOST_ROWS], found_bounds[MOST_ROWS];
static size_t word_count;
static cheri_range ranges[MOST_ROWS];
static cheri_rounded range_roundings[MOST_ROWS], found_roundings[MOST_ROWS];
static size_t range_count;

static bool read_number(const char *text, wide *number) {
    number->low = number->high = 0;
    size_t digits = strlen(text);
    if (digits == 0 || digits > 32 || strspn(text, "0123456789abcdef") != digits)
        return false;
    for (size_t i = 0; i < digits; i++) {
        unsigned digit = text[i] <= '9' ? (unsigned)(text[i] - '0') : (unsigned)(text[i] - 'a' + 10);
        number->high = number->high << 4 | number->low >> 60;
        number->low = number->low << 4 | digit;
    }
    return true;
}

static bool same_bounds(cheri_bounds a, cheri_bounds b) {
    return a.base == b.base && a.top == b.top && a.top_high == b.top_high;
}

static bool same_rounding(cheri_rounded a, cheri_rounded b) {
    return a.base == b.base && a.top == b.top && a.top_high == b.top_high && a.b == b.b &&
           a.t == b.t && a.ie == b.ie && a.e == b.e && a.exact == b.exact;
}

static bool same_cap(cheri_cap a, cheri_cap b) {
    return a.addr == b.addr && a.upper == b.upper && a.tag == b.tag;
}

/* word: upper addr base top perms type flag reserved ie e capability */
static bool check_word(const wide *f) {
    uint64_t upper = f[0].low, addr = f[1].low;
    cheri_bounds expected = {f[2].low, f[3].low, f[3].high};
    cheri_fields fields = cheri_caps_fields(upper);
    if (word_count < MOST_ROWS) {
        words[word_count].upper = upper;
        words[word_count].addr = addr;
        word_bounds[word_count++] = expected;
    }
    return same_bounds(cheri_caps_bounds(upper, addr), expected) && fields.perms == f[4].low &&
           fields.otype == f[5].low && fields.flag == f[6].low && fields.reserved == f[7].low &&
           fields.ie == f[8].low && fields.e == f[9].low &&
           cheri_caps_is_capability(upper, addr) == (f[10].low == 1);
}

/* range: base len rounded-base rounded-top b t ie e exact crrl cram */
static bool check_range(const wide *f) {
    uint64_t base = f[0].low, len = f[1].low;
    cheri_rounded expected = {f[2].low,          f[3].low,          f[3].high,
                              (uint16_t)f[4].low, (uint16_t)f[5].low, (uint8_t)f[6].low,
                              (uint8_t)f[7].low, f[8].low == 1};
    if (range_count < MOST_ROWS) {
        ranges[range_count].base = base;
        ranges[range_count].len = len;
        range_roundings[range_count++] = expected;
    }
    return same_rounding(cheri_caps_round(base, len), expected) &&
           cheri_caps_representable_length(len) == f[9].low &&
           cheri_caps_alignment_mask(len) == f[10].low;
}

/* address: upper addr new-addr kept */
static bool check_address(const wide *f) {
    return cheri_caps_is_representable(f[0].low, f[1].low, f[2].low) == (f[3].low == 1);
}

static cheri_cap cap_of(const wide *f) {
    cheri_cap cap = {f[2].low, f[1].low, f[0].low == 1};
    return cap;
}

/* The instructions that make a capability, each at its number. */
static const char *const instructions[] = {
    "none", "move",      "clear_tag", "set_address", "inc_offset", "set_bounds", "set_bounds_exact", "and_perms",
    "set_flags", "set_high", "seal",  "unseal", "seal_entry", "build", "unsealed_by_jump",
};

/* The number of an instruction, or 0. */
static uint8_t number_of(const char *operation) {
    for (uint8_t i = 1; i < sizeof instructions / sizeof *instructions; i++)
        if (strcmp(operation, instructions[i]) == 0)
            return i;
    return 0;
}

/* value: operation tag upper addr tag upper addr tag upper addr, the last of the result */
static bool check_value(const char *operation, const wide *f) {
    cheri_cap cap = cap_of(f), other = cap_of(f + 3), expected = cap_of(f + 6), found;
    uint64_t number = other.addr;
    if (strcmp(operation, "clear_tag") == 0)
        found = cheri_caps_clear_tag(cap);
    else if (strcmp(operation, "set_address") == 0)
        found = cheri_caps_set_address(cap, number);
    else if (strcmp(operation, "inc_offset") == 0)
        found = cheri_caps_inc_offset(cap, number);
    else if (strcmp(operation, "set_bounds") == 0)
        found = cheri_caps_set_bounds(cap, number);
    else if (strcmp(operation, "set_bounds_exact") == 0)
        found = cheri_caps_set_bounds_exact(cap, number);
    else if (strcmp(operation, "and_perms") == 0)
        found = cheri_caps_and_perms(cap, number);
    else if (strcmp(operation, "set_flags") == 0)
        found = cheri_caps_set_flags(cap, number);
    else if (strcmp(operation, "set_high") == 0)
        found = cheri_caps_set_high(cap, number);
    else if (strcmp(operation, "seal") == 0)
        found = cheri_caps_seal(cap, other);
    else if (strcmp(operation, "unseal") == 0)
        found = cheri_caps_unseal(cap, other);
    else if (strcmp(operation, "seal_entry") == 0)
        found = cheri_caps_seal_entry(cap);
    else if (strcmp(operation, "build") == 0)
        found = cheri_caps_build(cap, other);
    else if (strcmp(operation, "test_subset") == 0)
        found = cheri_caps_of_integer(cheri_caps_test_subset(cap, other));
    else if (strcmp(operation, "equal_exact") == 0)
        found = cheri_caps_of_integer(cheri_caps_equal_exact(cap, other));
    else
        return false;
    uint8_t op = number_of(operation);
    bool same_tag = op == 0 || found.tag == (cheri_caps_why(op, cap, other) == CHERI_CAPS_WHY_NONE);
    return same_cap(found, expected) && same_tag;
}

/* why: operation tag upper addr tag upper addr reason */
static bool check_why(const char *operation, const wide *f) {
    uint8_t op = number_of(operation);
    return op != 0 && cheri_caps_why(op, cap_of(f), cap_of(f + 3)) == f[6].low;
}

/* A number that no instruction has, and the texts of reasons. */
static long check_texts(void) {
    cheri_cap null = cheri_caps_null();
    long differ = 0;
    for (int op = 0; op < 256; op++) {
        uint8_t why = cheri_caps_why((uint8_t)op, null, null);
        bool known = op >= CHERI_CAPS_OP_MOVE && op <= CHERI_CAPS_OP_UNSEALED_BY_JUMP;
        differ += known == (why == CHERI_CAPS_WHY_NO_OPERATION);
        differ += strncmp(cheri_caps_why_text(why), known ? "the " : "no instruction", 4) != 0;
    }
    return differ + (strcmp(cheri_caps_why_text(CHERI_CAPS_WHY_NOT_ALIGNED + 1), "no reason has this number") != 0);
}

static bool check_row(char **fields, size_t count) {
    bool is_value = strcmp(fields[0], "value") == 0, is_why = strcmp(fields[0], "why") == 0;
    bool has_operation = is_value || is_why;
    size_t first = has_operation ? 2 : 1;
    wide numbers[MOST_FIELDS];
    for (size_t i = first; i < count; i++)
        if (!read_number(fields[i], &numbers[i - first]))
            return false;
    if (is_value)
        return count == 11 && check_value(fields[1], numbers);
    if (is_why)
        return count == 9 && check_why(fields[1], numbers);
    if (strcmp(fields[0], "word") == 0)
        return count == 12 && check_word(numbers);
    if (strcmp(fields[0], "range") == 0)
        return count == 12 && check_range(numbers);
    if (strcmp(fields[0], "address") == 0)
        return count == 5 && check_address(numbers);
    return false;
}

/* Counts the rows of a file and those that differ; -1 where the file is not whole. */
static long check_file(const char *name, long *rows) {
    FILE *file = fopen(name, "r");
    char line[1024], copy[1024];
    long announced = -1, count = 0, differ = 0;
    bool ended = false;
    if (file == NULL)
        return -1;
    if (fgets(line, sizeof line, file) == NULL ||
        (strcmp(line, "cheri-caps vectors 1\n") != 0 && strcmp(line, "cheri-caps reasons 1\n") != 0)) {
        fclose(file);
        return -1;
    }
    while (!ended && fgets(line, sizeof line, file) != NULL) {
        char *fields[MOST_FIELDS];
        size_t used = 0;
        line[strcspn(line, "\n")] = 0;
        strcpy(copy, line);
        if (line[0] == '#')
            continue;
        for (char *word = strtok(line, " "); word != NULL && used < MOST_FIELDS; word = strtok(NULL, " "))
            fields[used++] = word;
        if (used == 1 && strcmp(fields[0], "end") == 0) {
            ended = true;
        } else if (used == 2 && strcmp(fields[0], "rows") == 0) {
            announced = strtol(fields[1], NULL, 10);
        } else {
            count++;
            if (used == 0 || !check_row(fields, used)) {
                differ++;
                printf("%s: %s\n", name, copy);
            }
        }
    }
    fclose(file);
    *rows += count;
    return ended && announced == count ? differ : -1;
}

/* The arrays once more: all places, and no place beyond the shorter of the two. */
static long check_arrays(void) {
    long differ = 0;
    if (word_count > 0) {
        found_bounds[word_count - 1].base = 42;
        differ += cheri_caps_bounds_of(words, word_count, found_bounds, word_count - 1) != word_count - 1;
        differ += found_bounds[word_count - 1].base != 42;
        differ += cheri_caps_bounds_of(words, word_count, found_bounds, MOST_ROWS) != word_count;
        for (size_t i = 0; i < word_count; i++)
            differ += !same_bounds(found_bounds[i], word_bounds[i]);
    }
    if (range_count > 0) {
        found_roundings[range_count - 1].base = 42;
        differ += cheri_caps_round_of(ranges, range_count, found_roundings, range_count - 1) != range_count - 1;
        differ += found_roundings[range_count - 1].base != 42;
        differ += cheri_caps_round_of(ranges, range_count, found_roundings, MOST_ROWS) != range_count;
        for (size_t i = 0; i < range_count; i++)
            differ += !same_rounding(found_roundings[i], range_roundings[i]);
    }
    return differ;
}

int main(int argc, char **argv) {
    long rows = 0, differ = 0;
    for (int i = 1; i < argc; i++) {
        long found = check_file(argv[i], &rows);
        if (found < 0) {
            printf("%s: not a whole file of vectors\n", argv[i]);
            return 1;
        }
        differ += found;
    }
    differ += check_arrays() + check_texts();
    printf("%ld rows, %ld differ\n", rows, differ);
    return rows > 0 && differ == 0 ? 0 : 1;
}
