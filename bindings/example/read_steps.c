/* read_steps FILE: compares the traps of fetches, data loads, jumps and invocations in a file of step vectors with the C
   library, and prints the number of each row that differs. To test your own code, call it in place of the library. */
#include <cheri_caps.h>
#include <stdio.h>
#include <stdlib.h>
#include <string.h>

static cheri_cap cap(const uint64_t *fields) {
    cheri_cap found = {fields[2], fields[1], fields[0] == 1};
    return found;
}

int main(int argc, char **argv) {
    static const char *const loads[] = {"lb", "lh", "lw", "ld", "lbu", "lhu", "lwu"}; /* by funct3 */
    FILE *file = argc == 2 ? fopen(argv[1], "r") : NULL;
    char line[1024] = "", name[24];
    unsigned long row, compared = 0, differ = 0;
    while (file && fgets(line, sizeof line, file) && strcmp(line, "end\n") != 0) {
        uint64_t n[31]; /* cd c1 c2 imm code granules pcc(3) first(3) second(3) place granule(3) outcome cause reg .. */
        int used, kind = -1;
        if (sscanf(line, "step %lu %23s%n", &row, name, &used) != 2) continue;
        char *text = line + used;
        for (int i = 0; i < 31; i++) n[i] = strtoull(text, &text, 16);
        for (int i = 0; i < 7; i++)
            if (strcmp(name, loads[i]) == 0) kind = i;
        cheri_range code = {0x10000000, 4 * n[4]}, memory = {0x80000000, 16 * n[5]};
        cheri_trap trap = cheri_caps_check_fetch(cap(n + 6), code);
        if (trap.cause == 0 && kind >= 0)
            trap = cheri_caps_check_load(cap(n + 9), (uint8_t)n[1], n[11] + n[3], (uint8_t)kind, memory);
        else if (trap.cause == 0 && strcmp(name, "cjalr") == 0)
            trap = cheri_caps_check_jump(cap(n + 9), (uint8_t)n[1], n[3]);
        else if (trap.cause == 0 && strcmp(name, "cinvoke") == 0)
            trap = cheri_caps_check_invoke(cap(n + 9), (uint8_t)n[1], cap(n + 12), (uint8_t)n[2]);
        else if (trap.cause == 0)
            continue;
        if (compared++, (trap.cause != n[20] || trap.reg != n[21]) && ++differ) printf("row %lu differs\n", row);
    }
    printf("%lu rows compared, %lu differ\n", compared, differ);
    return strcmp(line, "end\n") != 0 || differ != 0;
}
