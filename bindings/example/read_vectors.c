/* read_vectors FILE: compares the rows of words, ranges and addresses in a file of test vectors with the C library, and
   prints the number of each row that differs. To test your own code, call it in place of the library. */
#include <cheri_caps.h>
#include <stdio.h>
#include <stdlib.h>
#include <string.h>

int main(int argc, char **argv) {
    FILE *file = argc == 2 ? fopen(argv[1], "r") : NULL;
    char line[256] = "";
    unsigned long row = 0, compared = 0, differ = 0;
    while (file && fgets(line, sizeof line, file) && strcmp(line, "end\n") != 0) {
        uint64_t n[11] = {0}, high = 0; /* high: the bits of a top from 64 on, its first of 17 digits */
        char *kind = strtok(line, " \n"), *text;
        for (int i = 0; i < 11 && kind && (text = strtok(NULL, " \n")); i++) {
            size_t over = strlen(text) == 17;
            if (over) high = (uint64_t)(text[0] - '0');
            n[i] = strtoull(text + over, NULL, 16);
        }
        bool same;
        if (kind && strcmp(kind, "word") == 0) {
            cheri_bounds b = cheri_caps_bounds(n[0], n[1]);
            same = b.base == n[2] && b.top == n[3] && b.top_high == high &&
                   cheri_caps_fields(n[0]).perms == n[4] && cheri_caps_is_capability(n[0], n[1]) == n[10];
        } else if (kind && strcmp(kind, "range") == 0) {
            cheri_rounded r = cheri_caps_round(n[0], n[1]);
            same = r.base == n[2] && r.top == n[3] && r.top_high == high && r.e == n[7] && r.exact == n[8] &&
                   cheri_caps_representable_length(n[1]) == n[9] && cheri_caps_alignment_mask(n[1]) == n[10];
        } else if (kind && strcmp(kind, "address") == 0) {
            same = cheri_caps_is_representable(n[0], n[1], n[2]) == n[3];
        } else {
            row += kind && strcmp(kind, "value") == 0;
            continue;
        }
        row++, compared++;
        if (!same && ++differ) printf("row %lu differs\n", row);
    }
    printf("%lu rows compared, %lu differ\n", compared, differ);
    return strcmp(line, "end\n") != 0 || differ != 0;
}
