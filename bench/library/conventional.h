/* Functions to compare the library's speed with, behind the same signatures. */
#include "cheri_caps.h"

cheri_bounds conventional_bounds(uint64_t upper, uint64_t addr);
bool conventional_is_representable(uint64_t upper, uint64_t addr, uint64_t new_addr);
cheri_rounded conventional_round(uint64_t base, uint64_t len);
uint64_t conventional_representable_length(uint64_t len);
uint64_t conventional_alignment_mask(uint64_t len);
cheri_cap conventional_set_address(cheri_cap cap, uint64_t addr);
cheri_cap conventional_set_bounds(cheri_cap cap, uint64_t len);
cheri_cap conventional_and_perms(cheri_cap cap, uint64_t mask);

/* These test a tag as the library does. */
cheri_trap conventional_check_load(cheri_cap auth, uint8_t reg, uint64_t addr, uint8_t log2_bytes, cheri_range memory);
cheri_trap conventional_check_store(cheri_cap auth, uint8_t reg, uint64_t addr, uint8_t log2_bytes, cheri_range memory);
cheri_trap conventional_check_load_cap(cheri_cap auth, uint8_t reg, uint64_t addr, cheri_range memory);
cheri_trap conventional_check_store_cap(cheri_cap auth, uint8_t reg, uint64_t addr, cheri_cap stored, cheri_range memory);
cheri_trap conventional_check_swap(cheri_cap auth, uint8_t reg, uint64_t addr, cheri_cap stored, cheri_range memory);
cheri_trap conventional_check_fetch(cheri_cap pcc, cheri_range code);
cheri_trap conventional_check_branch(cheri_cap pcc, uint64_t target);
cheri_trap conventional_check_jump(cheri_cap through, uint8_t reg, uint64_t offset);
cheri_trap conventional_check_invoke(cheri_cap code, uint8_t c1, cheri_cap data, uint8_t c2);
cheri_jumped conventional_jump(cheri_cap pcc, cheri_cap through, uint8_t reg, uint64_t offset);
cheri_jumped conventional_invoke(cheri_cap code, uint8_t c1, cheri_cap data, uint8_t c2);
uint8_t conventional_why(uint8_t op, cheri_cap a, cheri_cap b);
