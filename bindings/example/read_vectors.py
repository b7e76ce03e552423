"""read_vectors.py FILE: compares the rows of words, ranges and addresses in a file of test vectors with the Python
module, and prints the number of each row that differs. To test your own code, call it in place of the module."""

import sys

import cheri_caps


def same_word(upper, addr, base, top, perms, *rest):
    word = upper << 64 | addr
    return (cheri_caps.decode(word) == (base, top) and cheri_caps.fields(word).perms == perms
            and cheri_caps.is_capability(word) == rest[-1])


def same_range(base, length, *rest):
    return (cheri_caps.round_bounds(base, length) == rest[:7]
            and (cheri_caps.representable_length(length), cheri_caps.alignment_mask(length)) == rest[7:])


def same_address(upper, addr, new_addr, kept):
    return cheri_caps.is_representable(upper << 64 | addr, new_addr) == kept


CHECKS = {"word": same_word, "range": same_range, "address": same_address}
with open(sys.argv[1], encoding="ascii") as file:
    lines = file.read().splitlines()
compared = differ = 0
rows = [line.split() for line in lines if line.split()[0] in ("word", "range", "address", "value")]
for number, (kind, *texts) in enumerate(rows, 1):
    if kind in CHECKS:
        compared += 1
        if not CHECKS[kind](*(int(text, 16) for text in texts)):
            differ += 1
            print(f"row {number} differs")
print(f"{compared} rows compared, {differ} differ")
sys.exit(lines[-1] != "end" or differ != 0)
