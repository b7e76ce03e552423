"""Compares vectors of steps as lines of JSON with the same as lines of words.

    steps_json.py FILE JSON

Prints the number of each row that differs; ends with 0 where none does.
"""

from __future__ import annotations

import json
import sys
from typing import Any, Dict, List

NUMBERS = ("cd", "c1", "c2", "imm", "code", "granules")
VALUES = {"pcc": 9, "first": 12, "second": 15, "granule": 19, "result": 25, "pcc_after": 28, "granule_after": 31}


def row_of(words: List[str]) -> Dict[str, Any]:
    """The object that a row's words say."""
    row: Dict[str, Any] = {"row": int(words[1]), "name": words[2]}
    row.update((name, int(word, 16)) for name, word in zip(NUMBERS, words[3:9]))
    row["imm"] = words[6]
    row["place"] = int(words[18], 16)
    row.update(zip(("outcome", "cause", "reg"), (int(word, 16) for word in words[22:25])))
    for name, at in VALUES.items():
        word = int(words[at + 1], 16) << 64 | int(words[at + 2], 16)
        row[name] = {"word": f"{word:032x}", "tag": words[at] == "1"}
    return row


def main() -> int:
    with open(sys.argv[1], encoding="ascii") as file:
        rows = [row_of(line.split()) for line in file if line.startswith("step ")]
    with open(sys.argv[2], encoding="ascii") as file:
        objects = [json.loads(line) for line in file]
    differ = [row["row"] for row, found in zip(rows, objects) if row != found]
    print(f"{len(rows)} rows, {len(objects)} lines of JSON, differing: {differ[:10]}")
    return 0 if rows and len(rows) == len(objects) and not differ else 1


if __name__ == "__main__":
    sys.exit(main())
