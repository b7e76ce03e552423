"""The answers as `cheri_explore` prints them.

Where no reduction was used they are its bytes of today.  Else the first line has a 2, a line
`reduced` says which were used, and no line counts what was not counted.
"""

from __future__ import annotations

import json
from typing import Optional

import values as v
from answers import held, found_state, shown_rows, verdicts
from listing import Listing
from machine import GRANULE, NULL, Image, Operation, State, Sweep
from questions import Item, Question, reduced_of
from search import Endless, Found, endless

UNFINISHED, NONE = 4, 5


def order_text(order: list[Operation]) -> str:
    return "".join(f"[{one.lo:#x},{one.hi:#x}]" if isinstance(one, Sweep) else str(one.hart)
                   for one in order) or "-"


def value_text(value: v.Value) -> str:
    tag, word = value
    text = f"{tag} {word >> 64:016x}_{word & v.MASK64:016x}"
    if not tag:
        return text
    base, top = v.bounds_of(word)
    otype = v.type_of(value)
    name = {v.UNSEALED: "unsealed", v.SENTRY: "sentry"}.get(otype, str(otype))
    return f"{text} {base:016x} {top:017x} {v.perms_of(value):05x} {name}"


def state_lines(state: State) -> list[str]:
    lines = []
    for number, hart in enumerate(state.harts):
        name, *trap = hart.status
        cause = f" cause={trap[0]} reg={trap[1]}" if trap else ""
        lines += [f"hart {number} {name}{cause}", f"pcc {value_text(hart.pcc)}"]
        lines += [f"c{register} {value_text(value)}"
                  for register, value in enumerate(hart.regs) if value != NULL]
    return lines + [f"mem {granule * GRANULE:016x} {value_text(value)}"
                    for granule, value in state.memory]


def image_line(image: Image) -> str:
    return f"image harts={len(image.harts)} ram={image.ram} code={len(image.program)}"


def head_of(found: Found, name: str) -> list[str]:
    reduced = reduced_of(found)
    return [f"cheri-sim {name} {2 if reduced else 1}", image_line(found.graph.image),
            *([" ".join(["reduced", *reduced])] if reduced else []),
            f"states {len(found.nodes)} {'complete' if found.complete else 'unfinished'}"]


def endless_line(told: Endless) -> str:
    if told.order is None:
        return f"endless {told.answer}"
    return f"endless {told.answer} order={order_text(told.order)} loop={order_text(told.loop)}"


def are_counted(found: Found) -> bool:
    """Whether each outcome is a state of its own."""
    return not found.graph.plan.groups and "registers" not in reduced_of(found)


def outcomes_lines(found: Found, items: Optional[tuple[Item, ...]]) -> list[str]:
    plan, numbers = found.graph.plan, found.outcomes()
    lines = head_of(found, "outcomes")
    lines.append("endless -" if plan.groups else endless_line(endless(found)))
    lines.append(f"outcomes {len(numbers) if are_counted(found) else '-'}")
    if items is None:
        for place, number in enumerate(numbers):
            lines += [f"outcome {place} order={order_text(found.order_to(number))}",
                      *state_lines(found.real(number))]
        return lines + ["end"]
    rows = shown_rows(found, items)
    lines.append(f"shown {len(rows)}")
    for place, row in enumerate(rows):
        count = f"states={row.count} " if are_counted(found) else ""
        told = " ".join(f"{item.name}={value}" for item, value in zip(items, row.values))
        lines.append(f"{place} {count}{told} order={order_text(row.order)}")
    return lines + ["end"]


def find_lines(found: Found, question: Question) -> list[str]:
    reduced = reduced_of(found)
    lines = [" ".join(["reduced", *reduced])] if reduced else []
    met = found_state(found, question)
    if met:
        return [*lines, f"found order={order_text(met.order)}", *state_lines(met.state), "end"]
    joint = "none in" if found.complete else "unknown after"
    return [*lines, f"{joint} {len(found.nodes)} states"]


def value_json(value: v.Value) -> dict:
    tag, word = value
    told = {"tag": bool(tag), "word": f"{word >> 64:016x}_{word & v.MASK64:016x}"}
    if tag:
        words = value_text(value).split()
        told.update(zip(("base", "top", "perms", "type"), words[2:]))
    return told


def state_json(state: State) -> dict:
    harts = []
    for hart in state.harts:
        name, *trap = hart.status
        harts.append({"pcc": value_json(hart.pcc), "status": name,
                      "regs": {f"c{register}": value_json(value)
                               for register, value in enumerate(hart.regs) if value != NULL},
                      **dict(zip(("cause", "reg"), trap))})
    return {"harts": harts, "mem": {f"{granule * GRANULE:016x}": value_json(value)
                                    for granule, value in state.memory}}


def json_head(found: Found) -> dict:
    image, reduced = found.graph.image, reduced_of(found)
    told = {"explore": 2 if reduced else 1,
            "image": {"code": len(image.program), "harts": len(image.harts), "ram": image.ram}}
    return {**told, "reduced": reduced} if reduced else told


def json_text(told: dict) -> str:
    """One line of JSON, with the keys in byte order."""
    return json.dumps(told, sort_keys=True, separators=(",", ":")) + "\n"


def find_json(found: Found, question: Question) -> str:
    """The same as `find_lines` in JSON."""
    told = json_head(found)
    met = found_state(found, question)
    if met:
        told.update(answer="found", order=order_text(met.order), state=state_json(met.state))
    else:
        told.update(answer="none" if found.complete else "unknown", states=len(found.nodes))
    return json_text(told)


def run_json(order: Optional[list[Operation]], loop: Optional[list[Operation]]) -> dict:
    told = {} if order is None else {"order": order_text(order)}
    return told if loop is None else {**told, "loop": order_text(loop)}


def outcomes_json(found: Found, items: Optional[tuple[Item, ...]]) -> str:
    """The same as `outcomes_lines` in JSON: where harts change places nothing of `endless`."""
    told = json_head(found)
    told.update(complete=found.complete, states=len(found.nodes))
    if not found.graph.plan.groups:
        ends = endless(found)
        told["endless"] = {"answer": ends.answer, **run_json(ends.order, ends.loop)}
    if items is None:
        told["outcomes"] = [{**state_json(found.real(number)),
                             "order": order_text(found.order_to(number))}
                            for number in found.outcomes()]
        return json_text(told)
    told["shown"] = [{**({"states": row.count} if are_counted(found) else {}),
                      "order": order_text(row.order),
                      "values": {item.name: value for item, value in zip(items, row.values)}}
                     for row in shown_rows(found, items)]
    return json_text(told)


def check_json(found: Found, question: Question, listing: Listing) -> str:
    """The same as `check_lines` in JSON."""
    told = json_head(found)
    told.update(complete=found.complete, states=len(found.nodes), properties=[
        {"line": claim.line, "answer": verdict.answer, "property": claim.text,
         **run_json(verdict.order, verdict.loop)}
        for claim, verdict in zip(question.claims, verdicts(found, question, listing))])
    return json_text(told)


def authority_json(found: Found) -> str:
    """The same as `authority_lines` in JSON."""
    *harts, memory = [[{"base": f"{base:016x}", "top": f"{top:017x}", "perms": f"{perms:05x}",
                        "first": order_text(order)} for (base, top, perms), order in entries]
                      for entries in held(found)]
    return json_text({**json_head(found), "complete": found.complete, "harts": harts,
                      "memory": memory, "states": len(found.nodes)})


def answer_json(found: Found, question: Question, listing: Listing) -> str:
    """The answer in JSON."""
    if question.command == "authority":
        return authority_json(found)
    if question.command == "find":
        return find_json(found, question)
    if question.command == "check":
        return check_json(found, question, listing)
    return outcomes_json(found, question.items)


def authority_lines(found: Found) -> list[str]:
    lines = head_of(found, "authority")
    names = [f"hart {number}" for number in range(len(found.graph.image.harts))]
    for name, entries in zip([*names, "memory"], held(found)):
        lines.append(name)
        lines += [f"{base:016x} {top:017x} {perms:05x} first={order_text(order)}"
                  for (base, top, perms), order in entries]
    return lines + ["end"]


def check_lines(found: Found, question: Question, listing: Listing) -> list[str]:
    lines = head_of(found, "check")
    for claim, verdict in zip(question.claims, verdicts(found, question, listing)):
        order = "" if verdict.order is None else f" order={order_text(verdict.order)}"
        loop = "" if verdict.loop is None else f" loop={order_text(verdict.loop)}"
        lines.append(f"line {claim.line} {verdict.answer}{order}{loop} | {claim.text}")
    return lines + ["end"]


def answer_text(found: Found, question: Question, listing: Listing) -> str:
    lines = {"outcomes": lambda: outcomes_lines(found, question.items),
             "find": lambda: find_lines(found, question),
             "authority": lambda: authority_lines(found),
             "check": lambda: check_lines(found, question, listing)}[question.command]()
    return "\n".join(lines) + "\n"


def status_of(found: Found, question: Question, listing: Listing) -> int:
    if question.command == "check":
        told = [verdict.answer for verdict in verdicts(found, question, listing)]
        return 1 if "violated" in told else UNFINISHED if "unknown" in told else 0
    if question.command == "find" and found.wanted is None and found.complete:
        return NONE
    return 0 if found.complete else UNFINISHED
