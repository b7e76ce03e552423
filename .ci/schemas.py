"""schemas.py SCHEMAS FOLDER: FOLDER has a folder for each kind of answer (report, explanation, outcomes, sample), with pairs
NAME.json and NAME.KIND of one answer each. Every JSON answer must keep the schema SCHEMAS/KIND.json and say the same as the text,
every broken one must be refused. The last line is 'N passed, M failed'."""
import copy
import json
import pathlib
import re
import sys

import jsonschema


def value_text(value):
    text = f"{int(value['tag'])} {value['word']}"
    if value["tag"]:
        text += f" {value['base']} {value['top']} {value['perms']} {value['type']}"
    return text + (f" from {value['from']}" if "from" in value else "")


def trap_text(trap):
    return f" cause={trap['cause']} reg={trap['reg']}" if "cause" in trap else ""


def event_text(number, event):
    if event["outcome"] == "sweep":
        return f"{number} sweep lo={event['lo']} hi={event['hi']} cleared={event['cleared']}"
    return f"{number} hart={event['hart']} pc={event['pc']} {event['outcome']}{trap_text(event)}"


def image_text(image):
    return f"image harts={image['harts']} ram={image['ram']} code={image['code']}"


def state_lines(state):
    """The lines for the harts and for memory."""
    lines = []
    for number, hart in enumerate(state["harts"]):
        lines.append(f"hart {number} {hart['status']}{trap_text(hart)}")
        lines.append(f"pcc {value_text(hart['pcc'])}")
        names = sorted(hart["regs"], key=lambda name: int(name[1:]))
        lines += [f"{name} {value_text(hart['regs'][name])}" for name in names]
    return lines + [f"mem {address} {value_text(value)}" for address, value in sorted(state["mem"].items())]


def report_text(report):
    """The text report that a JSON report stands for."""
    lines = [f"cheri-sim report {report['report']}", image_text(report["image"])]
    lines.append(f"entries {len(report['entries'])}")
    lines += [event_text(number, event) for number, event in enumerate(report["entries"])]
    return "\n".join(lines + state_lines(report)) + "\nend\n"


CAUSES = ["Tag", "Seal", "Execute", "Load", "Store", "StoreCap", "StoreLocal", "Length", "Align", "Place", "Fetch",
          "Type", "CInvoke"]
# the instructions whose first operand is a source
SOURCES_FIRST = {"sb", "sh", "sw", "sd", "sc", "beq", "bne", "blt", "bge", "bltu", "bgeu", "cinvoke"}


def sources(instruction):
    """The names of what an instruction reads, in the order in which its facts have them."""
    name, _, rest = instruction.partition(" ")
    operands = [word for word in rest.replace("(", ", ").replace(")", "").split(", ") if word[:1] == "c"]
    return ["pcc"] + (operands if name in SOURCES_FIRST else operands[1:])


def place_order(name):
    """Harts in order, PCC first, then c1 to c31, then granules."""
    if name.startswith("mem "):
        return (8, 0, name)
    hart, _, register = name.rpartition(":")
    return (int(hart or 0), 0 if register == "pcc" else int(register[1:]), "")


def fact_lines(event):
    lines = []
    if "reads" in event:
        order = sources(event["instruction"])
        lines += [f"reads {name} {value_text(event['reads'][name])}" for name in sorted(event["reads"], key=order.index)]
    if "at" in event:
        lines.append(f"at {event['at']['address']} {event['at']['bytes']}")
    lines += [f"finds mem {address} {value_text(value)}" for address, value in event.get("finds", {}).items()]
    if "why" in event:
        lines.append(f"traps {CAUSES[event['cause'] - 1]}: {event['why']}")
    lines += [f"leaves mem {address} {value_text(value)}" for address, value in event.get("leaves", {}).items()]
    lines += [f"sets {name} {value_text(value)}" for name, value in sorted(event.get("sets", {}).items())]
    clears = event.get("clears", {})
    return lines + [f"clears {name}: {clears[name]}" for name in sorted(clears, key=place_order)]


def explanation_text(explanation):
    """The text that a JSON explanation stands for."""
    lines = [f"cheri-sim explanation {explanation['explanation']}", image_text(explanation["image"])]
    lines.append(f"entries {explanation['entries']}")
    for event in explanation["events"]:
        where = event.get("source") or f"line {event.get('line')}"
        place = f" | {where}: {event['instruction']}" if "line" in event else ""
        lines.append(event_text(event["number"], event) + place)
        lines += ["  " + line for line in fact_lines(event)]
    return "\n".join(lines) + "\nend\n"


def held_lines(held):
    return [f"{one['base']} {one['top']} {one['perms']} first={one['first']}" for one in held]


def endless_text(endless):
    if endless is None:
        return "endless -"
    return f"endless {endless['answer']}" + (
        f" order={endless['order']} loop={endless['loop']}" if "order" in endless else "")


def outcomes_text(answer):
    """The text that a JSON answer of cheri_explore stands for."""
    reduced = f"reduced {' '.join(answer['reduced'])}\n" if "reduced" in answer else ""
    if answer.get("answer") in ("none", "unknown"):
        return f"{reduced}{answer['answer']} {'in' if answer['answer'] == 'none' else 'after'} {answer['states']} states\n"
    if "answer" in answer:
        lines = [f"found order={answer['order']}", *state_lines(answer["state"])]
        return reduced + "\n".join(lines) + "\nend\n"
    kind = "authority" if "memory" in answer else "check" if "properties" in answer else "outcomes"
    lines = [f"cheri-sim {kind} {answer['explore']}", image_text(answer["image"]), *reduced.splitlines()]
    lines.append(f"states {answer['states']} {'complete' if answer['complete'] else 'unfinished'}")
    if kind == "authority":
        for number, held in enumerate(answer["harts"]):
            lines += [f"hart {number}", *held_lines(held)]
        lines += ["memory", *held_lines(answer["memory"])]
    elif kind == "check":
        for one in answer["properties"]:
            run = "".join(f" {name}={one[name]}" for name in ("order", "loop") if name in one)
            lines.append(f"line {one['line']} {one['answer']}{run} | {one['property']}")
    elif "shown" in answer:
        count = "-" if reduced else sum(row["states"] for row in answer["shown"])
        lines += [endless_text(answer.get("endless")), f"outcomes {count}", f"shown {len(answer['shown'])}"]
        for number, row in enumerate(answer["shown"]):
            states = "" if reduced else f"states={row['states']} "
            values = " ".join(f"{item}={value}" for item, value in row["values"].items())
            lines.append(f"{number} {states}{values} order={row['order']}")
    else:
        count = "-" if reduced else len(answer["outcomes"])
        lines += [endless_text(answer.get("endless")), f"outcomes {count}"]
        for number, outcome in enumerate(answer["outcomes"]):
            lines += [f"outcome {number} order={outcome['order']}", *state_lines(outcome)]
    return "\n".join(lines) + "\nend\n"


def seen_text(seen, middle=""):
    return f"runs={seen['runs']}" + (f" first={seen['first']}{middle} order={seen['order']}" if seen["runs"] else "")


def sample_text(answer):
    """The text that a JSON answer of sample stands for."""
    drawn = answer["drawn"]
    lines = [f"cheri-sim sample {answer['explore']}", image_text(answer["image"])]
    lines.append(f"drawn seed={drawn['seed']} length={drawn['length']} depth={drawn.get('depth', '-')}"
                 + "".join(f" sweep={sweep}" for sweep in drawn["sweeps"]))
    numbers = ",".join(f"{first}..{last}" for first, last in answer["numbers"])
    lines.append(f"runs {answer['runs']} numbers={numbers} longest={answer['longest']}")
    lines += [f"{name} {seen_text(answer[name])}" for name in ("cut", "hung")]
    lines.append(f"traps {len(answer['traps'])}")
    lines += [f"trap hart={trap['hart']} cause={trap['cause']} {seen_text(trap)}" for trap in answer["traps"]]
    if "shown" in answer:
        lines.append(f"shown {len(answer['shown'])}")
        for number, row in enumerate(answer["shown"]):
            values = "".join(f" {item}={row['values'][item]}" for item in answer["items"])
            lines.append(f"{number} {seen_text(row, values)}")
    else:
        lines.append(f"outcomes {len(answer['outcomes'])}")
        for number, outcome in enumerate(answer["outcomes"]):
            lines += [f"outcome {number} {seen_text(outcome)}", *state_lines(outcome)]
    for one in answer.get("properties", []):
        run = "".join(f" {name}={one[name]}" for name in ("runs", "first", "order") if name in one)
        lines.append(f"line {one['line']} {one['answer']}{run} | {one['property']}")
    return "\n".join(lines) + "\nend\n"


def each_once(text):
    """The text with the items of its rows in byte order and each once, as JSON has them."""
    def row(line):
        words = line.split(" ")
        first = 2 if words[1].startswith("states=") else 1
        return " ".join(words[:first] + sorted(set(words[first:-1])) + words[-1:])
    return "".join(row(line) if re.match(r"\d+ (?!runs=).* order=", line) else line for line in text.splitlines(True))


# what each kind of answer stands for; the members that may be left out; runs whose answers are broken in each place:
# they have sweeps, traps, sealed and untagged values; how the answer's version is changed
KINDS = {
    "report": (report_text, (), ("use_after_free.2", "sealed.1", "traps_01.1"),
               lambda report: {**report, "report": 3 - report["report"]}),
    "explanation": (explanation_text, ("at", "clears", "leaves", "reads", "sets"),
                    ("use_after_free.2", "traps_01.1", "overwrite.1"),
                    lambda explanation: {**explanation, "explanation": 2}),
    "outcomes": (outcomes_text, (), ("lock", "lost_update.shown", "leak.found", "lock.reduced", "lock.harts", "lock.none", "lock.kept",
                               "leak.authority", "lock.authority", "lock.checked", "lock.checked_harts", "lock.alike", "lost_update.alike_shown"),
                 lambda answer: {**answer, "explore": 3 - answer["explore"]}),
    "sample": (sample_text, ("depth", "properties"), ("lost_update", "missed_wakeup.shown", "use_after_free.checked", "traps_02"),
               lambda answer: {**answer, "explore": 2}),
}
# objects whose members are named by places
MAPS = ("regs", "mem", "reads", "finds", "leaves", "sets", "clears", "values")


def places(content, path=()):
    """The paths of all members of objects and arrays."""
    items = content.items() if isinstance(content, dict) else enumerate(content) if isinstance(content, list) else ()
    for key, inner in items:
        yield path + (key,)
        yield from places(inner, path + (key,))


def broken(answer, optional):
    """Answers with one fault: a key taken out or added, a value of another type."""
    for path in list(places(answer)):
        named = isinstance(path[-1], str) and path[-2:-1] not in [(name,) for name in MAPS]
        changes = ["null"] + ["added"] * named + ["taken out"] * (named and path[-1] not in optional)
        for change in changes:
            other = copy.deepcopy(answer)
            inner = other
            for key in path[:-1]:
                inner = inner[key]
            if change == "taken out":
                del inner[path[-1]]
            elif change == "added":
                inner[path[-1] + "x"] = inner[path[-1]]
            else:
                inner[path[-1]] = None
            yield f"{'.'.join(map(str, path))} {change}", other


def main(schemas, folder):
    passed, failed = 0, 0

    def result(name, passes):
        nonlocal passed, failed
        passed, failed = passed + bool(passes), failed + (not passes)
        if not passes:
            print(f"schemas: FAILED: {name}")

    kinds = sorted(path.name for path in pathlib.Path(folder).iterdir())
    result("there are answers", kinds)
    for kind in kinds:
        text_of, optional, broken_runs, with_other_version = KINDS[kind]
        schema = json.loads((pathlib.Path(schemas) / f"{kind}.json").read_text())
        jsonschema.Draft202012Validator.check_schema(schema)
        judge = jsonschema.Draft202012Validator(schema)
        for path in sorted((pathlib.Path(folder) / kind).glob("*.json")):
            content = path.read_text()
            name = f"the {kind} {path.stem}"
            try:
                answer = json.loads(content)
            except ValueError:
                result(f"{name} is JSON", False)
                continue
            is_good = judge.is_valid(answer)
            result(f"{name} keeps the schema", is_good)
            compact = json.dumps(answer, sort_keys=True, separators=(",", ":"))
            result(f"{name} is compact, with its keys in order", content == compact + "\n")
            text = path.with_suffix("." + kind).read_text()
            result(f"{name} says what the text says", is_good and text_of(answer) == each_once(text))
            if path.stem in broken_runs:
                result(f"{name} of another version is refused", not judge.is_valid(with_other_version(answer)))
                for fault, other in broken(answer, optional):
                    result(f"{name}: {fault} is refused", not judge.is_valid(other))
    print(f"{passed} passed, {failed} failed")
    return failed > 0


sys.exit(main(*sys.argv[1:]))
