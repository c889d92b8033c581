"""report.py FOLDER: the tables of docs/MODULE.md, from what module/run measured. Exits with 1 where an answer differs or a budget is exceeded.

FOLDER has `rows` (as bench's feed prints them, and the generated script), `answers` (x86-64's), and for each side, axis (proved) and baseline,
`SIDE.o`, and in `SIDE/` the module's `answers`, `trace` (as tracer.c writes it), `calls.map` and `writer.map` (of the library linked alone), and in
`SIDE_gears/` the `answers` and `trace` of gears.c; `gears.o` is the proved library with its gears apart."""
import re
import subprocess
import sys
from pathlib import Path

MHZ = 48
HERE = Path(__file__).resolve().parent
SIDES = ("axis", "baseline")
# What is held to a limit row by row, and of which rows.
EACH_ROW = {
    "ratio of instructions to the baseline's, each settings word": lambda row: row.startswith("settings word:"),
    "ratio of instructions to the baseline's, each other row": lambda row: not row.startswith("settings word:"),
}
# The routines of libgcc and newlib, by what they are for.
ROUTINES = {
    "soft float": r"__aeabi_(c?f|i2f|ui2f)|__\w+sf",
    "64-bit arithmetic": r"__aeabi_(u?ldivmod|lmul|llsl|llsr|lasr)|__muldi|__\w+div(mod)?di|__gnu_u?ldivmod",
    "32-bit division": r"__aeabi_u?idiv|__u?divsi",
    "leading zeros, for these": r"__clz",
    "memory": r"(__aeabi_)?mem",
}


class Event:
    """A line that both sides were fed."""

    def __init__(self, line, row, counted):
        self.line, self.row, self.counted = line, row, counted
        self.keyword, *words = line.split()
        first = int(words[0], 16) if words else 0
        self.kind = {
            "fresh": "fresh axis",
            "sheet": "settings written",
            "layout": "settings written",
            "word": "end word" if first >> 28 == 15 else "other word",
            "tick": "hybrid tick" if first == 1 else "tick without floats",
        }[self.keyword]


class Call:
    """What one call executed."""

    def __init__(self, line, own):
        _, instructions, cycles, stack, traffic, *parts = line.split()
        self.instructions, self.cycles, self.stack, self.traffic = int(instructions), int(cycles), int(stack), int(traffic)
        self.parts = dict.fromkeys(("own code", *ROUTINES, "other routines"), 0)
        for part in parts:
            function, count = part.rsplit("=", 1)
            group = next((name for name, pattern in ROUTINES.items() if re.match(pattern, function)), "other routines")
            self.parts["own code" if function in own else group] += int(count)


def read_events(path):
    events, row, counted = [], None, False
    for line in path.read_text().splitlines():
        if line.startswith("row "):
            row, counted = line[4:], False
        elif line == "counted":
            counted = True
        else:
            events.append(Event(line, row, counted))
    return events


def compare(folder, events):
    expected = (folder / "answers").read_text().splitlines()
    for side in SIDES:
        got = (folder / side / "answers").read_text().splitlines()
        for event, there, here in zip(events, expected, got):
            if there != here:
                sys.exit(f"{event.row}: {side} answers otherwise on the module\n{event.line}\nx86-64: {there}\nmodule: {here}")
        if not len(events) == len(expected) == len(got):
            sys.exit(f"{side}: {len(events)} events, {len(expected)} answers of x86-64, {len(got)} of the module")
    print(f"{len(events)} events, fed to both on the emulated Cortex-M0: every answer is x86-64's.")


def symbols(path):
    """Sizes of the symbols that an object defines."""
    lines = subprocess.check_output(["arm-none-eabi-nm", "-S", "--defined-only", path], text=True).splitlines()
    return {words[-1]: int(words[1], 16) if len(words) == 4 else 0 for words in map(str.split, lines)}


def read_calls(folder, side, events):
    own = symbols(folder / f"{side}.o")
    lines = (folder / side / "trace").read_text().splitlines()[1:]  # the first is the fresh axis with which c/replay.c begins
    if len(lines) != len(events):
        sys.exit(f"{side}: {len(events)} events, {len(lines)} calls")
    return [Call(line, own) for line in lines]


def linked(path, own):
    """Bytes by the linker's map: of the object its code, constants and data, and the routines pulled in."""
    kept = path.read_text().split("Linker script and memory map")[1]
    found = re.findall(r"^ \.(text|rodata|data|bss)\S*\s+0x[0-9a-f]+\s+0x([0-9a-f]+) (\S+)$", kept, re.M)
    sections = [(kind if file.endswith(own) else "routines", int(size, 16)) for kind, size, file in found]
    return [sum(size for kind, size in sections if kind in kinds) for kinds in (("text",), ("rodata",), ("data", "bss"), ("routines",))]


def print_table(head, rows):
    print(f"\n| {' | '.join(head)} |\n|{'---|' * len(head)}")
    for row in rows:
        print(f"| {' | '.join(map(str, row))} |")


def counted_rows(events):
    """The places of what each row counts: its words and ticks, among which a script has fresh axes and sheets, or, as the writer, its sheet."""
    rows = {}
    for place, event in enumerate(events):
        if event.counted:
            rows.setdefault(event.row, []).append(place)
    return {row: [place for place in places if events[place].keyword in ("word", "tick")] or places for row, places in rows.items()}


def row_table(rows, calls):
    """Prints the means of each row; returns the ratio of the instructions of each."""
    table, ratios = [], {}
    for row, places in rows.items():
        mean = lambda figure: [sum(figure(side[place]) for place in places) / len(places) for side in calls]
        instructions, cycles = mean(lambda call: call.instructions), mean(lambda call: call.cycles)
        table.append([row, *(cell for a, b in (instructions, cycles) for cell in (f"{a:.0f}", f"{b:.0f}", f"{a / b:.2f}"))])
        ratios[row] = instructions[0] / instructions[1]
    print_table(("for each", "instructions, proved", "baseline", "ratio", "cycles, proved", "baseline", "ratio"), table)
    return ratios


def worst_table(events, calls):
    """Prints the worst of each kind of event; returns the proved instructions of each with their event, and the stack that both take."""
    table, figures, stacks = [], {}, {}
    for kind in "tick without floats", "hybrid tick", "end word", "other word", "settings written", "fresh axis":
        places = [place for place, event in enumerate(events) if event.kind == kind]
        most = lambda figure: [max(figure(side[place]) for place in places) for side in calls]
        instructions, cycles = most(lambda call: call.instructions), most(lambda call: call.cycles)
        table.append([kind, *instructions, *cycles, *(f"{c / MHZ:.1f}" for c in cycles)])
        worst = max(places, key=lambda place: calls[0][place].instructions)
        figures[f"instructions, worst {kind}"] = instructions[0], events[worst].line
        stacks[kind] = most(lambda call: call.stack)
    head = "worst of all events", "instructions, proved", "baseline", "cycles, proved", "baseline", f"µs at {MHZ} MHz, proved", "baseline"
    print_table(head, table)
    return figures, stacks


def size_table(folder, stacks):
    """Prints what each side takes of RAM and flash; returns the proved bytes."""
    words = re.search(r"#define AXIS_WORDS +(\d+)", (HERE.parent / "c/axis.h").read_text())[1]
    table = [["axis, lent", 4 * int(words), symbols(folder / "baseline.o")["BASELINE_AXIS"]]]
    for name, kinds in ("tick", ("tick without floats", "hybrid tick")), ("word", ("end word", "other word")), ("writer", ("settings written",)):
        table.append([f"stack, {name}", *map(max, zip(*(stacks[kind] for kind in kinds)))])
    for name, file in ("axis calls", "calls.map"), ("writer", "writer.map"):
        sizes = zip(*(linked(folder / side / file, f"{side}.o") for side in SIDES))
        table += [[f"{part}, {name}", *pair] for part, pair in zip(("code", "constants", "RAM of its own", "routines pulled in"), sizes)]
    print_table(("bytes", "proved", "baseline"), table)
    return {f"bytes, {name}": (size, None) for name, size, _ in table}


def gear_table(folder):
    """Prints what each gear takes alone; returns how the proved narrow one compares with the wide one, and what it spends in 64-bit routines."""
    answers = [(folder / f"{side}_gears/answers").read_text().splitlines() for side in SIDES]
    traces = [(folder / f"{side}_gears/trace").read_text().splitlines() for side in SIDES]
    owns = [symbols(folder / file) for file in ("gears.o", "baseline.o")]
    calls = [[Call(line, own) for line in trace] for trace, own in zip(traces, owns)]
    rows, place = {}, 0
    for line, baseline in zip(*answers, strict=True):
        if line.startswith("row "):
            name = line[4:]
            row = rows.setdefault(name, [])
            continue
        target, answered, count, wide_count = map(int, line.split())
        if line != baseline or (answered and count != wide_count):
            sys.exit(f"{name}: the gears differ\nproved: {line}\nbaseline: {baseline}")
        row += [place, place + 1]
        place += 2
    table, figures = [], {}
    for row, places in rows.items():
        mean = lambda side, places: sum(side[at].instructions for at in places) / len(places)
        narrow, wide = ([mean(side, places[way::2]) for side in calls] for way in (0, 1))
        ratio = narrow[0] / wide[0]
        table.append([row, *(f"{figure:.0f}" for figure in (*narrow, *wide)), f"{ratio:.2f}"])
        figures[f"ratio, narrow gear to wide, {row}"] = ratio, None
    head = "a gear alone, instructions", "narrow, proved", "baseline", "wide, proved", "baseline", "narrow to wide, proved"
    print_table(head, table)
    figures["instructions, 64-bit routines in the narrow gear"] = sum(call.parts["64-bit arithmetic"] for call in calls[0][::2]), None
    return figures


def part_table(rows, calls):
    """Prints where the instructions of the proved side go."""
    table = []
    for row, places in rows.items():
        here = [calls[place] for place in places]
        sums = [sum(call.parts[part] for call in here) for part in here[0].parts] + [sum(call.traffic for call in here)]
        table.append([row, *(f"{count / len(here):.0f}" for count in sums)])
    print_table(("instructions, proved, in", *calls[0].parts, "of all these, loads and stores of the stack"), table)


def over_budget(ratios, figures):
    lines = [line.split(None, 1) for line in (HERE / "budgets").read_text().splitlines() if line and not line.startswith("#")]
    for limit, what in lines:
        of = [(ratio, row) for row, ratio in ratios.items() if EACH_ROW[what](row)] if what in EACH_ROW else [figures[what]]
        yield from (f"{what}: {round(figure, 3)}, at most {limit}{f': {at}' if at else ''}" for figure, at in of if figure > float(limit))


def main(folder):
    events = read_events(folder / "rows")
    compare(folder, events)
    calls = [read_calls(folder, side, events) for side in SIDES]
    rows = counted_rows(events)
    ratios = row_table(rows, calls)
    figures, stacks = worst_table(events, calls)
    figures.update(size_table(folder, stacks))
    figures.update(gear_table(folder))
    part_table(rows, calls[0])
    exceeded = list(over_budget(ratios, figures))
    print("\nbudgets exceeded:" if exceeded else "\nwithin all budgets", *exceeded, sep="\n  ")
    sys.exit(bool(exceeded))


main(Path(sys.argv[1]))
