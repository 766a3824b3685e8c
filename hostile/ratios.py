"""How the time and the memory of a run grow with its text: a table in the form of docs/PERFORMANCE.md."""
from texts import LIMIT, SHAPES, rules_and_lines

SMALL = LIMIT // 10

# What takes rules times lines is measured at these many bytes, each some three times the one before.
MANY_LINES = (13_000, 42_000, 132_000)

# Among how many rulesets, and under how many offsets, the lines go round.
PAIRS = ((1, 1), (1, 2), (2, 1), (4, 2), (8, 1), (3, 3), (1, 12), (1, 40), (10, 10), (1, 1440))


def measured(runner, program, text):
    """The least milliseconds of the processor in three runs (in one, where it is long), the most memory in MB, and the status; None where
    a run was ended past its time, before it could count."""
    path, least = runner.keep(text), None
    for _ in range(3):
        run = runner.run(program.name, program.words_for(path, "A"), text, told={})
        if not run.counts:
            least = None
            break
        *_, memory, taken = run.counts
        least = taken if least is None else min(least, taken)
        if taken > 3000:
            break
    runner.drop(path)
    return None if least is None else (max(least, 1), memory / 1e3, run.status)


def cells(measure):
    """What is shown of a measure: the time, with the status that isn't 0, and the memory."""
    if measure is None:
        return "past its time", ""
    taken, memory, status = measure
    return f"{taken} ms" if status == 0 else f"{taken} ms, status {status}", f"{memory:.0f}"


def ratio(small, large, place):
    """How many times a number of one measure is that of another, where both are known."""
    return "" if None in (small, large) else f"{large[place] / small[place]:.0f}"


def show(runner, programs):
    """A row for each shape of text, by a program that asks for the zone A."""
    program = next(program for program in programs if program.name == "zone_list")
    print("| Text | 1.6 MiB | 16 MiB | ratio | memory, MB | ratio |\n|---|---|---|---|---|---|")
    for name, (make, _) in SHAPES.items():
        small, large = (measured(runner, program, make(size)) for size in (SMALL, LIMIT))
        (time_1, memory_1), (time_10, memory_10) = cells(small), cells(large)
        print(f"| {name} | {time_1} | {time_10} | {ratio(small, large, 0)} | {memory_1}, {memory_10} | {ratio(small, large, 1)} |", flush=True)
    print("\n| Rulesets, offsets | rules, lines | time | memory, MB |\n|---|---|---|---|")
    for rulesets, offsets in PAIRS:
        for size in MANY_LINES:
            text = rules_and_lines(size, rulesets, offsets)
            rules, lines = text.count(b"Rule"), text.count(b"%sB")
            taken, memory = cells(measured(runner, program, text))
            print(f"| {rulesets}, {offsets} | {rules}, {lines} | {taken} | {memory} |", flush=True)
