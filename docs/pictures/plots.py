#!/usr/bin/env python3
"""The plots of docs/FIGURES.md: words.svg from tests/builds/programs.case, which the gate compares with runs, and docs/figures/gcc.csv;
builds.svg, runs.svg, steps.svg, table.svg and workers.svg from the files of docs/figures with these names."""
import csv
import math
import re

from draw import TOP, box, line, main, svg, text


def rows(name):
    with open(TOP / "docs" / "figures" / f"{name}.csv", newline="") as file:
        return list(csv.DictReader(it for it in file if not it.startswith("#")))


def legend(names, x, y, step=150):
    return [it for n, name in enumerate(names)
            for it in (box(x + step * n, y - 10, 12, 12, f"ink{n}", 2), text(x + step * n + 18, y, name, "small"))]


def bars(title, groups, names, left=150, wide=420):
    """Horizontal bars: groups of (label, values), a bar for each name."""
    most = max(value for _, values in groups for value in values)
    parts, y = [text(20, 20, title, "bold"), *(legend(names, 20, 40) if len(names) > 1 else [])], 58 if len(names) > 1 else 34
    for label, values in groups:
        parts.append(text(left - 8, y + 6.5 * len(values) + 4, label, "small", "end"))
        for n, value in enumerate(values):
            size = round(wide * value / most, 1)
            ink = n if len(names) > 1 else int(label.startswith("mcc"))
            parts += [box(left, y + 13 * n, size, 11, f"ink{ink}", 1), text(left + size + 6, y + 13 * n + 10, f"{value:g}", "small dim")]
        y += 13 * len(values) + 12
    return svg(left + wide + 90, y + 2, title, parts)


def words():
    said = (TOP / "tests/builds/programs.case").read_text()
    counts = re.findall(r"^\w+ \| .* \| (\d+) \| (\d+)$", said, re.M)
    sums = [(f"mcc, {name}", sum(map(int, found))) for name, found in zip(("plain", "scheduled"), zip(*counts))]
    sums += [(it["compiler"], int(it["words run"])) for it in rows("gcc")]
    groups = [(name, [round(count / 1e6, 2)]) for name, count in sums]
    return bars("Words that eight programs run, in millions (fewer is better)", groups, ["words"])


def logarithmic(title, groups, unit, left=190, wide=420):
    """Bars on a logarithmic axis, under a heading for each group of (label, value): ours in blue, the others in grey."""
    values = [value for _, rows_ in groups for _, value in rows_]
    low, high = math.floor(math.log10(min(values))), math.log10(max(values))
    parts, y = [text(20, 20, title, "bold")], 30
    for heading, rows_ in groups:
        if heading:
            y += 20
            parts.append(text(20, y, heading, "small bold"))
        for label, value in rows_:
            y += 15
            size = round(max(2, wide * (math.log10(value) - low) / (high - low)), 1)
            parts += [text(left - 8, y + 4, label, "small", "end"), box(left, y - 5, size, 11, f"ink{int(label.startswith('mcc'))}", 1),
                      text(left + size + 6, y + 4, f"{value:g} {unit}", "small dim")]
    return svg(left + wide + 90, y + 18, title, parts)


def builds():
    found = rows("builds")
    groups = [(f"{size} of C", [(it["compiler"], float(it[size])) for it in found]) for size in found[0] if size != "compiler"]
    return logarithmic("CPU time of a build (logarithmic, less is better)", groups, "ms")


def runs():
    found = rows("runs")
    measured = [it for it in found[0] if it != "program"][0]
    groups = [("", [(it["program"], float(it[measured])) for it in found])]
    return logarithmic(f"CPU time of a run: {measured} (logarithmic, less is better)", groups, "ms")


def table():
    """A line from new terms to the same again, for ours and for DashMap, on a logarithmic axis."""
    title, left, ticks = "Millions of interns a second (to the right is better)", 190, [1, 2, 5, 10, 20, 50, 100, 200, 500]
    across = lambda value: round(left + 420 * math.log(value, 500), 1)
    parts = [text(20, 20, title, "bold"), *legend(["DashMap 5.4", "mcc's table"], 20, 42),
             text(320, 42, "left end: new terms, right end: the same again", "small dim")]
    y, group = 60, None
    for it in rows("table"):
        if it["terms"] != group:
            group, y = it["terms"], y + 22
            parts.append(text(20, y - 4, f"{int(group):,} terms", "small bold"))
        threads = it["threads"] + " thread" + "s" * (it["threads"] != "1")
        parts.append(text(left - 8, y + 13, f"{it['order']}, {threads}", "small", "end"))
        for n, name in enumerate(["DashMap", "mcc"]):
            ends = [float(it[f"{name} {when}"]) for when in ("new", "again") if it[f"{name} {when}"]]
            if ends:
                at = y + 6 + 7 * n
                parts.append(line([(across(end), at) for end in ends], f"line{n}"))
                parts += [box(across(end) - 3, at - 3, 6, 6, f"ink{n}", 3, f"{end:g}") for end in ends]
        y += 22
    parts += [it for tick in ticks for it in (line([(across(tick), 66), (across(tick), y + 2)], "line dash"),
                                              text(across(tick), y + 16, tick, "small dim", "middle"))]
    return svg(left + 450, y + 26, title, parts)


def steps():
    groups = [(f"mcc, {it['step']}", [float(it["to gcc -O1"])]) for it in rows("steps")] + [("gcc -O1", [1.0])]
    return bars("Words to gcc -O1 step by step, mean of eight programs (less is better)", groups, ["words"], 230, 380)


def workers():
    names = {"plain": "mcc --plain", "1": "1 worker"}
    groups = [(names.get(it["workers"], it["workers"] + " workers"), [float(it["CPU ms"]), float(it["clock ms"])]) for it in rows("workers")]
    return bars("A build of 1 MiB of C, ms (less is better)", groups, ["CPU time", "clock"])


if __name__ == "__main__":
    main({"words.svg": words(), "builds.svg": builds(), "runs.svg": runs(), "steps.svg": steps(), "table.svg": table(), "workers.svg": workers()})
