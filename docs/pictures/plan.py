#!/usr/bin/env python3
"""What to read of the headline's definitions, and in what time: a box for each file, as high as its lines. Draws plan.svg from the two
tables of docs/BELIEVE.md, which .ci/believe makes."""
import re

from draw import TOP, box, main, svg, text

WIDE, GAP, KINDS = 178, 14, ["warm", "box", "green", "plain"]


def plan():
    """Each time with its files, and how many lines of each file count for `mcc build`."""
    said = (TOP / "docs/BELIEVE.md").read_text()
    header = re.search(r"^\|Definitions\|.*$", said, re.M)[0].strip("|").split("|")
    rows = [line.strip("|").split("|") for line in said.splitlines() if re.match(r"^\|\w+/\w+\|", line)]
    sizes = {it[0]: int(it[header.index("B")]) for it in rows if len(it) > header.index("B") and it[header.index("B")]}
    times = [(time, re.findall(r"`(\w+/\w+)`", files)) for time, files in re.findall(r"^\|(\d[\w ]*)\|(.*?)\|", said, re.M)]
    first = [file for _, files in times for file in files]
    return [(time, [(file, sizes.get(file, 0)) for file in files or [it for it in sizes if it not in first]]) for time, files in times]


def picture():
    parts, deepest, x = [], 0, 20
    for n, (time, files) in enumerate(plan()):
        kind = KINDS[n]
        count = sum(size for _, size in files)
        parts += [text(x, 20, f"{'+ ' if n else ''}{time}", "bold"), text(x, 36, f"{len(files)} files, {count:,} lines", "small dim")]
        y, column = 46, 0
        for file, size in files:
            high = max(16, round(size * 0.32))
            if y + high > 640:
                x, y, column = x + WIDE + 6, 46, column + 1
            parts += [box(x, y, WIDE, high, kind, 2), text(x + 6, y + 12, file, "small"),
                      text(x + WIDE - 6, y + 12, size, "small dim", "end")]
            y += high + 3
            deepest = max(deepest, y)
        x += WIDE + GAP
    return svg(x + 6, deepest + 8, "What to read of the definitions below the theorem, and in what time", parts)


if __name__ == "__main__":
    main({"plan.svg": picture()})
