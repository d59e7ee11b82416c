#!/usr/bin/env python3
"""The crates of mcc in the layers of crates.txt, and what each layer depends on. Draws crates.svg from crates.txt."""
import re

from draw import TOP, arrow, box, main, svg, text

OTHERS = {"tests", "figures", "examples", "page"}
LEFT, WIDE, HIGH, GAP, ROW = 170, 118, 26, 8, 6


def read():
    """The groups with their crates, and what each crate depends on directly."""
    groups, direct = [], {}
    for line in (TOP / "crates.txt").read_text().splitlines():
        if re.match(r"^# \w+$", line):
            groups.append((line[2:], []))
        elif ":" in line and not line.startswith("#"):
            name, _, bases = line.partition(":")
            direct[name.split()[0]] = [it for it in bases.split() if it in direct]
            groups[-1][1].append(name.split()[0])
    return [it for it in groups if it[0] not in OTHERS], direct


def edges(groups, direct):
    """Which groups a group depends on, without what follows from others."""
    group_of = {crate: group for group, crates in groups for crate in crates}
    below = {group: {group_of[base] for crate in crates for base in direct[crate]} - {group} for group, crates in groups}
    every = {}
    for group, _ in groups:
        every[group] = set(below[group]).union(*(every[it] for it in below[group]))
    return {group: [it for it in below[group] if not any(it in every[other] for other in below[group])] for group in below}


def picture():
    groups, direct = read()
    parts, at, y = [], {}, 16
    for group, crates in reversed(groups):
        rows = -(-len(crates) // ROW)
        high = rows * (HIGH + GAP) + GAP
        at[group] = (y, high)
        parts += [box(LEFT - 10, y, ROW * (WIDE + GAP) + 12, high, "plain"), text(LEFT - 18, y + high / 2 + 5, group, "bold", "end")]
        for n, crate in enumerate(crates):
            x, top = LEFT + (n % ROW) * (WIDE + GAP), y + GAP + (n // ROW) * (HIGH + GAP)
            parts += [box(x, top, WIDE, HIGH, "box", 3, f"{crate}: {', '.join(direct[crate]) or 'nothing'}"),
                      text(x + WIDE / 2, top + 17, crate, "small", "middle")]
        y += high + 18
    right = LEFT - 10 + ROW * (WIDE + GAP) + 12
    lane = 0
    for group, bases in edges(groups, direct).items():
        for base in sorted(bases, key=lambda it: -at[it][0]):
            (top, high), (low, deep) = at[group], at[base]
            if low - (top + high) < 30:
                x = right - 40
                parts.append(arrow([(x, top + high), (x, low)]))
            else:
                lane += 1
                x, end = right + 12 + 12 * lane, low + deep / 2 + 4 - 3 * lane
                parts.append(arrow([(right, top + high / 2), (x, top + high / 2), (x, end), (right, end)]))
    return svg(right + 24 + 12 * lane, y, "The crates in their layers", parts)


if __name__ == "__main__":
    main({"crates.svg": picture()})
