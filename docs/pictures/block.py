#!/usr/bin/env python3
"""A block, the order that is proposed for it, what moved, and the verdict. Draws block-NAME.svg for some of
examples/checks, with the verdicts of tests/examples/check.case, which the gate compares with `mcc check`."""
import re

from draw import TOP, box, line, main, svg, text

NAMES = ["load-moved-apart", "branch-operand-in-slot", "stores-swapped", "slot-filled"]
LEFT, RIGHT, WIDE, STEP, FIRST = 20, 330, 210, 27, 34


def read(name):
    said = (TOP / f"examples/checks/{name}.check").read_text()
    block, order = said.removeprefix("block\n").split("order\n")
    return block.splitlines(), order.splitlines()


def verdict_of(name):
    said = (TOP / "tests/examples/check.case").read_text()
    return re.search(rf"^(.*?) \| {name}$", said, re.M)[1]


def row(x, y, words, kind):
    return [box(x, y, WIDE, STEP - 4, kind, 3), text(x + 10, y + 16, words, "mono")]


def picture(name):
    block, order = read(name)
    is_slot = order[-1].startswith("slot ")
    exit_at = len(order) - (2 if is_slot else 1)
    words = [it.removeprefix("slot ") for it in order]
    parts, used = [text(LEFT, 22, "the block", "bold"), text(RIGHT, 22, "the proposed order", "bold")], set()
    for n, said in enumerate(block):
        y = FIRST + STEP * n
        parts += row(LEFT, y, said, "plain" if n == len(block) - 1 else "box")
        to = next((k for k, it in enumerate(words) if k not in used and it == said), None)
        if to is not None:
            used.add(to)
            parts.append(line([(LEFT + WIDE, y + 11), (RIGHT, FIRST + STEP * to + 11)], "line" if to == n else "blue"))
    for n, said in enumerate(order):
        kind = "warm" if n > exit_at else "plain" if n == exit_at or said == "nop" else "box"
        parts += row(RIGHT, FIRST + STEP * n, "slot: " + words[n] if n > exit_at else said, kind)
    y = FIRST + STEP * max(len(block), len(order)) + 18
    verdict = verdict_of(name)
    parts.append(text(LEFT, y, f"mcc check: {verdict}", "bold"))
    return svg(560, y + 12, f"{name}: {verdict}", parts)


if __name__ == "__main__":
    main({f"block-{name}.svg": picture(name) for name in NAMES})
