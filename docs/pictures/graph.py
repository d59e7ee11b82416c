#!/usr/bin/env python3
"""The graph of main of examples/programs/squares.c, as RTL and as blocks. Draws graph.svg from what tests/show/graphs.case says
that `mcc show --dot` prints."""
import re

from draw import TOP, arrow, box, main, svg, text

STEP, WIDE = 18, 210


def graphs():
    """Of each graph its blocks, with their lines, and its edges with their labels."""
    said = (TOP / "tests/show/graphs.case").read_text()
    for graph in re.findall(r"^digraph.*?^}", said, re.M | re.S)[:2]:
        blocks = {int(n): words.split("\\l")[:-1] for n, words in re.findall(r'b(\d+) \[label="(.*?)"\]', graph)}
        edges = [(int(a), int(b), label) for a, b, label in re.findall(r'b(\d+) -> b(\d+) \[(?:label="(\w+)")?', graph)]
        yield blocks, edges


def order_of(blocks, edges):
    """The blocks from the first on, each before those that it falls or jumps to."""
    order, seen = [], set()

    def visit(block):
        if block not in seen:
            seen.add(block)
            for _, to, _ in sorted((it for it in edges if it[0] == block), key=lambda it: it[2] == "taken"):
                visit(to)
            order.insert(0, block)

    visit(min(blocks))
    return order


def draw(x, name, blocks, edges):
    parts, at, y = [text(x, 22, name, "bold")], {}, 36
    order = order_of(blocks, edges)
    for block in order:
        high = STEP * len(blocks[block]) + 8
        at[block] = (y, high)
        parts.append(box(x, y, WIDE, high, "box"))
        parts += [text(x + 10, y + 17 + STEP * n, words, "mono small" if n else "bold small") for n, words in enumerate(blocks[block])]
        y += high + 30
    left = right = 0
    for a, b, label in edges:
        (top, high), (low, deep) = at[a], at[b]
        if low > top and order.index(b) == order.index(a) + 1:
            parts += [arrow([(x + WIDE / 2, top + high), (x + WIDE / 2, low)]), text(x + WIDE / 2 + 6, top + high + 18, label, "small dim")]
        elif low > top:
            left += 1
            lane, end = x - 12 * left, low + 4 + 8 * left
            parts += [arrow([(x, top + high - 12), (lane, top + high - 12), (lane, end), (x, end)], "line dash"),
                      text(lane - 4, top + high - 2, label, "small dim", "end")]
        else:
            right += 1
            lane = x + WIDE + 16 * right
            parts += [arrow([(x + WIDE, top + high - 12), (lane, top + high - 12), (lane, low + 12), (x + WIDE, low + 12)], "blue"),
                      text(lane + 4, (top + low + deep) / 2 + 20, label, "small dim")]
    return parts, y


def picture():
    (machine, rtl) = graphs()
    first, high = draw(70, "RTL", *rtl)
    second, deep = draw(430, "MIPS blocks", *machine)
    return svg(720, max(high, deep), "The graph of main: RTL and MIPS blocks", [*first, *second])


if __name__ == "__main__":
    main({"graph.svg": picture()})
