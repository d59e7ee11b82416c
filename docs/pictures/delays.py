#!/usr/bin/env python3
"""The delays of MIPS I on an axis of time: in the row of a word, what it starts; in the rows below it, what isn't ready. Draws
delays.svg from the rows of CASES."""
from draw import arrow, box, main, svg, text

# A case: its name; rows of a word, its kind, and a note; and spans: from row, to row, what lasts so long.
CASES = [
    ("Load delay", [
        ("lw $8,0($29)", "box", ""),
        ("nop", "plain", "must not read or write $8 (M1)"),
        ("addu $9,$8,$8", "box", "sees the loaded word"),
    ], [(0, 2, "$8 arrives")]),
    ("Branch delay", [
        ("beq $8,$0,6", "box", "reads $8 now"),
        ("addiu $9,$9,1", "box", "the slot: runs, taken or not"),
        ("block 6, or the next", "plain", ""),
    ], [(0, 2, "the branch takes effect")]),
    ("Product delay", [
        ("mflo $4", "box", "reads LO"),
        ("nop", "plain", "no product yet (M2)"),
        ("nop", "plain", "no product yet (M2)"),
        ("mult $5,$6", "box", "may change LO"),
    ], [(0, 3, "LO may change")]),
]
STEP, WIDE, LEFT = 30, 180, 70


def picture():
    parts, y = [], 30
    for name, rows, spans in CASES:
        parts += [text(LEFT, y, name, "bold"), text(20, y + 26, "time", "small dim"), arrow([(30, y + 34), (30, y + 8 + STEP * len(rows))])]
        for n, (word, kind, note) in enumerate(rows):
            top = y + 12 + STEP * n
            parts += [box(LEFT, top, WIDE, STEP - 6, kind, 3), text(LEFT + 10, top + 16, word, "mono"),
                      text(LEFT + WIDE + 180, top + 16, note, "dim")]
        for first, last, words in spans:
            top, low = y + 12 + STEP * first + 12, y + 12 + STEP * last + 8
            x = LEFT + WIDE + 14
            parts += [arrow([(LEFT + WIDE, top), (x, top), (x, low), (LEFT + WIDE, low)]), text(x + 8, (top + low) / 2 + 4, words, "small")]
        y += 12 + STEP * len(rows) + 34
    return svg(680, y - 12, "The delays of MIPS I on an axis of time", parts)


if __name__ == "__main__":
    main({"delays.svg": picture()})
