#!/usr/bin/env python3
"""From C to an image: what is proved, what is checked each time, and what is trusted. Draws pipeline.svg."""
from draw import arrow, box, main, svg, text

# The steps of `mcc build`, each with the crate that takes it to the next one (docs/ARCHITECTURE.md).
STEPS = ["C source", "typed program", "RTL", "MIPS blocks", "ordered blocks", "image"]
CRATES = ["c_front, c_types", "rtl_lower", "mips_select", "sched_phase", "mips_asm"]
WIDE, GAP, TOP = 120, 34, 60


def picture():
    parts, y = [], TOP
    for n, name in enumerate(STEPS):
        x = 20 + n * (WIDE + GAP)
        parts += [box(x, y, WIDE, 36), text(x + WIDE / 2, y + 23, name, "bold", "middle")]
        if n:
            parts += [arrow([(x - GAP, y + 18), (x, y + 18)]), text(x - GAP / 2, y - 10, CRATES[n - 1], "small dim", "middle")]
    block, kept = 20 + 3 * (WIDE + GAP) + WIDE / 2, 20 + 4 * (WIDE + GAP) + WIDE / 2
    low = y + 110
    parts += [box(block - 200, low, 150, 40, "warm dash", 18), text(block - 125, low + 17, "scheduler", "bold", "middle"),
              text(block - 125, low + 32, "untrusted, any", "small dim", "middle"),
              arrow([(block - 20, y + 36), (block - 20, y + 70), (block - 125, y + 70), (block - 125, low)]),
              text(block - 98, y + 64, "a block", "small dim"),
              box(block + 20, low, 150, 40), text(block + 95, low + 17, "validator", "bold", "middle"),
              text(block + 95, low + 32, "block_validator", "small dim", "middle"),
              arrow([(block - 50, low + 20), (block + 20, low + 20)]), text(block - 15, low + 36, "proposed", "small dim", "middle"),
              arrow([(block + 20 + 20, y + 36), (block + 40, low)]), text(block + 46, y + 64, "the block", "small dim"),
              arrow([(kept - 16, low), (kept - 16, y + 36)]), text(kept - 8, low - 40, "same: the proposed order", "small dim"),
              text(kept - 8, low - 26, "else: the block's own order, with nops", "small dim")]
    y = low + 60
    parts += [box(20, y, 890, 30, "plain"),
              text(465, y + 20, "below it, trusted: Rattle's compiler and prover, LLVM, the C library, the host", "", "middle")]
    for n, (kind, name) in enumerate([("box", "proved"), ("warm dash", "untrusted, each result is checked"), ("plain", "trusted")]):
        x = [20, 130, 410][n]
        parts += [box(x, y + 46, 26, 15, kind, 3), text(x + 34, y + 58, name)]
    return svg(930, y + 76, "From C to an image: what is proved, untrusted and trusted",
               [text(20, 24, "mcc build", "mono bold"),
                text(105, 24, "every arrow is a proved pass; the crate is above it", "dim"), *parts])


if __name__ == "__main__":
    main({"pipeline.svg": picture()})
