#!/usr/bin/env python3
"""The life of a term: two workers intern one tree at once, and what becomes of their nodes. Draws term.svg; the kinds of step are the
comment at the head of crates/term_core/specs/World.antt."""
import re

from draw import TOP, arrow, box, line, main, svg, text

A, CHAIN, B = 115, 430, 745
# Each step: by whom, its kind, what it does, and what comes of it.
STEPS = [
    (A, "S1", "load the chain's link", "none"),
    (B, "S1", "load the chain's link", "none"),
    (A, "S3", "store label and children into its own node", "not linked yet"),
    (B, "S3", "the same into its own node", "not linked yet"),
    (A, "S4", "exchange the link from none to A's node", "won: a new ticket"),
    (B, "S4", "exchange the link", "taken: it finds A's node"),
    (B, "S2", "load that node's content", "the same tree: the same ticket"),
]


def kinds():
    head = (TOP / "crates/term_core/specs/World.antt").read_text().split("\nuse ")[0]
    return re.findall(r"(S\d) ([^,.]*)", " ".join(it.removeprefix("--").strip() for it in head.splitlines()))


def picture():
    parts = []
    for x, name in ((A, "worker A"), (CHAIN, "shared words of one chain"), (B, "worker B")):
        parts += [box(x - 105, 14, 210, 28, "plain" if x == CHAIN else "box"), text(x, 33, name, "bold", "middle"),
                  line([(x, 42), (x, 370)], "line dash")]
    y = 72
    for by, kind, does, becomes in STEPS:
        parts += [arrow([(by, y), (CHAIN, y)]), text((by + CHAIN) / 2, y - 6, f"{kind} {does}", "small", "middle"),
                  text((by + CHAIN) / 2, y + 14, becomes, "small dim", "middle")]
        if becomes.endswith("ticket"):
            beside, anchor = (CHAIN + 14, "start") if by == A else (CHAIN - 14, "end")
            parts += [box(CHAIN - 7, y - 7, 14, 14, "warm", 7), text(beside, y + 4, "here this call enters the history", "small", anchor)]
        y += 42
    y += 24
    for n, (kind, does) in enumerate(kinds()):
        parts += [text(20 + 450 * (n % 2), y + 22 * (n // 2), kind, "bold"), text(50 + 450 * (n % 2), y + 22 * (n // 2), does, "dim")]
    return svg(860, y + 36, "The life of a term in the table", parts)


if __name__ == "__main__":
    main({"term.svg": picture()})
