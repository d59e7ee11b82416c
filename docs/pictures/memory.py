#!/usr/bin/env python3
"""The bytes of an image in both versions, and where its parts are in memory. Draws memory.svg: the addresses are those of
crates/mips_isa/specs/MemoryMap.antt, the heads those of crates/image/specs/Images.antt."""
import re

from draw import TOP, arrow, box, main, svg, text

WORDS = {"magic": "MCCI", "n": "code words", "e": "entry", "d": "data bytes", "d / 4": "data words"}
HIGH, NARROW, FIELD = 34, 54, 76


def addresses():
    said = (TOP / "crates/mips_isa/specs/MemoryMap.antt").read_text()
    return {name: int(value) for name, value in re.findall(r"^(\w+) = (\d+)$", said, re.M)}


def head(version):
    """The fields of a version's head: the counts of a report as one field."""
    said = (TOP / "crates/image/specs/Images.antt").read_text()
    fields = re.search(rf"^head_of {re.escape(version)} n e d = (.*) ∷ \[\]$", said, re.M)[1].split(" ∷ ")
    counts = [it.removeprefix("c.") for it in fields if it.startswith("c.")]
    return [WORDS.get(it, it) for it in fields if not it.startswith("c.")], counts


def image(x, y, version, name):
    fields, counts = head(version)
    size = 4 * (len(fields) + len(counts))
    parts = [text(x, y - 10, f"{name}: a head of {size} bytes, then code and data", "bold")]
    for field in fields:
        wide = FIELD if " " in field else NARROW
        parts += [box(x, y, wide, HIGH, "plain", 2), text(x + wide / 2, y + 21, field, "small", "middle")]
        x += wide
    if counts:
        parts += [box(x, y, 290, HIGH, "plain", 2), text(x + 145, y + 15, f"{len(counts)} counts of the report", "small", "middle"),
                  text(x + 145, y + 28, ", ".join(it.replace("_", " ") for it in counts), "small dim", "middle")]
        x += 290
    parts += [box(x, y, 110, HIGH, "box", 2), text(x + 55, y + 21, "code", "", "middle"),
              box(x + 110, y, 90, HIGH, "green", 2), text(x + 155, y + 21, "data", "", "middle")]
    return parts


def picture():
    at = addresses()
    parts = [*image(20, 34, "(Second c)", "Version 2"), *image(20, 100, "First", "Version 1")]
    y = 196
    parts.append(text(20, y - 22, "In memory (not to scale); an address is that of a region's first byte", "bold"))
    x = 20
    for name, address, kind, wide, words in [
            ("", None, "plain", 70, ""), ("code", at["code_base"], "box", 150, "only fetched"), ("", None, "plain", 60, ""),
            ("data", at["data_base"], "green", 150, "at most 1 MiB"), ("", None, "plain", 130, ""),
            ("stack", at["stack_base"], "warm", 170, f"{(at['stack_end'] - at['stack_base']) >> 20} MiB, grows down"),
            ("", at["stack_end"], "plain", 80, "")]:
        parts.append(box(x, y, wide, HIGH, kind if name else "plain dash", 2))
        if name:
            parts += [text(x + wide / 2, y + 15, name, "bold", "middle"), text(x + wide / 2, y + 28, words, "small dim", "middle")]
        if address is not None:
            parts.append(text(x, y + HIGH + 15, f"0x{address:08x}", "mono small"))
        x += wide
    parts += [arrow([(712, y + 74), (750, y + 74), (750, y + HIGH + 20)]),
              text(706, y + 78, "register 29 at the start", "small dim", "end")]
    return svg(860, 286, "The bytes of an image, and where its parts are in memory", parts)


if __name__ == "__main__":
    main({"memory.svg": picture()})
