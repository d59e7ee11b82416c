"""What the pictures of docs/ have in common: SVG that reads in light and in dark, by Python's standard library alone.

Each picture is a script of this folder whose `pictures()` gives file names and their SVG; `.ci/pictures` runs them all.

    docs/pictures/NAME.py            writes its pictures
    docs/pictures/NAME.py --check    fails where a picture isn't what its data give
"""
import sys
from pathlib import Path
from xml.sax.saxutils import escape

HERE = Path(__file__).resolve().parent
TOP = HERE.parent.parent
STYLE = """<style>
text { font: 13px system-ui, sans-serif; fill: #1f2937; } .mono { font-family: ui-monospace, monospace; } .dim { fill: #6b7280; }
.bold { font-weight: 600; } .small { font-size: 11px; } .box { fill: #dfe9fb; stroke: #5b84d6; }
.plain { fill: #f9fafb; stroke: #9ca3af; }
.warm { fill: #fde9d3; stroke: #d9822b; } .green { fill: #d9f2e3; stroke: #2e9e6b; }
.line { stroke: #6b7280; fill: none; stroke-width: 1.4; }
.blue { stroke: #2f6fdf; fill: none; stroke-width: 1.6; } .red { stroke: #d9482b; fill: none; stroke-width: 1.6; } .head { fill: #6b7280; }
.dash { stroke-dasharray: 5 4; } .ink0 { fill: #8a8f98; } .ink1 { fill: #2f6fdf; } .ink2 { fill: #d9822b; } .ink3 { fill: #2e9e6b; }
.line0 { stroke: #8a8f98; } .line1 { stroke: #2f6fdf; } .line2 { stroke: #d9822b; } .line3 { stroke: #2e9e6b; }
.line0, .line1, .line2, .line3 { fill: none; stroke-width: 2; }
@media (prefers-color-scheme: dark) { text { fill: #e5e7eb; } .dim { fill: #9ca3af; } .box { fill: #1e3357; } .plain { fill: #1f2430; }
.warm { fill: #4a3118; } .green { fill: #17402c; } .line { stroke: #9ca3af; } .head { fill: #9ca3af; } .blue { stroke: #7aa7ff; }
.red { stroke: #ff8a70; } }
</style>"""


def svg(width, height, title, parts):
    head = f'<svg xmlns="http://www.w3.org/2000/svg" viewBox="0 0 {width} {height}" width="{width}" height="{height}" role="img">'
    return "\n".join([head, f"<title>{escape(title)}</title>", STYLE, *parts, "</svg>", ""])


def text(x, y, words, kind="", anchor="start"):
    kind = f' class="{kind}"' if kind else ""
    anchor = "" if anchor == "start" else f' text-anchor="{anchor}"'
    return f'<text x="{x}" y="{y}"{kind}{anchor}>{escape(str(words))}</text>'


def box(x, y, width, height, kind="box", round=4, title=""):
    inside = f"<title>{escape(title)}</title>" if title else ""
    return f'<rect class="{kind}" x="{x}" y="{y}" width="{width}" height="{height}" rx="{round}">{inside}</rect>'


def line(points, kind="line"):
    return f'<polyline class="{kind}" points="{" ".join(f"{x},{y}" for x, y in points)}"/>'


def arrow(points, kind="line"):
    """A line whose last part, along an axis, ends in a head."""
    (x0, y0), (x, y) = points[-2:]
    dx, dy = (x > x0) - (x < x0), (y > y0) - (y < y0)
    back = [(x - 8 * dx - 4 * dy, y - 8 * dy - 4 * dx), (x - 8 * dx + 4 * dy, y - 8 * dy + 4 * dx)]
    corners = " ".join(f"{a},{b}" for a, b in [(x, y), *back])
    return line([*points[:-1], (x - 6 * dx, y - 6 * dy)], kind) + f'<polygon class="head" points="{corners}"/>'


def main(made):
    if "--check" not in sys.argv:
        for name, picture in made.items():
            (HERE / name).write_text(picture)
        return
    stale = [name for name, picture in made.items() if not (HERE / name).exists() or (HERE / name).read_text() != picture]
    if stale:
        sys.exit(f"{Path(sys.argv[0]).name}: not what the data give: {', '.join(stale)}; without --check it draws them")
