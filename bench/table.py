#!/usr/bin/env python3
"""usage: table.py MEASURED

Writes what the harness measured into docs/SPEED.md, between its two marks, and draws docs/speed.svg.
"""
import math
import pathlib
import platform
import sys

DOCS = pathlib.Path(__file__).resolve().parent.parent / "docs"
PEERS = ["Abseil", "Pearce-Kelly in Rust", "JGraphT"]
COLOURS = ["#1b6ca8", "#c8553d", "#7a7a7a"]
BEGIN = "<!-- measured: made by `make bench` -->\n"
END = "<!-- end of what was measured -->\n"


class Line:
    """What was measured of a workload: nanoseconds a saying, and microseconds of the slowest."""

    def __init__(self, text):
        name, cards, sayings, done, *numbers = text.rstrip("\n").split("\t")
        self.name = name
        self.cards = int(cards)
        self.sayings = int(sayings)
        self.done = int(done)
        self.times = [float(number) for number in numbers[:4]]
        self.slowest = [float(number) for number in numbers[4:]]

    def ratios(self):
        """The keeper's time over each peer's."""
        return [self.times[0] / time for time in self.times[1:]]


def shown(number):
    """A number with three digits that count, or all before the point."""
    if number >= 100:
        return f"{number:,.0f}"
    return f"{number:.1f}" if number >= 10 else f"{number:.2f}"


def table(lines):
    yield "| workload | cards | keeper, ns | Abseil | Pearce-Kelly in Rust | JGraphT | of Abseil's time | of Pearce-Kelly's | of JGraphT's | slowest, µs |\n"
    yield "|---|---:|---:|---:|---:|---:|---:|---:|---:|---:|\n"
    for line in lines:
        times = " | ".join(shown(time) for time in line.times)
        ratios = " | ".join(shown(ratio) for ratio in line.ratios())
        slowest = " / ".join(shown(time) for time in line.slowest)
        yield f"| {line.name} | {line.cards:,} | {times} | {ratios} | {slowest} |\n"


def processor():
    try:
        for line in open("/proc/cpuinfo", encoding="utf-8"):
            if line.startswith("model name"):
                return line.split(":")[1].strip()
    except OSError:
        pass
    return platform.processor() or "an unknown processor"


def write_page(lines):
    page = DOCS / "SPEED.md"
    text = page.read_text(encoding="utf-8")
    before, rest = text.split(BEGIN)
    _, after = rest.split(END)
    made = "".join(table(lines)) + f"\nMeasured on: {processor()}.\n"
    page.write_text(before + BEGIN + made + END + after, encoding="utf-8")


WIDTH, LEFT, ROW, TOP = 900, 300, 22, 60
LOW, HIGH = math.log10(0.01), math.log10(30)


def across(ratio):
    """Where a ratio lies, from the left."""
    part = (math.log10(min(max(ratio, 0.01), 30)) - LOW) / (HIGH - LOW)
    return LEFT + part * (WIDTH - LEFT - 30)


def drawing(lines):
    height = TOP + ROW * len(lines) + 30
    yield f'<svg xmlns="http://www.w3.org/2000/svg" viewBox="0 0 {WIDTH} {height}" font-family="sans-serif" font-size="12">\n'
    yield f'<rect width="{WIDTH}" height="{height}" fill="white"/>\n'
    yield f'<text x="{LEFT}" y="18" font-size="14">The keeper\'s time over a peer\'s: left of 1 the keeper is faster</text>\n'
    for i, (peer, colour) in enumerate(zip(PEERS, COLOURS)):
        yield f'<circle cx="{LEFT + 6 + 170 * i}" cy="36" r="5" fill="{colour}"/><text x="{LEFT + 16 + 170 * i}" y="40">{peer}</text>\n'
    bottom = TOP + ROW * len(lines)
    for ratio in [0.01, 0.1, 1, 10]:
        x = across(ratio)
        yield f'<line x1="{x:.1f}" x2="{x:.1f}" y1="{TOP - 6}" y2="{bottom}" stroke="{"#333" if ratio == 1 else "#ccc"}"/>\n'
        yield f'<text x="{x:.1f}" y="{bottom + 16}" text-anchor="middle">{ratio:g}</text>\n'
    for i, line in enumerate(lines):
        y = TOP + ROW * i + ROW / 2
        yield f'<text x="{LEFT - 10}" y="{y + 4:.1f}" text-anchor="end">{line.name}, {line.cards:,} cards</text>\n'
        yield f'<line x1="{LEFT}" x2="{WIDTH - 30}" y1="{y:.1f}" y2="{y:.1f}" stroke="#eee"/>\n'
        for ratio, colour in zip(line.ratios(), COLOURS):
            yield f'<circle cx="{across(ratio):.1f}" cy="{y:.1f}" r="5" fill="{colour}" fill-opacity="0.85"/>\n'
    yield "</svg>\n"


def main():
    if len(sys.argv) != 2 or sys.argv[1].startswith("-"):
        print(__doc__.strip(), file=sys.stdout if "--help" in sys.argv else sys.stderr)
        sys.exit(0 if "--help" in sys.argv else 2)
    with open(sys.argv[1], encoding="utf-8") as measured:
        lines = [Line(text) for text in measured]
    write_page(lines)
    (DOCS / "speed.svg").write_text("".join(drawing(lines)), encoding="utf-8")


if __name__ == "__main__":
    main()
