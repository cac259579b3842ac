#!/usr/bin/env python3
"""Makes docs/MEMORY.md from the crates' layout files, which alone say where each column lies in the lent memory.

    tools/memory_table.py            writes docs/MEMORY.md
    tools/memory_table.py --check    ends with status 1 if docs/MEMORY.md isn't what it would write, or if two columns share a number
"""
import pathlib
import re
import sys

TOP = pathlib.Path(__file__).resolve().parent.parent
CRATES = ["memory", "order", "row", "links", "search", "keeper", "batch"]
CONSTANT = re.compile(r"((?:^//[^\n]*\n)*)^(?:pub(?:\([a-z]+\))? )?const ([A-Z_]+): (\w+) =\s*([^;]*);", re.M)


class Column:
    """A column: where it begins, how many numbers it has, and what crate names it, with the words above it."""

    def __init__(self, base, size):
        self.base, self.size = base, size


class Holder:
    """A value that has a column in a field, as a set of places or a table of chains has."""

    def __init__(self, **fields):
        self.__dict__.update(fields)


def python_of(text):
    """A constant's expression, as Python reads it."""
    text = re.sub(r"//[^\n]*", "", text)
    text = re.sub(r"\bas (u32|u64|usize)\b", "", text)
    text = re.sub(r"\b(\d[\d_]*|0x[0-9a-fA-F_]+)\b", lambda m: m.group(0).replace("_", ""), text)
    text = re.sub(r"(\w+) \{", r"\1(", text).replace("}", ")")
    text = re.sub(r"\b([a-z]+):", r"\1=", text)
    return text.replace("/", "//")


def constants_of(crate, known):
    """The columns of a crate, in the order of its files, each with its name and the words above it."""
    columns = []
    for path in sorted((TOP / "crates" / crate / "src").glob("*.rt")):
        for words, name, kind, value in CONSTANT.findall(path.read_text()):
            if kind not in ("u64", "u32", "usize", "Column", "PlaceSet", "ChainTable"):
                continue
            known[name] = eval(python_of(value), {}, known)
            if kind in ("Column", "PlaceSet", "ChainTable"):
                columns.append((name, known[name], words))
    return columns


def column_of(value):
    """The column of a constant: itself, or the one that it holds."""
    for field in ("column", "cells"):
        value = getattr(value, field, value)
    return value


def meaning_of(words):
    """What a column means, by the words above it."""
    return re.sub(r"\s+", " ", re.sub(r"^// ?", "", words, flags=re.M)).strip().rstrip(".")


def rows():
    """Each column: base, size, name, crate and meaning."""
    known = {"Column": Column, "PlaceSet": Holder, "ChainTable": Holder}
    found = []
    for crate in CRATES:
        for name, value, words in constants_of(crate, known):
            column = column_of(value)
            found.append((column.base, column.size, name, crate, meaning_of(words)))
    return sorted(found), known["MEMORY"]


def page():
    """The page, and what is wrong with the columns."""
    found, size = rows()
    wrong = []
    lines = []
    for (base, long, name, crate, meaning), after in zip(found, found[1:] + [(size, 0, "the memory's end", "", "")]):
        if base + long > after[0]:
            wrong.append(f"{name} reaches into {after[2]}")
        lines.append(f"| `{name}` | {base:,} | {long:,} | {meaning} | `{crate}` |")
    used = sum(row[1] for row in found)
    end = found[-1][0] + found[-1][1]
    text = f"""# The memory

The keeper is lent {size:,} numbers. Each crate lays its columns one behind the other, a constant a column, in its `src/layout.rt`; this page is made from those files by `tools/memory_table.py`, and the gate sees that it is. That no two columns share a number, and that all lie within the memory, is a theorem besides (`columns_apart_stands` in `batch`).

A card's number is looked up once; from then on the card is a *slot*, a number below {8192:,}. A card sits on a *seat*: seats only order the cards, and some are free. A *place* is how many cards stand before one: its seat's rank among those that are taken. A link is an *entry* of the table of links, from 1 on. A cell of a chain holds the entry behind it with that entry's label, and the place of the cell before it. A memory of zeros is an empty board.

| column | base | size | meaning | crate |
|---|---:|---:|---|---|
""" + "\n".join(lines) + f"""

In all {used:,} numbers; from {end:,} on the memory is unused. The columns of `batch` hold nothing between two commands.
"""
    return text, wrong


def main():
    text, wrong = page()
    path = TOP / "docs" / "MEMORY.md"
    for line in wrong:
        print(line, file=sys.stderr)
    if "--check" in sys.argv[1:]:
        if not path.exists() or path.read_text() != text:
            print("docs/MEMORY.md isn't made from the layout files: run tools/memory_table.py", file=sys.stderr)
            wrong.append("page")
    else:
        path.write_text(text)
    return 1 if wrong else 0


if __name__ == "__main__":
    sys.exit(main())
