#!/usr/bin/env python3
"""Brings the names that this repository declares to one spelling: words in snake case, types and modules in camel case.

    tools/spell.py [--dry]

A name is the repository's own if one of its .antt files declares it: as a definition, a lemma, a record's field, a local name or a parameter. Names of
the libraries, and those that a check makes up for its goals and for the steps of the code, stay. Names of src/, strings and edits are not touched.
Comments that name what is renamed, and names in backquotes in README.md and docs/, are turned with it. It says which names would fall together.
"""
import glob
import re
import sys

TOKEN = re.compile(r"[^\s(){}\[\];,.λ`\"|]+")
OWN = r"Rattle\.(?:row|links|search|keeper|batch|board|verify)\."


def code_of(text):
    """The text with its comments blank."""
    lines = []
    for line in text.split("\n"):
        lines.append("" if re.match(r"\s*--(\s|$)", line) else re.sub(r"\s--\s.*", "", line))
    return "\n".join(lines)


def of_the_library(code):
    out = set()
    for path, names in re.findall(r"^use ([^{\n]+)\.\{([^}]*)\}", code, re.M):
        for name in names.split(","):
            plain = name.strip().split(" as ")[0]
            if not re.match(OWN, path + ".") or re.search(r"\.proofs\..*\.(Goals|Given)$", path):
                out.add(plain)
    out.update(re.findall(r"\bgoal\.([^\s(){}\[\];,.]+)", code))
    return out


def declared_in(code):
    head = r"^\s*(?:abbrev |unfoldable )?(?:pub )?(?:abbrev |unfoldable )?(?:data |record )?"
    out = set(re.findall(head + r"([^\s(){}\[\];,.]+)\s*(?::|\()", code, re.M))
    out.update(re.findall(r"\blet ([^\s(){}\[\];,.]+)", code))
    out.update(re.findall(r" as ([^\s(){}\[\];,.]+)", code))
    for parameters in re.findall(r"λ ([^.]*)\.", code) + re.findall(r"[({]([^(){}:;=.]*) : ", code):
        out.update(re.split(r"[\s(){}:]+", parameters))
    return out


def spelled(name):
    if name[0].isupper():
        words = name.split("-")
        return words[0] + "".join(w[0].upper() + w[1:] for w in words[1:])
    return name.replace("-", "_")


def renamed(line, new):
    return TOKEN.sub(lambda m: new.get(m.group(0), m.group(0)), line)


def turned_comment(line, new):
    """A line of an index keeps the column where its words begin."""
    m = re.match(r"(\s*--   )(\S.*?)(  +)(.*)$", line)
    if m is None:
        return renamed(line, new)
    left = renamed(m.group(2), new)
    gap = max(1, len(m.group(2)) + len(m.group(3)) - len(left))
    return m.group(1) + left + " " * gap + renamed(m.group(4), new)


def turned_antt(text, new):
    return "\n".join(turned_comment(l, new) if re.match(r"\s*--(\s|$)", l) else renamed(l, new) for l in text.split("\n"))


def turned_rt(text, new):
    lines = []
    for line in text.split("\n"):
        if re.match(r"\s*(ghost|requires|ensures)\b", line) or re.match(r"\s*//", line):
            line = renamed(line, new)
        lines.append(line)
    return "\n".join(lines)


def turned_page(text, new):
    return re.sub(r"`[^`\n]*`", lambda m: renamed(m.group(0), new), text)


def files_of(ending):
    """The crates' files, without what a check leaves in out/."""
    return sorted(f for f in glob.glob(f"crates/**/*.{ending}", recursive=True) if "/out/" not in f)


def main():
    sources = files_of("antt")
    codes = {f: code_of(open(f).read()) for f in sources}
    foreign, own, used = set(), set(), set()
    for code in codes.values():
        foreign |= of_the_library(code)
        own |= declared_in(code)
        used |= set(TOKEN.findall(code))
    own = {n for n in own - foreign if "-" in n and re.match(r"[A-Za-z]", n)}
    new = {n: spelled(n) for n in own}
    for n in sorted(own):
        if new[n] in used or new[n] in foreign:
            print(f"falls together: {n} -> {new[n]}")
    if "--dry" in sys.argv:
        for n in sorted(own):
            print(n, new[n])
        return
    for f in sources:
        text = open(f).read()
        open(f, "w").write(turned_antt(text, new))
    for f in files_of("rt"):
        text = open(f).read()
        open(f, "w").write(turned_rt(text, new))
    for f in ["README.md"] + sorted(glob.glob("docs/*.md")):
        text = open(f).read()
        open(f, "w").write(turned_page(text, new))
    print(f"{len(own)} names")


if __name__ == "__main__":
    main()
