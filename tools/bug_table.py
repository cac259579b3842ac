"""What became of the bugs, as the tables of docs/BUGS.md."""
import json
import re

from bug_kinds import NAMES
from rt_source import read_all

BEGIN = "<!-- what follows, up to the end mark, is written by tools/plant_bugs.py --table -->"
END = "<!-- end mark -->"
MEANT = {
    "comparison": "`<=` for `<`, `!=` for `==`, `\\|\\|` for `&&`",
    "arithmetic": "`-` for `+`, `*` for `/`, `max` for `min`",
    "constant": "a number or a bound off by one, `true` for `false`",
    "operands": "arguments, fields, sides or parameters exchanged, or one in the other's place",
    "name": "another column or constant of the same type; `next_down` for `next_up`, `to_of` for `from_of`",
    "variant": "another variant of the same enum, `None` for `Some`, two arms exchanged",
    "dropped": "a write or a call less",
    "negated": "a branch the other way round",
    "return": "an early return less, with its condition",
}
CLASSES = {
    "clause": "what a function ensures doesn't hold",
    "invariant": "the invariant of a loop, or the equation that stands for it, doesn't hold",
    "asked": "what a function that is called asks for doesn't hold",
    "safety": "an index, a sum or a difference isn't shown to be in range, or a divisor not to be 0",
    "end": "a loop isn't shown to end",
    "equation": "an equation in a written proof doesn't hold",
    "limit": "a limit of the prover, which gave no verdict",
    "fit": "a proof file names what isn't there any more",
}
NAMED = re.compile(r"(note: )?(\./)?proofs/.*(has no field|is not in scope|has no `|was not admitted)")


def class_of(note):
    """Why a bug was refused, by the first thing that was said; that a proof names what isn't there only if nothing else was."""
    first = next((it for it in note["said"] if not NAMED.match(it)), None)
    if first is None:
        return "fit"
    goal = re.search(r"`([\w-]+)`\)?(?:;|:|$| )", first)
    about = goal.group(1) if goal else ""
    if "what the function ensures" in first or about.startswith("returns"):
        return "clause"
    if "invariant" in first or about.startswith("loop"):
        return "invariant"
    if re.match(r"overflow|index|in_range|bounds|fits|nonzero", about):
        return "safety"
    if "asks" in first or "requires" in first or about.startswith(("requires", "call")):
        return "asked"
    if "end" in about or "terminat" in first or "decreases" in first:
        return "end"
    return "equation"


def read(path):
    """The notes of a log, the last one of each bug."""
    with open(path, encoding="utf-8") as it:
        notes = {note["key"]: note for note in map(json.loads, it)}
    return [note for note in notes.values() if note["became"] != "untried"]


def counted(notes):
    return [sum(n["became"] == it for n in notes) for it in ("refused", "through", "bad")]


def summary(notes):
    refused, through, bad = counted(notes)
    functions = len({n["function"] for n in notes if n["became"] != "bad"})
    return f"{refused + through} bugs in {functions} functions and constants: {refused} refused, {through} not refused. {bad} more didn't compile, and don't count."


def by_crate(notes):
    yield "| crate | functions and constants | planted | refused | not refused | not compiled |"
    yield "|---|---:|---:|---:|---:|---:|"
    for crate in sorted({n["function"].split("/")[0] for n in notes}):
        own = [n for n in notes if n["function"].startswith(f"{crate}/")]
        refused, through, bad = counted(own)
        functions = len({n["function"] for n in own if n["became"] != "bad"})
        yield f"| `{crate}` | {functions} | {refused + through} | {refused} | {through} | {bad} |"


def by_kind(notes):
    yield "| kind | what was changed | planted | refused | not refused |"
    yield "|---|---|---:|---:|---:|"
    for kind in NAMES:
        refused, through, _ = counted([n for n in notes if n["kind"] == kind])
        yield f"| {kind} | {MEANT[kind]} | {refused + through} | {refused} | {through} |"


def by_class(notes):
    classes = [class_of(n) for n in notes if n["became"] == "refused"]
    yield "| why refused: the first that was said | bugs |"
    yield "|---|---:|"
    for name, meaning in CLASSES.items():
        if name in classes:
            yield f"| {meaning} | {classes.count(name)} |"


def by_function(notes):
    for crate in sorted({n["function"].split("/")[0] for n in notes}):
        own = {}
        for n in notes:
            if n["function"].startswith(f"{crate}/") and n["became"] != "bad":
                own.setdefault(n["function"].split("/")[1], []).append(n)
        said = []
        for name in sorted(own, key=str.lower):
            refused, through, _ = counted(own[name])
            said.append(f"`{name}` {refused + through}" + (f" ({through} not refused)" if through else ""))
        yield f"- `{crate}`: {', '.join(said)}"


def is_constant(name):
    return name.split("/")[-1].split("::")[-1].isupper()


def left_out(notes, root):
    """The functions and constants in which nothing was planted."""
    planted = {n["function"] for n in notes if n["became"] != "bad"}
    names = [f"{item.crate}/{item.name}" for item in read_all(root)[0]]
    left = [name for name in names if name not in planted]
    yield f"Nothing that compiles was found to plant in: {', '.join(f'`{it}`' for it in left if not is_constant(it)) or 'none'}."
    if any(is_constant(it) for it in left):
        yield f"Not tried: {sum(is_constant(it) for it in left)} of the {sum(is_constant(it) for it in names)} constants."


def not_refused(notes):
    for n in sorted((n for n in notes if n["became"] == "through"), key=lambda n: n["key"].lower()):
        new = f"`{n['new']}`" if n["new"] else "nothing"
        yield f"- `{n['function']}`, {n['kind']}: {new} in the place of `{n['old']}`" + (f"; shown by {n['shown']}" if n["shown"] else "")


def write(root, log):
    """Writes the tables into docs/BUGS.md, between its marks, and says which bugs that weren't refused have no explanation there."""
    notes, page = read(log), f"{root}/docs/BUGS.md"
    with open(page, encoding="utf-8") as it:
        text = it.read()
    blocks = [[summary(notes)], by_crate(notes), by_kind(notes), by_class(notes)]
    blocks += [["By function, how many were planted:"], by_function(notes), left_out(notes, root), ["Not refused:"], not_refused(notes)]
    made = "\n\n".join("\n".join(it) for it in blocks)
    head, rest = text.split(BEGIN)
    tail = rest.split(END)[1]
    with open(page, "w", encoding="utf-8") as it:
        it.write(f"{head}{BEGIN}\n\n{made}\n\n{END}{tail}")
    for n in notes:
        if n["became"] == "through" and f"`{n['function']}`" not in tail:
            print(f"no explanation: {n['function']}: {n['old']}  ->  {n['new']}")
