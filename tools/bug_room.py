"""Checks bugs in copies of the repository, and reads what the checker says of each."""
import os
import re
import shutil
import subprocess
import sys

import bug_table
from bug_kinds import applied

PROGRAMS = ("board", "verify")
SECONDS = 1800
UNREAD = r"(\./)?(src|specs)/\S+?:\d+:\d+: error: (?!`)|(\./)?(src|specs)/\S+: error: .*(is not in scope|has no field|is no name)"


def linked(folder, to):
    """Copies a folder; what a check kept of each module is linked, since a check replaces such a file and changes none."""

    def copy(one, other):
        if one.endswith(".oantt"):
            os.link(one, other)
        else:
            shutil.copy2(one, other)

    shutil.copytree(folder, to, symlinks=True, copy_function=copy)


def copied(root, base):
    """Copies what is checked, without what a check leaves in out/, and says whether anything is new."""
    was, now = ({at: open(f"{top}/{at}", "rb").read() for at in files_below(top)} for top in (base, root))
    for at in was.keys() - now.keys():
        os.remove(f"{base}/{at}")
    for at, text in now.items():
        if was.get(at) != text:
            os.makedirs(os.path.dirname(f"{base}/{at}"), exist_ok=True)
            shutil.copy2(f"{root}/{at}", f"{base}/{at}")
    return was != now


def files_below(top):
    found = [at for at in ("crates.txt", "HANDLES") if os.path.isfile(f"{top}/{at}")]
    for part in ("tests", "crates"):
        for at, folders, files in os.walk(f"{top}/{part}"):
            folders[:] = [f for f in folders if f not in ("out", "must-fail")]
            found += [os.path.relpath(f"{at}/{file}", top) for file in files]
    return found


def base_of(root, work, jobs):
    """A copy of the repository in which each crate is proved."""
    base, proved = f"{work}/base", f"{work}/proved"
    if copied(root, base) or not os.path.isfile(proved):
        if os.path.isfile(proved):
            os.remove(proved)
        print("the repository is proved as it stands", flush=True)
        ran = subprocess.run(["rt", "all", "check", "--jobs", str(jobs)], cwd=base, stdout=subprocess.PIPE, stderr=subprocess.STDOUT, text=True)
        if ran.returncode:
            sys.exit(f"plant_bugs: the repository as it stands isn't proved:\n{ran.stdout[-2000:]}")
        open(proved, "w").close()
    return base


class Room:
    """A copy of the proved repository, for bugs in one crate after the other."""

    def __init__(self, base, folder):
        self.base, self.folder = base, folder
        shutil.rmtree(folder, ignore_errors=True)
        linked(base, folder)

    def rt(self, crate, *words, given=None):
        """The status of a command in a crate, and what it said."""
        with open(given or os.devnull, "rb") as it:
            how = {"cwd": f"{self.folder}/crates/{crate}", "stdin": it, "stdout": subprocess.PIPE, "stderr": subprocess.STDOUT}
            try:
                ran = subprocess.run(["rt", *words], **how, timeout=SECONDS)
            except subprocess.TimeoutExpired:
                return -1, ""
        return ran.returncode, ran.stdout.decode(errors="replace")

    def put(self, crate, texts):
        for file, text in texts.items():
            with open(f"{self.folder}/crates/{crate}/src/{file}", "w", encoding="utf-8") as it:
                it.write(text)

    def try_bugs(self, bugs):
        """Gives what becomes of each of some bugs in different functions of a crate, one after the other: a bug and a finding."""
        if len(bugs) == 1:
            yield bugs[0], self.try_alone(bugs[0])
            return
        status, said, spans = self.checked(bugs)
        found = [(bug, found_among(bug, lines, status, said)) for bug, lines in zip(bugs, spans)]
        yield from [it for it in found if it[1]]
        left = [bug for bug, it in found if not it]
        if len(left) < len(bugs) and any(it and it[0] == "bad" for _, it in found):
            # (where some don't compile, the others weren't looked at)
            yield from self.try_bugs(left) if left else ()
        else:
            for bug in left:
                yield bug, self.try_alone(bug)

    def try_alone(self, bug):
        status, said, _ = self.checked([bug], self.shown)
        return verdict(status, said)

    def checked(self, bugs, if_proved=None):
        """Checks a crate with some bugs, and says which lines of each file then are whose; the room is as before when it returns."""
        crate = bugs[0].item.crate
        kept = f"crates/{crate}/out/incremental"
        was = {bug.item.file: bug.item.text for bug in bugs}
        now = {file: applied(text, [c for bug in bugs if bug.item.file == file for c in bug.changes]) for file, text in was.items()}
        self.put(crate, now)
        try:
            status, said = self.rt(crate, "check", "--jobs", "1")
            if status == 0 and if_proved:
                said = if_proved(crate)
        finally:
            self.put(crate, was)
            shutil.rmtree(f"{self.folder}/{kept}", ignore_errors=True)
            linked(f"{self.base}/{kept}", f"{self.folder}/{kept}")
        return status, said, [lines_now(bug, bugs, now[bug.item.file]) for bug in bugs]

    def shown(self, crate):
        """The first test of a program that shows a bug which the checker lets through."""
        if crate not in (*PROGRAMS, "program"):
            return ""
        for program in PROGRAMS:
            at = f"{self.folder}/crates/{program}"
            status, said = self.rt(program, "run", given=f"{at}/stdin")
            with open(f"{at}/stdout", encoding="utf-8") as it:
                if status or it.read() not in said:
                    return f"what {program} prints for its stored input"
        ran = subprocess.run([f"{self.folder}/tests/programs.sh"], stdout=subprocess.PIPE, stderr=subprocess.STDOUT, text=True)
        if ran.returncode:
            return ran.stdout.split(": status")[0].replace("programs: ", "tests/programs.sh, ", 1)
        return "" if self.rt(crate, "test")[0] == 0 else "the crate's tests"


def lines_now(bug, bugs, text):
    """The first and the last line of the bug's function in the changed text."""
    moved = [(start, len(new) - end + start) for other in bugs if other.item.file == bug.item.file for start, end, new in other.changes]
    ends = [at + sum(by for start, by in moved if start < at) for at in (bug.item.head, bug.item.end)]
    return [text.count("\n", 0, at) + 1 for at in ends]


def is_bad(line):
    return re.match(UNREAD, line) or re.search(r"\berror\[[\w-]+\]", line)


def told_in(said):
    """The lines that say what isn't proved, each at its place."""
    told = [it for it in said.splitlines() if re.match(r"(note: )?\S+:\d+:\d+:", it) and "large solution" not in it]
    return [it for it in told if ": error" in it or it.startswith("note: ")] or told


def is_about(bug, lines, said):
    """Whether a line speaks of the bug's function: of its code, or of its own proof."""
    stem, name = bug.item.file[:-3], re.sub(r"<.*", "", bug.item.name.split("::")[-1])
    at = re.match(r"(?:note: )?(?:\./)?src/([\w.]+):(\d+):", said)
    if at:
        return at[1] == bug.item.file and lines[0] <= int(at[2]) <= lines[1]
    within = "" if stem in ("main", "lib") else stem + "/"
    return re.match(rf"(?:note: )?(?:\./)?proofs/{within}(\w+/)?{name}/", said) is not None


def found_among(bug, lines, status, said):
    """What is said of one bug among several, if that is plain: a proof leans on the clauses of what is called, and not on its code, so what is said of
    a function's own code is said of the bug in it. Else the bug has to be tried alone."""
    bad = [it for it in said.splitlines() if is_bad(it)]
    if bad:
        own = [it for it in bad if is_about(bug, lines, it)]
        return ("bad", own[:2], "") if own else None
    own = [it for it in told_in(said) if is_about(bug, lines, it) and not bug_table.NAMED.match(it)]
    return ("refused", [it[:300] for it in own[:6]], "") if own and status == 1 else None


def verdict(status, said):
    """What a check of a bug came to, the lines that say why, as `rt must-fail` reads them, and which test shows one that was let through."""
    if status == 0:
        return "through", [], said
    bad = [it for it in said.splitlines() if is_bad(it)]
    told = told_in(said)
    if bad:
        return "bad", bad[:2], ""
    if status in (1, 3) and told:
        return "refused", [it[:300] for it in told[:6]], ""
    return ("refused" if status == 3 else "untried"), [it[:300] for it in said.splitlines()[-6:]], ""
