#!/usr/bin/env python3
"""Plants bugs in the code, one at a time, and asks the checker whether it refuses each.

    tools/plant_bugs.py --log FILE [options]       plants bugs, and notes in FILE what became of each
    tools/plant_bugs.py --list [options]           says which bugs would be planted
    tools/plant_bugs.py --table --log FILE         writes what FILE says into docs/BUGS.md

A bug is a small change of the code of one function: another comparison, an operand exchanged, a constant off by one, a call dropped, and so on
(tools/bug_kinds.py). The crates' clauses, definitions and proofs stay as they are, and bugs are checked in a copy of the repository, by `rt check` of their
crate. Bugs in different functions are checked in one go, since a proof leans on the clauses of what is called and not on its code; where what is said doesn't
name the bug's own function, it is tried alone. One that the checker lets through, if it is in a program, is shown to the programs and their tests. Not part
of the gate.
"""
import argparse
import json
import os
import random
import shutil
import sys
import tempfile
import threading
import time
from concurrent.futures import ThreadPoolExecutor

sys.dont_write_bytecode = True

import bug_table
from bug_kinds import NAMES, bugs_of
from bug_room import Room, base_of
from rt_source import read_all

ROOT = os.path.dirname(os.path.dirname(os.path.abspath(__file__)))
# How many bugs that don't compile are passed over for each that is wanted in a function.
PASSED_OVER = 4


def name_of(bug):
    return f"{bug.item.crate}/{bug.item.name}"


def key_of(bug):
    return "|".join((name_of(bug), bug.kind, bug.old, bug.new))


def ordered(bugs, seed):
    """The bugs of a function in the order in which they are tried: by the seed, each kind once before any comes again."""
    dice = random.Random(f"{seed} {name_of(bugs[0])}")
    by_kind = {}
    for bug in dice.sample(bugs, len(bugs)):
        by_kind.setdefault(bug.kind, []).append(bug)
    kinds = dice.sample(sorted(by_kind), len(by_kind))
    rounds = max(len(it) for it in by_kind.values())
    return [by_kind[k][n] for n in range(rounds) for k in kinds if n < len(by_kind[k])]


def shares(lists, most, seed):
    """How many bugs are wanted of each function: one of each, then one more of each that has many, until there are enough."""
    wanted, size = {f: 0 for f in lists}, 0
    for turn in range(most):
        order = random.Random(f"{seed} {turn}").sample(sorted(lists), len(lists))
        for f in order:
            if sum(wanted.values()) < most and len(lists[f]) > 6 * turn:
                wanted[f] += 1
        if sum(wanted.values()) == size:
            break
        size = sum(wanted.values())
    return wanted


def planned(options):
    """The functions, each with its bugs in order and how many of them are wanted; and those in which nothing can be planted."""
    items, words = read_all(ROOT)
    lists, bare = {}, []
    for item in items:
        name = f"{item.crate}/{item.name}"
        if options.only and options.only not in name:
            continue
        bugs = [b for b in bugs_of(item, words) if options.kind in (None, b.kind)]
        if bugs:
            lists[name] = ordered(bugs, options.seed)
        else:
            bare.append(name)
    wanted = shares(lists, options.max, options.seed)
    return [(f, lists[f], wanted[f]) for f in lists if wanted[f]], bare


class Log:
    """What became of each bug, a line for each."""

    def __init__(self, path, resumes):
        self.path, self.done, self.lock = path, {}, threading.Lock()
        os.makedirs(os.path.dirname(os.path.abspath(path)), exist_ok=True)
        if resumes and os.path.isfile(path):
            with open(path, encoding="utf-8") as it:
                self.done = {note["key"]: note for note in map(json.loads, it) if note["became"] != "untried"}
        elif os.path.isfile(path):
            sys.exit(f"plant_bugs: {path} is there already: go on with it by --resume, or name another")

    def note(self, bug, became, said, shown):
        found = {"key": key_of(bug), "function": name_of(bug), "file": bug.item.file, "kind": bug.kind, "old": bug.old, "new": bug.new}
        found.update(became=became, said=said, shown=shown)
        with self.lock:
            self.done[found["key"]] = found
            with open(self.path, "a", encoding="utf-8") as it:
                it.write(json.dumps(found, ensure_ascii=False) + "\n")
            counts = [sum(n["became"] == it for n in self.done.values()) for it in ("refused", "through", "bad", "untried")]
            print("%s  %s [%s] %s  ->  %s" % (became, name_of(bug), bug.kind, bug.old, bug.new), flush=True)
            if len(self.done) % 10 == 0:
                print("so far: %d refused, %d let through, %d not compiled, %d not tried" % tuple(counts), flush=True)


class Queue:
    """What is still to be planted: first one bug in each function, then the others, then those in constants, each alone, since all that uses it is proved
    anew. At any time a function has one bug at most."""

    def __init__(self, plan, log, together):
        self.plan, self.log, self.together = plan, log, together
        self.busy, self.lock = set(), threading.Lock()

    def next_of(self, bugs, wanted):
        """The next bug of a function, if it hasn't as many as are wanted; after too many that don't compile there is none. One that is refused only since
        a proof names what isn't there any more doesn't count here."""
        notes = [self.log.done.get(key_of(bug)) for bug in bugs[: wanted * (1 + PASSED_OVER)]]
        planted = [n for n in notes if n and (n["became"] == "through" or n["became"] == "refused" and bug_table.class_of(n) != "fit")]
        return next((bug for bug, n in zip(bugs, notes) if not n), None) if len(planted) < wanted else None

    def take(self):
        """The next bugs of one crate, each in another function; none if nothing is left but what others work on."""
        with self.lock:
            for is_constant, is_first in ((False, True), (False, False), (True, False)):
                group = []
                for name, bugs, wanted in self.plan:
                    if name in self.busy or is_constant != bug_table.is_constant(name):
                        continue
                    bug = self.next_of(bugs, 1 if is_first else wanted)
                    if bug and len(group) < (1 if is_constant else self.together) and (not group or group[0].item.crate == bug.item.crate):
                        group.append(bug)
                if group:
                    self.busy.update(name_of(bug) for bug in group)
                    return group
            return []

    def put_back(self, group):
        with self.lock:
            self.busy.difference_update(name_of(bug) for bug in group)


def plant(options):
    plan, _ = planned(options)
    log = Log(options.log, options.resume)
    work = options.work or tempfile.mkdtemp(prefix="bugs-")
    base = base_of(ROOT, work, options.jobs)
    queue = Queue(plan, log, options.together)
    print(f"{sum(n for _, _, n in plan)} bugs in {len(plan)} functions and constants", flush=True)

    def work_on(number):
        room = Room(base, f"{work}/room{number}")
        while True:
            group = queue.take()
            if not group and not queue.busy:
                return
            try:
                for bug, found in room.try_bugs(group) if group else ():
                    log.note(bug, *found)
            finally:
                queue.put_back(group)
            time.sleep(0 if group else 1)

    with ThreadPoolExecutor(options.jobs) as pool:
        for _ in pool.map(work_on, range(options.jobs)):
            pass
    if not options.work:
        shutil.rmtree(work, ignore_errors=True)
    print(bug_table.summary(list(log.done.values())))


def show_list(options):
    plan, bare = planned(options)
    for name, bugs, wanted in plan:
        print(f"{name}: {wanted} of {len(bugs)}")
        for bug in bugs[:wanted]:
            print(f"    [{bug.kind}] {bug.old}  ->  {bug.new}")
    print(f"{sum(n for _, _, n in plan)} bugs in {len(plan)} functions and constants; nothing to plant in: {', '.join(bare) or 'none'}")


def options_of(words):
    lines = __doc__.strip().split("\n")
    parser = argparse.ArgumentParser(description=lines[0], epilog=" ".join(lines[6:]), usage="tools/plant_bugs.py [options]")
    parser.add_argument("--log", metavar="FILE", help="where it is noted what became of each bug, a line of JSON for each")
    parser.add_argument("--resume", action="store_true", help="go on with a log that is there")
    parser.add_argument("--list", action="store_true", help="only say which bugs would be planted")
    parser.add_argument("--table", action="store_true", help="write what the log says into docs/BUGS.md")
    parser.add_argument("--seed", type=int, default=1, help="which bugs are chosen; 1 if left out")
    parser.add_argument("--max", type=int, default=300, help="how many bugs at most; 300 if left out")
    parser.add_argument("--only", metavar="CRATE/FUNCTION", help="only functions whose name has this in it")
    parser.add_argument("--kind", choices=NAMES, help="only bugs of this kind")
    parser.add_argument("--jobs", type=int, default=2, help="how many are checked at a time; 2 if left out")
    parser.add_argument("--together", type=int, default=10, help="how many, in different functions of a crate, are checked in one go; 10 if left out")
    parser.add_argument("--work", metavar="FOLDER", help="where the copies of the repository stand; they stay there, and serve the next run")
    options = parser.parse_args(words)
    if not options.list and not options.log:
        parser.error("--log FILE is missing: it says where the results are kept")
    return options


def main():
    options = options_of(sys.argv[1:])
    if options.list:
        show_list(options)
    elif options.table:
        bug_table.write(ROOT, options.log)
    else:
        plant(options)


if __name__ == "__main__":
    main()
