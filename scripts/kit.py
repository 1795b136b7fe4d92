"""What the scripts take from the kit's own command `rt`: its crates and its checks. `rt` works on one crate at a time
and holds the folders below it, so that two of them wait for each other; here crates are proved side by side in one
process."""
import importlib.machinery
import importlib.util
import os
import shutil
import sys
from concurrent.futures import FIRST_COMPLETED, ThreadPoolExecutor, wait

sys.dont_write_bytecode = True
TOP = os.path.dirname(os.path.dirname(os.path.realpath(__file__)))
FOUND = shutil.which("rt") or sys.exit("the Rattle kit's command rt is not on the path")
HERE = os.path.dirname(os.path.realpath(FOUND))


def load(name, file):
    loader = importlib.machinery.SourceFileLoader(name, f"{HERE}/{file}")
    made = importlib.util.module_from_spec(importlib.util.spec_from_loader(name, loader))
    sys.modules[name] = made
    loader.exec_module(made)
    return made


rt = load("rt", "rt")
rtlib = rt.rtlib
# Its first call sets a signal's handler, which only the main thread may.
rtlib.guarded()


def lanes():
    """How many checks go side by side: what RT_JOBS says, or one a processor if there are 4 GB of free memory for each.

    `rt ci` by itself keeps free what a check might take, two to three times what any here was seen to take, and so
    leaves a third of four processors idle. A check that is killed for lack of memory it makes once more."""
    said = os.environ.get("RT_JOBS", "")
    return int(said) if said.isdigit() and int(said) else max(1, min(rt.processors(), int(rt.free() // 4e9)))


class Gate:
    """What runs of `rt ci` on this machine made, each library and program known by its files and by the libraries
    below."""

    def __init__(self, crates):
        if not all(hasattr(rt, it) for it in ("Kept", "REFUSED", "linked", "share_work")):
            sys.exit("the rt of this kit doesn't share what it keeps: rattle-kit-13f or a later kit is needed")
        rt.Crate.allowed = rt.handles_of(TOP)
        self.kept = rt.Kept(crates)

    def gives(self, crate):
        """Puts a crate's library or program in its place if one was made of the same files, over those libraries below
        that were given, and says whether it did. The kit's other commands then find the library built."""
        key = self.kept.key(crate)
        if not self.kept.at or not os.path.isdir(self.kept.place(crate, False, key)):
            return False
        if crate.makes_rlib():
            shutil.rmtree(f"{crate.folder}/out/rlib", ignore_errors=True)
        is_given = self.kept.give(crate, False, key)
        if is_given and crate.makes_rlib():
            with open(f"{crate.folder}/out/rlib/stamp", "w", encoding="utf-8") as it:
                it.write(crate.stamp())
            self.kept.is_built(crate)
        return is_given


class Refusals:
    """The edits of a crate that were refused on this machine, kept beside what `rt ci` keeps: each by its text, by all
    that the crate is proved from, and by the scripts that judged it."""

    def __init__(self, gate, crate, paths):
        self.kept, self.crates = gate.kept, [crate, *crate.below()]
        judges = [rtlib.sum_of(f"{TOP}/scripts/{it}") for it in ("mutants", "sources.py")]
        self.names = {it: self.kept.of_edit(it, repr((judges, self.kept.key(crate)))) for it in paths}

    def said(self, path):
        """What was said of an edit when it was refused, or none."""
        found = self.kept.tried(self.names[path])
        return found[1] if found else ""

    def note(self, path, text):
        """Keeps that an edit was refused, unless a source was touched since."""
        if all(map(self.kept.is_untouched, self.crates)):
            self.kept.keep_tried(self.names[path], rt.REFUSED, text)


def crates_for(root, names):
    """The crates of these names and all that they stand on, lowest first; without names all crates."""
    crates = sorted(rtlib.crates_below(root), key=lambda it: len(it.below()))
    lost = [it for it in names if it not in [known.name for known in crates]]
    if lost:
        sys.exit(f"crates.txt has no crate {lost[0]}")
    wanted = {it.name for crate in crates if crate.name in names for it in [crate, *crate.below()]}
    return [it for it in crates if not names or it.name in wanted]


def memory(crate):
    """The bytes that a check is likely to take: of what rt ci plans for it three fifths, the most that a check was seen
    to take of that."""
    return 0.6 * rt.need(crate)


def side_by_side(crates, work, lanes):
    """Calls work(crate) for each crate once all below it are done, so many at a time, the longest chain of crates above
    it first, and returns the names of those that failed or were not tried. Each is one job: by several a check reads
    the libraries anew for every few functions, and took longer."""
    behind = {it.name: it.count(rb"\n") for it in crates}
    for crate in reversed(crates):
        for below in crate.below():
            own = below.count(rb"\n")
            behind[below.name] = max(behind[below.name], own + behind[crate.name])
    left, running, done = sorted(crates, key=lambda it: -behind[it.name]), {}, {}
    room = 0.85 * rt.free()
    with ThreadPoolExecutor(lanes) as pool:
        while left or running:
            ready = [it for it in left if all(below.name in done for below in it.below())]
            for crate in ready:
                held = sum(memory(it) for it in running.values())
                if any(done[below.name] for below in crate.below()):
                    left.remove(crate)
                    done[crate.name] = 1
                elif len(running) < lanes and (not running or held + memory(crate) <= room):
                    left.remove(crate)
                    running[pool.submit(work, crate)] = crate
            if running:
                for it in wait(running, return_when=FIRST_COMPLETED).done:
                    done[running.pop(it).name] = it.result()
    return [name for name, status in done.items() if status]
