"""Runs a program beside `refuse.so`, and keeps count of the lists that passed."""
import os
import re
import shutil
import struct
import subprocess
import tempfile
import threading
import time
from concurrent.futures import ThreadPoolExecutor
from pathlib import Path

HERE = Path(__file__).resolve().parent
BUILD = HERE.parent / "build"
SHARED = BUILD / "refuse.so"
SECONDS = 60
KINDS = ["memory", "read", "write", "thread"]
EXPLAINED = re.compile(rb"  sdfw explain \d+ says what to do\n\Z")
NOUNS = {"memory": "requests for memory", "read": "reads", "write": "writes", "thread": "threads"}


class Ended:
    """How a run ended: its status (below 0 by a signal, None where it hung), what it printed, OUT, and the counts."""

    def __init__(self, status, printed, told, output, counts):
        self.status, self.printed, self.told, self.output, self.counts = status, printed, told, output, counts

    def answer(self):
        return self.status, self.printed, self.told, self.output

    def fault(self):
        """The status and the fault, without the line that names `explain`: it stands where memory lacked for more."""
        return self.status, EXPLAINED.sub(b"", self.told)

    def calls(self, kind):
        return self.counts[KINDS.index(kind)]

    def asked(self):
        return self.counts[4]

    def greatest(self):
        return self.counts[5]

    def refused(self):
        return self.counts[6]

    def together(self):
        return self.counts[8]

    def beside(self):
        return self.counts[9]


def wav(samples, size=None, before=b"", channels=1):
    """A file of 44,100 frames a second; its data may announce another size, and chunks may stand before them."""
    data = struct.pack(f"<{len(samples)}h", *samples)
    size = len(data) if size is None else size
    form = struct.pack("<IHHIIHH", 16, 1, channels, 44100, 88200 * channels, 2 * channels, 16)
    head = b"WAVE" + before + b"fmt " + form
    return b"RIFF" + struct.pack("<I", min(36 + size, 0xFFFFFFFF)) + head + struct.pack("<4sI", b"data", size) + data


# A sound that is at OUT before a run.
OLD = wav([1, 2, 3])

SOUNDS = {
    "short.wav": wav([7 * n % 1000 - 500 for n in range(294)]),
    "few.wav": wav([3, -2, 500, 7]),
    "long.wav": wav([7 * n % 1000 - 500 for n in range(9000)]),
    "longer.wav": wav([7 * n % 1000 - 500 for n in range(100000)]),
    "longest.wav": wav([7 * n % 1000 - 500 for n in range(600000)]),
    "open.wav": wav([1, 2], size=0xFFFFFFFF),
    "huge.wav": wav([1, 2], size=0xFFFFFF00),
    "most.wav": wav([1, 2], size=0xFFFFFFFE),
    "stereo.wav": wav([1, 2], size=0xFFFFFFFE, channels=2),
    "list.wav": wav([1, 2], before=struct.pack("<4sI", b"LIST", 0xFFFFFFFF)),
    "format.wav": wav([1, 2], before=struct.pack("<4sI", b"fmt ", 0xFFFFFFFE)),
}


class Folder:
    """A folder of a thread's own, with the designs and sounds, in which a program is run."""

    own = threading.local()
    top = Path(tempfile.mkdtemp(prefix="hostile-"))

    @classmethod
    def here(cls):
        if not hasattr(cls.own, "path"):
            cls.own.path = Path(tempfile.mkdtemp(dir=cls.top))
            shutil.copytree(HERE / "designs", cls.own.path, dirs_exist_ok=True)
            for name, data in SOUNDS.items():
                (cls.own.path / name).write_bytes(data)
        return cls.own.path


def run(words, kind=None, at=0, how="error", one=False, window=None, sound=None, printed=subprocess.PIPE,
        told=subprocess.PIPE, seconds=SECONDS, awaited=0, old=None):
    """Runs a program with a call refused. `printed` and `told` may be other ends for its standard output and error.
    Where a file is named as the sound, it is standard input, and what is printed is OUT. A started thread waits until
    `awaited` of them are at work at the same time, three seconds at most. If there is an `old` sound, OUT has it."""
    folder = Folder.here()
    counts = folder / "counts"
    output = folder / "out.wav"
    for left in (counts, output, *parts(), *folder.glob("graph.toml"), *folder.glob("stage*.toml")):
        left.unlink(missing_ok=True)
    if old:
        output.write_bytes(old)
    setting = {"LD_PRELOAD": str(SHARED), "HOSTILE_COUNTS": str(counts), "HOSTILE_HOW": how, "HOSTILE_AT": str(at)}
    if kind:
        setting["HOSTILE_KIND"] = kind
    if one:
        setting["HOSTILE_BYTES"] = "one"
    if awaited:
        setting["HOSTILE_TOGETHER"] = str(awaited)
    if window:
        setting["HOSTILE_WINDOW"] = window
    with open(folder / sound if sound else os.devnull, "rb") as given:
        process = subprocess.Popen(words, cwd=folder, env=setting, stdin=given, stdout=printed, stderr=told)
    try:
        said, faults = process.communicate(timeout=seconds)
        status = process.returncode
    except subprocess.TimeoutExpired:
        process.kill()
        said, faults = process.communicate()
        status = None
    made = output.read_bytes() if output.is_file() else None
    if sound:
        said, made = b"", said
    return Ended(status, said, faults, made, struct.unpack("<10Q", counts.read_bytes()))


def parts():
    """The files that were written beside OUT and are left there."""
    return list(Folder.here().glob("out.wav.part*"))


def describe(ended):
    printed = (ended.printed or b"")[:120]
    told = (ended.told or b"")[:120]
    size = None if ended.output is None else len(ended.output)
    return f"status {ended.status}, stdout {printed!r}, stderr {told!r}, OUT {size} bytes, refused {ended.refused()}"


class Lists:
    """The lists that were run, and those that failed."""

    def __init__(self, chosen):
        self.chosen, self.passed, self.failed = chosen, 0, 0

    def wants(self, name):
        return not self.chosen or any(word in name for word in self.chosen)

    def end(self, name, what, runs, begun, wrong):
        """Prints the line of a list, and the first few runs that were wrong."""
        seconds = time.monotonic() - begun
        failed = f": {len(wrong)} WRONG" if wrong else ""
        print(f"{name:<48} {what}, {runs} runs, {seconds:.1f} s{failed}", flush=True)
        for line in wrong[:5]:
            print(f"    {line}", flush=True)
        if wrong:
            self.failed += 1
        else:
            self.passed += 1

    def refuse(self, name, words, kind, allowed, none=False, answer=Ended.answer, **how):
        """Refuses each call of a kind in turn, to one past the last. `allowed(ended, ample, at)` judges a run, and past
        the last call `answer` has to be as it was.

        Where workers take turns the number of calls may differ from run to run, so the last run is the first one in
        which nothing was left to refuse. With `none` there has to be no such call, and else some.
        """
        if not self.wants(name):
            return
        begun = time.monotonic()
        ample = run(words, **{key: how[key] for key in ("one", "window", "sound", "old") if key in how})
        count = ample.calls(kind)

        def judge(at):
            ended = run(words, kind=kind, at=at, **how)
            right = allowed(ended, ample, at) if ended.refused() else answer(ended) == answer(ample)
            line = f"{kind} {at} {how}: {describe(ended)} from {' '.join(map(str, words))}"
            return ended.refused(), None if right and ended.status is not None else line

        with ThreadPoolExecutor(2) as workers:
            judged = list(workers.map(judge, range(1, count + 1)))
        judged.append(judge(count + 1))
        while judged[-1][0] and len(judged) < 2 * count:
            judged.append(judge(len(judged) + 1))
        wrong = [line for _, line in judged if line]
        if ample.status is None or ample.status < 0 or (count == 0) != none:
            wrong.append(f"ample: {describe(ample)}")
        if judged[-1][0]:
            wrong.append("there is no last call")
        self.end(name, f"{count} {NOUNS[kind]}", len(judged) + 1, begun, wrong)

    def cases(self, name, cases):
        """Runs cases, each a name and a call that answers whether it is right, or what was wrong."""
        if not self.wants(name):
            return
        begun = time.monotonic()
        wrong = []
        for case, judged in cases:
            said = judged()
            if said is not True:
                wrong.append(f"{case}: {said}")
        self.end(name, f"{len(cases)} cases", len(cases), begun, wrong)
