"""The lists of the shipped program in which a device fails, moves one byte a call, or says a size that lies."""
import os
import threading

from judges import NO_MEMORY, NO_READ, NO_WRITE, NO_WRITE_IN_JSON, ample_or, behind, only, printed_or, timed
from machine import HERE, OLD, SOUNDS, Folder, describe, parts, run
from words import COSTED, MADE, PRINTED, RUNS, SDFW, WAYS, run_words, stream_words, way_words

MEGABYTE = 1 << 20


def reads_of_sdfw(lists):
    for name, words in PRINTED[:2]:
        lists.refuse(f"sdfw {name}: failing reads", [SDFW, *words], "read", only(NO_READ))
        lists.refuse(f"sdfw {name}: failing reads of a byte", [SDFW, *words], "read", only(NO_READ), one=True)
        lists.refuse(f"sdfw {name}: interrupted reads", [SDFW, *words], "read", ample_or(NO_READ), how="interrupt")
    for runner in WAYS:
        name, design, sound, more, period = RUNS[0]
        words = run_words(design, sound, runner, *more)
        lists.refuse(f"sdfw run {runner}: failing reads", words, "read", only(NO_READ, period))
        lists.refuse(f"sdfw run {runner}: failing reads of a byte", words, "read", only(NO_READ, period), one=True)
        lists.refuse(f"sdfw run {runner}: interrupted reads", words, "read", interrupted(period), how="interrupt")
        name, design, sound, more, period = RUNS[2]
        words = run_words(design, sound, runner, *more)
        lists.refuse(f"sdfw run {name} {runner}: failing reads", words, "read", only(NO_READ, period))
        words = stream_words(design, runner, *more)
        lists.refuse(f"sdfw run - - {runner}: failing reads", words, "read", only(NO_READ, period), sound=sound)


# The bytes that two workers make of the first piece, and of each other one: so many frames of one channel for each.
FIRST, PIECE = 2 * 65536 * 2, 2 * 131072 * 2


def counted(allowed):
    """A judge that also keeps how many bytes the runs left in OUT."""
    left = set()

    def judge(ended, ample, at):
        left.add(len(ended.output or b""))
        return allowed(ended, ample, at)

    return judge, left


def were_left(sizes, left):
    return [(f"{size} bytes are left", lambda size=size: size in left or f"only {sorted(left)}") for size in sizes]


def pieces_of_sdfw(lists):
    """A parallel run of a sound of two whole pieces and some frames, in parts of several stretches each. While a piece
    is run, the one before it is written and the next one is read. So a read that fails leaves all whole pieces but the
    last, a write a front, and refused memory what was made before."""
    name, words = "sdfw run three pieces parts", run_words("delayed.toml", "longest.wav", "parts")
    for call, allowed, sizes in (("read", only(NO_READ, FIRST), (0, 44, 44 + FIRST)),
                                 ("memory", ample_or(NO_MEMORY, 2048), (0, 44, 44 + FIRST, 44 + FIRST + PIECE))):
        judge, left = counted(allowed)
        lists.refuse(f"{name}: {call} refused", words, call, judge)
        if left:
            lists.cases(f"{name}: {call} refused, in each piece", were_left(sizes, left))
    for how in ("error", "zero", "interrupt"):
        lists.refuse(f"{name}: writes, {how}", words, "write", only(NO_WRITE, text=False), how=how)
    cases = []
    for frames, pieces in ((0, 0), (280000, 0), (580000, 1)):
        data = SOUNDS["longest.wav"][:44 + 2 * frames]
        for sound in (None, "cut.wav"):
            place = "standard input" if sound else "IN"
            cases.append((f"{place} is a FIFO of {frames} frames",
                          lambda given=(data, sound, 44 + FIRST * pieces): cut_off(*given)))
    lists.cases(f"{name}: a sound that ends too soon", cases)


def cut_off(data, sound, size):
    """Whether a run from a FIFO that ends within the samples leaves a front of so many bytes, as one from a file."""
    words = stream_words("delayed.toml", "parts") if sound else run_words("delayed.toml", "cut.wav", "parts")
    whole = run(run_words("delayed.toml", "longest.wav", "parts")).output
    same = from_fifo(words, "cut.wav", data, sound)
    (Folder.here() / "cut.wav").write_bytes(data)
    left = fails(run(words, sound=sound), (4, b"sdfw: 43 Truncated\n"), text=whole[:size])
    (Folder.here() / "cut.wav").unlink()
    return left if same is True else same


def interrupted(period):
    """A read of the sound that is interrupted is a fault; one of the design may be made again."""
    reads = []

    def allowed(ended, ample, at):
        if not reads:
            reads.append(run([SDFW, "check", "chain.toml"]).calls("read"))
        return (ample_or if at <= reads[0] else only)(NO_READ, period)(ended, ample, at)

    return allowed


def no_write(words):
    """The fault of a writer, in JSON where that is asked for."""
    return NO_WRITE_IN_JSON if words[-1] == "--json" else NO_WRITE


def writes_of_sdfw(lists):
    for how, ample_too in (("error", False), ("zero", False), ("interrupt", True)):
        for name, words in PRINTED:
            allowed = printed_or(no_write(words), ample_too)
            lists.refuse(f"sdfw {name}: writes, {how}", [SDFW, *words], "write", allowed, how=how)
        for name, words in MADE:
            lists.refuse(f"sdfw {name}: writes, {how}", [SDFW, *words], "write", behind(NO_WRITE, ample_too), how=how)
        lists.refuse(f"sdfw check: writes of a byte, {how}", [SDFW, "check", "chain.toml"], "write",
                     printed_or(NO_WRITE, ample_too), how=how, one=True)
        for runner in WAYS:
            name, design, sound, more, period = RUNS[0]
            words = run_words(design, sound, runner, *more)
            allowed = only(NO_WRITE, text=False)
            lists.refuse(f"sdfw run {runner}: writes, {how}", words, "write", allowed, how=how)
            lists.refuse(f"sdfw run {runner}: writes of a byte, {how}", words, "write", allowed, how=how, one=True)
            name, design, sound, more, period = RUNS[2]
            words = stream_words(design, runner, *more)
            lists.refuse(f"sdfw run - - {runner}: writes, {how}", words, "write", allowed, how=how, sound=sound)
        words = [SDFW, "check", "none.toml"]
        lists.refuse(f"sdfw check of no file: writes, {how}", words, "write", told_in_part, how=how)
        lists.refuse(f"sdfw profile --write: writes, {how}", COSTED, "write", costed(ample_too), answer=timed, how=how)


def keeps_old(fault, ample_too):
    """The fault, with the old sound in OUT and nothing left beside it."""

    def allowed(ended, ample, at):
        if ended.answer() == ample.answer():
            return ample_too and not parts()
        return ended.fault() == fault and not ended.printed and ended.output == OLD and not parts()

    return allowed


def old_of_sdfw(lists):
    """Runs over a sound that is at OUT, with each request, read and write refused."""
    for runner in WAYS:
        name, design, sound, more, _ = RUNS[2]
        words, told = run_words(design, sound, runner, *more), f"sdfw run {name} {runner}, old OUT"
        lists.refuse(f"{told}: memory", words, "memory", keeps_old(NO_MEMORY, True), old=OLD)
        lists.refuse(f"{told}: failing reads", words, "read", keeps_old(NO_READ, False), old=OLD)
        for how in ("error", "zero", "interrupt"):
            lists.refuse(f"{told}: writes, {how}", words, "write", keeps_old(NO_WRITE, False), how=how, old=OLD)


def costed(ample_too):
    """The fault of a writer: FILE is empty or whole, and nothing is printed."""

    def allowed(ended, ample, at):
        if timed(ended) == timed(ample):
            return ample_too
        written = not ended.output or timed(ended)[3] == timed(ample)[3]
        return ended.fault() == NO_WRITE and not ended.printed and written

    return allowed


def told_in_part(ended, ample, at):
    """Where a fault can't be told, its status is as it was."""
    return ended.status == ample.status and not ended.printed and ample.told.startswith(ended.told)


def same_by_bytes(words, sound=None):
    """Whether reads and writes of one byte change no answer."""
    ample, slow = run(words, sound=sound), run(words, one=True, sound=sound)
    return True if ample.answer() == slow.answer() else describe(slow)


def same_by_streams(design, sound, runner, *more):
    """Whether a run from standard input to standard output makes what one between files makes, also by bytes."""
    files, streams = run(run_words(design, sound, runner, *more)), run(stream_words(design, runner, *more), sound=sound)
    same = streams.answer() == files.answer()
    return same_by_bytes(stream_words(design, runner, *more), sound) if same else describe(streams)


def bytes_of_sdfw(lists):
    cases = [(name, lambda words=words: same_by_bytes([SDFW, *words])) for name, words in PRINTED]
    for runner in WAYS:
        for name, design, sound, more, _ in RUNS:
            words = run_words(design, sound, runner, *more)
            cases.append((f"run {name} {runner}", lambda words=words: same_by_bytes(words)))
            cases.append((f"run - - {name} {runner}",
                          lambda given=(design, sound, runner, *more): same_by_streams(*given)))
        for sound in LIES:
            words = run_words(lying_design(runner), sound, runner)
            cases.append((f"run {sound} {runner}", lambda words=words: same_by_bytes(words)))
    lists.cases("sdfw: a byte a call", cases)


# Sounds whose sizes lie, the fault of each, if it has one, and how many bytes are in OUT.
LIES = {
    "open.wav": (None, 48),
    "huge.wav": (b"43 Truncated", 44),
    "most.wav": (b"45 TooLong", 0),
    "stereo.wav": (b"44 PartialFrame", 0),
    "list.wav": (b"43 Truncated", 0),
    "format.wav": (b"43 Truncated", 0),
}


def lying_design(runner):
    """A design that makes a frame of each: one that forgets, for a run in parts."""
    return "fork.toml" if runner == "parts" else "loop.toml"


def fails(ended, fault, *, text=b""):
    """Whether a run ended by a fault, with nothing printed and this in OUT."""
    right = ended.fault() == fault and not ended.printed and (ended.output or b"") == text
    return True if right else describe(ended)


def small(words, fault, text):
    """Whether a run asks for less than a megabyte, ends by a fault, or well, and leaves so many bytes in OUT."""
    ended = run(words)
    if ended.asked() >= MEGABYTE:
        return f"{ended.asked()} bytes asked for"
    wanted = (4, b"sdfw: " + fault + b"\n") if fault else (0, b"")
    whole = fails(ended, wanted, text=ended.output or b"")
    return whole if whole is not True or len(ended.output or b"") == text else describe(ended)


def sizes_of_sdfw(lists):
    cases = []
    for runner in WAYS:
        for sound, (fault, text) in LIES.items():
            words = run_words(lying_design(runner), sound, runner)
            cases.append((f"{sound} {runner}", lambda given=(words, fault, text): small(*given)))
    lists.cases("sdfw: sizes that lie ask for less than 1 MB", cases)


def to_closed_pipe(words, which="printed", sound=None):
    """Runs with standard output or error, as `which` says, a pipe that nobody reads."""
    reading, writing = os.pipe()
    os.close(reading)
    try:
        return run(words, sound=sound, **{which: writing})
    finally:
        os.close(writing)


def to_full(words, sound=None):
    with open("/dev/full", "wb") as full:
        return run(words, printed=full, sound=sound)


# Where what is printed can't go.
NOWHERE = (("/dev/full", to_full), ("a closed pipe", to_closed_pipe))


def with_fifo(words, name, deed, sound=None):
    """Runs beside a thread that does a deed with a FIFO of that name."""
    path = Folder.here() / name
    path.unlink(missing_ok=True)
    os.mkfifo(path)
    other = threading.Thread(target=deed, args=(path,))
    other.start()
    ended = run(words, sound=sound)
    other.join()
    path.unlink()
    return ended


def from_fifo(words, name, data, sound=None):
    """Whether a run from a FIFO whose writer goes away after some bytes ends as one from a file of them. It may be
    standard input, too."""

    def write(path):
        with open(path, "wb") as fifo:
            try:
                fifo.write(data)
            except BrokenPipeError:
                pass

    fifo = with_fifo(words, name, write, sound)
    (Folder.here() / name).write_bytes(data)
    file = run(words, sound=sound)
    (Folder.here() / name).unlink()
    return True if fifo.answer() == file.answer() else f"{describe(fifo)}; from a file {describe(file)}"


def to_fifo(words, few):
    """How a run ends whose OUT is a FIFO that is shut after so many bytes, and can't hold the others."""

    def read(path):
        with open(path, "rb", buffering=0) as fifo:
            fifo.read(few) if few else None

    return with_fifo(words, "pipe.wav", read)


def devices_of_sdfw(lists):
    cases = []
    for name, words in PRINTED:
        words = [SDFW, *words]
        for place, to_place in NOWHERE:
            judged = lambda words=words, to_place=to_place: fails(to_place(words), no_write(words))
            cases.append((f"{name} to {place}", judged))
    untold = [SDFW, "check", "none.toml"]
    cases.append(("a fault told to a closed pipe", lambda: to_closed_pipe(untold, "told").status == 5))
    for runner in WAYS:
        more = way_words(runner)
        full = [SDFW, "run", "chain.toml", "short.wav", "/dev/full", *more]
        pipe = [SDFW, "run", "pieces.toml", "longer.wav", "pipe.wav", *way_words(runner, "--blocking", "4")]
        for name, words, fault in (
            ("OUT is /dev/full", full, NO_WRITE),
            ("GRAPH is a folder", [SDFW, "run", ".", "short.wav", "out.wav", *more], NO_READ),
            ("IN is a folder", [SDFW, "run", "chain.toml", ".", "out.wav", *more], NO_READ),
            ("OUT is a folder", [SDFW, "run", "chain.toml", "short.wav", ".", *more], NO_WRITE),
        ):
            cases.append((f"{name}, {runner}", lambda words=words, fault=fault: fails(run(words), fault)))
        for few in (0, 1, 44, 1000):
            cases.append((f"OUT is a pipe shut after {few} bytes, {runner}",
                          lambda few=few, words=pipe: fails(to_fifo(words, few), NO_WRITE)))
        words = [SDFW, "run", "chain.toml", "fifo.wav", "out.wav", *more]
        streams = stream_words("chain.toml", runner)
        for few in (0, 1, 12, 44, 45, 332, len(SOUNDS["short.wav"])):
            data = SOUNDS["short.wav"][:few]
            cases.append((f"IN is a FIFO of {few} bytes, {runner}",
                          lambda given=(words, "fifo.wav", data): from_fifo(*given)))
            cases.append((f"standard input is a FIFO of {few} bytes, {runner}",
                          lambda given=(streams, "fifo.wav", data, "fifo.wav"): from_fifo(*given)))
        for place, to_place in NOWHERE:
            cases.append((f"OUT is standard output, {place}, {runner}",
                          lambda to_place=to_place, words=streams: fails(to_place(words, sound="short.wav"), NO_WRITE)))
    graph = (HERE / "designs/chain.toml").read_bytes()
    for few in (0, 1, 100, len(graph)):
        cases.append((f"GRAPH is a FIFO of {few} bytes",
                      lambda few=few: from_fifo([SDFW, "check", "fifo.toml"], "fifo.toml", graph[:few])))
    lists.cases("sdfw: devices", cases)


def all_lists(lists):
    reads_of_sdfw(lists)
    pieces_of_sdfw(lists)
    writes_of_sdfw(lists)
    old_of_sdfw(lists)
    bytes_of_sdfw(lists)
    sizes_of_sdfw(lists)
    devices_of_sdfw(lists)
