"""The lists of the shipped program in which memory or a thread is refused, and what its runs ask for."""
import struct

import largest
from judges import NO_MEMORY, NO_MEMORY_IN_JSON, NO_WORKER, ample_or, any_of, behind, is_text, only, timed
from machine import Folder, describe, run, wav
from words import COSTED, FAULTS, MADE, PRINTED, RUNNERS, RUNS, SDFW, IN_PARTS, run_words, stream_words


def memory_or_ample(words):
    """The ample answer, or the fault of memory: in JSON where that is asked for and the words could be read."""
    plain = ample_or(NO_MEMORY, less=words[-1] == "--why")
    return any_of(plain, ample_or(NO_MEMORY_IN_JSON)) if words[-1] == "--json" else plain


def memory_of_sdfw(lists):
    for name, words in PRINTED + FAULTS:
        lists.refuse(f"sdfw {name}: memory", [SDFW, *words], "memory", memory_or_ample(words))
    for name, words in MADE:
        lists.refuse(f"sdfw {name}: memory", [SDFW, *words], "memory", behind(NO_MEMORY, True))
    for runner in RUNNERS:
        for name, design, sound, more, period in RUNS:
            words = run_words(design, sound, runner, *more)
            lists.refuse(f"sdfw run {name} {runner}: memory", words, "memory", ample_or(NO_MEMORY, period))
        name, design, sound, more, period = RUNS[2]
        words = stream_words(design, runner, *more)
        lists.refuse(f"sdfw run - - {runner}: memory", words, "memory", ample_or(NO_MEMORY, period), sound=sound)


def pieces_of_sdfw(lists):
    """A sound of four pieces on one thread, each in the memory of the one before: memory is refused in all of them."""
    name, words = "sdfw run four pieces one: memory", run_words("pieces.toml", "longer.wav", "one")
    allowed, left = ample_or(NO_MEMORY, 2048), set()

    def judge(ended, ample, at):
        left.add(len(ended.output or b""))
        return allowed(ended, ample, at)

    lists.refuse(name, words, "memory", judge)
    if left:
        pieces = [44 + 65536 * piece for piece in range(4)]
        lists.cases(f"{name}, in each piece", [
            (f"{size} bytes are left", lambda size=size: size in left or f"only {sorted(left)}") for size in pieces])


def threads_of_sdfw(lists):
    for runner in ("rows", "rings"):
        for name, design, sound, more, period in RUNS[1:]:
            words = run_words(design, sound, runner, *more)
            lists.refuse(f"sdfw run {name} {runner}: threads", words, "thread", ample_or(NO_WORKER, period))
        for name, design, sound, more, period in RUNS:
            words = run_words(design, sound, runner, *more)
            without_threads(lists, f"sdfw run {name} {runner}", words, period)


def without_threads(lists, name, words, period):
    lists.cases(f"{name}: no thread at all", [("all refused", lambda: with_no_thread(words, period))])


def measured(ended, ample, at):
    """The ample answer but for what a clock gave, or the fault of memory."""
    return timed(ended) == timed(ample) or only(NO_MEMORY)(ended, ample, at)


def profile_of_sdfw(lists):
    """Not of the chain: the table of its long blocks asks for tens of thousands of rows."""
    for name, design, sound, _, _ in RUNS[1:] + IN_PARTS:
        words = [SDFW, "profile", design, sound]
        lists.refuse(f"sdfw profile {name}: memory", words, "memory", measured, answer=timed)
    lists.refuse("sdfw profile --write: memory", COSTED, "memory", measured, answer=timed)


def with_no_thread(words, period):
    ample = run(words)
    ended = run(words, kind="thread", at="all")
    if ample.calls("thread") == 0:
        return "it starts none"
    if ended.answer() == ample.answer() or (ended.fault() == NO_WORKER and is_text(ended.output, ample.output, period)):
        return True
    return describe(ended)


def why_or(fault, period):
    """The ample answer, or the fault behind what is told of the workers, with a text in OUT."""
    told = behind(fault, True)
    return lambda ended, ample, at: told(ended, ample, at) and is_text(ended.output, ample.output, period)


def parallel_of_sdfw(lists):
    """Parallel runs, in parts of the sound or on one thread."""
    for name, design, sound, _, period in RUNS + IN_PARTS:
        words, told = [SDFW, "run", design, sound, "out.wav", "--parallel", "2"], f"sdfw run {name} --parallel"
        lists.refuse(f"{told}: memory", words, "memory", ample_or(NO_MEMORY, period))
        lists.refuse(f"{told} --why: memory", [*words, "--why"], "memory", why_or(NO_MEMORY, period))
    for name, design, sound, _, period in IN_PARTS:
        words, told = [SDFW, "run", design, sound, "out.wav", "--parallel", "2"], f"sdfw run {name} --parallel"
        lists.refuse(f"{told}: threads", words, "thread", ample_or(NO_WORKER, period))
        without_threads(lists, told, words, period)


def begun(samples):
    """A design whose one channel begins with so many samples."""
    ends = ", ".join(f'{{ name = "{kind}", kind = "{kind}", channel = 0 }}' for kind in ("input", "output"))
    ones = ", ".join(["1"] * samples)
    return f'format = 1\nactor = [{ends}]\nlink = [{{ from = "input", to = "output", initial = [{ones}] }}]\n'


# What a run asks for beside that: at most so many bytes, and so many for each frame.
BESIDE, FRAME = 1 << 17, 64

# For each piece that is run, how often room for all that the channel begins with is asked for: for the net that begins
# there, for the channel (the queues of `one` and `rows` have twice their room, rings have it once) and for what the
# piece leaves. Before the first piece it is asked for once more.
COPIES = {"one": 4, "rows": 4, "rings": 3}


def rooms(runner, samples, frames):
    """The bytes that a run needs of a design whose channel begins with so many samples of four bytes."""
    pieces = 1 if runner == "one" else -(-frames // 4096)
    return 4 * samples * (1 + COPIES[runner] * pieces) + BESIDE + FRAME * frames


def fits(runner, samples, sound, frames):
    """Whether a run asks for no more than it needs."""
    asked, most = asked_by_run(runner, samples, sound), rooms(runner, samples, frames)
    return True if isinstance(asked, int) and asked <= most else f"{asked} bytes asked for, and not {most}"


def rooms_of_sdfw(lists):
    cases = []
    for runner in RUNNERS:
        for sound, frames in (("few.wav", 4), ("long.wav", 9000)):
            for samples in (1, 65536):
                cases.append((f"{samples} samples at first, {sound}, {runner}",
                              lambda given=(runner, samples, sound, frames): fits(*given)))
    lists.cases("sdfw: what is asked for is what is needed", cases)


def is_answered(words):
    """Whether a command is done, and with no fault."""
    ended = run([SDFW, *words])
    return True if ended.status == 0 and not ended.told else describe(ended)


def limits_of_sdfw(lists):
    """A design at each limit at once is never refused for want of memory."""
    largest.write(Folder.here())
    cases = [("check", lambda: is_answered(["check", "largest.toml"]))]
    for more in (["hu"], ["homed"], ["file"], ["file", "--policy", "runs"]):
        words = ["largest.toml", "--workers", "16", "--placement", *more]
        cases.append((f"schedule {more}", lambda words=words: is_answered(["schedule", *words])))
    for runner in RUNNERS:
        words = ["run", "largest.toml", "three.wav", "out.wav", "--runner", runner, "--workers", "16"]
        cases.append((f"run by {runner}", lambda words=words: is_answered(words)))
    lists.cases("sdfw: a design at each limit", cases)


# A design that makes 1,024 samples of one, and how many frames it is run on.
WIDENED = """format = 1
actor = [{ name = "in", kind = "input", channel = 0 }, { name = "by32", kind = "interpolate", factor = 32 },
    { name = "again", kind = "interpolate", factor = 32 }, { name = "out", kind = "output", channel = 0, block = 1024 }]
link = [{ from = "in", to = "by32" }, { from = "by32", to = "again" }, { from = "again", to = "out" }]
"""
FRAMES = 10000


def widened(more, awaited=0):
    return run([SDFW, "run", "widened.toml", "frames.wav", "out.wav", *more], awaited=awaited)


def makes_all(more):
    """Whether a run on these frames is done, and makes each sample and the zeros behind it."""
    ended = widened(more)
    wanted = b"".join(struct.pack("<h", 7 * at % 1000 - 500) + bytes(2046) for at in range(FRAMES))
    return True if ended.status == 0 and (ended.output or b"")[44:] == wanted else describe(ended)


def at_once(workers):
    """Whether `workers` parts are at work at the same time, all in threads that were started."""
    together = widened(["--parallel", str(workers)], awaited=workers).together()
    return True if together == workers else f"{together} threads at work at the same time"


# Frames of a sound of some pieces, in a parallel run by two workers.
LONG = 2000000


def in_pieces():
    """Whether a parallel run asks for no block of memory as large as its sound."""
    (Folder.here() / "whole.wav").write_bytes(wav([7 * at % 1000 - 500 for at in range(LONG)]))
    ended = run([SDFW, "run", "pieces.toml", "whole.wav", "out.wav", "--parallel", "2"])
    return True if ended.status == 0 and ended.greatest() < LONG else f"{ended.greatest()} bytes, {describe(ended)}"


def meanwhile():
    """Whether a parallel run reads and writes while parts are run: more often than it has pieces."""
    ended = run([SDFW, "run", "pieces.toml", "whole.wav", "out.wav", "--parallel", "2"])
    return True if ended.status == 0 and ended.beside() > 16 else f"{ended.beside()} times, {describe(ended)}"


def outputs_of_sdfw(lists):
    """Outputs of over 10,000,000 samples are never refused for want of memory."""
    (Folder.here() / "widened.toml").write_text(WIDENED)
    (Folder.here() / "frames.wav").write_bytes(wav([7 * at % 1000 - 500 for at in range(FRAMES)]))
    ways = [*RUNNERS.values(), ["--parallel", "2"]]
    lists.cases("sdfw: 10,240,000 samples", [(" ".join(more), lambda more=more: makes_all(more)) for more in ways])
    lists.cases("sdfw: parts at work at the same time, in pieces", [
        *((f"--parallel {workers}", lambda workers=workers: at_once(workers)) for workers in (2, 3, 4)),
        ("a sound of nine pieces", in_pieces),
        ("its reads and writes", meanwhile)])


def asked_by_run(runner, samples, sound):
    """The bytes that a run of such a design asks for beyond those of reading the design, or how it ended."""
    (Folder.here() / "begun.toml").write_text(begun(samples))
    read, ran = run([SDFW, "check", "begun.toml"]), run(run_words("begun.toml", sound, runner))
    return ran.asked() - read.asked() if ran.status == 0 else describe(ran)


def all_lists(lists):
    memory_of_sdfw(lists)
    pieces_of_sdfw(lists)
    threads_of_sdfw(lists)
    parallel_of_sdfw(lists)
    profile_of_sdfw(lists)
    rooms_of_sdfw(lists)
    limits_of_sdfw(lists)
    outputs_of_sdfw(lists)
