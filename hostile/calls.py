"""The lists of the libraries' calls: `hostile_calls` makes a call, in which memory or a thread is refused, and then the
same call again with both."""
import re
import time
from itertools import product

from judges import is_text
from machine import BUILD, describe, run

CALLS = BUILD / "hostile_calls"
WORKERS = {"rows": ["--runner", "rows", "--workers", "2"],
           "rings": ["--runner", "rings", "--workers", "2", "--patience", "0"]}
RUNNERS = {"one": [], **WORKERS}
POLICIES = ["round", "lean", "runs"]
PLACEMENTS = ["hu", "homed", "file", "spread"]
NO_MEMORY = b"1 OutOfMemory\n"
NO_WORKER = b"32 NoWorker\n"
SPENT = b"33 SessionFailed\n"

# The designs whose workers are held up, and in how many runs on each number of workers from 1 to 16: 10,000 in all.
HELD = {"chain.toml": 25, "blocks.toml": 150, "loop.toml": 150, "fork.toml": 150, "bank.toml": 150}
HELD_SECONDS = 1800

# The designs of which one worker is held up at a time, and all until another goes on: each by four runs, on so many
# workers.
HOLDING = ["chain.toml", "blocks.toml", "loop.toml", "fork.toml"]
WORKERS_HELD = [1, 2, 3, 16]


def call_words(call, design, *options, sound="short.wav"):
    return [CALLS, call, "run", design, sound, "out.wav", *options]


def parts(ended):
    """What is printed of a call, and of the same call again."""
    first, _, again = ended.printed.removeprefix(b"call\n").partition(b"again\n")
    return first, again


def ample_or(is_refusal):
    """The ample answer or a refusal, and then the ample one: what was lent is as it was."""

    def allowed(ended, ample, at):
        first, again = parts(ended)
        ample_first, wanted = parts(ample)
        ended_well = ended.status == 0 and not ended.told and ample_first == again == wanted
        return ended_well and (first == wanted or is_refusal(first, wanted))

    return allowed


def told(fault):
    return lambda first, wanted: first == fault


def told_and_spent(fault):
    """A feed that was refused, and behind it a feed, an empty one and the end of the session."""
    return told(fault + 3 * SPENT)


def written(said):
    """The bytes that are told to be written."""
    numbers = re.search(rb"^wrote \[(.*)\]$", said, re.MULTILINE)
    return bytes(int(number) for number in numbers[1].split(b",") if number)


def told_with_text(fault, period):
    """A run from bytes to bytes that was refused, and wrote nothing, the header, or it and whole periods."""

    def is_refusal(first, wanted):
        return first.startswith(fault + b"wrote ") and is_text(written(first), written(wanted), period)

    return is_refusal


def refuse(lists, name, words, kind, is_refusal, **how):
    lists.refuse(f"{name}: {'memory' if kind == 'memory' else 'threads'}", words, kind, ample_or(is_refusal),
                 window="call", **how)


def both(lists, name, words, refusal_of):
    """Refuses memory, and threads where the call starts some."""
    refuse(lists, name, words, "memory", refusal_of(NO_MEMORY))
    if lists.wants(f"{name}: threads") and run(words, window="call").calls("thread"):
        refuse(lists, name, words, "thread", refusal_of(NO_WORKER))


def designs(lists):
    for call in ("design_files", "read_design"):
        refuse(lists, call, call_words(call, "chain.toml"), "memory", told(NO_MEMORY))
    for runner, policy, placement in product(RUNNERS, POLICIES, PLACEMENTS):
        if placement == "spread" and policy != "runs":
            # A block by spread is in runs whatever the policy, and long: each plan asks for some thousand rows.
            continue
        options = ["--workers", "2", "--runner", runner, "--policy", policy, "--placement", placement]
        refuse(lists, f"plan {runner} {policy} {placement}", call_words("plan", "fork.toml", *options), "memory",
               told(NO_MEMORY))
    for policy in POLICIES:
        options = ["--workers", "2", "--runner", "rings", "--policy", policy]
        refuse(lists, f"plan of the chain {policy}", call_words("plan", "chain.toml", *options), "memory",
               told(NO_MEMORY))


def runs(lists):
    for design, runner in product(("blocks", "loop"), RUNNERS):
        both(lists, f"run_{runner} {design}", call_words("run", f"{design}.toml", *RUNNERS[runner]), told)
    for design, mode in product(("blocks", "loop"), WORKERS):
        options = WORKERS[mode]
        refuse(lists, f"Session::open {mode} {design}", call_words("open", f"{design}.toml", *options), "memory",
               told(NO_MEMORY))
        both(lists, f"Session::feed {mode} {design}", call_words("feed", f"{design}.toml", *options), told_and_spent)
    for design in ("blocks", "loop"):
        refuse(lists, f"Rings {design}", call_words("finish", f"{design}.toml", *WORKERS["rings"]), "memory",
               told(NO_MEMORY), none=True)


def sounds(lists):
    for runner in RUNNERS:
        words = call_words("process", "chain.toml", *RUNNERS[runner])
        refuse(lists, f"process {runner}", words, "memory", told_with_text(NO_MEMORY, 320))
    for runner in WORKERS:
        words = call_words("process", "loop.toml", *WORKERS[runner], sound="few.wav")
        both(lists, f"process {runner} loop", words, lambda fault: told_with_text(fault, 2))


def held_runs(lists, name, words, wanted):
    """Runs whose workers are held up make what one thread makes: as many as wanted on each number of workers."""
    if not lists.wants(name):
        return
    begun = time.monotonic()
    ended = run([CALLS, *words], seconds=HELD_SECONDS)
    lines = re.findall(r"^\S+ (\d+): (\d+) runs, (\d+) same, (\d+) refused, (\d+) turns$",
                       ended.printed.decode(), re.MULTILINE)
    counts = [[int(number) for number in line] for line in lines]
    wrong = [f"workers, runs, same, refused, turns: {line}" for line in counts
             if line[1:4] != [wanted.get(line[0]), line[1], 0] or line[4] == 0]
    if ended.status != 0 or [line[0] for line in counts] != list(wanted):
        wrong.append(describe(ended))
    turns = sum(line[4] for line in counts)
    lists.end(name, f"{ended.calls('thread')} threads, {turns} turns", sum(wanted.values()), begun, wrong)


def held(lists):
    """Workers held up for turns of a seeded generator; each in turn before all of its firings, and then all of them
    until another goes on."""
    for seed, (design, each) in enumerate(HELD.items()):
        wanted = {workers: each for workers in range(1, 17)}
        held_runs(lists, f"held up: {design}", ["disturb", str(each), str(seed), design], wanted)
    for design in HOLDING:
        wanted = {workers: 4 * (workers + 1) for workers in WORKERS_HELD}
        held_runs(lists, f"held one by one: {design}", ["hold", design], wanted)


def all_lists(lists):
    designs(lists)
    runs(lists)
    sounds(lists)
    held(lists)
