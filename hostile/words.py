"""The words that the lists of the shipped program run it by."""
from machine import BUILD

SDFW = BUILD / "sdfw"
RUNNERS = {
    "one": ["--runner", "one"],
    "rows": ["--runner", "rows", "--workers", "2"],
    "rings": ["--runner", "rings", "--workers", "2", "--patience", "0"],
}

# How the lists of devices run designs: by each runner, and in two parts of the sound.
WAYS = [*RUNNERS, "parts"]


def way_words(way, *more):
    """The options of a way to run; a run in parts takes no others."""
    return ["--parallel", "2"] if way == "parts" else [*RUNNERS[way], *more]


def run_words(design, sound, way, *more):
    return [SDFW, "run", design, sound, "out.wav", *way_words(way, *more)]


def stream_words(design, way, *more):
    """The words of a run from standard input to standard output."""
    return [SDFW, "run", design, "-", "-", *way_words(way, *more)]


# The runs of designs: a name, a design, a sound, further options, and the bytes of a period of the output.
RUNS = [("chain", "chain.toml", "short.wav", [], 320), ("loop", "loop.toml", "few.wav", [], 2),
        ("pieces", "pieces.toml", "long.wav", ["--blocking", "4"], 2048)]

# Those that threads are refused in parallel runs of: a design with two heavy branches, and one with a warm-up.
IN_PARTS = [("heavy", "heavy.toml", "long.wav", [], 2), ("filter", "filter.toml", "long.wav", [], 2)]

# What writes measured costs into a file.
COSTED = [SDFW, "profile", "tables.toml", "few.wav", "--write", "out.wav"]

# What is printed, and the words that ask for it.
PRINTED = [
    ("check", ["check", "chain.toml"]),
    ("schedule", ["schedule", "chain.toml", "--workers", "2"]),
    ("analyze", ["analyze", "chain.toml", "--workers", "2"]),
    ("analyze --compare", ["analyze", "blocks.toml", "--compare"]),
    ("draw", ["draw", "chain.toml", "--workers", "2"]),
    ("draw --dot", ["draw", "chain.toml", "--dot"]),
    ("schedule by spread", ["schedule", "chain.toml", "--workers", "2", "--placement", "spread"]),
    ("analyze by spread", ["analyze", "chain.toml", "--workers", "2", "--placement", "spread"]),
    ("draw by spread", ["draw", "chain.toml", "--workers", "2", "--placement", "spread"]),
    ("check --json", ["check", "chain.toml", "--json"]),
    ("schedule --json", ["schedule", "blocks.toml", "--json"]),
    ("analyze --json", ["analyze", "blocks.toml", "--json"]),
    ("analyze --compare --json", ["analyze", "blocks.toml", "--compare", "--json"]),
    ("kinds", ["kinds"]),
    ("kinds --json", ["kinds", "--json"]),
    ("explain", ["explain", "10"]),
    ("help", ["help"]),
    ("--help", ["--help"]),
    ("run --help", ["run", "--help"]),
    ("--version", ["--version"]),
]

# What is made of numbers, with a line on standard error for each filter.
MADE = [
    ("fir", ["fir", "lowpass", "--rate", "48000", "--pass", "8000", "--stop", "12000", "--attenuation", "40"]),
    ("resample", ["resample", "8000", "12000", "."]),
]

# What is a fault, and the words that meet it.
FAULTS = [
    ("no file", ["check", "none.toml"]),
    ("no command", ["play"]),
    ("a deadlock", ["check", "deadlock.toml"]),
    ("a deadlock and why", ["check", "deadlock.toml", "--why"]),
    ("a deadlock in JSON", ["check", "deadlock.toml", "--json"]),
    ("no sound", ["run", "loop.toml", "none.wav", "out.wav"]),
    ("no file and why", ["check", "none.toml", "--why"]),
    ("no document and why", ["check", "torn.toml", "--why"]),
    ("no coefficient file and why", ["check", "lost.toml", "--why"]),
    ("a value and why", ["check", "value.toml", "--why"]),
    ("a value in JSON", ["check", "value.toml", "--json"]),
    ("an actor apart and why", ["check", "apart.toml", "--why"]),
    ("rates that differ and why", ["check", "rates.toml", "--why"]),
    ("no home and why", ["schedule", "blocks.toml", "--placement", "file", "--why"]),
    ("no channel and why", ["run", "second.toml", "few.wav", "out.wav", "--why"]),
    ("no whole rate and why", ["run", "eighth.toml", "few.wav", "out.wav", "--why"]),
    ("no folder and why", ["run", "loop.toml", "few.wav", "none/out.wav", "--why"]),
]
