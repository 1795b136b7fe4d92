#!/usr/bin/env python3
"""Times the built program on noise, side by side with C, and with sox and ffmpeg where they are installed.

The programs take turns, so that what else the machine does falls on all of them. Of each it prints the least and the
median seconds, the least over that of the fastest C, the greatest memory, and whether it wrote the bytes of the plain
loop in C. It asserts nothing.

    bench/run.py [--program FILE] [--cpu NAME] [--rounds N] [--seconds N] [WORD ..]

Words choose designs by their titles. NAME is the processor that gcc compiles C for.
"""
import argparse, array, pathlib, random, shutil, statistics, struct, subprocess, sys, tempfile, tomllib

TOP = pathlib.Path(__file__).resolve().parent.parent
NAMES = ("44100-to-48000", "crossover", "echo", "interleave")
CONVERTER, CROSSOVER, ECHO, INTERLEAVE = (TOP / "examples" / name for name in NAMES)
RATE = 44100
ONE = {"sdfw": []}
ROWS = {"sdfw, rows": ["--runner", "rows", "--workers", "2", "--blocking", "16"]}
WORKERS = (1, 2, 4)
RINGS = {f"rings {m}": ["--runner", "rings", "--workers", str(m)] for m in WORKERS}
IN_RUNS = ["--policy", "runs", "--placement", "file", "--blocking", "64", "--patience", "100000"]
HOMES = {f"rings {m}, at home": [*words, *IN_RUNS] for m, words in zip(WORKERS, RINGS.values())}
ALONE = {"rings 1, at home": HOMES["rings 1, at home"]}
OUTS, BANK_TAPS = 8, 1024
# Filters of the two banks.
BANK, GREAT_BANK = 8, 32
# Of four workers, on which each actor of the crossover is at home; those not named are on the last.
CROSSOVER_HOMES = {
    **dict.fromkeys(("in", "split", "dry"), 0),
    **dict.fromkeys(("low300", "low300-down", "low", "low-time", "out-low", "minus-low"), 1),
    **dict.fromkeys(("low3000", "low3000-down", "low3000-align"), 2),
}


def noise(path, seconds, channels, halvings):
    """A WAV file of noise, its full scale halved so many times."""
    samples = array.array("h", random.Random(1).randbytes(2 * int(seconds * RATE) * channels))
    data = array.array("h", (sample >> halvings for sample in samples)).tobytes()
    form = struct.pack("<IHHIIHH", 16, 1, channels, RATE, 2 * channels * RATE, 2 * channels, 16)
    head = b"RIFF" + struct.pack("<I", 36 + len(data)) + b"WAVEfmt " + form + b"data" + struct.pack("<I", len(data))
    path.write_bytes(head + data)


def values(path):
    return tomllib.loads(path.read_text())["values"]


def taps(path, filters):
    """What the C programs know of the designs: the filters of the converter, the crossover's two, a bank's."""
    lines = ["enum { PERIOD_IN = 147, PERIOD_OUT = 160 };"]
    actors = tomllib.loads((CONVERTER / "graph.toml").read_text())["actor"]
    stages = [actor for actor in actors if actor["kind"] == "fir"]
    entries = []
    for stage in stages:
        numbers = values(CONVERTER / stage["file"])
        lines.append(f"static const int taps_{stage['name']}[] = {{{','.join(map(str, numbers))}}};")
        entries.append(f"{{{stage['up']}, {stage['down']}, {stage['shift']}, {len(numbers)}, taps_{stage['name']}}}")
    lines.append(f"enum {{ STAGES = {len(entries)} }};")
    lines.append(f"__attribute__((unused)) static const Filter stages[] = {{{', '.join(entries)}}};")
    for name in ("low300", "low3000"):
        numbers = values(CROSSOVER / f"{name}.toml")
        lines.append(f"static const int taps_{name}[] = {{{','.join(map(str, numbers))}}};")
        lines.append(f"__attribute__((unused)) static const Filter {name} = {{1, 1, 15, {len(numbers)}, taps_{name}}};")
    path.write_text("\n".join(lines) + "\n" + bank_text([bank_taps(p) for p in range(filters)], OUTS))


def bank_text(rows, outs):
    """What they know of the taps of a bank of filters with so many outputs."""
    sizes = f"OUTS = {outs}, BANK = {len(rows)}, BANK_TAPS = {len(rows[0])}, BANK_SHIFT = 15"
    taps = ",".join("{" + ",".join(map(str, row)) + "}" for row in rows)
    return (f"enum {{ {sizes} }};\n"
            f"__attribute__((unused)) static const int taps_bank[BANK][BANK_TAPS] = {{{taps}}};\n")


def bank_taps(filter):
    """The taps of a filter of the bank: noise."""
    numbers = random.Random(filter)
    return [numbers.randint(-200, 200) for _ in range(BANK_TAPS)]


def forked(filters):
    """Actors and links that lead one channel to so many filters: a fork has at most 16 ways."""
    if filters <= 16:
        return [("split", "fork", f"ways = {filters}")], [("in", "split")], [f"split:{p}" for p in range(filters)]
    halves = [("half0", "fork", f"ways = {filters // 2}"), ("half1", "fork", f"ways = {filters // 2}")]
    links = [("in", "split"), ("split:0", "half0"), ("split:1", "half1")]
    ways = [f"half{h}:{p}" for h in (0, 1) for p in range(filters // 2)]
    return [("split", "fork", "ways = 2"), *halves], links, ways


def bank(folder, filters):
    """A design of a bank of filters, one channel in and the sums of neighbours out, and where its actors are at home
    among four workers."""
    folder.mkdir()
    forks, links, ways = forked(filters)
    actors = [("in", "input", "channel = 0"), *forks]
    each = filters // OUTS
    for p in range(OUTS):
        for f in range(p * each, (p + 1) * each):
            (folder / f"taps-{f}.toml").write_text(f"format = 1\nvalues = {bank_taps(f)}\n")
            actors.append((f"f{f}", "fir", f'shift = 15\nfile = "taps-{f}.toml"'))
            links += [(ways[f], f"f{f}"), (f"f{f}", f"sum{p}:{f % each}" if each > 1 else f"out{p}")]
        if each > 1:
            actors.append((f"sum{p}", "add", f"ways = {each}"))
            links.append((f"sum{p}", f"out{p}"))
        actors.append((f"out{p}", "output", f"channel = {p}"))
    tables = [f'[[actor]]\nname = "{name}"\nkind = "{kind}"\n{keys}\n' for name, kind, keys in actors]
    tables += [f'[[link]]\nfrom = "{one}"\nto = "{other}"\n' for one, other in links]
    (folder / "graph.toml").write_text("format = 1\n\n" + "\n".join(tables))
    homes = {f"{kind}{p}": p * 4 // OUTS for p in range(OUTS) for kind in ("f", "out")}
    return folder / "graph.toml", {"in": 0, "split": 0, **homes}


def at_homes(folder, graph, homes):
    """For each number of workers the design with its actors at home, by the names of the runners that want it."""
    made = {}
    for name, workers in zip(HOMES, WORKERS):
        place = folder / f"{graph.parent.name}-at-{workers}"
        shutil.copytree(graph.parent, place)
        lines = []
        for line in graph.read_text().splitlines():
            if line.startswith("processor = "):
                continue
            lines.append(line)
            if line.startswith("name = "):
                lines.append(f"processor = {homes.get(line.split(chr(34))[1], 3) * workers // 4}")
        (place / "graph.toml").write_text("\n".join(lines) + "\n")
        made[name] = place / "graph.toml"
    return made


def compiled(folder, name, cpu=None):
    """A program in C, with the taps that are in a folder, for a processor."""
    cpu = cpu or WANTED.cpu
    made = folder / f"{name}-{cpu}"
    if made.exists():
        return str(made)
    flags = ["-O3", f"-march={cpu}", "-Wall", "-Wextra", "-pthread", "-I", str(folder)]
    subprocess.run(["gcc", *flags, "-o", str(made), str(TOP / "bench" / f"{name}.c")], check=True)
    return str(made)


def run(meter, command, copies=1):
    """The seconds that copies of a command take at once, and the greatest memory of one in kilobytes."""
    told = pathlib.Path(meter + ".txt")
    subprocess.run([meter, str(told), str(copies), *command], check=True)
    seconds, memory = told.read_text().split()
    return float(seconds), int(memory)


def measure(meter, title, seconds, commands, made):
    """Measures commands by name in turn; those in C have names that begin with C."""
    seen = {name: [] for name in commands}
    for _ in range(WANTED.rounds):
        for name, command in commands.items():
            seen[name].append(run(meter, command))
    least = {name: min(took for took, _ in runs) for name, runs in seen.items()}
    fastest = min(took for name, took in least.items() if name.startswith("C"))
    plain = made["C, plain loop"].read_bytes()
    print(f"{title}, {seconds} s")
    for name, runs in seen.items():
        middle, memory = statistics.median(took for took, _ in runs), max(memory for _, memory in runs)
        same = "the same bytes" if made[name].read_bytes() == plain else "OTHER BYTES"
        same = "" if name in ("sox", "ffmpeg") else same
        times, size = least[name] / fastest, memory / 1024
        print(f"  {name:14} {least[name]:8.3f} {middle:8.3f} s {times:7.2f} times {size:7.1f} MB  {same}")


OTHERS = {
    "sox": ["sox", None, "-b", "16", "-r", "48000", None],
    "ffmpeg": ["ffmpeg", "-v", "error", "-y", "-i", None, "-ar", "48000", None],
}


def compare(
    folder,
    title,
    graph,
    programs,
    channels=1,
    rate=False,
    halvings=1,
    runners=ONE,
    lengths=(10, 60),
    homes=None,
):
    """Measures a design by some runners beside programs, on noise of some seconds."""
    if WANTED.words and not any(word in title for word in WANTED.words):
        return
    for seconds in [WANTED.seconds] if WANTED.seconds else lengths:
        source = folder / f"{seconds}-{channels}-{halvings}.wav"
        if not source.exists():
            noise(source, seconds, channels, halvings)
        made = {name: folder / f"{place}.wav" for place, name in enumerate([*runners, *programs, *OTHERS])}
        commands = {}
        for name, options in runners.items():
            files = [(homes or {}).get(name, graph), source, made[name]]
            commands[name] = [WANTED.program, "run", *map(str, files), *options]
        for name, program in programs.items():
            words = [program] if isinstance(program, str) else program
            commands[name] = [*words, str(source), str(made[name])]
        for name, words in OTHERS.items():
            if rate and shutil.which(name):
                paths = iter((str(source), str(made[name])))
                commands[name] = [word or next(paths) for word in words]
        measure(compiled(folder, "measure"), title, seconds, commands, made)


def wanted():
    words = argparse.ArgumentParser(usage=__doc__)
    words.add_argument("--program", default=str(TOP / "build/sdfw"))
    words.add_argument("--cpu", default="native")
    words.add_argument("--rounds", type=int, default=9)
    words.add_argument("--seconds", type=int)
    words.add_argument("words", nargs="*")
    return words.parse_args()


WANTED = wanted()


def by_c(folder, name):
    """A design as a plain loop in C, and by branches of taps."""
    return {"C, plain loop": compiled(folder, name), "C, SIMD": compiled(folder, f"{name}-simd")}


def main():
    with tempfile.TemporaryDirectory() as folder:
        folder = pathlib.Path(folder)
        taps(folder / "taps.h", BANK)
        chain = {"C, plain loop": compiled(folder, "plain"), "C, SIMD": compiled(folder, "simd")}
        print("seconds: least, median; over the fastest C; greatest memory")
        compare(folder, "44,100 to 48,000, mono, half scale", CONVERTER / "graph.toml", chain, rate=True)
        compare(folder, "44,100 to 48,000, mono, full scale", CONVERTER / "graph.toml", chain, halvings=0)
        compare(folder, "44,100 to 48,000, stereo", CONVERTER / "graph-stereo.toml", chain, channels=2, rate=True)
        compare(folder, "crossover", CROSSOVER / "graph.toml", by_c(folder, "crossover"))
        converter, crossover = CONVERTER / "graph.toml", CROSSOVER / "graph.toml"
        title = "44,100 to 48,000"
        by_all, by_rings, in_runs = {**ONE, **ROWS, **RINGS}, {**ONE, **RINGS}, {**ONE, **HOMES}
        compare(folder, f"{title}, mono, by workers", converter, chain, runners=by_all, lengths=(1,))
        alone = {**ONE, **ALONE}
        compare(folder, f"{title}, mono, one worker in runs", converter, chain, runners=alone, lengths=(10, 60, 600))
        stereo = CONVERTER / "graph-stereo.toml"
        compare(folder, f"{title}, stereo, by workers", stereo, chain, channels=2, runners=by_rings, lengths=(1,))
        graph, places = bank(folder / "filters", BANK)
        for title, design, program, homes in (
            ("crossover", crossover, "crossover", CROSSOVER_HOMES),
            ("a bank of eight filters", graph, "bank", places),
        ):
            both = by_c(folder, program)
            compare(folder, f"{title}, by workers", design, both, runners=by_rings, lengths=(1,))
            at_home = at_homes(folder, design, homes)
            compare(folder, f"{title}, by workers in runs", design, both, runners=in_runs, lengths=(10,), homes=at_home)
        compare(folder, "echo", ECHO / "graph.toml", {"C, plain loop": compiled(folder, "echo")})
        plain = {"C, plain loop": compiled(folder, "interleave")}
        compare(folder, "interleave", INTERLEAVE / "graph.toml", plain, channels=2)


if __name__ == "__main__":
    sys.exit(main())
