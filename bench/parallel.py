#!/usr/bin/env python3
"""Times `run --parallel` beside one thread, beside C that cuts the sound in a part for each thread, and beside four
copies of one thread at once: what the machine can give.

The ways take turns on noise at full scale. Of each design and length there is a line for each program: the least and
the median seconds of one thread, of 1, 2 and 4 workers, and of C by 1, 2 and 4 threads; and by the least seconds what
four workers, four copies and four threads of C gain, and how many times as long as C one thread takes; then the
greatest memory of four workers. Bytes that differ are said. It asserts nothing.

    bench/parallel.py [--core] [--rounds N] [--seconds N ..] [--program CPU=FILE] .. [WORD ..]

CPU is the processor that a program was built for, and gcc compiles C for it too. All programs take turns. With --core
everything runs on one core. Words choose designs by their names.
"""
import argparse, hashlib, importlib.util, itertools, os, pathlib, statistics, subprocess, sys, tempfile

TOP = pathlib.Path(__file__).resolve().parent.parent
COPIES, WORKERS = 4, (1, 2, 4)
HEADS = ["Design, seconds of sound", "built for", "`one`", "1", "2", "4 workers", "gain", "four copies", "C", "2",
         "4 threads", "gain", "`one` over C", "memory"]


def shared():
    """The sounds, designs and C programs of `run.py`, which reads its own words when it is loaded."""
    spec = importlib.util.spec_from_file_location("run", TOP / "bench" / "run.py")
    made, words = importlib.util.module_from_spec(spec), sys.argv
    sys.argv = words[:1]
    spec.loader.exec_module(made)
    sys.argv = words
    return made


def designs_of(run, folder):
    """Each design: its name, its graph, its channels, what does the same in C, and the folder of the taps of that."""
    for name in ("bank", "great", "low"):
        (folder / name).mkdir()
    run.taps(folder / "bank" / "taps.h", run.BANK)
    run.taps(folder / "great" / "taps.h", run.GREAT_BANK)
    lowpass = TOP / "examples" / "lowpass"
    (folder / "low" / "taps.h").write_text(run.bank_text([run.values(lowpass / "taps.toml")], 1))
    eight, great = (run.bank(folder / name / "filters", many)[0]
                    for name, many in (("bank", run.BANK), ("great", run.GREAT_BANK)))
    return [
        ("the converter, mono", run.CONVERTER / "graph.toml", 1, "simd", "bank"),
        ("the converter, stereo", run.CONVERTER / "graph-stereo.toml", 2, "simd", "bank"),
        ("the crossover", run.CROSSOVER / "graph.toml", 1, "crossover-simd", "bank"),
        ("the low-pass", lowpass / "graph.toml", 1, "bank-simd", "low"),
        ("a bank of eight filters", eight, 1, "bank-simd", "bank"),
        ("a bank of 32 filters", great, 1, "bank-simd", "great"),
        ("the echo", run.ECHO / "graph.toml", 1, "echo", "bank"),
    ]


def ways_of(program, in_c, graph, sound):
    """Of each way the words before the output and behind it, and how many copies run at once."""
    words, cuts = [program, "run", str(graph), str(sound)], "simd" in pathlib.Path(in_c).name
    ways = {"one": (words, [], 1)} | {str(m): (words, ["--parallel", str(m)], 1) for m in WORKERS}
    ways["copies"] = words, [], COPIES
    for m in WORKERS if cuts else WORKERS[:1]:
        ways[f"C, {m}"] = [in_c, *[str(m)] * cuts, str(sound)], [], 1
    return ways


def measured(run, folder, ways, asked):
    """What each way of each program took, in turn, and what it made."""
    meter, core = run.compiled(folder, "measure"), ["taskset", "-c", "0"] if asked.core else []
    seen, made = {way: [] for way in ways}, {}
    for _ in range(asked.rounds):
        for (cpu, way), (words, more, copies) in ways.items():
            out = folder / f"{cpu} {way} #.wav"
            seen[cpu, way].append(run.run(meter, [*core, *words, str(out), *more], copies))
            made[cpu, way] = hashlib.sha256(pathlib.Path(str(out).replace("#", "0")).read_bytes()).digest()
    return seen, made


def line(cpu, seen):
    """The columns of a program."""
    took = {way: [seconds for seconds, _ in runs] for (other, way), runs in seen.items() if other == cpu}
    least = {way: min(seconds) for way, seconds in took.items()}

    def times(way):
        return f"{least[way]:.3f} ({statistics.median(took[way]):.3f})" if way in took else ""

    def gain(one, way, copies=1):
        return f"{copies * least[one] / least[way]:.2f}" if way in least else ""

    memory = max(size for _, size in seen[cpu, "4"]) / 1024
    return [cpu, times("one"), *(times(str(m)) for m in WORKERS), gain("one", "4"), gain("one", "copies", COPIES),
            *(times(f"C, {m}") for m in WORKERS), gain("C, 1", "C, 4"), gain("one", "C, 1"), f"{memory:.1f} MB"]


def wanted():
    words = argparse.ArgumentParser(usage=__doc__)
    words.add_argument("--core", action="store_true")
    words.add_argument("--rounds", type=int, default=9)
    words.add_argument("--seconds", type=float, nargs="*", default=[0.25, 10, 60])
    words.add_argument("--program", action="append", metavar="CPU=FILE")
    words.add_argument("words", nargs="*")
    asked = words.parse_args()
    built = subprocess.run([TOP / "scripts/cpu"], capture_output=True, text=True, check=True).stdout.strip()
    asked.programs = dict(it.split("=", 1) for it in asked.program or [f"{built}={TOP / 'build/sdfw'}"])
    return asked


def main():
    asked, run = wanted(), shared()
    with tempfile.TemporaryDirectory() as folder:
        folder = pathlib.Path(folder)
        print(f"{os.cpu_count()} cores, all on one: {asked.core}, the least of {asked.rounds} and the median")
        print(f"| {' | '.join(HEADS)} |\n{'|---' * len(HEADS)}|")
        designs = designs_of(run, folder)
        for seconds, (name, graph, channels, in_c, taps) in itertools.product(asked.seconds, designs):
            if asked.words and not any(word in name for word in asked.words):
                continue
            sound, ways = folder / "sound.wav", {}
            run.noise(sound, seconds, channels, 0)
            for cpu, program in asked.programs.items():
                of_c = run.compiled(folder / taps, in_c, cpu)
                ways |= {(cpu, way): it for way, it in ways_of(program, of_c, graph, sound).items()}
            seen, made = measured(run, folder, ways, asked)
            other = "" if len(set(made.values())) == 1 else " OTHER BYTES"
            for cpu in asked.programs:
                print(f"| {' | '.join([f'{name}, {seconds:g}', *line(cpu, seen)])} |{other}", flush=True)


if __name__ == "__main__":
    sys.exit(main())
