"""A design at each limit at once."""
import struct

INPUTS, OUTPUTS = (1024, 512, 256), (1024, 128, 64)
FORKS, CHAIN, WAYS = 13, 32, 16


def kind(number):
    """The kind of an actor of the chain: those between x12 and x23 fire twice as often as the others."""
    if number < 5:
        return f'"fir"\nup = {32 >> number}\ndown = {32 >> number}\nshift = 15\nfile = "taps.toml"'
    if number in (12, 23):
        return '"interpolate"\nfactor = 2' if number == 12 else '"decimate"\nfactor = 2'
    if number in (13, 14):
        return '"table"\noffset = 0\nfile = "values.toml"'
    return '"delay"\nlength = 65536' if number in (15, 16) else '"gain"\ngain = -32768\nshift = 15'


def actors():
    """64 actors, which have names and kinds, each at home on a processor."""
    for word, name, blocks in (("input", "in", INPUTS), ("output", "out", OUTPUTS)):
        yield from ((f"{name}{at}", f'"{word}"\nchannel = {at}\nblock = {block}') for at, block in enumerate(blocks))
    for number in range(2 * FORKS):
        yield f"w{number}", f'"{"add" if number % 2 else "fork"}"\nways = {WAYS}'
    yield from ((f"x{number}", kind(number)) for number in range(CHAIN))


def links():
    """256 links: forks and the adders behind them in a chain, and two further inputs and outputs at the first two."""
    yield "in0", "w0"
    for number in range(FORKS):
        fork, add = f"w{2 * number}", f"w{2 * number + 1}"
        yield from ((f"{fork}:{way}", f"{add}:{way}") for way in range(WAYS - 1))
        if number < 2:
            yield f"{fork}:15", f"out{number + 1}"
            yield f"in{number + 1}", f"{add}:15"
        else:
            yield f"{fork}:15", f"{add}:15"
        yield add, f"x{number}"
        if number < FORKS - 1:
            yield f"x{number}", f"w{2 * number + 2}"
    yield from ((f"x{number}", f"x{number + 1}") for number in range(FORKS - 1, CHAIN - 1))
    yield f"x{CHAIN - 1}", "out0"


def sound(frames):
    """A WAV file of three channels."""
    data = struct.pack(f"<{3 * frames}h", *(7 * at % 1000 - 500 for at in range(3 * frames)))
    form = struct.pack("<IHHIIHH", 16, 1, 3, 44100, 6 * 44100, 6, 16)
    head = struct.pack("<4sI", b"RIFF", 36 + len(data)) + b"WAVEfmt " + form
    return head + struct.pack("<4sI", b"data", len(data)) + data


def write(folder):
    """Puts the design, its coefficient files and a sound of most of a period into a folder."""
    (folder / "three.wav").write_bytes(sound(1000))
    ones = lambda many: ", ".join(["1"] * many)
    said = ["format = 1\n"]
    for at, (name, its) in enumerate(actors()):
        said.append(f'[[actor]]\nname = "{name}"\nkind = {its}\nprocessor = {at % 16}\n')
    said += [f'[[link]]\nfrom = "{begin}"\nto = "{end}"\n' for begin, end in links()]
    (folder / "largest.toml").write_text("".join(said) + f"initial = [{ones(65536)}]\n")
    (folder / "taps.toml").write_text(f"format = 1\nvalues = [{ones(1024)}]\n")
    (folder / "values.toml").write_text(f"format = 1\nvalues = [{ones(65536)}]\n")
