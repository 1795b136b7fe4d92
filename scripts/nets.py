"""Designs that seeds make, for `scripts/examples`. They are consistent, connected and free of deadlock by the way they
are built: a net grows at one end, by stages that keep or change its rate. A loop keeps the rate and begins with
samples."""
import random

LOUDEST = 1 << 15


def toml(value):
    """Returns a text or a list of numbers as TOML has it, and a number as it is."""
    return f'"{value}"' if isinstance(value, str) else f"{value}"


class Net:
    """A design that a seed makes. Each stage goes on from an output port, and returns the one to go on from."""

    def __init__(self, seed):
        self.random, self.actors, self.links = random.Random(seed), [], []
        self.loops = 0
        number = self.random.randint
        block = number(1, 4)
        self.inputs, self.outputs = self.random.choice([(1, 1), (1, 1), (1, 2), (2, 1), (2, 2)])
        ends = [self.put("input", channel=channel, block=block) for channel in range(self.inputs)]
        end = ends[0] if self.inputs == 1 else self.joined([self.kept(end) for end in ends])
        stages = [self.kept, self.kept, self.kept, self.turned, self.branched, self.dealt]
        plan = self.random.choices(stages, k=number(1, 4)) + [self.rated] * number(0, 2)
        plan += [self.looped] * (number(0, 5) == 0)
        self.random.shuffle(plan)
        for stage in plan:
            end = stage(end)
        ends = [end] if self.outputs == 1 else self.forked(end, 2)
        block = number(1, 4)
        for channel, end in enumerate(ends):
            self.put("output", end if channel == 0 else self.kept(end), channel=channel, block=block)

    def text(self):
        """The graph file."""
        said = ["format = 2\n"]
        for table, entries in (("actor", self.actors), ("link", self.links)):
            for entry in entries:
                said.append(f"[[{table}]]\n" + "".join(f"{key} = {toml(value)}\n" for key, value in entry.items()))
        return "\n".join(said)

    def link(self, begin, end, initial=()):
        """Links two ports; one link of eight begins with samples, if none are named."""
        initial = list(initial) or self.noise(self.random.choice([0] * 28 + [1, 2, 3, 7]))
        self.links.append({"from": begin, "to": end, **({"initial": initial} if initial else {})})

    def noise(self, count):
        return [self.random.randrange(-LOUDEST, LOUDEST) for _ in range(count)]

    def put(self, kind, end=None, **keys):
        """Adds an actor behind `end`, and returns its first output port."""
        name = f"{kind}{len(self.actors)}"
        self.actors.append({"name": name, "kind": kind, **keys})
        if end:
            self.link(end, name)
        return name

    def fir(self, end, up, down):
        """A filter whose output is about as loud as its input, if that is noise."""
        shift, count = self.random.randint(6, 14), self.random.choice([1, 2, 3, 5, 8, 13, 21])
        most = min(LOUDEST - 1, int((1 << shift) * (3 * up / max(up, count)) ** 0.5))
        taps = [self.random.randint(-most, most) for _ in range(count)]
        return self.put("fir", end, up=up, down=down, shift=shift, taps=taps)

    def kept(self, end):
        """An actor that keeps the rate, or two."""
        number = self.random.randint
        kind = self.random.choice(["gain", "delay", "delay", "fir", "fir", "fir", "clip", "offset", "table"])
        if kind == "gain":
            gain = self.random.choice([-1, 1]) * number(20000, LOUDEST - 1)
            return self.put("gain", end, gain=gain, shift=number(14, 15))
        if kind == "delay":
            return self.put("delay", end, length=number(0, self.random.choice([1, 9, 60, 200])))
        if kind == "fir":
            rate = self.random.choice([1, 1, 2, 3])
            return self.fir(end, rate, rate)
        if kind == "clip":
            return self.put("clip", end, least=-number(9000, LOUDEST), greatest=number(9000, LOUDEST - 1))
        if kind == "offset":
            return self.put("offset", end, value=number(-3000, 3000))
        return self.put("table", self.put("gain", end, gain=1, shift=9), offset=64, values=self.noise(129))

    def rated(self, end):
        """An actor that changes the rate."""
        up, down = self.random.choice([(1, 2), (1, 3), (2, 1), (3, 1), (2, 3), (3, 2), (4, 3), (3, 4)])
        if 1 in (up, down) and self.random.random() < 0.4:
            return self.put("decimate" if up == 1 else "interpolate", end, factor=up * down)
        return self.fir(end, up, down)

    def turned(self, end):
        """A higher rate, something that keeps it, and the lower rate again; or the other way round."""
        factor, first = self.random.randint(2, 4), self.random.random() < 0.7
        for higher in (first, not first):
            if self.random.random() < 0.6:
                end = self.fir(end, *((factor, 1) if higher else (1, factor)))
            else:
                end = self.put("interpolate" if higher else "decimate", end, factor=factor)
            end = self.kept(end) if higher == first else end
        return end

    def forked(self, end, ways):
        name = self.put("fork", end, ways=ways)
        return [f"{name}:{way}" for way in range(ways)]

    def joined(self, ends):
        name = self.put("add", ways=len(ends))
        for way, end in enumerate(ends):
            self.link(end, f"{name}:{way}")
        return name

    def branched(self, end):
        """Ways of the same rate, and their sum."""
        ends = self.forked(end, self.random.randint(2, 3))
        return self.joined([self.random.choice([self.kept, self.kept, self.turned])(end) for end in ends])

    def dealt(self, end):
        """Samples in turn to several ways, and in turn back."""
        ways, run = self.random.randint(2, 3), self.random.randint(1, 2)
        deal = self.put("deal", end, ways=ways, run=run)
        ends = [self.kept(f"{deal}:{way}") for way in range(ways)]
        gather = self.put("gather", ways=ways, run=run)
        for way, end in enumerate(ends):
            self.link(end, f"{gather}:{way}")
        return gather

    def looped(self, end):
        """A loop, which may keep samples for ever."""
        self.loops += 1
        add = self.put("add", ways=2)
        self.link(end, f"{add}:0")
        on, back = self.forked(add, 2)
        back = self.put("gain", back, gain=self.random.randint(-20000, 20000), shift=15)
        if self.random.random() < 0.5:
            back = self.put("delay", back, length=self.random.randint(0, 20))
        self.link(back, f"{add}:1", self.noise(self.random.randint(1, 5)))
        return on
