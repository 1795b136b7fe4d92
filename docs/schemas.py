"""Writes docs/graph.schema.json, the JSON schema of graph files, from what `sdfw kinds` prints, and tries both schemas:
docs/graph.schema.json on graph files, good and broken ones, and docs/answers.schema.json on what `--json` prints.

`sdfw kinds` is proved to print the rows that the reader of graph files follows, so a new kind or a changed limit shows
here. `docs/tables.py` calls `differences`, and with `--write` writes the schema.
"""

import json
import pathlib
import re
import subprocess
import tempfile
import tomllib
import wave

TOP = pathlib.Path(__file__).resolve().parent.parent
GRAPH = TOP / "docs" / "graph.schema.json"
ANSWERS = TOP / "docs" / "answers.schema.json"
NAME = "[A-Za-z][A-Za-z0-9_-]{0,31}"
FILE = "[A-Za-z0-9_-][A-Za-z0-9_.-]{0,63}"
BITS = 1 << 31


def whole(least, most, absent=None):
    """A whole number within limits, and what it is if its key is absent."""
    made = {"type": "integer", "minimum": least, "maximum": most}
    return made if absent is None else {**made, "default": absent}


def form(text):
    """A key's name, its schema and whether it has to be there, by its part of a line: `block 1..1024 (1)`."""
    name, rest = text.split(" ", 1)
    if listed := re.fullmatch(r"or file: 1\.\.(\d+) values of (32 bits|(-?\d+)\.\.(\d+))", rest):
        most, bits, least, greatest = listed.groups()
        value = whole(-BITS, BITS - 1) if bits == "32 bits" else whole(int(least), int(greatest))
        return name, {"type": "array", "minItems": 1, "maxItems": int(most), "items": value}, "list"
    if rest == "of 32 bits":
        return name, whole(-BITS, BITS - 1), "needed"
    numbers = re.fullmatch(r"(\S+)\.\.(-?\d+)(?: \((-?\d+)\)| (or absent))?", rest)
    if not numbers:
        raise SystemExit(f"docs/schemas.py: `{text}` of `sdfw kinds` has no form that is known here")
    least, most, absent, optional = numbers.groups()
    # `least..32767` is no less than the key `least`, which no schema can say.
    least = -(int(most) + 1) if least == "least" else int(least)
    made = whole(least, int(most), int(absent) if absent else None)
    return name, made, "may" if absent or optional else "needed"


def rows(said):
    """The lines of `sdfw kinds`: a kind's name, the first format that has it, its keys and the line."""
    for line in said.splitlines():
        head, _, keys = line.partition(": ")
        name, _, since = head.partition(", format ")
        yield name, int(since or 1), [form(key) for key in re.split(r", (?=[a-z]+ )", keys)], line


def of_kind(name, keys, shared):
    """What holds of the keys of an actor of a kind."""
    lists = [key for key, _, use in keys if use == "list"]
    known = ["name", "kind", *(key for key, _, _ in keys), *["file"] * len(lists), *shared]
    then = {"required": [key for key, _, use in keys if use == "needed"], "propertyNames": {"enum": known}}
    if lists:
        then["oneOf"] = [{"required": [lists[0]]}, {"required": ["file"]}]
    return {"if": {"required": ["kind"], "properties": {"kind": {"const": name}}}, "then": then}


def graph_schema(said):
    """The schema of graph files."""
    *kinds, (_, _, shared, _) = rows(said)
    properties = {
        "name": {"type": "string", "pattern": f"^{NAME}$", "description": "the actor's name, another for each actor"},
        "kind": {
            "enum": [name for name, _, _, _ in kinds],
            "description": "\n".join(line for _, _, _, line in kinds),
        },
        "file": {"type": "string", "pattern": f"^{FILE}$", "description": "a coefficient file beside the graph file"},
    }
    for key, schema, _ in [key for _, _, keys, _ in kinds for key in keys] + shared:
        if properties.setdefault(key, schema) != schema:
            raise SystemExit(f"docs/schemas.py: kinds have different limits for their keys `{key}`")
    end = {"type": "string", "pattern": f"^{NAME}(:([0-9]|1[0-5]))?$"}
    link = {
        "from": {**end, "description": "an output port, as `split:1`; port 0 needs no number"},
        "to": {**end, "description": "an input port, as `sum:1`; port 0 needs no number"},
        "initial": {
            "type": "array",
            "maxItems": 65536,
            "items": whole(-BITS, BITS - 1),
            "description": "samples on the link before anything fires",
        },
    }
    actor = {
        "type": "object",
        "required": ["name", "kind"],
        "properties": properties,
        "allOf": [of_kind(name, keys, [key for key, _, _ in shared]) for name, _, keys, _ in kinds],
    }
    first = [name for name, since, _, _ in kinds if since == 1]
    return {
        "$schema": "http://json-schema.org/draft-07/schema#",
        "title": "A graph file of sdfw",
        "type": "object",
        "required": ["format", "actor", "link"],
        "additionalProperties": False,
        "properties": {
            "format": {"enum": [1, 2], "description": "2 for kinds that `sdfw kinds` lists with `format 2`"},
            "rate": {**whole(1, (1 << 32) - 1), "description": "the rate in Hz of the sound that the design is made for"},
            "actor": {"type": "array", "minItems": 1, "maxItems": 64, "items": actor},
            "link": {
                "type": "array",
                "maxItems": 256,
                "items": {
                    "type": "object",
                    "required": ["from", "to"],
                    "additionalProperties": False,
                    "properties": link,
                },
            },
        },
        "if": {"required": ["format"], "properties": {"format": {"const": 1}}},
        "then": {"properties": {"actor": {"items": {"properties": {"kind": {"enum": first}}}}}},
    }


def laid_out(value, depth=0):
    """A value as JSON: on one line if it is short, else a line for each member."""
    line = json.dumps(value)
    if len(line) + depth <= 110 or not isinstance(value, (dict, list)):
        return line
    if isinstance(value, list):
        parts = [laid_out(item, depth + 1) for item in value]
    else:
        parts = [f"{json.dumps(key)}: {laid_out(item, depth + 1)}" for key, item in value.items()]
    first, last = "{}" if isinstance(value, dict) else "[]"
    blank = "\n" + " " * (depth + 1)
    return first + blank + f",{blank}".join(parts) + "\n" + " " * depth + last


class Validator:
    """Whether a value is as a schema says, for the words that these two schemas use. With `strict`, a member that no
    `properties` names is a mistake, too."""

    TYPES = {"object": dict, "array": list, "string": str, "boolean": bool, "null": type(None)}

    def __init__(self, root, strict=False):
        self.root, self.strict = root, strict

    def is_type(self, value, name):
        if name == "integer":
            return isinstance(value, int) and not isinstance(value, bool)
        return isinstance(value, self.TYPES[name])

    def fits(self, value, schema):
        return not self.mistakes(value, schema)

    def mistakes(self, value, schema, at="the value"):
        if "$ref" in schema:
            return self.mistakes(value, self.root["definitions"][schema["$ref"].rsplit("/", 1)[1]], at)
        types = schema.get("type")
        if types and not self.is_type(value, types):
            return [f"{at} is not of the type {types}"]
        found = []
        if "enum" in schema and value not in schema["enum"] or "const" in schema and value != schema["const"]:
            found += [f"{at} is {value!r}"]
        if self.is_type(value, "integer"):
            if not schema.get("minimum", value) <= value <= schema.get("maximum", value):
                found += [f"{at} is {value}"]
        if isinstance(value, str) and not re.search(schema.get("pattern", ""), value):
            found += [f"{at} is {value!r}"]
        if isinstance(value, list):
            found += self.of_list(value, schema, at)
        if isinstance(value, dict):
            found += self.of_object(value, schema, at)
        return found + self.of_choices(value, schema, at)

    def of_list(self, value, schema, at):
        found = []
        if not schema.get("minItems", 0) <= len(value) <= schema.get("maxItems", len(value)):
            found += [f"{at} has {len(value)} items"]
        for number, item in enumerate(value):
            found += self.mistakes(item, schema.get("items", {}), f"{at}[{number}]")
        return found

    def of_object(self, value, schema, at):
        properties = schema.get("properties", {})
        found = [f"{at} has no {key}" for key in schema.get("required", []) if key not in value]
        for key, member in value.items():
            found += self.mistakes(key, schema.get("propertyNames", {}), f"the key {key} of {at}")
            if key in properties:
                found += self.mistakes(member, properties[key], f"{at}.{key}")
            elif not schema.get("additionalProperties", True) or self.strict and properties:
                found += [f"{at} has {key}"]
        return found

    def of_choices(self, value, schema, at):
        found = []
        for part in schema.get("allOf", []):
            found += self.mistakes(value, part, at)
        for word, most in (("oneOf", 1), ("anyOf", None)):
            fitting = sum(self.fits(value, part) for part in schema.get(word, []))
            if word in schema and (fitting == 0 or most and fitting > most):
                found += [f"{at} fits {fitting} of {word}"]
        if "if" in schema and self.fits(value, schema["if"]):
            found += self.mistakes(value, schema.get("then", {}), at)
        return found


# What is broken in a graph file, by an old text and a new one, so that both the schema and the program refuse it.
BROKEN = [
    ("format = 1", "format = 3"),
    ("format = 1", "format = 1\nrote = 44100"),
    ("rate = 44100", "rate = 0"),
    ("rate = 44100", "rate = 4294967296"),
    ("rate = 44100", "rate = 44100.0"),
    ('kind = "fir"', 'kind = "fire"'),
    ('kind = "fir"', 'kind = "clip"'),
    ("shift = 15", "shfit = 15"),
    ("shift = 15", "shift = 16"),
    ("shift = 15", 'shift = "15"'),
    ("shift = 15", ""),
    ('file = "taps.toml"', ""),
    ('file = "taps.toml"', 'file = "taps.toml"\ntaps = [1]'),
    ('file = "taps.toml"', "taps = []"),
    ('file = "taps.toml"', "taps = [32768]"),
    ('name = "low"', 'name = "2low"'),
    ('to = "out"', 'to = "out:16"'),
    ('to = "out"', 'to = "out"\ninitial = [0.5]'),
    ("channel = 0", "channel = 8"),
    ("channel = 0", "channel = 0\ncost = 0"),
]


def graph_files():
    """The graph files of the repository."""
    every = [*TOP.glob("examples/*/*.toml"), *TOP.glob("bench/designs/**/*.toml")]
    return sorted(path for path in every if "actor" in tomllib.loads(path.read_text()))


def on_graphs(program, schema):
    """What is wrong with what the schema says of graph files."""
    validator, wrong = Validator(schema), []
    for path in graph_files():
        for mistake in validator.mistakes(tomllib.loads(path.read_text()), schema):
            wrong.append(f"docs/graph.schema.json refuses {path.relative_to(TOP)}: {mistake}")
    text = (TOP / "examples/lowpass/graph.toml").read_text()
    with tempfile.TemporaryDirectory() as folder:
        (pathlib.Path(folder) / "taps.toml").write_text((TOP / "examples/lowpass/taps.toml").read_text())
        path = pathlib.Path(folder) / "graph.toml"
        for old, new in BROKEN:
            path.write_text(text.replace(old, new, 1))
            refused = subprocess.run([program, "check", path], capture_output=True).returncode == 3
            if not refused or validator.fits(tomllib.loads(path.read_text()), schema):
                wrong.append(f"docs/graph.schema.json and the program differ where `{old}` is `{new}`")
    return wrong


def answers(program):
    """What `--json` prints, each with the name of its schema."""
    yield "kinds", subprocess.run([program, "kinds", "--json"], capture_output=True, text=True).stdout
    for graph in [*sorted(TOP.glob("examples/*/graph.toml")), TOP / "examples/none/graph.toml"]:
        for name, words in (
            ("check", ["check"]),
            ("schedule", ["schedule", "--workers", "2", "--placement", "hu"]),
            ("schedule", ["schedule", "--placement", "spread"]),
            ("schedule", ["schedule", "--placement", "file"]),
            ("analysis", ["analyze", "--workers", "3"]),
            ("comparison", ["analyze", "--workers", "2", "--compare"]),
        ):
            ran = subprocess.run([program, *words, graph, "--json"], capture_output=True, text=True)
            yield (name, ran.stdout) if ran.returncode == 0 else ("fault", ran.stderr)


def broken_answers(program):
    """What `--json` prints of broken graph files."""
    text = (TOP / "examples/lowpass/graph.toml").read_text()
    with tempfile.TemporaryDirectory() as folder:
        path = pathlib.Path(folder) / "graph.toml"
        for old, new in [*BROKEN, ("[[link]]", "[[kinl]]"), ('to = "out"', 'to = "out:1"'), ('to = "out"', 'to = "o"')]:
            path.write_text(text.replace(old, new, 1))
            yield "fault", subprocess.run([program, "check", path, "--json"], capture_output=True, text=True).stderr


def run_answers(program):
    """What `run --json` prints, and what it prints of a sound that is cut off."""
    graph = TOP / "examples/gain/gain.toml"
    with tempfile.TemporaryDirectory() as folder:
        path = pathlib.Path(folder) / "in.wav"
        with wave.open(str(path), "wb") as sound:
            sound.setparams((1, 2, 44100, 0, "NONE", None))
            sound.writeframes(b"\x00\x40" * 441)
        words = [program, "run", graph, path, path.with_name("out.wav"), "--json"]
        yield "run", subprocess.run(words, capture_output=True, text=True).stdout
        path.write_bytes(path.read_bytes()[:100])
        yield "fault", subprocess.run(words, capture_output=True, text=True).stderr


# Mistakes on the command line. The last one has the byte 0xFF in a path.
MISTAKES = [
    ["check", "examples/gain/gain.toml", "--wyh"],
    ["schedule", "examples/gain/gain.toml", "--workers", "17"],
    ["analyze", "--compare", "--policy", "none", "examples/gain/gain.toml"],
    ["kinds", "fir"],
    ["chekc", "examples/gain/gain.toml"],
    ["check", "gain\udcff.toml"],
]


def mistaken_answers(program):
    """What `--json` prints of mistakes on the command line."""
    for words in MISTAKES:
        yield "fault", subprocess.run([program, *words, "--json"], capture_output=True, text=True).stderr


def on_mistakes(program):
    """What is wrong with what docs/FORMATS.md says of these: their text is what is printed without `--json`, with the
    usage also where that leaves it out."""
    wrong = []
    for words in MISTAKES:
        plain = subprocess.run([program, *words], capture_output=True, text=True)
        said = subprocess.run([program, *words, "--json"], capture_output=True, text=True)
        _, usage, behind = said.stderr.partition(r"\n\nUsage: ")
        whole = json.loads('"' + usage + behind.removesuffix('"}\n') + '"')
        text = plain.stderr if "\n\nUsage: " in plain.stderr or not usage else plain.stderr.removesuffix("\n") + whole
        told = {"fault": 0, "name": "Usage", "text": text}
        wanted = json.dumps(told, separators=(",", ":"), ensure_ascii=False) + "\n"
        if (said.returncode, said.stdout, said.stderr) != (2, "", wanted) or plain.returncode != 2:
            wrong.append(f"docs/FORMATS.md: sdfw with {[*words, '--json']} prints {said.stderr!r}, not {wanted!r}")
    return wrong


def on_answers(program):
    """What is wrong with what docs/answers.schema.json says of what `--json` prints."""
    schema = json.loads(ANSWERS.read_text())
    validator, wrong = Validator(schema, strict=True), []
    every = [*answers(program), *broken_answers(program), *run_answers(program), *mistaken_answers(program)]
    for name, said in every:
        try:
            found = validator.mistakes(json.loads(said), schema["definitions"][name], name)
        except json.JSONDecodeError:
            found = [f"`{said.strip()}` is not JSON"]
        wrong += [f"docs/answers.schema.json: {mistake}" for mistake in found]
    return sorted(set(wrong))


def differences(program, write):
    """What is wrong with the schemas; with `write` that of graph files is written anew."""
    said = subprocess.run([program, "kinds"], check=True, capture_output=True, text=True).stdout
    schema = graph_schema(said)
    made = laid_out(schema) + "\n"
    if write:
        GRAPH.write_text(made)
    wrong = []
    if not GRAPH.exists() or GRAPH.read_text() != made:
        wrong = ["docs/graph.schema.json is not what `sdfw kinds` says (python3 docs/tables.py --write)"]
    return wrong + on_graphs(program, schema) + on_answers(program) + on_mistakes(program)
