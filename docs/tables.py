"""Compares what the documents repeat with where it comes from.

- docs/FORMATS.md: the list of faults is what `sdfw explain` prints (`--write` writes it anew); the tables of kinds are
  what `sdfw kinds` and `sdfw kinds --json` print, which is proved to be the rows that the reader follows.
- The lines that `sdfw explain` shows before and after a fault, put into a design of examples/, have it and mend it.
- docs/PROOFS.md: the list of public functions without a must-fail edit is the repository's.
- The head of each crate's root file names the crates that crates.txt says it depends on, and where to begin; so does
  the list of crates in docs/ARCHITECTURE.md.
- What an edit of must-fail/ or mutants/ is to replace stands once in its file.
- Blocks whose first line is a comment with a path, `# examples/..` or `// crates/..`, in each document: the file at
  that path is the block, except for comments. Each block of TOML has such a line. A block for `build/` is written
  there, for the commands below it.
- Blocks marked `console`, in each document: each command, run at the top of the repository, prints what stands below.
- The JSON schemas in docs/ describe graph files and what `--json` prints (`schemas.py`).
- A path that a document names is there, but in CHANGELOG.md. README.md names each document, examples/README.md each
  folder there, hostile/README.md each program there, CONTRIBUTING.md each crate of tests, and docs/PROOFS.md each
  wrong body that the gate tries.
- All documents name one kit, which README.md says that the text is proved with.
- No line of a document is over 120 columns.

`python3 docs/tables.py [--write] [PROGRAM]`: the program is build/sdfw if none is named. `--write` writes the list of
faults, the schema of graph files and what is shown of commands anew, to be read before it is committed.
"""

import json
import os
import pathlib
import re
import shutil
import subprocess
import sys
import tempfile
import textwrap

TOP = pathlib.Path(__file__).resolve().parent.parent
sys.dont_write_bytecode = True
sys.path[:0] = [str(TOP / "scripts"), str(TOP / "docs")]
import schemas
from sources import functions, misplaced, places

PAGE = TOP / "docs" / "FORMATS.md"
PROOFS = TOP / "docs" / "PROOFS.md"
HEAD = "Each entry has the number, the name, and the rest of the fault's line:\n\n"
PAPERS = [*TOP.glob("*.md"), *TOP.glob("docs/*.md"), *TOP.glob("examples/*.md"), *TOP.glob("hostile/*.md")]
WIDTH = 120


def fault(program, number):
    """A fault's entry, of what the program says of it."""
    said = subprocess.run([program, "explain", str(number)], check=True, capture_output=True, text=True)
    first, *rest = said.stdout.split("\nbefore:\n")[0].splitlines()
    parts = dict(line.split(": ", 1) for line in rest)
    place = f", `{parts['where']}`" if "where" in parts else ""
    limits = f" Within: {parts['limits']}." if "limits" in parts else ""
    remedy = f" *{parts['remedy']}*" if "remedy" in parts else ""
    text = f"- **{first}**{place}: {parts['means']}{limits}{remedy}"
    lines = textwrap.wrap(text, WIDTH, subsequent_indent="  ", break_long_words=False, break_on_hyphens=False)
    return "\n".join(lines) + "\n"


def faults(program, write):
    """What is wrong with the list of faults."""
    made = HEAD + "".join(fault(program, number) for number in range(1, 64))
    page = PAGE.read_text()
    start = page.index(HEAD)
    end = page.index("\n\n", start + len(HEAD)) + 1
    if page[start:end] == made:
        return []
    if write:
        PAGE.write_text(page[:start] + made + page[end:])
        return []
    return ["docs/FORMATS.md: its list of faults is not the program's (python3 docs/tables.py --write)"]


def fault_of(program, design, text):
    """The number of the fault that a design has with this text in place of its own, or 0."""
    with tempfile.TemporaryDirectory() as folder:
        shutil.copytree(design.parent, folder, dirs_exist_ok=True)
        path = pathlib.Path(folder) / design.name
        path.write_text(text)
        said = subprocess.run([program, "check", path], capture_output=True, text=True).stderr
    return int(said.split()[1]) if said else 0


def repairs(program):
    """What is wrong with the lines before and after a fault that `sdfw explain` shows: an example that has one of both
    has the fault with the first, and none with the second."""
    designs = {path: path.read_text() for path in schemas.graph_files() if path.is_relative_to(TOP / "examples")}
    wrong, count = [], 0
    for number in range(1, 64):
        said = subprocess.run([program, "explain", str(number)], check=True, capture_output=True, text=True).stdout
        if "\nbefore:\n" not in said:
            continue
        count += 1
        before, after = (textwrap.dedent(part) for part in said.split("\nbefore:\n")[1].split("after:\n"))
        seen = set()
        for path, text in designs.items():
            if before in text:
                seen.add((fault_of(program, path, text), fault_of(program, path, text.replace(before, after))))
            if after in text:
                seen.add((fault_of(program, path, text.replace(after, before)), fault_of(program, path, text)))
        if (number, 0) not in seen:
            wrong.append(f"sdfw explain {number}: no example has the fault by its lines and is mended by them")
    return wrong if count == 15 else [*wrong, f"sdfw explain shows lines before and after {count} faults, not 15"]


def table(head):
    """The rows of a table of docs/FORMATS.md."""
    page = PAGE.read_text()
    return page[page.index(head) :].split("\n\n", 1)[0].splitlines()[2:]


def key_text(key):
    """A key of `sdfw kinds --json` as `sdfw kinds` writes it."""
    least, most, default = key["least"], key["most"], key["default"]
    numbers = "of 32 bits" if (least, most) == (-(1 << 31), (1 << 31) - 1) else f"{key.get('from', least)}..{most}"
    if "values" in key:
        values = numbers if numbers.startswith("of ") else f"of {numbers}"
        return f"{key['name']} or file: 1..{key['values']} values {values}"
    absent = "" if key["needed"] else " or absent" if default is None else f" ({default})"
    return f"{key['name']} {numbers}{absent}"


def kind_text(name, since, keys):
    """A kind of `sdfw kinds --json` as `sdfw kinds` writes it."""
    return f"{name}{f', format {since}' if since > 1 else ''}: " + ", ".join(key_text(key) for key in keys)


def port_row(kind):
    """A row of the table of ports."""

    def moved(ports, samples):
        if kind["cycle"] != 1 and ports == kind["cycle"]:
            return f"{samples} at port j, 0 elsewhere"
        return f"{samples} at each" if isinstance(ports, str) else f"{samples}"

    takes, puts = moved(kind["inputs"], kind["takes"]), moved(kind["outputs"], kind["puts"])
    moves = f"{takes}, {puts}" if kind["cycle"] == 1 else f"in phase j: {takes}; {puts}"
    return f"| `{kind['name']}` | {kind['inputs']}, {kind['outputs']} | {moves} |"


def kinds(program):
    """Whether the document's kinds are those that the program lists: a row of the table as a line, without marks, and
    with the ports as JSON."""
    lines = [row.strip("| ").replace("`", "").replace(" | ", ": ", 1) for row in table("| kind | keys")]
    said = subprocess.run([program, "kinds"], check=True, capture_output=True, text=True).stdout.splitlines()
    every = json.loads(subprocess.run([program, "kinds", "--json"], check=True, capture_output=True, text=True).stdout)
    texts = [kind_text(kind["name"], kind["since"], kind["keys"]) for kind in every["kinds"]]
    wrong = []
    if lines != said:
        wrong.append("docs/FORMATS.md: its table of kinds is not what `sdfw kinds` prints")
    if [*texts, kind_text("every kind", 1, every["keys"])] != said:
        wrong.append("`sdfw kinds --json` has other keys than `sdfw kinds`")
    if [port_row(kind) for kind in every["kinds"]] != table("| kind | ports"):
        wrong.append("docs/FORMATS.md: its table of ports is not what `sdfw kinds --json` prints")
    return wrong


def edited(crate):
    """The public functions of a crate, and those functions that reach an edit: in themselves, or in what they call."""
    every, texts = functions(crate)
    reached = set()
    for edit in [*crate.glob("must-fail/*.edit"), *crate.glob("mutants/*.edit")]:
        for file, at in places(edit.read_text(), texts):
            inside = [one for one in every if one.file == file and one.start <= at <= one.end]
            reached |= {inside[-1]} if inside else set()
    while True:
        names = {one.name for one in reached}
        more = {one for one in every if one not in reached and one.calls & names}
        if not more:
            break
        reached |= more
    public = [one for one in every if one.public and not one.law]
    return {one.shown() for one in public}, {one.shown() for one in reached}


def unedited():
    """What is wrong with the list of public functions without an edit."""
    page = PROOFS.read_text()
    start = page.index("## Public functions without a must-fail edit")
    items = re.findall(r"^- `([a-z_]+)`: (.*?)(?=^- |^$)", page[start : page.index("\n## ", start + 1)], re.M | re.S)
    listed = {}
    for name, text in items:
        for owner, several, one in re.findall(r"`(?:([A-Z]\w*)::)?(?:\{([^}]*)\}|(\w+))`", text):
            for word in re.split(r",\s*", several or one):
                listed.setdefault(name, set()).add(f"{owner}::{word}" if owner else word)
    wrong = []
    for crate in sorted(TOP.glob("crates/sdf_*")) + [TOP / "crates" / "test_actors"]:
        if crate.name.endswith("_tests"):
            continue
        public, reached = edited(crate)
        missing = public - reached - listed.get(crate.name, set())
        extra = listed.get(crate.name, set()) - (public - reached)
        if missing:
            wrong.append(f"docs/PROOFS.md: {crate.name} has no edit of {', '.join(sorted(missing))}: the list lacks it")
        if extra:
            wrong.append(f"docs/PROOFS.md: {crate.name} has an edit of {', '.join(sorted(extra))}, or no such function")
    return wrong


def edits():
    """The edits whose old texts don't stand once in their files."""
    found = sorted([*TOP.glob("crates/*/must-fail/*.edit"), *TOP.glob("crates/*/mutants/*.edit")])
    return [f"{edit.relative_to(TOP)}: {wrong}" for edit in found for wrong in misplaced(edit)]


def is_crate(name):
    return (TOP / "crates" / name).is_dir()


def heads():
    """What is wrong with what the heads of root files say that their crates depend on; `sdf_limits` may be left out."""
    wrong = []
    for line in (TOP / "crates.txt").read_text().splitlines():
        name, below = re.sub(r" \w+=\w+", "", line).split(":")
        wanted = {one for one in below.split() if is_crate(one)} - {"sdf_limits"}
        root = next(path for path in (TOP / "crates" / name / "src").glob("*.rt") if path.stem in ("lib", "main"))
        head = " ".join(text[4:] for text in root.read_text().splitlines() if text.startswith("//!"))
        if "depends on the libraries" in head:
            continue
        named = set(re.findall(r"`(\w+)(?:::\w+)*`", head))
        below = re.search(r"depends on (.*?)(?:Begin|$)", head)
        extra = {one for one in re.findall(r"`(\w+)`", below[1] if below else "") if is_crate(one)} - wanted
        differ = (wanted - named | extra) - {"sdf_limits"}
        if not below or differ:
            wrong.append(f"crates/{name}: its root file's head and crates.txt differ in {sorted(differ)}")
        if "Begin " not in head:
            wrong.append(f"crates/{name}: its root file's head does not say where to begin")
    return wrong


def stands_on():
    """What is wrong with what docs/ARCHITECTURE.md says that the crates depend on."""
    page = (TOP / "docs" / "ARCHITECTURE.md").read_text()
    items = dict(re.findall(r"^- \*\*`(\w+)`\*\*, on (.*?):", page, re.M | re.S))
    wrong = []
    for line in (TOP / "crates.txt").read_text().splitlines():
        name, below = re.sub(r" \w+=\w+", "", line).split(":")
        wanted = [one for one in below.split() if is_crate(one)]
        if name not in items or sorted(re.findall(r"`(\w+)`", items[name])) != sorted(wanted):
            wrong.append(f"docs/ARCHITECTURE.md: {name} is to stand there, on {', '.join(wanted) or 'nothing'}")
    return wrong


def without_comments(text):
    """The lines of a text that are no comments and hold something."""
    return [line for line in text.splitlines() if line.strip() and not line.lstrip().startswith(("#:", "# ", "//"))]


def named_block(mark, text):
    """What is wrong with a block whose first line names a file, as each block of TOML does. A file of build/ is
    written."""
    found = re.match(r"(?:#|//) ((?:build|examples|crates)/\S+)\n", text)
    if not found:
        return [f"this block of TOML names no file in its first line:\n{text}"] if mark == "toml" else []
    file = TOP / found[1]
    if found[1].startswith("build/"):
        file.parent.mkdir(parents=True, exist_ok=True)
        file.write_text(text)
    same = file.exists() and without_comments(file.read_text()) == without_comments(text)
    return [] if same else [f"the block of {found[1]} is not that file"]


def session(program, text):
    """What a console block becomes: its commands, each with what it prints."""
    made = []
    for part in re.split(r"^\$ ", text, flags=re.M)[1:]:
        written = re.match(r"(?:.*\\\n)*.*\n", part)[0]
        command = re.sub(r"\\\n\s*", "", written).replace("build/sdfw", str(program))
        # `resample` overwrites no file.
        if folder := re.search(r" resample \d+ \d+ (build/\S+)", command):
            shutil.rmtree(TOP / folder[1], ignore_errors=True)
        ran = subprocess.run(
            ["bash", "-c", command], cwd=TOP, stdout=subprocess.PIPE, stderr=subprocess.STDOUT, text=True
        )
        made.append(f"$ {written}" + "".join(f"{line.rstrip()}\n" for line in ran.stdout.rstrip().splitlines()))
    return made


def sessions(program, write):
    """What is wrong with the blocks of the documents that name a file or are marked `console`."""
    wrong = []
    for paper in PAPERS:
        page = paper.read_text()
        for mark, block in re.findall(r"^```(\w*)\n(.*?)^```$", page, re.M | re.S):
            wrong += [f"{paper.relative_to(TOP)}: {mistake}" for mistake in named_block(mark, block)]
            made = session(program, block) if mark == "console" else []
            if write and made:
                page = page.replace(f"```console\n{block}```", f"```console\n{''.join(made)}```")
            elif made and "".join(made) != block:
                others = [part for part in made if part not in block] or ["".join(made)]
                wrong += [f"{paper.relative_to(TOP)}: this is printed, and no more:\n{part}" for part in others]
        if write:
            paper.write_text(page)
    return wrong


def paths():
    """The paths that documents name and that are not there. What is in capitals stands for a name."""
    wrong = []
    for paper in PAPERS:
        if paper.name == "CHANGELOG.md":
            continue
        folders = "examples|docs|scripts|crates|bench|hostile|sdf_\\w+"
        for path in sorted(set(re.findall(rf"(?<![\w/.-])((?:{folders})/[\w./-]*\w)", paper.read_text()))):
            if not re.search("NAME|KIND", path) and not (TOP / path).exists() and not (TOP / "crates" / path).exists():
                wrong.append(f"{paper.relative_to(TOP)}: {path} is not there")
    return wrong


def named_edits():
    """What is wrong with the list of the wrong bodies that the gate tries. Each item of the page is a crate and its
    edits."""
    tried = set(re.findall(r"^(\w+)/(\w+)$", (TOP / "scripts/named.txt").read_text(), re.M))
    tried |= {(path.parent.parent.name, path.stem) for path in TOP.glob("crates/*/must-fail/*.edit")}
    page = (TOP / "docs/PROOFS.md").read_text().partition("\n## Named wrong bodies\n")[2].partition("\n## ")[0]
    items = re.findall(r"^- `(\w+)`: (.*(?:\n  .*)*)", page, re.M)
    listed = {(crate, name) for crate, text in items for name in re.findall(r"`(\w+)`", text)}
    wrong = [f"it does not list {name} of {crate}, which the gate tries" for crate, name in tried - listed]
    wrong += [f"the gate does not try {name} of {crate}" for crate, name in listed - tried]
    return [f"docs/PROOFS.md: {mistake}" for mistake in sorted(wrong)]


def named():
    """What a page is to name and does not."""
    owed = {
        "README.md": [f"docs/{path.name}" for path in TOP.glob("docs/*.md")] + ["CONTRIBUTING.md", "CHANGELOG.md"],
        "examples/README.md": [f"{path.name}/" for path in TOP.glob("examples/*") if path.is_dir()],
        "hostile/README.md": [path.name for path in [*TOP.glob("hostile/*.py"), *TOP.glob("hostile/*.c")]],
        "CONTRIBUTING.md": [path.name for path in TOP.glob("crates/*") if re.search("_tests$|^test_", path.name)],
    }
    return [
        f"{paper}: it does not name {name}"
        for paper, names in owed.items()
        for name in sorted(names)
        if name not in (TOP / paper).read_text()
    ]


def kits():
    """What is wrong with the kits that documents name."""
    lines = {paper: set(re.findall(r"rattle-kit-\w+ logic \w+", paper.read_text())) for paper in PAPERS}
    proved = lines[TOP / "README.md"]
    wrong = [] if len(proved) == 1 else ["README.md: it does not name one kit that the text is proved with"]
    others = [paper for paper, named in lines.items() if named - proved]
    return wrong + [f"{paper.relative_to(TOP)}: it names another kit than README.md" for paper in others]


def widths():
    """The lines that are too long."""
    return [
        f"{paper.relative_to(TOP)}:{number}: over {WIDTH} columns"
        for paper in PAPERS
        for number, line in enumerate(paper.read_text().splitlines(), 1)
        if len(line) > WIDTH
    ]


def main():
    words = [word for word in sys.argv[1:] if word != "--write"]
    program = words[0] if words else os.path.relpath(TOP / "build" / "sdfw", TOP)
    os.chdir(TOP)
    write = "--write" in sys.argv
    wrong = faults(program, write) + repairs(program) + kinds(program) + unedited() + edits() + heads() + stands_on()
    wrong += schemas.differences(program, write) + sessions(program, write) + paths() + named() + named_edits()
    wrong += kits() + widths()
    print("\n".join(wrong) or "the documents say what the program and the sources say")
    sys.exit(1 if wrong else 0)


main()
