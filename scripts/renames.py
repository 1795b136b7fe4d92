"""Whether the sources of a crate differ between two commits in names alone.

A file is its words and marks, without comments, layout, and the modules of paths, and the names that it imports. Names
alone have changed if in each file every word has become one word, and no two words have become the same one. A word
that the crate still has never became a word that it had before, so `max` in place of `min` is not a change of names.
Both words are names that the sources of this repository define."""
import collections
import functools
import io
import pathlib
import re
import subprocess
import tarfile

TOP = pathlib.Path(__file__).resolve().parent.parent
STRING = r'b?"(?:[^"\\]|\\[\s\S])*"'
CHARACTER = r"b?'(?:[^'\\\n]|\\[^\n]+?)'"
TOKENS = {
    ".rt": re.compile(rf"{STRING}|{CHARACTER}|//.*|\w+|[^\w\s]"),
    ".antt": re.compile(rf"{STRING}|(?<!\S)--(?!\S).*|\w[\w']*|[^\w\s]"),
    ".edit": re.compile(rf"{STRING}|{CHARACTER}|\w+|[^\w\s]"),
}
# What names a module or a file, which may move: the modules of a path, and the first line of an edit.
MODULES = re.compile(r"\b[a-z]\w*::(?=\w|\{)|\bRattle(?:\.[a-z]\w*)+\.|^file: .*$", re.M)
IMPORT = re.compile(r"^ *(?:pub(?:\(\w+\))? )?(?:(?:ghost )?use (.*?)|mod \w+)(?:;|$(?!\n +))", re.M | re.S)
BEGIN = "fn|struct|enum|trait|type|const|static|mod|let|mut|for|record|data|pub|abbrev|unfoldable|ghost|as"
DEFINED = [
    re.compile(it, re.M)
    for it in (
        rf"\b(?:{BEGIN}|requires|ensures)\s+(?!(?:{BEGIN})\b)([A-Za-z_]\w*)",
        rf"^(?!(?:{BEGIN}|use)\b)([A-Za-z_]\w*) .*=",
        r"([A-Za-z_]\w*)\s*:(?!:)",
        r"\b(?:Some|Ok|Err)\(([A-Za-z_]\w*)\)",
        r"^ +([A-Za-z_]\w*)(?:\(.*\)| \{.*\}?)?,?$",
        r"(?:λ \(?|\|&?)([A-Za-z_]\w*)",
    )
]
BUILT_IN = set("true false Some None Ok Err bool str u8 u16 u32 u64 usize i16 i32 i64 f64 self Self len".split())


def tokens(text, suffix):
    """The words and marks of a text. One in quotes is one token, but for the names in its braces."""
    found = []
    for it in TOKENS[suffix].findall(text):
        if it[:2] not in ("//", "--"):
            found += re.split(r"(?<=\{)(\w+)", it) if it[:1] == '"' else [it]
    # A mark before a closing bracket comes with a line's end.
    closes = {")", "]", "}", ">"}
    return [it for it, after in zip(found, [*found[1:], ""]) if it not in (",", ";") or after not in closes]


def imported(text):
    """The names that a text imports: each with the types of its path and its other name."""
    names = collections.Counter()
    for found in IMPORT.finditer(text):
        path, _, several = (found[1] or "").partition("{")
        types = re.findall(r"\b([A-Z]\w*)::", path)
        for name in several.rstrip("};\n ").split(",") if several else [path]:
            own = re.split(r"::|\.", name.strip())[-1].split()
            names[(*types, *own)] += bool(own)
    return +names


class Tree:
    """The texts of the crates at a commit, the names that they define, and the words of each crate."""

    def __init__(self, commit):
        packed = subprocess.run(["git", "-C", TOP, "archive", commit, "crates"], capture_output=True, check=True).stdout
        with tarfile.open(fileobj=io.BytesIO(packed)) as tree:
            files = [it for it in tree if it.isfile() and pathlib.Path(it.name).suffix in TOKENS]
            self.texts = {it.name: tree.extractfile(it).read().decode() for it in files}
        words = {word for text in self.texts.values() for pattern in DEFINED for word in pattern.findall(text)}
        self.defined = words - BUILT_IN | {path.split("/")[1] for path in self.texts}

    def of(self, crate):
        return {path: text for path, text in self.texts.items() if path.split("/")[1] == crate}

    def words(self, crate):
        """The words of a crate, without those of comments and texts in quotes."""
        return {it for path, text in self.of(crate).items() for it in tokens(text, pathlib.Path(path).suffix)}


@functools.cache
def tree(commit):
    return Tree(commit)


@functools.cache
def moved(commit):
    """Where the files of HEAD were at a commit, as git finds."""
    asked = ["diff", "-M25%", "-l0", "--name-status", "--diff-filter=R", commit, "HEAD", "--", "crates"]
    lines = subprocess.run(["git", "-C", TOP, *asked], capture_output=True, text=True, check=True).stdout.splitlines()
    return {now: was for _, was, now in (line.split("\t") for line in lines)}


class Names:
    """What a change of names may do in a crate: which words it had and has, and which names are defined."""

    def __init__(self, old, new, had, has):
        self.old, self.new, self.had, self.has = old, new, had, has

    def is_change(self, a, b):
        """Whether one word in place of another is more than a new name."""
        known = a.rstrip("'") in self.old and b.rstrip("'") in self.new
        return not known or a in self.has and b in self.had

    def difference(self, old, new, suffix):
        """What is not a change of names between two texts of a file, or nothing."""
        was, now = (tokens(MODULES.sub("", IMPORT.sub("", text)), suffix) for text in (old, new))
        became, came = {}, {}
        for a, b in zip(was, now):
            if became.setdefault(a, b) != b or came.setdefault(b, a) != a:
                return f"not each word has become one other word: `{a}`, `{b}`"
            if a != b and self.is_change(a, b):
                return f"`{a}` has become `{b}`"
        if len(was) != len(now):
            return f"{len(was)} words and marks are {len(now)} now"
        brought = imported(old), imported(new)
        renamed = collections.Counter({tuple(became.get(it, it) for it in name): n for name, n in brought[0].items()})
        lost = {word for name in renamed - brought[1] for word in name} - {word for name in brought[1] for word in name}
        found = {word for name in brought[1] - renamed for word in name} - {word for name in renamed for word in name}
        wrong = sorted(lost & self.has | found & self.had)
        return f"imports differ in `{wrong[0]}`" if wrong else ""


def more_than_names(commit, crate):
    """A file of a crate that has changed since a commit in more than names, with the reason, or nothing."""
    old, new = tree(commit), tree("HEAD")
    own, came = new.of(crate), moved(commit)
    crates = collections.Counter(came[path].split("/")[1] for path in own if path in came)
    was = crate if old.of(crate) or not crates else crates.most_common(1)[0][0]
    names = Names(old.defined, new.defined, old.words(was), new.words(crate))
    left = set(old.of(was))
    for path, text in sorted(own.items()):
        same, name = "/".join(["crates", was, *path.split("/")[2:]]), path.split("/")[-1]
        likely = [same, came.get(path), *sorted(it for it in left if it.split("/")[-1] == name)]
        found = [(it, names.difference(old.texts[it], text, pathlib.Path(path).suffix)) for it in likely if it in left]
        if not found:
            return f"{path} is new"
        source, why = next((it for it in found if not it[1]), found[0])
        if why:
            return f"{path}: {why}"
        left.discard(source)
    return f"{sorted(left)[0]} is gone" if left else ""
