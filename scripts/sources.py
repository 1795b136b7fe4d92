"""The functions of a crate, and what an edit changes of them, as the texts of its sources say."""
import re

HEAD = re.compile(r"^(?P<indent> *)(?P<public>pub(?:\([a-z]+\))? )?(?:const )?fn (?P<name>[a-z_0-9]+)", re.M)


class Function:
    """A function of a crate: its name with its type's, where it stands, and the names that its body calls."""

    def __init__(self, file, text, found):
        close = re.compile(rf"^{found['indent']}}}[ ]*$", re.M).search(text, found.end())
        self.file, self.start, self.end = file, found.start(), close.end() if close else len(text)
        self.public, self.name = found["public"] == "pub ", found["name"]
        heads = re.findall(r"^(?:pub )?(impl|trait)\b([^{]*)\{", text[: found.start()], re.M) if found["indent"] else []
        # What the trait is of, where that is a type without parameters: `ClapError` of `From<clap::Error>`.
        of = re.match(r"(?:<[^>]*>)? *[\w:]+<([\w:]+)> for ", heads[-1][1].strip()) if heads else None
        self.trait_of = "".join(it[:1].upper() + it[1:] for it in of[1].split("::")) if of else ""
        # The type's name without its parameters, and the trait's where it is one's.
        head = re.sub(r"<[^<>]*>", "", re.sub(r"<[^<>]*>", "", heads[-1][1])).split("\n")[0] if heads else ""
        self.trait, _, self.type = re.split(r" where|: ", head)[0].strip().rpartition(" for ")
        # An impl of a trait has no owner: the trait's contract is what it owes.
        self.owner = "" if self.trait else self.type
        whole = text[self.start : self.end]
        head = re.split(r"\n\s*(?:ensures|requires|\{)|\{", whole, maxsplit=1)[0]
        # A law gives nothing and changes nothing: its contract is a statement.
        self.law = "->" not in head and "&mut" not in head
        self.calls = set(re.findall(r"\b([a-z_0-9]+)(?:::<[^()]*>)?\(", whole[len(head) :]))
        # What stands no further in than the head is the head's end; behind it the body begins.
        opened = re.compile(rf"^{found['indent']}(?! ).*\{{$", re.M).search(text, found.start())
        self.body = opened.end() if opened else self.end

    def shown(self):
        return f"{self.owner}::{self.name}" if self.owner else self.name

    def path(self):
        """Its name as a check prints it, without the crate's."""
        module = self.file.removeprefix("src/").removesuffix(".rt").split("/")
        holder = self.type + self.trait.split("::")[-1] + self.trait_of
        return "::".join(it for it in [*module, holder, self.name] if it and it not in ("lib", "main"))


def functions(crate):
    """All functions of a crate, and its files' texts by name."""
    texts = {path.relative_to(crate).as_posix(): path.read_text() for path in sorted((crate / "src").rglob("*.rt"))}
    return [Function(file, text, found) for file, text in texts.items() for found in HEAD.finditer(text)], texts


def places(edit, texts):
    """Where an edit, by its text, replaces something: the file of each of its pairs, and where the old text stands in
    it, which is -1 where it stands in what an earlier pair made, or in a file that is none of these."""
    found, file = [], ""
    for line in edit.splitlines():
        word, _, rest = line.partition(": ")
        if word == "file":
            file = rest.strip()
        elif word == "old":
            found.append((file, texts.get(file, "").find(rest)))
    return found


def misplaced(edit):
    """The old texts of an edit's file that don't stand once in their files, each pair in what the earlier ones made."""
    wrong, texts, file, old = [], {}, None, None
    for line in edit.read_text(encoding="utf-8").splitlines():
        word, _, rest = line.partition(": ")
        if word == "file":
            file = edit.parent.parent / rest.strip()
            texts.setdefault(file, file.read_text(encoding="utf-8"))
        elif word == "old":
            old = rest
        elif word == "new":
            if texts[file].count(old) != 1:
                wrong.append(f"`{old.strip()}` does not stand once in {file.name}")
            texts[file] = texts[file].replace(old, rest)
    return wrong
