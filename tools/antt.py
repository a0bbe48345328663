"""Reads the declarations of the specification files (crates/*/specs/*.antt), of the lemma files (crates/*/proofs/*.antt)
and of the contracts (crates/*/src/*.rt).

It reads text, not logic: a declaration is what begins at a line's start (or, inside a `module .. where`, two
columns in), and what it uses are the names in it that are declared in the same file or imported by a `use` line.
"""
import os
import re

TOP = os.path.dirname(os.path.dirname(os.path.abspath(__file__)))
USE = re.compile(r"^(?:pub )?(?:ghost )?use Rattle\.(\w+)\.(?:specs|proofs)\.([\w.]+?)\.\{([^}]*)\}", re.M | re.S)
# A record or a data type is known by its first word: its parameters may take more than a line.
OPENING = re.compile(
    r"^(?:(?:unfoldable|abbrev|pub) )*(?:(record|data) ([A-Z]\S*)|(\S+?)(?: \{[^}]*\}| \([^)]*\))* :(?: |$))"
)
WORD = re.compile(r"(?<![\w.])[^\s(){};,]+")


class Declaration:
    """A definition, a theorem, a record or a data type: its names, its lines and the text of its statement."""

    def __init__(self, name, kind):
        self.name, self.kind = name, kind
        self.lines, self.comment, self.names, self.frame = [], [], [name], ""

    def text(self):
        return "\n".join(self.lines)

    def statement(self):
        """Its type alone, if it is a theorem or a function; all of it if it is a record or a data type."""
        if self.kind:
            return self.frame + "\n" + self.text()
        out = [self.lines[0]]
        for line in self.lines[1:]:
            if not line.startswith(" " * (indent(self.lines[0]) + 1)):
                break
            out.append(line)
        return self.frame + "\n" + "\n".join(out)

    def count(self):
        return sum(1 for line in self.lines if line.strip() and not line.lstrip().startswith("--"))


def indent(line):
    return len(line) - len(line.lstrip(" "))


class File:
    """A file of specs/ or of proofs/: its imports and its declarations in order."""

    def __init__(self, crate, part, name, text):
        self.crate, self.part, self.name, self.text = crate, part, name, text
        self.imports = imports(text)
        self.declarations = list(declarations(body(text)))
        self.own = {word: d for d in self.declarations for name in d.names for word in spellings(name)}

    def kind(self):
        return next((k for k in ("Meant", "Model", "Laws") if self.name.startswith(k)), None)


def imports(text):
    """What each imported name stands for: (crate, file, name)."""
    out = {}
    for crate, file, names in USE.findall(text):
        for item in (i.strip() for i in names.replace("\n", " ").split(",")):
            if item:
                original, _, local = item.partition(" as ")
                original = original.replace("syntax ", "").strip()
                for word in spellings((local or original).strip()):
                    out[word] = (crate, file, original)
    return out


def spellings(name):
    """How a name is written where it is used: an operator without its blanks too."""
    bare = name.strip("◌")
    return {name, bare} if bare != name and bare else {name}


def body(text):
    """The lines after the imports and without them."""
    out, importing = [], False
    for line in text.split("\n"):
        if importing or re.match(r"(pub )?use ", line):
            importing = "{" in line and "}" not in line or importing and "}" not in line
            continue
        out.append(line)
    return out


def declarations(lines):
    """Splits lines into declarations. Those of a `module .. where` are told apart too; its line is their frame."""
    frames, current, comment = [], None, []
    for line in lines:
        if line.strip() and not line.lstrip().startswith("--"):
            while indent(line) < 2 * len(frames):
                frames.pop()
        margin = 2 * len(frames)
        rest = line[margin:] if line.strip() and indent(line) == margin else None
        opening = OPENING.match(rest) if rest and not rest.startswith(("unfolding ", "infix", "module ")) else None
        if rest and rest.startswith(("--", "infix")):
            comment = comment + [line]
        elif rest and rest.startswith("module "):
            yield from [current] if current else []
            current, comment = None, []
            frames.append(line)
        elif opening:
            yield from [current] if current else []
            kind, of_type, of_value = opening.groups()
            current = Declaration(of_type or of_value, kind)
            current.comment, current.frame, comment = comment, "\n".join(frames), []
            current.lines.append(line)
        elif current:
            current.lines.append(line)
            member = re.match(r"\s+(?:pub )?(\S+) :(?: |$)", line)
            if current.kind == "data" and member and indent(line) == margin + 2:
                current.names.append(member.group(1))
        elif frames and line.strip():
            frames[-1] += "\n" + line
    if current:
        yield current


def words(text):
    """The names of a text that may stand for something: not a field of a record, which follows a dot, and not a
    variable that the text binds."""
    plain = re.sub(r"--[^\n]*", "", text)
    bound = {name for names in re.findall(r"[({]([^(){}:=;→]+) :", plain) for name in names.split()}
    return {w.partition(".")[0] for w in WORD.findall(plain)} - bound - {""}


def load(crates=None):
    """All files of specs/ and of proofs/, by crate and file name, which is in one of the two folders only. The files of
    a function's proof, proofs/FUNCTION/*.antt, declare nothing that a statement could name."""
    out = {}
    folder = os.path.join(TOP, "crates")
    for crate in sorted(crates or os.listdir(folder)):
        for part in ("specs", "proofs"):
            where = os.path.join(folder, crate, part)
            for name in sorted(os.listdir(where)) if os.path.isdir(where) else []:
                if name.endswith(".antt") and name != "Lib.antt":
                    key = (crate, name[:-5])
                    if key in out:
                        raise ValueError(f"crates/{crate} has {name} in specs/ and in proofs/")
                    with open(os.path.join(where, name), encoding="utf-8") as f:
                        out[key] = File(crate, part, name[:-5], f.read())
    return out
