"""The wrong bodies (edits) in `crates/NAME/wrong`, and which of them can be tried together."""
from collections import Counter
from dataclasses import dataclass, field
from pathlib import Path

from kit import rt

# A check takes some seconds before it reaches the first edit, and the edits of one round share one processor.
MOST_IN_A_ROUND = 20


@dataclass(frozen=True)
class Edit:
    """An edit's file; the functions that it changes, as rattle names them below the crate; and their files. The prover must refuse one of the
    functions."""

    path: Path
    functions: tuple[str, ...]
    files: tuple[str, ...]

    @property
    def name(self):
        return self.path.stem


@dataclass
class Round:
    """Edits of different functions, and the texts of the files that they change together."""

    edits: list[Edit] = field(default_factory=list)
    functions: set[str] = field(default_factory=set)
    texts: dict[str, str] = field(default_factory=dict)

    def takes(self, edit, folder):
        """Adds the edit, and returns whether that was possible: the round must have none of its functions, and each text that it replaces must
        occur once."""
        if self.functions & {*edit.functions}:
            return False
        texts = applied(edit, folder, self.texts)
        if texts is None:
            return False
        self.edits.append(edit)
        self.functions |= {*edit.functions}
        self.texts = texts
        return True


def edits_of(crate):
    """Returns the edits in the crate's folder wrong/, by name."""
    return [read(it) for it in sorted(Path(crate.folder, "wrong").glob("*.edit"))]


def read(path):
    """Reads the lines `fn: ` and `file: ` of an edit."""
    lines = path.read_text(encoding="utf-8", errors="replace").splitlines()
    said = lambda word: tuple(it.removeprefix(word).strip() for it in lines if it.startswith(word))
    return Edit(path, said("fn: "), said("file: "))


def applied(edit, folder, before):
    """Returns the texts after the edit, given those before. Returns None if it cannot be made, or changes files outside src/."""
    texts, path, old = dict(before), "", ""
    for line in edit.path.read_text(encoding="utf-8").split("\n"):
        if line.startswith("file: "):
            path = line.removeprefix("file: ").strip()
        elif line.startswith("old: "):
            old = line.removeprefix("old: ")
        elif line.startswith("new:"):
            text = texts.get(path) or Path(folder, path).read_text(encoding="utf-8")
            if not path.startswith("src/") or text.count(old) != 1:
                return None
            texts[path] = text.replace(old, line.removeprefix("new:").removeprefix(" "))
    return texts


def rounds_of(edits, folder):
    """Returns rounds of about the same size that contain every edit that applies and names a function, and the edits that must be tried alone."""
    fit = [it for it in edits if it.functions and not rt.read_edit(str(it.path), folder)[1]]
    alone = [it for it in edits if it not in fit]
    edits_in = Counter(function for it in fit for function in it.functions)
    number = max([-(-len(fit) // MOST_IN_A_ROUND), *edits_in.values()])
    rounds = [Round() for _ in range(number)]
    # (begins with the functions that have the most edits, since each edit of a function needs a round of its own)
    for edit in sorted(fit, key=lambda it: -max(edits_in[function] for function in it.functions)):
        smallest = sorted(rounds, key=lambda it: len(it.edits))
        if not any(it.takes(edit, folder) for it in smallest):
            alone.append(edit)
    return rounds, alone
