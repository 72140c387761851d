"""The functions of a crate, as rattle names them, read from the text of its sources. A function is named `module::function`, and in an impl
`module::Type::function`, with the module that declares the type, or `module::TypeTrait::function`, with the module of the impl.

The indentation of `rt fmt` tells which item contains a function."""
import re
from collections import defaultdict
from dataclasses import dataclass
from pathlib import Path

VISIBLE = r"( *)(?:pub(?:\([^)]*\))? )?"
# The first lines of an item that contains others or declares a type, and of a function.
ITEM = re.compile(VISIBLE + r"(?:unsafe )?(impl|trait|mod|struct|enum|union|type)\b *(.*)")
FUNCTION = re.compile(VISIBLE + r'(?:(?:const|unsafe|extern "C") )*fn (\w+)')
# The name of a type, after its path.
NAME = re.compile(r"(?:&(?:'\w+ )?)?(?:mut )?(?:\w+::)*(\w+)")


@dataclass(frozen=True)
class Block:
    """An item that contains functions: its indentation, its keyword, and its name, or for an impl the rest of its line."""

    indent: int
    keyword: str
    head: str


def without_parameters(head):
    """Returns the line of an impl without the parameters in angle brackets at its beginning."""
    depth = 0
    for at, letter in enumerate(head):
        depth += {"<": 1, ">": -1}.get(letter, 0)
        if not depth:
            return head[at + 1 :].lstrip() if at else head
    return ""


def name_in_impl(head):
    """Returns rattle's name for the impl of a trait: those of the type, the trait, and the trait's arguments, such as `U8FromSide`."""
    trait, _, owner = head.partition(" for ")
    words = [NAME.match(owner)[1], *re.findall(r"\w+(?!\w|::)", trait)]
    return "".join(it[0].upper() + it[1:] for it in words)


class Functions:
    """The files that declare each function of a crate, and the modules that declare each type."""

    def __init__(self, folder):
        self.files = defaultdict(set)
        self.types = defaultdict(set)
        self.of_types = []
        for path in Path(folder, "src").rglob("*.rt"):
            self.read(path.relative_to(folder), path.read_text(encoding="utf-8"))
        for module, name, function, file in self.of_types:
            for it in self.types[name] or {module}:
                self.files["::".join((*it, name, function))].add(file)

    def read(self, path, text):
        """Adds the functions of a file."""
        of_file = tuple(it for it in path.with_suffix("").parts[1:] if it not in ("lib", "mod"))
        blocks = []
        for line in text.split("\n"):
            item, function = ITEM.match(line), FUNCTION.match(line)
            if not item and not function:
                continue
            indent = len((item or function)[1])
            blocks = [it for it in blocks if it.indent < indent]
            module = (*of_file, *(it.head for it in blocks if it.keyword == "mod"))
            if function:
                self.add(module, blocks, function[2], str(path))
            elif item[2] == "impl":
                blocks.append(Block(indent, "impl", without_parameters(item[3]).partition(" {")[0]))
            else:
                name = re.match(r"\w*", item[3])[0]
                self.types[name].add(module)
                blocks.append(Block(indent, item[2], name))

    def add(self, module, blocks, name, file):
        """Adds a function of a module, or of the innermost of these blocks."""
        inside = [it for it in blocks if it.keyword in ("impl", "trait")]
        if not inside:
            self.files["::".join((*module, name))].add(file)
        elif inside[-1].keyword == "trait":
            self.files["::".join((*module, inside[-1].head, name))].add(file)
        elif " for " in inside[-1].head:
            self.files["::".join((*module, name_in_impl(inside[-1].head), name))].add(file)
        else:
            self.of_types.append((module, NAME.match(inside[-1].head)[1], name, file))
