"""Lists the lemmas and definitions that nothing names.

    dispatch-tools unused_lemmas [--crates FOLDER] [CRATE..]

A declaration of crates/*/specs or crates/*/proofs is named if a source file imports it or cites it by its path, if an answer or
an invariant of a function's proof names it, or if a declaration does that is named itself. The others are listed: those that only
they themselves and others that nothing names cite. Each has a line with its file, its line and its name. Fields, constructors,
and names of answers and invariants are never listed. Tactics find nothing by themselves here, so what nothing names can be
removed. With CRATE only what these crates declare is listed; names are looked for in all. The status is 0 if nothing is listed,
else 1.
"""

import argparse
import re
from collections.abc import Iterator, Sequence
from dataclasses import dataclass, field
from pathlib import Path

CRATES = Path(__file__).resolve().parents[2] / "crates"

# The files of a function's proof: the check reads their declarations itself.
ANSWERS = {"Answers", "Invariants", "Proof"}

NAME = r"[^\W\d][\w'-]*"
TOKEN = re.compile(NAME)
DECLARED = re.compile(rf"(?:(?:pub|abbrev|unfoldable)\s+)*({NAME})\s*:")
STRUCTURE = re.compile(rf"(?:(?:pub|abbrev|unfoldable)\s+)*(?:record|data)\s+({NAME})")
IMPORT = re.compile(r"(pub\s+|ghost\s+)?use\s+([\w.]+?)(?:\.\{([^}]*)\}|\s+as\s+(\w+))?\s*;?\s*$")
CITED = re.compile(rf"(\w+)::(proofs|specs)::((?:\w+::)+)({NAME})")


@dataclass(frozen=True)
class Key:
    """A declared name: its module, as imports spell it, and the name itself."""

    module: str
    name: str


@dataclass
class Declaration:
    """Where a name is declared, and the words of its type and its clauses."""

    path: Path
    line: int
    words: set[str] = field(default_factory=set)


@dataclass
class Module:
    """A file of definitions or lemmas: what it declares and imports, and the words that stand outside of declarations."""

    path: Path
    name: str
    declared: dict[str, Declaration] = field(default_factory=dict)
    imported: dict[str, Key] = field(default_factory=dict)
    exported: dict[str, Key] = field(default_factory=dict)
    whole: dict[str, str] = field(default_factory=dict)
    loose: set[str] = field(default_factory=set)
    text: list[str] = field(default_factory=list)


def indentation(line: str) -> int:
    return len(line) - len(line.lstrip(" "))


def without_comment(line: str, mark: str) -> str:
    """The line without what stands behind the mark of a comment."""
    found = re.search(rf"(?:^|\s){re.escape(mark)}", line)
    return line[:found.start()] if found else line


def import_names(listed: str) -> Iterator[tuple[str, str]]:
    """The names of an import, each with the name under which it is known."""
    for item in listed.split(","):
        words = item.split()
        if words:
            yield words[0], words[-1]


def take_import(module: Module, line: str) -> bool:
    """Notes an import, where the line is one."""
    found = IMPORT.match(line.strip())
    if not found:
        return False
    kind, source, listed, alias = found.groups()
    source = source.removeprefix("Rattle.")
    if listed is None:
        module.whole[alias or source.rsplit(".", 1)[-1]] = source
    else:
        for name, known in import_names(listed):
            module.imported[known] = Key(source, name)
            if kind and kind.strip() == "pub":
                module.exported[known] = Key(source, name)
    return True


def module_name(path: Path, crates: Path) -> str:
    """The name by which imports know a file: CRATE.specs.FILE or CRATE.proofs.FOLDER.FILE."""
    return ".".join(path.relative_to(crates).with_suffix("").parts)


def read_module(path: Path, crates: Path) -> Module:
    """A file of definitions or lemmas, cut into its declarations."""
    module = Module(path, module_name(path, crates))
    bodies = [0]
    awaited = False
    current: Declaration | None = None
    for number, whole_line in enumerate(path.read_text(encoding="utf-8").splitlines(), 1):
        line = without_comment(whole_line, "--").rstrip()
        if not line:
            continue
        depth = indentation(line)
        text = line.strip()
        if awaited:
            awaited = not text.endswith("where")
            module.loose.update(TOKEN.findall(text))
            if not awaited:
                bodies.append(-1)
            continue
        if bodies[-1] == -1:
            bodies[-1] = depth
        while len(bodies) > 1 and depth < bodies[-1]:
            bodies.pop()
        if depth != bodies[-1]:
            (current.words if current else module.loose).update(TOKEN.findall(text))
            continue
        if take_import(module, text):
            current = None
            continue
        if re.match(r"module\b", text):
            current = None
            module.loose.update(TOKEN.findall(text))
            if text.endswith("where"):
                bodies.append(-1)
            else:
                awaited = True
            continue
        declared = STRUCTURE.match(text) or DECLARED.match(text)
        if declared:
            current = Declaration(path, number)
            module.declared[declared.group(1)] = current
        (current.words if current else module.loose).update(TOKEN.findall(text))
        module.text.append(text)
    return module


def cited_by_sources(path: Path) -> Iterator[Key]:
    """What a source file imports for its clauses, and what it cites by a path."""
    crate = path.parts[path.parts.index("src") - 1] if "src" in path.parts else path.parent.name
    text = "\n".join(without_comment(line, "//") for line in path.read_text(encoding="utf-8").splitlines())
    for source, listed in re.findall(r"ghost\s+use\s+([\w.]+)\.\{([^}]*)\}", text):
        for name, _ in import_names(listed):
            yield Key(source.removeprefix("Rattle."), name)
    for source, name in re.findall(rf"ghost\s+use\s+([\w.]+)\.({NAME})\s*;", text):
        yield Key(source.removeprefix("Rattle."), name)
    for owner, kind, between, name in CITED.findall(text):
        owner = crate if owner == "crate" else owner
        yield Key(".".join([owner, kind, *between.split("::")[:-1]]), name)


def is_answer(path: Path) -> bool:
    return path.stem in ANSWERS and path.parent.name != "proofs"


class Names:
    """All declarations, and which of them are reached from sources, answers and invariants."""

    def __init__(self, crates: Path):
        self.modules: dict[str, Module] = {}
        for kind in ("specs", "proofs"):
            for path in sorted(crates.glob(f"*/{kind}/**/*.antt")):
                module = read_module(path, crates)
                self.modules[module.name] = module
        self.sources = [path for path in sorted(crates.glob("*/src/**/*.rt"))]
        self.reached: set[Key] = set()

    def resolve(self, key: Key) -> Key | None:
        """The declaration that an import means, through what modules export again."""
        seen = set()
        while key not in seen:
            seen.add(key)
            module = self.modules.get(key.module)
            if module is None:
                return None
            if key.name in module.declared:
                return key
            if key.name not in module.exported:
                return None
            key = module.exported[key.name]
        return None

    def named_in(self, module: Module, words: set[str]) -> Iterator[Key]:
        """The declarations that words of a module mean."""
        for word in words:
            if word in module.declared:
                yield Key(module.name, word)
            elif word in module.imported:
                yield module.imported[word]
        for known in words & module.whole.keys():
            inside = self.modules.get(module.whole[known])
            if inside is not None:
                for name in words & (inside.declared.keys() | inside.exported.keys()):
                    yield Key(inside.name, name)

    def roots(self) -> Iterator[Key]:
        for path in self.sources:
            yield from cited_by_sources(path)
        for module in self.modules.values():
            yield from self.named_in(module, module.loose)
            if is_answer(module.path):
                for name in module.declared:
                    yield Key(module.name, name)

    def reach(self) -> None:
        """Follows the names from the roots."""
        waiting = list(self.roots())
        while waiting:
            key = self.resolve(waiting.pop())
            if key is None or key in self.reached:
                continue
            self.reached.add(key)
            module = self.modules[key.module]
            waiting.extend(self.named_in(module, module.declared[key.name].words - {key.name}))

    def unused(self) -> Iterator[tuple[Key, Declaration]]:
        for module in self.modules.values():
            for name, declaration in module.declared.items():
                if Key(module.name, name) not in self.reached:
                    yield Key(module.name, name), declaration


def unused_in(crates: Path, wanted: list[str]) -> list[str]:
    """The lines to print."""
    names = Names(crates)
    names.reach()
    return [
        f"{declaration.path.relative_to(crates)}:{declaration.line}: {key.name}"
        for key, declaration in names.unused()
        if not wanted or key.module.split(".", 1)[0] in wanted
    ]


def main(argv: Sequence[str] | None = None) -> int:
    parser = argparse.ArgumentParser(description=__doc__, formatter_class=argparse.RawDescriptionHelpFormatter)
    parser.add_argument("--crates", type=Path, default=CRATES, help="folder of the crates (crates)")
    parser.add_argument("crate", nargs="*", help="list only what these crates declare")
    arguments = parser.parse_args(argv)
    lines = unused_in(arguments.crates, arguments.crate)
    for line in lines:
        print(line)
    return 1 if lines else 0
