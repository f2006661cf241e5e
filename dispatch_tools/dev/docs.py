"""Runs the commands of the pages, and compares what they print with the texts on the pages.

    dispatch-tools docs DISPATCHER [PAGE..]

DISPATCHER is the built program. Each page has a copy of the repository of its own. There its `sh` blocks run one after the other
in one working directory, with the script at the top as `dispatcher`, and the program as crates/dispatcher/out/dispatcher. The
lines of every other block must stand, in their order, in what the page's commands printed or wrote so far, or in a file that the
page names. Or the paragraph above the block names one file that does not exist: then the block is written into it. If a text
depends on how two feeds come out, the page is tried again, up to five times. Blocks that prove, build or install, that serve until
somebody ends them, or that name a place to fill in, are left out, and so are lines that begin with a command named by --without.
Blocks in `measured` are not compared, since they differ from run to run. The status is 1 if something differs.
"""

import os
import re
import shutil
import subprocess
import tempfile
from dataclasses import dataclass, field
from pathlib import Path
from typing import Iterator, Sequence

from dispatch_tools.dev.running import end_by_exit, run_whole
from dispatch_tools.words import command_line

REPOSITORY = Path(__file__).resolve().parents[2]
PAGES = ["README.md", "docs/OPERATING.md", "docs/TUTORIAL.md", "docs/GTFS.md", "docs/REALTIME.md", "docs/SCALE.md"]
STARTS = {"docs/TUTORIAL.md": "crates/dispatcher", "docs/STUDIES.md": "examples/connection"}
LEFT_OUT = re.compile(r"\brt \w|apt-get |\.ci/run|dispatcher test\b|examples/day/play|\b(FOLDER|FILE|DIR|DM_ROWS_CASES|URL)\b")
TRIES = 5

# No command of a page reads these, and they are many.
PROVED = (".rt", ".antt", ".edit")
SECONDS = 1800


@dataclass
class Block:
    """A fenced block of a page: its first line's number, its language and its lines."""

    line: int
    language: str
    lines: list[str]

    def is_command(self) -> bool:
        return self.language == "sh"


@dataclass
class Session:
    """A copy of the repository in which the commands of a page run, but for those that are left out, and what they have printed."""

    root: Path
    folder: Path
    without: tuple[str, ...] = ()
    printed: list[str] = field(default_factory=list)

    def run(self, block: Block) -> str | None:
        """Runs a block's commands; the fault, if they ended with a status that is no answer."""
        told = self.root / ".folder"
        lines = [line for line in block.lines if not line.startswith(self.without)]
        script = "\n".join([*lines, "status=$?", f"pwd > {told}", "exit $status"])
        environment = dict(os.environ, PATH=f"{self.root}:{os.environ['PATH']}")
        program = f"{self.root}/crates/dispatcher/out/dispatcher"
        try:
            ran = run_whole(
                ["bash", "-c", re.sub(r"\bDISPATCHER\b", program, script)], SECONDS,
                cwd=self.folder, env=environment, stdout=subprocess.PIPE, stderr=subprocess.PIPE, text=True,
            )
        except subprocess.TimeoutExpired:
            return f"did not end within {SECONDS} seconds"
        self.printed += [ran.stdout, ran.stderr]
        if told.exists():
            self.folder = Path(told.read_text().strip())
        return None if ran.returncode in (0, 1) else f"ended with {ran.returncode}: {ran.stderr.strip()[-200:]}"

    def holds(self, block: Block, page: str, since: float) -> bool:
        """Whether the block's lines stand, one behind the other, in what was printed or written, or in a file that the page names."""
        return any(stands_in(block.lines, text.splitlines()) for text in self.texts(page, since))

    def written(self, block: Block, page: str) -> bool:
        """Writes a file that the paragraph above the block names and that does not exist yet, as a reader would."""
        above = "\n".join(page.splitlines()[: block.line - 2]).rstrip().split("\n\n")[-1]
        new = [name for name in re.findall(r"`([\w./-]+/[\w./-]+)`", above) if not (self.folder / name).exists()]
        if len(new) != 1 or not (self.folder / new[0]).parent.is_dir():
            return False
        (self.folder / new[0]).write_text("\n".join(block.lines) + "\n", encoding="utf-8")
        return True

    def texts(self, page: str, since: float) -> Iterator[str]:
        yield from reversed(self.printed)
        names = {Path(name).name for name in re.findall(r"`([\w./-]+)`", page)}
        for path in self.root.rglob("*"):
            if path.is_file() and (path.stat().st_mtime >= since or path.name in names) and path.stat().st_size < 1 << 24:
                yield path.read_text(encoding="utf-8", errors="replace")


def is_left_out(block: Block, folder: Path) -> bool:
    """Whether a block is no command for a test, where its script `play.py` is the one of the page's folder."""
    return bool(LEFT_OUT.search("\n".join(block.lines).replace(" play.py", f" {folder}/play.py")))


def stands_in(lines: list[str], text: list[str]) -> bool:
    """Whether the lines stand in the text in their order."""
    left = iter(text)
    return all(line in left for line in lines)


def blocks_of(page: str) -> list[Block]:
    blocks: list[Block] = []
    current, indent = None, ""
    for number, line in enumerate(page.splitlines(), 1):
        fence = re.match(r"( *)```(\w*)$", line)
        if current is None and fence:
            current, indent = Block(number + 1, fence[2], []), fence[1]
        elif current is not None and line.strip() == "```":
            blocks.append(current)
            current = None
        elif current is not None:
            current.lines.append(line.removeprefix(indent))
    return blocks


def copied(dispatcher: Path, top: Path, root: Path) -> None:
    """Copies what git knows of the repository but for what is only proved, with the program where the gate leaves it."""
    names = subprocess.run(["git", "ls-files", "-z"], cwd=top, check=True, capture_output=True, text=True).stdout
    for name in filter(None, names.split("\0")):
        if (top / name).is_file() and not name.endswith(PROVED):
            (root / name).parent.mkdir(parents=True, exist_ok=True)
            shutil.copy2(top / name, root / name)
    out = root / "crates/dispatcher/out"
    out.mkdir(parents=True, exist_ok=True)
    shutil.copy2(dispatcher, out / "dispatcher")


def faults_of(dispatcher: Path, name: str, top: Path, without: tuple[str, ...]) -> list[str]:
    """What differs on a page, in one pass over its blocks."""
    page = (top / name).read_text(encoding="utf-8")
    faults = []
    with tempfile.TemporaryDirectory() as into:
        start = STARTS.get(name, str(Path(name).parent) if name.startswith("examples/") else ".")
        session = Session(Path(into) / "copy", Path(into) / "copy" / start, without)
        copied(dispatcher, top, session.root)
        since = os.stat(session.root / "crates/dispatcher/out").st_mtime
        for block in blocks_of(page):
            if block.is_command():
                fault = None if is_left_out(block, Path(name).parent) else session.run(block)
                faults += [f"{name}:{block.line}: {fault}"] if fault else []
            elif block.language in ("", "text") and not (session.written(block, page) or session.holds(block, page, since)):
                faults.append(f"{name}:{block.line}: no command printed or wrote these lines: {block.lines[0]} ..")
    return faults


def judged(dispatcher: Path, name: str, top: Path, without: tuple[str, ...] = ()) -> list[str]:
    """What differs on a page at each of several tries, since feeds may come out differently."""
    left = faults_of(dispatcher, name, top, without)
    for _ in range(TRIES - 1):
        if not left:
            break
        again = faults_of(dispatcher, name, top, without)
        left = [fault for fault in left if fault in again]
    return left


def main(argv: Sequence[str] | None = None) -> int:
    parser = command_line(__doc__)
    parser.add_argument("dispatcher", type=Path, help="the built program")
    parser.add_argument("pages", nargs="*", help="pages, from the top of the repository (all)")
    parser.add_argument("--without", action="append", default=[], metavar="COMMAND", help="leave out lines that begin with this command")
    parser.add_argument("--top", type=Path, default=REPOSITORY, help="the top of the repository (this one)")
    asked = parser.parse_args(argv)
    end_by_exit()
    examples = sorted(str(path.relative_to(asked.top)) for path in asked.top.glob("examples/*/README.md"))
    pages = asked.pages or [page for page in [*PAGES, *examples] if (asked.top / page).is_file()]
    faults = [fault for page in pages for fault in judged(asked.dispatcher.resolve(), page, asked.top, tuple(asked.without))]
    for fault in faults:
        print(fault)
    print(f"{len(pages)} pages, {len(faults)} differences")
    return 1 if faults else 0
