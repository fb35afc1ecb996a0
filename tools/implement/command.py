"""The command line."""

from __future__ import annotations

import argparse
import contextlib
import glob
import os
import re
import shutil
import subprocess
import sys
import tempfile

from .proofs import MARK, answers_of
from .source import Source, crate_of
from .text import Writer
from .tokens import Fault

STALE, ARGUMENTS, FILES, FAULTS = 1, 2, 3, 4
# The folders of answers, in that of a module.
ANSWERS = ("+*", "*Allocative/*visit", "*Tallied/*")
HEAD = re.compile(r"(?:(?://!|#!\[).*\n|\s*\n)*")
ABOUT = """Writes the implementations of Described and Allocative for the structs and enums of a source file:
of the types that are named, or of all that have none. They are the text of a module `shown` of the file. The
answers that their proofs need go into the folder proofs. With --output . in the crate's folder all goes to its
place; without it the text goes to standard output, and nothing changes.

A comment `// allocative: skip` above a field passes it over, and `// allocative: size 8` shows it as one
entry of 8 bytes.

The status is 0, or
  1  with --check: something is not as it would be written
  2  the arguments are not as below
  3  a file cannot be read or written
  4  the source has faults; standard error has a line for each, and nothing is written"""
FLAGS = {
    "--in-place": "write into the file itself, behind each type, between two comments",
    "--check": "write nothing, and end with status 1 if something is stale",
    "--skip-unknown": "pass over the fields that cannot be shown, with a comment",
    "--counted": "write a tally of each type that can have one, and count the items of fields before they are entered",
    "--add-lines": "add the line `mod shown;` to the file, and allocative to the crate's line in crates.txt",
}


def arguments(words: list[str]) -> argparse.Namespace:
    raw = argparse.RawDescriptionHelpFormatter
    parser = argparse.ArgumentParser("implement", description=ABOUT, formatter_class=raw)
    parser.add_argument("file", metavar="FILE", help="a file in the folder src of a crate")
    parser.add_argument("types", metavar="TYPE", nargs="*", help="the types to write for")
    what = "read the module PATH in the file, as inner::deep"
    parser.add_argument("--module", metavar="PATH", default="", help=what)
    what = "write below FOLDER, as src/order/shown.rt and proofs; `.` in the folder of the crate is the crate itself"
    parser.add_argument("--output", metavar="FOLDER", default="", help=what)
    for flag, what in FLAGS.items():
        parser.add_argument(flag, action="store_true", help=what)
    chosen = parser.parse_args(words)
    if chosen.in_place and chosen.module:
        parser.error("--in-place does not go with --module: a module in braces cannot have the imports of clauses")
    return chosen


def run(chosen: argparse.Namespace) -> int:
    """Reads the file, and writes or compares what belongs to it."""
    path, text = chosen.file, read(chosen.file)
    try:
        folder = crate_of(path)[0]
        shown = placed(chosen, folder, shown_path(path, chosen.module))
        is_inline = chosen.in_place or (chosen.check and not os.path.exists(shown))
        source = Source(text, chosen, is_inline)
        found = source.writers()
        texts = [] if source.faults else formatted(source.texts(found))
        new = source.with_pieces(found, texts) if is_inline and not source.faults else "".join(texts)
    except Fault as fault:
        return tell(path, text, [fault])
    if source.faults:
        return tell(path, text, source.faults)
    target = placed(chosen, folder, path) if is_inline else shown
    files = answers(os.path.join(chosen.output or folder, "proofs"), source, found) | {target: new}
    if chosen.check:
        stale = [path for path, text in files.items() if not is_same(path, text)]
        for path in stale:
            say(f"{path} is {'not wanted any more' if files[path] is None else 'stale'}: run implement again")
        return STALE if stale else 0
    if is_inline or chosen.output:
        put(files | (added_lines(path, text, source, is_inline) if chosen.add_lines else {}))
    else:
        print(new, end="")
    for name, why in source.untallied.items():
        say(f"{name} has no tally, as {why}")
    for what in source.uncounted:
        say(what)
    if source.passed_over:
        say(source.passed_line())
    return 0


def formatted(texts: list[str]) -> list[str]:
    """Texts as `rt fmt` lays them out, or as they are if there is no `rt`."""
    rt = shutil.which("rt")
    if not rt:
        return texts
    with tempfile.TemporaryDirectory() as folder:
        paths = [os.path.join(folder, "src", f"{number}.rt") for number in range(len(texts))]
        put(dict(zip(paths, texts)))
        subprocess.run([rt, "fmt"], cwd=folder, capture_output=True)
        return [read(path) for path in paths]


def placed(chosen: argparse.Namespace, folder: str, path: str) -> str:
    """A file of the crate in a folder, or its copy in the folder that is asked for."""
    return os.path.join(chosen.output, os.path.relpath(os.path.realpath(path), folder)) if chosen.output else path


def answers(folder: str, source: Source, found: list[Writer]) -> dict[str, str | None]:
    """The answers by their files in a folder, with nothing for those that are not wanted any more."""
    texts = answers_of(source.crate.name, [each.proofs for each in found])
    new = {os.path.join(folder, name, "Answers.antt"): text for name, text in texts.items()}
    at = glob.escape(os.path.join(folder, *source.text_at))
    found_before = (path for each in ANSWERS for path in glob.glob(os.path.join(at, each, "Answers.antt")))
    old = [path for path in found_before if read(path).startswith(MARK)]
    files: dict[str, str | None] = {path: None for path in old if path not in new}
    return files | {path: answer for path, answer in new.items() if path in old or not os.path.exists(path)}


def shown_path(path: str, module: str) -> str:
    """The file of the module `shown` of a file, or of a module in it."""
    folder, name = os.path.split(path)
    own = [] if name in ("lib.rt", "main.rt") else [name.removesuffix(".rt")]
    return os.path.join(folder, *own, *module.split("::"), "shown.rt")


def tell(path: str, text: str, faults: list[Fault]) -> int:
    """Tells of faults in a text."""
    lines = [0 if each.at is None else text.count("\n", 0, each.at) + 1 for each in faults]
    for line, what in sorted(zip(lines, [each.what for each in faults])):
        say(f"{path}:{line}: {what}" if line else f"{path}: {what}")
    return FAULTS


def put(files: dict[str, str | None]) -> None:
    """Writes files, with the rights that they had, and removes those without a text. If one cannot be written, all stay."""
    new = {path: text for path, text in files.items() if text is not None and not is_same(path, text)}
    written: list[str] = []
    try:
        for path, text in new.items():
            os.makedirs(os.path.dirname(os.path.realpath(path)), exist_ok=True)
            with open(f"{path}.new", "x", encoding="utf-8", newline="") as file:
                written.append(path)
                file.write(text)
            if os.path.exists(path):
                shutil.copymode(path, f"{path}.new")
    except OSError:
        for path in written:
            os.remove(f"{path}.new")
        raise
    for path in new:
        os.replace(f"{path}.new", os.path.realpath(path))
    for path in (path for path, text in files.items() if text is None):
        os.remove(path)
        with contextlib.suppress(OSError):
            os.removedirs(os.path.dirname(path))


def is_same(path: str, text: str | None) -> bool:
    """Whether a file has a text, or is not there if that is nothing. Its layout does not count."""
    old = read(path) if os.path.exists(path) else None
    return old == text or (old is not None and text is not None and bare(old) == bare(text))


def bare(text: str) -> str:
    """A text without its layout."""
    return re.sub(r"\s+", "", re.sub(r",\s*(?=[)\]}>])", "", text))


def added_lines(path: str, text: str, source: Source, is_inline: bool) -> dict[str, str | None]:
    """The file with the line of the module, and `crates.txt` with the crate's dependency."""
    files: dict[str, str | None] = {}
    if not is_inline and not source.inner and "shown" not in source.module.names:
        head = HEAD.match(text).end()
        files[path] = f"{text[:head]}mod shown;\n\n{text[head:]}"
    crates = os.path.join(os.path.dirname(source.crate.folder), "..", "crates.txt")
    if os.path.exists(crates):
        files[crates] = with_line(read(crates), source.crate.name, ["allocative", *["allocative_tally"] * bool(source.scope.tallied)])
    return files


def with_line(text: str, crate: str, needed: list[str]) -> str:
    """The text of `crates.txt` with the line of a crate, which lists what it needs."""
    lines = text.splitlines(keepends=True)
    for number, line in enumerate(lines):
        name, _, words = line.partition(":")
        if name.split()[:1] == [crate]:
            lines[number] = " ".join((line.rstrip(), *(each for each in needed if each not in words.split()))) + "\n"
            return "".join(lines)
    return f"{text}{crate}: {' '.join(needed)}\n"


def read(path: str) -> str:
    with open(path, encoding="utf-8", newline="") as file:
        return file.read()


def say(what: str) -> None:
    print(f"implement: {what}", file=sys.stderr)


def main(words: list[str]) -> int:
    """Runs the command, and returns its status."""
    chosen = arguments(words)
    try:
        return run(chosen)
    except UnicodeDecodeError as error:
        line = error.object.count(b"\n", 0, error.start) + 1
        say(f"{chosen.file}:{line}: the text is not UTF-8")
        return FAULTS
    except OSError as error:
        say(f"{error.filename or chosen.file}: {error.strerror}")
        return FILES
