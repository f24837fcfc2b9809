#!/usr/bin/env python3
"""Copies the pages and the examples that a package has from the files of the repository.

    python3 release/pages.py FROM TO [--library]

A package has no file of the source, so what leads to one is left out: the files in OF_SOURCE, and of the other pages what stands between
the lines `<!-- source -->` and `<!-- end -->`. Without `--library` the package has no library for C, so the folder embed and what stands
between the lines `<!-- library -->` and `<!-- end -->` are left out too. The marks themselves are left out of every page.
"""

import argparse
import pathlib
import re
import shutil

COPIED = ("README.md", "LICENSE", "CHANGELOG.md", "CITATION.cff", "VERSION", "docs", "embed", "examples", "node/README.md", "python")
OF_SOURCE = (
    *("docs/DECISIONS.md", "docs/architecture.md", "docs/calls.md", "docs/trusted.md", "docs/wrong_bodies.md"),
    *("embed/compare.py", "embed/measure.c", "embed/measure.py", "embed/refuse.c", "embed/run.py"),
)
MADE = ("out", "__pycache__")
MARKED = re.compile(r"^<!-- (source|library) -->\n+(.*?)^<!-- end -->\n*", re.DOTALL | re.MULTILINE)


def names_of(root: pathlib.Path, has_library: bool) -> list[str]:
    """The files of a repository that a package has, by their paths."""
    found = [path for name in COPIED for path in (root / name, *(root / name).rglob("*")) if path.is_file()]
    names = sorted(path.relative_to(root) for path in found)
    return [str(name) for name in names if is_packed(name, has_library)]


def is_packed(name: pathlib.Path, has_library: bool) -> bool:
    """Whether a package has a file."""
    is_left_out = str(name) in OF_SOURCE or any(part in MADE for part in name.parts)
    return not is_left_out and (has_library or name.parts[0] != "embed")


def packed_text(text: str, has_library: bool) -> str:
    """A page as a package has it."""
    return MARKED.sub(lambda found: found[2] if has_library and found[1] == "library" else "", text).rstrip("\n") + "\n"


def main() -> None:
    parser = argparse.ArgumentParser(description=__doc__, formatter_class=argparse.RawDescriptionHelpFormatter)
    parser.add_argument("root", metavar="FROM", type=pathlib.Path)
    parser.add_argument("folder", metavar="TO", type=pathlib.Path)
    parser.add_argument("--library", action="store_true", help="the package has the library for C")
    given = parser.parse_args()
    for name in names_of(given.root, given.library):
        path = given.folder / name
        path.parent.mkdir(parents=True, exist_ok=True)
        if path.suffix == ".md":
            path.write_text(packed_text((given.root / name).read_text(encoding="utf-8"), given.library), encoding="utf-8")
        else:
            shutil.copyfile(given.root / name, path)


if __name__ == "__main__":
    main()
