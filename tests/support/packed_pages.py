"""Which paths the pages of a package name that the package lacks, and where they speak of a library that it lacks."""

import pathlib
import posixpath
import re
import subprocess
import sys

OF_THE_SOURCE = ("tests", "bench", "crates", "release", "check")
PATH = re.compile(r"[\w./-]*\w/?")
LIBRARY = re.compile(r"libcausal_judge|pkg-config")
MARK = re.compile(r"<!-- (?:source|library|end) -->")
LINK = re.compile(r"\]\((?!https?:)([^)#\s]+)")
MADE = ("BUILD",)


def written(root, folder, *words):
    """Has release/pages.py write the pages of a package to a folder."""
    subprocess.run([sys.executable, root / "release" / "pages.py", root, folder, *words], check=True)


def files_below(folder):
    """The files below a folder, by their paths."""
    return [str(path.relative_to(folder)) for path in folder.rglob("*") if path.is_file()]


def pages_below(folder):
    """The pages below a folder, by their paths."""
    return {str(path.relative_to(folder)): path.read_text(encoding="utf-8") for path in sorted(folder.rglob("*.md"))}


def with_folders(names):
    """Paths of files, and those of the folders that they are in."""
    return {str(path) for name in names for path in (pathlib.PurePosixPath(name), *pathlib.PurePosixPath(name).parents)}


def meant_by(word, page):
    """The paths that a word of a page may mean: beside the page, or at the top."""
    bases = (posixpath.dirname(page), "") if "/" in word or "." in word else ()
    return [posixpath.normpath(posixpath.join(base, word)) for base in bases]


def is_outside(path, packed, whole):
    """Whether a path is one of the repository that a package lacks, or lies in a folder that it lacks."""
    return path not in packed and (path in whole or path.split("/")[0] in OF_THE_SOURCE)


def faults_of(pages, names, whole, has_library):
    """What is wrong with the pages of a package that has these files, of a repository that has those: a line for each fault."""
    packed, whole = with_folders(names), with_folders(whole)
    for page, text in pages.items():
        for word in sorted(set(PATH.findall(text))):
            meant = meant_by(word, page)
            if any(is_outside(path, packed, whole) for path in meant) and not any(path in packed for path in meant):
                yield f"{page} names {word}, which the package lacks"
        yield from (f"{page} keeps the mark {mark}" for mark in MARK.findall(text))
        for link in LINK.findall(text):
            if posixpath.normpath(posixpath.join(posixpath.dirname(page), link)) not in packed:
                yield f"{page} links to {link}, which the package lacks"
        for word in sorted(set(LIBRARY.findall(text))) if not has_library else ():
            yield f"{page} names {word}, and the package lacks the library"
