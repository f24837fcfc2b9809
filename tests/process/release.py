#!/usr/bin/env python3
"""Tests the scripts that make the packages of a release, over a program, in a clone of the repository.

    python3 tests/process/release.py -- PROGRAM

The clone is temporary. It takes the files as they are here, committed or not, and commits them. There `release/build.sh` has to refuse, and
to write no package, without the mark that a passed gate leaves, with the mark of another commit, with that of another program, and where a
file is not as in the commit. With the right mark it has to make packages.

`release/build.sh --unproved` has to make packages whose names and BUILD files say so, and two builds in two folders have to give the same
bytes. The Debian package has to depend on libc6 alone, to say the size of its files, and to have the Python package where Debian's Python
finds it. With what release/wasm.sh and release/arm64/build.py leave, for which other files stand in here, it has to make the same packages
for arm64, the page, the module and the package for Node, and their BUILD has to say that they were only built. Where either is of another
commit, it has to refuse. The man pages have to say all that the help of each command says after its options. The completions have to name
each command, and their shells have to read them without a fault. The pages have to name no file that their package lacks.

What the machine lacks is named as skipped, with the line that installs it. The test takes about half a minute.
"""

import argparse
import functools
import hashlib
import io
import os
import pathlib
import re
import shutil
import subprocess
import sys
import tarfile
import tempfile
import time
import zipfile
from concurrent.futures import ThreadPoolExecutor
from typing import NamedTuple

import folders  # noqa: F401
import packed_pages
from command_words import with_program
from counting import counted, end
from streams import is_unproved

ROOT = pathlib.Path(__file__).resolve().parents[2]
BUILT = pathlib.Path("crates", "causal_judge", "out", "causal_judge")
TOOLS = {"git": "git", "help2man": "help2man", "dpkg-deb": "dpkg", "objdump": "binutils", "gzip": "gzip"}
COMMITTER = ("-c", "user.name=nobody", "-c", "user.email=nobody@localhost", "-c", "commit.gpgsign=false", "-c", "core.hooksPath=/dev/null")
APART_SECONDS = 1.2
DOC = "share/doc/causal-judge/"
ARM64 = ("causal_judge", "libcausal_judge.a", "libcausal_judge.so")
OTHER_COMMIT, OTHER_SUM, GATE = "0" * 40, "0" * 64, "1 passed, 0 failed"
SIGNS = {r"\(aq": "'", r"\(ga": "`", r"\(ha": "^", r"\(ti": "~", r"\-": "-", r"\&": "", r"\e": "\\"}
DIST_PACKAGES = "./usr/lib/python3/dist-packages/"
FOUND_BY_PYTHON = """
import causal_judge
import importlib.metadata as data

(plugin,) = [found for found in data.entry_points(group="pytest11") if found.name == "causal_judge"]
print(causal_judge.__file__, data.version("causal_judge"), plugin.value)
"""
COMPLETIONS = {
    "bash": ("share/bash-completion/completions/causal_judge", ["bash", "-n"]),
    "zsh": ("share/zsh/site-functions/_causal_judge", ["zsh", "-f", "-n"]),
    "fish": ("share/fish/vendor_completions.d/causal_judge.fish", ["fish", "--no-execute"]),
}


class Clone(NamedTuple):
    """A clone of the repository, the program that is packed, and a folder for what is made."""

    root: pathlib.Path
    program: pathlib.Path
    room: pathlib.Path

    def build(self, out, *words, others=("--no-wasm", "--no-arm64"), **how):
        """Runs release/build.sh without the library, into a folder, and without what is for other machines unless words say so."""
        words = [self.root / "release" / "build.sh", "--no-library", "--out", self.room / out, *others, *words]
        how |= {"stdin": subprocess.DEVNULL, "stdout": subprocess.PIPE, "stderr": subprocess.STDOUT}
        return subprocess.run(words, check=False, text=True, errors="replace", **how)

    def mark(self, **other):
        """Leaves the mark of a gate that passed, with some lines in the place of the right ones."""
        kit = re.search(r"\((.*)\)", said_by(self.program, "--version"))
        commit, found = said_by("git", "-C", self.root, "rev-parse", "HEAD").strip(), sum_of(self.program)
        lines = {"commit": commit, "kit": kit[1] if kit else "unknown", "gate": GATE, "program": found, **other}
        (self.root / "out").mkdir(exist_ok=True)
        (self.root / "out" / "gate").write_text("".join(f"{name} {value}\n" for name, value in lines.items()))

    def packages(self, out):
        """The packages in a folder."""
        return sorted(path for path in (self.room / out).glob("*") if path.name.endswith((".tar.gz", ".deb", ".whl")))


def said_by(*words):
    """What a command writes."""
    return subprocess.run(words, check=True, stdin=subprocess.DEVNULL, stdout=subprocess.PIPE, text=True).stdout


def sum_of(path):
    """The sum of a file."""
    return hashlib.sha256(path.read_bytes()).hexdigest()


def files_of(root):
    """The files of a working tree that a commit of all would have."""
    names = said_by("git", "-C", root, "ls-files", "-z", "--cached", "--others", "--exclude-standard").split("\0")
    return {name for name in names if name and os.path.lexists(root / name)}


def cloned(room, program):
    """A clone with a commit of the files as they are here, and with the program where the gate leaves it."""
    clone = Clone(room / "clone", program, room)
    said_by("git", "clone", "--quiet", "--no-hardlinks", "--depth", "1", ROOT.as_uri(), clone.root)
    for name in files_of(clone.root):
        (clone.root / name).unlink()
    for name in [*files_of(ROOT), BUILT]:
        (clone.root / name).parent.mkdir(parents=True, exist_ok=True)
        shutil.copy2(program if name == BUILT else ROOT / name, clone.root / name, follow_symlinks=name == BUILT)
    said_by("git", "-C", clone.root, *COMMITTER, "add", "--all")
    said_by("git", "-C", clone.root, *COMMITTER, "commit", "--quiet", "--allow-empty", "--message", "The files as they are")
    return clone


def is_refused(clone, reason):
    """Whether a build is refused for a reason, and leaves no package."""
    done, left = clone.build("refused"), clone.packages("refused")
    is_right = done.returncode != 0 and reason in done.stdout and not left
    if not is_right:
        print(f"status {done.returncode}, {len(left)} packages: {done.stdout}", flush=True)
    return is_right


def refusals(clone):
    """The builds that have to be refused. They leave the right mark, and each file as it was."""
    yield "refused without a mark", is_refused(clone, "no mark out/gate")
    clone.mark(commit=OTHER_COMMIT)
    yield "refused with the mark of another commit", is_refused(clone, f"the gate passed at {OTHER_COMMIT}")
    clone.mark(program=OTHER_SUM)
    yield "refused with the mark of another program", is_refused(clone, "the program is not the one that the gate left")
    clone.mark()
    page, added = clone.root / "README.md", clone.root / "added"
    text = page.read_bytes()
    page.write_bytes(text + b"\n")
    yield "refused with a changed file", is_refused(clone, "files differ from the commit")
    page.write_bytes(text)
    added.touch()
    yield "refused with a file more", is_refused(clone, "files differ from the commit")
    added.unlink()


@functools.cache
def packed(package):
    """The files of a package by their names."""
    if package.suffix == ".whl":
        with zipfile.ZipFile(package) as archive:
            return {name: archive.read(name) for name in archive.namelist()}
    data = package.read_bytes()
    if package.suffix == ".deb":
        data = subprocess.run(["dpkg-deb", "--fsys-tarfile", package], check=True, stdout=subprocess.PIPE).stdout
    with tarfile.open(fileobj=io.BytesIO(data)) as archive:
        return {entry.name: archive.extractfile(entry).read() for entry in archive if entry.isfile()}


def ending_in(files, end_of_name):
    """The one file whose name ends so."""
    (found,) = [data for name, data in files.items() if name.endswith(f"/{end_of_name}")]
    return found


def builds(packages):
    """The files BUILD of packages, at least one of each."""
    found = [[data for name, data in packed(package).items() if name.endswith("/BUILD")] for package in packages]
    return [data for one in found for data in one] if all(found) else []


def says(clone, out, line, is_unproved_name):
    """Whether a folder has three packages, each with a name of that kind, and each file BUILD of the folder and of them has a line."""
    packages = clone.packages(out)
    inside, beside = builds(packages), (clone.room / out / "BUILD").read_bytes()
    is_named = all(("unproved" in path.name) == is_unproved_name for path in packages)
    return len(packages) == 3 and is_named and inside and all(f"\n{line}\n".encode() in text for text in [beside, *inside])


def sums_of(clone, out):
    """What SHA256SUMS has of the packages of a folder, where that is right."""
    lines = "".join(f"{sum_of(path)}  {path.name}\n" for path in clone.packages(out))
    said = (clone.room / out / "SHA256SUMS").read_text()
    return said if sorted(said.splitlines()) == sorted(lines.splitlines()) else None


def debian(package):
    """What the Debian package says of itself."""
    depends, suggests, size = (said_by("dpkg-deb", "-f", package, field).strip() for field in ("Depends", "Suggests", "Installed-Size"))
    yield f"depends on libc6 alone: {depends}", re.fullmatch(r"libc6 \(>= \d+(\.\d+)+\)", depends)
    yield f"suggests the Python that its package needs: {suggests}", suggests == "python3 (>= 3.10)"
    due = -(-sum(map(len, packed(package).values())) // 1024)
    yield f"the size of its files is {due} KiB, and it says {size}", size == str(due)


def pages(clone, package):
    """Whether the pages of a package without the library name and link to nothing that it lacks."""
    files = {name.partition(DOC)[2]: data for name, data in packed(package).items() if DOC in name}
    texts = {name: data.decode() for name, data in files.items() if name.endswith(".md")}
    faults = list(packed_pages.faults_of(texts, files, files_of(clone.root), False))
    print(*faults, sep="\n", end="\n" if faults else "", flush=True)
    yield f"the pages of {package.suffix} name no file that it lacks", texts and not faults


def debian_python(clone, package):
    """The Python package where Debian's Python looks for packages, and the scripts that compile it and clean up after it."""
    files = {name.removeprefix(DIST_PACKAGES): data for name, data in packed(package).items() if name.startswith(DIST_PACKAGES)}
    source, room, control = clone.root / "python", clone.room / "dist-packages", clone.room / "control"
    due = {str(path.relative_to(source)): path.read_bytes() for path in (source / "causal_judge").rglob("*.py")}
    yield "the Python package is in dist-packages as it is here", due and due.items() <= files.items()
    for name, data in files.items():
        (room / name).parent.mkdir(parents=True, exist_ok=True)
        (room / name).write_bytes(data)
    kept = {name: value for name, value in os.environ.items() if name not in ("PYTHONPATH", "CAUSAL_JUDGE")}
    how = {"check": False, "cwd": room, "env": kept, "stdout": subprocess.PIPE, "stdin": subprocess.DEVNULL, "text": True}
    said = subprocess.run([sys.executable, "-c", FOUND_BY_PYTHON], **how).stdout.split()
    version = f"{(clone.root / 'VERSION').read_text().strip()}.dev0+unproved"
    is_found = said == [str(room / "causal_judge" / "__init__.py"), version, "causal_judge.pytest_plugin"]
    yield f"Python finds it there, with its version and its plugin: {said}", is_found
    said_by("dpkg-deb", "--control", package, control)
    for name in ("postinst", "prerm"):
        yield f"{name} is the one that is here", (control / name).read_bytes() == (clone.root / "release" / name).read_bytes()
        is_read = subprocess.run(["sh", "-n", control / name], check=False, stdin=subprocess.DEVNULL).returncode == 0
        yield f"{name} is a script that runs", is_read and os.access(control / name, os.X_OK)


def others_of(clone, commit, libraries="of the gate"):
    """Folders as release/wasm.sh and release/arm64/build.py leave them at a commit, with other files in the place of what they make."""
    wasm, arm64 = (pathlib.Path(tempfile.mkdtemp(dir=clone.room)) / name for name in ("wasm", "arm64"))
    for folder, names, of in ((wasm, ("causal_judge.wasm", "causal_judge.html"), "library"), (arm64, ARM64, "proved causal_judge")):
        folder.mkdir()
        for name in names:
            shutil.copy2(clone.program, folder / name)
        (folder / "BUILD").write_text(f"commit {commit}\nlibraries {libraries}\n{of} logic=proved\n")
    return ("--wasm", wasm, "--arm64", arm64)


def for_others(clone):
    """The packages for other machines: how they are named, and what BUILD says of them."""
    commit = said_by("git", "-C", clone.root, "rev-parse", "HEAD").strip()
    right, wrong, own = others_of(clone, commit), others_of(clone, OTHER_COMMIT), others_of(clone, commit, "of rt check: model_history")
    for words, why in (
        ((*right[:2], *wrong[2:]), "arm64 is not of this commit"),
        ((*wrong[:2], *right[2:]), "wasm is not of this commit"),
        ((*right[:2], *own[2:]), "arm64 was made of other libraries"),
    ):
        done = clone.build("refused", others=words)
        yield f"refused: {why}", done.returncode != 0 and why in done.stdout and not clone.packages("refused")
    done = clone.build("others", others=right)
    if done.returncode != 0:
        print(done.stdout, flush=True)
    yield "packages for other machines are made", done.returncode == 0
    if done.returncode != 0:
        return
    version, has_npm = (clone.root / "VERSION").read_text().strip(), bool(shutil.which("npm"))
    due = {"causal_judge.html", "causal_judge.wasm", "BUILD", "SHA256SUMS", *([f"causal-judge-{version}.tgz"] if has_npm else [])}
    due |= {f"causal-judge_{version}_{name}.deb" for name in ("amd64", "arm64")}
    due |= {f"causal_judge-{version}-{name}-linux.tar.gz" for name in ("x86_64", "aarch64")}
    names = {path.name for path in (clone.room / "others").iterdir()}
    wheels = {name for name in names if re.fullmatch(rf"causal_judge-{version}-py3-none-manylinux_2_\d+_(x86_64|aarch64)\.whl", name)}
    yield f"they are those of both machines: {sorted(names ^ due)}", len(wheels) == 2 and names == due | wheels
    said = (clone.room / "others" / "BUILD").read_text()
    lines = ("arm64 proof causal_judge logic=proved", "arm64 was only built: ", "module proof logic=proved", "module was only built: ")
    for start in lines:
        yield f"BUILD has the line {start}", re.search(f"^{start}", said, re.M)
    (deb,) = (clone.room / "others").glob("*_arm64.deb")
    yield "the Debian package is for arm64", said_by("dpkg-deb", "-f", deb, "Architecture").strip() == "arm64"
    if has_npm:
        with tarfile.open(clone.room / "others" / f"causal-judge-{version}.tgz") as archive:
            packed_build = archive.extractfile("package/BUILD").read().decode()
        yield "the package for Node has BUILD", packed_build == said


def after_options(text):
    """The part of a help after its options."""
    return re.search(r"\nOptions:\n.*?\n\n(.*)", text, re.DOTALL)[1]


def shown(page):
    """The text of a man page, where roff joins no lines."""
    text = page.decode()
    for word, sign in SIGNS.items():
        text = text.replace(word, sign)
    return text


def commands_of(program):
    """The commands that the help names, but for help itself."""
    section = said_by(program, "--help").partition("\nCommands:\n")[2].partition("\n\n")[0]
    return [name for name in re.findall(r"(?m)^  (\w+) ", section) if name != "help"]


def man_pages(program, files):
    """The man pages of the program and of its commands."""
    for words in [[], *([name] for name in commands_of(program))]:
        name, text = "-".join(["causal_judge", *words]), after_options(said_by(program, *words, "--help"))
        page = shown(ending_in(files, f"man1/{name}.1"))
        yield f"the page {name} begins with its name", f"\n.TH {name.upper()} " in page
        yield f"the page {name} says what the help says after the options", text and text in page


def completions(clone, files):
    """The completions, but for those whose shell is missing."""
    commands = commands_of(clone.program)
    for shell, (name, words) in COMPLETIONS.items():
        path = clone.room / f"completion.{shell}"
        path.write_bytes(ending_in(files, name))
        yield f"the completion for {shell} names each command", commands and all(word in path.read_text() for word in commands)
        if shutil.which(shell):
            done = subprocess.run([*words, path], check=False, stdin=subprocess.DEVNULL)
            yield f"{shell} reads its completion", done.returncode == 0


def built(clone):
    """Three builds by their folders, and whether each was made: two without a proof, and one with the right mark. They run side by side,
    and begin some time apart, so that a time of day in the bytes would differ."""
    unproved = ("--unproved", "--program", clone.program)
    abroad = {**os.environ, "TZ": "Asia/Tokyo", "LC_ALL": "C.UTF-8"}
    asked = (("one", unproved, {}), ("marked", (), {}), ("another/below", unproved, {"umask": 0o077, "env": abroad}))
    with ThreadPoolExecutor(len(asked)) as pool:
        runs = {}
        for out, words, how in asked:
            runs[out] = pool.submit(clone.build, out, *words, **how)
            time.sleep(APART_SECONDS)
    for out, run in runs.items():
        if run.result().returncode != 0:
            print(f"{out}: {run.result().stdout}", flush=True)
        yield out, run.result().returncode == 0


def made(clone):
    """What the packages have to say and to hold."""
    is_built = dict(built(clone))
    yield "packages are made", all(is_built.values())
    if not all(is_built.values()):
        return
    yield "packages without a proof say so", says(clone, "one", "gate UNPROVED: nothing is claimed of this build", True)
    yield "packages with the right mark say that the gate passed", says(clone, "marked", f"gate passed at this commit: {GATE}", False)
    yield "two builds give the same bytes", sums_of(clone, "one") and sums_of(clone, "one") == sums_of(clone, "another/below")
    deb, tarball, _ = sorted(clone.packages("one"), key=lambda path: [".deb", ".gz", ".whl"].index(path.suffix))
    yield from debian(deb)
    yield from (case for package in clone.packages("one") for case in pages(clone, package))
    yield from debian_python(clone, deb)
    yield from man_pages(clone.program, packed(tarball))
    yield from completions(clone, packed(tarball))


def needs_more(program):
    """Whether `rt try` built the program, and it needs libgcc_s: release/build.sh packs no such program."""
    return is_unproved([program]) and b"libgcc_s.so" in program.read_bytes()


def missing_here():
    """Whether no build is possible here. What is missing for it, or else of the shells, each with what installs it."""
    missing = [f"{tool}: skipped: apt-get install {package}" for tool, package in TOOLS.items() if not shutil.which(tool)]
    if not missing and subprocess.run(["git", "-C", ROOT, "rev-parse", "HEAD"], check=False, capture_output=True).returncode != 0:
        missing = ["release/build.sh: skipped: this is no clone of the repository: git clone"]
    return bool(missing), missing or [f"{shell}: skipped: apt-get install {shell}" for shell in COMPLETIONS if not shutil.which(shell)]


def main():
    given = with_program(argparse.ArgumentParser(description=__doc__, formatter_class=argparse.RawDescriptionHelpFormatter))
    for name in ("GIT_DIR", "GIT_WORK_TREE", "GIT_INDEX_FILE"):
        os.environ.pop(name, None)
    program, parts = pathlib.Path(given.program[0]).resolve(), [refusals, made, for_others]
    is_over, missing = missing_here()
    if not is_over and needs_more(program):
        missing.append("the packages: skipped: rt try built a program that needs libgcc_s, and rt ci builds one that does not")
        parts = [refusals]
    print(*missing, sep="\n", end="\n" if missing else "", flush=True)
    if is_over:
        end(0, 0, len(missing))
    with tempfile.TemporaryDirectory(prefix="release-") as room:
        clone = cloned(pathlib.Path(room).resolve(), program)
        passed, failed = counted(case for cases in parts for case in cases(clone))
    end(passed, failed, len(missing))


if __name__ == "__main__":
    main()
