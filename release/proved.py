"""The Rattle kit, the crates of crates.txt, and the words by which `rattle` builds one of them over the proved libraries that `./check`
left in crates/*/out/rlib: arm64/build.py and wasm/capture.py build the library by them."""

import pathlib
import shutil
import subprocess
import sys

ROOT = pathlib.Path(__file__).resolve().parents[1]
CRATES = ROOT / "crates"


def kit_folder():
    """The folder of the Rattle kit."""
    if not shutil.which("rt"):
        sys.exit("rt is missing: the Rattle kit has it")
    page = subprocess.run(["rt", "doc"], check=True, capture_output=True, text=True).stdout.split()[-1]
    return pathlib.Path(page).parent


def crates_listed():
    """For each crate of crates.txt what it stands on, by its own words."""
    lines = [line.partition("#")[0] for line in (ROOT / "crates.txt").read_text(encoding="ascii").splitlines()]
    heads = [line.partition(":") for line in lines if line.strip()]
    return {head.split()[0]: below.split() for head, _, below in heads}


def crates_below(name, listed):
    """The crates of the repository that one stands on, each once, and each after those that it stands on."""
    found = []
    for lower in listed[name]:
        if lower in listed:
            found += [other for other in [*crates_below(lower, listed), lower] if other not in found]
    return found


def library_of(name):
    """Where `rt` keeps the proved library of a crate."""
    return CRATES / name / "out" / "rlib" / f"{name}.rlib"


def words_for(name, listed, kit):
    """The words that `rattle` takes for a crate, over the proved libraries below it. Ends where one is missing."""
    lacking = [lower for lower in crates_below(name, listed) if not library_of(lower).is_dir()]
    if lacking:
        sys.exit(f"{name}: no proved library {', '.join(lacking)}: ./check leaves them")
    root = next(path for path in ("src/main.rt", "src/lib.rt") if (CRATES / name / path).is_file())
    words = ["--crate-name", name, root]
    for lower in ["std", *listed[name]]:
        words += ["--extern", f"{lower}={library_of(lower) if lower in listed else kit / 'rlibs' / f'{lower}.rlib'}"]
    for folder in [kit / "rlibs", *(library_of(lower).parent for lower in crates_below(name, listed))]:
        words += ["-L", f"dependency={folder}"]
    words += ["--antt-project", kit / "rattle" / "logic" / "antt-project.json"]
    return words + (["--crate-type", "staticlib"] if root == "src/lib.rt" else [])
