"""Lists the definitions and lemmas of the crates that nothing names, neither a proof nor a contract nor another definition.

    python3 tests/process/unnamed.py

A name counts as used where it stands in another file, or in its own file outside the clauses that define it. Files of answers and invariants
are left out: the prover names what they define. Ends with `N passed, M failed`: a case for each file of specs and proofs.
"""

import collections
import pathlib
import re

import folders  # noqa: F401
from counting import end_after

ROOT = pathlib.Path(__file__).resolve().parents[2]
WORD = re.compile(r"[^\s(){}\[\],;.`\"]+")
WORD_OF_CODE = re.compile(r"[^\s(){}\[\],;.`\":]+")
SIGNATURE = re.compile(r"^(?:(?:abbrev|data|record|pub)\s+)*([^\s:({\-][^\s:({]*)\s*:\s", re.MULTILINE)
NAMED_BY_PROVER = {"Answers.antt", "Invariants.antt", "Proof.antt", "Lib.antt"}


def texts():
    """The sources of all crates by path, without the comments of `.antt` files."""
    found = {}
    for path in (ROOT / "crates").rglob("*"):
        if path.suffix in (".antt", ".rt", ".edit") and "out" not in path.parts:
            text = path.read_text(encoding="utf-8")
            found[path] = re.sub(r"--.*", "", text) if path.suffix == ".antt" else text
    return found


def is_used_inside(name, text):
    """Whether a text has a name elsewhere than at the head of its signature and of its clauses."""
    for line in text.splitlines():
        words = WORD.findall(line)
        if name not in words:
            continue
        before = line[: line.index(name)]
        if line[0] == " " or (words[0] != name and not re.fullmatch(r"(?:(?:abbrev|data|record|pub)\s+)+", before)):
            return True
    return False


def cases():
    """Each file of definitions or lemmas, with the names that nothing uses, if there are any."""
    sources = texts()
    words = {path: collections.Counter((WORD if path.suffix == ".antt" else WORD_OF_CODE).findall(text)) for path, text in sources.items()}
    everywhere = sum(words.values(), collections.Counter())
    for path, text in sorted(sources.items()):
        if path.suffix != ".antt" or path.name in NAMED_BY_PROVER:
            continue
        names = [name for name in SIGNATURE.findall(text) if "◌" not in name]
        unused = [name for name in names if everywhere[name] == words[path][name] and not is_used_inside(name, text)]
        shown = path.relative_to(ROOT)
        yield f"{shown}: each name is used" + "".join(f", but not {name}" for name in unused), not unused


if __name__ == "__main__":
    end_after(cases())
