"""Compares the layers and the table of crates in docs/architecture.md with crates.txt and the heads of the crates.

    python3 tests/process/architecture.py [--write]

A crate's prefix names its layer, and crates.txt lists the crates layer by layer, each layer above those that it uses. The page has a picture
of the layers and a table for each, which are made from crates.txt and from the first paragraph of `//!` lines of each crate. `--write`
writes both anew. Ends with `N passed, M failed`.
"""

import argparse
import pathlib
import re

import folders  # noqa: F401
from counting import end_after

ROOT = pathlib.Path(__file__).resolve().parents[2]
PAGE = ROOT / "docs" / "architecture.md"
# The layers from below, each with what it holds. The program and its library have the names that their users know.
LAYERS = {
    "model": "replicated objects, and histories of what sessions called on them",
    "json": "texts: JSON within bounds, lines, and the JSON of histories",
    "order": "orders on the operations of a history: program, causal, happened before",
    "cert": "the criteria, and certificates that a history meets them: checked, and made",
    "pattern": "bad patterns, which show that a history does not meet a criterion: tested, found, and as JSON",
    "judge": "memory histories of any length: index, orders, columns, decision, cores",
    "log": "logs of the events of clients, and the histories that they represent",
    "show": "what is found, in words, pictures and pages",
    "live": "histories while they happen: recorder, seals, replicas, driver, desk, scripts",
    "app": "the program: orders, command line, findings, explanations, engine, logs, pages, process",
    "causal": "what is built: the program and the library",
    "test": "tests of calls, and their assertions",
}
# What a crate's own tests use of a layer above it.
OF_TESTS = {("causal_judge_library", "test_expectations")}
BEGIN, END = "<!-- made by tests/process/architecture.py -->", "<!-- end -->"


def layer_of(name):
    return name.split("_")[0]


def crates():
    """The crates in the order of crates.txt, each with the libraries that it uses."""
    found = {}
    for line in (ROOT / "crates.txt").read_text(encoding="utf-8").splitlines():
        name, _, uses = line.partition(":")
        found[name.split()[0]] = uses.split()
    return found


def reached(name, uses):
    """The crates that a crate uses, directly or through others."""
    found = set()
    for used in uses.get(name, ()):
        found |= {used} | reached(used, uses)
    return found


def direct_uses(name, uses):
    """The libraries that a crate uses through no other one of the repository."""
    through = set().union(*(reached(used, uses) for used in uses[name] if used in uses))
    ours = [used for used in uses[name] if used in uses and used not in through]
    return ours + [f"`{used}`" for used in uses[name] if used not in uses]


def head_of(name):
    """The first paragraph of the head of a crate, as one line."""
    root = next(path for path in (ROOT / "crates" / name / "src").glob("*.rt") if path.stem in ("lib", "main"))
    words = []
    for line in root.read_text(encoding="utf-8").splitlines():
        if not line.startswith("//! "):
            break
        words.append(line[4:].strip())
    return re.sub(r"\[(`[^`]+`)\]", r"\1", " ".join(words))


def picture(uses):
    """The layers from above, each with the layers that its crates use directly."""
    lines = []
    for layer in reversed(LAYERS):
        below = {layer_of(used) for name in uses if layer_of(name) == layer for used in direct_uses(name, uses) if used in uses}
        below = [other for other in LAYERS if other in below and other != layer and list(LAYERS).index(other) < list(LAYERS).index(layer)]
        mark = f"{layer}_" if layer != "causal" else "causal_judge"
        lines.append(f"    {mark:<13} {LAYERS[layer]}")
        lines.append(f"    {'':<13}   uses {', '.join(reversed(below))}" if below else f"    {'':<13}   uses the kit's libraries alone")
    return "\n".join(lines)


def tables(uses):
    """For each layer a table of its crates."""
    parts = []
    for layer, holds in LAYERS.items():
        rows = [f"| {name} | {head_of(name)} | {', '.join(direct_uses(name, uses))} |" for name in uses if layer_of(name) == layer]
        title = f"`{layer}_`" if layer != "causal" else "`causal_judge`"
        parts.append("\n".join([f"### {title}: {holds}", "", "| crate | what it is | uses |", "|---|---|---|", *rows]))
    return "\n\n".join(parts)


def page_with(text, uses):
    """The page with its two made parts written anew."""
    made = iter((picture(uses), tables(uses)))
    return re.sub(rf"{re.escape(BEGIN)}\n.*?{re.escape(END)}", lambda _: f"{BEGIN}\n\n{next(made)}\n\n{END}", text, flags=re.S)


def cases(uses, text):
    """What has to hold, each with a name."""
    layers = list(LAYERS)
    order = [layers.index(layer_of(name)) if layer_of(name) in LAYERS else -1 for name in uses]
    yield "each crate has the prefix of a layer", -1 not in order
    yield "crates.txt is in the order of layers", order == sorted(order)
    for name in uses:
        above = [used for used in uses[name] if used in uses and layers.index(layer_of(used)) > layers.index(layer_of(name))]
        yield f"{name} uses no layer above it", all((name, used) in OF_TESTS for used in above)
    yield "docs/architecture.md is as crates.txt and the heads of the crates have it (--write writes it anew)", page_with(text, uses) == text


def main():
    words = argparse.ArgumentParser(description=__doc__.split("\n", maxsplit=1)[0])
    words.add_argument("--write", action="store_true", help="write the picture and the tables anew")
    uses, text = crates(), PAGE.read_text(encoding="utf-8")
    if words.parse_args().write:
        text = page_with(text, uses)
        PAGE.write_text(text, encoding="utf-8")
    end_after(cases(uses, text))


if __name__ == "__main__":
    main()
