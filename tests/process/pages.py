#!/usr/bin/env python3
"""Tests the page of `explain --html`: its pieces, its script by Node, and whole pages in a headless Chromium.

    python3 tests/process/pages.py SEED COUNT [--long] -- PROGRAM

- The pieces: they are ASCII, nothing in them ends an element, the hashes in the policy are those of the style and the script, and the
  script has no call that would make markup of a text.
- Without a script: Python's parser of HTML finds the words of `explain`, the list and the picture, and nothing else that is seen
  (page_static.py).
- Node: of the histories of the tables of tests/cases and of COUNT random ones, each number is kept exactly, the faults are those of
  `explain --all`, the words are those of `explain`, each step is an edge, and in the picture no link crosses a box (page_model.py). Views
  zoom and move by a plain rule (page_views.py).
- Chromium: the pages of the examples open without a message, at 1,280 and 390 pixels; clicks, keys, the search, filters and print work;
  names that are markup run nothing and make no element (page_clicks.py). The picture of a fault and the run are zoomed and moved by wheel,
  drag, fingers, keys and buttons (page_views.py). Where scripts are off, or a policy forbids them, what is said without them is seen.

The pages are those that the program writes, and have to be the pieces joined by page_parts.py. What the machine lacks is named as skipped.
"""

import argparse
import pathlib
import random
import re
import shutil
import tempfile

import folders  # noqa: F401
import browser
import page_clicks
import page_inputs
import page_model
import page_parts
import page_static
import page_views
from command_words import with_program
from counting import counted, end

FORBIDDEN = re.compile(r"innerHTML|outerHTML|insertAdjacent|document\.write|\beval\b|\bFunction\(|\.style\b|\.src\b|\bfetch\b|\bimport\b")
ENDS = ("</script", "</style", "<!--")
MOST_LINES, MOST_COLUMNS = 800, 140
NODE, CHROMIUM = "node is missing: apt-get install -y nodejs", f"chromium is missing, or does not start: {browser.INSTALL}"


def piece_faults():
    """What is wrong with the pieces: each a name and what it lacks."""
    parts = page_parts.pieces()
    script, style = page_parts.hash_of(page_parts.script_of(parts)), page_parts.hash_of(parts["STYLE"])
    yield "the hash of the script", parts["SCRIPT_HASH"] == script and f"script-src '{script}'" in parts["OPENING"]
    yield "the hash of the style", parts["STYLE_HASH"] == style and f"style-src '{style}'" in parts["OPENING"]
    yield "the policy", "content=\"default-src 'none'; base-uri 'none'; form-action 'none';\n" in parts["OPENING"]
    code = [parts[name].lower() for name in ("STYLE", "SCRIPT", "ZOOMING", "DRAWING")]
    yield "what would end an element", not any(mark in text for text in code for mark in ENDS)
    yield "what would end a literal", not any('"#' in text for text in parts.values())
    yield "what would make markup of a text", not FORBIDDEN.search(page_parts.script_of(parts))
    addresses = set(re.findall(r"https?:[^'\"\s]+", "".join(parts.values())))
    yield "addresses", addresses == {"http://www.w3.org/2000/svg"}
    for file in page_parts.FILES:
        lines = (page_parts.SOURCES / file).read_text(encoding="ascii").splitlines()
        yield f"the lines of {file}", len(lines) <= MOST_LINES and max(map(len, lines)) <= MOST_COLUMNS


def same_pages(pages):
    """Whether the program writes the pages that the pieces make."""
    for page in pages:
        if page.written is not None:
            yield f"the page of {page.name} is the pieces joined", page.written == page.joined()


def main():
    parser = argparse.ArgumentParser(description=__doc__, formatter_class=argparse.RawDescriptionHelpFormatter)
    parser.add_argument("seed", type=int)
    parser.add_argument("count", type=int)
    parser.add_argument("--long", action="store_true")
    given = with_program(parser)
    rng, skipped, total = random.Random(given.seed), 0, [0, 0]

    def add(cases):
        total[:] = [sum(pair) for pair in zip(total, counted(cases))]

    add(piece_faults())
    examples, tables = page_inputs.of_examples(given.program), page_inputs.of_tables(given.program)
    randoms = page_inputs.at_random(given.program, rng, given.count)
    hostile = page_inputs.page_of(given.program, "hostile names", page_clicks.hostile_log(), page_inputs.LOG)
    add(same_pages([*examples, *randoms, hostile]))
    add(page_static.faults([*examples, *tables, *randoms, hostile]))
    if shutil.which("node"):
        add(page_model.faults([*examples, *tables, *randoms]))
        add(page_views.model_faults(rng))
    else:
        skipped += 1
        print(f"the script by Node: skipped: {NODE}")
    if browser.starts():
        with tempfile.TemporaryDirectory(prefix="pages-") as room, browser.opened() as window:
            others = [*tables, *randoms] if given.long else tables
            add(page_clicks.faults(window, room, examples, others, given.program, given.long))
            for page in (*examples[:4], hostile):
                add(page_static.seen_without_scripts(window, pathlib.Path(room), page))
    else:
        skipped += 1
        print(f"the pages in Chromium: skipped: {CHROMIUM}")
    end(*total, skipped)


if __name__ == "__main__":
    main()
