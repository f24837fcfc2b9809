#!/usr/bin/env python3
"""The pieces of the page of `explain --html`, as crates/show_page has them, and pages that are joined from them.

    python3 tests/pages/page_parts.py --write                        # writes the hashes of the script and the style anew
    python3 tests/pages/page_parts.py HISTORY REPORT [NAMES LINES NOTES] > PAGE  # joins a page from files, which says nothing without its script

The order of the pieces is that which crates/show_page/src/frame.rt states at its head.
"""

import base64
import hashlib
import json
import pathlib
import re
import sys

SOURCES = pathlib.Path(__file__).resolve().parents[2] / "crates" / "show_page" / "src"
FILES = ("frame.rt", "style.rt", "script.rt", "zooming.rt", "drawing.rt", "hashes.rt")
CONSTANT = re.compile(r'^pub const ([A-Z_]+): &str = r#"(.*?)"#;$', re.MULTILINE | re.DOTALL)
POLICY = re.compile(r"(script-src ')[^']*(';\nstyle-src ')[^']*(')")
MOST_SAID = re.compile(r"^pub const MOST_SAID: u32 = (\d+);$", re.MULTILINE)
HASHES = re.compile(r'((?:SCRIPT|STYLE)_HASH: &str = r#")[^"]*(")')


def pieces():
    """The constants of the page, by name."""
    return {name: text for file in FILES for name, text in CONSTANT.findall((SOURCES / file).read_text(encoding="ascii"))}


def most_said():
    """How many reads a page lists at most without its script."""
    return MOST_SAID.search((SOURCES / "frame.rt").read_text(encoding="ascii"))[1]


def script_of(parts):
    """The one script of a page."""
    return parts["SCRIPT"] + parts["ZOOMING"] + parts["DRAWING"]


def hash_of(text):
    """The hash of a text as a policy has it."""
    return "sha256-" + base64.b64encode(hashlib.sha256(text.encode()).digest()).decode()


def in_script(text):
    """A JSON text as a script element holds it: it cannot end the element, since it has no `<`."""
    return text.replace("<", "\\u003c")


def in_markup(text):
    """A text as an element shows it: it begins no element, since it has no `<`."""
    return text.replace("&", "&amp;").replace("<", "&lt;")


def more_words(report):
    """What a page says of reads that its list lacks, by the counts of a report."""
    tally = json.loads(report)[1]
    more = max(0, sum(count for _, count in tally[0]) - int(most_said())) if tally else 0
    return f": {more} more {'is' if more == 1 else 'are'} not" if more else ""


def joined(history, report, names="null", lines="null", notes="[]", said=("", "", "")):
    """A page of five JSON texts, as they are, and of what it says without its script: words, a list and a picture."""
    parts, (words, listed, picture) = pieces(), said
    data = [in_script(text) for text in (history, report, names, lines, notes)]
    opening = parts["OPENING"] + parts["STYLE"] + parts["BODY"] + data[0]
    between = ("BEFORE_REPORT", "BEFORE_NAMES", "BEFORE_LINES", "BEFORE_NOTES")
    middle = "".join(parts[name] + text for name, text in zip(between, data[1:]))
    static = parts["BEFORE_WORDS"] + in_markup(words) + parts["BEFORE_MORE"] + more_words(report) + parts["BEFORE_LIST"] + in_markup(listed)
    static += parts["BEFORE_PICTURE"] + picture
    return opening + middle + static + parts["BEFORE_SCRIPT"] + script_of(parts) + parts["ENDING"]


def write_hashes():
    """Writes the hashes of the script and the style anew, in hashes.rt and in the policy of frame.rt."""
    parts = pieces()
    script, style = hash_of(script_of(parts)), hash_of(parts["STYLE"])
    frame, hashes = SOURCES / "frame.rt", SOURCES / "hashes.rt"
    frame.write_text(POLICY.sub(rf"\g<1>{script}\g<2>{style}\g<3>", frame.read_text(encoding="ascii")), encoding="ascii")
    due = iter((script, style))
    hashes.write_text(HASHES.sub(lambda found: found[1] + next(due) + found[2], hashes.read_text(encoding="ascii")), encoding="ascii")


def main():
    if sys.argv[1:] == ["--write"]:
        return write_hashes()
    if len(sys.argv) not in (3, 6):
        sys.exit(__doc__)
    sys.stdout.reconfigure(encoding="utf-8", newline="")
    sys.stdout.write(joined(*(pathlib.Path(name).read_text(encoding="utf-8") for name in sys.argv[1:])))


if __name__ == "__main__":
    main()
