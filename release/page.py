#!/usr/bin/env python3
"""Makes the page causal_judge.html, one file that judges in a browser, of its parts in release/page and the module causal_judge.wasm.

    release/page.py MODULE.wasm OUT.html [--about TEXT]

The policy of the page lets in its own style and script by their hashes, and those of the page of `explain --html`, which it shows in a
frame; it lets in nothing that comes from elsewhere. The same files give the same bytes.
"""

import argparse
import base64
import gzip
import html
import json
import pathlib
import sys

HERE = pathlib.Path(__file__).resolve().parent
ROOT = HERE.parent
sys.path.insert(0, str(ROOT / "tests" / "pages"))
import page_parts  # noqa: E402

PARTS = HERE / "page"
SAMPLES = (
    ("events_missing_post.jsonl", "a reply is read, and then its post is missing"),
    ("events_lost_write.jsonl", "a lost write"),
    ("events_deletes.jsonl", "a deleted value comes back"),
    ("healthy_run.json", "a run without a fault"),
    ("explained_counter.json", "a counter"),
)
ABOUT = (
    "The judge in this page is the proved code of causal_judge, compiled to WebAssembly by a route that no proof covers. Tests compare it with"
    " the program."
)


def part(name):
    return (PARTS / name).read_text(encoding="ascii")


def script_of_worker():
    """judge.mjs as a plain script, and then the worker's own."""
    calls = (HERE / "wasm" / "judge.mjs").read_text(encoding="ascii")
    lines = [line.removeprefix("export ") for line in calls.splitlines(True)]
    return "".join(lines) + part("worker.js")


def policy(script, style):
    """What the page may do: run these scripts, its worker and the module, and be drawn. Nothing may be fetched or sent."""
    inner = page_parts.pieces()
    scripts = " ".join(f"'{it}'" for it in (page_parts.hash_of(script), inner["SCRIPT_HASH"]))
    styles = " ".join(f"'{it}'" for it in (page_parts.hash_of(style), inner["STYLE_HASH"]))
    return (
        f"default-src 'none'; base-uri 'none'; form-action 'none'; script-src {scripts} 'wasm-unsafe-eval'; style-src {styles}; worker-src blob:"
    )


def samples():
    """The examples, as JSON that a script element can hold."""
    made = [{"name": name, "about": about, "text": (ROOT / "examples" / name).read_text(encoding="ascii")} for name, about in SAMPLES]
    return json.dumps(made).replace("<", "\\u003c")


def page(module, about):
    script, style, worker = part("page.js"), part("page.css"), script_of_worker()
    for text in (script, worker):
        if "</script" in text.lower() or "<!--" in text:
            sys.exit("a script has what would end its element")
    made = part("page.html")
    given = {
        "POLICY": policy(script, style),
        "VERSION": (ROOT / "VERSION").read_text(encoding="ascii").strip(),
        "ABOUT": html.escape(about),
        "STYLE": style,
        "SAMPLES": samples(),
        "WORKER": worker,
        "MODULE": base64.b64encode(gzip.compress(module, 9, mtime=0)).decode(),
        "SCRIPT": script,
    }
    for name, text in given.items():
        made = made.replace(f"@{name}@", text)
    return made


def main():
    parser = argparse.ArgumentParser(description=__doc__, formatter_class=argparse.RawDescriptionHelpFormatter)
    parser.add_argument("module", type=pathlib.Path)
    parser.add_argument("out", type=pathlib.Path)
    parser.add_argument("--about", default=ABOUT)
    given = parser.parse_args()
    given.out.write_text(page(given.module.read_bytes(), given.about), encoding="ascii")


if __name__ == "__main__":
    main()
