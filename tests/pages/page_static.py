"""What a page shows where no script runs: read by Python's own parser of HTML, and by a headless Chromium that may run none."""

import contextlib
import functools
import http.server
import re
import threading
from html.parser import HTMLParser

import page_parts

EMPTY = {"meta", "link", "input", "br", "img"}
UNSEEN = {"script", "style", "title", "template"}
MARKUP = {"div", "p", "code", "section", "h1", "h2", "pre"}
DRAWN = {"svg", "title", "rect", "defs", "marker", "path", "text", "line", "g"}
NO_SCRIPT = ("script-src 'none'", "sandbox", "sandbox; default-src 'none'")


class Shown(HTMLParser):
    """What a reader sees of a page without its script: the texts outside of hidden elements, and those of each `pre`."""

    def __init__(self, text):
        super().__init__(convert_charrefs=True)
        self.open, self.ids, self.elements, self.attributes = [], [], set(), set()
        self.outside, self.texts, self.around = "", [], ""
        self.feed(text)
        self.close()

    def handle_starttag(self, tag, attrs):
        given = dict(attrs)
        self.ids += [given["id"]] if "id" in given else []
        if self.is_said():
            self.elements.add(tag)
            self.attributes |= set(given)
        if tag == "pre" and self.is_said():
            self.texts.append("")
        if tag not in EMPTY:
            self.open.append((tag, given.get("id"), "hidden" in given or tag in UNSEEN))

    def handle_startendtag(self, tag, attrs):
        self.handle_starttag(tag, attrs)
        if tag not in EMPTY:
            self.open.pop()

    def handle_endtag(self, tag):
        while self.open and self.open.pop()[0] != tag:
            pass

    def handle_data(self, data):
        if any(hidden for _, _, hidden in self.open):
            return
        if not self.is_said():
            self.outside += data
        elif self.open[-1][0] == "pre":
            self.texts[-1] += data
        else:
            self.around += data

    def is_said(self):
        """Whether the place is in the element that is seen without a script."""
        return any(name == "said" for _, name, _ in self.open)


MORE = re.compile(r"listed here(?:: (\d+) more (?:is|are) not)?\. The counts")
COUNTED = re.compile(r"^  \w+: ([\d,]+) reads? in ", re.MULTILINE)


def more_faults(name, page, shown):
    """Whether the page says how many reads its list lacks, by the counts of the list and its lines."""
    told, counted = MORE.search(shown.around), sum(int(count) for count in COUNTED.findall(page.listed))
    due = max(0, counted - int(page_parts.most_said()))
    yield f"{name}: {due} reads more than are listed", bool(told) and int(told[1] or 0) == due


def static_faults(page):
    """Whether a page that the program wrote says the verdicts, the reasons and the list of faults as text, and nothing else is seen."""
    shown, name = Shown(page.written), f"without a script, {page.name}"
    yield f"{name}: its words {shown.texts[:1]}", shown.texts[:1] == [page.words]
    yield f"{name}: its list {shown.texts[1:]}", shown.texts[1:] == [page.listed]
    yield f"{name}: its picture", page.picture.startswith("<svg") and page.written.count(page.picture) == 1
    yield f"{name}: elements {shown.elements}", {"pre", "svg"} <= shown.elements <= MARKUP | DRAWN
    handlers = {name for name in shown.attributes if name.startswith("on") or name in ("style", "href", "src")}
    yield f"{name}: attributes {handlers}", not handlers
    yield f"{name}: what is seen besides, {shown.outside.strip()!r}", not shown.outside.strip()
    yield f"{name}: each id once", len(shown.ids) == len(set(shown.ids))
    yield from more_faults(name, page, shown)
    lines = [line for line in page.words.splitlines() if line[:1].strip()]
    yield f"{name}: three lines", [line.split()[0] for line in lines] == ["cc", "cm", "ccv"]


def faults(pages):
    """What is wrong with pages that the program wrote, without their scripts: names, and whether each holds."""
    most = page_parts.most_said()
    yield f"the page says that it lists {most} reads at most", f"At most {most} of them" in page_parts.pieces()["BEFORE_MORE"]
    for page in pages:
        if page.written is not None:
            yield from static_faults(page)


class Served(http.server.SimpleHTTPRequestHandler):
    """Files of a folder, each with a policy."""

    def __init__(self, *given, policy, **named):
        self.policy = policy
        super().__init__(*given, **named)

    def end_headers(self):
        if self.policy:
            self.send_header("Content-Security-Policy", self.policy)
        super().end_headers()

    def log_message(self, *_):
        """Says nothing."""


@contextlib.contextmanager
def served(folder, policy):
    """The address of a server of a folder, whose answers have a policy."""
    handler = functools.partial(Served, directory=folder, policy=policy)
    with http.server.ThreadingHTTPServer(("127.0.0.1", 0), handler) as server:
        thread = threading.Thread(target=server.serve_forever, daemon=True)
        thread.start()
        yield f"http://127.0.0.1:{server.server_address[1]}"
        server.shutdown()
        thread.join()


SEEN = "document.body.innerText"
PARTS = "[...document.querySelectorAll('#live, #said')].filter(part => part.checkVisibility()).map(part => part.id)"


def seen_faults(window, page, what):
    """Whether the page in the window shows what is said without a script, and that alone."""
    text, parts = window.run(SEEN), window.run(PARTS)
    yield f"{page.name}, {what}: what is seen are {parts}", parts == ["said"]
    due = [line for line in (page.words + page.listed).splitlines() if line.strip()]
    missing = [line for line in due if line.strip() not in text]
    yield f"{page.name}, {what}: not seen are {missing}", not missing
    yield f"{page.name}, {what}: the picture", window.run("document.querySelector('#said svg').getBoundingClientRect().width") > 0
    yield f"{page.name}, {what}: nothing ran", window.run("document.documentElement.dataset.ready") is None


def seen_without_scripts(window, room, page):
    """Whether Chromium shows what a page says without its script: where scripts are off, and where a policy forbids them."""
    path = room / "static.html"
    path.write_text(page.written or page.joined(), encoding="utf-8")
    window.ask("Emulation.setScriptExecutionDisabled", value=True)
    window.show(f"file://{path}")
    yield from seen_faults(window, page, "scripts are off")
    window.ask("Emulation.setScriptExecutionDisabled", value=False)
    for policy in NO_SCRIPT:
        with served(str(room), policy) as address:
            window.show(f"{address}/{path.name}")
            yield from seen_faults(window, page, policy)
    with served(str(room), "") as address:
        window.show(f"{address}/{path.name}")
        window.settle()
        yield f"{page.name}: where its script runs", window.run(PARTS) == ["live"] and window.run("document.getElementById('said')") is None
