"""Tries causal_judge.html from a file in headless Chromium and Firefox: wasm_module.py calls it.

Each browser opens the page. The module in it answers random inputs to all calls (module_in_browser.py). The page judges its examples, files,
dropped and pasted texts, and shows the page of `explain --html` in its frame. What it shows has to be what the native library says. It
stops work, refuses inputs in words with the line at fault, saves what it shows, and is used by keys alone, on narrow screens and in the
dark. No request may leave it, also where its own script tries to send one.
"""

import contextlib
import functools
import http.server
import json
import pathlib
import shutil
import threading
import time

import browser
import firefox
import module_in_browser

MOST_SECONDS, MOST_RUNS = 120, 3
EXAMPLES = pathlib.Path(__file__).resolve().parents[2] / "examples"
BAD_LOG = '["begin","a",["w","x",1]]\n["end","a","ok"]\n["end","a","ok"]\n["begin","a",["r","x"]]\n'
TORN_LOG = '["begin","a",["w","x",1]]\n["end","a" "ok"]\n'
BAD_HISTORY = '["memory",\n [[["w",0,1]],\n  [["r",0,1],["q",0,1]]]]'
NO_JSON = '["counter",\n [[["add",1]]\n'
WIDE = json.dumps(["counter", [[["get", 0]]] * 17])
# What a script may try in order to send something, each giving whether it was held back.
SENDS = {
    "fetch": "fetch('@TO@').then(() => false, () => true)",
    "an image": "new Promise(done => { const it = new Image(); it.onload = () => done(false); it.onerror = () => done(true); it.src = '@TO@'; })",
    "a socket": "new Promise(done => { try { const it = new WebSocket('@TO@'.replace('http', 'ws')); it.onopen = () => done(false);"
    " it.onerror = () => done(true); } catch { done(true); } })",
    "a form": "(() => { const it = document.createElement('form'); it.action = '@TO@'; it.target = 'explained'; document.body.append(it);"
    " it.submit(); it.remove(); return true; })()",
    "a script": "new Promise(done => { const it = document.createElement('script'); it.onload = () => done(false); it.onerror = () => done(true);"
    " it.src = '@TO@'; document.body.append(it); })",
    "a frame": "new Promise(done => { const it = document.createElement('iframe'); it.src = '@TO@'; document.body.append(it);"
    " setTimeout(() => { it.remove(); done(true); }, 500); })",
    "a beacon": "(() => { navigator.sendBeacon('@TO@', 'x'); return true; })()",
    "a worker": "new Promise(done => { const it = new Worker(URL.createObjectURL(new Blob([`fetch('@TO@').then(() => postMessage(false),"
    " () => postMessage(true))`]))); it.onmessage = event => done(event.data); it.onerror = () => done(true); })",
}


class Counter(http.server.BaseHTTPRequestHandler):
    """Counts what reaches it."""

    def do_GET(self):
        self.server.asked.append(self.path)
        self.send_response(200)
        self.send_header("Access-Control-Allow-Origin", "*")
        self.end_headers()

    do_POST = do_GET

    def log_message(self, *words):
        pass


@contextlib.contextmanager
def server():
    """A server on this machine, which gathers the requests that reach it."""
    made = http.server.ThreadingHTTPServer(("127.0.0.1", 0), Counter)
    made.asked = []
    thread = threading.Thread(target=made.serve_forever, daemon=True)
    thread.start()
    try:
        yield made
    finally:
        made.shutdown()
        made.server_close()


def wait(window, expression, seconds=MOST_SECONDS):
    """Whether an expression becomes true in time."""
    end = time.monotonic() + seconds
    while time.monotonic() < end:
        if window.run(expression):
            return True
        time.sleep(0.05)
    return False


def text_of(window, name):
    """What is seen of an element."""
    return window.run(f"(it => it.checkVisibility() ? it.innerText : '')(document.getElementById({json.dumps(name)}))")


def is_done(window):
    return wait(window, "!now.isAtWork && document.getElementById('work').hidden")


def given(window, text, name="log.jsonl"):
    """Drops a file with a text on the page, and waits for what is said of it."""
    window.run(
        "(text => { const all = new DataTransfer(); all.items.add(new File([text], "
        + json.dumps(name)
        + ")); document.body.dispatchEvent(new DragEvent('drop', {dataTransfer: all, bubbles: true, cancelable: true})); return true; })("
        + json.dumps(text)
        + ")"
    )
    return is_done(window)


def prefix_of(text):
    word = text.lstrip("[ \t\r\n").partition('"')[2].partition('"')[0] if text.lstrip("[ \t\r\n").startswith('"') else ""
    return "log_" if word in ("start", "begin", "end", "fail", "lost", "order") else "long_" if word == "memory" else ""


def is_shown(window, library, text):
    """Whether the page holds the lines and the page that the library gives of a text."""
    for call, name in (("judge", "verdict"), ("explain_page", "page")):
        status, due = library.ask(prefix_of(text) + call, text.encode())
        if status != 0 or window.run(f"now.{name}") != due.decode():
            return False
    said = [line.split() for line in library.ask(prefix_of(text) + "judge", text.encode())[1].decode().splitlines()]
    shown = window.run("[...document.querySelectorAll('#verdict-rows tr')].map(row => [...row.querySelectorAll('code')].map(it => it.textContent))")
    says = window.run("[...document.querySelectorAll('#verdict-rows .says')].map(it => it.textContent)")
    return [[line[0], *line[2:]] for line in said] == [[it for it in row if it] for row in shown] and [line[1] for line in said] == says


def example_cases(window, library):
    for number, name in enumerate(window.run("JSON.parse(document.getElementById('samples').textContent).map(it => it.name)")):
        window.run(f"document.querySelectorAll('#examples button')[{number}].click()")
        is_well = is_done(window) and is_shown(window, library, (EXAMPLES / name).read_text(encoding="ascii"))
        yield f"the example {name}: {text_of(window, 'note')}", is_well
        yield f"the frame of {name} draws its page", wait_in_frame(window, "!document.getElementById('said') && !!document.querySelector('#live')")


def wait_in_frame(window, expression):
    end = time.monotonic() + 20
    while time.monotonic() < end:
        with contextlib.suppress(browser.BrowserError, firefox.BrowserError, IndexError, KeyError):
            if window.run_in_frame(expression):
                return True
        time.sleep(0.1)
    return False


def input_cases(window, library, room):
    """Files, dropped files, pasted texts and written ones."""
    text = (EXAMPLES / "events_missing_post.jsonl").read_text(encoding="ascii")
    file = room / "picked run.jsonl"
    file.write_text(text, encoding="ascii")
    window.put_file("#file", file)
    yield "a file that is chosen", wait(window, "now.name === 'picked run.jsonl'") and is_done(window) and is_shown(window, library, text)
    yield "a file that is dropped", given(window, text) and is_shown(window, library, text)
    pasted = "(text => { const all = new DataTransfer(); all.setData('text/plain', text); document.body.dispatchEvent(new ClipboardEvent('paste',"
    window.run(f"{pasted} {{clipboardData: all, bubbles: true, cancelable: true}})); return true; }})({json.dumps(text)})")
    yield "a text that is pasted", is_done(window) and is_shown(window, library, text)
    counter = (EXAMPLES / "explained_counter.json").read_text(encoding="ascii")
    window.run(f"(document.getElementById('paste').open = true, document.getElementById('text').value = {json.dumps(counter)},"
               " document.getElementById('judge-text').click())")  # fmt: skip
    yield "a text that is written", is_done(window) and is_shown(window, library, counter)


def refusal_cases(window, library):
    """Refusals, in words, with the line at fault."""
    at_fault = "(it => it ? it.textContent : '')(document.querySelector('#refused-lines .at'))"
    for name, text, words, line in (
        ("a log's line", BAD_LOG, "that has none pending", '["end","a","ok"]'),
        ("a log's line that is no JSON", TORN_LOG, "no JSON text", '["end","a" "ok"]'),
        ("an operation", BAD_HISTORY, "Operation 1 of session 1", '[["r",0,1],["q",0,1]]'),
        ("a text that is no JSON", NO_JSON, "no JSON", ""),
        ("too many sessions", WIDE, "16 sessions", None),
        ("an empty file", "", "no JSON", None),
        ("markup", '["<img src=x onerror=alert(1)>",[]]', "No object", None),
    ):
        is_well = given(window, text) and words in text_of(window, "refused-words")
        if line is not None:
            is_well = is_well and line in window.run(at_fault) and "\u2192" in window.run(at_fault)
        status, said = library.ask(prefix_of(text) + "judge", text.encode())
        is_well = is_well and status == 1 and said.decode().splitlines()[0] in text_of(window, "refused-program")
        yield f"a refusal of {name}: {text_of(window, 'refused-words')!r}", is_well and not text_of(window, "verdict")


def stop_cases(window, library, large):
    """Work that is stopped by the button and by a key, and what is judged afterwards."""
    small = (EXAMPLES / "healthy_run.json").read_text(encoding="ascii")
    for name, how in (("the button", "document.getElementById('stop').click()"), ("Escape", None)):
        window.put_file("#file", large)
        is_well = wait(window, "now.stage === 'judging'")
        yield f"work that {name} stops is shown", is_well and "Judging" in text_of(window, "work-title") and "Step 1 of 2" in text_of(window, "stage")
        window.run(how) if how else window.press("Escape")
        yield f"{name} stops", wait(window, "!now.isAtWork", 5) and text_of(window, "result-title") == "Stopped" and not text_of(window, "work")
        yield f"a history after {name}", given(window, small, "run.json") and is_shown(window, library, small)


def held_cases(window, counting):
    """Nothing leaves the page, whatever its script tries."""
    address = f"http://127.0.0.1:{counting.server_address[1]}/"
    for name, code in SENDS.items():
        held = window.run(f"(async () => {{ try {{ return await ({code.replace('@TO@', address)}); }} catch {{ return true; }} }})()")
        yield f"{name} is held back", held is True
    time.sleep(0.5)
    yield f"no request reached a server: {counting.asked}", not counting.asked


def look_cases(window, room, name):
    """Narrow and wide screens: nothing is cut, and an answer is in sight."""
    sizes = ((1280, 900), (700, 900), (390, 844), (320, 640))
    for width, height in sizes:
        window.size(width, height)
        time.sleep(0.3)
        fits = window.run("document.documentElement.scrollWidth <= window.innerWidth")
        window.picture(room / f"judge_page-{name}-{width}.png")
        yield f"nothing is cut at {width} pixels", fits
    for width, height in sizes:
        window.size(width, height)
        window.run("window.scrollTo(0, 0)")
        is_well = given(window, BAD_LOG)
        top, bottom, low = window.run("(it => [it.top, it.bottom, innerHeight])(document.getElementById('result').getBoundingClientRect())")
        yield f"a refusal is in sight at {width} pixels: {top} to {bottom} of {low}", is_well and top > -1 and bottom < low + 1
    window.size(1280, 900)


def save_cases(window, folder):
    """What is saved is what is shown."""
    for button, ending, due in (("save-page", ".html", "now.page"), ("save-lines", ".txt", "now.verdict"), ("save-json", ".json", None)):
        window.run(f"document.getElementById('{button}').click()")
        found, end = [], time.monotonic() + 20
        while not found and time.monotonic() < end:
            time.sleep(0.1)
            found = [it for it in pathlib.Path(folder).glob(f"*{ending}") if it.stat().st_size]
        time.sleep(0.3)
        text = found[0].read_text(encoding="utf-8") if found else ""
        yield f"{button} saves a file", bool(found) and (text == window.run(due) if due else json.loads(text)[0][0] == "cc")


def key_cases(window):
    """The page is used by keys alone: Tab goes to each control that is seen, in their order."""
    window.run("(document.activeElement.blur(), document.getElementById('paste').open = false, window.scrollTo(0, 0))")
    seen = []
    for _ in range(6):
        window.press("Tab")
        seen.append(window.run("document.activeElement.id || document.activeElement.tagName"))
    yield f"Tab goes through the controls: {seen}", "choose" in seen and "SUMMARY" in seen and seen.index("choose") < seen.index("SUMMARY")
    window.run("document.querySelectorAll('#examples button')[1].focus()")
    window.press("Enter")
    is_well = wait(window, "now.name === 'events_lost_write.jsonl'") and is_done(window)
    yield "Enter judges an example, and its verdict gets the focus", is_well and window.run("document.activeElement.id") == "result-title"


def large_cases(window, library, large, seconds, name):
    """A large log, from a file to its lines, in at most three times the time that the library takes: the best of some runs counts."""
    status, due = library.ask("log_judge", large.read_bytes())
    best = float("inf")
    for _ in range(MOST_RUNS):
        window.put_file("#file", large)
        is_well = wait(window, f"now.name === {json.dumps(large.name)} && !!now.verdict")
        took = window.run("(/judged in ([\\d.,]+) s/.exec(document.getElementById('given').textContent) ?? [])[1]")
        is_well = is_well and status == 0 and window.run("now.verdict") == due.decode()
        best = min(best, float(took.replace(",", "")) if took else best)
        window.run("stop()")
        if not is_well or best <= 3 * seconds:
            break
    print(f"{name}: a log of {large.stat().st_size} bytes is judged in {best} s, natively in {seconds:.2f} s", flush=True)
    yield f"a large log: {text_of(window, 'note')}", is_well and text_of(window, "note").startswith("Stopped")
    yield f"its time: {best} s, natively {seconds:.2f} s", best <= 3 * seconds


def cases(window, page, room, library, inputs, large, seconds, name):
    """All cases in one browser."""
    window.size(1280, 900)
    window.open(page)
    yield "the page opens", window.run("document.title") == "causal_judge" and wait(window, "worker !== undefined")
    yield from module_in_browser.cases(window, library, inputs)
    yield from example_cases(window, library)
    yield from input_cases(window, library, room)
    yield from look_cases(window, room, name)
    yield from refusal_cases(window, library)
    yield from key_cases(window)
    downloads = room / f"downloads-{name}"
    downloads.mkdir()
    window.save_to(downloads)
    yield from save_cases(window, downloads)
    yield from stop_cases(window, library, large)
    yield from large_cases(window, library, large, seconds, name)
    yield f"no message: {window.messages[:3]}", not window.messages
    outside = [it for it in window.requests if not it.startswith(("file:", "blob:", "data:", "about:"))]
    yield f"no request: {outside[:3]}", not outside
    with server() as counting:
        yield from held_cases(window, counting)


def dark_cases(opened, page, room, name):
    """The page in the dark."""
    with opened() as window:
        window.size(1280, 900)
        window.open(page)
        window.run("document.querySelectorAll('#examples button')[0].click()")
        is_well = is_done(window)
        time.sleep(1)
        window.picture(room / f"judge_page-{name}-dark.png")
        shade = window.run("getComputedStyle(document.documentElement).backgroundColor")
        yield f"the page is dark: {shade}", is_well and shade == "rgb(17, 19, 22)"


@contextlib.contextmanager
def dark_chromium():
    with browser.opened() as window:
        window.scheme("dark")
        yield window


def named(name, some):
    """The cases with the browser's name; one that breaks off fails."""
    try:
        for case, holds in some:
            yield f"{name}: {case}", holds
    except (browser.BrowserError, firefox.BrowserError, OSError) as fault:
        yield f"{name}: {fault!r:.300}", False


def tried(page, room, library, inputs, large, seconds, add, pictures=None):
    """Adds all cases of each browser that is there, and gives how many browsers are skipped. Pictures are kept in a folder."""
    skipped = 0
    kinds = (("chromium", browser, browser.opened, dark_chromium), ("firefox", firefox, firefox.opened, functools.partial(firefox.opened, True)))
    for name, kind, opened, dark in kinds:
        if not kind.program() or not kind.starts():
            print(f"the page in {name} is skipped: it is missing, or does not start: {kind.INSTALL}", flush=True)
            skipped += 1
            continue
        with opened() as window:
            add(named(name, cases(window, page, room, library, inputs, large, seconds, name)))
        add(named(name, dark_cases(dark, page, room, name)))
    if pictures:
        for picture in room.glob("judge_page-*.png"):
            shutil.copy(picture, pictures)
    return skipped
