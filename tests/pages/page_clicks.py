"""Pages in a headless Chromium: whether they open without a message, answer clicks and keys, and run nothing that stands in a name."""

import json
import pathlib
import random

import page_inputs
import page_views
import random_memories
from streams import is_unproved

WIDE, NARROW, TALL, SLOWEST = 1280, 390, 900, 20.0
HEADS = {"no": "Not causally consistent", "yes": "Causally consistent", "unknown": "Undecided"}
MADE = "img, image, iframe, object, embed, base, form, link, [onerror], [onload], [onclick], [style], [src]"
STATIC = f"document.querySelectorAll('{MADE}').length"
CARDS = "[...document.querySelectorAll('#cards li')].map(card => card.className + ' ' + card.querySelector('code').textContent)"
REACHING = """(() => {
  dispatchEvent(new Event('beforeprint'));   // on paper the whole picture is shown
  const many = [...document.querySelectorAll('#picture text')].filter(text => {
    const box = text.getBBox(), whole = text.ownerSVGElement;
    return box.x < -1 || box.x + box.width > whole.width.baseVal.value + 1 || box.y + box.height > whole.height.baseVal.value + 1;
  }).length;
  dispatchEvent(new Event('afterprint'));
  return many;
})()"""
ZOOMABLE = "document.getElementById('picture-buttons').checkVisibility()"
SCRIPTS = "document.querySelectorAll('script').length"
INJECT = """(() => {
  const script = document.createElement('script'); script.textContent = 'window.hit = 1'; document.body.append(script);
  const style = document.createElement('style'); style.textContent = '#headline { display: none }'; document.body.append(style);
  const image = new Image(); image.src = 'data:image/gif;base64,R0lGODlhAQABAAAAACw='; document.body.append(image);
  try { (0, eval)('window.hit = 2'); } catch (refused) { return getComputedStyle(document.getElementById('headline')).display !== 'none'; }
  return false;
})()"""
HOSTILE = [
    "</script><script>window.hit=1</script>", "<img src=x onerror=window.hit=1>", '"><svg onload=window.hit=1>', "--><b>bold</b><!--",
    "&lt;b&gt;",
    "a\u202eb\u0000c\u2066", "\u2028line\u2029", "x" * 5000, "\u200b\u00ad\ufeff", "javascript:window.hit=1",
    "\u0416\u05d0\u05d1 \u0627\u0644",
    18446744073709551615, 0, "true", "e\u0301" * 90, "{}", "__proto__", "constructor", "' onclick='window.hit=1", "\U0001f600" * 120,
]  # fmt: skip


def text_of(window, selector):
    return window.run(f"document.querySelector({json.dumps(selector)}).textContent")


def write(room, name, text):
    """A page in a file."""
    path = pathlib.Path(room) / f"{name}.html"
    path.write_text(text, encoding="utf-8")
    return path


def head_of(page):
    """How the headline begins, by the verdicts."""
    answers = [entry[1] for entry in json.loads(page.report)[0]]
    return HEADS[answers[0]] if len(set(answers)) == 1 else None


def open_faults(window, room, page, widths):
    """Whether a page opens, in each of the widths, and shows what it has to."""
    path, reasons = write(room, "page", page.written or page.joined()), json.loads(page.report)[0]
    for width in widths:
        window.size(width, TALL)
        seconds = window.open(path)
        name = f"{page.name} at {width}"
        yield f"{name}: messages {window.messages}", not window.messages and window.run("document.documentElement.dataset.ready") == "yes"
        yield f"{name}: asked for {window.requests[1:]}", len(window.requests) == 1
        yield f"{name}: {seconds:.1f} seconds", seconds < SLOWEST
        yield f"{name}: it scrolls sideways", window.run("document.documentElement.scrollWidth") <= width
        yield f"{name}: elements of names", window.run(STATIC) == 0 and window.run(SCRIPTS) == 6 and window.run("window.hit") is None
        head, due = text_of(window, "#headline"), head_of(page)
        yield f"{name}: the headline is {head!r}", (head == due) if due else head != ""
        cards = window.run(CARDS)
        lines = [f"{answer} {criterion} {answer}" for criterion, answer, *_ in reasons]
        yield f"{name}: the cards are {cards}", len(cards) == 3 and all(card.startswith(line) for card, line in zip(cards, lines))
        is_drawn = any(answer == "no" and isinstance(shown, list) for _, answer, shown, *_ in reasons)
        yield f"{name}: the picture", not is_drawn or window.run("document.querySelectorAll('#picture svg .box').length") > 0
        yield f"{name}: texts reach out of the picture", window.run(REACHING) == 0
        yield f"{name}: the buttons of the picture", window.run(ZOOMABLE) == window.run("document.querySelector('#picture svg') !== null")
        words = page.words.splitlines()
        if is_drawn and not page.is_log() and not any("\u2026" in line for line in words):
            found = window.run("[...document.querySelectorAll('#word-lines li')].map(line => line.textContent)")
            yield f"{name}: its words {found}", bool(found) and all(f"  {line}" in words for line in found)


def large(rng):
    """A memory with many faults, and with calls that got no answer."""
    form = random_memories.memory(rng, random_memories.Shape(6, 300, 12))[0]
    known = [[operation for operation in session if "?" not in operation] for session in form[1]]
    for _ in range(150):
        random_memories.spoil(rng, known)
    for session in known[:3]:
        session += [["r", 0, "?"], ["w", 1, 10**9 + len(session), "?"]]
    return ["memory", known, *form[2:]]


def key_faults(window, faults):
    """Whether the keys and buttons of the list choose other faults."""
    title = lambda: text_of(window, "#fault-title")
    number = lambda: int(title().split()[1].replace(",", ""))
    first = number()
    for what, act in (
        ("n", lambda: window.press("n")), ("p", lambda: window.press("p")), ("the button of the next", lambda: window.click("#later")),
        ("the button of the one before", lambda: window.click("#earlier")),
    ):  # fmt: skip
        before = number()
        act()
        yield f"{what} leads from {before} to {number()}", number() != before
    yield "next and before lead back", number() == first
    window.click("#fault-list li:nth-child(2) button")
    yield f"a click on the second of {faults}: {title()}", number() == 2
    window.press("ArrowDown")
    yield f"down in the list: {title()}", number() == 3
    window.press("Home")
    yield f"home in the list: {title()}", number() == 1
    current = window.run("[...document.querySelectorAll('#fault-list [aria-current]')].map(item => item.id)")
    stops = window.run("document.querySelectorAll('#fault-list button[tabindex=\"0\"]').length")
    yield f"one item is current, {current}, and one is a stop, {stops}", current == ["fault-0"] and stops == 1


def filter_faults(window):
    """Whether a filter leaves the faults of one session."""
    many = window.run("document.querySelectorAll('#fault-list button').length")
    label = window.run(
        "(select => { select.selectedIndex = 1; select.dispatchEvent(new Event('change')); return select.options[1].textContent; })"
        "(document.getElementById('of-client'))"
    )
    left = window.run("[...document.querySelectorAll('#fault-list .what')].map(line => line.textContent)")
    name, count = label.rsplit(" (", 1)
    due = min(100, int(count.rstrip(")")))
    yield f"the filter {label} leaves {len(left)} of {many}", len(left) == due and all(name in line for line in left)
    window.run("(select => { select.selectedIndex = 0; select.dispatchEvent(new Event('change')); })(document.getElementById('of-client'))")


def search_faults(window, page):
    """Whether the search finds what it should, and Escape ends it."""
    operations = [operation for session in json.loads(page.history)[1] for operation in session]
    rows = "document.querySelectorAll('#rows tr').length"
    for typed, due in (
        ("no answer", sum(operation[-1] == "?" for operation in operations)),
        ("writes", sum(operation[0] == "w" for operation in operations)),
        ("session 2 reads", sum(operation[0] == "r" for operation in json.loads(page.history)[1][2])),
        ("1.0", 1),
    ):
        window.run("document.activeElement.blur()")
        window.press("/")
        yield "/ goes to the search", window.run("document.activeElement.id") == "search"
        window.type(typed)
        window.run("new Promise(done => setTimeout(done, 200))")
        found = text_of(window, "#operations-title")
        counted = f"{due:,} operation{'' if due == 1 else 's'} found"
        yield f"the search for {typed!r}: {found}, and not {counted}", found == counted and window.run(rows) == min(due, 100)
        window.press("Escape")
        yield "Escape ends the search", window.run("document.getElementById('search').value") == "" and window.run(rows) > 0
    window.press("/")
    window.type("reads")
    window.press("Enter")
    found = text_of(window, "#operations-title")
    yield f"Enter goes to what was found: {found}", found.endswith(" found") and window.run("document.activeElement.closest('#rows') !== null")
    window.press("Enter")
    yield "a click on an operation lists what is around it", " around " in text_of(window, "#operations-title")


def run_faults(window):
    """Whether the run answers clicks, keys and buttons."""
    reach = lambda: text_of(window, "#range")
    whole = reach()
    window.click("#run-closer")
    closer = reach()
    yield f"the run is shown closer: {closer}", closer != whole
    window.click("#run-all")
    yield f"the whole run again: {reach()}", reach() == whole
    window.click("#map", 300, 10)
    around = text_of(window, "#operations-title")
    yield f"a click on the run: {around}", " around 0." in around and text_of(window, "#under").startswith("0.")
    window.run("document.getElementById('map').focus()")
    for key, what in (("ArrowDown", "1."), ("ArrowUp", "0.")):
        window.press(key)
        yield f"{key} in the run", text_of(window, "#under").startswith(what)
    before = text_of(window, "#under")
    window.press("ArrowRight")
    yield "right in the run", text_of(window, "#under") != before
    window.press("+")
    yield "plus in the run", reach() != whole
    window.press("Home")
    yield "home in the run", reach() == whole


PARTS = ("cards", "fault", "faults", "run", "operations", "end")
PART = "(part => part ? part.id || 'end' : 'top')(document.activeElement.closest('[id=cards], section, footer'))"


def tab_faults(window):
    """Whether the parts come in order by the tab key alone."""
    window.run("document.querySelector('.skip').focus()")
    seen = []
    for _ in range(60):
        window.press("Tab")
        part = window.run(PART)
        seen += [part] if not seen or seen[-1] != part else []
        if part == "end":
            break
    order = [part for part in seen if part in PARTS]
    yield f"the order of the tab key is {seen}", order == [part for part in PARTS if part in order] and len(order) > 3


def used_faults(window, room, program):
    """A page with many faults, used by clicks and keys, light, dark and on paper."""
    page = page_inputs.page_of(program, "many faults", json.dumps(large(random.Random(7))).encode(), ["--long"])
    path, faults = write(room, "used", page.written or page.joined()), json.loads(page.report)[1][2]
    for width, scheme in ((WIDE, "light"), (NARROW, "dark")):
        window.size(width, TALL)
        window.scheme(scheme)
        window.open(path)
        for name, holds in (
            *key_faults(window, len(faults)), *filter_faults(window), *search_faults(window, page), *run_faults(window), *tab_faults(window)
        ):  # fmt: skip
            yield f"many faults at {width}, {scheme}: {name}", holds
        ground = window.run("getComputedStyle(document.documentElement).backgroundColor")
        yield f"the ground is {ground} in {scheme}", (sum(map(int, ground[4:-1].split(","))) > 600) == (scheme == "light")
        window.print(path.with_suffix(".pdf"))
        yield f"it prints at {width}", path.with_suffix(".pdf").stat().st_size > 10_000 and not window.messages
    window.scheme("light")


def hostile_log():
    """A log whose clients, keys, values and notes are markup and what cannot be seen, with reads that missed a write and one of a lost
    write."""
    events = []
    for name in HOSTILE:
        events += [["begin", name, ["w", name, name], name], ["end", name, "ok"], ["begin", name, ["r", name]], ["end", name, name, [name]]]
        events += [["begin", name, ["r", name]], ["end", name, None, {str(name): name}]]
    events += [["begin", HOSTILE[0], ["w", "late", HOSTILE[1]]], ["lost", HOSTILE[0]]]
    events += [["begin", "late", ["r", "late"]], ["end", "late", HOSTILE[1]]]
    return "".join(json.dumps(event) + "\n" for event in events).encode()


UNSEEN = r"\u0000-\u0008\u000b-\u001f\u202a-\u202e\u2066\u2067\u2028\u2029\u200b\ufeff"


def hostile_faults(window, room, program):
    """Whether names that are markup run nothing and make no element, in each fault and in the list of all operations."""
    page = page_inputs.page_of(program, "hostile names", hostile_log(), page_inputs.LOG)
    yield from open_faults(window, room, page, (WIDE, NARROW))
    window.size(WIDE, TALL)
    for number in range(len(HOSTILE)):
        window.press("n")
        yield f"hostile fault {number}", window.run(STATIC) == 0 and window.run("window.hit") is None
    window.press("/")
    window.type("reads")
    window.press("Enter")
    turned = window.run(f"/[{UNSEEN}]/.test(document.querySelector('main').innerText)")
    yield "what cannot be seen is shown as an escape", not turned
    longest = window.run("Math.max(...[...document.querySelectorAll('bdi, svg text')].map(name => name.textContent.length))")
    yield f"names are cut: {longest}", longest < 300
    yield "scripts", window.run(SCRIPTS) == 6 and window.run(STATIC) == 0 and not window.messages
    refused = window.run(INJECT)
    window.run("new Promise(done => setTimeout(done, 200))")
    told = f"what is put into the page is refused: {refused}, {len(window.messages)} messages"
    yield told, refused and window.run("window.hit") is None and len(window.messages) >= 3


NOTED = [
    ["begin", "alice", ["w", "x", 1], {"server": "n1"}], ["end", "alice", "ok", ["a < b", 17]],
    ["begin", "alice", ["r", "x"]], ["end", "alice", None, "answered at 12:00:07"], ["begin", "bob", ["r", "x"]], ["end", "bob", 1],
]  # fmt: skip


def noted_faults(window, room, program):
    """Whether the notes of a log are in the words of a fault, in the list of operations, under the run, and found by the search."""
    page = page_inputs.page_of(program, "notes", "".join(json.dumps(event) + "\n" for event in NOTED).encode(), page_inputs.LOG)
    window.size(WIDE, TALL)
    window.open(write(room, "noted", page.written or page.joined()))
    words = window.run("[...document.querySelectorAll('#word-lines li')].map(line => line.textContent)")
    due = 'line 1: alice writes 1 to x [note of line 1: {"server":"n1"}; of line 2: ["a < b",17]]'
    yield f"the words with notes: {words}", due in words
    under = 'line 3: alice finds nothing at x [note of line 4: "answered at 12:00:07"]'
    for typed, many in (("n1", 1), ("answered alice", 1), ("< 17", 1), ("server bob", 0)):
        window.press("/")
        window.run("document.getElementById('search').value = ''")
        window.type(typed)
        window.press("Enter")
        found = text_of(window, "#operations-title")
        yield f"the search for {typed!r}: {found}", found == f"{many} operation{'' if many == 1 else 's'} found"
        shown = window.run("[...document.querySelectorAll('#rows tr td:last-child')].map(cell => cell.textContent)")
        yield f"the notes in the list: {shown}", len(shown) == many and all("12:00:07" in cell or "n1" in cell for cell in shown)
        window.run("document.activeElement.blur()")
    window.press("/")
    window.run("document.getElementById('search').value = ''")
    window.type("answered")
    window.press("Enter")
    window.press("Enter")
    told = text_of(window, "#under")
    yield f"under the run: {told}", told.startswith(under)


TIMED = """(async what => {
  const begun = performance.now(), search = document.getElementById('search');
  if (what === 'a search') {
    search.value = '77';
    search.dispatchEvent(new KeyboardEvent('keydown', {key: 'Enter'}));
  } else document.getElementById(what === 'another fault' ? 'later' : 'run-closer').click();
  await new Promise(done => requestAnimationFrame(() => requestAnimationFrame(done)));
  return performance.now() - begun;
})(%s)"""


def huge(rng, clients=16, each=6400, keys=800):
    """A memory of some 100,000 operations of a store that reads an old value now and then."""
    written, sessions = [[0] for _ in range(keys)], [[] for _ in range(clients)]
    for number in range(clients * each):
        key = rng.randrange(keys)
        if rng.random() < 0.4:
            written[key].append(number + 1)
            sessions[number % clients].append(["w", key, number + 1])
        else:
            late = rng.randrange(3) if rng.random() < 0.05 else 0
            sessions[number % clients].append(["r", key, written[key][-1 - min(late, len(written[key]) - 1)]])
    return ["memory", sessions]


def huge_faults(window, room, program):
    """Whether a page of some 100,000 operations opens and answers soon: twice what it takes on a free machine is far below the bounds."""
    page = page_inputs.page_of(program, "100,000 operations", json.dumps(huge(random.Random(3))).encode(), ["--long"])
    path = write(room, "huge", page.written or page.joined())
    window.size(WIDE, TALL)
    seconds = window.open(path)
    yield f"{page.name}: {len(page.joined())} bytes open in {seconds:.1f} seconds", seconds < SLOWEST and not window.messages
    for what in ("a search", "another fault", "a closer look"):
        took = window.run(TIMED % json.dumps(what))
        print(f"left out of the count: {page.name}, {what}: {took:.0f} milliseconds", flush=True)
        yield f"{page.name}, {what}: {took:.0f} milliseconds", took < 1000 * SLOWEST


def faults(window, room, examples, others, program, is_long):
    """What is wrong with pages: names, and whether each holds."""
    if is_long and is_unproved(program):
        print("a page of 100,000 operations: left out, since a program that rt try built takes many minutes", flush=True)
    elif is_long:
        yield from huge_faults(window, room, program)
    for page in examples:
        yield from open_faults(window, room, page, (WIDE, NARROW))
    for number, page in enumerate(others):
        yield from open_faults(window, room, page, ((WIDE, NARROW)[number % 2],))
    yield from used_faults(window, room, program)
    yield from page_views.faults(window, room, program)
    yield from hostile_faults(window, room, program)
    yield from noted_faults(window, room, program)
