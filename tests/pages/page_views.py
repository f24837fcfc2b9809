"""Zooming and moving: the views of the page's script asked by Node, and the picture of a fault and the run used in a headless Chromium."""

import json
import pathlib
import subprocess

import page_inputs
import page_parts

ANSWERS = pathlib.Path(__file__).resolve().parent / "page_views.js"
MOST_SECONDS, WIDE, NARROW, TALL, NEAR = 60, 1280, 390, 900, 0.01
SMALLEST, CLOSEST, STRIDE = 0.8, 8, 40
WHEEL = 2.718281828459045**0.25


# ---- Node


def random_view(rng):
    """The stretches of a view of one direction or of two; two keep their proportion."""
    all_of, pixels = rng.uniform(5, 5000), rng.uniform(50, 1200)
    least = rng.choice([4, all_of / CLOSEST, all_of * 2])
    across = {"all": all_of, "least": least, "pixels": pixels, "end": all_of, "begin": rng.choice([0, 90])}
    if rng.random() < 0.5:
        return [across]
    tall = rng.uniform(0.2, 5)
    down = {name: value * tall for name, value in across.items()}
    return [{**across, "begin": 0}, {**down, "end": down["all"] * rng.choice([1, 0.6]), "begin": 0}]


def random_act(rng, stretches):
    spot = [part["begin"] + rng.random() * part["pixels"] for part in stretches]
    act = rng.choice(["zoom", "zoom", "zoom", "move", "move", "turn", "showAll"])
    if act == "zoom":
        return [act, rng.choice([0.5, 2, rng.uniform(0.2, 5)]), *rng.choice([[spot], []])]
    return [act, *{"move": [[rng.uniform(-300, 300) for _ in "xy"]], "turn": [rng.choice([-0.5, 0.5])], "showAll": []}[act]]


def due_of(part, before, act, is_last):
    """What a stretch shows after an act, by the plain rule: scaled about a place or moved, and then brought within its bounds."""
    (begin, end), (name, *given) = before, act
    many, least = end - begin, min(part["least"], part["all"])
    if name == "showAll":
        begin, many = 0, part["all"]
    elif name == "zoom":
        place = begin + many / 2 if len(given) < 2 else begin + (given[1] - part["begin"]) * many / part["pixels"]
        share, many = (place - begin) / many, max(least, min(part["all"], many * given[0]))
        begin = place - share * many
    elif name == "move":
        begin += given[0] * many / part["pixels"]
    elif is_last:
        begin += given[0] * many
    begin = max(0, min(part["end"] - many, begin))
    return [begin, begin + many]


def of_direction(act, at):
    """An act as one direction sees it."""
    name, *given = act
    return [name, *[part[at] if isinstance(part, list) else part for part in given]]


def act_faults(number, stretches, acts, answers):
    before = [[0, part["all"]] for part in stretches]
    for act, answer in zip(acts, answers):
        last, pairs = len(stretches) - 1, enumerate(zip(stretches, before))
        due = [due_of(part, shown, of_direction(act, at), at == last) for at, (part, shown) in pairs]
        is_due = all(near(shown, wanted, 1e-6) for shown, wanted in zip(answer["shown"], due))
        yield f"view {number}, {act}: {answer['shown']} and not {due}", is_due
        changed = answer["shown"] != before
        yield f"view {number}, {act}: drawn {answer['draws']} times", answer["draws"] == answer["changed"] == changed
        yield f"view {number}, {act}: it is whole", act[0] != "showAll" or answer["isWhole"]
        shares = [(end - begin) / part["all"] for (begin, end), part in zip(answer["shown"], stretches)]
        yield f"view {number}, {act}: it keeps its proportion {shares}", max(shares) - min(shares) < 1e-6
        before = answer["shown"]


def model_faults(rng, count=60):
    """Whether views zoom and move by the plain rule."""
    cases = []
    for _ in range(count):
        stretches = random_view(rng)
        cases.append({"stretches": stretches, "acts": [random_act(rng, stretches) for _ in range(20)]})
    given = {"script": page_parts.pieces()["ZOOMING"], "cases": cases}
    done = subprocess.run(
        ["node", str(ANSWERS)], input=json.dumps(given), capture_output=True, text=True, check=False, timeout=MOST_SECONDS
    )
    if done.returncode != 0:
        raise RuntimeError(done.stderr[-2000:])
    for number, (case, answers) in enumerate(zip(cases, json.loads(done.stdout))):
        yield from act_faults(number, case["stretches"], case["acts"], answers)


# ---- Chromium

PICTURE, FOCUSED = "#picture svg", "document.getElementById('picture').focus()"
SEEN = f"document.querySelector('{PICTURE}').getAttribute('viewBox').split(' ').map(Number)"
BOX = "(box => [box.left, box.top, box.width, box.height])(document.querySelector(%s).getBoundingClientRect())"
FOLDS = """[...document.querySelectorAll('#picture .fold')].map(fold => {
  const {left, top, width, height} = fold.getBoundingClientRect();
  const frame = document.getElementById('picture').getBoundingClientRect();
  const x = left + Math.min(6, width / 2), y = top + height / 2;
  const isIn = x > frame.left && x < frame.right && y > frame.top && y < frame.bottom;
  const found = document.elementFromPoint(x, y);
  return {words: fold.querySelector('title').textContent, isSeen: isIn && y > 0 && y < innerHeight, isFound: found === fold};
})"""
ON_PAPER = f"addEventListener('beforeprint', () => {{ window.onPaper = {SEEN}; }})"


def chain(sessions, between):
    """A memory in which each session reads what the one before wrote, and the last two miss the first write."""
    made = [[["w", 0, 1]]]
    for number in range(1, sessions):
        others = lambda key: [["r", key + at, 0] for at in range(between)]
        made.append([*others(1000), ["r", number - 1, number], *others(2000), ["w", number, number + 1]])
    made.append([["r", sessions - 1, sessions], *[["r", 3000, 0]] * between, ["r", 0, 0]])
    return ["memory", [*made, [["r", sessions - 1, sessions], ["r", 0, 0]]]]


def seen(window):
    return window.run(SEEN)


def box_of(window, selector=PICTURE):
    return window.run(BOX % json.dumps(selector))


def centred(window, selector=PICTURE):
    """The middle of an element in the window, after bringing it into sight."""
    window.run(f"document.querySelector({json.dumps(selector)}).scrollIntoView({{block: 'center'}})")
    window.settle()
    left, top, wide, tall = box_of(window, selector)
    return left + wide / 2, top + tall / 2


def near(found, due, within=NEAR):
    return len(found) == len(due) and all(abs(one - other) <= within * max(1, abs(other)) for one, other in zip(found, due))


def under(window, view, x, y):
    """The place of the picture under a place of the window."""
    left, top, wide, tall = box_of(window)
    return view[0] + (x - left) * view[2] / wide, view[1] + (y - top) * view[3] / tall


def zoomed(view, by):
    return [view[2] * by, view[3] * by]


def zoom_faults(window, whole, act, steps):
    """Whether each of these acts, one after the other, shows so much of the whole."""
    for what, part in steps:
        act(what)
        yield f"{what} shows {seen(window)} of {whole}", near(seen(window)[2:], zoomed(whole, part))


def button_faults(window, whole):
    steps = (("#picture-closer", 0.5), ("#picture-closer", 0.25), ("#picture-wider", 0.5))
    yield from zoom_faults(window, whole, window.click, steps)
    window.click("#picture-all")
    yield f"the button All: {seen(window)}", near(seen(window), whole)
    window.click("#picture-wider")
    yield f"the button - leaves the whole: {seen(window)}", near(seen(window), whole)
    for _ in range(6):
        window.click("#picture-closer")
    yield f"no closer than {CLOSEST}: {seen(window)}", near(seen(window)[2:], zoomed(whole, 1 / CLOSEST))
    window.click("#picture-all")


def key_faults(window, whole):
    centred(window)
    window.run(FOCUSED)
    scrolled = window.run("scrollY")
    yield from zoom_faults(window, whole, window.press, (("+", 0.5),))
    unit = whole[2] / box_of(window)[2] / 2
    for key, at, by in (
        ("ArrowRight", 0, STRIDE * unit), ("ArrowDown", 1, STRIDE * unit), ("ArrowLeft", 0, -STRIDE * unit), ("ArrowUp", 1, -STRIDE * unit),
        ("PageUp", 1, None), ("PageDown", 1, None),
    ):  # fmt: skip
        before = seen(window)
        window.press(key)
        after = seen(window)
        by = by or min(before[1], before[3] / 2) * -1 if key == "PageUp" else by or min(whole[3] - before[3] - before[1], before[3] / 2)
        due = [value + (by if number == at else 0) for number, value in enumerate(before)]
        yield f"{key} moves {before} to {after}, and not to {due}", near(after, due)
    yield from zoom_faults(window, whole, window.press, (("=", 0.25), ("-", 0.5)))
    window.press("Home")
    yield f"Home shows all: {seen(window)}", near(seen(window), whole)
    yield "the page did not scroll", window.run("scrollY") == scrolled
    window.press("ArrowDown")
    window.run("new Promise(done => setTimeout(done, 300))")
    yield "an arrow scrolls the page where the picture is whole", window.run("scrollY") != scrolled and near(seen(window), whole)


def wheel_faults(window, whole):
    x, y = centred(window)
    x, y = x + 30, y - 20
    place = under(window, whole, x, y)
    window.wheel(x, y, down=-120, ctrl=True)
    closer = seen(window)
    yield f"Ctrl and the wheel: {closer}", near(closer[2:], zoomed(whole, 1 / WHEEL))
    yield f"the place under the pointer stays: {under(window, closer, x, y)} and not {place}", near(under(window, closer, x, y), place)
    window.wheel(x, y, across=24)
    yield f"the wheel moves sideways: {seen(window)}", near(seen(window), [closer[0] + 24 * closer[2] / box_of(window)[2], *closer[1:]])
    before, scrolled = seen(window), window.run("scrollY")
    window.wheel(x, y, down=60)
    window.run("new Promise(done => setTimeout(done, 300))")
    yield "the wheel alone scrolls the page", seen(window) == before and window.run("scrollY") > scrolled
    x, y = centred(window)
    window.wheel(x, y, down=120, ctrl=True)
    yield f"Ctrl and the wheel back: {seen(window)}", near(seen(window), whole)
    window.double_click(*centred(window, "#picture text.op"))
    yield f"a double click: {seen(window)}", near(seen(window)[2:], zoomed(whole, 0.5))
    yield "a double click selects nothing", window.run("getSelection().isCollapsed")
    window.click("#picture-all")


def drag_faults(window, whole):
    x, y = centred(window)
    window.drag((x, y), (x + 50, y + 30))
    yield f"a drag leaves the whole: {seen(window)}", near(seen(window), whole)
    window.run("getSelection().removeAllRanges()")
    window.click("#picture-closer")
    x, y = centred(window)
    before, unit = seen(window), whole[2] / box_of(window)[2] / 2
    window.drag((x, y), (x - 50, y - 30))
    due = [before[0] + 50 * unit, before[1] + 30 * unit, *before[2:]]
    yield f"a drag moves {before} to {seen(window)}, and not to {due}", near(seen(window), due)
    window.drag((x, y), (x + 50, y + 30))
    yield f"a drag back: {seen(window)}", near(seen(window), before)
    edge = box_of(window)[1] + 20
    window.drag((x, edge), (x, edge - 80))
    due = [before[0], before[1] + 80 * unit, *before[2:]]
    yield f"a drag goes on outside of the picture: {seen(window)} and not {due}", near(seen(window), due)
    for _ in range(4):
        window.drag((x, y), (x - 140, y - 300))
    yield f"a drag ends at the end of the picture: {seen(window)}", near(seen(window), [whole[2] / 2, whole[3] / 2, *before[2:]])
    window.mouse("mouseMoved", x, y)
    yield f"a move without the button: {seen(window)}", near(seen(window), [whole[2] / 2, whole[3] / 2, *before[2:]])
    yield "a drag selects nothing", window.run("getSelection().toString()") == ""
    window.click("#picture-all")


def finger_faults(window, whole):
    x, y = centred(window)
    place = under(window, whole, x, y)
    window.fingers([((x - 20, y), (x - 60, y)), ((x + 20, y), (x + 60, y))])
    pinched = seen(window)
    yield f"two fingers: {pinched}", near(pinched[2:], zoomed(whole, 1 / 3), 0.05) and near(under(window, pinched, x, y), place, 0.1)
    window.fingers([((x, y), (x - 30, y - 40))])
    unit = pinched[2] / box_of(window)[2]
    yield f"one finger: {seen(window)}", near(seen(window), [pinched[0] + 30 * unit, pinched[1] + 40 * unit, *pinched[2:]], 0.05)
    before = seen(window)
    window.fingers([((x - 60, y), (x - 100, y + 20)), ((x + 60, y), (x + 20, y + 20))])
    due = [before[0] + 40 * unit, before[1] - 20 * unit, *before[2:]]
    yield f"two fingers that move alike: {seen(window)} and not {due}", near(seen(window), due, 0.05)
    window.fingers([((x, y - 90), (x, y - 15)), ((x, y + 90), (x, y + 15))])
    yield f"two fingers back: {seen(window)}", near(seen(window), whole)


def fold_faults(window):
    """Whether the marks of what is left out say so in a zoomed picture, and the words open and close."""
    found = window.run(FOLDS)
    yield f"the folds of the whole: {found}", len(found) >= 2
    x, y = centred(window, "#picture .fold")
    window.wheel(x, y, down=-120, ctrl=True)
    window.wheel(x, y, down=-120, ctrl=True)
    before, closer = seen(window), window.run(FOLDS)
    yield f"the folds of a zoomed picture: {closer}", [fold["words"] for fold in closer] == [fold["words"] for fold in found]
    shown = [fold for fold in closer if fold["isSeen"]]
    yield f"they answer the pointer: {closer}", bool(shown) and all(fold["isFound"] and "left out" in fold["words"] for fold in shown)
    for _ in range(2):
        was = window.run("document.getElementById('words').open")
        window.click("#words-head")
        yield "the words open and close", window.run("document.getElementById('words').open") != was and seen(window) == before


def other_faults(window, whole):
    """Whether another fault begins with its whole picture, however it is chosen."""
    for name, act in (
        ("a click in the list", lambda: window.click("#fault-1")), ("a click on the first", lambda: window.click("#fault-0")),
        ("the key n", lambda: window.press("n")), ("the key p", lambda: window.press("p")),
        ("the button of the next", lambda: window.click("#later")), ("the button of the one before", lambda: window.click("#earlier")),
    ):  # fmt: skip
        window.click("#picture-closer")
        window.run(FOCUSED)
        window.press("ArrowRight")
        title = window.run("document.getElementById('fault-title').textContent")
        act()
        view, other = seen(window), window.run("document.getElementById('fault-title').textContent")
        is_whole = view[:2] == [0, 0] and near(view[2:], box_of(window)[2:])
        yield f"{name} draws {other} after {title} whole: {view}", other != title and is_whole
    yield f"the first fault again: {seen(window)}", near(seen(window), whole)


def paper_faults(window, path, whole):
    """Whether the whole picture is printed, the view comes back after it, and another width draws it whole."""
    window.click("#picture-closer")
    window.run(ON_PAPER)
    before = seen(window)
    window.print(path)
    printed = window.run("window.onPaper")
    yield f"on paper there is {printed} of {whole}", printed is not None and near(printed, whole)
    yield f"after it there is {seen(window)} and not {before}", seen(window) == before


def width_faults(window, width):
    window.click("#picture-closer")
    window.size(width, TALL)
    window.run("new Promise(done => setTimeout(done, 100))")
    window.settle()
    view = seen(window)
    yield f"at {width} the picture is whole: {view}", view[:2] == [0, 0] and near(view[2:], box_of(window)[2:])


def run_faults(window):
    """Whether the run is zoomed and moved by wheel, drag and fingers too."""
    reach = lambda: window.run("document.getElementById('range').textContent")
    x, y = centred(window, "#map")
    whole = reach()
    window.wheel(x, y, down=-120, ctrl=True)
    window.wheel(x, y, down=-120, ctrl=True)
    closer = reach()
    yield f"Ctrl and the wheel in the run: {closer}", closer != whole
    window.drag((x, y), (x - 90, y))
    moved = reach()
    yield f"a drag in the run: {moved} after {closer}", moved not in (closer, whole)
    window.wheel(x, y, across=-120)
    yield f"the wheel sideways in the run: {reach()} after {moved}", reach() != moved
    window.click("#run-all")
    x, y = centred(window, "#map")
    window.fingers([((x - 20, y), (x - 60, y)), ((x + 20, y), (x + 60, y))])
    yield f"two fingers in the run: {reach()}", reach() != whole
    window.click("#run-all")
    yield f"the whole run: {reach()}", reach() == whole
    across = box_of(window, "#map")[2] * 0.8
    window.click("#map", across, 40)
    picked = lambda: window.run("document.getElementById('under').textContent")
    before = picked()
    window.press("+")
    left, top = box_of(window, "#map")[:2]
    window.mouse("mouseMoved", left + across / 2, top + 40)
    other = picked()
    window.mouse("mouseMoved", left + across, top + 40)
    yield f"a zoom keeps what was clicked: {picked()} and not {before}, after {other}", picked() == before and other != before
    window.click("#run-all")


def wide_faults(window, path):
    """Whether a picture that is wider than its place begins with words that can be read, moves sideways, and is shown whole."""
    window.size(NARROW, TALL)
    window.open(path)
    begin, shown = seen(window), box_of(window)
    yield f"it begins readable: {begin} in {shown}", near([shown[2] / begin[2]], [SMALLEST]) and begin[1] == 0 and begin[0] > 0
    yield "it does not scroll sideways", window.run("document.documentElement.scrollWidth") <= NARROW
    frame = "document.getElementById('picture').getBoundingClientRect().right"
    rights = "[...document.querySelectorAll('#picture text')].map(text => text.getBoundingClientRect().right)"
    right = window.run(f"Math.max(...{rights}) - {frame}")
    yield f"its words are in sight: {right}", right <= 1
    x, y = centred(window)
    y = 450
    window.drag((x, y), (x + 100, y))
    due = [max(0, begin[0] - 100 * begin[2] / shown[2]), *begin[1:]]
    yield f"a drag moves it sideways to {seen(window)}, and not to {due}", near(seen(window), due)
    window.click("#picture-all")
    whole = seen(window)
    yield f"all of it: {whole}", whole[:2] == [0, 0] and whole[2] > begin[2] and near([whole[2]], [begin[0] + begin[2]])
    low = window.run("Math.max(...[...document.querySelectorAll('#picture .box')].map(box => box.getBBox().y + box.getBBox().height))")
    yield f"its lowest box is in it: {low}", low < whole[3]


def tall_faults(window, path):
    """Whether a zoom of a picture that reaches out of the window keeps the middle of what is in sight."""
    window.size(WIDE, TALL)
    window.open(path)
    window.run(FOCUSED)
    window.run("document.getElementById('picture').scrollIntoView({block: 'start'})")
    window.settle()
    left, top, wide, tall = box_of(window)
    yield f"it reaches out of the window: {tall}", top + tall > TALL
    middle = left + wide / 2, (max(0, top) + TALL) / 2
    place = under(window, seen(window), *middle)
    window.press("+")
    yield f"a zoom keeps {place}: {under(window, seen(window), *middle)}", near(under(window, seen(window), *middle), place)


def page(program, name, history):
    return page_inputs.page_of(program, name, json.dumps(history).encode(), ["--long"])


def written(room, made):
    path = pathlib.Path(room) / "views.html"
    path.write_text(made.written or made.joined(), encoding="utf-8")
    return path


def faults(window, room, program):
    """What is wrong with zooming and moving in Chromium: names, and whether each holds."""
    path = written(room, page(program, "folds", chain(2, 7)))
    for width, scheme in ((WIDE, "light"), (NARROW, "dark")):
        window.size(width, TALL)
        window.scheme(scheme)
        window.open(path)
        whole, box = seen(window), box_of(window)
        yield f"the picture is whole at first at {width}: {whole} in {box}", whole[:2] == [0, 0] and near(whole[2:], box[2:])
        for name, holds in (
            *button_faults(window, whole), *key_faults(window, whole), *wheel_faults(window, whole), *drag_faults(window, whole),
            *finger_faults(window, whole), *fold_faults(window), *other_faults(window, whole),
            *paper_faults(window, path.with_suffix(".pdf"), whole), *run_faults(window), *width_faults(window, WIDE + NARROW - width),
        ):  # fmt: skip
            yield f"zoom at {width}, {scheme}: {name}", holds
        yield f"zoom at {width}, {scheme}: messages {window.messages}", not window.messages
    window.scheme("light")
    path = written(room, page(program, "many lanes", chain(12, 3)))
    for name, holds in (*wide_faults(window, path), *tall_faults(window, path)):
        yield f"a large picture: {name}", holds
    yield f"a large picture: messages {window.messages}", not window.messages
