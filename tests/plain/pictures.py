"""What a picture of `explain --svg` has to hold, whatever the history.

- It is well-formed XML, and all that it draws is within its size.
- No two arrowheads are at one point, each is at a side of a box, and no edge goes through a box.
- The legend names exactly the kinds of edges and of boxes that are drawn, each once and in its words.
- Of a `no` by a pattern, what is wrong stands out: one read that says so, or two and more operations of a cycle. Elsewhere nothing does.
- Of a larger history that is shown without a pattern, at most four operations of each session are drawn and three around the marked one.
  The numbers in the gaps are those of the operations that are left out.
"""

import re
import xml.etree.ElementTree as ElementTree
from collections import Counter

SPACE = "{http://www.w3.org/2000/svg}"
EDGES = {
    "program-order": "session order: later in the same session",
    "reads-from": "reads from: a write to a read of its value",
    "conflict": "overwritten: must come before the other",
    "happened-before": "must come before, by what was read",
}
CYCLES = ("CyclicCO", "CyclicCF", "CyclicHB")
WRONG_READ, WRONG_CYCLE = "wrong: this read", "wrong: each comes before the next"
READ_WORDS = re.compile(r"missed .+, which (wrote .+ to it|deleted it)|nobody wrote this value", re.DOTALL)
TITLE = re.compile(r"\w+ no (\w+)")
GAP = re.compile(r"⋮ (\d+) left out")
STEP = re.compile(r"([MVHC])([\d ]+)")
UNFOLDED, ENDS, AROUND = 60, 4, 3
SAMPLES = 32


def curve(points):
    """Points along a curve with four control points, without its first."""
    for at in range(1, SAMPLES + 1):
        t = at / SAMPLES
        shares = ((1 - t) ** 3, 3 * t * (1 - t) ** 2, 3 * t**2 * (1 - t), t**3)
        yield tuple(sum(share * point[axis] for share, point in zip(shares, points)) for axis in (0, 1))


def line(start, end):
    """Points along a line, without its first."""
    for at in range(1, SAMPLES + 1):
        yield tuple(start[axis] + (end[axis] - start[axis]) * at / SAMPLES for axis in (0, 1))


def points_of(path):
    """Points along a path."""
    points = []
    for word, text in STEP.findall(path):
        numbers = [int(number) for number in text.split()]
        if word == "M":
            points.append(tuple(numbers))
        elif word == "C":
            points += curve([points[-1], *zip(numbers[::2], numbers[1::2])])
        else:
            x, y = points[-1]
            points += line((x, y), (numbers[0], y) if word == "H" else (x, numbers[0]))
    return points


def kind_of(edge):
    """The kind of an edge, by its arrowhead."""
    return edge.get("marker-end").removeprefix("url(#").removesuffix(")")


class Picture:
    """The parts of a picture."""

    def __init__(self, text):
        self.root = ElementTree.fromstring(text)
        self.size = (int(self.root.get("width")), int(self.root.get("height")))
        groups = {group.get("class"): group for group in self.root.iter(f"{SPACE}g")}
        self.edges = list(groups["edges"])
        self.legend = list(groups["legend"])
        self.title = self.root.findtext(f"{SPACE}title")
        self.boxes = [box for box in self.root.findall(f"{SPACE}rect") if box.get("class")]
        self.texts = [words.text or "" for words in self.root.findall(f"{SPACE}text")]
        self.gaps = [int(found[1]) for found in map(GAP.fullmatch, self.texts) if found]

    def count(self, kind):
        """How many boxes are of a kind."""
        return sum(box.get("class") == kind for box in self.boxes)


def bounds(box):
    """The left, the upper, the right and the lower edge of a box."""
    x, y, width, height = (int(box.get(name)) for name in ("x", "y", "width", "height"))
    return x, y, x + width, y + height


def edge_faults(picture):
    """What is wrong with the edges."""
    paths = [points_of(edge.get("d")) for edge in picture.edges]
    heads, boxes = Counter(path[-1] for path in paths), [bounds(box) for box in picture.boxes]
    found = [f"{many} arrowheads at {head}" for head, many in heads.items() if many > 1]
    for x, y in heads:
        if not any(x in (left, right) and top <= y <= bottom or y == top and left <= x <= right for left, top, right, bottom in boxes):
            found.append(f"the arrowhead at {x}, {y} is at no box")
    for path in paths:
        for left, top, right, bottom in boxes:
            if any(left + 1 < x < right - 1 and top + 1 < y < bottom - 1 for x, y in path):
                found.append(f"an edge goes through the box at {left}, {top}")
        if any(not (0 <= x <= picture.size[0] and 0 <= y <= picture.size[1]) for x, y in path):
            found.append("an edge leaves the picture")
    return found


def legend_faults(picture):
    """What is wrong with the legend."""
    drawn = set(map(kind_of, picture.edges))
    samples = [part for part in picture.legend if part.tag != f"{SPACE}text"]
    words = [part.text for part in picture.legend if part.tag == f"{SPACE}text"]
    named = [kind_of(part) if part.tag == f"{SPACE}path" else part.get("class") for part in samples]
    found = [] if len(words) == len(samples) else [f"the legend has {len(samples)} entries and the words {words}"]
    boxes = {box.get("class") for box in picture.boxes} - {"plain"}
    if sorted(named) != sorted(drawn | boxes):
        found.append(f"the legend names {named}, and drawn are {drawn | boxes}")
    heads = {marker.get("id") for marker in picture.root.iter(f"{SPACE}marker")}
    if heads != drawn:
        found.append(f"there are arrowheads of {heads}, and edges of {drawn}")
    return found + [f"the legend says {said!r} of {name}" for name, said in zip(named, words) if said != EDGES.get(name, said)]


def wrong_faults(picture):
    """What is wrong with what stands out as wrong."""
    kind, many = TITLE.fullmatch(picture.title), picture.count("wrong")
    if not kind or not picture.boxes:
        return [] if many == 0 else [f"{many} boxes are wrong, and the picture is of no pattern"]
    legend = [part.text for part in picture.legend if part.tag == f"{SPACE}text"][:1]
    if kind[1] in CYCLES:
        told = picture.texts.count("in the cycle")
        return [] if many == told > 1 and legend == [WRONG_CYCLE] else [f"{many} operations are wrong, {told} say so, the legend {legend}"]
    told = sum(bool(READ_WORDS.fullmatch(text)) for text in picture.texts)
    return [] if many == told == 1 and legend == [WRONG_READ] else [f"{many} reads are wrong, {told} say so, the legend {legend}"]


def folding_faults(picture, sessions):
    """What is wrong with how many operations of a history are drawn, all of whose sessions are shown."""
    shown, all_of_them = len(picture.boxes), sum(map(len, sessions))
    found = [] if shown + sum(picture.gaps) == all_of_them else [f"{shown} operations and gaps of {picture.gaps}, due {all_of_them}"]
    most = all_of_them if all_of_them <= UNFOLDED else ENDS * len(sessions) + AROUND + len(sessions)
    return found if shown <= most else [*found, f"{shown} operations are drawn, at most {most} are due"]


def faults_of(text, sessions=None):
    """What is wrong with a picture, of these sessions where they are known."""
    if not (text.startswith("<svg") and text.endswith("</svg>\n")):
        return [f"no picture: {text[:40]!r}"]
    try:
        picture = Picture(text)
    except (ElementTree.ParseError, KeyError) as error:
        return [f"no picture: {error!r} in {text[:400]!r}"]
    found = edge_faults(picture) + legend_faults(picture) + wrong_faults(picture)
    if sessions is not None and not TITLE.fullmatch(picture.title):
        found += folding_faults(picture, sessions)
    return [f"the picture: {fault}" for fault in found]
