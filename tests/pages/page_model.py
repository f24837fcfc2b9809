"""What the page's script works out of histories and reports, asked by Node, beside what `explain` and a plain reading say."""

import json
import pathlib
import re
import subprocess

import page_parts
import reading
from explained import sections
from page_inputs import Page
from patterns import MemoryHistory, line_pair, link_ends

ANSWERS = pathlib.Path(__file__).resolve().parent / "page_answers.js"
MOST_SECONDS, NEAREST = 300, 6
ABOUT_PARTS = ("These operations alone", "In the whole history", "In the log")
QUOTED = re.compile(r'"((?!true"|false"|null")[A-Za-z_][\w.:/@+-]*)"')
OF_NULL_READS = re.compile(r"deleted at some time\. Which|nothing is left that it can have seen")
WITH_WRITE, HUGE = ("WriteCOInitRead", "WriteCORead"), 2**64 - 1


def asked(pages):
    """What Node answers for each page."""
    given = {"script": page_parts.pieces()["SCRIPT"], "cases": [page.texts() for page in pages]}
    done = subprocess.run(
        ["node", str(ANSWERS)], input=json.dumps(given), capture_output=True, text=True, check=False, timeout=MOST_SECONDS
    )
    if done.returncode != 0:
        raise RuntimeError(done.stderr[-2000:])
    return json.loads(done.stdout)


def plain(line):
    """A line in which names that the page shows without quotes have none."""
    return QUOTED.sub(r"\1", line)


def is_cut(lines):
    """Whether a line has a name that `explain` cut."""
    return any("\u2026" in line for line in lines)


def word_faults(page, answer):
    """Of each verdict that is drawn: whether its words are those of `explain`."""
    for (line, reason), verdict in zip(sections(page.words), answer["verdicts"]):
        due = [words for words in reason if not words.startswith(ABOUT_PARTS)]
        if verdict["words"] is None or is_cut(due) or "lost write of line" in " ".join(due):
            continue
        found = verdict["words"]
        if page.is_log():
            due, found = [plain(words) for words in due if not OF_NULL_READS.search(words)], list(map(plain, found))
        yield f"the words of {page.name}, {line}: {found} and not {due}", found == due


def number_faults(page, answer):
    """Whether each number of the history is kept exactly."""
    held = {*answer["values"], *answer["keys"]}
    for session in json.loads(page.history)[1]:
        for operation in session:
            due = {str(part) for part in operation[1:] if type(part) is int}
            if not due <= held:
                yield f"the numbers {due - held} of {page.name}", False
                return
    yield f"the numbers of {page.name}", True


def listed_faults(page, answer):
    """Whether the faults of the list are there, each as the report has it, and those of the verdicts in front."""
    tally = json.loads(page.report)[1]
    listed = tally[2] if tally else []
    own = [fault for fault in answer["faults"] if not fault["isListed"]]
    found = [fault for fault in answer["faults"] if fault["isListed"]]
    due = [[kind, *ops] for kind, *ops in listed[: len(found)]]
    told = [[fault["kind"], fault["read"], *[fault[what] for what in ("source", "missed") if fault[what]]] for fault in found]
    same = all(one[:2] == other[:2] for one, other in zip(due, told))
    yield f"the faults of {page.name}: {told} and not {due}", same and answer["many"] == len(listed) + len(own)


def is_step(known, step):
    """Whether a step is one of the history: it follows in its session, or reads from the other."""
    a, b = tuple(step["from"]), tuple(step["to"])
    if step["how"] == "next":
        return a[0] == b[0] and a[1] < b[1]
    return known.source(b) == a if step["how"] == "reads" else True


def leads(fault, begin, end):
    """Whether the steps lead from one operation to another."""
    reached = {tuple(begin)}
    edges = [(tuple(step["from"]), tuple(step["to"])) for step in fault["steps"] if step["how"] in ("next", "reads")]
    while more := {to for start, to in edges if start in reached} - reached:
        reached |= more
    return tuple(end) in reached


def step_faults(page, answer):
    """Whether each step is there, and the steps lead to the missed write and from there to the read."""
    start, sessions = reading.read_long(page.history.encode())
    known = MemoryHistory(sessions, start)
    for number, fault in enumerate(answer["faults"]):
        holds = all(is_step(known, step) for step in fault["steps"])
        if fault["kind"] in WITH_WRITE:
            holds = holds and leads(fault, fault["missed"], fault["read"])
            holds = holds and (not fault["source"] or leads(fault, fault["source"], fault["missed"]))
            holds = holds and known.write(tuple(fault["missed"])) == known.read(tuple(fault["read"]))[0]
        yield f"the steps of fault {number} of {page.name}: {fault['steps']}", holds


def cycle_of(known, kind, parts):
    """The operations of a cycle: the ends of its links, or those of the lines of a derivation that its last line joins."""
    if kind == "CyclicCO":
        return {tuple(op) for op in parts[0]}
    if kind == "CyclicCF":
        return {op for link in parts[0] for op in link_ends(known, link)}
    if kind != "CyclicHB":
        return set()
    pairs, joined, found = [], {len(parts[1]) - 1}, set()
    for line in parts[1]:
        pairs.append(line_pair(known, tuple(parts[0]), pairs, line))
    for at in reversed(range(len(pairs))):
        word, *rest = parts[1][at]
        if at in joined and word == "tr":
            joined |= set(rest)
        elif at in joined:
            found |= set(pairs[at])
    return found


def cycle_faults(page, answer):
    """Whether the operations of each cycle are marked, and no others are."""
    start, sessions = reading.read_long(page.history.encode())
    known = MemoryHistory(sessions, start)
    patterns = [shown for _, said, shown, *_ in json.loads(page.report)[0] if said == "no" and isinstance(shown, list)]
    due = {json.dumps(pattern): cycle_of(known, pattern[0], pattern[1:]) for pattern in patterns}
    found = [{tuple(op) for op in fault["cycle"]} for fault in answer["faults"] if fault["cycle"]]
    wanted = [cycle for cycle in due.values() if cycle]
    yield f"the cycles of {page.name}: {found} and not {wanted}", found == wanted


def pieces_of(link):
    """The three straight pieces of a link, each by its least and greatest place."""
    (x0, y0), (x1, y1), x = link["from"], link["to"], link["x"]
    corners = [(x0, y0), (x, y0), (x, y1), (x1, y1)]
    return [(min(a, c), min(b, d), max(a, c), max(b, d)) for (a, b), (c, d) in zip(corners, corners[1:])]


def meets(piece, box):
    """Whether a piece goes through the inside of a box."""
    left, top, right, low = box
    return piece[0] < right - 0.5 and piece[2] > left + 0.5 and piece[1] < low - 0.5 and piece[3] > top + 0.5


def plan_faults(page, answer):
    """Whether in each picture no link goes through a box, no two arrows end at one place, and all is within the picture."""
    for number, fault in enumerate(answer["faults"]):
        for plan in fault["plans"]:
            name = f"the picture of fault {number} of {page.name}, {'wide' if plan['isWide'] else 'narrow'}"
            through = [link for link in plan["links"] for piece in pieces_of(link) for box in plan["boxes"] if meets(piece, box)]
            yield f"{name}: through a box go {through}", not through
            ends = [link["to"] for link in plan["links"]]
            close = [(a, b) for at, a in enumerate(ends) for b in ends[:at] if abs(a[0] - b[0]) < NEAREST and abs(a[1] - b[1]) < NEAREST]
            yield f"{name}: arrows at one place {close}", not close
            places = [x for link in plan["links"] for x in (link["x"], link["from"][0], link["to"][0])]
            places += [side for box in plan["boxes"] for side in (box[0], box[2])]
            inside = all(0 <= x <= plan["across"] for x in places)
            yield f"{name}: all is within {plan['across']}", inside


def exact_faults():
    """Whether the greatest numbers are kept, beside texts that look like them, however the text is written."""
    history = f'[ "m\\u0065mory",\n[[["w",4294967295,{HUGE}],["w",0,9007199254740993],["r",4294967295,{HUGE - 1}]]] , [[1,{HUGE - 2}]]]'
    names = f'[[{HUGE},"{HUGE}"],["a\\"{HUGE}",{HUGE - 1}],[-9223372036854775808,"-9223372036854775808",true,"true"]]'
    yes, of_log = '[[["cc","yes",null]],null]', '["memory",[[["w",0,1],["w",2,3]],[["r",0,5],["r",2,7]]]]'
    none = ("[]", "", "", "", None)
    numbers, named = asked([Page("exact", history, yes, "null", "null", *none), Page("named", of_log, yes, names, "null", *none)])
    due = [str(HUGE), "9007199254740993", str(HUGE - 1), str(HUGE - 2), "0"]
    yield f"exact numbers: {numbers['values']}", numbers["values"] == due and numbers["keys"] == ["4294967295", "0", "1"]
    yield f"exact names: {named['sessions']}", named["sessions"] == [f"client {HUGE}", f'"{HUGE}"']
    words = [f'writes -9223372036854775808 to "a\\"{HUGE}"', f'writes "-9223372036854775808" to key {HUGE - 1}']
    words += [f'reads true from "a\\"{HUGE}"', f'reads "true" from key {HUGE - 1}']
    yield f"exact values: {named['operations']}", named["operations"] == words


def note_faults():
    """Whether each note stands by its call as the log has it: no number is rounded, and brackets and commas in texts part nothing."""
    of_log, names = '["memory",[[["w",0,1],["w",2,3],["r",0,1]],[["r",0,1]]]]', '[["a","b"],["k","l"],[1,2]]'
    texts = {1: f'{{"id":{HUGE},"id":1e999}}', 4: '"],[5,{"', 5: r'"<b>\\u003c\\\"\u0000"', 8: '[[1,2],{"a":[]}]', 9: "null"}
    notes = "[" + ",".join(f"[{line},{text}]" for line, text in texts.items()) + "]"
    page = Page("noted", of_log, '[[["cc","yes",null]],null]', names, "[[[1,4],5,7],[[8,9]]]", page_parts.in_script(notes), "", "", "", None)
    found = asked([page])[0]["notes"]
    due = [f" [note of line 1: {texts[1]}; of line 4: {texts[4]}]", f" [note of line 5: {texts[5]}]", ""]
    due.append(f" [note of line 8: {texts[8]}; of line 9: {texts[9]}]")
    yield f"notes: {found} and not {due}", found == due


def faults(pages):
    """What is wrong with what the script says of pages: names, and whether each holds."""
    yield from exact_faults()
    yield from note_faults()
    for page, answer in zip(pages, asked(pages)):
        yield from word_faults(page, answer)
        yield from number_faults(page, answer)
        yield from listed_faults(page, answer)
        if json.loads(page.history)[0] == "memory":
            yield from step_faults(page, answer)
            yield from cycle_faults(page, answer)
            yield from plan_faults(page, answer)
