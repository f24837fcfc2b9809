"""The words of command lines: those behind which, after --, stands the program to run, and those of the program's commands."""

import sys

STORES = ("causal", "lamport")
CRITERIA = ("cc", "cm", "ccv")
RANGES = {"--workers": range(1, 17), "--seals": range(9), "--stop": range(16), "--all": range(1, 1_000_001), "--every": range(1, 2**31)}
WITH_VALUE = (*RANGES, "--expect")
LENGTHS = ((), ("--long",), ("--events",), ("--events", "--long"))
SHOWN = ((), ("--json",), ("--svg",), ("--html",), ("--all",), ("--all", "--json"), ("--all", "--html"))
FORMS = (*((*form, *length) for form in SHOWN for length in LENGTHS),)
FORMS = (*(tuple(sorted(form)) for form in FORMS), ("--certificates", "--json"))
OPTIONS = {
    "judge": ("--workers", "--expect", "--long", "--events", "--every", "--why"),
    "check": ("--workers", "--why"),
    "explain": ("--json", "--certificates", "--svg", "--html", "--long", "--all", "--events", "--why"),
    "events": ("--names",),
    "refute": ("--long", "--why"),
    "replay": ("--why",),
    "drive": ("--eager", "--seals", "--workers", "--stop", "--why"),
}


def with_program(parser):
    """What the parser finds before the --, and the words behind it as `program`."""
    if "--" not in sys.argv:
        parser.error("write the program behind --")
    split = sys.argv.index("--")
    found = parser.parse_args(sys.argv[1:split])
    found.program = sys.argv[split + 1 :]
    if not found.program:
        parser.error("write the program behind --")
    return found


def number_in(text, numbers):
    """The number that a text writes in decimal digits, a plus before them or not, where it is one of these."""
    digits = text.removeprefix("+")
    if not (digits.isascii() and digits.isdigit()):
        return None
    return int(digits) if int(digits) in numbers else None


def criteria_in(text):
    """The criteria that a list names, each once, joined by commas."""
    names = text.split(",")
    return tuple(sorted(names)) if set(names) <= set(CRITERIA) and len(set(names)) == len(names) else None


def value_in(name, text):
    """The value of an option that a text writes."""
    return criteria_in(text) if name == "--expect" else number_in(text, RANGES[name])


def says_alone(word):
    """Whether one word says something to a command."""
    name, mark, text = word.partition("=")
    if mark:
        return name in WITH_VALUE and value_in(name, text) is not None
    return word in STORES or any(word in options and word not in WITH_VALUE for options in OPTIONS.values())


def names_file(words):
    """Whether one of the words after a command names a file: it is a hyphen or begins with none, says nothing else, and is no value."""
    left = list(words)
    while left:
        word = left.pop(0)
        if says_alone(word):
            continue
        if word == "-" or word and not word.startswith("-"):
            return True
        del left[:1]
    return False


def said_first(command, words):
    """What the first of the words behind a command says, its value, and the words left; none where they say nothing."""
    word, *left = words
    if command == "drive" and word in STORES:
        return "store", word, left
    if word in OPTIONS[command] and word not in WITH_VALUE:
        return word, True, left
    name, mark, text = word.partition("=")
    if not mark and left:
        text, *left = left
    if name not in WITH_VALUE or name not in OPTIONS[command]:
        return None
    value = value_in(name, text)
    return None if value is None else (name, value, left)


def is_whole(order):
    """Whether a command has all that it needs, and nothing that does not go together."""
    if order["command"] == "drive":
        return "store" in order
    if order["command"] == "judge":
        return "--events" in order or "--every" not in order
    return order["command"] != "explain" or tuple(sorted(set(order) - {"command", "--why"})) in FORMS


def reads_log(order):
    """Whether a command reads a log of events."""
    return order["command"] == "events" or "--events" in order


def order_of(words):
    """The command that words give, with what they say of it; none where they are no command line of the program."""
    if not words or words[0] not in OPTIONS:
        return None
    order, left = {"command": words[0]}, words[1:]
    while left:
        said = said_first(words[0], left)
        if said is None or said[0] in order:
            return None
        order[said[0]] = said[1]
        left = said[2]
    return order if is_whole(order) else None
