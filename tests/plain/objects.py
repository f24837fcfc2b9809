"""The eight objects, written down plainly: the forms of their calls and returns, and what they answer.

A call is the list that stands for it in a history, such as ["w", 0, 1]. A return is the text "ok" of a call that answers
Done, and else the number, the truth value or None that it answered. A start is a list of entries [key, value].
"""

DONE = "ok"
UNKNOWN = "?"
MOST_KEY = 2**32 - 1
MOST_NUMBER = 2**64 - 1
MOST_ENTRIES = 4096
UPDATES = ("w", "inc", "add", "rem", "push")


def is_number(value, most=MOST_NUMBER):
    """A whole number from 0 to a greatest one; a truth value is none."""
    return type(value) is int and 0 <= value <= most


class Register:
    """To a write, Done. To a read, the last written value, or the start."""

    arguments = {"w": 1, "r": 0}

    def __init__(self, start=0):
        self.value = start

    def apply(self, word, *values):
        if word == "r":
            return self.value
        self.value = values[0]
        return DONE

    @staticmethod
    def answers(value):
        return is_number(value)


class Counter:
    """To an increment, Done. To a get, how many increments there were, at most the greatest number."""

    arguments = {"inc": 0, "get": 0}

    def __init__(self):
        self.increments = 0

    def apply(self, word):
        if word == "get":
            return min(self.increments, MOST_NUMBER)
        self.increments += 1
        return DONE

    @staticmethod
    def answers(value):
        return is_number(value)


class AddRemoveSet:
    """To an add and a remove, Done. To "has e", whether the last add or remove of e is an add."""

    arguments = {"add": 1, "rem": 1, "has": 1}

    def __init__(self):
        self.elements = set()

    def apply(self, word, element):
        if word == "has":
            return element in self.elements
        if word == "add":
            self.elements.add(element)
        else:
            self.elements.discard(element)
        return DONE

    @staticmethod
    def answers(value):
        return type(value) is bool


class Queue:
    """To a push, Done. To a pop, the oldest value that is not popped, or None."""

    arguments = {"push": 1, "pop": 0}

    def __init__(self):
        self.values = []

    def apply(self, word, *values):
        if word == "pop":
            return self.values.pop(0) if self.values else None
        self.values.append(values[0])
        return DONE

    @staticmethod
    def answers(value):
        return value is None or is_number(value)


PLAIN = {"register": Register, "counter": Counter, "set": AddRemoveSet, "queue": Queue}
KEYED = {"memory": Register, "counters": Counter, "sets": AddRemoveSet, "queues": Queue}
OBJECTS = {**PLAIN, **KEYED}


class State:
    """An object after some calls: one plain object, or one under each key."""

    def __init__(self, name, start):
        self.make = OBJECTS[name]
        self.starts = {key: self.make(value) for key, value in start}
        self.keyed = name in KEYED
        self.alone = None if self.keyed else self.make()

    def apply(self, call):
        """What the object answers to the call, which it takes in."""
        if not self.keyed:
            return self.alone.apply(*call)
        word, key, *values = call
        if key not in self.starts:
            self.starts[key] = self.make()
        return self.starts[key].apply(word, *values)


def is_call(name, value):
    """Whether the value is the form of a call of the object."""
    arguments = OBJECTS[name].arguments
    if type(value) is not list or not value or type(value[0]) is not str or value[0] not in arguments:
        return False
    word, *values = value
    if name in KEYED:
        if not values or not is_number(values[0], MOST_KEY):
            return False
        values = values[1:]
    return len(values) == arguments[word] and all(map(is_number, values))


def is_return(name, value):
    """Whether the value is the form of a return of the object."""
    return value == DONE if type(value) is str else OBJECTS[name].answers(value)


def fits(call, ret):
    """Done fits the calls that answer Done, and any other return the others."""
    return (call[0] in UPDATES) == (type(ret) is str)


def is_start(name, value, most=MOST_ENTRIES):
    """Whether the value is a table of initial values: of a memory, with rising keys, none of them 0, and so many entries at most."""
    return (
        name == "memory"
        and 1 <= len(value) <= most
        and all(type(entry) is list and len(entry) == 2 for entry in value)
        and all(is_number(key, MOST_KEY) and is_number(initial) and initial != 0 for key, initial in value)
        and all(before[0] < after[0] for before, after in zip(value, value[1:]))
    )


def operation(call, ret):
    """The form of an operation of a history."""
    return list(call) if ret == DONE else [*call, ret]


def split(name, form):
    """The call and the return of an operation of a history."""
    many = 1 + OBJECTS[name].arguments[form[0]] + (name in KEYED)
    call, rest = form[:many], form[many:]
    return call, rest[0] if rest else DONE
