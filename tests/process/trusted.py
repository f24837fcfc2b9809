"""Finds the definitions on which each promise rests, and compares them with docs/trusted.md.

    python3 tests/process/trusted.py [--write] [--show PROMISE]

A promise is a contract, or some of its clauses. From the words of its clauses, and of the models of the types in their files, the script
goes to the definitions in crates/*/specs that these words import, and from each definition to those that it names. It counts the lines of
these definitions, without comments, imports and blank lines. Of a definition that is stated case by case, a promise on one command counts
the lines of that command alone.

`--write` writes the made parts of the page anew. What a file states is kept from the page, and comes from the file's first comment where
the page lacks it. `--show` prints the definitions of a promise by its key. Ends with `N passed, M failed`.
"""

import argparse
import functools
import pathlib
import re
import textwrap
from typing import NamedTuple

import folders  # noqa: F401
from counting import end_after

ROOT = pathlib.Path(__file__).resolve().parents[2]
PAGE = ROOT / "docs" / "trusted.md"
CRATES = [line.split(":")[0].split()[0] for line in (ROOT / "crates.txt").read_text(encoding="utf-8").splitlines()]
BEGIN, END = "<!-- made by tests/process/trusted.py -->", "<!-- end -->"
WIDTH = 150
MARKS = {"abbrev", "unfoldable", "pub", "record", "data"}


class Promise(NamedTuple):
    """A promise: its key, what it is, the functions whose clauses state it, and the cases that it is on.

    The functions are `crate::file name name ..`, where `*` stands for all of a file, and `name/clause/clause` for some clauses of one.
    A case is `Type.Variant`. Without a case of a type all of them count.
    """

    key: str
    name: str
    functions: tuple
    cases: str = ""


RUN, FOLLOW = "app_engine::running run", "app_logs::following follow_log"
INPUT = f"{RUN}/answered/end/unwritten/failed"
LOG = f"{FOLLOW}/followed/unwritten/first_cuts/error"
MEMORY, LOGGED = "Order.Judge AnyHistory.Memory", "LogOrder.Judge AnyHistory.Memory Length.Any"

JUDGE, LOGS = ("judge", "judge-refused"), ("log", "log-refused")

PROMISES = (
    Promise(
        "judge",
        "`judge` of a memory: its lines",
        (f"{RUN}/memory/end/unwritten",),
        MEMORY,
    ),
    Promise(
        "judge-refused",
        "`judge` of a memory: what is refused",
        (f"{RUN}/failed", "app_engine::laws answered_input_is_not_refused input_is_refused_in_one_way too_long_input_is_refused_as_such"),
        MEMORY,
    ),
    Promise(
        "log",
        "`judge` of a log: its lines",
        (f"{FOLLOW}/followed/unwritten/first_cuts/refused", "app_logs::laws distinct_values_are_decided"),
        LOGGED,
    ),
    Promise("log-refused", "`judge` of a log: what is refused", (f"{FOLLOW}/error", "log_reader::laws texts_have_one_log"), LOGGED),
    Promise("objects", "`judge` of any object", (INPUT,), "Order.Judge"),
    Promise("lines", "`judge --lines`", ("app_engine::line_judge judge_lines", INPUT), "Order.JudgeLines"),
    Promise("check", "`check`", (INPUT,), "Order.Check"),
    Promise("refute", "`refute`", (INPUT,), "Order.Refute"),
    Promise("explain", "`explain`", (INPUT, LOG, "show_pictures::laws *"), "Order.Explain Order.ExplainLong LogOrder.Explain"),
    Promise("all", "`explain --all`", (INPUT, LOG, "show_faults::finding find_faults"), "Order.ListFaults LogOrder.ListFaults"),
    Promise(
        "html",
        "`explain --html`",
        (
            "app_pages::inputs page_of_input/written/end/failed/unwritten",
            "app_pages::logs page_of_log/written/met/end/failed/unwritten",
            "show_page::pages page_of said_of",
            "show_page::laws *",
        ),
        "Order.Explain Order.ExplainLong Order.ListFaults LogOrder.Explain LogOrder.ListFaults LogOrder.WriteHistory LogOrder.WriteNames"
        " LogOrder.WriteNotes",
    ),
    Promise("events", "`events`", (LOG,), "LogOrder.WriteHistory LogOrder.WriteNames LogOrder.WriteNotes"),
    Promise("replay", "`replay`", (INPUT, "live_script::replaying replay", "live_script::reader read_script"), "Order.Replay"),
    Promise("drive", "`drive`", (INPUT, "app_engine::driving drive_with", "live_driver::driving drive"), "Order.Drive"),
    Promise("words", "the words of a command line", ("app_command_line::command command_of",)),
    Promise(
        "errors",
        "statuses, lines of errors, `--why`",
        ("app_engine::failure status_of fault_line", "app_logs::failure status_of_error error_lines", "show_refusals::reason reason_for"),
    ),
    Promise("process", "the process: its output, what it says beside, its status", ("app_process::program status_of_words",)),
    Promise(
        "reads",
        "how often an input is read",
        (f"{RUN}/calls/fault", "app_pages::logs page_of_log/calls/fault", "app_engine::laws calls_are_counted long_calls_are_bounded"),
    ),
    Promise(
        "c",
        "the calls from C",
        ("causal_judge_library::lib *",),
        "Order.Judge Order.Check Order.Explain Order.Refute Length.Limited",
    ),
    Promise("run", "all that `app_engine::run` states", (RUN,)),
    Promise("follow", "all that `app_logs::follow_log` states", (FOLLOW,)),
    Promise(
        "texts",
        "texts that are read and written",
        (
            "json_histories::reader read_history write_history",
            "json_histories::laws *",
            "json_bounded::read read_bounded",
            "judge_reader::reader read_long",
            "cert_check::reading read_certificate",
            "pattern_json::claim read_claim read_violation",
            "pattern_json::writing_patterns pattern_value",
            "log_reader::event_reader read",
            "log_reader::laws *",
        ),
    ),
    Promise(
        "findings",
        "what is found of a history",
        (
            "app_findings::of_any report_on findings_of",
            "app_findings::of_long report_on_long",
            "app_findings::of_memory findings_of_memory",
            "app_logs::judging report_on_log",
            "app_logs::logged_run read answer",
            "app_judging::judging judge judge_with",
            "app_memory_judge::main decisions_of",
        ),
    ),
    Promise(
        "certificates",
        "certificates, and how they are made",
        (
            "cert_check::checking check_piece first_unexplained",
            "cert_check::laws *",
            "cert_make::by_advice make_by_advice",
            "cert_make::by_program_order make_by_program_order",
            "cert_make_cc::laws *",
            "cert_make_ccv::laws *",
            "cert_make_cm::laws *",
        ),
    ),
    Promise(
        "patterns",
        "patterns and decisions",
        (
            "pattern_check::checking check_pattern",
            "pattern_check::laws *",
            "pattern_search::finding find",
            "judge_patterns::checking check_long_pattern is_shown_in_long",
            "judge_decision::deciding_limited decide",
            "judge_decision::laws *",
            "order_memory::laws *",
        ),
    ),
    Promise(
        "parts",
        "parts and cores of histories",
        (
            "cert_subhistories::laws *",
            "judge_subhistories::cores core_of core_text",
            "judge_subhistories::without_variables excluded_without",
            "judge_cores::finding core_of_kind",
        ),
    ),
    Promise("log-laws", "laws on logs", ("log_events::laws *", "log_events::event_log push history origins left_out")),
    Promise("recorder", "recorders", ("live_recorder::session begin finish", "live_recorder::lanes new_recorder start")),
    Promise(
        "seals",
        "seals",
        (
            "live_seals::sealing seal sealed",
            "live_seals::meeting meet",
            "live_seals::walking walk",
            "live_seals::sealed advice",
            "live_cut_plan::cut_plan next give",
            "live_seals::laws *",
        ),
    ),
    Promise(
        "desks",
        "boards and desks",
        ("live_case_board::board file take put refute ask", "live_case_board::laws *", "live_case_desk::desk file take put refute ask"),
    ),
    Promise(
        "world",
        "runs of sessions, sealers, cases and verdicts",
        ("live_simulation::world run", "live_simulation::recording begin end start look show", "live_simulation::laws *"),
    ),
    Promise(
        "stores",
        "replicas and the two stores",
        ("live_replica::replica act receive delivered", "live_causal_store::order delivered", "live_lamport_store::order delivered"),
    ),
)
# The definition that says which operation an `unknown` of `judge` names.
UNKNOWN = "EachNamesUnexplained"
# The promises on commands come first, up to the one on all orders on a log.
COMMANDS = tuple(promise.key for promise in PROMISES[: 1 + [promise.key for promise in PROMISES].index("follow")])


# ---- Reading files


@functools.cache
def plain(line):
    """A line of antt without its strings and comments."""
    return re.sub(r"(^|\s)--(\s.*)?$", "", re.sub(r'"(?:[^"\\]|\\.)*"', " ", line)).rstrip()


def words_of(text):
    return re.findall(r"[^\s(){},;]+", text)


class Scope:
    """What a file imports: names, each with its module and its name there, and modules by the names that they have here."""

    def __init__(self):
        self.names, self.modules, self.passed_on, self.found = {}, {}, {}, {}

    def take_use(self, line):
        """Takes an import, and says whether the line is one."""
        found = re.match(r"((?:pub |ghost )*)use ([\w.]+?)(?:\.\{(.*)\}| as (\w+))?;?$", line.strip())
        if not found:
            return False
        marks, module, names, other = found.groups()
        if names is None:
            self.modules[other or module.split(".")[-1]] = module
        for part in (names or "").split(","):
            name, _, here = part.strip().partition(" as ")
            if name:
                self.names[here or name] = (module, name)
                self.passed_on |= {here or name: (module, name)} if "pub" in marks else {}
        return True

    def named_in(self, text, own=()):
        """The names that a text uses, each with what it is here: a module and a name, or None for a name of the file itself."""
        key = (text, bool(own))
        if key not in self.found:
            self.found[key] = self.found_in(text, own)
        return self.found[key]

    def found_in(self, text, own):
        """The same, read anew."""
        words = [word.lstrip("λ") for word in words_of(text)]
        found = set()
        for name in (*self.names, *own):
            parts = [part for part in name.split("◌") if part]
            if "◌" in name and all(part in words for part in parts):
                found.add((name, self.names.get(name)))
        for word in words:
            first, _, rest = word.partition(".")
            if word in self.names or word in own:
                found.add((word, self.names.get(word)))
            elif rest and first in self.modules:
                found.add((word, (self.modules[first], rest.split(".")[0])))
            elif first in self.names or first in own:
                found.add((first, self.names.get(first)))
        return found


class Definition:
    """A definition of a file: its name, its marks, the heads of the sections around it and its own lines, by their numbers."""

    def __init__(self, module, name, marks, sections):
        self.module, self.name, self.marks, self.sections, self.lines = module, name, marks, sections, []

    @functools.cached_property
    def pieces(self):
        """Its signature, and each of its equations: numbers of lines, with their text."""
        found = []
        for at in self.lines:
            text = plain(self.module.text[at])
            words = [word for word in text.split() if word not in MARKS]
            if words[0] == self.name and len(text) - len(text.lstrip()) == 2 * len(self.sections):
                found.append(([], []))
            found[-1][0].append(at)
            found[-1][1].append(text)
        return [(lines, " ".join(texts)) for lines, texts in found]


class Module:
    """A file of definitions."""

    def __init__(self, path, file):
        self.path, self.file, self.scope, self.definitions = path, file, Scope(), {}
        self.text = file.read_text(encoding="utf-8").splitlines()
        sections, here = [], None
        for at, line in enumerate(self.text):
            text = plain(line)
            if not text or self.scope.take_use(text) or re.match(r"(pub )?mod ", text):
                continue
            indent = len(text) - len(text.lstrip())
            if text.strip()[0] not in "})":
                sections = sections[: indent // 2]
            if re.match(r"\s*(module _ .*where|(abbrev )?mutual)$", text):
                sections, here = [*sections, at], None
            else:
                here = self.take_line(at, text, indent, sections, here)

    def take_line(self, at, text, indent, sections, here):
        """Takes a line of a definition, and says of which."""
        if indent == 2 * len(sections) and text.strip()[0] not in "})":
            words = text.split()
            marks = {word for word in words if word in MARKS}
            name = next(word for word in words if word not in MARKS)
            here = self.definitions.setdefault(name, Definition(self, name, marks, tuple(sections)))
        here.lines.append(at)
        return here

    def states(self):
        """The first sentence of its first comment."""
        lines = []
        for line in self.text:
            if not line.startswith("-- "):
                break
            lines.append(line[3:])
        sentence = re.split(r"[.:](?:\s|$)| \(", " ".join(lines))[0]
        return sentence[:1].lower() + sentence[1:] if sentence[1:2].islower() or sentence[1:2] == " " else sentence

    def title(self):
        return f"{self.path.split('.')[1]}/{'/'.join(self.path.split('.')[3:])}"


MODULES = {}


def module_at(path):
    """The file of a module of this repository, or None."""
    if path not in MODULES:
        _, crate, _, *rest = path.split(".")
        file = ROOT / "crates" / crate / "specs" / ("/".join(rest) + ".antt")
        MODULES[path] = Module(path, file) if file.is_file() else None
    return MODULES[path]


# ---- What a definition names


def is_ours(path):
    return path.split(".")[1] in CRATES


def is_constructor(meaning):
    """Whether a name is that of a constructor, which a pattern does not bind: of a Rust type, of the kit, or of a `data` here."""
    path, name = meaning
    module = None if ".declared." in path or not is_ours(path) else module_at(path)
    return module is None or name not in module.definitions


def is_kept(head, scope, cases):
    """Whether a promise on some cases counts an equation with this head."""
    for _, meaning in scope.named_in(head):
        if meaning and meaning[0].endswith(".TheVariants"):
            kind = meaning[0].split(".")[-2]
            if kind in cases and meaning[1] not in cases[kind]:
                return False
    return True


@functools.cache
def bound_in(text):
    """The variables that a text binds by λ or with a type."""
    found = set()
    for names in re.findall(r"[({]\s*([^(){}:;,→×≡]+?)\s*:\s", text) + re.findall(r"λ\s*([^.()]*?)\.", text):
        found |= set(names.split())
    return found


def scoped_texts(definition, cases):
    """What of a definition counts: numbers of lines and their text, with the variables that hide names there."""
    scope, own = definition.module.scope, definition.module.definitions
    for place, (lines, text) in enumerate(definition.pieces):
        if place == 0 and "record" in definition.marks:
            fields = set()
            for part in re.split(r"(?=\bpub \S+ :)", text.split("record", 1)[1]):
                field = re.match(r"pub (\S+) :", part)
                fields |= {field[1]} if field else set()
                yield lines, part, fields | bound_in(part)
        elif place == 0:
            yield lines, text, bound_in(text)
        elif is_kept(head := text.partition(" = ")[0], scope, cases):
            named = scope.named_in(head.split(None, 1)[1] if " " in head.strip() else "", own)
            variables = {name for name, meaning in named if not is_constructor(meaning or (definition.module.path, name))}
            yield lines, text, variables | bound_in(text)


def named_by(definition, cases):
    """The lines of a definition that count, and what they name: modules and names."""
    module, lines, named = definition.module, set(), set()
    texts = [*scoped_texts(definition, cases), *(([at], plain(module.text[at]), set()) for at in definition.sections)]
    for numbers, text, hidden in texts:
        lines |= {(module.path, at) for at in numbers}
        for name, meaning in module.scope.named_in(text, module.definitions):
            if name not in hidden and name != definition.name:
                named.add(meaning or (module.path, name))
    return lines, named


class Reached:
    """What is reached from some names: definitions and their lines, types and constants of the code, the kit's words, and names that lead nowhere."""

    def __init__(self, names, cases, without=""):
        self.without = without
        self.definitions, self.lines, self.types, self.kit, self.lost = set(), set(), set(), set(), set()
        seen, waiting = set(), list(names)
        while waiting:
            name = waiting.pop()
            if name not in seen:
                seen.add(name)
                waiting += self.take(name, cases)

    def take(self, name, cases):
        """Takes a name, and gives those that it leads to."""
        path, word = name
        if word == self.without:
            return ()
        if not is_ours(path):
            self.kit.add((path.split(".")[1], word))
        elif ".declared." in path:
            self.types.add(path.removesuffix(".TheVariants"))
        elif definition := definition_of(path, word):
            lines, named = named_by(definition, cases)
            self.definitions.add((definition.module.path, definition.name))
            self.lines |= lines
            return named
        elif (module := module_at(path)) and word in module.scope.passed_on:
            return {module.scope.passed_on[word]}
        else:
            self.lost.add(name)
        return ()


def definition_of(path, word):
    """The definition of a word of a module, or of the type whose constructor it is; or None."""
    module = module_at(path) or module_at(path.rpartition(".")[0])
    if module is None:
        return None
    constructors = (it for it in module.definitions.values() if "data" in it.marks and f" {word} :" in " ".join(text for _, text in it.pieces))
    return module.definitions.get(word) or next(constructors, None)


# ---- The clauses of functions


def clauses_of(lines, at):
    """The clauses of the function whose signature begins at a line: their names and texts."""
    found = []
    for line in lines[at:]:
        text = line.strip()
        if text in ("{", "{}") or (text.endswith(("{", ";")) and not found and line != lines[at]):
            break
        clause = re.match(r"(?:requires|ensures)\*? (\w*)", text)
        if clause:
            found.append([clause[1], text])
        elif found:
            found[-1][1] += " " + text
    return found


def functions_in(file):
    """The functions of a file: the name of each and the number of its line."""
    for at, line in enumerate(file):
        found = re.match(r"\s*(?:pub(?:\(crate\))? )?(?:extern \"C\" )?fn (\w+)", line)
        if found:
            yield found[1], at


def stated(functions):
    """What is named by the clauses of some functions, and by the models of types in their files; and which were not found once."""
    found, missing = set(), []
    for group in functions:
        place, *wanted = group.split()
        crate, stem = place.split("::")
        files = list((ROOT / "crates" / crate / "src").rglob(f"{stem}.rt"))
        lines = files[0].read_text(encoding="utf-8").splitlines() if len(files) == 1 else []
        scope = Scope()
        for line in lines:
            if line.strip().startswith("ghost use "):
                scope.take_use(line)
        models = re.findall(r"^ *ghost (?:Value|view) = \{.*?\};$", "\n".join(lines), flags=re.M | re.S)
        found |= {meaning for text in models for _, meaning in scope.named_in(text)}
        for want in wanted:
            name, *clauses = want.split("/")
            there = [at for function, at in functions_in(lines) if name in ("*", function)]
            texts = [text for at in there for clause, text in clauses_of(lines, at) if not clauses or clause in clauses]
            missing += [f"{place}::{want}"] if not texts or (name != "*" and len(there) != 1) else []
            found |= {meaning for text in texts for _, meaning in scope.named_in(text)}
    return found, missing


def reached_by(promise, without=""):
    """What a promise reaches, also where a definition is left out, and the functions that were not found."""
    cases = {}
    for case in promise.cases.split():
        kind, variant = case.split(".")
        cases.setdefault(kind, set()).add(variant)
    names, missing = stated(promise.functions)
    return Reached(names, cases, without), missing


# ---- The page


class Found:
    """What each promise reaches, by its key, and the functions that were not found."""

    def __init__(self):
        self.reached, self.missing = {}, {}
        for promise in PROMISES:
            self.reached[promise.key], self.missing[promise.key] = reached_by(promise)

    def lines(self, keys):
        """How many lines some promises need of each file, in the order of crates.txt."""
        paths = [path for path, _ in set().union(*(self.reached[key].lines for key in keys))]
        return {path: paths.count(path) for path in sorted(set(paths), key=lambda path: (CRATES.index(path.split(".")[1]), path))}

    def size(self, *keys):
        """How many definitions and lines some promises need."""
        definitions = set().union(*(self.reached[key].definitions for key in keys))
        return f"{len(definitions)} definitions of {sum(self.lines(keys).values()):,} lines"


def head(found):
    """How much `judge` of a memory and of a log rests on."""
    texts = []
    for what, keys, whole, contract in (("memory", JUDGE, "run", "app_engine::run"), ("log", LOGS, "follow", "app_logs::follow_log")):
        promise = next(promise for promise in PROMISES if promise.key == keys[0])
        named = len(found.reached[keys[0]].lines - reached_by(promise, UNKNOWN)[0].lines)
        only = f", of which {named} say only which operation an `unknown` names" if named else ""
        texts.append(
            f"- `judge` of a {what}: {found.size(keys[0])}{only}; with what is refused, {found.size(*keys)}."
            f" `{contract}` states all orders in one contract, which takes {found.size(whole)}."
        )
    return "\n".join(textwrap.fill(text, WIDTH, subsequent_indent="  ") for text in texts)


def kit_words(found):
    """The kit's words that the lines of `judge` need, crate by crate."""
    words = found.reached["judge"].kit | found.reached["log"].kit
    texts = []
    for crate in sorted({crate for crate, _ in words}):
        names = sorted(word for other, word in words if other == crate)
        text = f"- `{crate}`: {', '.join(f'`{name}`' for name in names)}"
        texts.append(textwrap.fill(text, WIDTH, subsequent_indent="  ", break_on_hyphens=False))
    return "\n".join(texts)


def counts(found):
    """How much each promise rests on."""
    rows = []
    for promise in PROMISES:
        reached = found.reached[promise.key]
        rows.append(f"| `{promise.key}` | {promise.name} | {len(reached.definitions)} | {len(reached.lines)} | {len(reached.types)} |")
    return "\n".join(["| key | promise | definitions | lines | types of the code |", "|---|---|---|---|---|", *rows])


def files(found, kept):
    """The files that `judge` needs, those that other commands need, and those that only calls of the libraries need."""
    memory, log, commands, everything = (found.lines(keys) for keys in (JUDGE, LOGS, COMMANDS, found.reached))
    others = [path for path in commands if path not in memory and path not in log]
    rows = []
    for path in commands:
        if path not in others:
            numbers = " | ".join(str(lines.get(path, "")) for lines in (memory, log, everything))
            rows.append(f"| `{module_at(path).title()}` | {states(path, kept)} | {numbers} |")
    return "\n".join(
        (
            *("### For `judge` of a memory and of a log", "", "| file | what it states | memory | log | all |", "|---|---|---|---|---|", *rows, ""),
            *("### For the other commands", "", *by_crate(others, everything, kept), ""),
            *("### For calls of the libraries", "", *by_crate([path for path in everything if path not in commands], everything, kept)),
        )
    )


def by_crate(paths, lines, kept):
    """A row for each crate: its files, what each states, and how many of its lines count."""
    found = {}
    for path in paths:
        crate, _, name = module_at(path).title().partition("/")
        found.setdefault(crate, []).append(f"`{name}`: {states(path, kept)} ({lines[path]})")
    rows = [f"| `{crate}` | {'; '.join(cells)} |" for crate, cells in found.items()]
    return ["| crate | its files, what they state, and their lines |", "|---|---|", *rows]


def states(path, kept):
    """What a file states: what the page says, or else the file."""
    return kept.get(module_at(path).title()) or module_at(path).states()


def states_kept(text):
    """What the page says of each file."""
    kept = dict(re.findall(r"^\| `([a-z_]+/[\w/]+)` \| (.+?) \| [\d |]*\|$", text, flags=re.M))
    for crate, cell in re.findall(r"^\| `([a-z_]+)` \| (`\w.*\)) \|$", text, flags=re.M):
        kept |= {f"{crate}/{name}": words for name, words in re.findall(r"`([\w/]+)`: (.+?) \(\d+\)(?:; |$)", cell)}
    return kept


def page_with(text, found):
    """The page with its made parts written anew."""
    made = iter((head(found), kit_words(found), counts(found), files(found, states_kept(text))))
    return re.sub(rf"{re.escape(BEGIN)}\n.*?{re.escape(END)}", lambda _: f"{BEGIN}\n\n{next(made)}\n\n{END}", text, flags=re.S)


def show(reached):
    """Prints the lines of definitions, with the comments before them."""
    for path in sorted({path for path, _ in reached.lines}, key=lambda path: (CRATES.index(path.split(".")[1]), path)):
        module = module_at(path)
        firsts = {it.lines[0] for it in module.definitions.values() if (path, it.name) in reached.definitions}
        print(f"---- {module.title()}")
        for at, line in enumerate(module.text):
            if at in firsts:
                first = at
                while module.text[first - 1].strip().startswith("--"):
                    first -= 1
                print("", *module.text[first:at], sep="\n")
            if (path, at) in reached.lines:
                print(line)
        print()


def cases(found, text):
    """What has to hold, each with a name."""
    for key, reached in found.reached.items():
        yield f"the functions that state {key} are found: {' '.join(found.missing[key])}", not found.missing[key]
        yield f"each word of {key} leads to its definition: {sorted(reached.lost)}", not reached.lost
    yield "docs/trusted.md is as the definitions have it (--write writes it anew)", page_with(text, found) == text


def main():
    words = argparse.ArgumentParser(description=__doc__.split("\n", maxsplit=1)[0])
    words.add_argument("--write", action="store_true", help="write the made parts of the page anew")
    words.add_argument("--show", metavar="PROMISE", choices=[promise.key for promise in PROMISES], help="print the definitions of a promise")
    given, found, text = words.parse_args(), Found(), PAGE.read_text(encoding="utf-8")
    if given.show:
        show(found.reached[given.show])
        return
    if given.write:
        text = page_with(text, found)
        PAGE.write_text(text, encoding="utf-8")
    end_after(cases(found, text))


if __name__ == "__main__":
    main()
