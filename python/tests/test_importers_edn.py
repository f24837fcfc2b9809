"""Tests the reader of EDN: each form, its spelling, what is refused and where, and that a text is read piece by piece."""

import io
import itertools
import math
import random
import unittest
from fractions import Fraction

from causal_judge.importers.edn import MOST_DEPTH, forms
from causal_judge.importers.edn_forms import Character, Exact, Keyword, List, Map, Set, Symbol, Tagged, text_of
from causal_judge.importers.scanning import PIECE, FormatError
from support import many
from test_importers_support import Endless

FORMS = (
    ("nil", None),
    ("true", True),
    ("false", False),
    ("0", 0),
    ("-17", -17),
    ("+5", 5),
    ("42N", 42),
    ("18446744073709551616", 2**64),
    ("0x1f", 31),
    ("1/2", Fraction(1, 2)),
    ("-6/3", -2),
    ("1.5", 1.5),
    ("-2.50", -2.5),
    ("1e3", 1000.0),
    ("1.", 1.0),
    ("6.02E23", 6.02e23),
    ("1e999", math.inf),
    ("##Inf", math.inf),
    ("##-Inf", -math.inf),
    ("1.50M", Exact(15, -1)),
    ("100M", Exact(1, 2)),
    ("-1.5e-3M", Exact(-15, -4)),
    ("0.00M", Exact(0, 0)),
    ('""', ""),
    ('"a b, c;"', "a b, c;"),
    (r'"\t\r\n\\\"\b\f"', '\t\r\n\\"\b\f'),
    (r'"\u00e9\101\7x"', "éA\x07x"),
    (r'"\ud83d\ude00 😀"', "😀 😀"),
    ('"two\nlines"', "two\nlines"),
    (r"\a", Character("a")),
    (r"\newline", Character("\n")),
    (r"\space", Character(" ")),
    (r"\u2713", Character("✓")),
    (r"\o101", Character("A")),
    (r"\(", Character("(")),
    (r"\\", Character("\\")),
    (":ok", Keyword("ok")),
    (":a.b/c-d?", Keyword("a.b/c-d?")),
    ("+", Symbol("+")),
    ("-", Symbol("-")),
    ("/", Symbol("/")),
    ("clojure.core$fn__12/doInvoke", Symbol("clojure.core$fn__12/doInvoke")),
    ("truely", Symbol("truely")),
    ("[]", ()),
    ("[1 [2,3],, nil]", (1, (2, 3), None)),
    ("()", List(())),
    ("(1 :a)", List((1, Keyword("a")))),
    ("#{1 :a}", Set((1, Keyword("a")))),
    ("{}", Map(())),
    ("{:a 1, 2 [3]}", Map(((Keyword("a"), 1), (2, (3,))))),
    ("{1 :a true :b 1.0 :c}", Map(((1, Keyword("a")), (True, Keyword("b")), (1.0, Keyword("c"))))),
    ('#inst "2020"', Tagged("inst", "2020")),
    ("#jepsen.history.Op{:index 0}", Tagged("jepsen.history.Op", Map(((Keyword("index"), 0),)))),
    ("#a #b 1", Tagged("a", Tagged("b", 1))),
    ("#:a{:x 1 :b/y 2 :_/z 3 s 4 5 6}", Map(tuple(zip(map(Keyword, ("a/x", "b/y", "z")), (1, 2, 3))) + ((Symbol("a/s"), 4), (5, 6)))),
    ("; a comment\n 7 ; another", 7),
    ("#_ 1 2", 2),
    ("#_ #_ 1 2 3", 3),
    ("#_ [1 {:a :b}] 4", 4),
    ("[1 #_2 3 #_ 4]", (1, 3)),
    ("#a #_ 1 2", Tagged("a", 2)),
)

SPELLINGS = (
    ("nil", "nil"),
    ("[true false]", "[true false]"),
    ("+5", "5"),
    ("5N", "5"),
    ("(1 2)", "[1 2]"),
    ("[ 1,2 ]", "[1 2]"),
    ("{:b 1, :a 2}", "{:a 2, :b 1}"),
    ("#{3 1 2}", "#{1 2 3}"),
    ("1.50", "1.5"),
    ("-0.0", "0.0"),
    ("[##Inf ##-Inf ##NaN]", "[##Inf ##-Inf ##NaN]"),
    ("[1.0M 1M 0.5M 0M]", "[1M 1M 5E-1M 0M]"),
    ("2/4", "1/2"),
    (r'"a\u0022\n\\"', r'"a\"\n\\"'),
    (r"[\a \newline \u0020 \o101]", r"[\a \newline \space \A]"),
    ('#inst   "2020"', '#inst "2020"'),
    ("sym/bol", "sym/bol"),
)

REFUSED = (
    ("\n\n)", 3, "no form begins with"),
    ("[1\n2)", 2, "no form begins with"),
    ("1\n{:a [1\n2}", 3, "no form begins with"),
    ("\n[1\n2", 2, "never closed"),
    ("\n#{1", 2, "never closed"),
    ('1\n"abc\n', 2, "string .* never closed"),
    ('"abc\\"', 1, "string .* never closed"),
    ('"abc\\', 1, "string .* never closed"),
    ('"\\q"', 1, "escape"),
    ('"\\u12"', 1, "escape"),
    (r'"\ud83d"', 1, "surrogate"),
    (r'"\ude00\ud83d"', 1, "surrogate"),
    (r"\ud83d", 1, "surrogate"),
    ("\\", 1, "no character"),
    (r"\nothing", 1, "no character"),
    ("01", 1, "no number"),
    ("007N", 1, "no number"),
    ("1x", 1, "no number"),
    ("1/0", 1, "no number"),
    ("1.2.3", 1, "no number"),
    ("-1-", 1, "no number"),
    ("9" * 1001, 1, "1,000 digits"),
    (":", 1, "no name"),
    ("#", 1, "no tag"),
    ("#'a", 1, "no tag"),
    ("#:", 1, "no tag"),
    ('#"a"', 1, "no tag"),
    ("##Nan", 1, "no tag"),
    ("\n#a", 2, "no form follows"),
    ("[#a]", 1, "no form begins with"),
    ("#:a [1]", 1, "no map"),
    ("#_", 1, "no form follows"),
    ("[1 #_]", 1, "no form begins with"),
    ("{:a}", 1, "no value"),
    ("{:a 1 :a 2}", 1, "twice"),
    ("#{1 1}", 1, "twice"),
    ("#{[1] (1)}", 1, "twice"),
    ("'a", 1, "no form begins with"),
    ("^a b", 1, "no form begins with"),
    ("@a", 1, "no form begins with"),
    ("`a", 1, "no form begins with"),
)


class Drop(io.TextIOBase):
    """A text of which a read gives one character."""

    def __init__(self, text):
        self.letters = iter(text)

    def read(self, size=-1):
        return next(self.letters, "")


def random_form(rng, depth):
    """A form with so many others in one another at most."""
    kind = rng.randrange(11 if depth else 6)
    if kind < 6:
        text = "".join(rng.choice("ab \"\\\n;[#é😀") for _ in range(rng.randrange(5)))
        number = rng.choice((rng.randrange(-(2**70), 2**70), rng.random(), Fraction(rng.randrange(9), 7), math.inf))
        return rng.choice((None, True, number, text, Keyword("k/é"), Symbol("a.b$c"), Character(rng.choice("x\n\\(é ")), Exact(-15, 3)))
    items = tuple(random_form(rng, depth - 1) for _ in range(rng.randrange(4)))
    different = tuple({text_of(item): item for item in items}.values())
    return (items, List(items), Set(different), Map(tuple(zip(different, items))), Tagged("a/b", items))[kind - 6]


def read_all(text, **how):
    return [form for _, form in forms(io.StringIO(text), **how)]


class Forms(unittest.TestCase):
    def test_each_form(self):
        for text, form in FORMS:
            with self.subTest(text=text):
                self.assertEqual(repr(read_all(text)), repr([form]))
                self.assertEqual(repr(read_all(f"[{text}\n]")), repr([(form,)]))

    def test_no_number(self):
        self.assertTrue(math.isnan(read_all("##NaN")[0]))

    def test_letter_by_letter(self):
        for text, form in FORMS:
            with self.subTest(text=text):
                self.assertEqual(repr([found for _, found in forms(Drop(text))]), repr([form]))

    def test_one_after_the_other(self):
        texts, wanted = zip(*FORMS)
        self.assertEqual(repr(read_all("\n".join(texts))), repr(list(wanted)))
        self.assertEqual(read_all("1[2](3){}\"4\"#{5}:a"), [1, (2,), List((3,)), Map(()), "4", Set((5,)), Keyword("a")])
        self.assertEqual(read_all(" ,\n; nothing"), [])

    def test_spelling(self):
        for text, spelling in SPELLINGS:
            with self.subTest(text=text):
                self.assertEqual(list(map(text_of, read_all(text))), [spelling])

    def test_a_spelling_is_read_as_itself(self):
        for text, form in FORMS:
            with self.subTest(text=text):
                spelling = text_of(form)
                self.assertEqual(list(map(text_of, read_all(spelling))), [spelling])

    def test_random_forms(self):
        rng = random.Random(5)
        for _ in range(many(300, 20_000)):
            spelling = text_of(random_form(rng, 4))
            with self.subTest(spelling=spelling):
                found = read_all(f"{spelling} {spelling}")
                self.assertEqual(list(map(text_of, found)), [spelling, spelling])

    def test_what_differs_is_spelled_differently(self):
        texts = ("1", "1.0", "1M", '"1"', ":a", "a", '"a"', r"\a", '":a"', "nil", '"nil"', "true", '"true"', "[1]", "#{1}", "{1 1}", "#a 1")
        self.assertEqual(len({text_of(read_all(text)[0]) for text in texts}), len(texts))


class Opened(unittest.TestCase):
    def test_elements(self):
        self.assertEqual(read_all("[1 [2] (3)] 4 (5) {}", opened=True), [1, (2,), List((3,)), 4, 5, Map(())])
        self.assertEqual(read_all("[]", opened=True), [])
        self.assertEqual(read_all("#_[1] #a [2]", opened=True), [Tagged("a", (2,))])

    def test_refused(self):
        for text in ("[1 2", "\n[1 [2]"):
            with self.subTest(text=text), self.assertRaisesRegex(FormatError, "never closed") as raised:
                read_all(text, opened=True)
            self.assertEqual(raised.exception.line, text.count("\n") + 1)
        for text in ("[1)", "[1]]", "(1]"):
            with self.subTest(text=text), self.assertRaisesRegex(FormatError, "no form begins with"):
                read_all(text, opened=True)


class Refused(unittest.TestCase):
    def test_lines(self):
        for text, line, what in REFUSED:
            with self.subTest(text=text), self.assertRaisesRegex(FormatError, what) as raised:
                read_all(text)
            self.assertEqual(raised.exception.line, line, text)

    def test_lines_of_forms(self):
        text = '1\n\n"two\nlines" 2\n; three\n[3\n] 4'
        self.assertEqual([line for line, _ in forms(io.StringIO(text))], [1, 3, 4, 6, 7])

    def test_depth(self):
        for opening, closing in (("[", "]"), ("(", ")"), ("{1 ", "}"), ("#a ", ""), ("#_ ", " 1")):
            with self.subTest(opening=opening):
                self.assertEqual(len(read_all(opening * MOST_DEPTH + "1" + closing * MOST_DEPTH)), 1)
                for depth in (MOST_DEPTH + 1, 100_000):
                    self.assertRaisesRegex(FormatError, "deep", read_all, "\n" + opening * depth + "1" + closing * depth)

    def test_bytes_that_are_no_text(self):
        stream = io.TextIOWrapper(io.BytesIO(b"1\n2 \xff"), encoding="utf-8")
        with self.assertRaisesRegex(FormatError, "UTF-8"):
            list(forms(stream))


class Pieces(unittest.TestCase):
    def test_tokens_across_pieces(self):
        tokens = ('"a long\\n string"', "symbol", "12.50M", ":keyword", "\\newline", "#tag 1", "#{1}", "#_ 1 2", "; comment\n1", '"\\\\"')
        for token in tokens:
            wanted = read_all(f"0 {token} 9")
            for before in range(len(token) + 2):
                with self.subTest(token=token, before=before):
                    blanks = " " * (PIECE - before - 2)
                    self.assertEqual(read_all(f"0 {blanks}{token} 9"), wanted)

    def test_a_long_string(self):
        text = "a" * 900_000
        self.assertEqual(read_all(f'1 "{text}"'), [1, text])
        for opening in ('"', ";", " ", ":", "#a"):
            with self.subTest(opening=opening), self.assertRaisesRegex(FormatError, "1,000,000 characters"):
                read_all(opening + (" " if opening == " " else "a") * 5_000_000)

    def test_no_more_is_read_than_is_needed(self):
        for head in ("", "["):
            stream = Endless(head, lambda number: f"{{:index {number}}}\n")
            found = list(itertools.islice(forms(stream, opened=True), 4_000))
            self.assertEqual([form.by_keyword()["index"] for _, form in found], list(range(4_000)))
            self.assertEqual([line for line, _ in found], list(range(1, 4_001)))
            self.assertLess(stream.count, sum(len(f"{{:index {number}}}\n") for number in range(4_000)) + 2 * PIECE)


if __name__ == "__main__":
    unittest.main()
