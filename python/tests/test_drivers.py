"""Tests docs/drivers.md: each rule for exceptions takes those for certain of which its table says `fail`, and none of the others."""

import json
import unittest
from types import SimpleNamespace

from causal_judge import Recorder
from drivers_page import PAGE, section
from support import DEBIAN_PYTHON, FolderCase, events_of, needs_modules, raising, run_python


def with_code(**attributes):
    """An exception with these attributes."""
    error = Exception()
    vars(error).update(attributes)
    return error


ERRORS = {
    "PostgreSQL": lambda code: with_code(pgcode=code),
    "MySQL and MariaDB": lambda code: Exception(int(code), "said by the server"),
    "etcd": lambda code: with_code(code=lambda: SimpleNamespace(value=(int(code), "said by a member"))),
}
OTHERS = {
    "PostgreSQL": (with_code(pgcode=None), with_code(sqlstate=None), OSError(111, "refused"), TimeoutError()),
    "MySQL and MariaDB": (Exception(), Exception("text"), OSError(111, "refused"), TimeoutError()),
    "etcd": (with_code(code=3), OSError(111, "refused"), TimeoutError()),
}


@unittest.skipUnless(PAGE.is_file(), "skipped: docs/drivers.md is not beside the package")
class Rules(FolderCase):
    def test_codes(self):
        """Each code of a table, alone and, where it stands for a class, with any code of the class."""
        for name, error_of in ERRORS.items():
            rows, code = section(name)
            given = {}
            exec(code, given)
            ends = set()
            for codes, end, _ in rows:
                for code in codes:
                    code = f"{code}000" if len(code) == 2 and name == "PostgreSQL" else code
                    with self.subTest(name, code=code):
                        self.assertIs(given["has_failed"](error_of(code)), end == "fail")
                    ends.add(end)
            self.assertEqual(ends, {"fail", "lost"})
            for error in OTHERS[name]:
                self.assertIs(given["has_failed"](error), False)
            shown = {code for codes, end, _ in rows if end == "fail" for code in codes}
            self.assertEqual({str(code) for code in given["CERTAIN"]} - shown, set(), "the rule names what the table does not")

    @needs_modules("redis", install="apt-get install python3-redis")
    def test_classes_of_redis(self):
        rows, code = section("Redis")
        names = [name for row in rows for name in row.names]
        script = f"import json, redis\n{code}\nfound = [issubclass(getattr(redis.exceptions, name), CERTAIN) for name in {names}]"
        done = run_python("-c", f"{script}\nprint(json.dumps(found))", python=DEBIAN_PYTHON)
        self.assertEqual(done.returncode, 0, done.stderr.decode())
        self.assertEqual(json.loads(done.stdout), [row.end == "fail" for row in rows for _ in row.names])

    def test_recorder_takes_a_rule(self):
        given = {}
        exec(section("PostgreSQL")[1], given)
        with Recorder(self.log, fails=given["has_failed"]) as recorder, recorder.client("a") as alice:
            for code in ("23505", "57014", None):
                with self.assertRaises(Exception):
                    alice.write("k", alice.new_value(), raising(with_code(pgcode=code)))
        self.assertEqual([event[0] for event in events_of(self.log)[1::2]], ["fail", "lost", "lost"])


if __name__ == "__main__":
    unittest.main()
