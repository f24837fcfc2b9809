"""Tests the package as it is installed: offline, in an environment of Debian's Python, with the commands that README.md shows."""

import os
import pathlib
import shutil
import subprocess
import sys
import tempfile
import unittest

import causal_judge
from causal_judge.program import find_program
from support import DEBIAN_PYTHON, IS_LONG, PACKAGE, REPOSITORY, SECONDS, is_module_there, needs_modules, needs_program, run_python

PAGES = REPOSITORY / "tests" / "process" / "documents.py"
INSTALL = "apt-get install python3-venv python3-setuptools python3-wheel"
IGNORED = shutil.ignore_patterns("build", "*.egg-info", "__pycache__")


class Version(unittest.TestCase):
    @unittest.skipUnless((REPOSITORY / "VERSION").is_file(), "skipped: the file VERSION is not beside the package")
    def test_version(self):
        """The folder python/ stands alone, so it has the version too. The file VERSION, the package and CITATION.cff agree."""
        version = (REPOSITORY / "VERSION").read_text().strip()
        self.assertEqual(causal_judge.__version__, version)
        self.assertIn(f"version: {version}", (REPOSITORY / "CITATION.cff").read_text().splitlines())

    def test_names(self):
        for name in causal_judge.__all__:
            self.assertTrue(hasattr(causal_judge, name), name)
        self.assertEqual(sorted(causal_judge.__all__), causal_judge.__all__)


if IS_LONG:

    @needs_modules("mypy", install="apt-get install mypy")
    class Types(unittest.TestCase):
        def test_types(self):
            words = ["-m", "mypy", "--strict", "--python-version", "3.10", "--cache-dir", os.devnull, PACKAGE / "causal_judge"]
            done = run_python(*words, python=DEBIAN_PYTHON, folder=PACKAGE)
            self.assertEqual(done.returncode, 0, done.stdout.decode())


@needs_program
@needs_modules("ensurepip", "setuptools", "wheel", install=INSTALL)
@unittest.skipUnless(PAGES.is_file(), "skipped: the repository's tests are not beside the package")
class Installed(unittest.TestCase):
    """The package in an environment, from a copy of its folder that has nothing else of the repository."""

    @classmethod
    def setUpClass(cls):
        sys.path.insert(0, str(PAGES.parent))
        import documents

        room = tempfile.TemporaryDirectory(prefix="causal-judge-")
        cls.addClassCleanup(room.cleanup)
        cls.folder, cls.documents = pathlib.Path(room.name), documents
        shutil.copytree(PACKAGE, cls.folder / "python", ignore=IGNORED)
        commands = list(documents.commands_of(PACKAGE / "README.md", "python/README.md"))
        cls.installs = [command for command in commands if command.mark]
        cls.shown = [command for command in commands if not command.mark]
        script = "set -e\n" + "\n".join(command.text for command in cls.installs)
        how = {"cwd": cls.folder, "env": environment("/usr/bin:/bin"), "capture_output": True, "timeout": SECONDS}
        cls.done = subprocess.run(["bash", "-c", script], check=False, **how)
        cls.scripts = cls.folder / "judged" / "bin"

    def run_installed(self, *words, **variables):
        """Runs the Python of the environment."""
        how = {"cwd": self.folder, "env": environment("/nowhere", **variables), "capture_output": True, "timeout": SECONDS}
        return subprocess.run([str(self.scripts / "python3"), *words], check=False, **how)

    def test_installs(self):
        self.assertEqual((len(self.installs), self.done.returncode), (2, 0), self.done.stderr.decode())
        script = "import causal_judge, importlib.metadata as data; print(causal_judge.__file__, data.version('causal_judge'))"
        path, version = self.run_installed("-c", script).stdout.decode().split()
        self.assertTrue(pathlib.Path(path).is_relative_to(self.folder / "judged"))
        self.assertEqual(version, causal_judge.__version__)
        self.assertTrue((pathlib.Path(path).parent / "py.typed").is_file())
        self.assertTrue(any((pathlib.Path(path).parent / "importers").glob("*.py")))

    def test_shown_commands(self):
        """What README.md shows is what its commands write, run there in order."""
        (self.folder / "page").mkdir()
        (self.folder / "bin").mkdir()
        (self.folder / "bin" / "causal_judge").symlink_to(find_program())
        paths = f"{self.scripts}:{self.folder / 'bin'}:/usr/bin:/bin"
        self.assertGreater(len(self.shown), 3)
        for command in self.shown:
            faults = self.documents.fault_of(command, self.folder / "page", environment(paths))
            self.assertEqual(faults, [], "\n".join(faults))

    def test_program_of_the_environment(self):
        """The program is found in the environment's folder, and is missing where it is nowhere."""
        script = "from causal_judge.program import find_program; print(find_program())"
        self.assertIn(b"ProgramMissing: the program causal_judge is missing", self.run_installed("-c", script, HOME="/nowhere").stderr)
        (self.scripts / "causal_judge").symlink_to(find_program())
        self.addCleanup((self.scripts / "causal_judge").unlink)
        self.assertEqual(self.run_installed("-c", script).stdout.decode().strip(), str(self.scripts / "causal_judge"))

    @unittest.skipUnless(is_module_there("pytest"), "skipped: apt-get install python3-pytest")
    def test_plugin_is_found(self):
        """pytest finds the plugin by itself."""
        self.assertIn(b"@pytest.mark.causal(*criteria, at_least_reads=1)", self.run_installed("-m", "pytest", "--markers").stdout)

    def test_commands(self):
        (self.folder / "one.jsonl").write_text('["begin","a",["r","k"]]\n')
        done = self.run_installed("-m", "causal_judge", "merge", "one.jsonl")
        self.assertEqual((done.returncode, done.stdout), (0, b'["begin","a",["r","k"]]\n["lost","a"]\n'))


def environment(paths, **variables):
    """An environment with these folders of programs, without the package and the program that the tests use."""
    left_out = ("PYTHONPATH", "CAUSAL_JUDGE", "VIRTUAL_ENV", "PYTHONDONTWRITEBYTECODE")
    kept = {name: value for name, value in os.environ.items() if name not in left_out and not name.startswith("PYENV")}
    return {**kept, "PATH": paths, **variables}


if __name__ == "__main__":
    unittest.main()
