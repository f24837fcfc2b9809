"""Puts the folders of tests/ on the path, by the file of this name in tests/: Python looks first beside the program that it runs."""

import pathlib
import runpy

runpy.run_path(str(pathlib.Path(__file__).resolve().parents[1] / "folders.py"))
