"""Puts the folders of tests/ on the path, so that each program finds the modules of all of them: `import folders` comes before their imports.

Python looks first beside the program that it runs. So a folder of such programs has a small file of this name, which runs this one. The gate
takes no links.
"""

import pathlib
import sys

NAMES = ("process", "plain", "generators", "servers", "pages", "support")

sys.path[:0] = [str(pathlib.Path(__file__).resolve().parent / name) for name in NAMES]
