"""Whether this machine has what a test of real servers needs."""

import glob
import shutil
import subprocess


def is_installed(python, modules, needs):
    """Whether a Python has these modules, and whether these programs or files are there; the files by a pattern."""
    can_import = [python, "-c", f"import {', '.join(modules)}"]
    has_modules = shutil.which(python) and subprocess.run(can_import, capture_output=True, check=False).returncode == 0
    return bool(has_modules) and all(shutil.which(need) or glob.glob(need) for need in needs)
