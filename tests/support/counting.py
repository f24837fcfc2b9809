"""The last line of a test: how many cases passed, failed and were skipped."""

import re
import sys

LAST_LINE = re.compile(r"(\d+) passed, (\d+) failed(?:, (\d+) skipped)?")


def last_line(passed, failed, skipped=0):
    """What a test writes at its end."""
    return f"{passed} passed, {failed} failed" + (f", {skipped} skipped" if skipped else "")


def read_last_line(text):
    """The three numbers that the last line of a text gives; none where it gives none."""
    lines = text.strip().splitlines()
    found = LAST_LINE.fullmatch(lines[-1].strip()) if lines else None
    return tuple(int(number or 0) for number in found.groups()) if found else None


def end(passed, failed, skipped=0):
    """Writes the last line and ends the process, with status 1 where a case failed or none passed."""
    print(last_line(passed, failed, skipped), flush=True)
    sys.exit(1 if failed or not passed + skipped else 0)


def counted(cases):
    """How many cases hold and how many do not, each a name and whether it holds. Those that do not are printed."""
    passed = failed = 0
    for name, holds in cases:
        passed, failed = passed + bool(holds), failed + (not holds)
        if not holds:
            print(f"{name}: no", flush=True)
    return passed, failed


def counted_faults(faults):
    """How many cases passed and how many failed: of each case what is wrong, or nothing. What is wrong is printed."""
    passed = failed = 0
    for wrong in faults:
        passed, failed = passed + (not wrong), failed + bool(wrong)
        if wrong:
            print(*wrong, sep="\n  ", flush=True)
    return passed, failed


def end_after(cases):
    """Counts cases, and ends the process."""
    end(*counted(cases))
