"""The line on standard error that says why an input was refused."""


def has_reason(words):
    """Whether a run of these words says why its input is refused, in a line of its own. Logs have lines of their own."""
    return ("--why" in words or "--long" in words) and not {"--lines", "--events", "events"} & set(words)


def without_reason(words, errors):
    """Standard error without the line that says why. Where such a line is due and is not there, the text says so."""
    first, _, reason = errors.partition("\n")
    if not first.startswith("refused ") or not has_reason(words):
        return errors
    is_line = len(reason) > 1 and reason.endswith("\n") and reason.isascii() and reason[:-1].isprintable()
    return f"{first}\n" if is_line else f"{errors}(a line that says why is due)"
