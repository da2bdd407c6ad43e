"""The tables of cases in tools/: how lines of a table stand for bytes."""


def text_of(lines):
    """Returns the bytes that lines of a table stand for: trailing empty lines are left out, and one newline ends them.

    `\\t`, `\\r`, `\\n`, `\\xNN` and `\\\\` stand for one byte, and a backslash at the end of a line takes the newline away.
    """
    text = "\n".join(lines).rstrip("\n") + "\n"
    return text.encode("latin-1").decode("unicode_escape").encode("latin-1")
