"""Runs the program for ./sdfg where standard error is a terminal, and explains there what it refuses.

  explain.py PROGRAM WORD..

What the program writes goes to standard output as it comes, byte for byte, and the status is its own. The texts are those of
python/luthkemb/explanations.py.
"""
import os
import signal
import sys

TOP = os.path.dirname(os.path.dirname(os.path.abspath(__file__)))
NAME = "sdfg"
PIECE = 65536
MOST_BYTES = 2**20
NOT_STARTED, NOT_WRITTEN = 127, 10
ARRAYS_REFUSED = 4
END_WITH_PARENT = 1
LAST = 4096


def run(program, words):
    """Runs the program, passes on what it writes, and returns how it ended and the last bytes that it wrote."""
    ends = os.pipe()
    child = os.fork()
    if child == 0:
        become(program, words, ends[1])
    os.close(ends[1])
    last = b""
    while piece := os.read(ends[0], PIECE):
        last = (last + piece)[-LAST:]
        if not is_passed_on(piece):
            # To the program that is an output that cannot be written.
            os.kill(child, signal.SIGKILL)
            os.waitpid(child, 0)
            return NOT_WRITTEN, b""
    return os.waitstatus_to_exitcode(os.waitpid(child, 0)[1]), last


def become(program, words, output):
    """Has this process be the program, which writes to this output and ends when its parent does."""
    try:
        end_with_parent()
        os.dup2(output, 1)
        for number in (signal.SIGPIPE, signal.SIGXFSZ):
            signal.signal(number, signal.SIG_DFL)
        os.execv(program, [NAME, *words])
    finally:
        os._exit(NOT_STARTED)


def end_with_parent():
    """Has the system end this process when its parent ends, where Python can ask that of it."""
    try:
        import ctypes

        ctypes.CDLL(None).prctl(END_WITH_PARENT, signal.SIGKILL)
    except (ImportError, OSError, AttributeError):
        pass


def is_passed_on(piece):
    """Writes bytes to standard output, and tells whether all could be written."""
    try:
        while piece:
            piece = piece[os.write(1, piece) :]
        return True
    except OSError:
        return False


def file_of(files, at):
    """Returns the bytes of a file that a call names, or nothing where they are many or cannot be read again."""
    try:
        if not os.path.isfile(files[at]) or os.path.getsize(files[at]) > MOST_BYTES:
            return None
        with open(files[at], "rb") as file:
            return file.read()
    except (IndexError, OSError, ValueError):
        return None


def given_in(arrays):
    """Returns the shapes and the sizes in the bytes of an arrays file; none where they are not to be had."""
    import json

    from luthkemb.arrays import shapes_and_sizes

    try:
        return shapes_and_sizes(json.loads(arrays))
    except (AttributeError, RecursionError, TypeError, ValueError):
        return shapes_and_sizes({})


def lines_of(status, last, words):
    """Returns the lines that explain how a call ended."""
    import types

    # The package itself wants more than its explanations do, and is not loaded.
    package = types.ModuleType("luthkemb")
    package.__path__ = [os.path.join(TOP, "python/luthkemb")]
    sys.modules["luthkemb"] = package
    from luthkemb.explanations import explained, parted

    files = parted(words)[0]
    said = last.decode(errors="replace").removesuffix("\n").rpartition("\n")[2]
    # What is given tells of refused arrays alone.
    given = [given_in(file_of(files, 1))] if status == ARRAYS_REFUSED else []
    return explained(status, said, words, file_of(files, 0), *given)


def explain(status, last, words):
    """Writes the explanation to standard error; what goes wrong with that is no matter of the call."""
    try:
        text = "".join(f"{it}\n" for it in lines_of(status, last, words))
        os.write(2, text.encode(sys.stderr.encoding or "ascii", "replace"))
    except Exception:
        pass


def end_by(number):
    """Ends this as a signal ended the program, which has left what there is to be left of it."""
    import resource

    if number != signal.SIGKILL:
        signal.signal(number, signal.SIG_DFL)
    resource.setrlimit(resource.RLIMIT_CORE, (0, 0))
    os.kill(os.getpid(), number)


def main(program, *words):
    # An interrupt, where it is not ignored, and a file that is too long end this as they end the program.
    if signal.getsignal(signal.SIGINT) != signal.SIG_IGN:
        signal.signal(signal.SIGINT, signal.SIG_DFL)
    signal.signal(signal.SIGXFSZ, signal.SIG_DFL)
    try:
        os.fstat(1)
    except OSError:
        os.execv(program, [NAME, *words])
    status, last = run(program, words)
    if status < 0:
        end_by(-status)
    elif status > 0:
        explain(status, last, words)
    # At once: nothing of Python's is left to be written.
    os._exit(status)


if __name__ == "__main__":
    main(*sys.argv[1:])
