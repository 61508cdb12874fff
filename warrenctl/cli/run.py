"""How each command ends: with its status, and with one line on standard error for whatever is wrong."""

import os
import signal
import sys
import traceback
from contextlib import contextmanager

from warrenctl.fault import FAILED, Fault

DONE, NOT_WHOLE = 0, 1
# what ends a command from outside, and the status that is added to the signal's number
ENDING = (signal.SIGINT, signal.SIGHUP, signal.SIGTERM)
BY_SIGNAL = 128
# how a stream that was closed is opened: what reads or writes it fails, but for standard error, where nobody is told anything
STREAMS = {0: ("stdin", "r", os.O_WRONLY), 1: ("stdout", "w", os.O_RDONLY), 2: ("stderr", "w", os.O_RDWR)}


class Ended(KeyboardInterrupt):
    """A signal ends the command: like Ctrl-C, whichever it is."""

    def __init__(self, number):
        super().__init__()
        self.number = number


def end(number, _):
    raise Ended(number)


def tell(name, text):
    print(f"{name}: {text}", file=sys.stderr, flush=True)


def open_streams():
    """Puts something in the place of standard streams that were closed, so that no file takes their numbers, and has the others take any text."""
    for number, (name, mode, flags) in STREAMS.items():
        try:
            os.fstat(number)
        except OSError:
            os.open(os.devnull, flags)
        if getattr(sys, name) is None:
            setattr(sys, name, open(number, mode, closefd=False))
    for stream in (sys.stdout, sys.stderr):
        stream.reconfigure(encoding="utf-8", errors="backslashreplace")


def heed_signals():
    """Has each signal that ends a command raise `Ended`, unless whoever started the command has it ignored."""
    for it in ENDING:
        # a shell without job control has what it starts in the background ignore SIGINT
        if it == signal.SIGINT or signal.getsignal(it) != signal.SIG_IGN:
            signal.signal(it, end)


@contextmanager
def masked(how):
    before = signal.pthread_sigmask(how, ENDING)
    try:
        yield
    finally:
        signal.pthread_sigmask(signal.SIG_SETMASK, before)


def held_back():
    """Has signals that end a command wait until the block ends, so that nothing in it is left half done."""
    return masked(signal.SIG_BLOCK)


def let_in():
    """Inside `held_back`: has signals end what this block does."""
    return masked(signal.SIG_UNBLOCK)


def drop_output():
    """Has standard output lead nowhere, so that what is left of it fails nothing more when the command ends."""
    os.dup2(os.open(os.devnull, os.O_WRONLY), 1)


def why_of(error):
    """An error of the system in one line."""
    what = error.strerror or str(error)
    return f"{error.filename}: {what}" if error.filename else what


def place(error):
    """Where in the command an exception was raised."""
    last = traceback.extract_tb(error.__traceback__)[-1]
    return f"{os.path.basename(os.path.dirname(last.filename))}/{os.path.basename(last.filename)}, line {last.lineno}"


def status_of(name, work):
    """The status of the work, once what is wrong with it was told."""
    try:
        return work()
    except BrokenPipeError:
        drop_output()
        return FAILED
    except Fault as error:
        tell(name, error)
        return error.status
    except OSError as error:
        tell(name, why_of(error))
    except KeyboardInterrupt as error:
        number = getattr(error, "number", signal.SIGINT)
        tell(name, f"broken off by {signal.Signals(number).name[3:]}")
        return BY_SIGNAL + number
    except Exception as error:
        tell(name, f"a fault of its own: {' '.join(f'{type(error).__name__}: {error}'.split())} ({place(error)})")
    return FAILED


def written(name, status):
    """The status, once all of standard output is written; another one if it is not."""
    try:
        sys.stdout.flush()
        return status
    except BrokenPipeError:
        drop_output()
    except OSError as error:
        drop_output()
        if status != FAILED:
            tell(name, f"standard output: {error.strerror}")
    return status or FAILED


def run(name, work):
    """Does the work of a command and returns its status.

    `work` returns a status, or raises what is wrong: a `Fault` or an error of the system is one line, and so is a signal that ends the command. Any
    other exception is a fault of the command itself, which is one line, too, with status 3: status 1 is a verdict.
    """
    open_streams()
    heed_signals()
    return written(name, status_of(name, work))
