"""What the parts share: the program, one call of it, and which answers it may give."""

import argparse
import os
import re
import subprocess
import sys
import time
from pathlib import Path

TOP = Path(__file__).resolve().parent.parent
USAGE = b"usage: gcd run SCRIPT [--workers N] [--journal] [--most N] [--listen ADDR] | gcd check SCRIPT JOURNAL | gcd big N [--workers W] | gcd front SCRIPT SENDERS\n"

NAME = rb"(?:\+[0-9]+|[a-z][a-z0-9_]{0,31}(?:\.[0-9]+)?)"
EVENT = (
    rb"(?:(?:start|wake|end|deliver|deliver_end) [0-9]+ %b|act [0-9]+ %b [0-9]+|tick [0-9]+|ready %b [0-9]+|feed_end %b"
    rb"|misuse [0-9]+ %b [0-9]+ M[1-8]|expire %b|accept %b [0-9]+|shut|halt)\n" % ((NAME,) * 7)
)
JOURNAL = rb"(?:(?:%b)*events [0-9]+\n)?" % EVENT
REPORT = (
    rb"(?:%b (?:= [0-9]+|cancelled)\n)*(?:%b received [0-9]+ in [0-9]+ pending [0-9]+\n)*" % (NAME, NAME)
)
WAITS = rb"(?:%b waits for %b\n)*(?:%b not started\n)*" % (NAME, NAME, NAME)
LAST = {
    0: rb"drained\n",
    1: WAITS + rb"stuck\n",
    4: rb"misuse %b [0-9]+ M[1-8]\n" % NAME,
    5: rb"read fault\n",
    8: rb"full\n",
}
REFUSED = {2: re.escape(USAGE), 3: rb"script refused: line [0-9]+ code [1-9]\n", 7: rb""}
BODY = {
    "run": JOURNAL + REPORT,
    "big": rb"blocks [0-9]+\ntotal [0-9]+\n",
    "front": rb"(?:sender [0-7] accepted [0-9]+ total [0-9]+\n){1,8}",
}
CHECKED = {
    0: rb"lawful [0-9]+ (?:drained|stuck|misuse|halted|open)\n",
    5: rb"read fault\n",
    9: rb"journal refused: (?:line|event) [0-9]+\n",
}


# What may stand on standard error: sentences, a line each. What else stands there comes of a fault of the program.
SAID = re.compile(rb"(?:[^\x00-\x1f\x7f]+\n)*")
NOT_SAID = re.compile(rb"(?m)^(?:error|thread|rattle|===)|panic|Sanitizer")


class Answer:
    """What one call answered: its status (below 0: it was ended by that signal; None: by the limit of time), what it wrote, and, as
    errors, what it wrote on standard error where that is not sentences alone."""

    def __init__(self, status, text, errors):
        is_said = SAID.fullmatch(errors) and not NOT_SAID.search(errors)
        self.status, self.text, self.errors = status, text, b"" if is_said else errors

    def __repr__(self):
        return f"status {self.status}, text {self.text[-200:]!r}, errors {self.errors[-400:]!r}"


def call(program, words, folder=None, seconds=60, **how):
    """One call of the program, which is ended at the limit of time."""
    how = {"stdin": subprocess.DEVNULL, "stdout": subprocess.PIPE, "stderr": subprocess.PIPE, **how}
    try:
        done = subprocess.run([program, *words], cwd=folder, timeout=seconds, **how)
    except subprocess.TimeoutExpired as late:
        return Answer(None, late.stdout or b"", late.stderr or b"")
    return Answer(done.returncode, done.stdout or b"", done.stderr or b"")


def form_of(command, status):
    """The form of what the command writes with this status; None where it never ends with it."""
    if status in REFUSED and not (status == 3 and command == "big"):
        return REFUSED[status]
    if command == "check":
        return CHECKED.get(status)
    if command == "front" and status == 10:
        return rb"no intake\n"
    if status == 5:
        return rb"(?:%b)?read fault\n" % BODY.get(command, rb"")
    if command == "front" and status == 1:
        return BODY[command] + rb"stuck\n"
    if status in LAST and command in BODY:
        return BODY[command] + LAST[status]
    return None


def why_not(command, answer, most=10):
    """Why the answer is not one that the command may give where the output is not refused; None where it is."""
    if answer.status is None:
        return "it did not end in time"
    if answer.status < 0:
        return f"signal {-answer.status}"
    if answer.errors:
        return "it wrote to standard error"
    form = form_of(command, answer.status)
    if answer.status > most or form is None:
        return f"no status of {command}"
    if not re.fullmatch(form, answer.text):
        return f"not what is written with status {answer.status}"
    return None


def refuse(part, case, why, answer):
    """The end of a part at an answer that is not allowed."""
    print(f"{part}: {case}: {why}: {answer}", flush=True)
    os._exit(1)


class Part:
    """A part that is run: its name, and since when."""

    def __init__(self, name):
        self.name, self.since = name, time.monotonic()

    def tell(self, what):
        """The one line of a part whose answers are all allowed."""
        print(f"{self.name}: {what} ({time.monotonic() - self.since:.1f} s)", flush=True)

    def refuse(self, case, why, answer):
        refuse(self.name, case, why, answer)


def built_program():
    """The proved program, which is built where it is not current."""
    if subprocess.run([TOP / "build"]).returncode:
        sys.exit(70)
    return TOP / "crates/gcd/out/gcd"


def words_of(about, *options):
    """The words of a script of this folder: the program, and the options (name, type, default, help)."""
    parser = argparse.ArgumentParser(description=about)
    parser.add_argument("--program", help="another program than the one that ./build makes")
    for name, kind, usual, says in options:
        parser.add_argument(name, type=kind, default=usual, help=f"{says} ({usual})")
    words = parser.parse_args()
    words.program = os.path.abspath(words.program or built_program())
    return words
