"""One run of a program to which one call of the C library is refused, by refuse.c."""

import os
import select
import subprocess
import tempfile
from pathlib import Path

from common import Answer, call

HERE = Path(__file__).resolve().parent
FOLDER = tempfile.TemporaryDirectory(prefix="gcd-hostile-")


def built_shim():
    """What is loaded before the C library."""
    shim = f"{FOLDER.name}/refuse.so"
    if not os.path.exists(shim):
        compiler = os.environ.get("CC", "cc")
        subprocess.run([compiler, "-O2", "-shared", "-fPIC", "-o", shim, HERE / "refuse.c"], check=True)
    return shim


def going_on():
    """A script by which worker 0 begins alone, and a team goes on before the first long block. It writes the script and its file."""
    script, words = f"{FOLDER.name}/going_on", f"{FOLDER.name}/words"
    if not os.path.exists(script):
        Path(words).write_bytes(b"ab " * (1 << 21))
        lines = ["file f words", "queue q serial", "queue wide concurrent", "block short bytes f 0 64", "block last"]
        lines += [f"block long{n} words f" for n in range(4)]
        lines += ["main", "async q short", "sync q last", *(f"async wide long{n}" for n in range(4))]
        Path(script).write_text("\n".join(lines) + "\n", encoding="ascii")
    return script


def call_refusing(program, words, name, number, later=False, error=5, **how):
    """The answer of a run to which the call of this number is refused, with all later ones or not; and whether it came to that."""
    told, tell = os.pipe()
    asked = {"REFUSE_CALL": name, "REFUSE_AT": number, "REFUSE_ON": int(later), "REFUSE_AS": error, "REFUSE_TELL": tell}
    asked = {word: str(value) for word, value in asked.items()}
    how["env"] = {**os.environ, "LD_PRELOAD": built_shim(), **asked}
    try:
        answer = call(program, words, pass_fds=[tell], **how)
        was_refused = bool(select.select([told], [], [], 0)[0])
    finally:
        os.close(told)
        os.close(tell)
    return answer, was_refused


def each_refused(program, words, name, most=1_000_000, **how):
    """Each call of this name refused in turn: its number, and the answer. Then the run that made fewer calls, with no number: nothing
    was refused to it, so that it has to answer as ever."""
    for number in range(1, most + 1):
        answer, was_refused = call_refusing(program, words, name, number, **how)
        yield (number if was_refused else None), answer
        if not was_refused:
            return


def is_same(answer, other):
    return (answer.status, answer.text, answer.errors) == (other.status, other.text, other.errors)


__all__ = ["Answer", "call_refusing", "each_refused", "going_on", "is_same", "FOLDER"]
