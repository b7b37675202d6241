#!/usr/bin/env python3
"""Scripts at the limits by 64 workers: each run ends, and its journal is judged by `gcd check`.

The files are so long that the works take time, and several workers have a part in them. Each script has a read source that is never
activated, so that a team runs it whatever its works cost; only the one that has no object left for it has none.
"""

import os
import random
import re
import resource
import subprocess
import tempfile
from pathlib import Path

import grammar
from common import Part, call, why_not, words_of

HERE = Path(__file__).resolve().parent
BLOCKS, OBJECTS, ACTS, FILES = 16_384, 1_023, 65_535, 64
# With the other objects and the read source they are as many as there may be.
SOURCES = OBJECTS - 1_001
FEED = "source feed read f0.txt on root\n"
STATES = {0: b"drained", 1: b"stuck", 8: b"open"}


def name_of(b):
    """A short name, so that as many blocks as there may be fit into a script."""
    digits = "0123456789abcdefghijklmnopqrstuvwxyz"
    return f"b{digits[b // 1296]}{digits[b // 36 % 36]}{digits[b % 36]}"


def text_of(lines):
    return "".join(f"{line}\n" for line in lines)


def objects(chance):
    """As many objects as there may be: a chain of targets, queues of both kinds on earlier ones, groups, semaphores, sources."""
    queues = ["c0"]
    lines = ["queue c0 serial"] + [f"queue c{k} {'concurrent' if k % 3 else 'serial'} on c{k - 1}" for k in range(1, 500)]
    queues += [f"c{k}" for k in range(1, 500)]
    for k in range(300):
        lines.append(f"queue q{k} {chance.choice(['serial', 'concurrent'])} on {chance.choice(['root', 'root', *queues[-20:]])}")
        queues.append(f"q{k}")
    lines += ["group e"] + [f"group g{k}" for k in range(99)] + [f"semaphore m{k} 1" for k in range(100)]
    lines += [f"source s{k} {'or' if k % 2 else 'add'} on {chance.choice(queues)}" for k in range(SOURCES)]
    return lines, queues


def at_the_limits(chance):
    """All limits at once; the acts of one block, which is never submitted, are what is left of the acts. It drains."""
    lines, queues = objects(chance)
    lines = [f"file f{k} f{k % 3}.txt" for k in range(FILES)] + lines
    acts = []
    for b in range(BLOCKS - 1):
        work = f" {chance.choice(['bytes', 'lines', 'words', 'sum'])} f{b % FILES}" if b % 2 else ""
        lines.append(f"block {name_of(b)}{work}")
        if b % 3 == 0:
            lines.append(chance.choice([f"merge s{b % SOURCES} 1", f"signal m{b % 100}", f"retain c{b % 500}"]))
        submit = chance.choice(["async Q", "async Q", "barrier Q", f"group_async g{b % 99} Q"])
        acts.append(f"{submit.replace('Q', chance.choice(queues))} {name_of(b)}")
    acts = [f"activate s{k}" for k in range(SOURCES)] + acts
    used = sum(line.split()[0] in ("merge", "signal", "retain") for line in lines) + len(acts)
    lines += ["block idle"] + ["enter e"] * (ACTS - used)
    return text_of(lines + ["main"] + acts), 0


def many_events(chance):
    """As many acts as there may be, all of which are come to: the row's cells are used some twenty times."""
    script, _ = at_the_limits(chance)
    idle = script.index("block idle\n")
    main = script.index("main\n", idle)
    left = script[idle:main].removeprefix("block idle\n")
    return script[:idle] + "block idle\n" + script[main:] + left, 0


def past_the_events(chance):
    """The same with a limit of events: there are too few for all acts."""
    return many_events(chance)[0], 8


def all_parked(_):
    """Ten thousand blocks that wait at once, until the last act of main."""
    lines = ["file f f2.txt", "group g"] + [f"queue q{k} concurrent" for k in range(7)]
    for b in range(10_000):
        lines += [f"block b{b} lines f", "group_wait g"]
    return text_of(lines + ["main", "enter g"] + [f"async q{b % 7} b{b}" for b in range(10_000)] + ["leave g"]), 0


def all_expire(_):
    """Ten thousand blocks whose waits run out at three moments, and that go on."""
    lines = ["file f f2.txt", "semaphore s 0"] + [f"queue q{k} concurrent" for k in range(7)]
    for b in range(10_000):
        lines += [f"block b{b} lines f", f"wait_for s {b % 3}"]
    return text_of(lines + ["main"] + [f"async q{b % 7} b{b}" for b in range(10_000)]), 0


def none_starts(_):
    """A chain of queues beneath one that is suspended, with a block on each and many on the last: nothing starts."""
    lines = ["file f f2.txt", "queue q0 serial"] + [f"queue q{k} serial on q{k - 1}" for k in range(1, OBJECTS)]
    lines += [f"block b{b} lines f" for b in range(BLOCKS)] + ["main", "suspend q0"]
    return text_of(lines + [f"async q{min(b, OBJECTS - 1)} b{b}" for b in range(BLOCKS)]), 1


def hand_over_hand(_):
    """Blocks that submit the next and wait for it, on two queues in turn, a thousand deep."""
    lines = ["queue a concurrent", "queue b concurrent"]
    for b in range(1000):
        lines += [f"block b{b} lines f"] + ([f"sync {'ab'[b % 2]} b{b - 1}"] if b else [])
    return text_of(["file f f0.txt", *lines, "main", "sync a b999"]), 0


def ping_pong(_):
    """Two blocks that pass each other by two semaphores, five thousand times."""
    lines = ["semaphore m 0", "semaphore n 0", "block x"] + ["signal m", "wait n"] * 5000
    return text_of([*lines, "block y", *["wait m", "signal n"] * 5000, "main", "async root x", "async root y"]), 0


def one_strip(_):
    """A strip of as many blocks as there may be, each of which counts four bytes: workers share it."""
    return text_of(["file f f2.txt", "queue q concurrent", f"strip b bytes f 4 {BLOCKS}", "main", "apply q b"]), 0


def all_cancelled(_):
    """Eight thousand blocks that are cancelled before they are submitted, and as many that follow them."""
    lines = [f"queue q{k} concurrent" for k in range(7)]
    acts = []
    for b in range(8_000):
        lines += [f"block c{b}", f"wait_block c{b - 1}"] if b else ["block c0"]
        lines += [f"block n{b}"]
        acts += [f"cancel_block c{b}", f"notify_block c{b} q{b % 7} n{b}", f"async q{(b + 1) % 7} c{b}"]
    return text_of([*lines, "main", *acts]), 0


SCRIPTS = [at_the_limits, many_events, past_the_events, all_parked, all_expire, none_starts, hand_over_hand, ping_pong, one_strip, all_cancelled]


def value_lines(script):
    """The lines of the values of all blocks, where each ends."""
    at, reader = grammar.read(script.encode())
    contents = {name: content_of(path) for name, path in reader.paths.items()}
    values = {work: grammar.value_of(work, contents) for work in {tuple(work) for work in reader.works.values()}}
    return at, {f"{name} = {values[tuple(work)]}".encode() for name, work in reader.works.items()}


def content_of(path):
    return f"a line of {path}\n".encode() * (2_000 * int(path[1]) + 1)


def try_script(part, program, room, make, workers, seed, seconds=120):
    """One run, and the judgement on its journal."""
    script, status = make(random.Random(seed))
    script = script if make is none_starts else FEED + script
    at, values = value_lines(script)
    with open(f"{room}/script", "w", encoding="ascii") as it:
        it.write(script)
    limit = ["--most", "65535"] if make is past_the_events else []
    answer = call(program, ["run", "script", "--journal", *limit, "--workers", str(workers)], room, seconds)
    why = why_not("run", answer, 8) or (None if answer.status == status else f"status {status} is wanted")
    case = f"{make.__name__}, {workers} workers, seed {seed}"
    if why or at:
        part.refuse(case, why or f"the script is no script at {at}", answer)
    told = set(re.findall(rb"(?m)^b[0-9a-z.]+ = [0-9]+$", answer.text))
    if told - values or (status == 0 and told != values):
        part.refuse(case, "other values are wanted", answer)
    with open(f"{room}/journal", "wb") as it:
        it.write(answer.text)
    events = re.search(rb"(?m)^events ([0-9]+)$", answer.text)[1]
    checked = call(program, ["check", "script", "journal"], room, seconds)
    if (checked.status, checked.text, checked.errors) != (0, b"lawful %b %b\n" % (events, STATES[status]), b""):
        part.refuse(case, "a lawful journal is wanted", checked)
    others = len(set(re.findall(rb"(?m)^start ([0-9]+) ", answer.text)))
    return int(events), others


PIECES = [b" ", b"\n", b"a", b"#\n", b"main\n", b"group g\n", b"start 0 main\n", b"tick 1\n", b"events 0\n", b"\0", b"\xff"]


def long_texts(program, room):
    """Scripts and journals as long as they may be and longer, of one piece again and again."""
    part = Part("long_texts")
    for piece in PIECES:
        for most, words in ((1_048_576, ["run", "long"]), (16_777_216, ["check", "short", "long"])):
            for size in (most, most + 1):
                text = (piece * (size // len(piece) + 1))[:size]
                for name, content in (("long", text), ("short", b"main\n")):
                    with open(f"{room}/{name}", "wb") as it:
                        it.write(content)
                answer = call(program, words, room)
                why = why_not(words[0], answer) or long_why(words[0], text, most, answer)
                if why:
                    part.refuse(f"{size} bytes of {piece} as what is given to {words[0]}", why, answer)
    part.tell(f"{4 * len(PIECES)} texts are refused where they have to be, or taken")


def long_why(command, text, most, answer):
    if command == "run":
        at, _ = grammar.read(text)
        wanted = b"script refused: line %d code %d\n" % at if at else b"drained\n"
    elif len(text) > most:
        wanted = b"journal refused: line 0\n"
    elif text.startswith(b"events 0\n"):
        wanted = b"lawful 0 open\n"
    else:
        return None if answer.status == 9 else "status 9 is wanted"
    return None if answer.text == wanted else f"{wanted} is wanted"


def colliding(program, room):
    """Names that meet in a hash map: the script is read in the time of a look at each other name for each."""
    part = Part("colliding")
    subprocess.run([os.environ.get("CC", "cc"), "-O2", "-o", f"{room}/collide", HERE / "collide.c"], check=True)
    names = subprocess.run([f"{room}/collide", str(BLOCKS - 1)], capture_output=True, check=True, text=True).stdout.split()
    with open(f"{room}/script", "w", encoding="ascii") as it:
        it.write(text_of(["queue q serial", *[f"block {b}" for b in names], "main", *[f"async q {b}" for b in names]]))
    answer = call(program, ["run", "script"], room, 120)
    if (answer.status, answer.text, answer.errors) != (0, b"drained\n", b""):
        part.refuse(f"{len(names)} names", "a run that drains is wanted", answer)
    part.tell(f"a script of {len(names)} such names is run")


def main():
    words = words_of(
        __doc__,
        ("--workers", int, 64, "how many workers"),
        ("--repeat", int, 3, "how often each script is run"),
        ("--seed", int, 1, "the seed of the first"),
        ("--seconds", int, 120, "the limit of time of a call"),
    )
    resource.setrlimit(resource.RLIMIT_CORE, (0, 0))
    with tempfile.TemporaryDirectory(prefix="gcd-hostile-") as room:
        for name in ("f0.txt", "f1.txt", "f2.txt"):
            with open(f"{room}/{name}", "wb") as it:
                it.write(content_of(name))
        for make in SCRIPTS:
            part = Part(make.__name__)
            case = (part, words.program, room, make, words.workers)
            told = [try_script(*case, words.seed + k, words.seconds) for k in range(words.repeat)]
            runs = ", ".join(f"{events} by {others}" for events, others in told)
            part.tell(f"{words.repeat} runs by {words.workers} workers are lawful; events, and workers that started a block: {runs}")
        long_texts(words.program, room)
        colliding(words.program, room)


if __name__ == "__main__":
    main()
