#!/usr/bin/env python3
"""Senders from outside. `gcd front` over random scripts, many runs at once: each sender's jobs are accepted and counted, and each thread is
refused in turn. And senders that are faster than the queue, slower, that shut at once or late, or send more jobs than there are blocks
(hostile/senders, a program that is built without a proof): the journal is lawful, of each sender the values are those of its jobs, in
order, each once, and none is lost. A case is made of the seed, its part and its number."""

import errno
import os
import random
import re
import subprocess
import tempfile
import threading
from concurrent.futures import ThreadPoolExecutor

from common import TOP, Part, call, why_not, words_of
from refused import each_refused, is_same

# The crates that the program names.
DEPENDENCIES = "gcd_plan gcd_event gcd_outer gcd_script gcd_journal gcd_front gcd_jobs gcd_workers anyhow"
INTAKES = [1, 7, 8, 9, 40, 300, 4096]

# How a script ends: what its `main` does for it, the status, and the last line.
ENDS = {
    "drained": ([], 0, rb"drained\n"),
    "parked": (["wait never"], 1, rb"stuck\n"),
    "barred": (["async q bar"], 1, rb"stuck\n"),
    "suspended": (["suspend q", "async q bar"], 1, rb"stuck\n"),
    "misuse": (["leave g"], 4, rb"misuse main [0-9]+ M2\n"),
    "halt": (["activate nowhere"], 5, rb"read fault\n"),
}


def script_of(chance, kind, count, end, has_feed):
    """A script with an intake of so many blocks on a queue of this kind, that does other work beside, and ends so."""
    on = chance.choice([[], ["queue t serial", f"queue q {kind} on t"], ["queue t concurrent", f"queue q {kind} on t"]])
    lines = ["file f text", *(on or [f"queue q {kind}"]), "queue p concurrent", "group g", "semaphore s 0", "semaphore never 0"]
    lines += ["source m add on q", "source t1 timer 1 1 on p", "until 4", "handler m", "enter g", "leave g"]
    lines += ["source r read text on root"] * has_feed + ["source nowhere read not/there on root"] * (end == "halt")
    lines += ["block bar", "wait never"]
    works = chance.randint(0, 12)
    for k in range(works):
        lines += [f"block b{k}" + chance.choice(["", " lines f", " sum f"]), *chance.choice([[], ["signal s"], ["merge m 1"]])]
    acts = [chance.choice([f"async q b{k}", f"async p b{k}", f"group_async g q b{k}", f"barrier p b{k}"]) for k in range(works)]
    acts += [word for word in ("activate m", "activate t1", "wait_for s 1", "group_wait g") if chance.random() < 0.5]
    acts += ["activate r"] * has_feed
    chance.shuffle(acts)
    for act in ENDS[end][0]:
        acts.insert(chance.randint(0, len(acts)), act)
    lines.insert(chance.randint(4, 6), f"intake q {count}")
    return "".join(f"{line}\n" for line in [*lines, "main", *acts]).encode()


def write(folder, script):
    for name, text in (("script", script), ("text", b"a line\n" * 100)):
        with open(f"{folder}/{name}", "wb") as it:
            it.write(text)


def why_not_front(answer, kind, count, senders, end):
    """Why the answer of `front` is not one that such a script may have."""
    _, status, last = ENDS[end]
    why = why_not("front", answer, 10)
    if why or answer.status != status:
        return why or f"status {status} is wanted"
    form = rb"((?:sender [0-9]+ accepted [0-9]+ total [0-9]+\n)*)" + last
    told = [tuple(map(int, it)) for it in re.findall(rb"sender (\d+) accepted (\d+) total (\d+)", answer.text)]
    if not re.fullmatch(form, answer.text) or [it[0] for it in told] != list(range(senders)):
        return f"a line for each sender and {last} are wanted"
    share = count // senders
    for sender, accepted, total in told:
        sums = [1000 * sender * k + k * (k + 1) // 2 for k in range(accepted + 1)]
        if accepted > share or (status in (0, 1) and accepted < share):
            return f"sender {sender} has sent {share} jobs"
        if end in ("drained", "parked") and total != sums[-1]:
            return f"all jobs of sender {sender} are to have ended"
        if total > sums[-1] or (kind == "serial" and total not in sums):
            return f"no jobs of sender {sender} have this total"
    return None


class Folders:
    """A folder for each thread."""

    def __init__(self, room):
        self.room, self.own = room, threading.local()

    def mine(self):
        self.own.folder = getattr(self.own, "folder", None) or tempfile.mkdtemp(dir=self.room)
        return self.own.folder


def front(words, room):
    """Random scripts, by 1 to 8 senders."""
    part, folders = Part("senders"), Folders(room)

    def one(number):
        chance, folder = random.Random(f"{words.seed} front {number}"), folders.mine()
        kind, count, senders = chance.choice(["serial", "concurrent"]), chance.choice(INTAKES), chance.randint(1, 8)
        end = chance.choice(["drained"] * 5 + list(ENDS))
        write(folder, script_of(chance, kind, count, end, chance.random() < 0.2))
        answer = call(words.program, ["front", "script", str(senders)], folder)
        why = why_not_front(answer, kind, count, senders, end)
        if why:
            part.refuse(f"front, seed {words.seed}, number {number}, {senders} senders (its files stand in {folder})", why, answer)

    with ThreadPoolExecutor(words.jobs) as pool:
        list(pool.map(one, range(words.count)))
    part.tell(f"{words.count} scripts of seed {words.seed}, {words.jobs} at once: each sender's jobs are counted")


def corners(words, room):
    """Each number of senders beside each of several intakes, and no intake."""
    part, count = Part("senders, all numbers"), 0
    for blocks in (1, 7, 8, 4096):
        write(room, b"queue q serial\nintake q %d\nmain\n" % blocks)
        for senders in range(1, 9):
            answer = call(words.program, ["front", "script", str(senders)], room)
            why = why_not_front(answer, "serial", blocks, senders, "drained")
            if why:
                part.refuse(f"intake q {blocks}, {senders} senders", why, answer)
            count += 1
    write(room, b"queue q serial\nmain\n")
    for asked, status, text in (("1", 10, b"no intake\n"), ("8", 10, b"no intake\n"), ("0", 2, None), ("9", 2, None), ("x", 2, None)):
        answer = call(words.program, ["front", "script", asked], room)
        if why_not("front", answer, 10) or answer.status != status or (text and answer.text != text):
            part.refuse(f"no intake, {asked} senders", f"status {status} is wanted", answer)
        count += 1
    part.tell(f"{count} calls")


def threads_fail(words, room):
    """Each thread of a run is refused, alone and with all later ones. A long run may give up, after ten seconds, and nothing is written: of
    its threads the first two are refused."""
    part, count = Part("senders, threads are refused"), 0
    for kind, blocks, senders in (("serial", 8, 1), ("concurrent", 8, 3), ("concurrent", 40, 8), ("concurrent", 4096, 8)):
        write(room, f"queue q {kind}\nintake q {blocks}\nmain\n".encode())
        call_words = ["front", "script", str(senders)]
        ample = call(words.program, call_words, room)
        for later in (False, True):
            how = {"most": 2 if blocks == 4096 else 100, "later": later, "error": errno.EAGAIN, "folder": room}
            for number, answer in each_refused(words.program, call_words, "pthread_create", **how):
                is_given_up = blocks == 4096 and (answer.status, answer.text, answer.errors) == (7, b"", b"")
                if not is_same(answer, ample) and not is_given_up:
                    part.refuse(f"{blocks} blocks, {senders} senders: thread {number}{' and all later' if later else ''}", "not allowed", answer)
                count += number is not None
    part.tell(f"{count} refusals get the answer of all threads, or of a long run status 7")


def built_senders(room):
    """The program, which is built without a proof: a copy of the crates that it stands on, with it among them."""
    copies = 'set -eu; . bench/setup.sh; copies hostile/senders senders "$0" $1; cp -r tools "$0"; "$0/tools/unproved" senders "$0/senders"'
    if subprocess.run(["bash", "-c", copies, room, DEPENDENCIES], cwd=TOP).returncode:
        raise SystemExit(70)
    return f"{room}/senders"


def manners_of(chance, count):
    """Senders: JOBS:PAUSE:WAIT each."""
    share = chance.choice([1, 3, 30, count // 8, count])
    kinds = [
        lambda: f"{share}:0:0",
        lambda: f"{min(share, 40)}:{chance.choice([1, 20, 300])}:0",
        lambda: "0:0:0",
        lambda: f"0:0:{chance.choice([100, 3_000, 20_000])}",
        lambda: f"{share}:0:{chance.choice([100, 3_000])}",
        lambda: f"{2 * count + 3}:0:0",
    ]
    return [chance.choice(kinds)() for _ in range(chance.choice([1, 2, 3, 8, 12]))]


class Run:
    """What the program has written."""

    def __init__(self, text):
        lines = text.decode().splitlines()
        at = next(k for k, line in enumerate(lines) if re.fullmatch(r"events \d+", line))
        self.journal, rest = lines[:at], lines[at + 1 :]
        self.state = rest[-1].lower().replace("misused", "misuse").replace("live", "open")
        self.values = {name: int(value) for name, value in (line.split(" = ") for line in rest if " = " in line)}
        told = [line.split() for line in rest]
        self.sent = {int(it[1]): int(it[3]) for it in told if it[0] == "sender"}
        self.left = [(int(it[1]), int(it[2])) for it in told if it[0] == "left"]
        self.accepts = [line.split()[1:] for line in self.journal if line.startswith("accept ")]
        self.is_shut = "shut" in self.journal

    def why_not(self, manners, count):
        """Why it is no run beside such senders; None where it is."""
        if len(self.sent) != len(manners):
            return "a line for each sender is wanted"
        lost = sum(self.sent.values()) - len(self.accepts) - len(self.left)
        if lost not in ((0,) if self.is_shut else (0, 1)):
            return f"{lost} jobs are lost"
        ended = {line.split()[2] for line in self.journal if line.startswith("end ")}
        for sender, manner in enumerate(manners):
            names = [name for name, by in self.accepts if int(by) == sender]
            left = [value for by, value in self.left if by == sender]
            values = [1_000_000 * sender + k for k in range(1, self.sent[sender] + 1)]
            if len(names) + len(left) > len(values):
                return f"sender {sender} has sent {len(values)} jobs"
            wrong = [name for name, value in zip(names, values) if self.values.get(name) != (value if name in ended else None)]
            if wrong:
                return f"{wrong[0]} has not the value of its job of sender {sender}"
            if left != values[len(values) - len(left) :]:
                return f"what is left of sender {sender} is not the last of what it has sent"
            if self.is_shut and len(self.accepts) < count and left:
                return f"jobs of sender {sender} are left beside an intake with room"
            if self.is_shut and len(self.accepts) < count and len(values) != int(manner.split(":")[0]):
                return f"sender {sender} could not send all its jobs"
        return None


def programs(words, room):
    """Senders of all manners beside random scripts."""
    part, folders, total = Part("senders of all manners"), Folders(room), [0]
    senders = os.path.abspath(words.senders) if words.senders else built_senders(tempfile.mkdtemp(dir=room))

    def one(number):
        chance, folder = random.Random(f"{words.seed} program {number}"), folders.mine()
        kind, count = chance.choice(["serial", "concurrent"]), chance.choice(INTAKES)
        end = chance.choice(["drained"] * 5 + ["parked", "barred", "suspended", "misuse"])
        manners, most = manners_of(chance, count), chance.choice([4_294_967_295] * 5 + [1, 30, 3 * count])
        write(folder, script_of(chance, kind, count, end, False))
        asked = ["script", str(chance.choice([1, 2, 3, count])), chance.choice("1248"), str(most), *manners]
        answer = call(senders, asked, folder)
        case = f"program, seed {words.seed}, number {number}: {' '.join(asked)} (its files stand in {folder})"
        if answer.status != 0 or answer.errors:
            part.refuse(case, "status 0 is wanted", answer)
        run = Run(answer.text)
        why = run.why_not(manners, count)
        if why or (end != "drained" and run.state == "drained"):
            part.refuse(case, why or f"{end} is wanted", answer)
        with open(f"{folder}/journal", "wb") as it:
            it.write(answer.text)
        checked = call(words.program, ["check", "script", "journal"], folder)
        if checked.text != f"lawful {len(run.journal)} {run.state}\n".encode():
            part.refuse(case, "its journal is to be lawful, and as it says", checked)
        return len(run.accepts)

    with ThreadPoolExecutor(words.jobs) as pool:
        accepted = sum(pool.map(one, range(words.programs)))
    part.tell(f"{words.programs} runs of seed {words.seed}, {words.jobs} at once: {accepted} jobs, each once and in order")


def main():
    words = words_of(
        __doc__,
        ("--seed", int, 1, "the seed"),
        ("--count", int, 2_000, "how many calls of `gcd front`"),
        ("--programs", int, 2_000, "how many runs of the program"),
        ("--jobs", int, 8, "how many run at once"),
        ("--senders", str, "", "a program that is built already, of hostile/senders"),
    )
    with tempfile.TemporaryDirectory(prefix="gcd-hostile-") as room:
        corners(words, room)
        threads_fail(words, room)
        front(words, room)
        programs(words, room)


if __name__ == "__main__":
    main()
