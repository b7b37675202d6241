#!/usr/bin/env python3
"""Long runs: many more events than the row has cells, by one and by several workers. Each ends, with what was sent, and its journal is
judged by `gcd check` where a journal may be so long.

Memory is the most that the run's process had, and is told for each event.
"""

import os
import re
import resource
import tempfile

from common import Part, call, words_of

MEBIBYTE = 1 << 20
LONGEST_JOURNAL = 16 * MEBIBYTE
# A read source that is never activated: with it a team runs the script whatever its works cost.
FEED = "source feed read script on root\n"


def write(room, name, text):
    with open(f"{room}/{name}", "w", encoding="ascii") as it:
        it.write(text)


def peak(program, words, room, seconds):
    """The answer of a call, and the most memory that its process had, in bytes."""
    pid = os.fork()
    if pid == 0:
        answer = call(program, words, room, seconds)
        with open(f"{room}/answer", "wb") as it:
            it.write(b"%d\n" % (-1 if answer.status is None else answer.status) + answer.errors + b"\n" + answer.text)
        kib = resource.getrusage(resource.RUSAGE_CHILDREN).ru_maxrss
        write(room, "peak", str(kib))
        os._exit(0)
    os.waitpid(pid, 0)
    with open(f"{room}/answer", "rb") as it:
        status, errors, text = it.read().split(b"\n", 2)
    with open(f"{room}/peak", encoding="ascii") as it:
        return (int(status), errors, text), int(it.read()) * 1024


def want(part, case, answer, status, form):
    """The numbers of the report, where the answer has this status and form."""
    found = re.fullmatch(form, answer[2]) if answer[0] == status and not answer[1] else None
    if not found:
        part.refuse(case, f"status {status} and {form!r} are wanted", (answer[0], answer[1][-300:], answer[2][-300:]))
    return found


def judged(part, program, room, case, workers, seconds):
    """The number of events of the script's journal, which is lawful and drained; None where it is longer than a journal may be."""
    answer = call(program, ["run", "script", "--journal", "--workers", str(workers)], room, seconds)
    if answer.status != 0 or answer.errors:
        part.refuse(case, "a run that drains is wanted", answer)
    events = int(re.search(rb"(?m)^events ([0-9]+)$", answer.text)[1])
    if len(answer.text) > LONGEST_JOURNAL:
        return events, False
    with open(f"{room}/journal", "wb") as it:
        it.write(answer.text)
    checked = call(program, ["check", "script", "journal"], room, seconds)
    if (checked.status, checked.text, checked.errors) != (0, b"lawful %d drained\n" % events, b""):
        part.refuse(case, "a lawful journal is wanted", checked)
    return events, True


def feed(program, room, mebibytes, seconds):
    """A read source over a file of so many mebibytes."""
    part = Part("feed")
    told = []
    size = mebibytes * MEBIBYTE
    with open(f"{room}/feed", "wb") as it:
        it.truncate(size)
    write(room, "script", "source r read feed on root\nhandler r\nmain\nactivate r\n")
    for workers in (1, 4):
        case = f"{mebibytes} MiB, {workers} workers"
        answer, _ = peak(program, ["run", "script", "--workers", str(workers)], room, seconds)
        want(part, case, answer, 0, rb"r received %d in [0-9]+ pending 0\ndrained\n" % size)
        events, is_judged = judged(part, program, room, case, workers, seconds)
        told.append(f"{events} events by {workers}{', judged' if is_judged else ''}")
    part.tell(f"{mebibytes} MiB come as they were sent: {'; '.join(told)}")


def merges(program, room, events, seconds):
    """A handler that merges into its own source, for so many events: what a run keeps of an event."""
    part = Part("merges")
    write(room, "script", "source s add on root\nhandler s\nmerge s 1\nmain\nactivate s\nmerge s 1\n")
    told = []
    for workers in (1, 4):
        answer, most = peak(program, ["run", "script", "--workers", str(workers), "--most", str(events)], room, seconds)
        passes = (events - 3) // 3
        found = want(part, f"{workers} workers", answer, 8, rb"s received ([0-9]+) in ([0-9]+) pending ([0-9]+)\nfull\n")
        if not passes - 1 <= int(found[2]) <= passes + 1 or int(found[1]) + int(found[3]) > passes + 2:
            part.refuse(f"{workers} workers", f"some {passes} deliveries are wanted", answer)
        told.append(f"{most / events:.1f} bytes an event by {workers}")
    part.tell(f"{events} events; {', '.join(told)}")


def signals(program, room, seconds):
    """As many events of one block as there may be acts: the row's cells are used sixteen times."""
    part = Part("signals")
    write(room, "script", FEED + "semaphore s 0\nmain\n" + "signal s\n" * 65_534)
    for workers in (1, 2, 4, 64):
        events, _ = judged(part, program, room, f"{workers} workers", workers, seconds)
        if events != 65_536:
            part.refuse(f"{workers} workers", "65536 events are wanted", events)
    part.tell("65536 events by 1, 2, 4 and 64 workers")


def long_block(program, room, seconds):
    """A long block beside many short ones: its worker passes nothing on, and the others wait for it after 4,096 events."""
    part = Part("long block")
    with open(f"{room}/long", "wb") as it:
        it.truncate(16 * MEBIBYTE)
    write(room, "short", "a line\n" * 100)
    lines = [FEED.strip(), "file f short", "queue q concurrent", "queue z concurrent"]
    lines += [f"file l{k} long" for k in range(4)]
    lines += [f"block z{k} words l{k}" for k in range(4)]
    lines += [f"block b{k} lines f" for k in range(16_000)]
    lines += ["main", *[f"async z z{k}" for k in range(4)], *[f"async q b{k}" for k in range(16_000)]]
    write(room, "script", "\n".join(lines) + "\n")
    for workers in (2, 4, 64):
        events, _ = judged(part, program, room, f"{workers} workers", workers, seconds)
        if events != 3 * 16_004 + 2:
            part.refuse(f"{workers} workers", "another number of events is wanted", events)
    part.tell(f"four blocks over 16 MiB beside 16,000 over 700 bytes, by 2, 4 and 64 workers: {events} events")


def main():
    words = words_of(
        __doc__,
        ("--mebibytes", int, 1024, "how long the feed is"),
        ("--events", int, 10_000_000, "how many events the longest run has"),
        ("--seconds", int, 300, "the limit of time of a call"),
    )
    resource.setrlimit(resource.RLIMIT_CORE, (0, 0))
    with tempfile.TemporaryDirectory(prefix="gcd-hostile-") as room:
        signals(words.program, room, words.seconds)
        feed(words.program, room, words.mebibytes, words.seconds)
        merges(words.program, room, words.events, words.seconds)
        long_block(words.program, room, words.seconds)


if __name__ == "__main__":
    main()
