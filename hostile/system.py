#!/usr/bin/env python3
"""The system refuses: each of its calls in turn, the output, the files, the descriptors, the addresses; and it stops the program."""

import errno
import os
import re
import resource
import signal
import socket
import subprocess
import threading
import time

from common import TOP, USAGE, Answer, Part, call, why_not, words_of
from refused import FOLDER, each_refused, going_on, is_same

HERE = f"{TOP}/examples"
READ_FAULT = b"read fault\n"
RUN = "file f first/log.txt\nsource r read feed/text.txt on root\nsource t timer 3 3 on root\nuntil 9\nblock b lines f\n"
RUN += "main\nasync root b\nactivate r\nactivate t\n"
HEARD = "source r read tcp on root\nmain\nactivate r\n"

# The calls of the C library, the errors that are told, and the number of the last that is tried.
OF_FILES = [("open", (errno.ENOENT, errno.EMFILE)), ("statx", (errno.EACCES,)), ("read", (errno.EIO, errno.EINTR, 0))]
OF_SOCKETS = [
    ("socket", (errno.EMFILE,)),
    ("setsockopt", (errno.EINVAL,)),
    ("bind", (errno.EADDRINUSE,)),
    ("listen", (errno.EADDRINUSE,)),
    ("accept4", (errno.EMFILE, errno.ECONNABORTED, errno.EINTR)),
    ("recv", (errno.ECONNRESET, errno.EINTR, 0)),
    ("epoll_create1", (errno.EMFILE,)),
    ("epoll_ctl", (errno.ENOSPC,)),
    ("epoll_wait", (errno.EINTR, errno.EBADF)),
]


def is_alike(answer, ample):
    """The same but for the numbers of deliveries, which the real clock and the real network decide."""
    texts = [re.sub(rb" in [0-9]+ pending 0\n", b"", it.text) for it in (answer, ample)]
    return answer.status == ample.status and not answer.errors and texts[0] == texts[1]


def is_alike_or_fault(answer, ample):
    return is_alike(answer, ample) or (answer.status == 5 and answer.text.endswith(READ_FAULT) and not answer.errors)


def is_prefix(answer, ample):
    return answer.status == 6 and ample.text.startswith(answer.text) and answer.text != ample.text and not answer.errors


def try_calls(part, program, words, calls, is_allowed, meanwhile=None):
    """Each call that is named, refused in turn by each of its errors; how many were."""
    heard = meanwhile() if meanwhile else None
    ample = call(program, words, HERE)
    if heard:
        heard.join()
    if why_not(words[0], ample):
        part.refuse(" ".join(words), "nothing is refused", ample)
    count = 0
    for name, errors in calls:
        for error in errors:
            for number, answer in tried(program, words, name, error, meanwhile):
                if not (is_allowed(answer, ample) if number else is_alike(answer, ample)):
                    told = errno.errorcode.get(error, "one byte")
                    part.refuse(f"{' '.join(words)}: {name} {number}: {told}", "not allowed", answer)
                count += number is not None
    return count


def tried(program, words, name, error, meanwhile):
    """The runs to which one call more each is refused; beside each the client is at work, where there is one."""
    most = 12 if meanwhile else 400
    heard = meanwhile() if meanwhile else None
    for found in each_refused(program, words, name, most, error=error, folder=HERE, seconds=60):
        if heard:
            heard.join()
        yield found
        heard = meanwhile() if meanwhile else None
    if heard:
        heard.join()


def client(port):
    """A client that lets the program wait for it, and for what it sends in two pieces; it gives up after two seconds."""

    def send():
        time.sleep(0.05)
        until = time.monotonic() + 2
        while time.monotonic() < until:
            try:
                with socket.create_connection(("127.0.0.1", port), 1) as sent:
                    for piece in (b"hello ", b"world\n"):
                        time.sleep(0.03)
                        sent.sendall(piece)
                return
            except OSError:
                time.sleep(0.002)

    thread = threading.Thread(target=send)
    thread.start()
    return thread


def free_port():
    with socket.socket() as taken:
        taken.bind(("127.0.0.1", 0))
        return taken.getsockname()[1]


def calls_fail(program):
    part = Part("each call of the system fails in its turn")
    script, heard = f"{FOLDER.name}/run", f"{FOLDER.name}/heard"
    for path, text in ((script, RUN), (heard, HEARD)):
        with open(path, "w", encoding="ascii") as it:
            it.write(text)
    count = try_calls(part, program, ["run", "first/script", "--journal"], OF_FILES, is_alike_or_fault)
    count += try_calls(part, program, ["run", script], OF_FILES + OF_SOCKETS, is_alike_or_fault)
    count += try_calls(part, program, ["check", "first/script", "check_a_journal/journal"], OF_FILES, is_alike_or_fault)
    count += try_calls(part, program, ["run", "first/script", "--listen", "127.0.0.1:0"], OF_SOCKETS, is_alike_or_fault)
    port = free_port()
    words = ["run", heard, "--listen", f"127.0.0.1:{port}"]
    count += try_calls(part, program, words, OF_SOCKETS, is_alike_or_fault, lambda: client(port))
    count += try_calls(part, program, ["big", "300"], [("write", (errno.EIO, errno.ENOSPC))], is_prefix)
    count += try_calls(part, program, ["big", "300"], [("write", (0,))], is_same)
    part.tell(f"{count} refusals: a read fault, a prefix of the text, or the same answer")


def threads_fail(program):
    """Each thread that a team asks for is refused, alone and with all later ones: the run goes on with those that there are."""
    part, count = Part("threads are refused"), 0
    beside = f"{FOLDER.name}/beside"
    with open(beside, "w", encoding="ascii") as it:
        it.write("queue q concurrent\nintake q 64\nmain\n")
    # Its read source is never activated; with it there is a team whatever the works cost.
    team = f"{FOLDER.name}/team"
    with open(team, "w", encoding="ascii") as it:
        it.write("source r read team on root\nqueue q serial\nblock a\nblock b\nblock c\nmain\nasync q a\nasync root b\nasync root c\n")
    teams = [["run", team, "--workers", "2"], ["run", team, "--workers", "64"], ["run", going_on(), "--workers", "4"]]
    for words in (*teams, ["front", beside, "8"]):
        ample, before = call(program, words, HERE), count
        for later in (False, True):
            for number, answer in each_refused(program, words, "pthread_create", later=later, error=errno.EAGAIN, folder=HERE):
                if why_not(words[0], answer) or not is_same(answer, ample):
                    part.refuse(f"{' '.join(words)}: thread {number}{' and all later' if later else ''}", "not allowed", answer)
                count += number is not None
        if count == before:
            part.refuse(" ".join(words), "it asks for no thread", ample)
    part.tell(f"{count} refusals get the answer of all threads")


def output_fails(program):
    """The output is full, closed, or a pipe that nobody reads."""
    part = Part("the output is refused")
    words = ["run", "first/script", "--journal"]
    with open("/dev/full", "wb") as full:
        answer = call(program, words, HERE, stdout=full)
    if answer.status != 6 or answer.errors:
        part.refuse("a full device", "status 6 is wanted", answer)
    answer = call(program, words, HERE, stdout=None, preexec_fn=lambda: os.close(1))
    if answer.status != 6 or answer.errors:
        part.refuse("closed", "status 6 is wanted", answer)
    unread, written = os.pipe()
    os.close(unread)
    answer = call(program, words, HERE, stdout=written)
    os.close(written)
    if answer.status != 6 or answer.errors:
        part.refuse("a pipe without a reader", "status 6 is wanted", answer)
    part.tell("a full device, a closed descriptor and a pipe without a reader get status 6")


def long_pipe(program):
    """A reader that goes away after the first bytes of a long text."""
    part = Part("a reader goes away")
    script = f"{FOLDER.name}/long"
    with open(script, "w", encoding="ascii") as it:
        it.write("semaphore s 0\nmain\n" + "signal s\n" * 60_000)
    words = [program, "run", script, "--journal"]
    with subprocess.Popen(words, stdout=subprocess.PIPE, stderr=subprocess.PIPE) as run:
        told = run.stdout.read(1_000)
        run.stdout.close()
        status, errors = run.wait(60), Answer(0, b"", run.stderr.read()).errors
    if status != 6 or errors or not told.startswith(b"start 0 main\nact 0 main 0\n"):
        part.refuse("a long journal", f"status {status}", errors)
    part.tell("status 6")


NAMES = [
    ("a script that is not there", ["run", "nowhere"], 5),
    ("a script that is a folder", ["run", "first"], 5),
    ("a script without a name", ["run", ""], 5),
    ("a script with a long name", ["run", "x" * 5000], 5),
    ("a path that goes through a file", ["run", "first/script/script"], 5),
    ("a name that is no text", ["run", b"\xff\xfe"], 2),
    ("a name with a line feed", ["run", "a\nb"], 5),
    ("a script that does not end", ["run", "/dev/zero"], 3),
    ("an empty script", ["run", "/dev/null"], 3),
    ("a journal that is not there", ["check", "first/script", "nowhere"], 5),
    ("a journal that is a folder", ["check", "first/script", "first"], 5),
    ("a journal that does not end", ["check", "first/script", "/dev/zero"], 9),
    ("an empty journal", ["check", "first/script", "/dev/null"], 9),
]
PATHS = [("nowhere", 5), ("first", 5), (".", 5), ("/dev/zero", 3), ("/dev/null", 0), ("x/" * 127, 5)]
FEEDS = [("nowhere", 5), ("first", 5), ("/dev/zero", 5), ("/dev/null", 5), ("tcp", 5), ("first/log.txt", 0)]
ADDRESSES = ["", "x", "127.0.0.1", "127.0.0.1:", "127.0.0.1:99999", ":80", "999.1.1.1:80", "192.0.2.1:80", "[::1", "localhost:80"]


def expect(part, program, case, words, status):
    answer = call(program, words, HERE)
    why = why_not(os.fsdecode(words[0]), answer)
    if why or answer.status != status:
        part.refuse(case, why or f"status {status} is wanted", answer)


def names_fail(program):
    """What is named is not there, is no file, does not end, or is no address."""
    part = Part("names that lead nowhere")
    for case, words, status in NAMES:
        expect(part, program, case, words, status)
    script = f"{FOLDER.name}/named"
    for line, paths in (("file f {}\nmain\n", PATHS), ("source r read {} on root\nmain\nactivate r\n", FEEDS)):
        for path, status in paths:
            with open(script, "w", encoding="ascii") as it:
                it.write(line.format(path))
            expect(part, program, line.format(path), ["run", script], status)
    with socket.socket() as taken:
        taken.bind(("127.0.0.1", 0))
        taken.listen()
        for address in [*ADDRESSES, "127.0.0.1:%d" % taken.getsockname()[1]]:
            answer = call(program, ["run", "first/script", "--listen", address], HERE)
            if (answer.status, answer.text, answer.errors) != (5, READ_FAULT, b""):
                part.refuse(f"the address {address!r}", "a read fault is wanted", answer)
    part.tell(f"{len(NAMES) + len(PATHS) + len(FEEDS) + len(ADDRESSES) + 1} names have their status")


def few_descriptors(program):
    """The process may have so many open descriptors, from 3 on."""
    part = Part("few descriptors")
    script = f"{FOLDER.name}/run"
    listening, checking = ["run", "first/script", "--listen", "127.0.0.1:0"], ["check", "first/script", "check_a_journal/journal"]
    for words in (["run", script], listening, checking):
        ample = call(program, words, HERE)
        for most in range(4, 13):
            # The process itself starts with what it needs, so the limit is set in the program's place.
            limit = ["sh", "-c", f'ulimit -n {most}; exec "$0" "$@"', program]
            answer = call(limit[0], [*limit[1:], *words], HERE)
            if not is_alike_or_fault(answer, ample):
                part.refuse(f"{' '.join(words)}: {most} descriptors", "not allowed", answer)
    part.tell("a read fault, or the answer of ample descriptors")


def is_stopped(program):
    """The program is stopped and goes on, while it waits for a timer, and while it waits for a connection."""
    part = Part("stopped and continued")
    port, heard, timed = free_port(), f"{FOLDER.name}/heard", f"{FOLDER.name}/timed"
    with open(timed, "w", encoding="ascii") as it:
        it.write("source t timer 100 100 on root\nuntil 1000\nmain\nactivate t\n")
    for words in (["run", timed], ["run", heard, "--listen", f"127.0.0.1:{port}"]):
        with subprocess.Popen([program, *words], stdout=subprocess.PIPE, stderr=subprocess.PIPE) as run:
            for _ in range(6):
                time.sleep(0.1)
                os.kill(run.pid, signal.SIGSTOP)
                time.sleep(0.02)
                os.kill(run.pid, signal.SIGCONT)
            if words[1] == heard:
                client(port).join()
            text, errors = run.communicate(timeout=60)
        errors = Answer(0, b"", errors).errors
        if run.returncode or errors or not re.fullmatch(rb"[rt] received (10|12) in \d+ pending 0\ndrained\n", text):
            part.refuse(" ".join(words), f"status {run.returncode}", text + errors)
    part.tell("the runs end as they would have")


def main():
    program = words_of(__doc__).program
    resource.setrlimit(resource.RLIMIT_CORE, (0, 0))
    calls_fail(program)
    threads_fail(program)
    output_fails(program)
    long_pipe(program)
    names_fail(program)
    few_descriptors(program)
    is_stopped(program)
    FOLDER.cleanup()


if __name__ == "__main__":
    main()
