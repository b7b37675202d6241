#!/usr/bin/env python3
"""Connections: many clients that send, close half, close at once or stay silent; one that breaks off; more than there are descriptors."""

import random
import re
import resource
import socket
import struct
import subprocess
import tempfile
import threading
import time

from common import Part, why_not, words_of, Answer

HOST = "127.0.0.1"
MANNERS = ["sends and closes", "sends late", "closes its half", "closes at once", "stays silent", "sends and stays silent"]


def free_port():
    with socket.socket() as taken:
        taken.bind((HOST, 0))
        return taken.getsockname()[1]


def script_of(feeds):
    """A script with so many feeds, which are activated in their order, so that the k-th takes the k-th connection."""
    lines = [f"source s{k} read tcp on root" for k in range(feeds)] + ["main"] + [f"activate s{k}" for k in range(feeds)]
    return "".join(f"{line}\n" for line in lines)


class Run:
    """A run of the program that listens, over a script with so many feeds."""

    def __init__(self, program, room, feeds, workers, before=()):
        self.port, self.since = free_port(), time.monotonic()
        path = f"{room}/script"
        with open(path, "w", encoding="ascii") as it:
            it.write(script_of(feeds))
        words = [*before, program, "run", path, "--listen", f"{HOST}:{self.port}", "--workers", str(workers)]
        self.process = subprocess.Popen(words, stdin=subprocess.DEVNULL, stdout=subprocess.PIPE, stderr=subprocess.PIPE)

    def connect(self):
        """A connection, as soon as somebody listens."""
        until = time.monotonic() + 30
        while True:
            try:
                return socket.create_connection((HOST, self.port), 30)
            except ConnectionRefusedError:
                if time.monotonic() > until or self.process.poll() is not None:
                    raise
                time.sleep(0.01)

    def answer(self, seconds):
        """What it answers; it is ended where it has not after so many seconds."""
        try:
            text, errors = self.process.communicate(timeout=seconds)
        except subprocess.TimeoutExpired:
            self.process.kill()
            self.process.communicate()
            return Answer(None, b"", b"")
        return Answer(self.process.returncode, text, errors)


class Client:
    """One connection: in which manner it goes on, and what it has sent."""

    def __init__(self, run, chance):
        self.manner, self.sent = chance.choice(MANNERS), 0
        self.socket = run.connect()
        self.pieces = [chance.choice([1, 2, 100, 5000]) for _ in range(chance.randint(1, 4))]
        if self.manner in ("closes at once", "stays silent"):
            self.pieces = []
        self.late = chance.random() * 2 if self.manner == "sends late" else 0

    def send(self):
        for size in self.pieces:
            self.socket.sendall(b"x" * size)
            self.sent += size

    def finish(self):
        """After all that was to be sent: it closes, closes its half, or does nothing more."""
        if self.manner in ("sends and closes", "sends late", "closes at once"):
            self.socket.close()
        elif self.manner == "closes its half":
            self.socket.shutdown(socket.SHUT_WR)


def go_on(clients, chance):
    """All clients go on, in no order, those that are late after the others."""
    in_order = sorted(chance.sample(clients, len(clients)), key=lambda it: it.late)
    since = time.monotonic()
    for client in in_order:
        time.sleep(max(0, client.late - (time.monotonic() - since)))
        client.send()
        client.finish()


def totals_of(text):
    """What each feed was told in all: what was handed over, and what was pending at its end."""
    lines = re.findall(rb"s([0-9]+) received ([0-9]+) in [0-9]+ pending ([0-9]+)\n", text)
    return {int(feed): int(received) + int(pending) for feed, received, pending in lines}


def many(program, room, workers, count, seed):
    """So many connections, and ten feeds to which none comes."""
    part = Part(f"{count} connections, {workers} workers")
    chance = random.Random(f"{seed} {workers}")
    run = Run(program, room, count + 10, workers)
    clients = [Client(run, chance) for _ in range(count)]
    sending = threading.Thread(target=go_on, args=(clients, chance))
    sending.start()
    answer = run.answer(300)
    sending.join()
    why = why_not("run", answer) or (None if answer.status == 0 else "status 0 is wanted")
    if why:
        part.refuse(f"seed {seed}", why, answer)
    totals, wanted = totals_of(answer.text), {k: client.sent for k, client in enumerate(clients)}
    wanted |= {k: 0 for k in range(count, count + 10)}
    wrong = [f"feed {k} ({clients[k].manner if k < count else 'none'}): {wanted[k]}" for k in wanted if totals.get(k) != wanted[k]]
    if wrong or len(totals) != len(wanted):
        part.refuse(f"seed {seed}", f"other totals are wanted: {wrong[:5]}", answer)
    for client in clients:
        client.socket.close()
    part.tell(f"each feed has what its client sent, {sum(wanted.values())} bytes in all, and the run ends")


def broken_off(program, room, workers):
    """One client of three breaks its connection off (a reset): a fault of the poller, which halts the run."""
    part = Part(f"a connection that is reset, {workers} workers")
    run = Run(program, room, 3, workers)
    clients = [run.connect() for _ in range(3)]
    clients[0].sendall(b"x" * 10)
    time.sleep(0.3)
    clients[1].setsockopt(socket.SOL_SOCKET, socket.SO_LINGER, struct.pack("ii", 1, 0))
    clients[1].close()
    answer = run.answer(60)
    why = why_not("run", answer) or (None if answer.status == 5 else "status 5 is wanted")
    if why or totals_of(answer.text) != {0: 10, 1: 0, 2: 0}:
        part.refuse("reset", why or "other totals are wanted", answer)
    for client in clients:
        client.close()
    part.tell("status 5, what had come before is told")


def too_many(program, room, workers):
    """More connections than the process may have descriptors: a fault of the poller."""
    part = Part(f"more connections than descriptors, {workers} workers")
    run = Run(program, room, 60, workers, ["sh", "-c", 'ulimit -n 40; exec "$0" "$@"'])
    clients = []
    try:
        while len(clients) < 60:
            clients.append(run.connect())
    except ConnectionError:
        pass  # the run has ended, and nobody listens any more
    answer = run.answer(60)
    why = why_not("run", answer) or (None if answer.status == 5 else "status 5 is wanted")
    if why or len(clients) < 30:
        part.refuse(f"{len(clients)} connections, 40 descriptors", why or "too few were accepted", answer)
    for client in clients:
        client.close()
    part.tell("status 5")


def unheard(program, room, workers):
    """More connections than feeds: those that are left over are never accepted, and the run does not wait for them."""
    part = Part(f"more connections than feeds, {workers} workers")
    run = Run(program, room, 2, workers)
    clients = [run.connect() for _ in range(20)]
    for client in clients:
        try:
            client.sendall(b"abc")
        except ConnectionError:
            pass  # the run has ended, and this client was never accepted
        client.close()
    answer = run.answer(60)
    if why_not("run", answer) or answer.status or totals_of(answer.text) != {0: 3, 1: 3}:
        part.refuse("20 connections, 2 feeds", "a run that drains is wanted", answer)
    part.tell("the feeds have what the first clients sent")


def main():
    words = words_of(__doc__, ("--seed", int, 1, "the seed"), ("--count", int, 1000, "how many connections"))
    wanted = words.count + 100
    _, most = resource.getrlimit(resource.RLIMIT_NOFILE)
    resource.setrlimit(resource.RLIMIT_NOFILE, (wanted if most == resource.RLIM_INFINITY else min(wanted, most), most))
    with tempfile.TemporaryDirectory(prefix="gcd-hostile-") as room:
        for workers in (1, 4):
            many(words.program, room, workers, words.count, words.seed)
            broken_off(words.program, room, workers)
            too_many(words.program, room, workers)
            unheard(words.program, room, workers)


if __name__ == "__main__":
    main()
