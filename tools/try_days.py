#!/usr/bin/env python3
"""A server's weeks in minutes: recorders, crawlers that come again, readers and clients that hang up, all at once; the server and a replica's follower
are ended by SIGKILL again and again, and the disk gets full and is emptied. At the end nothing that was acknowledged may be lost.

    try_days.py PROGRAM [--rounds N] [--seconds S] [--small FOLDER] [--folder FOLDER]

The server's archive lies below --small, a small file system of its own (`mount -t tmpfs -o size=600m tmpfs FOLDER`), the replica's below --folder.
"""
import argparse
import http.client
import os
import random
import socket
import subprocess
import tempfile
import threading
import time

import try_follow as f
import try_server as t


class Returner(t.Client):
    """Records the same few targets again and again, so that most of them become revisits."""

    def path_of(self, number):
        return f"/again/{number % 50}"


class Reader(threading.Thread):
    """Reads back what others were answered, by date, by number, as a list and by a query; notes what is wrong."""

    def __init__(self, port, origin_port, known):
        super().__init__(daemon=True)
        self.port, self.origin_port, self.known = port, origin_port, known
        self.read, self.wrong = 0, []
        self.over = threading.Event()

    def run(self):
        while not self.over.is_set():
            if not self.known:
                time.sleep(0.05)
                continue
            path = random.choice(self.known)
            target = f"http://127.0.0.1:{self.origin_port}{path}"
            try:
                self.look(path, target)
            except (OSError, http.client.HTTPException):
                time.sleep(0.01)

    def look(self, path, target):
        what = random.randrange(4)
        if what == 0:
            status, body = t.followed(self.port, f"/web/99991231235959id_/{target}")
            if status != 200 or body != t.body_of(path):
                self.wrong.append((path, status))
        elif what == 1:
            status, _ = t.get(self.port, "/web/rec/0")
            if status != 200:
                self.wrong.append(("rec", status))
        elif what == 2:
            status, body = t.get(self.port, f"/web/timemap/link/{target}")
            if status != 200 or target.encode() not in body:
                self.wrong.append(("timemap", status))
        else:
            status, body = t.get(self.port, f"/web/cdx?url={target}&limit=3")
            if status != 200 or not body:
                self.wrong.append(("query", status))
        self.read += 1


class Dropper(threading.Thread):
    """Opens connections and drops them, some within a request."""

    def __init__(self, port):
        super().__init__(daemon=True)
        self.port, self.over = port, threading.Event()

    def run(self):
        while not self.over.is_set():
            try:
                with socket.create_connection(("localhost", self.port), timeout=10) as it:
                    if random.random() < 0.5:
                        it.sendall(b"GET http://127.0.0.1/ HTTP/1.1\r\nHo")
            except OSError:
                pass
            time.sleep(0.01)


class Follower(threading.Thread):
    """Follows the server again and again, ended by SIGKILL after a while."""

    def __init__(self, program, replica, port):
        super().__init__(daemon=True)
        self.program, self.replica, self.port = program, replica, port
        self.over = threading.Event()

    def run(self):
        while not self.over.is_set():
            f.followed(self.program, self.replica, self.port, random.uniform(0.05, 2))


def fill(small):
    """Leaves no room in the small file system; the file to remove."""
    filler = os.path.join(small, "filler")
    with open(filler, "wb") as it:
        try:
            while True:
                it.write(b"x" * 65536)
        except OSError:
            pass
    return filler


def round_of(given, number, folders, origin, known):
    """One start of the server to its end; how many were refused, read and wrong."""
    source, replica = folders
    server = t.Program(given.program, source, 16)
    clients = [t.Client(server.port, origin, f"d{number}-{n}", keep=n % 2 == 0) for n in range(10)]
    clients += [Returner(server.port, origin, f"a{number}-{n}") for n in range(2)]
    readers = [Reader(server.port, origin, list(known)) for _ in range(2)]
    others = readers + [Dropper(server.port), Follower(given.program, replica, server.port)]
    for it in clients + others:
        it.start()
    time.sleep(random.uniform(0.2, given.seconds))
    if given.small and number % 3 == 2:
        filler = fill(given.small)
        time.sleep(given.seconds / 2)
        os.unlink(filler)
        time.sleep(given.seconds / 2)
    # the readers end before the server does, so that none of them is cut off by its end
    for it in readers:
        it.over.set()
    for it in readers:
        it.join(70)
    server.kill()
    for it in clients + others:
        it.over.set()
    for it in clients + others:
        it.join(70)
    for it in clients:
        known += it.answered
    wrong = [w for it in clients for w in it.wrong] + [w for it in readers for w in it.wrong]
    return sum(len(it.refused) for it in clients), sum(it.read for it in readers), wrong


def said(program, folder, *words):
    return subprocess.run([program, *words], cwd=folder, capture_output=True, text=True).stdout.strip()


def main():
    words = argparse.ArgumentParser(description=__doc__, formatter_class=argparse.RawDescriptionHelpFormatter)
    words.add_argument("program")
    words.add_argument("--folder", default=".")
    words.add_argument("--small")
    words.add_argument("--seconds", type=float, default=4)
    words.add_argument("--rounds", type=int, default=30)
    given = words.parse_args()
    given.program = os.path.abspath(given.program)
    origin, known, begun = t.origin(), [], time.time()
    with tempfile.TemporaryDirectory(dir=given.small or given.folder) as source, tempfile.TemporaryDirectory(dir=given.folder) as replica:
        refused, read, wrong = 0, 0, []
        for number in range(given.rounds):
            more = round_of(given, number, (source, replica), origin, known)
            refused, read, wrong = refused + more[0], read + more[1], wrong + more[2]
            print(f"{number + 1} rounds, {len(known)} exchanges answered, {refused} refused, {read} read back, {len(wrong)} wrong {wrong[:2]}", flush=True)
        server = t.Program(given.program, source, 4)
        # a capture more, so that what a kill left unfinished is cut off on both sides
        t.get(server.port, f"http://127.0.0.1:{origin}/last")
        f.followed(given.program, replica, server.port)
        lost = t.replayed(server, origin, known)
        server.kill()
        same = "equal" if f.volumes_of(source) == f.volumes_of(replica) else "DIFFERENT"
        print(f"{time.time() - begun:.0f} s: {len(lost)} not replayed as answered {lost[:3]}; the volumes of source and replica are {same}")
        for folder in (source, replica):
            print(said(given.program, folder, "check"), "|", said(given.program, folder, "verify", "4").replace("\n", ", "))


if __name__ == "__main__":
    main()
