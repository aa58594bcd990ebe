#!/usr/bin/env python3
"""Tries the server by hand, and sees whether it loses anything or starves anybody.

    try_server.py kills PROGRAM     ends it by SIGKILL under load, again and again, and replays all that clients were answered
    try_server.py drops PROGRAM     connections that are opened and dropped, and an exchange after them
    try_server.py slow PROGRAM      one client of a byte a second beside fifteen others
    try_server.py full PROGRAM      a disk that gets full and is emptied again; --folder is a small file system of its own

PROGRAM is the program's file. Each try works in a new folder below --folder and starts an origin of its own on the loopback.
"""
import argparse
import hashlib
import http.client
import os
import random
import signal
import socket
import socketserver
import subprocess
import sys
import tempfile
import threading
import time

NAMESPACE = "67e55044-10b1-426f-9247-bb680e5fe0c8"


# ---- the origin

def body_of(path):
    """The body of a path: of a length, and with bytes, that the path alone decides; every fifth is one of seven that many paths share."""
    seed = hashlib.sha256(path.encode()).digest()
    if seed[0] % 5 == 0:
        seed = hashlib.sha256(bytes([seed[1] % 7])).digest()
    length = int.from_bytes(seed[2:4], "big") % 20000
    if seed[4] % 50 == 0:
        length *= 20
    return (seed * (length // 32 + 1))[:length]


class Origin(socketserver.StreamRequestHandler):
    """Answers each request by the body of its path, some in chunks."""

    def handle(self):
        line = self.rfile.readline(65536).decode("latin-1").split()
        while self.rfile.readline(65536) not in (b"\r\n", b"\n", b""):
            pass
        if len(line) < 2:
            return
        body = body_of(line[1])
        head = b"HTTP/1.1 200 OK\r\nContent-Type: application/octet-stream\r\nConnection: close\r\n"
        if len(body) % 3 == 0:
            out = head + b"Transfer-Encoding: chunked\r\n\r\n"
            for at in range(0, len(body), 4096):
                piece = body[at:at + 4096]
                out += b"%x\r\n%s\r\n" % (len(piece), piece)
            out += b"0\r\n\r\n"
        else:
            out = head + b"Content-Length: %d\r\n\r\n%s" % (len(body), body)
        self.wfile.write(out)


class Origins(socketserver.ThreadingTCPServer):
    daemon_threads = True
    allow_reuse_address = True
    request_queue_size = 1024

    def handle_error(self, request, address):
        pass


def origin():
    """An origin that runs; its port."""
    server = Origins(("127.0.0.1", 0), Origin)
    threading.Thread(target=server.serve_forever, daemon=True).start()
    return server.server_address[1]


# ---- the program

class Program:
    """The server over the archive of a folder."""

    def __init__(self, program, folder, workers):
        self.port = free_port()
        self.process = subprocess.Popen(
            [os.path.abspath(program), "serve", NAMESPACE, f"http://localhost:{self.port}", str(workers)],
            cwd=folder, stdin=subprocess.DEVNULL, stdout=subprocess.PIPE, stderr=subprocess.PIPE, text=True)
        self.lines = []
        self.ready = threading.Event()
        threading.Thread(target=self.listen, daemon=True).start()
        if not self.ready.wait(300):
            sys.exit(f"the server doesn't listen: {self.lines}, status {self.process.poll()}")

    def listen(self):
        for line in self.process.stderr:
            self.lines.append(line.rstrip())
            if "listening on" in line:
                self.ready.set()

    def kill(self):
        self.process.send_signal(signal.SIGKILL)
        self.process.wait()


def free_port():
    with socket.socket() as it:
        it.bind(("127.0.0.1", 0))
        return it.getsockname()[1]


def get(port, target, connection=None):
    """The status and the body of an answer; the connection that is given is kept."""
    own = connection or http.client.HTTPConnection("localhost", port, timeout=60)
    own.request("GET", target, headers={"Accept-Encoding": "identity"})
    answer = own.getresponse()
    body = answer.read()
    if connection is None:
        own.close()
    return answer.status, body


class Client(threading.Thread):
    """Records one target after the other until it is told to stop, and notes those that were answered whole."""

    def __init__(self, port, origin_port, name, keep=True):
        super().__init__(daemon=True)
        self.port, self.origin_port, self.title, self.keep = port, origin_port, name, keep
        self.answered, self.refused, self.wrong = [], [], []
        self.over = threading.Event()

    def path_of(self, number):
        return f"/{self.title}/{number}"

    def run(self):
        number, connection = 0, None
        while not self.over.is_set():
            path = self.path_of(number)
            number += 1
            try:
                if connection is None:
                    connection = http.client.HTTPConnection("localhost", self.port, timeout=60)
                status, body = get(self.port, f"http://127.0.0.1:{self.origin_port}{path}", connection)
            except (OSError, http.client.HTTPException):
                connection = None
                time.sleep(0.01)
                continue
            if not self.keep or number % 900 == 0:
                connection.close()
                connection = None
            if status != 200:
                self.refused.append((path, status))
            elif body != body_of(path):
                self.wrong.append(path)
            else:
                self.answered.append(path)


def together(clients, seconds):
    """Has the clients work for so long."""
    for it in clients:
        it.start()
    time.sleep(seconds)
    for it in clients:
        it.over.set()
    for it in clients:
        it.join(70)


# ---- the tries

def replayed(program, port, paths):
    """The paths whose latest capture isn't what was answered."""
    lost, connection = [], None
    for at, path in enumerate(paths):
        if at % 900 == 0:
            connection = http.client.HTTPConnection("localhost", program.port, timeout=60)
        target = f"/web/99991231235959id_/http://127.0.0.1:{port}{path}"
        status, body = get(program.port, target, connection)
        if status in (302, 307):
            connection = http.client.HTTPConnection("localhost", program.port, timeout=60)
            status, body = followed(program.port, target)
        if status != 200 or body != body_of(path):
            lost.append((path, status))
    return lost


def followed(port, target):
    """The answer behind redirects."""
    for _ in range(5):
        connection = http.client.HTTPConnection("localhost", port, timeout=60)
        connection.request("GET", target)
        answer = connection.getresponse()
        body = answer.read()
        if answer.status not in (302, 307):
            return answer.status, body
        target = answer.getheader("Location").split(f":{port}", 1)[1]
    return 0, b""


def kills(given):
    port, answered, wrong = origin(), [], 0
    with tempfile.TemporaryDirectory(dir=given.folder) as folder:
        for turn in range(given.rounds):
            program = Program(given.program, folder, 16)
            clients = [Client(program.port, port, f"k{turn}-{n}", keep=n % 2 == 0) for n in range(16)]
            for it in clients:
                it.start()
            time.sleep(random.uniform(0.1, given.seconds))
            program.kill()
            for it in clients:
                it.over.set()
            for it in clients:
                it.join(70)
                answered += it.answered
                wrong += len(it.wrong)
            if (turn + 1) % 50 == 0:
                print(f"{turn + 1} kills, {len(answered)} exchanges answered", flush=True)
        program = Program(given.program, folder, 16)
        lost = replayed(program, port, answered)
        program.kill()
        print(f"{given.rounds} kills: {len(answered)} exchanges answered, {wrong} of them wrong, {len(lost)} not replayed as answered {lost[:3]}")


def drops(given):
    port = origin()
    with tempfile.TemporaryDirectory(dir=given.folder) as folder:
        program = Program(given.program, folder, 16)
        begun = time.time()
        for number in range(given.rounds * 50):
            with socket.create_connection(("localhost", program.port), timeout=30) as it:
                if number % 3 == 0:
                    it.sendall(b"GET http://127.0.0.1/ HTTP/1.1\r\nHo")
        taken = time.time() - begun
        begun = time.time()
        status, body = get(program.port, f"http://127.0.0.1:{port}/after")
        print(f"{given.rounds * 50} connections opened and dropped in {taken:.1f} s; the next exchange: {status}, "
              f"{'as sent' if body == body_of('/after') else 'wrong'}, after {time.time() - begun:.2f} s; {len(program.lines)} lines of faults")
        program.kill()


def slow(given):
    port = origin()
    with tempfile.TemporaryDirectory(dir=given.folder) as folder:
        for with_slow in (False, True):
            program = Program(given.program, folder, 16)
            if with_slow:
                crawl = socket.create_connection(("localhost", program.port))

                def drip():
                    for byte in f"GET http://127.0.0.1:{port}/slow HTTP/1.1\r\nHost: 127.0.0.1:{port}\r\n\r\n".encode():
                        try:
                            crawl.sendall(bytes([byte]))
                        except OSError:
                            return
                        time.sleep(1)
                threading.Thread(target=drip, daemon=True).start()
            clients = [Client(program.port, port, f"s{int(with_slow)}-{n}") for n in range(15)]
            together(clients, given.seconds)
            program.kill()
            count = sum(len(it.answered) for it in clients)
            print(f"fifteen clients {'beside a slow one' if with_slow else 'alone'}: {count / given.seconds:.0f} exchanges a second", flush=True)


def full(given):
    port = origin()
    with tempfile.TemporaryDirectory(dir=given.folder) as folder:
        program = Program(given.program, folder, 4)
        clients = [Client(program.port, port, f"f{n}") for n in range(4)]
        filler = os.path.join(given.folder, "filler")
        with open(filler, "wb") as it:
            try:
                while True:
                    it.write(b"x" * 65536)
            except OSError:
                pass
        for it in clients:
            it.start()
        time.sleep(given.seconds)
        refused = sum(len(it.refused) for it in clients)
        statuses = sorted({s for it in clients for _, s in it.refused})
        before = sum(len(it.answered) for it in clients)
        os.unlink(filler)
        time.sleep(given.seconds)
        for it in clients:
            it.over.set()
        for it in clients:
            it.join(70)
        after = sum(len(it.answered) for it in clients) - before
        lost = replayed(program, port, [path for it in clients for path in it.answered])
        program.kill()
        print(f"while full: {before} stored, {refused} refused with {statuses}; emptied: {after} stored; {len(lost)} lost")


def main():
    words = argparse.ArgumentParser(description=__doc__, formatter_class=argparse.RawDescriptionHelpFormatter)
    words.add_argument("what", choices=["kills", "drops", "slow", "full"])
    words.add_argument("program")
    words.add_argument("--folder", default=".")
    words.add_argument("--seconds", type=float, default=5)
    words.add_argument("--rounds", type=int, default=200)
    given = words.parse_args()
    {"kills": kills, "drops": drops, "slow": slow, "full": full}[given.what](given)


if __name__ == "__main__":
    main()
