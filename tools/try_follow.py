#!/usr/bin/env python3
"""A replica follows a server that records meanwhile; both are ended by SIGKILL again and again and started. At the end its volumes are the source's.

    try_follow.py PROGRAM [ROUNDS] [FOLDER]
"""
import os
import random
import subprocess
import sys
import tempfile
import time

import try_server as t


def volumes_of(folder):
    """The volumes of an archive, by their names. Checkpoints aren't compared: a server writes them, and a follower doesn't."""
    archive = os.path.join(folder, "archive")
    return {name: open(os.path.join(archive, name), "rb").read() for name in sorted(os.listdir(archive)) if name.endswith(".warc")}


def followed(program, replica, port, seconds=None):
    """What a follower prints; it is killed after so many seconds."""
    follower = subprocess.Popen([program, "follow", t.NAMESPACE, f"http://localhost:{port}"], cwd=replica, stdout=subprocess.PIPE, stderr=subprocess.DEVNULL, text=True)
    try:
        return follower.communicate(timeout=seconds)[0].strip()
    except subprocess.TimeoutExpired:
        follower.kill()
        return follower.communicate()[0].strip()


def main():
    program = os.path.abspath(sys.argv[1])
    rounds = int(sys.argv[2]) if len(sys.argv) > 2 else 30
    at = sys.argv[3] if len(sys.argv) > 3 else "."
    origin = t.origin()
    with tempfile.TemporaryDirectory(dir=at) as source, tempfile.TemporaryDirectory(dir=at) as replica:
        answered = 0
        for turn in range(rounds):
            server = t.Program(program, source, 8)
            clients = [t.Client(server.port, origin, f"f{turn}-{n}") for n in range(8)]
            for it in clients:
                it.start()
            until = time.time() + random.uniform(0.5, 1.5)
            while time.time() < until:
                followed(program, replica, server.port, random.uniform(0.05, 0.5))
            server.kill()
            for it in clients:
                it.over.set()
            for it in clients:
                it.join(70)
                answered += len(it.answered)
        server = t.Program(program, source, 2)
        # a capture more, so that what a kill left unfinished is cut off on both sides
        t.get(server.port, f"http://127.0.0.1:{origin}/last")
        said = followed(program, replica, server.port)
        server.kill()
        check = [subprocess.run([program, "check"], cwd=it, capture_output=True, text=True).stdout.strip() for it in (source, replica)]
        same = "equal" if volumes_of(source) == volumes_of(replica) else "DIFFERENT"
        print(f"{rounds} rounds, {answered} exchanges answered; follow: {said}; source: {check[0]}; replica: {check[1]}; their volumes are {same}")


if __name__ == "__main__":
    main()
