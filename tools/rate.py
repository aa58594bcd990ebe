#!/usr/bin/env python3
"""Recorded requests a second at 1, 4 and 16 workers and clients, beside how often a second the disk does the three writes and syncs of a store.

    rate.py PROGRAM [FOLDER]       PROGRAM is the program's file, and FOLDER lies on the disk that is measured
    rate.py mitmdump [FOLDER]      the same requests through `mitmdump -w`, which syncs nothing

nginx answers with 2,048 bytes, a connection each, and wrk asks over connections that it keeps, as browsers and crawlers do: bodies that are new each time, and one that is always the same. Rounds of the server and of the disk
alone take turns, since a disk's own rate changes; what is printed are medians of 5 rounds, or of as many as ROUNDS says. The disk alone writes records of the length that the
server's had. With steady_sync.so preloaded both meet a disk whose syncs all take the same time.
"""
import os
import re
import shutil
import statistics
import subprocess
import sys
import tempfile
import time

NAMESPACE = "67e55044-10b1-426f-9247-bb680e5fe0c8"
PROXY, ORIGIN = 18096, 18097
ROUNDS = int(os.environ.get("ROUNDS", 5))


# ---- the origin

def begin_origin(folder):
    """An nginx whose bodies are new each time, or always the same."""
    bodies = {"new": "$request_id" * 64, "same": "x" * 2048}
    places = "".join(f'location /{name} {{ return 200 "{body}"; }}\n' for name, body in bodies.items())
    temporary = "".join(f"{kind}_temp_path {folder}/{kind};\n" for kind in ("client_body", "proxy", "fastcgi", "uwsgi", "scgi"))
    with open(f"{folder}/nginx.conf", "w") as out:
        out.write(f"worker_processes 2; pid {folder}/pid; error_log {folder}/error; daemon off; events {{ worker_connections 1024; }}\n"
                  f"http {{ access_log off; default_type text/plain; {temporary} server {{ listen 127.0.0.1:{ORIGIN} backlog=4096; {places} }} }}\n")
    return subprocess.Popen(["nginx", "-c", f"{folder}/nginx.conf"], stderr=subprocess.DEVNULL)


# ---- a round

def asked(clients, body):
    """How many requests a second wrk has answered through the proxy, and how many in all; none may fail."""
    request = f"GET http://127.0.0.1:{ORIGIN}/{body} HTTP/1.1\\r\\nHost: 127.0.0.1:{ORIGIN}\\r\\n\\r\\n"
    with tempfile.NamedTemporaryFile("w", suffix=".lua") as script:
        script.write(f'request = function() return "{request}" end')
        script.flush()
        told = subprocess.run(["wrk", "-t", "1", "-c", str(clients), "-d", "2", "-s", script.name, f"http://localhost:{PROXY}/"], capture_output=True, text=True).stdout
    if "Non-2xx" in told or "Socket errors" in told:
        sys.exit(f"requests failed:\n{told}")
    return float(re.search(r"Requests/sec: +([0-9.]+)", told)[1]), int(re.search(r"(\d+) requests in", told)[1])


def wait_for(port):
    """Waits until something listens at the port."""
    for _ in range(200):
        if subprocess.run(["curl", "-s", "-o", "/dev/null", "--noproxy", "*", f"http://localhost:{port}/"]).returncode != 7:
            return
        time.sleep(0.1)
    sys.exit(f"nothing listens at {port}")


def served(words, here, clients, body):
    """Requests a second through a proxy that is started by these words in a folder of its own, and how many were answered."""
    with open(os.path.join(here, "err"), "w") as err:
        proxy = subprocess.Popen(words, cwd=here, stdin=subprocess.DEVNULL, stdout=err, stderr=err)
    wait_for(PROXY)
    answer = asked(clients, body)
    proxy.kill()
    proxy.wait()
    return answer


def recorded(program, folder, clients, body):
    """Recorded requests a second, and the mean length of a record with its request, in bytes."""
    here = tempfile.mkdtemp(dir=folder)
    rate, count = served([program, "serve", NAMESPACE, f"http://localhost:{PROXY}", str(clients)], here, clients, body)
    archive = os.path.join(here, "archive")
    length = sum(os.path.getsize(os.path.join(archive, name)) for name in os.listdir(archive) if name.startswith("vol-")) // count
    shutil.rmtree(here)
    return rate, length


def synced(folder, length):
    """How often a second the disk does what a store does: a byte, the rest of a record, the byte in front again, each with its sync of data."""
    path = os.path.join(folder, "alone")
    file, begun, count, at = os.open(path, os.O_RDWR | os.O_CREAT | os.O_TRUNC), time.monotonic(), 0, 0
    while time.monotonic() - begun < 1:
        for piece, place in ((b"-", at), (b"x" * (length - 1), at + 1), (b"W", at)):
            os.pwrite(file, piece, place)
            os.fdatasync(file)
        at += length
        count += 1
    spent = time.monotonic() - begun
    os.close(file)
    os.remove(path)
    return count / spent


# ---- what is measured

def measure_server(program, folder, clients, body):
    """The medians of some rounds."""
    rates, alone = [], []
    for _ in range(ROUNDS):
        rate, length = recorded(program, folder, clients, body)
        rates.append(rate)
        alone.append(synced(folder, length))
    ratio = statistics.median(rate / syncs for rate, syncs in zip(rates, alone))
    print(f"{clients} workers and clients, {body} bodies, records of {length} bytes: {statistics.median(rates):.0f} recorded a second, "
          f"three writes and syncs {statistics.median(alone):.0f} times a second, ratio {ratio:.2f}", flush=True)


def measure_mitmdump(folder, clients, body):
    """The median of some rounds."""
    rates = []
    for _ in range(ROUNDS):
        here = tempfile.mkdtemp(dir=folder)
        rates.append(served(["mitmdump", "-q", "-p", str(PROXY), "-w", "flows"], here, clients, body)[0])
        shutil.rmtree(here)
    print(f"{clients} clients, {body} bodies: {statistics.median(rates):.0f} recorded a second by mitmdump", flush=True)


def main():
    program, folder = sys.argv[1], os.path.realpath(sys.argv[2] if len(sys.argv) > 2 else ".")
    with tempfile.TemporaryDirectory() as place:
        os.chmod(place, 0o755)
        origin = begin_origin(place)
        wait_for(ORIGIN)
        for clients in (1, 4, 16):
            for body in ("new", "same"):
                if program == "mitmdump":
                    measure_mitmdump(folder, clients, body)
                else:
                    measure_server(os.path.realpath(program), folder, clients, body)
        origin.terminate()
        origin.wait()


main()
