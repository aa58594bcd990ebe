#!/usr/bin/env python3
"""Refuses each growth of memory in turn, one a run, and then all from each one on: over a connection that stores, compares, replays and queries, in a
new folder and in one that is opened again. What was answered has to stand there, and nothing else; the program has to end by itself.

    try_memory.py PROGRAM [STEP]      needs gcc; STEP tries each so many-th growth
"""
import os
import subprocess
import sys
import tempfile

NAMESPACE = "67e55044-10b1-426f-9247-bb680e5fe0c8"
SITE = "localhost:8080"
# two targets, the first twice: the trial origin answers each with its target, so the second capture of the first is compared
RECORDED = ["http://a.test/x", "http://a.test/y", "http://a.test/x"]
ASKED = ["/web/rec/0", "/web/http://a.test/x", "/web/timemap/link/http://a.test/x", "/web/cdx?url=http://a.test/x", "/web/ship/0", "/web/rec/2"]


def requests():
    text = "".join(f"GET {target} HTTP/1.1\r\nHost: a.test\r\n\r\n" for target in RECORDED)
    return (text + "".join(f"GET {path} HTTP/1.1\r\nHost: {SITE}\r\n\r\n" for path in ASKED)).encode()


def answers(text):
    """The statuses and bodies of the answers in a text, and whether the last one is whole."""
    found = []
    while text:
        head, end, rest = text.partition(b"\r\n\r\n")
        if not end:
            return found, False
        length = 0
        for line in head.split(b"\r\n")[1:]:
            name, _, value = line.partition(b":")
            if name.lower() == b"content-length":
                length = int(value)
        if len(rest) < length:
            return found, False
        found.append((int(head.split(b" ")[1]), rest[:length]))
        text = rest[length:]
    return found, True


def run(program, folder, words, text=b"", refuse=None, onward=False):
    """What a run writes, its status, and whether a growth was refused."""
    given = dict(os.environ, LD_PRELOAD=SHIM) if refuse else dict(os.environ)
    mark = os.path.join(folder, "refused")
    if refuse:
        given |= {"REFUSE": str(refuse), "REFUSED": mark} | ({"ONWARD": "1"} if onward else {})
    it = subprocess.run([program, *words], cwd=folder, env=given, input=text, stdout=subprocess.PIPE, stderr=subprocess.DEVNULL, timeout=120)
    refused = os.path.exists(mark)
    if refused:
        os.unlink(mark)
    return it.stdout, it.returncode, refused


def captures(program, folder):
    text = run(program, folder, ["check"])[0].decode().split()
    return int(text[1]) if text[:1] == ["captures"] else None


def wrong(program, folder, before, text, status):
    """What is wrong behind a run that a refusal met, if anything."""
    found, whole = answers(text)
    # the folder counts a call that lacks memory as failed: the archive isn't opened, or the store is refused
    if status == 2 and not found:
        return None
    if status not in (0, 4):
        return f"status {status}"
    if not whole:
        return "half an answer"
    for at, (code, body) in enumerate(found):
        if code in (503, 507) or at >= len(RECORDED):
            continue
        if code != 200 or body != f"/{RECORDED[at].rsplit('/', 1)[1]}\n".encode():
            return f"answer {at} is {code} {body!r}"
    stored = sum(1 for code, _ in found[:len(RECORDED)] if code == 200)
    count = captures(program, folder)
    if count != before + stored:
        return f"{count} captures behind {before} and {stored} that were answered"
    return None


def each(program, folder_of, onward, step):
    """Tries each growth in a folder of its own until a run meets no refusal; how many there were, and what was wrong."""
    refuse, bad = 1, []
    while True:
        with tempfile.TemporaryDirectory() as folder:
            before = folder_of(folder)
            text, status, refused = run(program, folder, ["pipe", NAMESPACE], requests(), refuse, onward)
            if not refused:
                return refuse - 1, bad
            said = wrong(program, folder, before, text, status)
            if said:
                bad.append((refuse, said))
        refuse += step


def main():
    global SHIM
    program, step = os.path.abspath(sys.argv[1]), int(sys.argv[2]) if len(sys.argv) > 2 else 1
    with tempfile.TemporaryDirectory() as built:
        SHIM = os.path.join(built, "refuse_growth.so")
        here = os.path.dirname(os.path.abspath(__file__))
        subprocess.run(["gcc", "-O1", "-shared", "-fPIC", "-o", SHIM, os.path.join(here, "refuse_growth.c"), "-ldl"], check=True)

        def filled(folder):
            run(program, folder, ["pipe", NAMESPACE], requests())
            return captures(program, folder)
        for name, folder_of in (("a new folder", lambda folder: 0), ("one that is opened again", filled)):
            for onward in (False, True):
                count, bad = each(program, folder_of, onward, step)
                what = "all from it on" if onward else "one a run"
                print(f"{name}: {count} growths, {what}: {len(bad)} wrong {bad[:5]}", flush=True)


main()
