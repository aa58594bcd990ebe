#!/usr/bin/env python3
"""Loads a page of 60 images by a headless browser, directly and through a proxy, and replays it from the archive.

    try_browser.py PROXY_PORT      the server is already running, as `memproxy serve NS http://localhost:PROXY_PORT 16`

An origin with a thread a connection is started on the loopback. What is printed is the time that the page itself measured up to its `load` event.
"""
import re
import socketserver
import struct
import subprocess
import sys
import tempfile
import threading
import zlib

IMAGES = 60


def png(number):
    """A picture of 64 by 64 points whose bytes the number decides."""
    rows = b"".join(b"\0" + bytes((x * number + y * 7 + number) % 256 for x in range(64 * 3)) for y in range(64))
    part = lambda kind, data: struct.pack(">I", len(data)) + kind + data + struct.pack(">I", zlib.crc32(kind + data))
    return b"\x89PNG\r\n\x1a\n" + part(b"IHDR", struct.pack(">IIBBBBB", 64, 64, 8, 2, 0, 0, 0)) + part(b"IDAT", zlib.compress(rows, 1)) + part(b"IEND", b"")


PAGE = ("<!doctype html><title>images</title><body>" + "".join(f'<img src="/image/{n}.png" width=64 height=64>' for n in range(IMAGES)) + """
<script>onload = () => {
  const whole = [...document.images].filter(it => it.naturalWidth == 64).length;
  document.title = 'loaded ' + whole + ' of ' + document.images.length + ' in ' + Math.round(performance.now()) + ' ms';
}</script>""").encode()


class Origin(socketserver.StreamRequestHandler):
    def handle(self):
        while True:
            line = self.rfile.readline(65536).split()
            while self.rfile.readline(65536) not in (b"\r\n", b"\n", b""):
                pass
            if len(line) < 2:
                return
            path = line[1].decode()
            found = re.fullmatch(r"/image/(\d+)\.png", path)
            kind, body = ("image/png", png(int(found[1]))) if found else ("text/html", PAGE) if path.startswith("/page") else ("text/plain", b"none")
            self.wfile.write(b"HTTP/1.1 200 OK\r\nContent-Type: %s\r\nContent-Length: %d\r\n\r\n%s" % (kind.encode(), len(body), body))


class Origins(socketserver.ThreadingTCPServer):
    daemon_threads = True
    allow_reuse_address = True
    request_queue_size = 256

    def handle_error(self, request, address):
        pass


def loaded(url, *words):
    with tempfile.TemporaryDirectory() as folder:
        said = subprocess.run(
            ["chromium", "--headless", "--no-sandbox", "--disable-gpu", f"--user-data-dir={folder}", "--disable-background-networking",
             "--disable-component-update", "--no-first-run", "--timeout=30000", "--virtual-time-budget=20000", *words, "--dump-dom", url],
            capture_output=True, text=True, timeout=120)
    found = re.search(r"<title>(.*?)</title>", said.stdout)
    return found[1] if found else f"nothing: {said.stdout[:200]} {said.stderr[-300:]}"


def main():
    port = int(sys.argv[1])
    server = Origins(("127.0.0.1", 0), Origin)
    threading.Thread(target=server.serve_forever, daemon=True).start()
    at = server.server_address[1]
    through = [f"--proxy-server=http://localhost:{port}", "--proxy-bypass-list=<-loopback>"]
    for turn in range(3):
        print("directly:", loaded(f"http://127.0.0.1:{at}/page{turn}"), flush=True)
        print("recorded:", loaded(f"http://127.0.0.1:{at}/page{turn}", *through), flush=True)
        print("replayed:", loaded(f"http://localhost:{port}/web/http://127.0.0.1:{at}/page{turn}"), flush=True)


main()
