"""Fills the journal of a server with long answers until one of its ticks compacts it, and looks what is there then. long.sh
starts it with a folder and the program."""

import http.client
import os
import re
import signal
import subprocess
import sys
import threading
import time

FOLDER, PROGRAM = sys.argv[1], sys.argv[2]
SCRIPT = b"""(begin
  (for/list ((i 1000)) (begin (send/suspend (lambda (u) `(a ((href ,u)) "next"))) i))
  '(p "end"))"""
# An answer of 32,768 pairs, which a record tells in some half a megabyte.
LONG = "&".join(["a"] * 32768)
LIFE = 30
COMPACTED_FROM = 1 << 29
URL = re.compile(rb"/servlets/s;\d+\*\d+\*\d+\*[0-9a-f]{16}")
ANEW = re.compile(r"written anew, (\d+) bytes in (\d+) ms")


def fail(text):
    print("WRONG: " + text, file=sys.stderr)
    sys.exit(1)


class Server:
    """A server over the folder's journal, and what it tells on its standard error."""

    def __init__(self, life, *words):
        setup = b"script s %d\n%s\n" % (len(SCRIPT), SCRIPT)
        words = [PROGRAM, "serve", "--port", "0", "--workers", "1", "--connections", "1000000", "--requests", "1000", "--fuel", "10000000",
                 "--life", str(life), "--instances", "4096", "--journal", FOLDER + "/journal", *words]
        self.process = subprocess.Popen(words, stdin=subprocess.PIPE, stdout=subprocess.DEVNULL, stderr=subprocess.PIPE, text=True)
        self.process.stdin.buffer.write(setup)
        self.process.stdin.close()
        self.told = []
        self.listens = threading.Event()
        threading.Thread(target=self.hear, daemon=True).start()
        if not self.listens.wait(600):
            self.process.kill()
            fail("it does not listen: " + "".join(self.told))
        self.link = http.client.HTTPConnection("127.0.0.1", self.port, timeout=120)

    def hear(self):
        for line in self.process.stderr:
            self.told.append(line)
            if "listening on" in line:
                self.port = int(line.strip().rsplit(":", 1)[1])
                self.listens.set()

    def ask(self, target, body=None):
        """The status of a reply and the URL in its page."""
        headers = {"Content-Type": "application/x-www-form-urlencoded"} if body else {}
        for again in (True, False):
            try:
                self.link.request("POST" if body else "GET", target, body, headers)
                reply = self.link.getresponse()
                page = reply.read()
                break
            except (http.client.HTTPException, ConnectionError):
                self.link.close()
                if not again:
                    raise
        found = URL.search(page)
        return reply.status, found and found.group(0).decode()

    def kill(self):
        self.process.send_signal(signal.SIGKILL)
        self.process.wait()


def sizes():
    """The lengths of the two files of shelf 0."""
    return [os.path.getsize("%s/journal/shelf-%d" % (FOLDER, number)) for number in (0, 16)]


def main():
    server = Server(LIFE)
    began, visits, longest = time.time(), 0, 0
    url = None
    while not any(ANEW.search(line) for line in server.told):
        # A new instance after each five pages, so that earlier ones expire while this one is answered.
        status, next_url = server.ask("/servlets/s") if visits % 5 == 0 else server.ask(url, LONG)
        if status != 200:
            fail("visit %d: status %d" % (visits, status))
        url, visits = next_url, visits + 1
        longest = max(longest, sizes()[0])
        if longest > COMPACTED_FROM + (64 << 20):
            fail("a file of %d bytes is not compacted" % longest)
    if longest < COMPACTED_FROM - (1 << 20):
        fail("a file of %d bytes is compacted" % longest)
    size, milliseconds = ANEW.search("".join(server.told)).groups()
    old, new = sizes()
    if new >= old or not int(size) <= new:
        fail("the file of %d bytes gave place to one of %d" % (old, new))
    status, url = server.ask(url, "n=1")
    if status != 200:
        fail("the page from before does not go on: status %d" % status)
    server.kill()
    for words in ([], ["--audit"]):
        server = Server(3600, *words)
        status, url = server.ask(url, "n=1")
        server.kill()
        if status != 200:
            fail("the page does not go on behind a start with %s: status %d" % (words, status))
    print("%d visits in %.0f s made a journal of %d bytes; a tick wrote it anew, with %s bytes in %s ms; its last page goes on"
          % (visits, time.time() - began, longest, size, milliseconds))


if __name__ == "__main__":
    main()
