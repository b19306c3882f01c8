"""A client that notes each reply of a server with a journal, kills it at random moments, starts it again and looks that
nothing it was told is lost. crash.sh starts it with the words that start the server, and behind them how often to kill.

After each start: every page that a reply told answers, but where what was told since closed or revoked it or freed its
instance; what was closed stays closed; and no two replies ever told the same page with another nonce."""

import atexit
import os
import random
import re
import signal
import socket
import subprocess
import sys
import threading
import time

FOLDER = sys.argv[1]
SERVER = sys.argv[3:]
URL = re.compile(rb"/servlets/([a-z-]+);(\d+)\*(\d+)\*(\d+)\*([0-9a-f]{16})")
CHANCE = random.Random(20261128)

# How many seconds a reply is waited for.
PATIENCE = 30


def fail(text):
    print("WRONG: " + text, file=sys.stderr)
    sys.exit(1)


class Gone(Exception):
    """The server ended before its reply was whole."""


class Server:
    """One life of the server."""

    def __init__(self):
        self.process = subprocess.Popen(SERVER, stdin=open(FOLDER + "/setup", "rb"), stdout=subprocess.DEVNULL,
                                        stderr=subprocess.PIPE)
        atexit.register(self.process.kill)
        self.told = []
        for line in self.process.stderr:
            self.told.append(line.decode())
            if b"listening on" in line:
                self.port = int(line.strip().rsplit(b":", 1)[1])
                break
        else:
            fail("it does not listen: " + "".join(self.told))
        threading.Thread(target=self.process.stderr.read, daemon=True).start()

    def ask(self, target):
        """The status and the body of the reply to this target."""
        try:
            link = socket.create_connection(("127.0.0.1", self.port), PATIENCE)
            link.sendall(b"GET " + target + b" HTTP/1.0\r\n\r\n")
            parts = []
            while part := link.recv(65536):
                parts.append(part)
            link.close()
        except OSError:
            raise Gone()
        head, _, body = b"".join(parts).partition(b"\r\n\r\n")
        length = re.search(rb"Content-Length: (\d+)", head)
        if not length or len(body) != int(length.group(1)):
            raise Gone()
        return int(head.split(b" ", 2)[1]), body

    def kill(self):
        self.process.send_signal(signal.SIGKILL)
        self.process.wait()


class Known:
    """What the replies told so far: of each page its URL, the heading that it shows and, inside the payment's transaction,
    the family of the pages inside the same one."""

    def __init__(self):
        self.pages = {}
        self.nonces = {}
        self.family = {}
        # Families that are closed, and those whose closing may have happened though its reply was lost.
        self.closed = set()
        self.doubted = set()

    def note(self, body, answered=None):
        """The page that a reply shows, if it shows one that waits: an answer to this page, or a start."""
        heading = re.search(rb"<h1>([^<]*)</h1>", body)
        found = URL.search(body)
        if heading and heading.group(1) == b"Paid":
            self.closed.add(self.family[answered])
        if not found:
            return None
        url = found.group(0)
        key = found.group(2, 4)
        if self.nonces.setdefault(key, url) != url:
            fail("%r was told as %r before" % (url, self.nonces[key]))
        self.pages[url] = (found.group(1), heading.group(1) if heading else b"")
        if heading and heading.group(1) == b"Card":
            self.family[url] = url
        if heading and heading.group(1) == b"Pay":
            self.family[url] = self.family[answered]
        return url


ANSWERS = {b"sum": b"?n=7", b"quiz": b"?count=3&word=x", b"pay": b"?card=1"}


def answer(server, known, url):
    """An answer to this page, whose reply has to be such as was told before."""
    script, heading = known.pages[url]
    family = known.family.get(url)
    closed = family in known.closed
    doubted = family in known.doubted
    if heading == b"Pay":
        known.doubted.add(family)
    status, body = server.ask(url + ANSWERS[script])
    if closed and (status, body) != (410, b"closed\n"):
        fail("%r was closed and answers %d %r" % (url, status, body[:40]))
    if status == 200:
        known.note(body, url)
    elif status not in (410, 503):
        fail("%r was shown and answers %d %r" % (url, status, body[:40]))
    elif status == 410 and not closed and not doubted:
        fail("%r was shown and answers %d %r" % (url, status, body[:40]))


def visit(server, known, chance):
    """One random visit, whose reply is noted."""
    if chance.random() < 0.3 or not known.pages:
        status, body = server.ask(b"/servlets/" + chance.choice([b"sum", b"quiz", b"pay", b"pay"]))
        if status == 200:
            known.note(body)
        return
    answer(server, known, chance.choice(list(known.pages)[-60:]))


def main():
    times = int(sys.argv[2])
    known, served = Known(), 0
    for life in range(times + 1):
        server = Server()
        for url in list(known.pages)[-30:] + CHANCE.sample(list(known.pages), min(30, len(known.pages))):
            answer(server, known, url)
        if life == times:
            break
        killer = threading.Timer(0.02 + CHANCE.random() * 0.3, server.kill)
        killer.start()
        try:
            while True:
                visit(server, known, CHANCE)
                served += 1
        except Gone:
            pass
        killer.join()
        if life % 20 == 19:
            print("killed %d times: %d visits, %d pages told" % (life + 1, served, len(known.pages)), flush=True)
    for url in list(known.pages):
        answer(server, known, url)
    server.kill()
    size = sum(os.path.getsize(os.path.join(FOLDER, "journal", f)) for f in os.listdir(FOLDER + "/journal"))
    print("%d visits, %d pages told, %d transactions closed: all as they were told; %d bytes of journal"
          % (served, len(known.pages), len(known.closed), size))


if __name__ == "__main__":
    main()
