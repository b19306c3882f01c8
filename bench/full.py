"""Visits a server whose journal stands on a small file system until that is full, and looks what it answers then and what
is there after a start. crash.sh starts it with the words that start the server."""

import re
import signal
import socket
import subprocess
import sys

FOLDER, SERVER = sys.argv[1], sys.argv[2:]
URL = re.compile(rb"/servlets/[a-z-]+;\d+\*\d+\*\d+\*[0-9a-f]{16}")


process = None


def fail(text):
    if process:
        stop(process)
    print("WRONG: " + text, file=sys.stderr)
    sys.exit(1)


def start():
    process = subprocess.Popen(SERVER, stdin=open(FOLDER + "/setup", "rb"), stdout=subprocess.DEVNULL, stderr=subprocess.PIPE)
    told = []
    for line in process.stderr:
        told.append(line.decode())
        if b"listening on" in line:
            return process, int(line.strip().rsplit(b":", 1)[1])
    fail("it does not listen: " + "".join(told))


def ask(port, target):
    link = socket.create_connection(("127.0.0.1", port), 30)
    link.sendall(b"GET " + target + b" HTTP/1.0\r\n\r\n")
    parts = []
    while part := link.recv(65536):
        parts.append(part)
    head, _, body = b"".join(parts).partition(b"\r\n\r\n")
    return int(head.split(b" ", 2)[1]), body


def stop(process):
    process.send_signal(signal.SIGKILL)
    process.wait()


process, port = start()
pages = []
while True:
    status, body = ask(port, b"/servlets/sum")
    if status != 200:
        break
    pages.append(URL.search(body).group(0))
    status, body = ask(port, pages[-1] + b"?n=7&more=" + b"7" * 2000)
    if status != 200:
        break
    pages.append(URL.search(body).group(0))
if (status, body) != (503, b"disk\n"):
    fail("a full disk is told as %d %r" % (status, body))
for _ in range(3):
    status, body = ask(port, b"/servlets/sum")
    if (status, body) != (503, b"down\n"):
        fail("behind a full disk stands %d %r" % (status, body))
stop(process)
process, port = start()
for url in pages:
    status, body = ask(port, url)
    # Without an answer the script finds no binding: so the page is there.
    if (status, body) != (500, b"binding\n"):
        fail("%r was told and answers %d %r" % (url, status, body))
stop(process)
print("the disk was full behind %d pages: 503 disk, then 503 down, and after a start all of them were there" % len(pages))
