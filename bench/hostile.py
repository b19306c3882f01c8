"""Clients that a server on a port of this machine has to outlast: each behaves badly in one way, and while it still holds
its link a visitor comes and has to be served in time. hostile.sh starts the server; the scripts are `shop` and `long`."""

import socket
import struct
import sys
import time

PORT = int(sys.argv[1])
ONLY = sys.argv[2:]

# How many workers the server has.
WORKERS = 4

# What a head, a body and a reply may take each, and how long a link may be idle; and what a visitor may wait beside.
HEAD = BODY = 30
IDLE = 5
SLACK = 5

# A request behind which the link goes on, and one behind which it ends.
START = b"GET /servlets/shop HTTP/1.1\r\nHost: localhost\r\n\r\n"
ONCE = START[:-2] + b"Connection: close\r\n\r\n"
LONG = START.replace(b"shop", b"long")
FORM = b"Content-Type: application/x-www-form-urlencoded\r\n"


def link(timeout=2 * (HEAD + BODY)):
    return socket.create_connection(("127.0.0.1", PORT), timeout)


def read(sock):
    """All that comes up to the end of the link; none of it counts where the other side resets the link."""
    parts = []
    try:
        while part := sock.recv(65536):
            parts.append(part)
    except ConnectionResetError:
        pass
    return b"".join(parts)


def read_reply(sock):
    """One reply, of a link that goes on behind it."""
    reply = b""
    while b"\r\n\r\n" not in reply:
        part = sock.recv(65536)
        if not part:
            raise AssertionError(f"the link ended behind {reply[:40]}")
        reply += part
    head, body = reply.split(b"\r\n\r\n", 1)
    length = int(head.split(b"Content-Length: ")[1].split(b"\r\n")[0])
    while len(body) < length:
        body += sock.recv(65536)
    if not head.startswith(b"HTTP/1.1 200 ") or b"Connection: keep-alive" not in head or len(body) > length:
        raise AssertionError(f"a kept link got {reply[:40]}")


def kept():
    """A link over which a request was answered."""
    sock = link()
    sock.sendall(START)
    read_reply(sock)
    return sock


def post(length, body):
    return b"POST /servlets/shop HTTP/1.1\r\nHost: localhost\r\n%sContent-Length: %d\r\n\r\n%s" % (FORM, length, body)


def silent():
    return link(), HEAD, b""


def silent_beside_others():
    """It holds one worker up to its deadline; meanwhile the others serve each visitor at once."""
    began = time.monotonic()
    sock = link()
    while time.monotonic() < began + HEAD - SLACK:
        if (took := Visit().took()) > 1:
            raise AssertionError(f"a visitor waited {took:.1f} s beside one silent client")
        time.sleep(0.1)
    return sock, HEAD, b"", began, Visit()


def silent_at_each_worker():
    """As many as there are workers hold the server, up to their deadline."""
    began = time.monotonic()
    socks = [link() for _ in range(WORKERS)]
    visit = Visit()
    for sock in socks[1:]:
        if read(sock):
            raise AssertionError("one of them got a reply")
        sock.close()
    return socks[0], HEAD, b"", began, visit


def ended_at_once():
    sock = link()
    sock.shutdown(socket.SHUT_WR)
    return sock, 0, b""


def half_a_head():
    sock = link()
    sock.sendall(START[:20])
    return sock, HEAD, b""


def half_a_head_and_its_end():
    sock = link()
    sock.sendall(START[:20])
    sock.shutdown(socket.SHUT_WR)
    return sock, 0, b"400"


def byte_by_byte():
    """A byte every half a second, until the link is given up: the head is never whole in time."""
    sock = link()
    began = time.monotonic()
    visit = Visit()
    try:
        for byte in START + 100 * b"x":
            sock.sendall(bytes([byte]) if byte != 10 else b" ")
            time.sleep(0.5)
    except (BrokenPipeError, ConnectionResetError):
        pass
    return sock, HEAD, b"", began, visit


def a_head_too_long():
    sock = link()
    sock.sendall(START[:-2] + b"X: " + 17_000 * b"x" + b"\r\n\r\n")
    return sock, 0, b"431"


def too_many_lines():
    sock = link()
    sock.sendall(START[:-2] + 65 * b"X: x\r\n" + b"\r\n")
    return sock, 0, b"431"


def a_body_too_long():
    """It goes on sending while it is refused, and gets the refusal nevertheless."""
    sock = link()
    sock.sendall(post(100_000, 100_000 * b"x"))
    return sock, 0, b"413"


def a_body_shorter_than_told():
    sock = link()
    sock.sendall(post(100, b"name=Ann"))
    return sock, BODY, b""


def a_shorter_body_and_its_end():
    sock = link()
    sock.sendall(post(100, b"name=Ann"))
    sock.shutdown(socket.SHUT_WR)
    return sock, 0, b"400"


def a_body_longer_than_told():
    """What is too much is the next request, whose head never ends."""
    sock = link()
    sock.sendall(post(8, b"name=Ann&name=Bo" + 5000 * b"x"))
    return sock, HEAD, b"200"


def a_body_byte_by_byte():
    sock = link()
    began = time.monotonic()
    sock.sendall(post(1000, b""))
    visit = Visit()
    try:
        for _ in range(200):
            sock.sendall(b"x")
            time.sleep(0.5)
    except (BrokenPipeError, ConnectionResetError):
        pass
    return sock, BODY, b"", began, visit


def three_requests_at_once():
    sock = link()
    sock.sendall(START + START + ONCE)
    replies = read(sock).count(b"HTTP/1.1 200 ")
    if replies != 3:
        raise AssertionError(f"{replies} of three requests were answered")
    return None, 0, None


def three_requests_and_the_end():
    """It ends its sending side at once, and gets all that is due."""
    sock = link()
    sock.sendall(START + START + START)
    sock.shutdown(socket.SHUT_WR)
    replies = read(sock).count(b"HTTP/1.1 200 ")
    if replies != 3:
        raise AssertionError(f"{replies} of three requests were answered")
    return None, 0, None


def kept_and_silent():
    return kept(), IDLE, b""


def kept_and_silent_at_each_worker():
    """As many idle links as there are workers: a visitor is served at once nevertheless."""
    began = time.monotonic()
    socks = [kept() for _ in range(WORKERS)]
    if (took := Visit().took()) > 1:
        raise AssertionError(f"a visitor waited {took:.1f} s beside idle links")
    for sock in socks[1:]:
        sock.close()
    return socks[0], IDLE, b"", began, Visit()


def kept_and_silent_sixty_four():
    """Many more than there are workers: each new one is served at once too."""
    socks = []
    for _ in range(64):
        began = time.monotonic()
        socks.append(kept())
        if (took := time.monotonic() - began) > 1:
            raise AssertionError(f"a visitor waited {took:.1f} s beside idle links")
    for sock in socks[1:]:
        sock.close()
    return socks[0], IDLE, b""


def kept_and_half_a_head():
    sock = kept()
    began = time.monotonic()
    sock.sendall(START[:20])
    visit = Visit()
    return sock, HEAD, b"", began, visit


def kept_and_half_a_head_at_each_worker():
    """A head that has begun does not yield: as many of them as there are workers hold the server up to their deadline."""
    socks = [kept() for _ in range(WORKERS)]
    began = time.monotonic()
    for sock in socks:
        sock.sendall(START[:20])
    visit = Visit()
    for sock in socks[1:]:
        if read(sock):
            raise AssertionError("one of them got a reply")
        sock.close()
    return socks[0], HEAD, b"", began, visit


def kept_and_byte_by_byte():
    """Behind two replies a byte every half a second, until the link is given up."""
    sock = kept()
    time.sleep(IDLE - 2)
    sock.sendall(START)
    read_reply(sock)
    began = time.monotonic()
    visit = Visit()
    try:
        for byte in START + 100 * b"x":
            sock.sendall(bytes([byte]) if byte != 10 else b" ")
            time.sleep(0.5)
    except (BrokenPipeError, ConnectionResetError):
        pass
    return sock, HEAD, b"", began, visit


def kept_and_a_body_byte_by_byte():
    sock = kept()
    began = time.monotonic()
    sock.sendall(post(1000, b""))
    visit = Visit()
    try:
        for _ in range(200):
            sock.sendall(b"x")
            time.sleep(0.5)
    except (BrokenPipeError, ConnectionResetError):
        pass
    return sock, BODY, b"", began, visit


def kept_and_replies_that_are_not_read():
    sock = socket.socket()
    sock.setsockopt(socket.SOL_SOCKET, socket.SO_RCVBUF, 4096)
    sock.settimeout(2 * (HEAD + BODY))
    sock.connect(("127.0.0.1", PORT))
    sock.sendall(START)
    read_reply(sock)
    sock.sendall(LONG + LONG)
    return sock, BODY, None


def a_large_upload():
    """It sends a million bytes that are refused at their head, and gets the refusal nevertheless."""
    sock = link()
    sock.sendall(post(1_000_000, 1_000_000 * b"x"))
    return sock, 0, b"413"


def a_reply_that_is_not_read():
    sock = socket.socket()
    sock.setsockopt(socket.SOL_SOCKET, socket.SO_RCVBUF, 4096)
    sock.settimeout(2 * (HEAD + BODY))
    sock.connect(("127.0.0.1", PORT))
    sock.sendall(LONG)
    return sock, BODY, None


def a_reset_in_the_reply():
    sock = link()
    sock.sendall(LONG)
    sock.recv(1000)
    sock.setsockopt(socket.SOL_SOCKET, socket.SO_LINGER, struct.pack("ii", 1, 0))
    sock.close()
    return None, 0, None


def many_links():
    """Two hundred at once, that ask each for a page, and end behind it."""
    socks = []
    for _ in range(200):
        socks.append(link())
        socks[-1].sendall(ONCE)
    for sock in socks:
        if not read(sock).startswith(b"HTTP/1.1 200 "):
            raise AssertionError("not all of them were answered")
        sock.close()
    return None, 0, None


def a_link_kept_open():
    """It does not end the link: the server waits for that for a moment."""
    sock = link()
    sock.sendall(ONCE)
    return sock, 1, b"200"


class Visit:
    """A visitor, who asks at once and reads the reply later. How long the server took is told by when the reply came."""

    def __init__(self):
        self.began = time.monotonic()
        self.sock = link()
        self.sock.sendall(ONCE)

    def took(self):
        reply = read(self.sock)
        self.sock.close()
        if not reply.startswith(b"HTTP/1.1 200 "):
            raise AssertionError(f"the visitor got {reply[:40]}")
        return time.monotonic() - self.began


def tried(client):
    """Runs one client and a visitor behind it, and says how both fared."""
    began = time.monotonic()
    sock, most, wanted, *rest = client()
    began, visit = rest or (began, Visit())
    took = visit.took()
    if took > most + SLACK:
        raise AssertionError(f"the visitor waited {took:.1f} s")
    if sock and wanted is not None:
        reply = read(sock)
        if reply[:13] != (b"HTTP/1.1 %s " % wanted if wanted else b""):
            raise AssertionError(f"the client got {reply[:40]}")
        if time.monotonic() - began > most + SLACK:
            raise AssertionError(f"the client held its link for {time.monotonic() - began:.1f} s")
    if sock:
        sock.close()
    answer = "no reply" if not wanted else wanted.decode()
    print(f"{client.__name__.replace('_', ' '):36} {answer:9} the visitor behind it was served after {took:4.1f} s", flush=True)


CLIENTS = [
    silent,
    silent_beside_others,
    silent_at_each_worker,
    ended_at_once,
    half_a_head,
    half_a_head_and_its_end,
    byte_by_byte,
    a_head_too_long,
    too_many_lines,
    a_body_too_long,
    a_large_upload,
    a_body_shorter_than_told,
    a_shorter_body_and_its_end,
    a_body_longer_than_told,
    a_body_byte_by_byte,
    three_requests_at_once,
    three_requests_and_the_end,
    kept_and_silent,
    kept_and_silent_at_each_worker,
    kept_and_silent_sixty_four,
    kept_and_half_a_head,
    kept_and_half_a_head_at_each_worker,
    kept_and_byte_by_byte,
    kept_and_a_body_byte_by_byte,
    kept_and_replies_that_are_not_read,
    a_reply_that_is_not_read,
    a_reset_in_the_reply,
    a_link_kept_open,
    many_links,
]


def main():
    bad = 0
    for client in CLIENTS:
        if ONLY and client.__name__ not in ONLY:
            continue
        try:
            tried(client)
        except (AssertionError, OSError) as why:
            bad += 1
            print(f"{client.__name__.replace('_', ' '):36} WRONG: {why}", flush=True)
    sys.exit(1 if bad else 0)


main()
