"""Feeds of the greatest length, over real files: a follower whose journal has no space for the last record of a feed, and a feed that is longer
than one may be. follower.sh starts it with a folder and the program. It takes some 1.1 GB of the folder.

The records are those of a journal whose scripts are told again and again: a Begin and then Texts."""

import os
import struct
import subprocess
import sys

FOLDER, PROGRAM = sys.argv[1:3]
MOST = 1 << 30
TEXT = 1 << 16


def wrong(said):
    print("WRONG: " + said, file=sys.stderr)
    sys.exit(1)


def scripts(lengths):
    """A list of scripts of so many bytes each."""
    listed = struct.pack("<I", len(lengths))
    for number, length in enumerate(lengths):
        text = b'"a" ;' + b"x" * (length - 5)
        listed += struct.pack("<I", 3) + b"s%02d" % number + struct.pack("<I", len(text)) + text
    return listed


def framed(body):
    return struct.pack("<I", len(body)) + body


def begin():
    return framed(b"\x01" + struct.pack("<I", 0) + scripts([16]))


def texts(length):
    """A record of so many bytes of the feed, with as few scripts as it can have."""
    count = max(1, -(-(length - 9) // (11 + TEXT)))
    left = length - 9 - 11 * count
    return framed(b"\x06" + scripts([left // count + (number < left % count) for number in range(count)]))


def follow(name, write):
    """The status of a follower whose feed `write` writes, its last line and the one before."""
    with open(FOLDER + "/acks", "wb") as acks:
        follower = subprocess.Popen([PROGRAM, "follow", "--journal", FOLDER + "/" + name], stdin=subprocess.PIPE, stdout=acks, stderr=subprocess.DEVNULL)
        try:
            write(follower.stdin)
            follower.stdin.close()
        except BrokenPipeError:
            pass
        status = follower.wait()
    with open(FOLDER + "/acks", "rb") as acks:
        lines = acks.read().split(b"\n")
    return status, lines[-2], lines[-3] if len(lines) > 2 else b""


def full():
    """A feed of 2^30 bytes: its last record would end beyond the greatest length of a journal, which has a mark for each record besides."""
    head = b"KSFEED\0\6" + begin()
    one = texts(9 + 15 * (11 + TEXT))
    whole, rest = divmod(MOST - len(head), len(one))
    if rest < 64:
        wrong("no record is that short")

    def write(sink):
        sink.write(head)
        for _ in range(whole):
            sink.write(one)
        sink.write(texts(rest))

    records = 1 + whole
    length = MOST + 7 + records + 1
    wanted = (8, b"error 8 0 %d full" % length, b"ack %d" % records)
    got = follow("full", write)
    if got != wanted:
        wrong("a feed of 2^30 bytes ends with %r, not with %r" % (got, wanted))
    export = subprocess.Popen([PROGRAM, "export", "--journal", FOLDER + "/full"], stdin=subprocess.DEVNULL, stdout=subprocess.PIPE, stderr=subprocess.DEVNULL)
    sent = 0
    for piece in iter(lambda: export.stdout.read(1 << 20), b""):
        sent += len(piece)
    if (export.wait(), sent) != (0, MOST - rest):
        wrong("a follower that is full holds %d bytes of a feed, not %d" % (sent, MOST - rest))
    print("a follower without space: %d records held, and %s" % (records, got[1].decode()))


def too_long():
    """A record that goes on beyond 2^30 bytes of a feed."""

    def write(sink):
        sink.write(b"KSFEED\0\6" + begin() + struct.pack("<I", 0x7FFFFFFF))
        piece = b"\0" * (1 << 20)
        for _ in range(1025):
            sink.write(piece)

    got = follow("long", write)
    if got != (11, b"error 11 long", b"ack 1"):
        wrong("a feed of more than 2^30 bytes ends with %r" % (got,))
    print("a feed that is too long: " + got[1].decode())


os.makedirs(FOLDER, exist_ok=True)
full()
too_long()
