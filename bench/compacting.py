"""Kills `play` with a journal at random moments of a run that compacts its journal again and again, opens the journal by `serve`,
and looks that each page that a whole reply told is there, and that no page of an instance is whose time was over. crash.sh
starts it with a folder, how often to kill, and the program."""

import os
import random
import re
import shutil
import signal
import subprocess
import sys
import time

import crash

FOLDER, TIMES, PROGRAM = sys.argv[1], int(sys.argv[2]), sys.argv[3]
CHANCE = random.Random(20261130)
NOW = int(time.time())
REPLY = re.compile(rb"0 200 (\d+)\n")
OPTIONS = ["--life", "3600", "--instances", "4096", "--pages", "1024"]


def target(instance, page):
    """The address of a page, whose nonce is its number: they are drawn together."""
    return b"/servlets/sum;0*%d*%d*%016x" % (instance, page, page)


def steps():
    """Visits of which each shows a page, in two halves: the instances of the first have no page that lives at the end of it. A
    compaction stands after every few of them. With them the pages of the halves, in the order in which they are told."""
    lines, pages = [b"steps", b"tick %d" % (NOW - 4000)], ([], [])
    number = 0
    for half in (0, 1):
        for instance in range(300):
            start = number
            for answer in range(4):
                lines.append(b"get 0 " + (b"/servlets/sum" if answer == 0 else target(start, start) + b"?n=%d" % answer))
                pages[half].append(target(start, number))
                number += 1
            if CHANCE.random() < 0.3:
                lines.append(b"compact 0")
        if half == 0:
            lines.append(b"tick %d" % NOW)
    return b"\n".join(lines) + b"\n", pages


def told(output):
    """How many pages whole replies tell, how many compactions, and whether the tick between the halves is told."""
    place, pages, lines = 0, 0, []
    while place < len(output):
        end = output.find(b"\n", place)
        if end < 0:
            break
        line = output[place:end]
        found = REPLY.match(output[place : end + 1])
        if found:
            behind = end + 1 + int(found.group(1)) + 1
            if behind > len(output):
                break
            pages, place = pages + 1, behind
        else:
            lines.append(line)
            place = end + 1
    wrong = [line for line in lines if not re.match(rb"shelf 0 (swept|length) \d+$", line)]
    if wrong:
        crash.fail("a step is told %r" % wrong[0])
    return pages, sum(b"length" in line for line in lines), sum(b"swept" in line for line in lines) > 1


def lives(server, page):
    """Whether a page is there, by an answer to it."""
    status, body = server.ask(page + b"?n=7")
    if status not in (200, 404, 410):
        crash.fail("%r answers %d %r" % (page, status, body[:40]))
    return status == 200


def look(pages, count, over):
    """Refuses a server that has other pages than so many, or one of the first half once that is over."""
    server = crash.Server()
    first, second = pages
    for page in CHANCE.sample(second[: max(0, count - len(first))], min(40, max(0, count - len(first)))):
        if not lives(server, page):
            crash.fail("%r was told, and is gone" % page)
    for page in CHANCE.sample(first, 10):
        if over and lives(server, page):
            crash.fail("%r is there, and its time is over" % page)
    server.kill()


def main():
    text, pages = steps()
    with open(FOLDER + "/steps", "wb") as file:
        file.write(open(FOLDER + "/setup", "rb").read() + text)
    journal = FOLDER + "/journal"
    crash.SERVER[:] = [PROGRAM, "serve", "--port", "0", "--connections", "1000000", "--journal", journal] + OPTIONS
    longest, compactions, ended = 4.0, 0, 0
    for life in range(TIMES):
        shutil.rmtree(journal, ignore_errors=True)
        began = time.time()
        with open(FOLDER + "/steps", "rb") as given, open(FOLDER + "/told", "wb") as output:
            process = subprocess.Popen([PROGRAM, "play", "--journal", journal] + OPTIONS, stdin=given, stdout=output,
                                       stderr=subprocess.DEVNULL)
            try:
                process.wait(0.02 + CHANCE.random() * longest)
                longest, ended = time.time() - began, ended + 1
            except subprocess.TimeoutExpired:
                process.send_signal(signal.SIGKILL)
                process.wait()
        count, times, over = told(open(FOLDER + "/told", "rb").read())
        compactions += times
        if os.path.exists(journal):
            look(pages, count, over)
        if life % 20 == 19:
            print("killed %d times: %d compactions told" % (life + 1 - ended, compactions), flush=True)
    print("%d runs with compactions, of which %d came to their end: all as they were told" % (TIMES, ended))


if __name__ == "__main__":
    main()
