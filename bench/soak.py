"""Two hundred clients at once at a server with a journal: each starts, answers, goes back and repeats, and looks that what
it is told goes with what it was told before. Then the server is killed, started again, and asked for every page that any of
them was shown. soak.sh starts it with a folder, the time in seconds, and the words that start the server."""

import re
import sys
import threading
import time

import crash

CLIENTS = 200
SECONDS = float(sys.argv[2])

# A listener's queue holds 128 links; the machine lets the others try again, later and later.
crash.PATIENCE = 300


class Client:
    """One client, which knows its own pages alone, and counts its visits and those that had no reply."""

    def __init__(self, number):
        self.known = crash.Known()
        self.chance = crash.random.Random(number)
        self.visits = self.lost = 0
        self.is_wrong = False

    def visit_until(self, server, until):
        try:
            while time.monotonic() < until:
                self.visits += 1
                try:
                    crash.visit(server, self.known, self.chance)
                except crash.Gone:
                    self.lost += 1
        except SystemExit:
            self.is_wrong = True


def overflows():
    """How often a listener's queue of this machine was full so far: then a link may be lost before a server sees it."""
    with open("/proc/net/netstat") as file:
        names, counts = [line.split() for line in file if line.startswith("TcpExt:")]
    return int(counts[names.index("ListenOverflows")])


def memory_of(server):
    """How many megabytes of memory the server has."""
    with open("/proc/%d/status" % server.process.pid) as status:
        return int(re.search(r"VmRSS:\s*(\d+)", status.read()).group(1)) // 1024


def main():
    full = overflows()
    server = crash.Server()
    clients = [Client(number) for number in range(CLIENTS)]
    until = time.monotonic() + SECONDS
    threads = [threading.Thread(target=client.visit_until, args=(server, until)) for client in clients]
    for thread in threads:
        thread.start()
    for thread in threads:
        thread.join()
    visits, lost = sum(client.visits for client in clients), sum(client.lost for client in clients)
    pages = sum(len(client.known.pages) for client in clients)
    full = overflows() - full
    print("%d clients for %.0f seconds: %d visits, %d without a reply, %d pages told; %d MB of memory; the queue was full %d times"
          % (CLIENTS, SECONDS, visits, lost, pages, memory_of(server), full), flush=True)
    if any(client.is_wrong for client in clients):
        crash.fail("a reply does not go with what was told before")
    if lost > full:
        crash.fail("visits had no reply")
    server.kill()
    server = crash.Server()
    for client in clients:
        for url in list(client.known.pages):
            crash.answer(server, client.known, url)
    server.kill()
    print("killed and started again: all %d pages answer as they were told" % pages)


main()
