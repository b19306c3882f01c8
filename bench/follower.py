"""A leader under two hundred visitors, whose feeds are sent to a follower again and again; then the leader is killed, the follower promoted and
asked for all that visitors were told. And a follower that is killed at random moments, of which its journal is looked at. follower.sh
starts it with a folder, for how many seconds visitors come, the program, how often to kill, and the script that sends feeds.

Each page that was told before the last completed feed began has to answer, but where it was closed; what was closed before that stays
closed. Of what was told since, the page may be there or not, and closed or not."""

import collections
import concurrent.futures
import contextlib
import os
import random
import re
import shutil
import signal
import subprocess
import sys
import threading
import time

import crash

FOLDER, SECONDS, PROGRAM, KILLS, SENDER = sys.argv[1], float(sys.argv[2]), sys.argv[3], int(sys.argv[4]), sys.argv[5]
HAS_SSH = sys.argv[6:] == ["ssh"]
VISITORS = 200
SHELVES = 2
LEADER, FOLLOWER = FOLDER + "/leader", FOLDER + "/follower"
OPTIONS = ["--port", "0", "--connections", "1000000", "--workers", "4", "--shelves", str(SHELVES), "--life", "1000000",
           "--instances", "4096", "--pages", "1024"]
CHANCE = random.Random(20261130)
ANSWERS = {b"sum": b"?n=7", b"quiz": b"?count=3&word=x", b"pay": b"?card=1", b"booking": b"?who=x"}

GONE, REVOKED, CLOSED, FOLLOWING = (404, b"unknown\n"), (410, b"revoked\n"), (410, b"closed\n"), (503, b"following\n")

# A listener's queue holds 128 links; the machine lets the others try again, later and later.
crash.PATIENCE = 300


def serves(journal):
    """The words that serve this journal are those of the next server."""
    crash.SERVER = [PROGRAM, "serve", *OPTIONS, "--journal", journal]
    return crash.Server()


def run(*words):
    """The status and the output of a command, once the files that it asks for are let go of."""
    for _ in range(100):
        done = subprocess.run([PROGRAM, *words], stdin=subprocess.DEVNULL, stdout=subprocess.PIPE, stderr=subprocess.DEVNULL)
        if done.returncode != 7:
            break
        time.sleep(0.1)
    return done.returncode, done.stdout


# --- Visitors ---


class Page:
    """A page that a reply told: what it shows, and what may close it, in the order in which a visit is refused."""

    def __init__(self, url, script, heading, instance, family):
        self.url, self.script, self.heading, self.told = url, script, heading, time.monotonic()
        self.family = family
        is_form = script == b"booking" and heading
        self.closers = [(("gone", instance), GONE)]
        if is_form:
            self.closers.append((("revoked", instance), REVOKED))
        if family:
            self.closers.append((("closed", family), CLOSED))
        # What an answer to it closes, if it is one that does.
        self.closes = None
        if script == b"booking":
            self.closes = ("revoked" if is_form else "gone", instance)
        if heading == b"Pay":
            self.closes = ("closed", family)


class Visitor:
    """One visitor, which knows its own pages, when each was told, and when what was closed."""

    def __init__(self, number):
        self.pages, self.closed, self.doubted = [], {}, set()
        self.chance = random.Random(number)
        self.visits = 0
        self.is_wrong = False

    def note(self, body, answered=None):
        """The page that a reply of status 200 shows, and what is closed by it."""
        if answered and answered.closes:
            self.closed.setdefault(answered.closes, time.monotonic())
        found = crash.URL.search(body)
        if not found:
            return
        heading = re.search(rb"<h1>([^<]*)</h1>", body)
        heading = heading.group(1) if heading else b""
        family = None
        if heading == b"Card":
            family = found.group(0)
        if heading == b"Pay":
            family = answered.family
        self.pages.append(Page(found.group(0), found.group(1), heading, found.group(2, 3), family))

    def visit(self, server):
        """A start, or an answer to one of the last pages, whose reply is what is known of that page."""
        self.visits += 1
        if self.chance.random() < 0.3 or not self.pages:
            status, body = server.ask(b"/servlets/" + self.chance.choice(list(ANSWERS)))
            if status == 200:
                self.note(body)
            return
        page = self.chance.choice(self.pages[-60:])
        due = next((reply for key, reply in page.closers if key in self.closed), None)
        if page.closes:
            self.doubted.add(page.closes)
        status, body = server.ask(page.url + ANSWERS[page.script])
        self.doubted.discard(page.closes)
        if status == 200 and not due:
            self.note(body, page)
        elif status != 503 and (status, body) != due:
            crash.fail("%r answers %d %r, and %r is due" % (page.url, status, body[:40], due))

    def visit_until(self, server, is_over):
        try:
            while not is_over.is_set():
                self.visit(server)
        except crash.Gone:
            pass
        except SystemExit:
            self.is_wrong = True

    # --- After the leader was killed ---

    def replies_for(self, page, since, asked):
        """What this page may answer. What was told or closed from `since` on, up to `asked`, may have happened or not."""
        found = set()
        if page.told >= since:
            found.add(GONE)
        for key, reply in page.closers:
            when = self.closed.get(key)
            if when is not None and not since <= when < asked:
                return found | {reply}
            if when is not None or key in self.doubted:
                found.add(reply)
        return found | {200}

    def ask_all(self, server, since, asked):
        """Asks for each page once, and counts the replies."""
        counts = collections.Counter(held=0, closed=0, later=0, lost=0)
        try:
            for page in self.pages:
                status, body = server.ask(page.url + ANSWERS[page.script])
                due = self.replies_for(page, since, asked)
                if (200 if status == 200 else (status, body)) not in due:
                    crash.fail("%r was told %.3f s before the last completed feed began, and answers %d %r, not %r"
                               % (page.url, since - page.told, status, body[:40], due))
                if status == 200 and page.closes:
                    self.closed[page.closes] = time.monotonic()
                is_held = page.told < since
                counts.update(held=is_held, closed=is_held and status != 200, later=not is_held, lost=not is_held and (status, body) == GONE)
        except (SystemExit, crash.Gone):
            self.is_wrong = True
        return counts


# --- Feeds ---


def follower_words(by_ssh):
    return ["ssh", "-F", FOLDER + "/ssh_config", "standby", "follow"] if by_ssh else [PROGRAM, "follow", "--journal", FOLLOWER]


class Feeds:
    """Sends feeds again and again, and knows when the last completed one began."""

    def __init__(self):
        self.completed, self.counts, self.longest = None, {True: 0, False: 0}, 0
        self.sender, self.is_over = None, threading.Event()
        self.thread = threading.Thread(target=self.send_on)
        self.said, self.is_wrong = "", False
        self.thread.start()

    def send(self, by_ssh):
        began = time.monotonic()
        self.sender = subprocess.Popen([SENDER, LEADER, str(SHELVES), *follower_words(by_ssh)], stdout=subprocess.PIPE, stderr=subprocess.PIPE,
                                       env={**os.environ, "HOVGYELIT_PROGRAM": PROGRAM, "TMPDIR": FOLDER}, start_new_session=True)
        said, told = self.sender.communicate()
        if self.is_over.is_set():
            return
        if self.sender.returncode != 0 or told:
            self.is_wrong = True
            print("WRONG: a feed was not held: %s%s" % (said.decode(), told.decode()), file=sys.stderr)
            return
        self.completed, self.said = began, said.decode().replace("\n", "; ")
        self.counts[by_ssh] += 1
        self.longest = max(self.longest, time.monotonic() - began)

    def send_on(self):
        by_ssh = False
        while not self.is_over.is_set() and not self.is_wrong:
            self.send(by_ssh)
            by_ssh = HAS_SSH and not by_ssh

    def kill(self):
        """Kills what is under way, as the loss of the leader's machine does."""
        self.is_over.set()
        with contextlib.suppress(ProcessLookupError):
            os.killpg(self.sender.pid, signal.SIGKILL)
        self.thread.join()


def promote():
    status, said = run("promote", "--journal", FOLLOWER, "--shelves", str(SHELVES))
    wanted = "".join("shelf %d promoted\n" % shelf for shelf in range(SHELVES)).encode()
    if (status, said) != (0, wanted):
        crash.fail("promote ends with %d: %r" % (status, said))


def audit():
    status, said = run("audit", "--journal", FOLLOWER, "--shelves", str(SHELVES))
    if status != 0:
        crash.fail("an audit of the follower ends with %d: %r" % (status, said))
    return said.decode().replace("\n", "; ")


def fail_over():
    """The whole of it. What is left in the folders is a dead leader's journal and a promoted follower's."""
    server = serves(LEADER)
    visitors, is_over = [Visitor(number) for number in range(VISITORS)], threading.Event()
    threads = [threading.Thread(target=visitor.visit_until, args=(server, is_over)) for visitor in visitors]
    for thread in threads:
        thread.start()
    feeds = Feeds()
    until = time.monotonic() + SECONDS
    while (time.monotonic() < until or not all(feeds.counts[way] for way in (False, HAS_SSH))) and not feeds.is_wrong:
        time.sleep(0.1)
    time.sleep(CHANCE.random() * feeds.longest)
    if server.process.poll() is not None:
        crash.fail("the leader ended by itself")
    server.kill()
    feeds.kill()
    is_over.set()
    for thread in threads:
        thread.join()
    if feeds.is_wrong or any(visitor.is_wrong for visitor in visitors):
        crash.fail("the leader or a feed went wrong")
    visits, pages = sum(visitor.visits for visitor in visitors), sum(len(visitor.pages) for visitor in visitors)
    print("%d visitors, %d visits, %d pages told; %d feeds over a pipe and %d over ssh were held whole, each within %.1f s; the last said: %s"
          % (VISITORS, visits, pages, feeds.counts[False], feeds.counts[True], feeds.longest, feeds.said), flush=True)
    ask_follower(visitors, feeds.completed)


def ask_follower(visitors, since):
    """What the follower answers before it is promoted and after it. A feed that was broken off may still have its files for a moment."""
    print("an audit of the follower: " + audit(), flush=True)
    follower = serves(FOLLOWER)
    for target in (b"/servlets/sum", visitors[0].pages[0].url):
        if follower.ask(target) != FOLLOWING:
            crash.fail("a follower answers a visit")
    follower.kill()
    promote()
    promoted, asked = serves(FOLLOWER), time.monotonic()
    counts = ask_all(promoted, visitors, since, asked)
    ask_all(promoted, visitors, since, asked)
    promoted.kill()
    print("promoted: each of %(held)d pages of the last completed feed answers, %(closed)d of them that it is closed; of %(later)d later ones "
          "%(lost)d are lost" % counts, flush=True)
    if run("follow", "--journal", FOLLOWER) != (13, b"error 13 0 promoted\n"):
        crash.fail("a promoted one takes a feed")
    print("an audit of it now: " + audit(), flush=True)


def ask_all(server, visitors, since, asked):
    """Asks for each page of each visitor once, and counts the replies."""
    with concurrent.futures.ThreadPoolExecutor(16) as pool:
        counts = sum(pool.map(lambda visitor: visitor.ask_all(server, since, asked), visitors), collections.Counter())
    if any(visitor.is_wrong for visitor in visitors):
        crash.fail("a promoted follower went wrong")
    return counts


# --- Kills ---


def feed_of(journal):
    status, feed = run("export", "--journal", journal, "--shelf", "0")
    if status != 0:
        crash.fail("an export ends with %d" % status)
    return feed


def ends_of(feed):
    """The places at which the head and the records of a feed end."""
    places = [8]
    while places[-1] < len(feed):
        places.append(places[-1] + 4 + int.from_bytes(feed[places[-1] : places[-1] + 4], "little"))
    return places


class Following:
    """An export that is followed over a pipe, and what was acknowledged."""

    def __init__(self, journal):
        self.export = subprocess.Popen([PROGRAM, "export", "--journal", LEADER, "--shelf", "0"], stdin=subprocess.DEVNULL, stdout=subprocess.PIPE,
                                       stderr=subprocess.DEVNULL)
        self.follow = subprocess.Popen([PROGRAM, "follow", "--journal", journal, "--shelf", "0"], stdin=self.export.stdout, stdout=subprocess.PIPE,
                                       stderr=subprocess.DEVNULL)
        self.export.stdout.close()
        self.acks, self.last = 0, b""
        self.changed = threading.Condition()
        self.reading = threading.Thread(target=self.read)
        self.reading.start()

    def read(self):
        for line in self.follow.stdout:
            with self.changed:
                if line == b"ack %d\n" % (self.acks + 1):
                    self.acks += 1
                else:
                    self.last = line
                self.changed.notify()
        with self.changed:
            self.changed.notify()

    def wait_for(self, acks):
        """Waits until so many records are acknowledged, or no more come."""
        with self.changed:
            while self.acks < acks and self.reading.is_alive():
                self.changed.wait(0.2)

    def end(self):
        """The follower's status, once all is over."""
        status = self.follow.wait()
        self.reading.join()
        self.export.wait()
        return status


def kills():
    """Kills a follower at random moments, now and then its leader's export, and looks at what it holds."""
    feed = feed_of(LEADER)
    ends = ends_of(feed)
    journal = FOLDER + "/killed"
    held = begun = acknowledged = compared = cut = 0
    for turn in range(KILLS):
        if held > 0.9 * (len(ends) - 1):
            shutil.rmtree(journal)
            held, begun = 0, begun + 1
        following = Following(journal)
        in_comparing = turn % 10 == 3 and held > 0
        following.wait_for(CHANCE.randrange(held) + 1 if in_comparing else held + 1)
        time.sleep(CHANCE.random() * (0.001 if in_comparing else 0.2))
        cuts = turn % 10 == 7
        (following.export if cuts else following.follow).kill()
        status = following.end()
        if cuts and not (status == 0 or (status == 13 and following.last == b"error 13 %d cut\n" % ends[following.acks])):
            crash.fail("behind an export that was killed a follower ends with %d %r, %d records acknowledged" % (status, following.last, following.acks))
        holds = feed_of(journal)
        count = len(ends_of(holds)) - 1
        if not feed.startswith(holds) or len(holds) != ends[count]:
            crash.fail("a follower that was killed holds other bytes than its leader")
        if not max(held, following.acks) <= count <= max(held, following.acks) + 1:
            crash.fail("%d records were held, %d are acknowledged, and %d are held now" % (held, following.acks, count))
        acknowledged += max(0, following.acks - held)
        compared += following.acks < held
        cut += cuts
        held = count
    print("killed %d times, %d of them in comparing, and %d times the export in its place: %d new records acknowledged, none lost; %d times begun anew"
          % (KILLS - cut, compared, cut, acknowledged, begun), flush=True)
    following = Following(journal)
    status = following.end()
    if (status, following.acks, feed_of(journal)) != (0, len(ends) - 1, feed):
        crash.fail("at the end following ends with %d and %d records of %d" % (status, following.acks, len(ends) - 1))
    print("then all %d records of %d bytes, byte for byte" % (len(ends) - 1, len(feed)), flush=True)
    print("a feed of them takes %.2f s into an empty folder, and %.2f s once more" % (seconds_of_feed(), seconds_of_feed()))


def seconds_of_feed():
    """How long it takes to export the leader's journal and follow it, in a folder for this."""
    began = time.monotonic()
    if Following(FOLDER + "/timed").end() != 0:
        crash.fail("a feed was not held")
    return time.monotonic() - began


if __name__ == "__main__":
    fail_over()
    kills()
