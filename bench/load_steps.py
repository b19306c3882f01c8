#!/usr/bin/env python3
"""Writes down the steps of measured runs, plays them by `play`, and compares the FNV-1a of what it prints, and its counts, with
the line of `load`. Words: the program; then, for each run, its number with options of `load` behind it in one word, as
'7 --shelves 2'. Ends with 1 where a line differs.

A step depends on the replies before it, and `play` reads its whole input first. So the replies are foreseen, by a small model
of the three scripts and of shelves; the steps are played; where a reply is another one than was foreseen, it stands from then
on, and what follows it is drawn anew. What is compared in the end comes from `play` alone: the model only saves plays."""

import re
import subprocess
import sys

STEPS, MASK = 20_000, (1 << 64) - 1
SCRIPTS = {
    "hotel": """(define picked (make-web-cell "none"))
(let ((b (send/suspend (lambda (u) `(a ((href ,u)) "list")))))
  (web-cell-shadow picked (extract-binding/single 'h b))
  (send/suspend (lambda (u) `(a ((href ,u)) "confirm")))
  `(p ,(web-cell-ref picked)))""",
    "shop": """(define stock (make-instance-cell 1))
(begin
  (send/suspend (lambda (u) `(a ((href ,u)) "buy")))
  (if (< (instance-cell-ref stock) 1)
      '(p "sold out")
      (begin (instance-cell-add! stock -1) '(p "bought"))))""",
    "pay": """(define charged (make-instance-cell 0))
(begin
  (send/suspend (lambda (u) `(a ((href ,u)) "cart")))
  (isolate
    (begin
      (send/suspend (lambda (u) `(a ((href ,u)) "card")))
      (send/suspend (lambda (u) `(a ((href ,u)) "pay")))
      (instance-cell-add! charged 1)))
  (send/suspend (lambda (u)
    `(a ((href ,u)) ,(number->string (instance-cell-ref charged)))))
  '(p "end"))""",
}
NAMES = list(SCRIPTS)
# What is shown behind a page: of hotel and shop the last two show no page that waits.
NEXT = {"list": "confirm", "cart": "card", "card": "pay", "pay": "number"}
FIRST = {"hotel": "list", "shop": "buy", "pay": "cart"}


def fnv(data):
    value = 14695981039346656037
    for byte in data:
        value = (value ^ byte) * 1099511628211 & MASK
    return value


class Generator:
    """What draws the steps."""

    def __init__(self, number):
        self.x, self.clock, self.targets = number, 0, []

    def next(self, shelves, holds):
        x = self.x
        x ^= x << 13 & MASK
        x ^= x >> 7
        x ^= x << 17 & MASK
        self.x = x
        lot, worker, choice = x % 1000, x // 1000 % 4, x // 4000
        if lot == 0:
            return ("crash", choice % shelves, None)
        if lot < 21:
            self.clock += choice % 60
            return ("tick", self.clock, None)
        if holds[worker]:
            return ("publish", worker, None)
        if lot < 120 or not self.targets:
            target = "/servlets/" + NAMES[choice % 3]
        else:
            target = f"{self.targets[choice % len(self.targets)]}?h={choice // 256 % 10}"
        return ("take" if lot % 2 == 0 else "get", worker, target)

    def learn(self, url):
        self.targets = (self.targets + [url])[-256:]


class Shelf:
    def __init__(self):
        self.clock = self.number = self.nonce = self.logged = 0
        self.instances = {}


class Model:
    """What is foreseen. It goes by the replies that are known, wherever they are known."""

    def __init__(self, options):
        self.options = options
        self.shelves = [Shelf() for _ in range(options["shelves"])]
        self.held = [None] * 4

    def admitted(self, target, worker):
        """The shelf and what is visited there, or None where it is refused."""
        path = target.split("?")[0]
        if ";" not in path:
            return self.shelves[worker % len(self.shelves)], (path[10:], None, None)
        name, numbers = path[10:].split(";")
        shelf, instance, page, nonce = numbers.split("*")
        shelf = self.shelves[int(shelf)]
        found = shelf.instances.get(int(instance))
        entry = found and found["pages"].get(int(page))
        if not entry or entry["nonce"] != int(nonce, 16) or found["name"] != name:
            return None
        if entry["inside"] in found["closed"] or entry["evicted"] or shelf.clock >= entry["deadline"]:
            return None
        return shelf, (name, int(instance), int(page))

    def take(self, worker, target):
        at = self.admitted(target, worker)
        if at is None:
            return None
        shelf, number, nonce = at[0], at[0].number, at[0].nonce
        shelf.number += 1
        shelf.nonce += 1
        return (target, number, nonce)

    def publish(self, worker, ticket):
        """The URL that is shown, or None."""
        target, number, nonce = ticket
        at = self.admitted(target, worker)
        if at is None:
            return None
        shelf, (name, instance, page) = at
        if instance is None:
            if len(shelf.instances) >= self.options["instances"]:
                return None
            kind, inside, instance, found = FIRST[name], None, number, {"name": name, "pages": {}, "closed": set()}
        else:
            found = shelf.instances[instance]
            entry = found["pages"][page]
            kind, inside = NEXT.get(entry["kind"]), entry["inside"]
            entry["used"] = max(entry["used"], number)
            if kind is None:
                shelf.logged = max(shelf.logged, number + 1)
                return None
            if kind == "card":
                inside = number
        self.evict(found["pages"])
        if kind == "number":
            found["closed"].add(inside)
            inside = None
        shelf.instances[instance] = found
        found["pages"][number] = self.page(shelf, number, nonce, kind, inside)
        shelf.logged = max(shelf.logged, number + 1)
        return f"/servlets/{name};{self.shelves.index(shelf)}*{instance}*{number}*{nonce:016x}"

    def page(self, shelf, number, nonce, kind, inside):
        deadline = shelf.clock + self.options["life"]
        return {"nonce": nonce, "kind": kind, "inside": inside, "deadline": deadline, "used": number, "evicted": False}

    def evict(self, pages):
        """Makes room for one page more: those that were used longest ago go."""
        left = sorted((page["used"], number) for number, page in pages.items() if not page["evicted"])
        for _, number in left[: max(0, len(left) + 1 - self.options["pages"])]:
            pages[number]["evicted"] = True

    def perform(self, step, known):
        """What the step comes to: whether a ticket is held, or the URL that is shown. What is known stands."""
        word, worker, target = step
        if word == "crash":
            shelf = self.shelves[worker]
            shelf.number = shelf.logged
            for other, ticket in enumerate(self.held):
                if ticket and self.shelf_of(ticket[0], other) is shelf:
                    self.held[other] = None
            return None
        if word == "tick":
            for shelf in self.shelves:
                shelf.clock = max(shelf.clock, worker)
                shelf.instances = {
                    i: x
                    for i, x in shelf.instances.items()
                    if any(p["deadline"] > shelf.clock and not p["evicted"] for p in x["pages"].values())
                }
            return None
        if word == "take":
            self.held[worker] = self.take(worker, target)
            if known is not None:
                self.held[worker] = self.correct(self.held[worker], target, worker, known)
            return bool(self.held[worker])
        ticket = self.held[worker] if word == "publish" else self.take(worker, target)
        self.held[worker] = None
        url = self.publish(worker, ticket) if ticket else None
        if known is not None:
            return self.settle(known, url)
        return url or ""

    def shelf_of(self, target, worker):
        path = target.split("?")[0]
        return self.shelves[int(path.split(";")[1].split("*")[0]) if ";" in path else worker % len(self.shelves)]

    def correct(self, foreseen, target, worker, told):
        """The ticket whose number was told, or none, in the place of what was foreseen."""
        shelf = self.shelf_of(target, worker)
        if foreseen and not told:
            shelf.number -= 1
            shelf.nonce -= 1
        if told and not foreseen:
            shelf.nonce += 1
        if not told:
            return None
        shelf.number = int(told) + 1
        return (target, int(told), shelf.nonce - 1)

    def settle(self, known, url):
        """The URL that was told, in the place of the one that was foreseen."""
        if known and known != url:
            name, numbers = known[10:].split(";")
            s, i, k, n = numbers.split("*")
            shelf = self.shelves[int(s)]
            shelf.number, shelf.nonce, shelf.logged = int(k) + 1, int(n, 16) + 1, int(k) + 1
            found = shelf.instances.setdefault(int(i), {"name": name, "pages": {}, "closed": set()})
            found["pages"][int(k)] = self.page(shelf, int(k), int(n, 16), FIRST[name], None)
        return known


def line_of(step):
    return " ".join(str(part) for part in step if part is not None)


def drawn(number, options, known):
    """The steps of the run and what each comes to, by the replies that are known of the first of them."""
    generator, model, steps, told = Generator(number), Model(options), [], []
    for k in range(STEPS):
        step = generator.next(options["shelves"], [ticket is not None for ticket in model.held])
        outcome = model.perform(step, known[k] if k < len(known) else None)
        if isinstance(outcome, str) and outcome:
            generator.learn(outcome)
        steps.append(step)
        told.append(outcome)
    return steps, told


def replies(steps, printed, shelves):
    """What each step told, as far as the print goes, and the counts of replies 200 and of others."""
    at, outcomes, pages, refused = 0, [], 0, 0
    for word, worker, _ in steps:
        for _ in range(shelves if word == "tick" else 1):
            end = printed.find(b"\n", at)
            line = printed[at:end].split()
            if end < 0 or line[0] == b"error":
                return outcomes, pages, refused
            at = end + 1
            outcome = "" if word in ("get", "publish") else False
            if word in ("crash", "tick"):
                outcome = None
            elif line[1] == b"taken":
                outcome = line[2].decode()
            elif line[1] == b"200":
                pages += 1
                page, at = printed[at : at + int(line[2])], at + int(line[2]) + 1
                url = re.search(rb'href="([^"]*)"', page)
                outcome = url.group(1).decode() if url else ""
            else:
                refused += 1
        outcomes.append(outcome)
    return outcomes, pages, refused


def same(step, told, outcome):
    return bool(told) == bool(outcome) if step[0] == "take" else told == outcome


def measured(program, number, words):
    options = {"shelves": 1, "fuel": 100_000, "life": 3_600, "instances": 256, "pages": 64}
    options.update({k.lstrip("-"): int(v) for k, v in zip(words[::2], words[1::2]) if k != "--journal"})
    setup = "".join(f"script {name} {len(text)}\n{text}\n" for name, text in SCRIPTS.items()) + "steps\n"
    known, plays = [], 0
    while True:
        steps, told = drawn(number, options, known)
        text = setup + "".join(line_of(step) + "\n" for step in steps)
        printed = subprocess.run([program, "play", *words], input=text.encode(), stdout=subprocess.PIPE, check=False).stdout
        plays += 1
        outcomes, pages, refused = replies(steps, printed, options["shelves"])
        wrong = next((k for k, x in enumerate(outcomes) if not same(steps[k], told[k], x)), len(outcomes))
        if wrong == STEPS:
            return f"steps {STEPS} pages {pages} refused {refused} hash {fnv(printed):016x}", plays, steps
        known = outcomes[: wrong + 1]


def main():
    program, failed = sys.argv[1], False
    for words in map(str.split, sys.argv[2:]):
        line, plays, steps = measured(program, int(words[0]), words[1:])
        loaded = subprocess.run([program, "load", *words], stdout=subprocess.PIPE, check=False).stdout.decode().strip()
        same_line = line == loaded
        failed |= not same_line
        print(f"load {' '.join(words)}: {loaded}{'' if same_line else ', but play: ' + line} ({plays} plays)", flush=True)
        print("    " + "; ".join(line_of(step) for step in steps[:2]), flush=True)
    sys.exit(1 if failed else 0)


main()
