"""Times compactions of a journal of some 16 MB, by `play`: seconds for a MB of the file, and how much more memory a run with
them takes than one without, in parts of the file. journal.sh starts it with a folder and the program."""

import os
import re
import shutil
import subprocess
import sys
import time

FOLDER, PROGRAM = sys.argv[1], sys.argv[2]
SCRIPT = b'(begin (send/suspend (lambda (u) "a")) (send/suspend (lambda (u) "b")))'
VISITS = 1000
COMPACTIONS = 4


def steps(compactions):
    """Answers of 16,000 bytes to one page, and then so many compactions."""
    lines = [b"script s %d" % len(SCRIPT), SCRIPT, b"steps", b"get 0 /servlets/s"]
    lines += [b"get 0 /servlets/s;0*0*0*0000000000000000?n=" + b"x" * 16000] * VISITS
    lines += [b"compact 0"] * compactions
    return b"\n".join(lines) + b"\n"


def run(compactions):
    """The seconds of such a run, the most memory that it took, in bytes, and what it told of the compactions."""
    journal = FOLDER + "/compacted"
    shutil.rmtree(journal, ignore_errors=True)
    with open(FOLDER + "/compacted.steps", "wb") as file:
        file.write(steps(compactions))
    began = time.time()
    with open(FOLDER + "/compacted.steps", "rb") as given:
        process = subprocess.Popen([PROGRAM, "play", "--pages", "1024", "--journal", journal], stdin=given, stdout=subprocess.PIPE,
                                   stderr=subprocess.DEVNULL)
        told = process.stdout.read()
        _, status, usage = os.wait4(process.pid, 0)
    if status != 0:
        sys.exit("play ended with %d" % status)
    return time.time() - began, usage.ru_maxrss * 1024, re.findall(rb"shelf 0 length (\d+)", told)


def main():
    plain, room, _ = min(run(0) for _ in range(3))
    seconds, more, told = min(run(COMPACTIONS) for _ in range(3))
    if len(told) != COMPACTIONS:
        sys.exit("of %d compactions %d were told" % (COMPACTIONS, len(told)))
    size = int(told[-1])
    print("a compaction of a file of %d bytes: %.1f ms a MB; with it a run takes %.2f of the file more memory"
          % (size, (seconds - plain) / COMPACTIONS / (size / 1e6) * 1e3, (more - room) / size))


if __name__ == "__main__":
    main()
