"""Holds a page of a shop in a headless Chromium while the shop's script is changed, and goes on from it.
edit.sh starts the servers; the words are the port of the first, a folder for the browser's profile, and two files: this makes the one
when the page is there, and waits until the other tells the port of the second server, which is the same."""

import pathlib
import sys
import time

from chromium import PATIENCE, Browser, Window


def wait_for(file):
    began = time.monotonic()
    while not file.exists() or not file.read_text().strip():
        if time.monotonic() > began + PATIENCE:
            sys.exit(f"WRONG: {file} did not come")
        time.sleep(0.05)
    return int(file.read_text())


port, profile = int(sys.argv[1]), sys.argv[2]
ready, changed = (pathlib.Path(word) for word in sys.argv[3:5])
chromium = Browser(f"http://127.0.0.1:{port}", profile)
print("The shop, as it was")
old = Window(chromium, chromium.host + "/servlets/shop")
old.shows("In stock: 1")
ready.write_text("ready")
if wait_for(changed) != port:
    sys.exit("WRONG: the second server has another port")
print("The page of the old shop goes on as it was")
old.type("Ann")
old.press()
old.shows("Thank you, Ann.")
print("A new start shows the new shop, and back is the old one")
new = Window(chromium, chromium.host + "/servlets/shop")
new.shows("Only today")
old.back()
old.shows("In stock: 1")
old.type("Bo")
old.press()
old.shows("Sorry, Bo.")
chromium.close()
