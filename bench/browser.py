"""Walks the shop, and the hotel in two windows, with a headless Chromium.
browser.sh starts the server; the words are its port and a folder for the browser's profile."""

import sys

from chromium import Browser, Window


def walk_the_shop(browser):
    print("The shop")
    window = Window(browser, browser.host + "/servlets/shop")
    window.shows("In stock: 1")
    window.type("Ann")
    window.press()
    window.shows("Thank you, Ann.")
    print("  back, and once more")
    window.back()
    window.shows("In stock: 1")
    window.type("Bo")
    window.press()
    window.shows("Sorry, Bo.")
    window.again()
    window.shows("Sorry, Bo.")
    print("  a new shop")
    window.follow("A new shop")
    window.shows("In stock: 1")


def walk_the_hotel(browser):
    print("The hotel, in two windows")
    first = Window(browser, browser.host + "/servlets/hotel")
    first.shows("Another one:")
    second = Window(browser, first.target_of("Krone"))
    second.shows("Krone")
    first.follow("Adler")
    first.shows("Adler")
    second.press()
    second.shows("Booked\n\nKrone")
    first.press()
    first.shows("Booked\n\nAdler")
    print("  back in the first, to another one")
    first.back()
    first.shows("Adler")
    first.back()
    first.shows("Another one:")
    first.type("Post")
    first.press()
    first.shows("Post")
    first.press()
    first.shows("Booked\n\nPost")
    print("  back in the second, and once more")
    second.back()
    second.shows("Krone")
    second.press()
    second.shows("Booked\n\nKrone")


chromium = Browser(f"http://127.0.0.1:{int(sys.argv[1])}", sys.argv[2])
walk_the_shop(chromium)
walk_the_hotel(chromium)
replies = chromium.replies.values()
print(f"{sum(replies)} replies over {len(replies)} connections: {', '.join(map(str, replies))}")
chromium.close()
if replies and max(replies) == 1:
    sys.exit("WRONG: no connection carried a second request")
