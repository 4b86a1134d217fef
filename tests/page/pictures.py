"""Takes the pictures of docs/PAGE.md: `pictures.py PAGE FOLDER`."""

import sys
import tempfile
from pathlib import Path

from browser import Browser
from checks import send
from logs import opened

REST = "await new Promise((resolve) => setTimeout(resolve, 1200)); document.activeElement?.blur(); scrollTo(0, 0)"


CARDS = """
cards 7001 7002 - 7004
> 12 00 04 00 03 06 20 20 00 33 09 00 00 00 00 00 00 00 00 00
card 7005
> 03 00 02 00 01
> 03 00 02 00 03
> 08 00 01 00 01 04 02 00 00 00
> 06 00 03 00 00 00 00 01
> 0D 00 01 00 02 01 01 06 00 00 01 02 02 01 01
> 06 00 03 00 01 00 00 02
"""


def motion(page):
    page.click("#in-use")
    send(page, "belts row 1 left lift, lower, full", "shuttles right row 2 lowered lower", "tilt left row 3 tilted")


def condition(page):
    page.click("#in-use")
    page.fill("#words", "belts row 2 middle, higher, full")
    page.click("#add")
    page.fill("#words", "belts row 1 left lift, higher, full")


def jam(page):
    page.run("const { views } = await window.garage; views.live.image(0x00191b0002200000n)")
    send(page, "lift basement", "belts row 2 middle, higher, full")
    page.click("[data-result='0-stuck']")
    page.click("[data-result='1-done']")
    page.click("[data-event='2']")


def drive(page):
    page.click("#in-use")
    send(page, "belts row 1 left lift, lower, full")
    page.click("[data-result='0-done']")
    send(page, "lift street")
    page.click("[data-result='0-done']")
    page.click("[data-event='1']")


def log(page):
    opened(page, page.url, "journal-100000")
    page.run("const { views } = await window.garage; views.log.go(views.log.log.nextRefused(61000) + 1)")


def cards(page):
    """A log of a car that comes, with its card, and a belt that gets stuck on its way."""
    page.click("#tab-log")
    page.run("document.getElementById('pasted').value = given[0]; document.getElementById('paste').requestSubmit()", CARDS)
    page.until("return !document.getElementById('log-body').hidden", "the log is open")


def garage(page):
    page.click("#tab-garage")
    page.fill("#drawing", "##...#.....##.......\n.#.......#\n#.........\nLLT\n-LB\nbasement\n")


def week(page):
    log(page)
    page.click("#tab-week")
    page.until("return document.querySelectorAll('#week-bars tr').length > 20", "the week is counted")


def orders(page):
    page.click("#in-use")
    send(page, "belts row 1 left lift, lower, full", "belts row 2 middle, higher, full", "tilt left row 3 tilted")
    page.click("#two-orders")
    page.until("return document.getElementById('one-record')?.textContent.includes('Both')", "both have ended")


# name, what is done, the window's size, dark or not, and of which element the picture is
PICTURES = [
    ("motion", motion, (1180, 1000), False, "#live-floor"),
    ("station", condition, (1180, 1900), False, "#view-station"),
    ("jam", jam, (1180, 1000), False, "#live-floor"),
    ("drive", drive, (500, 1300), True, "#live-floor"),
    ("log", log, (1180, 1900), False, "#view-log"),
    ("cards", cards, (1180, 1500), False, "#log-body .stage"),
    ("garage", garage, (1180, 1500), False, "#view-garage"),
    ("orders", orders, (1180, 1420), False, "#comparison"),
    ("week", week, (1180, 1700), True, "#view-week"),
]


def main(path, folder):
    folder.mkdir(parents=True, exist_ok=True)
    for name, done, (width, height), dark, element in PICTURES:
        with tempfile.TemporaryDirectory() as own, Browser(own, width, height, dark) as page:
            page.url = path.as_uri()
            page.open(page.url)
            done(page)
            page.run(REST)
            page.picture(folder / f"{name}.png", element)


main(Path(sys.argv[1]).resolve(), Path(sys.argv[2]))
