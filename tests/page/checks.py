"""What the page must do, each as a check on an open browser. A check fails by an assertion, or by the driver."""

import subprocess
import time
from pathlib import Path

ROOT = Path(__file__).resolve().parents[2]
OUT = ROOT / "target/page"
START = "....................\n..........\n..........\nLLT\nLLT\nstreet\n"


def program(name, given, *words):
    return subprocess.run([ROOT / "bin" / name, *words], input=given, capture_output=True, check=True).stdout


def same(found, wanted, what):
    assert found == wanted, f"{what}: wanted {wanted!r}, found {found!r}"


def floor(page, host="#live-floor"):
    """What the drawing shows, by what stands where on the screen: for each car its card and the cells whose numbers are below it; the lift's
    height by the stops above it, the door by its shape, and which parts are hatched."""
    return page.run("""
        const host = document.querySelector(given[0]), middle = (node) => { const r = node.getBoundingClientRect(); return [r.x + r.width / 2, r.y + r.height / 2]; };
        const numbers = [...host.querySelectorAll('.number')].map((node) => [Number(node.textContent), ...middle(node)]);
        const cars = [...host.querySelectorAll('.car')].map((node) => {
          const r = node.querySelector('.body').getBoundingClientRect();
          const below = numbers.filter(([, x, y]) => x > r.x && x < r.right && y > r.bottom && y < r.bottom + r.height).map(([cell]) => cell);
          return [node.querySelector('text').textContent, below.length ? below.join(' ') : 'lift'];
        });
        const high = (node) => middle(node)[1], cage = high(host.querySelector('.cage')), stops = [...host.querySelectorAll('.stop')].map(high);
        const lift = ['street', 'rotation', 'basement'][stops.filter((stop) => stop < cage - 9).length];
        const door = host.querySelector('.door').getBoundingClientRect();
        const hatched = [...host.querySelectorAll('[data-apart]')].filter((node) => getComputedStyle(node).fill.startsWith('url(')).map((node) => Number(node.dataset.apart));
        return { cars, lift, door: door.width > door.height ? 'open' : 'closed', hatched,
          moving: host.querySelectorAll('.area.motion').length, ghosts: host.querySelectorAll('.ghost').length, label: host.querySelector('svg').getAttribute('aria-label') };
    """, host)


def settled(page, wanted, what, host="#live-floor"):
    """Waits until cars that glide have come to rest, and holds the floor against what is wanted."""
    end = time.monotonic() + max(3, page.patience / 4)
    while time.monotonic() < end:
        found = floor(page, host)
        if all(found[key] == value for key, value in wanted.items()):
            return found
        page.run("await new Promise((resolve) => setTimeout(resolve, 50))")
    raise AssertionError(f"{what}: wanted {wanted}, found {found}")


def sent(page, answer, what):
    """Holds the answer on the screen against its bytes."""
    same(page.text("#answer .reply"), answer, what)


TAKEN = "06 00 80 00 00 FF 00 00"


def send(page, *lines):
    for line in lines:
        page.fill("#words", line)
        page.click("#add")
    page.click("#send")


def parks_by_clicks(page, url):
    page.open(url)
    settled(page, {"cars": [], "lift": "street", "door": "closed"}, "the start")
    page.click("[data-event='1']")
    sent(page, TAKEN, "a drive-in begins")
    found = settled(page, {"cars": [], "door": "open"}, "a drive-in")
    assert "a drive-in is under way" in found["label"], found
    page.click("[data-event='3']")
    settled(page, {"cars": [["7001", "lift"]], "lift": "street", "door": "closed"}, "a car on the lift")
    page.click("[data-part='lift-2']")
    same(page.text("#verdict"), "allowed", "the verdict on the lift")
    page.click("#add")
    page.click("#send")
    sent(page, TAKEN, "a set")
    assert floor(page)["moving"] >= 2 and floor(page)["ghosts"] >= 1, "nothing in motion is drawn"
    page.click("[data-result='0-done']")
    settled(page, {"cars": [["7001", "11 12"]], "lift": "basement", "moving": 0}, "the lift is down")
    page.click("[data-part='belt-1-1']")
    page.click("[data-part='belt-1-2']")
    page.run("document.querySelector(\"[name=toward][value='0']\").click()")
    same(page.run("return document.getElementById('words').value"), "belts row 1 left lift, lower, full", "what was chosen")
    page.click("#add")
    page.click("#send")
    page.click("[data-result='0-done']")
    settled(page, {"cars": [["7001", "9 10"]]}, "the car is parked")
    same(page.run("return document.querySelectorAll('#history li').length"), 6, "messages of the session")


def fetches_by_keys(page, url):
    """With the keyboard alone: tab to what is wanted, arrows on the floor, Enter and space."""
    def tab_to(selector):
        for _ in range(150):
            if page.run("return document.activeElement?.matches(given[0]) ?? false", selector):
                return
            page.keys("Tab")
        raise AssertionError(f"no way by keys to {selector}")

    page.open(url)
    page.run("const { views } = await window.garage; views.live.image(0x00491b0000000600n)")
    settled(page, {"cars": [["7001", "9 10"]], "lift": "basement"}, "the image")
    page.run("document.body.focus(); document.activeElement.blur()")
    tab_to("#live-floor .pick")
    for _ in range(40):
        if page.run("return document.activeElement.dataset.part") == "belt-1-1":
            break
        here = page.run("return document.activeElement.dataset.part")
        page.keys("Down" if here.startswith("lift") else "Right" if here == "belt-1-0" else "Up" if here[5] in "23" else "Left")
    same(page.run("return document.activeElement.dataset.part"), "belt-1-1", "the belt by arrows")
    page.keys("Enter")
    same(page.run("return document.activeElement.dataset.part"), "belt-1-1", "the focus stays")
    page.keys("Right", "Space")
    same(page.run("return document.getElementById('words').value"), "belts row 1 left lift, higher, full", "chosen by keys")
    tab_to("#add")
    page.keys("Enter")
    tab_to("#send")
    page.keys("Enter")
    sent(page, TAKEN, "the belts")
    tab_to("[data-result='0-done']")
    page.keys("Enter")
    settled(page, {"cars": [["7001", "11 12"]]}, "the car is on the lift")
    page.run("document.getElementById('words').focus(); document.getElementById('words').select()")
    page.keys("lift street", "Enter")
    tab_to("#send")
    page.keys("Space")
    tab_to("[data-result='0-done']")
    page.keys("Enter")
    settled(page, {"cars": [["7001", "lift"]], "lift": "street"}, "the lift is up")
    for event in ("2", "3"):
        tab_to(f"[data-event='{event}']")
        page.keys("Enter")
    settled(page, {"cars": [], "door": "closed"}, "the car is out")


def jam_and_image(page, url):
    page.open(url)
    page.run("const { views } = await window.garage; views.live.image(0x00191b0000000000n)")
    send(page, "lift basement", "belts row 2 middle, higher, full")
    page.click("[data-result='0-stuck']")
    page.click("[data-result='1-done']")
    found = settled(page, {"hatched": [11, 12, 52], "cars": [["7001", "lift"]]}, "the jam")
    assert "set apart: cells 11, 12; the lift" in found["label"], found
    page.click("[data-event='2']")
    sent(page, "06 00 80 00 20 FF 00 00", "a begin beside the jam")
    assert "a part is set apart" in page.text("#answer") and "To do" in page.text("#answer"), page.text("#answer")
    page.fill("#words", "lift basement")
    assert page.text("#verdict").startswith("32"), page.text("#verdict")
    page.click("#tab-garage")
    page.fill("#drawing", "...........##.......\n..........\n..........\nLLT\nLLT\nbasement\n")
    page.click("#send-image")
    sent(page, TAKEN, "the image")
    settled(page, {"hatched": [], "cars": [["7002", "11 12"]], "lift": "basement"}, "after the image, with a card for the car that it brings")


def refusals_are_told(page, url):
    """Allowed or not before it is sent: conditions, overlap, what is outstanding; and the answer when it is sent all the same."""
    page.open(url)
    page.fill("#words", "belts row 1 lift, higher, full")
    assert page.text("#verdict").startswith("22 not available"), page.text("#verdict")
    assert "lift at street, at fault" in page.text(".conditions"), page.text(".conditions")
    page.click("#add")
    page.fill("#words", "lift basement")
    assert page.text("#verdict").startswith("8 it overlaps 0"), page.text("#verdict")
    page.click("#send")
    sent(page, "06 00 80 00 16 00 00 00", "a request that is rejected")
    assert "at instruction 0 (belts row 1 lift, higher, full)" in page.text("#answer"), page.text("#answer")
    page.click(".set .quiet")
    page.fill("#words", "lift cellar")
    assert "expected `street`, `rotation` or `basement`, found `cellar`" in page.text("#composer"), page.text("#composer")
    page.click("#anew")
    page.fill("#words", "lift rotation")
    page.click("#add")
    page.click("#send")
    page.fill("#words", "rotate")
    assert page.text("#verdict").startswith("6 "), page.text("#verdict")
    page.click("[data-event='1']")
    sent(page, "06 00 80 00 06 FF 00 00", "an event beside the lift's set")


def two_orders(page, url):
    page.open(url)
    page.click("#in-use")
    send(page, "belts row 1 left lift, lower, full", "belts row 2 middle, higher, full", "tilt left row 3 tilted")
    page.click("#two-orders")
    page.until("return /Both end|differ/.test(document.getElementById('one-record')?.textContent)", "both orders have ended")
    same(page.text("#one-record"), "Both end in one record, with the same parts set apart.", "two orders")
    orders = page.run("return [...document.querySelectorAll('#comparison .two > div')].map((one) => [...one.querySelectorAll('li')].map((line) => line.textContent))")
    assert sorted(orders[0]) == sorted(orders[1]) and orders[0] != orders[1], orders
    records = page.run("return [...document.querySelectorAll('#comparison .bytes')].map((one) => one.textContent)")
    same(records, ["03 06 40 20 00 37 48 00"] * 2, "the record")


def motors_play(page, url):
    """From one seed the same results come, also with failures and jams; a set ends closed."""
    ends = []
    for _ in range(2):
        page.open(url)
        page.click("#in-use")
        page.run("const { views } = await window.garage; views.live.seed = 5; views.live.faults = true; views.live.show()")
        send(page, "belts row 1 left lift, lower, full", "belts row 2 middle, higher, full", "tilt left row 3 tilted")
        page.click("#play-motors")
        page.until("const { views } = await window.garage; return views.live.desk.set.length === 0", "the motors have played")
        ends.append(page.run("const { views } = await window.garage; return views.live.history.map(({ bytes }) => [...bytes].join(' '))"))
    same(ends[0], ends[1], "the same seed")
    same(len(ends[0]), 5, "results that came")


def garage_drawn(page, url):
    page.open(url)
    page.click("#tab-garage")
    same(page.run("return document.getElementById('drawing').value"), START, "the start")
    for part in ("cell-4", "cell-23"):
        page.click(f"#garage-floor [data-part='{part}']")
    page.click("#garage-floor [data-part='lift-0']")
    same(page.run("return document.getElementById('drawing').value"), "....##..............\n...#......\n..........\nLLT\nLLT\nstreet\n", "drawn by clicks")
    settled(page, {"cars": [["", "4 5"], ["", "23"]]}, "its floor", "#garage-floor")
    link = page.run("return location.href")
    assert link.endswith("#garage=30008000001B0900"), link
    page.click("#garage-floor [data-part='cell-5']")
    page.click("#garage-floor [data-part='slot-42']")
    page.fill("#drawing", "....#...............\n..........\n#.........\nLLT\nLLT\nstreet\n")
    same(page.text("#garage-verdict"), "15: no garage can stand so.", "an unsound one")
    hints = page.run("return [...document.querySelectorAll('#garage-hints li')].map((one) => one.textContent)")
    same(hints, ["cell 4 of row 1 is half a car: neither neighbour is occupied", "the left shuttle's cell in row 3: occupied, and no lowered shuttle is there"], "the rules")
    assert page.run("return document.getElementById('send-image').disabled && document.querySelectorAll('#garage-floor .fault').length === 2"), "faults"
    page.fill("#drawing", "....#....\n")
    same(page.text("#garage-verdict"), "Line 1 is not of its form.", "a bad line")
    page.fill("#image", "0F 66 3F F0 C0 3F 10 00")
    assert page.text("#garage-verdict").startswith("Sound: 15 cars"), page.text("#garage-verdict")
    same(page.run("return document.getElementById('drawing').value"), program("draw", b"0F 66 3F F0 C0 3F 10 00").decode(), "as bin/draw has it")
    page.click("#plan-from")
    assert page.run("return document.getElementById('plan').value").startswith("image 0F 66 3F F0 C0 3F 10 00\n"), "a plan's start"
    page.run("location.hash = given[0]", link.split("#")[1])
    settled(page, {"cars": [["", "4 5"], ["", "23"]]}, "the link's floor in an open page", "#garage-floor")
    page.open(link)
    settled(page, {"cars": [["", "4 5"], ["", "23"]]}, "the link's floor", "#garage-floor")


def plan_judged(page, url):
    page.open(url)
    page.click("#tab-plan")
    text = (ROOT / "docs/plans/park-and-fetch.plan").read_text()
    page.fill("#plan", text)
    assert page.text("#plan-verdict").startswith("Accepted"), page.text("#plan-verdict")
    same(page.run("return document.querySelectorAll('#plan-steps li').length") > 5, True, "steps")
    page.fill("#plan", "image 00 00 00 00 00 1B 19 00\nwish without a car\n\nlift basement\n\nbelts row 1 left lift, lower, half\n\nlift street\n")
    same(page.text("#plan-verdict"), "24: odd count: a car would be torn, set 2 (line 8).", "a plan that is rejected")
    settled(page, {"cars": [["", "10 11"]], "lift": "basement"}, "the floor of the first rejected set", "#plan-floor")
    page.click("#plan-back")
    settled(page, {"cars": [["", "11 12"]]}, "the set before", "#plan-floor")
    page.fill("#plan", "image start\nwish without car\n\nlift cellar\n")
    same(page.run("return [...document.querySelectorAll('#plan-wrong li')].map((one) => one.textContent)"),
         ["line 2: expected `a`, found `car`", "line 4: expected `street`, `rotation` or `basement`, found `cellar`"], "lines that say nothing")


def station_link(page, url):
    """A link holds a station that runs, with its set and its cards; a link that was changed is told."""
    page.open(url)
    page.click("#in-use")
    send(page, "belts row 1 left lift, lower, full", "tilt left row 3 tilted")
    page.click("[data-result='1-done']")
    shown = settled(page, {"moving": 3}, "a set in motion")
    page.click("#station-link")
    link, held = page.run("return [location.href, document.querySelectorAll('#motors li').length]")
    assert "#station=" in link and len(link.split("#")[1]) < 500, link
    page.open(link)
    again = settled(page, {"moving": 3}, "the link's station")
    same((again["cars"], again["lift"], again["label"]), (shown["cars"], shown["lift"], shown["label"]), "its floor")
    same(page.run("return document.querySelectorAll('#motors li').length"), held, "its set")
    page.click("[data-result='0-done']")
    sent(page, TAKEN, "the set's other result")
    settled(page, {"moving": 0, "cars": [["7001", "0 1"], ["7002", "9 10"], ["7003", "21"], ["7004", "29"]]}, "after it")
    page.click("#open-session")
    page.until("return document.getElementById('log-note').textContent.includes('1 message')", "the session is in the log")
    settled(page, {"cars": [["7001", "0 1"], ["7002", "9 10"], ["7003", "21"], ["7004", "29"]]}, "its cards", "#log-floor")
    for wrong in (link.replace("7001", "7002"), link[:-4], link.replace("#station=", "#station=7")):
        page.open(wrong)
        same(page.text("#answer"), "The link holds no station that can be: part of it is missing or changed.", wrong)
        settled(page, {"cars": [], "lift": "street"}, "the start")
