"""What the page must do with logs: journals, recordings and hexadecimal text, with cards and from any station on."""

import json
import re
import statistics
import struct

from browser import Failed
from checks import OUT, ROOT, floor, program, same, settled


HEAD = 128
# a garage in use, and five sets before it: the record's eight bytes, no set, the next issue, and nothing set apart
STATION = struct.pack("<Q", 0x0049330020201803) + bytes(42) + struct.pack("<HQ", 5, 0)


def crc(state, data):
    """CRC-32C, bit by bit."""
    state ^= 0xFFFFFFFF
    for byte in data:
        state ^= byte
        for _ in range(8):
            state = state >> 1 ^ (0x82F63B78 if state & 1 else 0)
    return state ^ 0xFFFFFFFF


def headed(station, *appends):
    """A journal that begins with a station, with some appends: a kind, and what it carries."""
    whole = b"Vargsnida, journal.\n\2\0\0\1" + b"south".ljust(40, b"\0") + station
    last = crc(0, whole)
    whole += struct.pack("<I", last)
    for kind, carried in appends:
        title = bytes([kind]) + len(carried).to_bytes(3, "little")
        opened = crc(last, title)
        last = crc(opened, carried)
        whole += title + struct.pack("<I", opened) + carried + struct.pack("<I", last) + b"\n"
    return whole


def append_end(whole, at):
    return at + 13 + int.from_bytes(whole[at + 1:at + 4], "little")


def changed(whole, at):
    return whole[:at] + bytes([whole[at] ^ 16]) + whole[at + 1:]


def pasted(page, text, wanted):
    """Opens some text as a log, and waits for the headline."""
    page.fill("#pasted", text)
    page.run("document.getElementById('paste').requestSubmit()")
    try:
        page.until(f"return document.getElementById('log-note').textContent === {json.dumps(wanted)}", "the headline")
    except Failed:
        raise AssertionError(f"wanted {wanted!r}, found {page.text('#log-note')!r}") from None


def night_log(page, url):
    text = re.search(r"cat >~/night.log <<'end'\n(.*?)end\n", (ROOT / "docs/FIRST-HOUR.md").read_text(), re.DOTALL)[1]
    same(len(text.splitlines()), 4, "lines of the night log")
    page.open(url)
    page.click("#tab-log")
    page.click("#view-log summary")
    page.fill("#pasted", text)
    page.click("#open-pasted")
    page.until("return !document.getElementById('log-body').hidden", "the log is open")
    same(page.text("#log-note"), "The pasted log: 2 messages, 1 rejection; 2 answers in the log, all of them this station's.", "the headline")
    shown = page.text("#log-message")
    for words in ("Message 2: Request of 1 instruction", "0: lift basement", "31: out of turn", "a drive-in is under way", "The log has the same answer."):
        assert words in shown, (words, shown)
    same(floor(page, "#log-floor")["door"], "open", "the door")
    page.fill("#pasted", text.replace("1F FF", "00 FF"))
    page.click("#open-pasted")
    page.until("return document.getElementById('log-note').textContent.includes('1 of them not')", "an answer that differs is told")
    assert "The log has another answer" in page.text("#log-message"), page.text("#log-message")


def opened(page, url, name):
    """Opens a journal of target/page in the page, and gives its bytes."""
    page.open(url)
    page.click("#tab-log")
    page.upload("#file", OUT / name)
    page.until("return !document.getElementById('log-body').hidden", "the journal is open")
    return (OUT / name).read_bytes()


def answered(messages):
    """What bin/station answers, and the number of each answer: 0 where it is the image."""
    answers, at, numbers = program("station", messages), 0, []
    while at < len(answers):
        numbers.append(answers[at + 4] if answers[at + 2] == 128 else 0)
        at += 2 + answers[at]
    return answers, numbers


def journal(page, url):
    messages = opened(page, url, "journal-100000")
    report = dict(line.split() for line in program("report", messages).decode().splitlines())
    rejected = sum(int(value) for name, value in report.items() if name.startswith("answer-") and name != "answer-0")
    same(page.text("#log-note"), f"journal-100000: 100,000 messages, {rejected:,} rejections.", "the headline")
    record, apart = struct.unpack("<QQ", program("station", messages + b"\2\0\5\0")[-16:])
    drawn = page.run("const { views } = await window.garage, end = views.log.log.stationAt(100000); return [String(end.record), String(end.apart)]")
    same(drawn, [str(record), str(apart)], "the record at the end")
    same(floor(page, "#log-floor")["hatched"], [bit for bit in range(53) if apart >> bit & 1], "what is hatched at the end")
    # each rejection is one of the station's
    page.run("const { views } = await window.garage; views.log.go(0)")
    _, numbers = answered(messages)
    wanted = [place + 1 for place, number in enumerate(numbers) if number][:3]
    found = []
    for _ in wanted:
        page.click("#next-refused")
        found.append(page.run("return Number(document.getElementById('slider').value)"))
    same(found, wanted, "the first rejections")
    assert page.run("const marks = document.getElementById('marks'), bits = marks.getContext('2d').getImageData(0, marks.height - 1, marks.width, 1).data; return bits.some((one) => one > 0)"), "no rejection is marked"
    part = page.run("const { views } = await window.garage; return [views.log.log.hexadecimal(40, 60), views.log.log.example(40, 60)]")
    same(len(part[0].splitlines()), 40, "lines of a part")
    session = [line for line in part[1].splitlines() if line[:1] in "<>"]
    asked = b"".join(bytes.fromhex(line[1:]) for line in session if line[0] == ">")
    same(program("station", asked), b"".join(bytes.fromhex(line[1:]) for line in session if line[0] == "<"), "a worked example")
    # the week of it
    page.click("#tab-week")
    page.until("return document.querySelectorAll('#week-bars tr').length > 20", "the week is counted")
    rows = page.run("return [...document.querySelectorAll('#week-bars tr')].map((row) => [row.dataset.total, row.querySelector('.count').textContent.replaceAll(',', ''), row.querySelector('.bar').style.width])")
    shown = {name: value for name, value, _ in rows}
    for name, value in report.items():
        same(shown.get(name, "0"), value, name)
    assert all((width == "0%") == (value == "0") for _, value, width in rows), "a bar is missing"


def random_messages(page, url):
    """Every answer to 5,000 random messages equals bin/station's, in the page as it is."""
    messages = opened(page, url, "journal-5000")
    count, numbers, replies = page.run("""
        const { library, views } = await window.garage, { log } = views.log, station = library.station(), replies = [];
        for (let at = 0; at < log.count; at++) replies.push(...station.message(log.message(at)).reply);
        return [log.count, [...log.numbers], replies];""")
    wanted, told = answered(messages)
    same(count, 5000, "messages")
    same(bytes(replies), wanted, "the answers")
    same(numbers, told, "the numbers that the log marks")


def bad_files(page, url):
    """One clear sentence for each, and the page goes on."""
    page.open(url)
    page.click("#tab-log")
    whole = (OUT / "headed-5000").read_bytes()
    second = append_end(whole, HEAD)
    for name, content, wanted in (
        ("empty", b"", "empty is empty."),
        ("picture.png", b"\x89PNG\r\n\x1a\n\0\0\0\rIHDR", "picture.png is neither a journal nor a log in hexadecimal: at byte 0 it is damaged: a length of 20617, and a message has 2 to 43; what follows is left out."),
        ("letter.txt", b"Dear garage,\n", "letter.txt, line 1: two hexadecimal digits for each byte are expected, and “Dear garage,” stands there."),
        ("odd.log", b"> 02 00 05 00\n> 02 00 05 0\n", "odd.log, line 2: two hexadecimal digits for each byte are expected, and “02 00 05 0” stands there."),
        ("answers", bytes.fromhex("0600800000FF0000"), "answers is a recording of what a station answered; open what it was sent."),
        ("answers.log", b"< 06 00 80 00 00 FF 00 00\n", "answers.log has no message that was sent to a station."),
        ("cut.log", b"> 02 00\n> 02 00 05 00\n", "cut.log, line 2: the message before it is cut short."),
        ("damaged", bytes.fromhex("0200050002000500FFFF"), "damaged: 2 messages, 0 rejections; at byte 8 it is damaged: a length of 65535, and a message has 2 to 43; what follows is left out."),
        ("unfinished", bytes.fromhex("02000500020005"), "unfinished: 1 message, 0 rejections; it ends inside a message, at byte 4; that rest is left out."),
        ("short", whole[:127], "short ends inside its head, at byte 127: a journal's head has 128 bytes."),
        ("later", whole[:20] + b"\3" + whole[21:], "later is a journal of format 3 (byte 20), and format 2 is read here."),
        ("head", changed(whole, 30), "head is a journal whose head is damaged: the checksum at byte 124 is not that of the bytes before it."),
        ("unfit", headed(b"\1" + bytes(59)), "unfit is a journal that begins with a station which can't be (byte 64: 01 00 00 00 00 00 00 00)."),
        ("bit", changed(whole, second + 10), f"bit: 1 message, 0 rejections; journal of the garage bench; it is damaged at byte {second}, behind 1 append and 1 message; what follows is left out."),
        ("torn", whole[:second + 5], f"torn: 1 message, 0 rejections; journal of the garage bench; 5 bytes behind byte {second} were never answered, and are left out."),
        ("closed", headed(STATION, (1, bytes.fromhex("02000500")), (4, b"")), "closed: 1 message, 0 rejections; journal of the garage south; it is closed: another journal follows it."),
        ("no-card.log", b"card x\n> 03 00 02 00 01\n", "no-card.log, line 1: a card's number from 1 to 4294967295 is expected, and “x” stands there."),
        ("lost-card.log", b"card 7\n> 02 00 05 00\n", "lost-card.log: 1 message, 0 rejections; line 1: a begin in is expected behind it; its cards are left out."),
    ):
        (OUT / "files").mkdir(exist_ok=True)
        path = OUT / "files" / name
        path.write_bytes(content)
        page.upload("#file", path)
        try:
            page.until(f"return document.getElementById('log-note').textContent === {json.dumps(wanted)}", name)
        except Failed:
            raise AssertionError(f"{name}: found {page.text('#log-note')!r}") from None


def headed_journal(page, url):
    """A journal with a head: the same answers as its messages alone; and it begins with the station in its head."""
    opened(page, url, "headed-5000")
    bare = (OUT / "journal-5000").read_bytes()
    wanted, told = answered(bare)
    same(page.text("#log-note"), f"headed-5000: 5,000 messages, {sum(map(bool, told)):,} rejections; journal of the garage bench.", "the headline")
    numbers, end = page.run("const { log } = (await window.garage).views.log; return [[...log.numbers], [...log.stationAt(5000).ask().answer.words, String(log.stationAt(5000).record)].at(-1)]")
    same(numbers, told, "the answers")
    same(end, str(struct.unpack("<Q", program("station", bare + b"\2\0\5\0")[-16:-8])[0]), "the record at the end")
    (OUT / "files").mkdir(exist_ok=True)
    for name, appends in (("begun", [(1, b"\2\0\5\0"), (2, b"\3\0\2"), (3, b"\xFF\xFF"), (1, bytes.fromhex("08000100010400000000"))]), ("bare", [])):
        (OUT / "files" / name).write_bytes(headed(STATION, *appends))
    page.upload("#file", OUT / "files/begun")
    headline = "begun: 2 messages, 0 rejections; journal of the garage south; 2 sessions ended inside a message or by a bad length."
    page.until(f"return document.getElementById('log-note').textContent === {json.dumps(headline)}", headline)
    assert "0: taken, set 5" in page.text("#log-message"), page.text("#log-message")
    page.click("#step-back")
    same(page.run("return [...document.querySelectorAll('#log-message .ended')].map((one) => one.textContent)"),
         ["Then a session ended: 1 (fewer bytes than it says), with 03 00 02 left.", "Then a session ended: 2 (a length that its kind doesn't have), with FF FF left."], "what ended sessions")
    settled(page, {"cars": [["", "0 1"], ["", "11 12"], ["", "21"], ["", "29"]], "lift": "basement"}, "the head's station", "#log-floor")
    page.click("#tab-week")
    page.until("return document.querySelectorAll('#week-bars tr').length > 10", "the week is counted")
    counted = page.run("return ['answer-1', 'answer-2', 'kind-1', 'kind-5'].map((name) => document.querySelector(`[data-total='${name}'] .count`)?.textContent)")
    same(counted, ["1", "1", "1", "1"], "what the week counts")
    page.click("#tab-log")
    page.upload("#file", OUT / "files/bare")
    page.until("return document.getElementById('log-note').textContent === 'bare: 0 messages, 0 rejections; journal of the garage south.'", "an empty journal")
    settled(page, {"lift": "basement"}, "its station", "#log-floor")


def cards_in_a_log(page, url):
    """The session with cards of docs/EXPLAIN.md; then a card that is told by hand, and what is exported."""
    session = re.search(r"^bin/explain --quiet --hex\n(cards - 12\n.*?)```", (ROOT / "docs/EXPLAIN.md").read_text(), re.DOTALL | re.MULTILINE)[1]
    page.open(url)
    page.click("#tab-log")
    pasted(page, session, "The pasted log: 8 messages, 1 rejection.")
    settled(page, {"cars": [["", "7 8"], ["7001", "11 12"], ["12", "24"]], "hatched": [*range(2, 13), 52]}, "its cards", "#log-floor")
    assert "Card 7001 at cells 11 and 12, its last known place; card 12 at cell 24." in page.text("#log-summary"), page.text("#log-summary")
    same(page.run("return [...document.querySelectorAll('#log-floor .unsure text')].map((one) => one.textContent)"), ["", "7001"], "cars at their last known place")
    page.run("const { views } = await window.garage; views.log.go(2)")
    assert "driving in, card 7001" in page.text("#log-floor"), page.text("#log-floor")
    assert "; card 7001 is driving in." in page.text("#log-summary"), page.text("#log-summary")
    part = page.run("return (await window.garage).views.log.log.hexadecimal(0, 8)").splitlines()
    same([line for line in part if line[0] == "c"], ["cards - 12", "card 7001"], "the cards of an export")
    messages = "\n".join(line for line in session.splitlines() if line[0] == ">")
    pasted(page, messages, "The pasted log: 8 messages, 1 rejection.")
    settled(page, {"cars": [["", "7 8"], ["", "11 12"], ["", "24"]]}, "no card is known", "#log-floor")
    page.run("const { views } = await window.garage; views.log.go(2)")
    page.fill("#cards", "8008")
    page.click("#tell-cards")
    page.until("return document.getElementById('log-floor').textContent.includes('card 8008')", "the card that is told")
    page.run("const { views } = await window.garage; views.log.go(1)")
    for said, told in (("8 9 10", "2 cards are expected"), ("8 8", "card 8 stands twice"), ("- x", "“x” stands there")):
        page.fill("#cards", said)
        page.click("#tell-cards")
        page.until(f"return document.querySelector('#log-message form .told').textContent.includes({json.dumps(told)})", told)
    page.fill("#cards", "- 31")
    page.click("#tell-cards")
    page.until("return document.getElementById('log-summary').textContent.includes('Card 31 at cell 24')", "the cards of an image")
    page.run("const { views } = await window.garage; views.log.go(8)")
    settled(page, {"cars": [["", "7 8"], ["8008", "11 12"], ["31", "24"]]}, "cards told by hand", "#log-floor")


def begins_elsewhere(page, url):
    """A log that begins on an image, with what is set apart, the issue and the cards; and on the garage drawn."""
    page.open(url)
    page.click("#tab-log")
    page.run("for (const one of document.querySelectorAll('#drop details')) one.open = true")
    belts = "> 08 00 01 00 01 01 01 02 01 01\n"
    for image, told in (("00 06", "has 16 hexadecimal digits, or 32 with what is set apart"), ("0002 0000 001B 0900", "is not sound: cell 9 of row 1 is half a car: neither neighbour is occupied"),
                        ("00060000001B0900" + "FF" * 8, "sets a part apart that there is not")):
        page.fill("#start-image", image)
        pasted(page, belts, f"The image to begin on {told}.")
    page.fill("#start-image", "00060000001B0900")
    page.fill("#start-cards", "77")
    page.fill("#start-issue", "9")
    pasted(page, belts, "The pasted log: 1 message, 1 rejection, from the image given on.")
    assert "23: no free place to move to" in page.text("#log-message"), page.text("#log-message")
    settled(page, {"cars": [["77", "9 10"]]}, "the car with its card", "#log-floor")
    page.fill("#start-image", "00060000001B0900" + "0006000000000000")
    pasted(page, "> 08 00 01 00 01 04 02 00 00 00\n" + belts, "The pasted log: 2 messages, 1 rejection, from the image given on.")
    assert "6: a set is outstanding" in page.text("#log-message"), page.text("#log-message")
    found = settled(page, {"hatched": [9, 10]}, "what is set apart", "#log-floor")
    assert "Card 77 at cells 9 and 10, its last known place" in found["label"], found
    page.run("const { views } = await window.garage; views.log.go(1)")
    assert "0: taken, set 9" in page.text("#log-message"), page.text("#log-message")
    page.fill("#start-cards", "")
    page.click("#tab-garage")
    page.fill("#image", "00 00 00 00 00 1B 19 00")
    page.click("#tab-log")
    page.click("#start-drawn")
    page.click("#begin-there")
    page.until("const { views } = await window.garage; return String(views.log.log.stationAt(0).record) === String(0x00191b0000000000n)", "it begins on the garage drawn")


STEPS = 60
STEP_MOST = 50 # milliseconds
OPEN_MOST = 90 # seconds, on a machine that does other things meanwhile


def timed_step(page, count, step):
    """A step to some message of an open log of so many: the milliseconds by the clock up to the frame that shows it."""
    return page.run("""
        const { views } = await window.garage, begun = performance.now();
        views.log.go(given[0]);
        return new Promise((resolve) => requestAnimationFrame(() => setTimeout(() => resolve(performance.now() - begun))));""", int(count * (step * 0.618034 % 1)))


def steps(page, count):
    """Steps all over an open log of so many messages: for each the milliseconds of the processor that the page's own thread took, up to the
    frame that shows it, and those by the clock."""
    processor, clock = [], []
    for step in range(1, STEPS + 1):
        before = page.thread_time()
        clock.append(timed_step(page, count, step))
        processor.append(page.thread_time() - before)
    return processor, clock


def at_most(times, part):
    """How long the fastest so many in a hundred of some times took at most."""
    return sorted(times)[max(0, len(times) * part // 100 - 1)]


def a_step(page, url):
    """Any message of four million is shown within 50 ms. What is held against that is the processor's time, which a loaded machine hardly
    changes: half of the steps take half of it, and 95 in a hundred less than all of it."""
    patience, page.patience = page.patience, OPEN_MOST # a wrong page is found out by its steps, not by how long the log takes to open
    try:
        opened(page, url, "headed-4000000")
    finally:
        page.patience = patience
    processor, clock = steps(page, 4000000)
    print(f"a step of four million: {statistics.median(processor):.1f} ms of the processor, {at_most(processor, 95):.1f} for 95 in 100, {max(processor):.1f} at most; "
          f"by the clock {statistics.median(clock):.0f} and {max(clock):.0f}")
    assert statistics.median(processor) < STEP_MOST / 2, f"half of the steps take more than {statistics.median(processor):.0f} ms"
    assert at_most(processor, 95) < STEP_MOST, f"5 steps in 100 take more than {at_most(processor, 95):.0f} ms"


def by_the_clock(page, url):
    """The same where the processor's time can't be had: only told."""
    opened(page, url, "headed-4000000")
    took, clock = page.run("return (await window.garage).views.log.took"), [timed_step(page, 4000000, step) for step in range(1, STEPS + 1)]
    print(f"four million messages: open in {took:.0f} ms; a step by the clock {statistics.median(clock):.0f} ms, {at_most(clock, 95):.0f} for 95 in 100, {max(clock):.0f} at most")
