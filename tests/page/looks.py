"""How the page looks and is heard: contrast, labels, a phone, paper; and that nothing leaves it."""

import base64
import functools
import http.server
import json
import re
import shutil
import threading
import zlib

from checks import OUT, ROOT, same, settled

# the least contrast of text, and of what a drawing is read by
TEXT, SHAPES = 4.5, 3.0

CONTRAST = """
    const part = (one) => { const s = one / 255; return s <= 0.03928 ? s / 12.92 : ((s + 0.055) / 1.055) ** 2.4; };
    const numbers = (colour) => (colour.match(/[\\d.]+/g) ?? []).map(Number);
    const light = ([r, g, b]) => 0.2126 * part(r) + 0.7152 * part(g) + 0.0722 * part(b);
    const ratio = (one, other) => { const [a, b] = [light(one), light(other)].sort((x, y) => y - x); return (a + 0.05) / (b + 0.05); };
    const ground = (node) => { for (let at = node; at; at = at.parentElement) { const c = numbers(getComputedStyle(at).backgroundColor); if (c.length === 3 || c[3] === 1) return c; } return [255, 255, 255]; };
"""

WORDS = CONTRAST + """
    const low = [];
    for (const node of document.querySelectorAll('body *')) {
      if (node.closest('svg') || !node.checkVisibility() || node.disabled || node.closest('.visually-hidden, .skip, :disabled')) continue;
      if (![...node.childNodes].some((one) => one.nodeType === 3 && one.textContent.trim())) continue;
      const found = ratio(numbers(getComputedStyle(node).color), ground(node));
      if (found < given[0]) low.push(`${node.tagName} ${node.textContent.trim().slice(0, 30)}: ${found.toFixed(2)}`);
    }
    return low;
"""

DRAWN = CONTRAST + """
    const style = getComputedStyle(document.documentElement), probe = document.body.appendChild(document.createElement('i')), low = [];
    const colour = (name) => { probe.style.color = style.getPropertyValue(`--${name}`); return numbers(getComputedStyle(probe).color); };
    for (const [one, other, least] of given[0]) { const found = ratio(colour(one), colour(other)); if (found < least) low.push(`${one} on ${other}: ${found.toFixed(2)}`); }
    probe.remove();
    return low;
"""

PAIRS = [["on-car", "car", TEXT], ["soft", "earth", TEXT], ["soft", "card", TEXT], ["car", "belt", SHAPES], ["car", "tray", SHAPES], ["tray-edge", "room", SHAPES],
         ["accent", "belt", SHAPES], ["accent", "earth", SHAPES], ["bad", "card", SHAPES], ["ink", "card", TEXT], ["ink", "room", SHAPES]]

NAMELESS = """
    const named = (node) => node.getAttribute('aria-label') || node.getAttribute('aria-labelledby') || node.labels?.length || node.textContent.trim();
    const bad = [...document.querySelectorAll('button, input, select, textarea, [role=button], [role=img], canvas, svg')].filter((node) => !named(node)).map((node) => node.outerHTML.slice(0, 80));
    const doubled = [...document.querySelectorAll('[id]')].map((node) => node.id).filter((id, at, all) => all.indexOf(id) !== at);
    const lost = [...document.querySelectorAll('[aria-controls], [aria-labelledby], label[for]')].flatMap((node) => [node.getAttribute('aria-controls'), node.getAttribute('aria-labelledby'), node.getAttribute('for')])
      .filter((id) => id && !document.getElementById(id));
    return [...bad, ...doubled, ...lost];
"""


def each_view(page):
    for view in ("station", "log", "garage", "plan", "week"):
        page.click(f"#tab-{view}")
        if view == "log":
            page.click("#sample")
            page.until("return !document.getElementById('log-body').hidden", "the sample is open")
        yield view


def contrast_and_labels(page, url):
    page.open(url)
    page.click("#in-use")
    page.fill("#words", "lift rotation")
    for theme in ("light", "dark"):
        page.run("document.documentElement.dataset.theme = given[0]; return null", theme)
        found = page.run(DRAWN, PAIRS)
        assert not found, (theme, found)
        for view in each_view(page):
            page.run("await new Promise((resolve) => setTimeout(resolve, 30))")
            low, nameless = page.run(WORDS, TEXT), page.run(NAMELESS)
            assert not low, (theme, view, low)
            assert not nameless, (view, nameless)


def on_a_phone(page, url):
    page.here("POST", "/window/rect", {"width": 400, "height": 800})
    try:
        page.open(url)
        page.click("#in-use")
        for view in each_view(page):
            wide = page.run("return document.documentElement.scrollWidth - document.documentElement.clientWidth")
            assert wide <= 0, f"{view} is {wide} wider than a phone"
        page.click("#tab-station")
        sizes = page.run("return [...document.querySelectorAll('#live-floor text')].map((one) => one.getBoundingClientRect().height).filter((one) => one > 0)")
        assert min(sizes) >= 9, f"text of {min(sizes)}"
        turned = page.run("const r = document.querySelector('#live-floor svg').getBoundingClientRect(); return r.height > r.width")
        assert turned, "the floor is not turned"
    finally:
        page.here("POST", "/window/rect", {"width": 1280, "height": 1000})


def unpacked(paper):
    """A document with what is packed in it, as Firefox does it."""
    parts = [paper]
    for packed in re.findall(rb"stream\r?\n(.*?)\r?\nendstream", paper, re.DOTALL):
        try:
            parts.append(zlib.decompress(packed))
        except zlib.error:
            pass # an image or a font, packed otherwise
    return b"\n".join(parts)


def on_paper(page, url):
    page.open(url)
    page.click("#in-use")
    paper = base64.b64decode(page.here("POST", "/print", {"background": False, "shrinkToFit": True}))
    assert paper.startswith(b"%PDF"), "no paper"
    pages = len(re.findall(rb"/Type\s*/Page[^s]", unpacked(paper)))
    assert 1 <= pages <= 3, f"{pages} pages"


def nothing_leaves(page, url):
    """What the browser was asked for since it began, and what it told: only the file itself, and no error."""
    asked = set()
    for line in page.log("performance"):
        message = json.loads(line["message"])["message"]
        if message["method"] == "Network.requestWillBeSent" and message["params"]["documentURL"].startswith("file:"):
            asked.add(message["params"]["request"]["url"].split("#")[0].split(":")[0])
    assert "file" in asked and asked <= {"file", "data", "blob"}, asked
    told = [line["message"] for line in page.log("browser") if line["level"] in ("SEVERE", "WARNING")]
    assert not told, told
    page.open(url)
    policy = page.run("return document.querySelector('meta[http-equiv=Content-Security-Policy]').content")
    assert policy.startswith("default-src 'none'") and "unsafe-inline" not in policy and "http" not in policy, policy
    blocked = page.run("""
        const met = []; document.addEventListener('securitypolicyviolation', (event) => met.push(event.violatedDirective));
        const tried = await Promise.allSettled([fetch('https://example.invalid/'), new Promise((resolve, reject) => { const one = new Image(); one.onload = resolve; one.onerror = reject; one.src = 'https://example.invalid/a.png'; })]);
        await new Promise((resolve) => setTimeout(resolve, 100));
        return tried.every(({ status }) => status === 'rejected') && met.length === 2;""")
    assert blocked, "the policy lets a request out"
    page.log("browser")
    page.log("performance")


PLANNER = """<!doctype html><title>planner</title><script type="module">
    import { Event, instruction, load } from './index.js';
    const garage = await load(await (await fetch('station.wasm')).arrayBuffer()), station = garage.station();
    station.event(Event.BeginIn);
    window.told = `${garage.version.join('.')}: ${station.request([instruction('lift basement')])}`;
    document.documentElement.dataset.ready = 'yes';
</script>"""


class Quiet(http.server.SimpleHTTPRequestHandler):
    def log_message(self, *_):
        pass


def as_a_module(page, _):
    """The library by itself, as a planner's web developer takes it: modules and the entries from a server, no page of ours."""
    folder = OUT / "served"
    folder.mkdir(exist_ok=True)
    for part in [*(ROOT / "hosts/web").glob("*.js"), ROOT / "target/web/station.wasm"]:
        shutil.copy(part, folder)
    (folder / "planner.html").write_text(PLANNER)
    with http.server.ThreadingHTTPServer(("127.0.0.1", 0), functools.partial(Quiet, directory=folder)) as server:
        threading.Thread(target=server.serve_forever, daemon=True).start()
        page.open(f"http://127.0.0.1:{server.server_port}/planner.html")
        version = re.findall(r"STATION_VERSION_(?:FIRST|SECOND|THIRD) (\d+)", (ROOT / "include/station.h").read_text())
        same(page.run("return window.told"), f"{'.'.join(version)}: 31 (out of turn)", "a planner in a browser")
        server.shutdown()
    page.log("browser")  # the browser asks for an icon, which is not there


def still_quiet(page, url):
    """A page that is used all over tells no error."""
    page.log("browser")
    page.open(url)
    for _ in each_view(page):
        pass
    page.click("#tab-station")
    settled(page, {"lift": "street"}, "the start")
    told = [line["message"] for line in page.log("browser")]
    assert not told, told
