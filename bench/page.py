"""Times of the page in a browser: `page.py PAGE MESSAGES..`; each log is target/page/journal-MESSAGES, and headed-MESSAGES in the form with a
head and checksums."""

import statistics
import sys
import tempfile
from pathlib import Path

from browser import Browser
from logs import at_most, steps

FORMS = {"journal": "bare", "headed": "with a head, each an append"}

WEEK = """
    const { views } = await window.garage, begun = performance.now();
    await views.log.log.totals(async () => {});
    return performance.now() - begun;
"""


def load():
    return Path("/proc/loadavg").read_text().split()[0]


def main(path, counts):
    with tempfile.TemporaryDirectory() as folder, Browser(folder) as page:
        ready = []
        for _ in range(10):
            page.open(path.as_uri())
            ready.append(page.run("return performance.getEntriesByName('ready')[0].startTime"))
        print(f"ready after {statistics.median(ready):.0f} ms (median of {len(ready)}, from the start of loading)")
        for count in counts:
            for form in ("journal", "headed"):
                page.open(path.as_uri())
                page.click("#tab-log")
                page.upload("#file", path.parent / f"{form}-{count}")
                page.until("return !document.getElementById('log-body').hidden", "the log is open")
                took, (processor, clock), week = page.run("return (await window.garage).views.log.took"), steps(page, int(count)), page.run(WEEK)
                print(f"{int(count):,} messages, {FORMS[form]}: open in {took:.0f} ms; the week in {week:.0f} ms")
                print(f"    a step: {statistics.median(processor):.1f} ms of the processor, {at_most(processor, 95):.1f} for 95 in 100, {max(processor):.1f} at most; "
                      f"by the clock {statistics.median(clock):.1f}, {at_most(clock, 95):.1f}, {max(clock):.1f}; load {load()}")


main(Path(sys.argv[1]).resolve(), sys.argv[2:])
