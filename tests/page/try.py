"""Tries the page in a real browser: every check on the page as it is, then each wrong page, which its check must find out.
`try.py PAGE WRONG`, and names of checks for these alone. The folder WRONG has pages NAME.html, and a `list` with a line for each: its name,
the check that must find it out, and what is wrong with it."""

import sys
import tempfile
from pathlib import Path

import checks
import logs
import looks
from browser import Browser, Failed, tried

ALL = [checks.parks_by_clicks, checks.fetches_by_keys, checks.jam_and_image, checks.refusals_are_told, checks.two_orders, checks.motors_play, checks.garage_drawn,
       checks.plan_judged, checks.station_link, logs.night_log, logs.journal, logs.random_messages, logs.bad_files, logs.headed_journal, logs.cards_in_a_log,
       logs.begins_elsewhere, logs.a_step, looks.contrast_and_labels, looks.on_a_phone, looks.on_paper, looks.as_a_module, looks.still_quiet, looks.nothing_leaves]


def main(path, wrong, names):
    found_out = 0
    with tempfile.TemporaryDirectory() as folder, Browser(folder) as page:
        count, failed = tried(page, ALL, path.as_uri(), names)
        by_name = {check.__name__: check for check in ALL}
        for line in (wrong / "list").read_text().splitlines():
            name, by, what = line.split(" ", 2)
            if names and by not in names:
                continue
            check = by_name[by]
            page.log("browser")
            page.patience = 6
            try:
                check(page, (wrong / f"{name}.html").as_uri())
                failed.append(f"a wrong page passes {check.__name__}: {what}")
            except (AssertionError, Failed) as why:
                print(f"found out: {what}: {str(why).splitlines()[0][:150]}")
                found_out += 1
    for line in failed:
        print(f"failed: {line}")
    print(f"page: {count - sum(not line.startswith('a wrong') for line in failed)} of {count} checks passed, {found_out} wrong pages found out")
    return 1 if failed else 0


sys.exit(main(Path(sys.argv[1]).resolve(), Path(sys.argv[2]).resolve(), sys.argv[3:]))
