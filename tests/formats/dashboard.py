"""dashboard.py DASHBOARD METRICS RULES: the structure of a dashboard, and its expressions as rules for promtool to read, written to RULES. Each
metric and each label that an expression names must be one of METRICS, which report --prometheus wrote.
"""

import json
import re
import sys

WORDS = {"sum", "by", "increase", "rate", "vector"}


def main(dashboard, metrics, rules):
    board = json.load(open(dashboard))
    written = open(metrics).read()
    known = set(re.findall(r"^# TYPE (\w+)", written, re.MULTILINE)) | set(re.findall(r"[{,](\w+)=", written))
    assert board["title"] and board["uid"] and isinstance(board["schemaVersion"], int), "title, uid and schemaVersion"
    assert {"list"} == set(board["templating"]) and {one["name"] for one in board["templating"]["list"]} == {"source", "garage"}, "templating"
    panels, expressions, covered = board["panels"], [], set()
    assert len({panel["id"] for panel in panels}) == len(panels) > 0, "each panel has an id of its own"
    for panel in panels:
        assert panel["type"] in ("timeseries", "stat") and panel["title"] and panel["datasource"]["uid"] == "${source}", panel["title"]
        place = panel["gridPos"]
        assert set(place) == {"x", "y", "w", "h"} and place["x"] + place["w"] <= 24, f"{panel['title']}: its place"
        cells = {(x, y) for x in range(place["x"], place["x"] + place["w"]) for y in range(place["y"], place["y"] + place["h"])}
        assert not cells & covered, f"{panel['title']}: it lies over another"
        covered |= cells
        assert len({target["refId"] for target in panel["targets"]}) == len(panel["targets"]) > 0, panel["title"]
        for target in panel["targets"]:
            for label in re.findall(r"{{(\w+)}}", target["legendFormat"]):
                assert label in known, f"{panel['title']}: no metric has the label {label}"
            expressions.append(target["expr"])
    for expression in expressions:
        bare = re.sub(r'"[^"]*"|\[[^]]*\]', "", expression)
        unknown = set(re.findall(r"[a-z_]\w*", bare)) - WORDS - known
        assert not unknown, f"{expression}: {unknown} is not in the metrics"
    with open(rules, "w") as to:
        to.write("groups:\n  - name: dashboard\n    rules:\n")
        for at, expression in enumerate(expressions):
            filled = expression.replace("$garage", ".+").replace("$__range", "1d").replace("$__rate_interval", "5m")
            to.write(f"      - record: panel:expression:{at}\n        expr: {json.dumps(filled)}\n")
    print(f"dashboard: {len(panels)} panels, {len(expressions)} expressions over metrics that are there")


if __name__ == "__main__":
    try:
        main(*sys.argv[1:])
    except AssertionError as wrong:
        sys.exit(f"dashboard: {wrong}")
