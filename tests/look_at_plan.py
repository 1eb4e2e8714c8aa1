#!/usr/bin/env python3
"""Opens plans in a browser without a window and measures them there: tests/look_at_plan.py PLAN.svg..

Each name must stand inside its box, each box on the page and on no other, no other text on a wagon, retractable wagons red, a lock inside the box
of each pinned wagon and beside its name, no type below 1 mm.
Ends with status 0, with 1 and what is wrong, or with 77 where no browser is installed.
"""
import html
import json
import os
import re
import shutil
import subprocess
import sys
import tempfile

BROWSERS = ["chromium", "chromium-browser", "google-chrome"]
MEASURE = """
const slack = 0.05, name = e => e.querySelector('text').textContent, size = e => parseFloat(getComputedStyle(e).fontSize);
const across = (a, b) => a.x >= b.x - slack && a.x + a.width <= b.x + b.width + slack;
const inside = (a, b) => across(a, b) && a.y >= b.y - slack && a.y + a.height <= b.y + b.height + slack;
const meet = (a, b) => a.x + slack < b.x + b.width && b.x + slack < a.x + a.width && a.y + slack < b.y + b.height && b.y + slack < a.y + a.height;
const measure = svg => {
    const page = svg.viewBox.baseVal, faults = [], all = what => [...svg.querySelectorAll(what)];
    const boxes = all('.wagon').map(e => [name(e), e.querySelector('rect').getBBox()]);
    for (const e of all('.wagon, .store'))
        if (!across(e.querySelector('text').getBBox(), e.querySelector('rect').getBBox())) faults.push(name(e) + ' is wider than its box');
    boxes.forEach(([one, a], k) => {
        if (!inside(a, page)) faults.push(one + ' is off the page');
        for (const [other, b] of boxes.slice(k + 1)) if (meet(a, b)) faults.push(one + ' is on ' + other);
    });
    for (const e of all(':scope > text')) {
        if (!inside(e.getBBox(), page)) faults.push('off the page: ' + e.textContent);
        for (const [one, a] of boxes) if (meet(a, e.getBBox())) faults.push('on ' + one + ': ' + e.textContent);
    }
    for (const e of all('.retractable rect')) if (getComputedStyle(e).fill !== 'rgb(183, 28, 28)') faults.push(name(e.parentNode) + ' is not red');
    for (const e of all('.pinned')) {
        const lock = e.querySelector('.lock')?.getBBox();
        if (!lock || !inside(lock, e.querySelector('rect').getBBox())) faults.push(name(e) + ' has no lock in its box');
        else if (meet(lock, e.querySelector('text').getBBox())) faults.push(name(e) + ' stands on its lock');
    }
    for (const e of all('text')) if (size(e) < 1) faults.push('too small: ' + e.textContent);
    return {wagons: boxes.length, type: Math.min(...all('.wagon text').map(size)), faults};
};
const measured = JSON.stringify([...document.querySelectorAll('svg')].map(measure));
document.body.innerHTML = '<pre></pre>';
document.querySelector('pre').textContent = measured;
"""


def look(browser, plans):
    """What the browser measured of each plan, all on one page."""
    with tempfile.TemporaryDirectory() as folder:
        page = os.path.join(folder, "page.html")
        with open(page, "w", encoding="utf-8") as out:
            out.write(f'<!DOCTYPE html><meta charset="utf-8"><body>{"".join(plans)}<script>{MEASURE}</script>')
        command = [browser, "--headless", "--no-sandbox", "--disable-gpu", f"--user-data-dir={folder}/profile", "--dump-dom", f"file://{page}"]
        done = subprocess.run(command, capture_output=True, text=True, timeout=120)
    found = re.search(r"<pre>(.*)</pre>", done.stdout, re.S)
    if not found:
        sys.exit(f"{browser} measured nothing: {done.stderr[-300:]}")
    return json.loads(html.unescape(found[1]))


def main():
    browser = next(filter(None, map(shutil.which, BROWSERS)), None)
    if browser is None:
        print("no browser is installed: the plans are not looked at")
        sys.exit(77)
    plans = [open(path, encoding="utf-8").read() for path in sys.argv[1:]]
    bad = 0
    for path, seen in zip(sys.argv[1:], look(browser, plans), strict=True):
        measured = f"{seen['wagons']} wagons, names in type of {seen['type'] or 0} mm, faults {len(seen['faults'])}"
        print(f"{os.path.basename(path)}: {measured}", *seen["faults"][:10], sep="\n  ")
        bad += len(seen["faults"])
    sys.exit(bad != 0)


if __name__ == "__main__":
    main()
