#!/usr/bin/env python3
"""Opens docs/buyer.html in a browser without a window, 1,280 and 360 pixels wide, and prints it on A4: tests/look_at_page.py [PAGE.html [FOLDER]]

Every link leads to something that can be seen, nothing is wider than the screen, the pictures are whole, no type is too small, nothing is fetched; every
printed page is of A4, standing. With FOLDER the screens (the first 12,000 pixels) and the printed page are left there to be looked at.
Ends with status 0, with 1 and what is wrong, or with 77 where no browser is installed.
"""
import html
import json
import os
import re
import shutil
import subprocess
import sys
import tempfile

TOP = os.path.dirname(os.path.dirname(os.path.abspath(__file__)))
BROWSERS = ["chromium", "chromium-browser", "google-chrome"]
WIDTHS = 1280, 360
LEAST = {1280: 11, 360: 10}  # pixels of type
MEASURE = """
const faults = [], wide = window.innerWidth, slack = 1;
if (wide !== WIDE) faults.push('the window is ' + wide + ' pixels wide');
if (document.documentElement.scrollWidth > wide) faults.push('the page is ' + document.documentElement.scrollWidth + ' pixels wide');
const links = [...document.querySelectorAll('a[href]')], targets = new Set(links.map(a => a.getAttribute('href')));
for (const target of targets) {
    const e = target.startsWith('#') && document.getElementById(decodeURIComponent(target.slice(1)));
    if (!e) { faults.push('a link to nowhere: ' + target); continue; }
    e.scrollIntoView();
    const r = e.getBoundingClientRect();
    if (r.width === 0 || r.height === 0 || r.top < -slack || r.top > window.innerHeight) faults.push('can\\'t be seen: ' + target);
}
for (const e of document.querySelectorAll('body *')) {
    if (e.closest('svg') && e.tagName !== 'svg') continue;
    const r = e.getBoundingClientRect();
    if (r.width && (r.right > wide + slack || r.left < -slack)) faults.push('off the screen: ' + e.tagName + ' ' + (e.id || e.textContent.slice(0, 40)));
}
for (const e of document.querySelectorAll('p, li, dd, td, pre, code, h4')) if (parseFloat(getComputedStyle(e).fontSize) < LEAST) { faults.push('too small: ' + e.tagName + ' ' + e.textContent.slice(0, 40)); break; }
const pictures = [...document.querySelectorAll('figure svg')];
for (const e of pictures) {
    const r = e.getBoundingClientRect(), v = e.viewBox.baseVal;
    if (r.width < 0.7 * Math.min(wide, 800) || Math.abs(r.width / r.height - v.width / v.height) > 0.02) faults.push('a picture of ' + r.width + ' by ' + r.height);
    if (!e.querySelectorAll('.wagon').length) faults.push('a picture without wagons');
}
const fetched = performance.getEntriesByType('resource').map(e => e.name);
if (fetched.length) faults.push('fetched: ' + fetched);
const said = JSON.stringify({links: links.length, targets: targets.size, pictures: pictures.length, high: document.documentElement.scrollHeight, faults});
parent.postMessage(said, '*');
"""
HEAR = "addEventListener('message', e => { document.body.innerHTML = '<output></output>'; document.querySelector('output').textContent = e.data; });"


def run(browser, folder, *more):
    command = [browser, "--headless", "--no-sandbox", "--disable-gpu", "--hide-scrollbars", f"--user-data-dir={folder}/profile", *more]
    return subprocess.run(command, capture_output=True, text=True, timeout=600)


def measured(browser, folder, text, wide):
    page = os.path.join(folder, "page.html")
    with open(page, "w", encoding="utf-8") as out:
        # in a frame of that width, since a window has a least one
        script = MEASURE.replace("WIDE", str(wide)).replace("LEAST", str(LEAST[wide]))
        inner = html.escape(text.replace("</body>", f"<script>{script}</script></body>"))
        out.write(f'<!DOCTYPE html><meta charset="utf-8"><body><script>{HEAR}</script><iframe width="{wide}" height="900" style="border: 0" srcdoc="{inner}"></iframe></body>')
    done = run(browser, folder, "--window-size=1400,1000", "--virtual-time-budget=20000", "--dump-dom", f"file://{page}")
    found = re.search(r"<output>(.*)</output>", done.stdout, re.S)
    if not found:
        sys.exit(f"{browser} measured nothing: {done.stderr[-300:]}")
    return json.loads(html.unescape(found[1]))


def printed(browser, folder, path):
    """How many pages it has on paper, and what is wrong with them."""
    pdf = os.path.join(folder, "page.pdf")
    run(browser, folder, "--no-pdf-header-footer", f"--print-to-pdf={pdf}", f"file://{path}")
    with open(pdf, "rb") as file:
        sizes = re.findall(rb"/MediaBox \[([^\]]*)\]", file.read())
    wrong = {size for size in sizes if [round(float(x)) for x in size.split()] != [0, 0, 595, 842]}
    return len(sizes), [f"a page of {size.decode()}" for size in wrong] or ([] if sizes else ["no page is printed"])


def main():
    browser = next(filter(None, map(shutil.which, BROWSERS)), None)
    if browser is None:
        print("no browser is installed: the page is not looked at")
        sys.exit(77)
    path = os.path.realpath(sys.argv[1] if len(sys.argv) > 1 else os.path.join(TOP, "docs", "buyer.html"))
    with open(path, encoding="utf-8") as file:
        text = file.read()
    bad = 0
    with tempfile.TemporaryDirectory() as folder:
        for wide in WIDTHS:
            seen = measured(browser, folder, text, wide)
            print(f"{wide} pixels: {seen['links']} links to {seen['targets']} places, {seen['pictures']} pictures, {seen['high']} pixels high, faults {len(seen['faults'])}", *seen["faults"][:10], sep="\n  ")
            bad += len(seen["faults"])
        pages, faults = printed(browser, folder, path)
        print(f"A4: {pages} pages, faults {len(faults)}", *faults, sep="\n  ")
        bad += len(faults)
        if len(sys.argv) > 2:
            os.makedirs(sys.argv[2], exist_ok=True)
            shutil.copy(os.path.join(folder, "page.pdf"), sys.argv[2])
            for wide in WIDTHS:
                run(browser, folder, f"--window-size={wide},12000", f"--screenshot={os.path.join(os.path.realpath(sys.argv[2]), f'{wide}.png')}", f"file://{path}")
    sys.exit(bad != 0)


if __name__ == "__main__":
    main()
