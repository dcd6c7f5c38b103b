#!/usr/bin/env python3
"""Looks at a night's page in headless Chromium: maps, widths, and the parts that stay in sight.

    page.py TOOL FOLDER      FOLDER is made: nights, their pages, and pictures of these

Says so and ends well where no Chromium is installed.
"""
import html
import json
import os
import re
import shutil
import subprocess
import sys

BROWSERS = ("chromium", "chromium-browser", "google-chrome")
WIDTHS = (1280, 390)
HEIGHT = 900
CARDS = 13
LONG = "a-card-with-a-name-that-is-as-long-as-names-of-cards-get"
SHEETS = 30

# Run behind the page: what a reader sees is measured, and put in place of it. The window may be wider than it is asked
# to be, so the body gets the width.
PROBE = """
<script>
document.body.style.maxWidth = 'WIDTHpx';
const box = e => { const r = e.getBoundingClientRect(); return [r.width, r.height].map(x => Math.round(10 * x)); };
const rgb = e => getComputedStyle(e).backgroundColor;
const maps = [...document.querySelectorAll('svg')].map(svg => {
  const frame = svg.querySelector('.m-frame, use').getBBox();
  return {size: svg.getAttribute('viewBox'), box: box(svg),
          frame: [frame.x, frame.y, frame.width, frame.height].map(x => Math.round(10 * x))};
});
const grid = document.querySelector('.tall');
grid.scrollTop = grid.scrollHeight;
grid.scrollLeft = grid.scrollWidth;
const head = grid.querySelector('thead th:last-child').getBoundingClientRect();
const name = grid.querySelector('tbody tr:last-child th').getBoundingClientRect();
const around = grid.getBoundingClientRect();
const found = {
  maps, width: document.body.clientWidth, wide: document.body.scrollWidth,
  headStays: Math.abs(head.top - around.top) < 2, nameStays: Math.abs(name.left - around.left) < 2,
  scrolls: grid.scrollHeight > grid.clientHeight, ground: rgb(document.body),
  nameless: [...document.querySelectorAll('a')].filter(a => !(a.getAttribute('aria-label') || a.textContent).match(/\\w/)).length,
};
document.body.textContent = 'FOUND' + JSON.stringify(found) + 'END';
</script>
"""


def find_browser():
    return next((path for path in map(shutil.which, BROWSERS) if path), None)


def browse(browser, *words):
    command = [browser, "--headless", "--no-sandbox", "--disable-gpu", "--hide-scrollbars", *words]
    return subprocess.run(command, capture_output=True, text=True, timeout=120, check=True).stdout


def make_night(tool, folder, cards, sheets):
    """A night of sheets that are alike: every second card differs on all of them, by one element."""
    night = os.path.join(folder, "night")
    os.makedirs(night)
    text = "edition 1\nlayout L0 Constant\n  dim size 256 stride 1 span 256\nfill r0 8x8 u8 7\nstore r0 L0 base 0\n"
    memory = bytes(64)
    right = bytes([7] * 64)
    for number in range(sheets):
        name = f"sheet-{number:03}" + ("-with-a-long-name" * 6 if number == 3 else "")
        files = {"txt": text.encode(), "memory": memory}
        for i, card in enumerate(cards):
            files[f"{card}.after"] = right[:20] + b"\0" + right[21:] if i % 2 == 1 and number % 3 else right
        for suffix, content in files.items():
            with open(os.path.join(night, f"{name}.{suffix}"), "wb") as file:
                file.write(content)
    page = os.path.join(folder, "page.html")
    status = subprocess.run([tool, "night", night, "--html", page, "-o", os.path.join(folder, "report")]).returncode
    if status != 1:
        sys.exit(f"page.py: night: exit status {status}")
    return page


def probe(browser, page, width, *words):
    """What a page shows at a width."""
    probed = page.replace(".html", "-probed.html")
    with open(page, encoding="utf-8") as file:
        content = file.read()
    with open(probed, "w", encoding="utf-8") as file:
        file.write(content.replace("</body>", PROBE.replace("WIDTH", str(width)) + "</body>"))
    shown = browse(browser, f"--window-size={width},{HEIGHT}", "--dump-dom", *words, f"file://{probed}")
    return json.loads(html.unescape(re.search("FOUND(.*)END", shown).group(1)))


def check(condition, what):
    if not condition:
        sys.exit(f"page.py: {what}")


def check_page(browser, page, width):
    found = probe(browser, page, width)
    sizes = {}
    for drawn in found["maps"]:
        sizes.setdefault(drawn["size"], []).append(drawn)
    for size, drawn in sizes.items():
        check(len(drawn) > 1, f"only one map of {size}")
        frames = [d["frame"] for d in drawn]
        for frame in frames:
            check(all(abs(a - b) <= 1 for a, b in zip(frame, frames[0])),
                  f"maps of {size} at {width} do not look alike: {frames[0]} and {frame}")
        right, below = map(int, size.split()[2:])
        x, y, wide, high = frames[0]
        check(x >= 0 and y >= 0 and x + wide <= 10 * right and y + high <= 10 * below,
              f"the frame of {size} at {width} is drawn past its map: {frames[0]}")
    check(found["wide"] <= found["width"] <= width, f"at {width} the page is {found['wide']} wide")
    check(found["scrolls"] and found["headStays"], f"at {width} the grid's head does not stay in sight")
    check(found["nameStays"], f"at {width} the sheets' names do not stay in sight")
    check(found["nameless"] == 0, f"{found['nameless']} links have no words")
    return found


def main(tool, folder):
    browser = find_browser()
    if browser is None:
        print("page.py: Chromium is not installed: the page is not looked at")
        return
    shutil.rmtree(folder, ignore_errors=True)
    os.makedirs(folder)
    cards = [f"card{i:02}" for i in range(CARDS - 1)] + [LONG]
    page = make_night(os.path.abspath(tool), os.path.abspath(folder), cards, SHEETS)
    for width in WIDTHS:
        found = check_page(browser, page, width)
        browse(browser, f"--window-size={width},{HEIGHT}", f"--screenshot={page[:-5]}-{width}.png", f"file://{page}")
        print(f"{width} pixels: {len(found['maps'])} maps look alike, nothing is cut off, head and names stay in sight")
    light = found["ground"]
    dark = probe(browser, page, WIDTHS[0], "--blink-settings=preferredColorScheme=0")["ground"]
    check(dark != light, f"the dark style has the ground of the light one, {light}")
    browse(browser, "--no-pdf-header-footer", f"--print-to-pdf={page[:-5]}.pdf", f"file://{page}")
    print(f"dark style: {dark}; printed to {page[:-5]}.pdf")


if __name__ == "__main__":
    if len(sys.argv) != 3:
        sys.exit(__doc__)
    main(*sys.argv[1:])
