"""A browser without a window, which looks at pages: by day and by night, wide and narrow."""

import json
import re
import shutil
import subprocess
import tempfile
from html import escape, unescape
from pathlib import Path

from trials.servers.installed import install

NAMES = ("chromium", "chromium-browser", "google-chrome")
WORDS = ("--headless", "--no-sandbox", "--disable-gpu", "--hide-scrollbars", "--no-first-run", "--disable-extensions")
SCHEMES, WIDTHS = ("light", "dark"), (1200, 390)
# The least contrast of a text with what lies behind it, and the least height of a letter's box, in pixels.
CONTRAST, LETTERS = 4.5, 9

LOOK = """
const channel = c => (c /= 255) <= .03928 ? c / 12.92 : ((c + .055) / 1.055) ** 2.4;
const bright = c => .2126 * channel(c[0]) + .7152 * channel(c[1]) + .0722 * channel(c[2]);
const color = text => (text.match(/[\\d.]+/g) || [0, 0, 0, 0]).map(Number);
const ratio = (a, b) => { const [x, y] = [bright(a), bright(b)].sort((m, n) => n - m); return (x + .05) / (y + .05); };
function behind(view, element) {
  for (let each = element; each; each = each.parentElement) {
    const found = color(view.getComputedStyle(each).backgroundColor);
    if (found.length < 4 || found[3] > 0) return found;
  }
  return [255, 255, 255];
}
function texts(page) {
  const walker = page.createTreeWalker(page.body, NodeFilter.SHOW_TEXT), found = new Set();
  while (walker.nextNode()) if (walker.currentNode.data.trim()) found.add(walker.currentNode.parentElement);
  return [...found].filter(each => !["STYLE", "SCRIPT", "TITLE"].includes(each.tagName) && each.getClientRects().length);
}
function look(frame) {
  const view = frame.contentWindow, page = view.document, root = page.documentElement;
  const pale = [], small = [], hidden = [];
  for (const each of page.querySelectorAll("details")) each.open = true;
  const shapes = [...page.querySelectorAll("svg rect")].filter(each => view.getComputedStyle(each).fill != "none");
  for (const each of texts(page)) {
    const style = view.getComputedStyle(each), inside = each.namespaceURI.endsWith("svg");
    const ink = color(inside ? style.fill : style.color);
    const papers = inside ? shapes.map(shape => color(view.getComputedStyle(shape).fill)) : [behind(view, each)];
    const least = Math.min(...papers.map(paper => ratio(ink, paper)));
    if (least < CONTRAST) pale.push(each.textContent.trim().slice(0, 40) + " " + least.toFixed(2));
    if (each.getBoundingClientRect().height < LETTERS) small.push(each.textContent.trim().slice(0, 40));
  }
  const stops = [...page.querySelectorAll("a[href], summary, button, [tabindex]")].filter(each => each.getClientRects().length);
  for (const each of stops) {
    each.focus();
    const style = view.getComputedStyle(each);
    if (page.activeElement !== each || style.outlineStyle == "none") hidden.push(each.outerHTML.slice(0, 80));
  }
  const wide = [...page.querySelectorAll("body *")].filter(each => !each.closest(".wide, svg, .skip")
    && each.scrollWidth > each.clientWidth + 1 && view.getComputedStyle(each).display != "inline" && each.clientWidth);
  return { over: root.scrollWidth - root.clientWidth, pale, small, hidden, stops: stops.length, paper: bright(behind(view, page.body)),
    wide: wide.map(each => each.outerHTML.slice(0, 80)) };
}
onload = () => {
  document.getElementById("found").textContent = JSON.stringify([...document.querySelectorAll("iframe")].map(look));
};
"""


def found():
    return next(filter(None, map(shutil.which, NAMES)), None)


def browser():
    """A browser, installed where it is missing and that can be done; else None."""
    install("chromium", lambda: found() is not None)
    return found()


def run(program, folder, *words):
    """Runs the browser with a profile of its own, and answers what it prints."""
    command = [program, *WORDS, f"--user-data-dir={folder}/profile", *words]
    return subprocess.run(command, check=True, stdout=subprocess.PIPE, stderr=subprocess.DEVNULL, text=True, timeout=120).stdout


def frame(text, scheme, width):
    """A page within a page, as it is by day or by night."""
    return f'<iframe width="{width}" height="900" style="border:0;color-scheme:{scheme}" srcdoc="{escape(text)}"></iframe>'


def looked_at(program, text):
    """What is seen of a page in each scheme and width."""
    kinds = [(scheme, width) for scheme in SCHEMES for width in WIDTHS]
    look = LOOK.replace("CONTRAST", str(CONTRAST)).replace("LETTERS", str(LETTERS))
    frames = "".join(frame(text, *kind) for kind in kinds)
    around = f'<!DOCTYPE html><meta charset="utf-8"><style>:root {{ color-scheme: light dark }}</style><pre id="found"></pre>{frames}'
    with tempfile.TemporaryDirectory() as kept:
        page = Path(kept) / "page.html"
        page.write_text(f"{around}<script>{look}</script>")
        printed = run(program, kept, "--virtual-time-budget=20000", "--dump-dom", f"file://{page}")
    told = re.search(r'<pre id="found">(.*?)</pre>', printed, re.DOTALL)
    return dict(zip(kinds, json.loads(unescape(told[1]))))


def faults(program, text):
    """What is wrong with a page, a line each; and how many places of it the keyboard comes to."""
    lines, stops = [], 0
    for (scheme, width), seen in looked_at(program, text).items():
        where = f"{scheme}, {width} wide"
        lines += [f"{where}: the page is {seen['over']} wider than its window"] * (seen["over"] > 0)
        lines += [f"{where}: {kind}: {each}" for kind in ("pale", "small", "hidden", "wide") for each in seen[kind]]
        lines += [f"{where}: the paper is {seen['paper']:.2f} bright"] * ((seen["paper"] > 0.5) != (scheme == "light"))
        stops = max(stops, seen["stops"])
    return lines, stops


def picture(program, page, file, width, height, is_dark=False):
    with tempfile.TemporaryDirectory() as kept:
        words = [f"--window-size={width},{height}", f"--blink-settings=preferredColorScheme={0 if is_dark else 1}"]
        run(program, kept, *words, f"--screenshot={file}", f"file://{page.resolve()}")
