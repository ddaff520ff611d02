"""A headless Chromium that opens pages, and what they show at each step."""
import json
import os
import re
import shutil
import subprocess
import tempfile
from html import unescape
from pathlib import Path

from flaw import Flaw

SECONDS = 60
OPTIONS = ("--headless", "--no-sandbox", "--disable-gpu", "--hide-scrollbars", "--virtual-time-budget=10000")
# What steps through a page that is tried, behind its own script: forth by the keyboard, back, and about by the slider. Of
# each number of events it keeps what the cells show.
DRIVER = """<script>
const seen = [];
const press = (key) => document.dispatchEvent(new KeyboardEvent("keydown", { key, bubbles: true, cancelable: true }));
const cells = () => Object.fromEntries(Array.from(document.querySelectorAll("td[id]"),
  (cell) => [cell.id, [cell.textContent, cell.className]]));
const keep = (how) => seen.push({ how, at: Number(slider.value), told: told.textContent, cells: cells() });
const [least, most] = [Number(slider.min), Number(slider.max)];
const go = (number) => { slider.value = number; slider.dispatchEvent(new Event("input")); };
keep("opened");
for (let n = least; n < most; n += 1) { press("ArrowRight"); keep("forth"); }
press("ArrowRight"); keep("past the end");
for (let n = most; n > least; n -= 1) { press("ArrowLeft"); keep("back"); }
press("End"); keep("end");
press("Home"); keep("home");
for (const part of [3, 1, 2]) { go(least + Math.floor((most - least) * part / 4)); keep("slider"); }
const output = document.createElement("pre");
output.id = "seen";
output.textContent = JSON.stringify(seen);
document.body.append(output);
</script>
"""
# What tells, behind a page's own script, how large the window is, and where the picture, the state, its slider and its tables
# are at each step: left, top, right and bottom, in pixels.
MEASURE = """<script>
const measured = [];
const place = (it) => { const box = it.getBoundingClientRect(); return [box.left, box.top, box.right, box.bottom].map(Math.round); };
const named = (id) => place(document.getElementById(id));
for (let n = Number(slider.min); n <= Number(slider.max); n += 1) {
  show(n);
  measured.push({ at: n, window: [innerWidth, innerHeight], picture: named("picture"), state: named("state"), slider: named("at"),
    tables: Array.from(document.querySelectorAll("#state table"), place) });
}
const output = document.createElement("pre");
output.id = "seen";
output.textContent = JSON.stringify(measured);
document.body.append(output);
</script>
"""
SEEN = re.compile(r'<pre id="seen">(.*?)</pre>', re.S)


class Browser:
    def __init__(self, path):
        self.path = path

    @staticmethod
    def found():
        """The browser that CHROMIUM names, or `chromium` on the path; None where there is none."""
        path = os.environ.get("CHROMIUM") or shutil.which("chromium")
        return Browser(path) if path else None

    def call(self, folder, *words):
        """What the browser prints, with a profile of its own in the folder."""
        profile = f"--user-data-dir={folder}/profile"
        try:
            ran = subprocess.run([self.path, *OPTIONS, profile, *words], capture_output=True, timeout=SECONDS)
        except subprocess.TimeoutExpired:
            raise Flaw(f"the browser isn't done within {SECONDS} seconds") from None
        return ran.stdout.decode(errors="replace")

    def seen(self, page):
        """What a page shows while it is stepped through."""
        return self.told(page, DRIVER)

    def measured(self, page, size):
        """Where a page's parts are at each step, in a window of this size."""
        width, height = size
        return self.told(page, MEASURE, f"--window-size={width},{height}")

    def told(self, page, driver, *words):
        """What a page tells with this script behind its own."""
        with tempfile.TemporaryDirectory() as folder:
            file = Path(folder) / "page.html"
            file.write_text(page.replace("</body>", driver + "</body>"))
            found = SEEN.search(self.call(folder, *words, "--dump-dom", file.as_uri()))
        if not found:
            raise Flaw("it doesn't hold that the page's script runs to its end")
        return json.loads(unescape(found[1]))

    def shoot(self, page, number, path, size=(1180, 700)):
        """Writes a picture of the page as it is before the event of this number."""
        with tempfile.TemporaryDirectory() as folder:
            file = Path(folder) / "page.html"
            file.write_text(page)
            width, height = size
            self.call(folder, f"--window-size={width},{height}", f"--screenshot={path}", f"{file.as_uri()}#{number}")
