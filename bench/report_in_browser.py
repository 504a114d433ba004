#!/usr/bin/env python3
"""Opens the page of tools/report for each example in a browser, and clicks through it.

    bench/report_in_browser.py [--pictures FOLDER] [--pages FOLDER] [NAME ..]

The browser is Debian's chromium (`apt-get install chromium`) without a window, spoken to through a pipe. Of each example, or of
the named ones, each ladder is scrolled to and each arrow is opened, the first by the mouse and by Enter; Escape closes it and goes
back to the arrow; each filter is chosen. A failure is a message of the browser (an exception, or a load that the page's policy
forbids), a request other than for the page, or a packet that doesn't open. Then the same is asked of a page whose identities are
markup; and of one with 10,000 sessions one packet is opened, and its times are printed.

With --pictures the pictures of docs/pictures/ are taken, and with --pages one of each page, in light and in dark. The exit status
is 0; 1 if something fails; 3 if chromium is missing.
"""
import argparse
import base64
import json
import shutil
import subprocess
import sys
import tempfile
import time
from pathlib import Path

TOP = Path(__file__).resolve().parent.parent
sys.path.append(str(TOP / "tools"))
from ends import Missing, run_main

EXAMPLES = TOP / "examples"
REPORT = TOP / "tools/report"
SECONDS = 120
# The pictures of docs/pictures/: the example, a script that makes the page ready, and the size.
PICTURES = {
    "report-session": ("session-full-print", "location.hash = '#session=1&packet=3'", 1340, 590),
    "report-numbers": ("out-of-order", "scrollTo(0, 0)", 1280, 650),
    "report-crossed": ("crossed-sessions", "byId('ladders').scrollIntoView()", 1180, 790),
}
# Opens each arrow of the page, and answers what was wrong.
THROUGH = """(async () => {
  const wrong = [], pause = () => new Promise((done) => setTimeout(done));
  const more = () => document.querySelector('#ladders > button:not([hidden])');
  while (more()) { more().click(); await pause(); }
  const parts = [...document.querySelectorAll('#ladders > article')];
  if (parts.length !== data.sessions.length) wrong.push(`${parts.length} sessions of ${data.sessions.length}`);
  let opened = 0;
  for (const [place, part] of parts.entries()) {
    part.scrollIntoView();
    for (let tries = 0; !part.querySelector('svg') && tries < 500; tries++) await new Promise((done) => setTimeout(done, 10));
    const arrows = [...part.querySelectorAll('.arrow')];
    if (arrows.length !== data.sessions[place][7].length) wrong.push(`${part.id}: ${arrows.length} arrows`);
    for (const arrow of arrows) {
      arrow.dispatchEvent(new MouseEvent('click'));
      const title = byId('panel-title').textContent;
      if (byId('panel').hidden || !title.startsWith(`Packet ${arrow.dataset.packet}`)) wrong.push(`${part.id}: ${title}`);
      opened++;
    }
  }
  if (opener) closePacket();
  for (const select of document.querySelectorAll('select')) {
    for (const option of select.options) {
      select.value = option.value;
      select.dispatchEvent(new Event('change', {bubbles: true}));
      const shown = Number(byId('count').textContent.split(' ')[0]);
      if (shown !== data.sessions.filter(chosen).length) wrong.push(`${select.id}: ${option.value}`);
    }
    select.selectedIndex = 0;
  }
  show();
  return {sessions: parts.length, opened, plots: data.subscribers.length, wrong};
})()"""
ARROW = "document.querySelector('.arrow').getBoundingClientRect().toJSON()"


class Browser:
    """Chromium, by its protocol over a pipe: it reads descriptor 3 and writes descriptor 4."""

    def __init__(self, folder):
        if shutil.which("chromium") is None:
            raise Missing("chromium", "apt-get install chromium")
        words = ["chromium", "--headless=new", "--no-sandbox", "--disable-gpu", "--disable-dev-shm-usage", "--hide-scrollbars",
                 "--remote-debugging-pipe", f"--user-data-dir={folder}/profile", "about:blank"]
        begin = ["sh", "-c", 'exec 3<&0 4>&1 </dev/null >/dev/null 2>&1; exec "$@"', "sh", *words]
        self.child = subprocess.Popen(begin, stdin=subprocess.PIPE, stdout=subprocess.PIPE)
        self.count, self.rest, self.session, self.said = 0, b"", None, []
        target = self.call("Target.createTarget", url="about:blank")["targetId"]
        self.session = self.call("Target.attachToTarget", targetId=target, flatten=True)["sessionId"]
        for domain in ("Page", "Runtime", "Log", "Network"):
            self.call(f"{domain}.enable")

    def message(self):
        while b"\0" not in self.rest:
            more = self.child.stdout.read1(1 << 20)
            if not more:
                raise OSError("chromium has ended")
            self.rest += more
        text, _, self.rest = self.rest.partition(b"\0")
        return json.loads(text)

    def call(self, method, **words):
        self.count += 1
        asked = {"id": self.count, "method": method, "params": words} | ({"sessionId": self.session} if self.session else {})
        self.child.stdin.write(json.dumps(asked).encode() + b"\0")
        self.child.stdin.flush()
        while (got := self.message()).get("id") != self.count:
            self.said.append(got)
        if "error" in got:
            raise OSError(f"{method}: {got['error']['message']}")
        return got["result"]

    def until(self, event):
        while not any(it.get("method") == event for it in self.said):
            self.said.append(self.message())

    def run(self, script):
        done = self.call("Runtime.evaluate", expression=script, returnByValue=True, awaitPromise=True)
        if "exceptionDetails" in done:
            raise OSError(done["exceptionDetails"].get("exception", {}).get("description", "an exception"))
        return done["result"].get("value")

    def open(self, path, fragment="", width=1400, height=900, dark=False):
        self.call("Page.navigate", url="about:blank")
        self.call("Emulation.setDeviceMetricsOverride", width=width, height=height, deviceScaleFactor=1, mobile=False)
        self.call("Emulation.setEmulatedMedia", features=[{"name": "prefers-color-scheme", "value": "dark" if dark else "light"}])
        self.said.clear()
        self.call("Page.navigate", url=path.as_uri() + fragment)
        self.until("Page.loadEventFired")

    def complaints(self, path):
        """What the browser said of the page that it shouldn't, and what the page asked for."""
        found = []
        for it in self.said:
            method, words = it.get("method"), it.get("params", {})
            if method == "Runtime.exceptionThrown" or method == "Page.javascriptDialogOpening":
                found.append(method)
            elif method == "Log.entryAdded" and words["entry"]["level"] == "error":
                found.append(words["entry"]["text"])
            elif method == "Network.requestWillBeSent" and not words["request"]["url"].startswith((path.as_uri(), "about:")):
                found.append(f"a request for {words['request']['url']}")
        return found

    def key(self, name, code):
        for kind in ("keyDown", "keyUp"):
            self.call("Input.dispatchKeyEvent", type=kind, key=name, code=name, windowsVirtualKeyCode=code)

    def click(self, x, y):
        for kind in ("mousePressed", "mouseReleased"):
            self.call("Input.dispatchMouseEvent", type=kind, x=x, y=y, button="left", clickCount=1)

    def picture(self, path):
        path.write_bytes(base64.b64decode(self.call("Page.captureScreenshot", format="png")["data"]))

    def close(self):
        self.child.stdin.close()
        self.child.stdout.close()
        self.child.wait(30)


def page_of(folder, name, text, *more):
    path = folder / f"{name}.html"
    (folder / name).write_text(text)
    done = subprocess.run([sys.executable, REPORT, folder / name, *more], capture_output=True, timeout=SECONDS)
    if done.returncode:
        raise OSError(done.stderr.decode().strip())
    path.write_bytes(done.stdout)
    return path


def by_hand(browser):
    """What is wrong with the first arrow if it is opened by the mouse and by the keys."""
    browser.run("document.querySelector('.arrow').scrollIntoView({block: 'center'})")
    box = browser.run(ARROW)
    browser.click(box["x"] + box["width"] / 2, box["y"] + box["height"] / 2)
    wrong = [] if browser.run("!byId('panel').hidden") else ["the mouse opens no packet"]
    browser.key("Escape", 27)
    closed = browser.run("byId('panel').hidden && document.activeElement.classList.contains('arrow')")
    wrong += [] if closed else ["Escape doesn't go back to the arrow"]
    browser.key("Enter", 13)
    wrong += [] if browser.run("!byId('panel').hidden") else ["Enter opens no packet"]
    browser.key("Escape", 27)
    return wrong


def fault_of(browser, path):
    """What is in a page, and what is wrong with it."""
    browser.open(path)
    found = browser.run(THROUGH)
    wrong = found.pop("wrong")
    if found["sessions"]:
        browser.run("document.querySelector('#ladders article').scrollIntoView()")
        browser.run("new Promise((done) => setTimeout(done, 200))")
        wrong += by_hand(browser)
    return ", ".join(f"{count} {name}" for name, count in found.items()), wrong + browser.complaints(path)


def markup():
    """A transcript whose identities are markup. Its second identity would end a script."""
    identities = [b"<script>alert(1)</script>", b"</script><img src=x onerror=alert(1)>@<!--"]
    lines = ["round 1", "job 1"]
    for number, identity in enumerate(identities, 1):
        data = bytes([2, 1]) + (5 + len(identity)).to_bytes(2, "big") + b"\1" + identity
        lines += [f"session {number} open", f"start {number} sent {2 * number - 1}", f"packet {2 * number - 1} 0101000501",
                  f"deliver {number} peer {2 * number - 1} sent {2 * number}", f"packet {2 * number} {data.hex()}"]
    return "".join(line + "\n" for line in [*lines, "premise held"])


def many(count):
    """The example with a full print, a job for each session."""
    text = (EXAMPLES / "session-full-print.expected").read_text()
    body = [line for line in text.splitlines()[1:] if not line.startswith(("closed", "session 1 agree", "premise"))]
    jobs = []
    for number in range(1, count + 1):
        for line in body:
            words = line.split(" ")
            words[1] = str(number) if words[0] in ("job", "session", "start", "deliver") else words[1]
            jobs.append(" ".join(words))
    return "\n".join(["round 1", *jobs, f"closed 001010000000001 0 {count} {count} 0 {count} 0", "premise held"]) + "\n"


def times_of(browser, folder):
    """The times of a page with 10,000 sessions, and what is wrong with it."""
    count = 10_000
    began = time.monotonic()
    path = page_of(folder, "many", many(count))
    made = time.monotonic()
    browser.open(path, f"#session={count}&packet=3")
    shown = time.monotonic()
    is_open = browser.run("byId('panel-title').textContent") == "Packet 3: Request/AKA-Challenge"
    wrong = [] if is_open and browser.run("opener.isConnected") else ["no packet is open"]
    filtered = browser.run("(() => { closePacket(); const began = performance.now(); byId('number').value = ''; show();"
                           " return performance.now() - began; })()")
    size = path.stat().st_size
    return (f"{count} sessions: {size / 1e6:.1f} MB, made in {made - began:.1f} s, open in {shown - made:.1f} s, "
            f"filtered in {filtered:.0f} ms"), wrong + browser.complaints(path)


def taken(browser, page, picture, ready="", **size):
    browser.open(page, **size)
    browser.run(ready)
    browser.run("new Promise((done) => setTimeout(done, 400))")
    browser.picture(picture)


def take_pictures(browser, folder, pictures):
    pictures.mkdir(parents=True, exist_ok=True)
    for name, (example, ready, width, height) in PICTURES.items():
        page = page_of(folder, example, (EXAMPLES / f"{example}.expected").read_text())
        taken(browser, page, pictures / f"{name}.png", ready, width=width, height=height)


def take_pages(browser, folder, pictures):
    pictures.mkdir(parents=True, exist_ok=True)
    for page in sorted(folder.glob("*.html")):
        taken(browser, page, pictures / f"{page.stem}.png")
        taken(browser, page, pictures / f"{page.stem}-dark.png", dark=True)


def words():
    parser = argparse.ArgumentParser(description=__doc__, formatter_class=argparse.RawDescriptionHelpFormatter)
    parser.add_argument("names", metavar="NAME", nargs="*", help="examples; without one, all")
    parser.add_argument("--pictures", metavar="FOLDER", type=Path, help="where the pictures of docs/pictures/ are put")
    parser.add_argument("--pages", metavar="FOLDER", type=Path, help="where a picture of each page is put")
    return parser.parse_args()


def tried(browser, folder, names):
    """Each page with its line and what is wrong with it."""
    for name in names:
        text = (EXAMPLES / f"{name}.expected").read_text()
        yield name, *fault_of(browser, page_of(folder, name, text, "--scenario", EXAMPLES / f"{name}.scenario"))
    yield "identities that are markup", *fault_of(browser, page_of(folder, "markup", markup()))
    yield "many sessions", *times_of(browser, folder)


def main():
    asked = words()
    names = asked.names or sorted(path.stem for path in EXAMPLES.glob("*.expected"))
    with tempfile.TemporaryDirectory() as temporary:
        folder, failed = Path(temporary), 0
        browser = Browser(folder)
        try:
            for name, line, wrong in tried(browser, folder, names):
                print(f"{name}: {line}{'; FAILED: ' + '; '.join(wrong) if wrong else ''}", flush=True)
                failed += bool(wrong)
            if asked.pictures:
                take_pictures(browser, folder, asked.pictures)
            if asked.pages:
                take_pages(browser, folder, asked.pages)
        finally:
            browser.close()
    return 1 if failed else 0


if __name__ == "__main__":
    run_main(main)
