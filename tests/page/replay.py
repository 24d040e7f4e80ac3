#!/usr/bin/env python3
"""Opens the pages that tools/page.py makes of the examples' scripts in a headless browser, steps to the
end and back by keys and by clicks, and compares what stands there after each event with the program's
line; looks at both colour schemes, a narrow window and the focus; and sees that a page with one wrong
number fails. Without Debian's chromium, which tests/needs.sh installs, it says that it skipped.

Usage: tests/page/replay.py [PROGRAM]    what rt ci built, if none is named"""
import glob
import json
import os
import shutil
import subprocess
import sys
import tempfile
from pathlib import Path

sys.dont_write_bytecode = True
TOP = os.path.realpath(os.path.join(os.path.dirname(__file__), "../.."))
BUILT = "crates/hcc_play/out/hcc_play"
SECONDS = 60
failed = 0
passed = 0

# The parts of each slot and of the ledgers, as they stand on the page.
SHOWN = """(() => {
  const parts = (of) => Object.fromEntries([...of.querySelectorAll("[data-part]")].map((it) => [it.dataset.part, it.innerText]));
  return { at: document.getElementById("at").innerText, reply: document.getElementById("reply").innerText,
    event: document.getElementById("event").innerText, meaning: document.getElementById("meaning").innerText,
    current: document.querySelector("[aria-current]").children[1].innerText,
    slots: [...document.querySelectorAll(".slot")].map(parts), books: parts(document.getElementById("books")) };
})()"""

# The least contrast of a text with what it stands on.
CONTRAST = """(() => {
  const light = (rgb) => { const [r, g, b] = rgb.match(/[\\d.]+/g).slice(0, 3)
    .map((it) => it / 255).map((it) => it <= 0.03928 ? it / 12.92 : ((it + 0.055) / 1.055) ** 2.4);
    return 0.2126 * r + 0.7152 * g + 0.0722 * b; };
  const ground = (it) => { const own = getComputedStyle(it).backgroundColor;
    return own === "rgba(0, 0, 0, 0)" && it.parentElement ? ground(it.parentElement) : own; };
  const texts = [...document.querySelectorAll("body *")].filter((it) => it.offsetParent
    && [...it.childNodes].some((node) => node.nodeType === 3 && node.data.trim()));
  return Math.min(...texts.map((it) => { const [a, b] = [light(getComputedStyle(it).color), light(ground(it))];
    return (Math.max(a, b) + 0.05) / (Math.min(a, b) + 0.05); }));
})()"""

KEYS = {"ArrowRight": 39, "ArrowLeft": 37, "Home": 36, "End": 35, "Tab": 9, "Enter": 13}


def judge(name, ok, said=""):
    """Counts a case that passed, or tells one that did not."""
    global passed, failed
    if ok:
        passed += 1
    else:
        failed += 1
        print(f"failed: {name}{': ' if said else ''}{said}")
    return ok


class Browser:
    """A headless browser, spoken to by JSON through a pair of pipes."""

    def __init__(self, command, folder):
        theirs_in, self.to = os.pipe()
        self.came, theirs_out = os.pipe()
        words = [command, "--headless=new", "--no-sandbox", "--disable-gpu", "--hide-scrollbars", "--no-first-run",
                 "--disable-dev-shm-usage", f"--user-data-dir={folder}/profile", "--remote-debugging-pipe", "about:blank"]
        shell = f'exec "$@" 3<&{theirs_in} 4>&{theirs_out}'
        self.process = subprocess.Popen(["timeout", "300", "bash", "-c", shell, "", *words], stdout=subprocess.DEVNULL,
                                        stderr=subprocess.DEVNULL, pass_fds=(theirs_in, theirs_out))
        os.close(theirs_in)
        os.close(theirs_out)
        self.rest, self.number, self.faults, self.session = b"", 0, [], None
        page = self.ask("Target.createTarget", url="about:blank")["targetId"]
        self.session = self.ask("Target.attachToTarget", targetId=page, flatten=True)["sessionId"]
        for domain in ("Page", "Runtime", "Log", "Network"):
            self.ask(f"{domain}.enable")

    def message(self):
        """The next message."""
        while b"\0" not in self.rest:
            came = os.read(self.came, 1 << 20)
            if not came:
                raise RuntimeError("the browser ended")
            self.rest += came
        one, _, self.rest = self.rest.partition(b"\0")
        return json.loads(one)

    def ask(self, method, **how):
        """Sends a command; its result. Faults of the page that come meanwhile are kept."""
        self.number += 1
        told = {"id": self.number, "method": method, "params": how}
        if self.session:
            told["sessionId"] = self.session
        os.write(self.to, json.dumps(told).encode() + b"\0")
        while True:
            it = self.message()
            self.note(it)
            if it.get("id") == self.number:
                if "error" in it:
                    raise RuntimeError(f"{method}: {it['error']}")
                return it["result"]

    def note(self, it):
        """Keeps what a page must not do: throw, log a fault, ask for anything but itself."""
        method, params = it.get("method"), it.get("params", {})
        if method in ("Runtime.exceptionThrown", "Log.entryAdded"):
            self.faults.append(json.dumps(params))
        if method == "Network.requestWillBeSent" and not params["request"]["url"].startswith("file:"):
            self.faults.append(params["request"]["url"])

    def open(self, file):
        self.ask("Page.navigate", url=f"file://{file}")
        while self.run("document.readyState") != "complete":
            pass

    def run(self, script):
        it = self.ask("Runtime.evaluate", expression=script, returnByValue=True)
        if "exceptionDetails" in it:
            raise RuntimeError(json.dumps(it["exceptionDetails"]))
        return it["result"].get("value")

    def press(self, name):
        how = {"key": name, "code": name, "windowsVirtualKeyCode": KEYS[name]}
        if name == "Enter":
            how["text"] = "\r"
        self.ask("Input.dispatchKeyEvent", type="keyDown", **how)
        self.ask("Input.dispatchKeyEvent", type="keyUp", **how)

    def click(self, selector):
        """Clicks in the middle of the first element of a selector, where it stands in the window."""
        place = self.run(f"(() => {{ const it = document.querySelector({json.dumps(selector)});"
                         "it.scrollIntoView({block: 'nearest'}); const r = it.getBoundingClientRect();"
                         "return [r.x + r.width / 2, r.y + r.height / 2]; })()")
        for kind in ("mousePressed", "mouseReleased"):
            self.ask("Input.dispatchMouseEvent", type=kind, x=place[0], y=place[1], button="left", clickCount=1)

    def size(self, width, height):
        self.ask("Emulation.setDeviceMetricsOverride", width=width, height=height, deviceScaleFactor=1, mobile=False)

    def scheme(self, name):
        self.ask("Emulation.setEmulatedMedia", features=[{"name": "prefers-color-scheme", "value": name}])

    def end(self):
        """Ends it: it goes with its pipe, and else by `timeout`, which passes the signal on."""
        os.close(self.to)
        try:
            self.process.wait(10)
        except subprocess.TimeoutExpired:
            self.process.terminate()
            self.process.wait()


def slot_text(parts):
    """A slot as the program writes it, from the parts that stand on the page."""
    end = f"/{parts['displacement']}"
    if parts["phase"] == "empty":
        return f"E+{parts['strays']}{end}"
    if parts["phase"] == "building":
        return f"B{parts['owner']}+{parts['strays']}{end}"
    references = "-" if parts["references"] == "none" else parts["references"].replace(" × ", "x").replace(", ", "&")
    letter, hit = {"shown": "S", "hidden": "H"}[parts["phase"]], {"yes": 1, "no": 0}[parts["hit"]]
    counts = f"#{parts['charge']},u{parts['uses']},r{references},h{hit}"
    return f"{letter}{parts['key']}@{parts['stamp']}{counts}{end}"


def line_of(shown):
    """What stands on the page as the program's line, without the parts that only a reader wants."""
    books = " ".join(shown["books"][it] for it in ("usage", "occupancy", "standing", "hand"))
    return f"{shown['reply']} : {' '.join(map(slot_text, shown['slots']))} | {books}"


def fault_at(browser, number, script, lines):
    """What is wrong with the page after so many events; nothing where it is as the program says."""
    shown = browser.run(SHOWN)
    if number == 0:
        want = f"- : {' '.join('E+0/0' for _ in shown['slots'])} | 0 0 0 0"
    else:
        want = lines[number - 1]
    event = script[number - 1] if number else "(start)"
    came = (shown["at"], shown["current"], line_of(shown))
    if came != (f"event {number} of {len(lines)}", event, want):
        return f"at event {number}: {came}, wanted {want}"
    said = shown["event"] + shown["meaning"]
    return f"at event {number}: says {said}" if "undefined" in said or "?" in said or not shown["meaning"] else ""


def walk(browser, script, lines):
    """To the end and back, by each way of moving; the first fault, or nothing."""
    count = len(lines)
    ways = [("press", "ArrowRight", range(1, count + 1)), ("press", "ArrowLeft", range(count - 1, -1, -1)),
            ("click", "#next", range(1, count + 1)), ("click", "#back", range(count - 1, -1, -1)),
            ("press", "End", [count]), ("press", "ArrowRight", [count]), ("press", "Home", [0]), ("press", "ArrowLeft", [0]),
            ("click", "#last", [count]), ("click", "#first", [0])]
    for how, what, places in ways:
        for place in places:
            getattr(browser, how)(what)
            fault = fault_at(browser, place, script, lines)
            if fault:
                return f"{how} {what}, {fault}"
    for place in (count, count // 2, 1, 0):
        browser.click(f"#lines li:nth-child({place + 1}) button")
        fault = fault_at(browser, place, script, lines)
        if fault:
            return f"a click on a line, {fault}"
    return ""


def made(program, script, *options):
    """What tools/page.py makes of a script."""
    words = [f"{TOP}/tools/page.py", script, "--program", program, *options]
    return subprocess.run(words, capture_output=True, text=True, timeout=SECONDS, check=False)


def page_of(program, script, folder, *options):
    """The page of a script, in a file."""
    ran = made(program, script, *options)
    judge(f"a page of {script}", ran.returncode == 0, ran.stderr)
    return written(folder, ran.stdout)


def written(folder, text, name="page.html"):
    (folder / name).write_text(text, encoding="utf-8")
    return folder / name


def lines_of(program, script, *options):
    text = Path(script).read_text(encoding="utf-8")
    ran = subprocess.run([program, "core", *options], input=text, capture_output=True, text=True, timeout=SECONDS, check=True)
    return text.splitlines(), ran.stdout.splitlines()


def replays(browser, program, folder):
    """Each example, and a script of all events, as the program plays it."""
    scripts = [(it, ()) for it in sorted(glob.glob("examples/*.script"))]
    scripts.append((every_event(folder), ("--slots", "5", "--clients", "3", "--capacity", "20", "--strict")))
    for script, options in scripts:
        file = page_of(program, script, folder, *options)
        browser.open(file)
        judge(f"{script} to the end and back", not (fault := walk(browser, *lines_of(program, script, *options))), fault)


def every_event(folder):
    """A script in which each event occurs, strays, a reference that is left and an entry that a trail has passed."""
    events = """start 0|start 1|start 2|enter 0|charge 0 15|pass 0 3|pass 0 1|count 1 3|unpass 0 3|occupy 0 4|write 0
show 0 18446744073709551615 0 15 3 7 00ff|look 1 4|acquire 1 4 3 18446744073709551615|look 2 4|mark 1 18446744073709551615
read 0 7|peek 2 4|peek 2 0|correct 0 7|give 0 7|hide 1 18446744073709551615|use 1 18446744073709551615|charge 1 10|usage 1|free 1 4 -
acquire 2 4 3 1|unpass 1 1|empty 1|slots 1|settle 1|waive 1|enter 1|quit 1|occupancy 1|charge 1 4|stand 1 4 9|standing 1
fall 1 9|turn 1|turn 2|waive 1|clock 0 2|charge 0 3|enter 0|occupy 0 2|show 0 1 2 3 1 - -|clock 0 2|look 2 2|acquire 2 2 1 5
acquire 2 2 2 6|end 0|end 1|look 7 0|look 0 9"""
    return written(folder, events.replace("|", "\n") + "\n", "every.script")


def looks(browser, program, folder):
    """Both colour schemes, a narrow window, and the focus."""
    browser.open(page_of(program, "examples/clock.script", folder))
    browser.press("End")
    grounds = {}
    for name in ("light", "dark"):
        browser.scheme(name)
        grounds[name] = browser.run("getComputedStyle(document.body).backgroundColor")
        least = browser.run(CONTRAST)
        judge(f"{name}: each text stands out", least >= 4.5, f"contrast {least:.2f}")
    judge("light and dark differ", len(set(grounds.values())) == 2, str(grounds))
    browser.size(360, 700)
    wide = browser.run("document.documentElement.scrollWidth")
    judge("a narrow window shows all", wide <= 360, f"{wide} wide")
    browser.size(1200, 860)
    seen = []
    for _ in range(8):
        browser.press("Tab")
        seen.append(browser.run("document.activeElement.id || document.activeElement.innerText"))
        judge(f"the focus is seen on {seen[-1]}", browser.run("getComputedStyle(document.activeElement).outlineStyle") == "solid")
    judge("Tab reaches buttons, slider and lines", seen[:5] == ["first", "back", "next", "last", "slider"] and "start 0" in seen[6], str(seen))
    browser.run("document.getElementById('first').focus()")
    browser.press("Enter")
    judge("Enter on a button moves", browser.run(SHOWN)["at"].startswith("event 0 "))
    browser.run("document.getElementById('slider').focus()")
    browser.press("ArrowRight")
    judge("an arrow in the slider moves by one", browser.run(SHOWN)["at"].startswith("event 1 "))


def forged(browser, program, folder):
    """Pages that show something else than the program says, each of which has to fail."""
    script, lines = lines_of(program, "examples/first.script")
    text = page_of(program, "examples/first.script", folder).read_text(encoding="utf-8")
    for name, old, new in (("a use more", "u3,r-", "u4,r-"), ("another reply", '"freed 5 ', '"freed 6 '),
                           ("a ledger", "| 5 0 0 0", "| 5 1 0 0"), ("another line", '"hide 1 4"', '"hide 1 5"'),
                           ("a step too few", "show(at - 1)", "show(at)")):
        judge(f"a plant: {name}", old in text)
        browser.open(written(folder, text.replace(old, new)))
        judge(f"a page with {name} fails", walk(browser, script, lines))


def refused(program, folder):
    """What can't be played makes no page."""
    bad = written(folder, "start x\n", "bad.script")
    ran = made(program, bad)
    judge("a script at fault", (ran.returncode, ran.stdout, ran.stderr) == (2, "", "line 1: BadNumber\n"), ran.stderr)
    ran = made(f"{folder}/none", bad)
    judge("no program", ran.returncode == 1 and "no program" in ran.stderr, ran.stderr)


def main():
    program = os.path.abspath(sys.argv[1] if len(sys.argv) > 1 else f"{TOP}/{BUILT}")
    os.chdir(TOP)
    if not os.access(program, os.X_OK):
        print(f"no program at {program}")
        return 2
    command = shutil.which("chromium") or shutil.which("chromium-browser")
    if not command:
        print("page: SKIPPED: there is no chromium, and tests/needs.sh could install none")
        return 0
    with tempfile.TemporaryDirectory(ignore_cleanup_errors=True) as folder:
        browser, folder = Browser(command, folder), Path(folder)
        try:
            browser.size(1200, 860)
            replays(browser, program, folder)
            looks(browser, program, folder)
            judge("no fault in the page, and no request beside it", not browser.faults, "; ".join(browser.faults))
            forged(browser, program, folder)
            refused(program, folder)
        finally:
            browser.end()
    print(f"page: {passed} passed, {failed} failed, in {os.path.basename(command)}")
    return failed


sys.exit(bool(main()))
