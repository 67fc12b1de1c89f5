#!/usr/bin/env python3
"""Compares the page of bindings/web with the program of the repository: test.py [chromium|firefox ..] [NAME ..].

With names, such as `gates`, only those functions try_NAME are run. TAPRIO_PAGE names another page than bindings/web/taprio.html."""
import base64
import csv
import functools
import http.server
import json
import os
import pathlib
import random
import re
import subprocess
import sys
import tempfile
import threading
import time
import tomllib
import zlib

from bundle import module_in, modules, options, packed as packed_module
from browsers import Broken, Chromium, Firefox, wait_for

WEB = pathlib.Path(__file__).resolve().parent
TOP = WEB.parent.parent
OUT = WEB / "out"
PAGE = pathlib.Path(os.environ.get("TAPRIO_PAGE") or WEB / "taprio.html").resolve()
EXAMPLES = TOP / "examples"
SHOTS = OUT / "shots"
PROGRAM = subprocess.run([TOP / "taprio_port", "--where"], stdout=subprocess.PIPE, text=True, check=True).stdout.strip()
OPTIONS_OF = options(TOP / "examples")
PS = {"ps": 1, "ns": 10**3, "us": 10**6, "ms": 10**9, "s": 10**12}


def program(*words, text=b""):
    """What the program answers: its status, its output and its fault."""
    ran = subprocess.run([PROGRAM, *words], input=text, capture_output=True, check=False)
    return ran.returncode, ran.stdout, ran.stderr


class Server(http.server.ThreadingHTTPServer):
    """Serves the page, and notes what is asked for."""

    def __init__(self):
        class Handler(http.server.SimpleHTTPRequestHandler):
            def log_message(self, *_):
                pass

            def do_GET(self):
                self.server.asked.append(self.path)
                super().do_GET()

        self.asked = []
        super().__init__(("127.0.0.1", 0), functools.partial(Handler, directory=str(PAGE.parent)))
        threading.Thread(target=self.serve_forever, daemon=True).start()


class Page:
    """The page in a browser."""

    def __init__(self, browser, downloads, address):
        self.browser, self.downloads, self.address = browser, pathlib.Path(downloads), address
        self.compared = 0
        self.open("")

    def open(self, fragment):
        self.browser.open(self.address + fragment)
        self.settle()

    def do(self, script):
        return self.browser.evaluate(f"const at = (id) => document.getElementById(id); {script}")

    def settle(self, seconds=60):
        wait_for(self.browser, "return document.getElementById('stop').disabled && !/^(Not run yet|Running)/.test(document.getElementById('status').textContent)", seconds)

    def text(self, name):
        return self.do(f"return at('{name}').textContent")

    def click(self, selector):
        self.do(f"document.querySelector({json.dumps(selector)}).click()")

    def set(self, name, value):
        if isinstance(value, bool):
            self.do(f"at('{name}').checked = {json.dumps(value)}")
        else:
            self.do(f"at('{name}').value = {json.dumps(value)}; at('{name}').dispatchEvent(new Event('input', {{ bubbles: true }}))")

    def run(self, seconds=60):
        self.click("#run")
        self.settle(seconds)

    def choose(self, name):
        self.do(f"at('example').focus(); at('example').value = {json.dumps(name)}; at('example').dispatchEvent(new Event('change', {{ bubbles: true }}))")
        self.settle()

    def type(self, text):
        """Types a text in the place of what stands in the editor, and runs it, by the keyboard."""
        self.do("at('text').focus()")
        self.browser.press("a", control=True)
        self.browser.type(text)
        self.browser.press("Enter", control=True)
        self.settle()

    def forget(self):
        """Deletes what the browser keeps for the page, and opens it anew."""
        self.kept()
        self.do("[...document.querySelectorAll('#inputs-list button:nth-of-type(2)')].forEach((it) => it.click())")
        wait_for(self.browser, "return document.getElementById('inputs').hidden")
        self.do("addEventListener('pagehide', () => sessionStorage.clear()); sessionStorage.clear()")
        self.open("")

    def reload(self):
        self.do("window.old = true; location.reload()")
        wait_for(self.browser, "return !window.old && document.readyState === 'complete'")
        self.settle()

    def paste(self, text, field="text"):
        """Copies a text elsewhere in the page, and pastes it in the place of what stands in a field; the seconds that it takes."""
        self.copy(text)
        self.do(f"at('{field}').focus()")
        self.browser.press("a", control=True)
        begun = time.monotonic()
        self.browser.press("v", control=True)
        self.do("return 1")
        return time.monotonic() - begun

    def paste_here(self, text):
        """Copies a text elsewhere in the page, and pastes it where the cursor stands in the text."""
        place = self.do("return [at('text').selectionStart, at('text').selectionEnd]")
        self.copy(text)
        self.do(f"at('text').focus(); at('text').setSelectionRange({place[0]}, {place[1]})")
        self.browser.press("v", control=True)
        time.sleep(0.4)

    def copy(self, text):
        """Copies a text in a field of its own, which goes again."""
        self.do(f"""const it = document.createElement('textarea'); it.id = 'copied'; it.value = 'it'; document.body.append(it); it.focus(); it.select();
            it.addEventListener('copy', (event) => {{ event.clipboardData.setData('text/plain', {json.dumps(text)}); event.preventDefault(); }})""")
        self.browser.press("c", control=True)
        self.do("at('copied').remove()")

    def kept(self):
        """The names of the inputs that are kept, the newest first, once what was changed is kept."""
        time.sleep(0.6)
        return self.do("return [...document.querySelectorAll('#inputs-list input')].map((it) => it.value)")

    def saved(self, link):
        """The octets that a link of the page saves."""
        for it in self.downloads.iterdir():
            it.unlink()
        # (Chromium takes no more than ten a second)
        time.sleep(0.12)
        self.click(f"#{link}")
        end = time.monotonic() + 20
        # (a browser may begin with an empty file)
        empty_until = time.monotonic() + 1
        last = None
        while time.monotonic() < end:
            found = [it for it in self.downloads.iterdir() if it.suffix not in (".part", ".crdownload") and not it.name.startswith(".")]
            octets = found[0].read_bytes() if len(found) == 1 else None
            if octets is not None and octets == last and (octets or time.monotonic() > empty_until) and not any(it.suffix in (".part", ".crdownload") for it in self.downloads.iterdir()):
                return octets
            last = octets
            time.sleep(0.03)
        raise Broken(f"{link} saves nothing")

    def same(self, what, got, wanted):
        if got != wanted:
            raise Broken(f"{self.browser.name} {self.address} {what}: got {repr(got)[:400]}, wanted {repr(wanted)[:400]}")
        self.compared += 1

    def answers(self, what, wanted):
        """That the answers are these octets, as they are saved and as they are shown."""
        self.same(what, self.saved("save-answers"), wanted)
        shown = self.text("answers")
        # (of very many the first are shown)
        self.same(f"{what}, shown", shown, wanted.decode()[: len(shown) if len(wanted) > 200_000 else None])

    def picture(self, what, text, *words):
        # (where no moment is given the page shows a run from moment 0 on)
        begin = () if "--from" in words else ("--from", "0")
        status, drawn, _ = program("draw", *begin, *words, "--width", self.do("return at('frame').dataset.width"), text=text)
        self.same(f"{what}, status", str(status), "0")
        self.same(f"picture of {what}", self.saved("save-picture"), drawn)
        self.same(f"bars of {what}", self.do("return document.querySelectorAll('#canvas rect.f').length + Number(document.querySelector('#canvas svg').dataset.shaded)"), len(re.findall(rb'<rect class="f[ "]', drawn)))


def moment(text):
    number, unit = text.split()
    whole, _, part = number.partition(".")
    return str((int(whole + part) * PS[unit]) // 10 ** len(part))


def words_of(path, *names):
    """The words of the program for the options of an example, of these names."""
    given = {name: value for name, value in OPTIONS_OF.get(path.name, {}).items() if name in names}
    return [word for name, value in given.items() for word in ([f"--{name}"] if value == "1" else [f"--{name}", value])]


def try_script(page, path, *times):
    text = path.read_bytes()
    _, wanted, _ = program("script", *words_of(path, "summary"), text=text)
    page.answers(path.name, wanted)
    page.picture(path.name, text, *times)


def try_examples(page):
    for path in sorted(EXAMPLES.glob("*.script")):
        page.choose(path.name)
        try_script(page, path, *words_of(path, "from", "to"))
    for path in sorted(it for it in EXAMPLES.glob("*.schedules") if not it.with_suffix(".network").exists()):
        page.choose(path.name)
        page.answers(path.name, program("check", *words_of(path, "windows"), text=path.read_bytes())[1])
    page.do("at('shares').checked = true")
    page.run()
    page.answers("what is shared", program("check", "--shares", *words_of(path, "windows"), text=path.read_bytes())[1])
    page.do("at('shares').checked = false")
    for path in sorted(EXAMPLES.glob("*.streams")):
        page.choose(path.name)
        wanted = program("streams", "--with", path.with_suffix(".schedule"), text=path.read_bytes())[1]
        page.answers(path.name, wanted)
        page.click("#take")
        page.settle()
        page.answers(f"script of {path.name}", program("script", text=wanted)[1])


def replayed(*words):
    """What the program reports of the replay of the examples, and the capture that it writes."""
    with tempfile.NamedTemporaryFile() as out:
        _, report, said = program("replay", *words, EXAMPLES / "machine.script", EXAMPLES / "machine.pcap", out.name)
        return report, pathlib.Path(out.name).read_bytes(), said


def try_replay(page):
    page.choose("machine.pcap")
    for summary in (False, True):
        page.set("summary", summary)
        page.run()
        report, departures, _ = replayed("--until", "2000000000", *(["--summary"] if summary else []))
        page.answers("report", report)
        page.same("departures", page.saved("save-departures"), departures)
    page.set("until", "")
    page.set("summary", False)
    page.run()
    report, departures, _ = replayed()
    page.answers("report of a replay without an end", report)
    page.same("departures of a replay without an end", page.saved("save-departures"), departures)
    frames = program("frames", "--capture", EXAMPLES / "machine.pcap", text=(EXAMPLES / "machine.script").read_bytes())[1]
    page.same("frames of a replay without an end", page.saved("save-frames"), frames)


def try_typing(page):
    for path in sorted(EXAMPLES.glob("*.script")):
        page.choose("first.script")
        page.set("summary", "summary" in OPTIONS_OF.get(path.name, {}))
        page.type(path.read_text(encoding="utf-8"))
        try_script(page, path)


OPTIONS = {"rate": "100", "mtu": "500", "room": "1", "until": "0.3 ms", "summary": True}


def try_options(page):
    path = EXAMPLES / "summary.script"
    page.choose(path.name)
    for name, value in OPTIONS.items():
        page.set(name, value)
    page.run()
    words = ["--rate", "100", "--mtu", "500", "--room", "1"]
    page.answers("options", program("script", *words, "--until", "300000000", "--summary", text=path.read_bytes())[1])
    page.picture("options", path.read_bytes(), *words, "--to", "300000000")
    page.set("from", "1.5 us")
    page.set("to", "20us")
    page.click("#draw")
    page.settle()
    page.picture("a window", path.read_bytes(), *words, "--from", "1500000", "--to", "20000000")


def try_worked(page):
    """The worked scripts, whose answers were not written by the program."""
    page.choose("first.script")
    for case in (EXAMPLES / "worked.txt").read_text(encoding="utf-8").split("====\n")[:40]:
        script, _, wanted = case.partition("----\n")
        page.set("text", script)
        page.run()
        page.same("worked script", page.text("answers"), wanted)


def try_faults(page):
    text = "clock 5\nframe 1 0 60\nclok 7\nclock 9\n"
    page.choose("first.script")
    page.type(text)
    status, wanted, said = program("script", text=text.encode())
    page.same("status", str(status), "3")
    page.answers("a fault", wanted)
    page.same("fault", f"taprio_port: script {page.text('fault-text')}".lower().split(",")[0].encode() + b"\n", said.lower())
    page.same("mark", str(page.do("return !document.querySelector('#editor .mark').hidden && at('text').getAttribute('aria-invalid') === 'true'")), "True")
    page.same("no picture", str(page.do("return at('frame').hidden && at('save-picture').hidden")), "True")
    page.click("#go")
    page.same("line", page.do("const it = at('text'); return document.activeElement === it ? it.value.slice(it.selectionStart, it.selectionEnd) : ''"), "clok 7")
    page.browser.shoot(SHOTS / f"{page.browser.name}-fault.png")
    for name, value in (("mtu", "10"), ("room", "0"), ("until", "9223372036854775807001"), ("until", "soon"), ("to", "0")):
        page.choose("first.script")
        page.set(name, value)
        page.run()
        page.same(f"{name} {value}", page.text("fault-text").split(": wanted is ")[0], f"bad value of --{name}")
        page.same("invalid", page.do(f"return at('{name}').getAttribute('aria-invalid')"), "true")


REFUSED = """# a comment that goes on \\
tc qdisc
tc qdisc replace dev eth0 root taprio num_tc 8 map 0 1 2 3 4 5 6 7 \\
  sched-entry S 01 300000
 tc qdisc replace dev eth0 root taprio num_tc 2
frame 1 0 60
tc qdisc replace dev eth0 root taprio num_tc 8 map 0 1 2 3 4 5 6 7 sched-entry S 01 4
"""


def try_refused(page):
    page.choose("first.script")
    page.type(REFUSED)
    page.same("refused", page.do("return [...document.querySelectorAll('#refused-list button')].map((it) => it.textContent)"),
              ["Line 5: tc-fault MissingWord map", "Line 7: refused IntervalTooShort 0"])
    page.click("#refused-list button")
    page.same("line of a command", page.do("const it = at('text'); return it.value.slice(it.selectionStart, it.selectionEnd)"), REFUSED.split("\n")[4])


def window(page):
    return [moment(page.do(f"return at('{name}').value")) for name in ("from", "to")]


def try_zoom(page):
    page.choose("schedule.script")
    text = (EXAMPLES / "schedule.script").read_bytes()
    page.click("[data-step=whole]")
    page.settle()
    steps = {"nearer": (25, 75), "later": (50, 100), "earlier": (25, 75), "farther": (0, 100)}
    for step, wanted in steps.items():
        page.click(f"[data-step={step}]")
        page.settle()
        begin, end = window(page)
        near = all(abs(int(got) - 10**6 * it) < 10**6 for got, it in zip((begin, end), wanted))
        page.same(f"time after {step}", near, True)
        page.picture(f"zoom {step}", text, "--from", begin, "--to", end)
    page.click("[data-step=whole]")
    page.settle()
    page.picture("the whole run", text)
    try_gestures(page, text)


def gesture(page, what, wanted, text):
    """That the picture shows about this time after what a pointer did, in microseconds, and is that of the program."""
    page.settle()
    begin, end = (int(it) for it in window(page))
    page.same(f"{what}: {begin} to {end}", all(abs(got - 10**6 * it) < 2 * 10**6 for got, it in zip((begin, end), wanted)), True)
    page.picture(what, text, "--from", str(begin), "--to", str(end))


def try_gestures(page, text):
    """The wheel, a drag, a stretch and keys, each about the middle of the picture."""
    page.do("at('canvas').scrollIntoView({ block: 'center' })")
    left, top, width, height = page.do("const it = at('canvas').getBoundingClientRect(); return [it.left, it.top, it.width, it.height]")
    x = {share: left + 64 + (width - 96) * share for share in (0.2, 0.4, 0.5)}
    middle = top + height / 2
    wheel = "const turned = (it) => at('frame').dispatchEvent(new WheelEvent('wheel', {{ deltaY: -100, clientX: {}, clientY: {}, bubbles: true, cancelable: true, ...it }}));".format(x[0.5], middle)
    page.same("a wheel alone scrolls the page, and is told how to zoom", page.do(f"{wheel} return [turned({{}}), at('from').value, at('tip').innerText, /Ctrl and the wheel/.test(at('zoom-hint').textContent)]"),
              [True, "", "Ctrl and the wheel zoom", True])
    page.same("a wheel with Ctrl does not", page.do(f"{wheel} return turned({{ ctrlKey: true }})"), False)
    wait_for(page.browser, "return document.getElementById('from').value !== ''")
    gesture(page, "the wheel", (10, 90), text)
    page.browser.drag((x[0.4], middle), (x[0.2], middle))
    wait_for(page.browser, "return !document.getElementById('from').value.startsWith('10 ')")
    gesture(page, "a drag", (26, 106), text)
    page.do("at('frame').focus()")
    page.browser.press("Home")
    wait_for(page.browser, "return document.getElementById('from').value === ''")
    page.settle()
    page.do(f"""const send = (kind, x) => at('frame').dispatchEvent(new PointerEvent(kind, {{ pointerId: 1, button: 0, shiftKey: true, clientX: x, clientY: {middle}, bubbles: true }}));
        at('frame').setPointerCapture = () => {{}}; send('pointerdown', {x[0.2]}); send('pointermove', {x[0.4]}); send('pointerup', {x[0.4]}); delete at('frame').setPointerCapture""")
    wait_for(page.browser, "return document.getElementById('from').value !== ''")
    gesture(page, "a stretch", (20, 40), text)
    page.browser.shoot(SHOTS / f"{page.browser.name}-zoomed.png")


def try_keys(page):
    """Keys, two fingers and the sign of micro: each changes the time as it should."""
    page.choose("schedule.script")
    text = (EXAMPLES / "schedule.script").read_bytes()
    page.click("[data-step=whole]")
    page.settle()
    key = "at('frame').dispatchEvent(new KeyboardEvent('keydown', {{ key: '{}', shiftKey: {}, bubbles: true }}))"
    for name, shift, wanted in (("+", "false", (25, 75)), ("ArrowRight", "true", (50, 100)), ("ArrowLeft", "true", (25, 75)), ("-", "false", (0, 100))):
        page.do(key.format(name, shift))
        gesture(page, f"the key {name}", wanted, text)
    page.do(key.format("ArrowRight", "false"))
    page.same("the first frame", page.do("return at('tip').innerText").split(",")[0], "Frame 1")
    page.do(key.format("ArrowRight", "false"))
    page.same("the next frame", page.do("return at('tip').innerText").split(",")[0], "Frame 2")
    left, top, width, height = page.do("const it = at('canvas').getBoundingClientRect(); return [it.left, it.top, it.width, it.height]")
    x = {share: left + 64 + (width - 96) * share for share in (0.3, 0.4, 0.6, 0.7)}
    page.do(f"""const send = (kind, id, x) => at('frame').dispatchEvent(new PointerEvent(kind, {{ pointerId: id, pointerType: 'touch', button: 0, clientX: x, clientY: {top + height / 2}, bubbles: true }}));
        at('frame').setPointerCapture = () => {{}}; send('pointerdown', 1, {x[0.4]}); send('pointerdown', 2, {x[0.6]}); send('pointermove', 1, {x[0.3]}); send('pointermove', 2, {x[0.7]});
        send('pointerup', 1, {x[0.3]}); send('pointerup', 2, {x[0.7]}); delete at('frame').setPointerCapture""")
    gesture(page, "two fingers", (25, 75), text)
    page.do(f"for (let k = 0; k < 2; k += 1) at('frame').dispatchEvent(new WheelEvent('wheel', {{ deltaY: -50, ctrlKey: true, clientX: {x[0.4] / 2 + x[0.6] / 2}, clientY: {top + height / 2}, bubbles: true, cancelable: true }}))")
    gesture(page, "two turns of a wheel at once", (30, 70), text)
    page.do(f"at('frame').dispatchEvent(new WheelEvent('wheel', {{ deltaY: 22.3, ctrlKey: true, clientX: {x[0.4] / 2 + x[0.6] / 2}, clientY: {top + height / 2}, bubbles: true, cancelable: true }}))")
    gesture(page, "two fingers on a touchpad", (25, 75), text)


def try_micros(page):
    """The micro sign, the Greek letter mu and the letter u are one: in each field of a time and in a table."""
    page.choose("schedule.script")
    text = (EXAMPLES / "schedule.script").read_bytes()
    for sign in ("\u00b5s", "\u03bcs", "us"):
        page.choose("schedule.script")
        page.set("until", f"50 {sign}")
        page.run()
        page.answers(f"until 50 {sign}", program("script", "--until", "50000000", text=text)[1])
        page.set("from", f"1.5{sign}")
        page.set("to", f"30 {sign}")
        page.click("#draw")
        page.settle()
        page.picture(f"from and to in {sign}", text, "--from", "1500000", "--to", "30000000")
        page.choose("planned.streams")
        page.type(f"# 5 {sign}\nstream 1 7 60 250{sign} 20{sign} 3\n")
        page.same(f"a table in {sign}", page.do("return at('text').value"), f"# 5 {sign}\nstream 1 7 60 250us 20us 3\n")
        page.same(f"{sign} is taken", page.text("status")[:4], "Done")


# Words that are moments, and words that are none or out of their limits.
MOMENTS = ["0", "007", "1.5us", "0.000001us", "1.0000005us", "1.", ".5us", "1.us", "1.5", "1e3", "-1", "+1", "1us2", "1US", "1m", "0x10", "1,5us", "1 .5us",
           "1.000000000000s", "1.0000000000000s", "9223372036854775807000", "9223372036854775807001", "9223372036.854775807s", "9223372036.854775807001s"]


def try_moments(page):
    """The moments of the options are those that the program reads."""
    text = (EXAMPLES / "first.script").read_bytes()
    page.choose("first.script")
    for word in MOMENTS:
        page.set("until", word)
        page.run()
        status, answers, said = program("script", f"--until={word}", text=text)
        page.same(f"a fault of until {word}", page.do("return !at('fault').hidden"), status != 0)
        if status:
            page.same(f"until {word}", f"taprio_port: {page.text('fault-text').split(': wanted is ')[0]}\n", said.decode())
        else:
            page.answers(f"until {word}", answers)


def random_gates(chance):
    """A script of frames and schedules, some of them replaced or deleted before they come into force, and the options of its port."""
    rate, mtu = chance.choice((100, 1000, 1000, 2500, 10000)), chance.choice((500, 1500, 1500, 9000))
    unit = (mtu + 42) * 8_000_000 // rate
    lines, now = [], 0
    for frame in range(chance.randrange(8, 50)):
        if chance.random() < 0.12 or not frame:
            entries = " ".join(f"sched-entry S {chance.randrange(16):x} {chance.randrange(unit // 4, 3 * unit) // 1000 + 500}" for _ in range(chance.randrange(1, 5)))
            cycle = chance.choice(("", "", f"cycle-time {chance.randrange(unit, 9 * unit) // 1000 + 1000}"))
            extension = chance.choice(("", f"cycle-time-extension {chance.randrange(9 * unit) // 1000}"))
            base = (now + chance.randrange(6 * unit)) // 1000
            lines.append(chance.choice(("tc qdisc del dev base-time root", *[f"tc qdisc replace dev x root taprio num_tc 4 map 0 1 2 3 base-time {base} {cycle} {extension} {entries}"] * 5)))
        if chance.random() < 0.6:
            now += chance.randrange(1, 2 * unit)
            lines.append(f"clock {now}")
        lines.append(f"frame {frame} {chance.randrange(4)} {chance.choice((60, 300, mtu))}")
    return "\n".join(lines) + f"\nclock {now + chance.randrange(1, 20 * unit)}\n", rate, mtu


# What the page's own reasons are of the frames of a run that wait, by the same functions.
REASONS = """
const { rate, mtu } = PORT; const read = readScript(SCRIPT); const frames = framesOf(read.arrivals, ANSWERS, []);
const run = runOf(frames, historyOf(read.commands, ANSWERS, { rate, mtu }), rate, read.last);
const waits = frames.filter((it) => it.fate === 'left' || it.wait > 0n).map((it) => ({ id: it.id, ...partsOf(run, it) }));
return JSON.stringify(waits, (name, it) => (name === 'frame' ? it.id : typeof it === 'bigint' ? String(it) : it))
"""


def with_queries(text, moments):
    """A script with a report at each of these moments."""
    lines, left = [], sorted(moments)
    for line in text.splitlines():
        if line.startswith("clock"):
            upto = int(line.split()[1])
            while left and left[0] < upto:
                lines += [f"clock {left.pop(0)}", "query"]
        lines.append(line)
    return "\n".join([*lines, *(line for it in left for line in (f"clock {it}", "query"))]) + "\n"


def untrue(part, frame, table, masks):
    """What is not true of a reason, by the frames of the run and by the gates that the port reports."""
    begin, end = int(part["from"]), int(part["to"])
    def is_open(moment):
        return masks[moment] >> frame["class"] & 1
    if part["kind"] == "closed":
        return any(is_open(it) for it in (begin, (begin + end) // 2, end - 1))
    if part["kind"] == "wire":
        named = table[part["frame"]]
        return named["start"] is None or named["start"] > begin or named["end"] < end
    has, need = int(part["has"]), int(part["need"])
    named = frame if part["kind"] == "short" else table[part["frame"]]
    earlier = [it for it in table.values() if it["class"] == named["class"] and it["place"] < named["place"]]
    return any([
        not is_open(begin), not is_open(begin + has - 1), is_open(begin + has), has >= need, end > begin + has, named["class"] != frame["class"],
        named["start"] is not None and (named["end"] - named["start"] != need or named["start"] < end), any(it["start"] is None or it["start"] > begin for it in earlier),
        part["kind"] == "behind" and named["place"] >= frame["place"]])


def try_reasons(page):
    """For 200 random runs: the reasons why a frame waits cover its wait, and each is true, by the port's table of frames and by its reports."""
    chance, seen, seen_list = random.Random(78), {}, []
    source = "".join(modules(it, seen_list) for it in ("why.js", "script.js", "frames.js"))
    for number in range(200):
        text, rate, mtu = random_gates(chance)
        words = ["--rate", str(rate), "--mtu", str(mtu)]
        answers = program("script", *words, text=text.encode())[1].decode()
        rows = [it.split(",") for it in program("frames", *words, text=text.encode())[1].decode().splitlines()[1:]]
        places = {it: place for place, it in enumerate(re.findall(r"^frame (\d+)", text, re.M))}
        table = {it[0]: {"place": places[it[0]], "class": int(it[1]), "arrival": int(it[3]), **{name: int(it[at]) if it[at] else None for name, at in (("start", 4), ("end", 5))}, "fate": it[7]} for it in rows if it[7] in ("sent", "left")}
        last = max(int(it) for it in re.findall(r"^clock (\d+)", text, re.M))
        script = f"const [PORT, SCRIPT, ANSWERS] = {json.dumps([{'rate': rate, 'mtu': mtu}, text, answers])};"
        waits = json.loads(page.do(source + script + REASONS))
        page.same(f"frames that wait, of {text!r}", sorted(it["id"] for it in waits), sorted(key for key, it in table.items() if it["start"] != it["arrival"]))
        moments = {it for wait in waits for part in wait["parts"] for begin, end in ((int(part["from"]), int(part["to"])),)
                   for it in (begin, (begin + end) // 2, end - 1, *((begin + int(part["has"]) - 1, begin + int(part["has"])) if "has" in part else ()))}
        told = program("script", *words, text=with_queries(text, moments).encode())[1].decode()
        masks = {int(moment): int(mask, 16) for moment, mask in re.findall(r"^report now (\d+) mask (\w+)", told, re.M)}
        for wait in waits:
            frame, parts = table[wait["id"]], wait["parts"]
            ends = [frame["arrival"], *(int(it["to"]) for it in parts)]
            page.same(f"frame {wait['id']} of {text!r}", [wait["whole"], ends[-1], [int(it["from"]) for it in parts]], [True, last if frame["start"] is None else frame["start"], ends[:-1]])
            page.same(f"frame {wait['id']} of {text!r}", [it for it in parts if untrue(it, frame, table, masks)], [])
            for it in parts:
                seen[it["kind"]] = seen.get(it["kind"], 0) + 1
    page.same(f"reasons of each kind: {seen}", all(seen.get(it, 0) > 100 for it in ("wire", "closed", "short", "behind")), True)


WHY_SCHEDULE = "Frame 1 waits 13.336 us: its gate closes too soon (it needs 12.304 us, and has 12.303 us) until 12.303 us; its gate is closed until 13.336 us."
# A frame that is longer than each window of its class, over 300 cycles.
NEVER = """tc qdisc replace dev x root taprio num_tc 2 map 0 1 base-time 0 sched-entry S 02 5000 sched-entry S 01 15000
clock 20000000
frame 1 1 1514
frame 2 0 60
clock 6000000000
"""


def try_why(page):
    """A click on a frame tells why it waits: in the table, in the picture, and in the answers."""
    page.choose("schedule.script")
    page.do("at('frames-box').open = true")
    wait_for(page.browser, "return document.querySelectorAll('#frames-table tbody tr').length === 2")
    page.same("nothing is told before", page.text("wait-why"), "")
    page.do("[...document.querySelectorAll('#frames-table tbody tr')].find((it) => it.row.id === '1').click()")
    page.same("a row tells it", page.text("wait-why"), WHY_SCHEDULE)
    page.do("[...document.querySelectorAll('#frames-table tbody tr')].find((it) => it.row.id === '2').click()")
    page.same("a frame that does not wait", page.text("wait-why"), "Frame 2 does not wait.")
    page.do("at('canvas').scrollIntoView({ block: 'center' })")
    page.do(f"{OVER} window.tipped = over([...document.querySelectorAll('#canvas path.w')].find((it) => /H/.test(it.getAttribute('d'))))")
    page.same("a tip tells it", page.do("return window.tipped.split('\\n').at(-1)"), WHY_SCHEDULE)
    place = page.do("const r = [...document.querySelectorAll('#canvas path.w')].find((it) => /H/.test(it.getAttribute('d'))).getBoundingClientRect(); return [(r.left + r.right) / 2, (r.top + r.bottom) / 2]")
    page.browser.drag(place, place)
    page.same("a click in the picture tells it", page.text("wait-why"), WHY_SCHEDULE)
    page.browser.drag((1, 1), (1, 1))
    page.browser.shoot(SHOTS / f"{page.browser.name}-why.png")
    page.do("at('origin').value = '0'; at('origin').dispatchEvent(new Event('change'))")
    page.same("counted from moment 0", "until 32.303 us" in page.text("wait-why"), True)
    page.choose("priorities.script")
    page.same("nothing is told of another run", page.text("wait-why"), "")
    page.do("at('text').focus()")
    page.type(NEVER)
    page.do("[...document.querySelectorAll('#frames-table tbody tr')].find((it) => it.row.id === '1').click()")
    first = "Frame 1 still waits at the end of the run: its gate closes too soon (it needs 12.304 us, and has 5 us) until 5 us; its gate is closed until 20 us;"
    page.same("over 300 cycles", [page.text("wait-why")[: len(first)], page.text("wait-why")[-12:]], [first, "; and so on."])
    page.do("at('frames-box').open = false")


def frames_of_table(table, script):
    """What the program makes of the frames of a table of streams among the lines of a script, run to a millisecond after its last line."""
    made = program("streams", "--with", EXAMPLES / script, text=(EXAMPLES / table).read_bytes())[1]
    last = max(int(it) for it in re.findall(rb"^clock (\d+)$", made, re.M))
    return program("frames", "--by-stream", EXAMPLES / table, "--until", str(last + 10**9), text=made)[1]


def try_frames(page):
    """The table of frames against the answers, the frame that a pointer is over, and the way from one to the other."""
    page.choose("schedule.script")
    page.do("at('frames-box').open = true")
    wait_for(page.browser, "return document.querySelectorAll('#frames-table tbody tr').length === 2")
    page.same("frames", page.saved("save-frames"), program("frames", text=(EXAMPLES / "schedule.script").read_bytes())[1])
    page.click("#frames-table tbody tr")
    page.same("marked in the picture", page.do("return !!document.querySelector('#canvas .ring')"), True)
    page.same("marked in the answers", page.do("return String(getSelection())"), "start 1 class 7 at 33336000 end 45640000")
    page.same("tip", page.do("return at('tip').innerText"), "Frame 1, class 7\n1514 octets, arrives 0\nstarts 13.336 us, ends 25.64 us\n" + WHY_SCHEDULE)
    page.click("#frames-table th button")
    page.click("#frames-table th button")
    page.same("sorted", page.do("return document.querySelector('#frames-table tbody td').textContent"), "2")
    page.do("at('frame').focus()")
    page.browser.press("Home")
    page.settle()
    page.do("const r = document.querySelector('#canvas rect.f').getBoundingClientRect(); at('frame').dispatchEvent(new PointerEvent('pointermove', { clientX: r.left + 1, clientY: r.top + 3, bubbles: true }))")
    page.same("tip of a bar", page.do("return at('tip').innerText").split("\n")[0], "Frame 2, class 0")
    page.set("ps", True)
    page.do("at('ps').dispatchEvent(new Event('change'))")
    page.same("picoseconds", page.do("return document.querySelector('#classes tbody tr').innerText").split()[-1], "13336000")
    page.do("at('ps').click()")
    page.same("bitmap", page.saved("save-png")[:8], b"\x89PNG\r\n\x1a\n")
    page.choose("planned.streams")
    page.same("frames of streams", page.saved("save-frames"), frames_of_table("planned.streams", "planned.schedule"))
    page.choose("extension.script")
    page.same("no mark of another run", page.do("return document.querySelectorAll('#canvas .ring').length"), 0)
    page.same("waits for ever", page.do("return document.querySelector('#canvas .l')?.textContent"), "1 waits ▸")


def random_drops(chance):
    """A script in which frames are dropped for each reason, and the room of its queues."""
    kinds = " ".join(str(chance.randrange(4)) for _ in range(16))
    lines = [f"tc qdisc replace dev eth0 root taprio num_tc 4 map {kinds} sched-entry S {chance.randrange(1, 16):x} {chance.randrange(20, 200)}000 sched-entry S 0f 60000"] * chance.randrange(2)
    now = 0
    for frame in range(chance.randrange(3, 60)):
        if chance.random() < 0.3:
            now += chance.randrange(1, 40_000_000)
            lines.append(f"clock {now}")
        lines.append(f"frame {frame} {chance.randrange(8)} {chance.choice((60, 600, 1514, 59, 9000))}")
    return "\n".join(lines) + f"\nclock {now + chance.randrange(0, 300_000_000)}\n", str(chance.randrange(1, 5))


def summed(answers):
    """The summary's numbers of each class, as the page saves them."""
    found = re.findall(rb"^summary class (\d) queued (\d+) sent (\d+) dropped (\d+) octets \d+ least (\S+) mean (\S+) greatest (\S+)", answers, re.M)
    rows = [[kind, queued, sent, dropped, b"%d" % (int(queued) - int(sent)), *(b"" if it == b"-" else it for it in waits)] for kind, queued, sent, dropped, *waits in found]
    return b"".join(b",".join(it) + b"\n" for it in reversed(rows))


def try_drops(page):
    """The numbers of classes against the program's summary, and the class of each frame against its table, for runs with drops."""
    chance = random.Random(20)
    page.choose("first.script")
    page.do("at('frames-box').open = true")
    for number in range(100):
        text, room = random_drops(chance) if number else ("frame 1 7 600\n" * 14 + "clock 100000000\n", "2")
        page.set("room", room)
        page.set("text", text)
        page.run()
        table = program("frames", "--room", room, text=text.encode())[1].decode().splitlines()[1:]
        page.same(f"numbers of {text!r}", page.do("return at('classes').hidden") or page.saved("save-table").partition(b"\n")[2], summed(program("script", "--summary", "--room", room, text=text.encode())[1]) or True)
        rows = page.do("return [...document.querySelectorAll('#frames-table tbody tr')].map((it) => [...it.cells].map((cell) => cell.textContent))")
        page.same(f"classes of {text!r}", sorted([*it[:3], it[7]] for it in rows), sorted([it[0], it[1] or "–", it[2], it[7]] for it in (row.split(",") for row in table)))
    page.choose("first.script")
    page.do("at('frames-box').open = false")


TODAY = 1764403200 * 10**12 # a base time of our days, in picoseconds
DATED = """tc qdisc replace dev eth0 root taprio num_tc 2 map 0 1 queues 1@0 1@1 base-time 1764403200000000000 \\
  sched-entry S 01 300000 sched-entry S 02 300000
frame 1 0 600
clock 20000000
frame 2 1 600
clock 40000000
"""


def try_dates(page):
    """A base time of our days: time counts from the frames, the verdict says that no schedule is in force, and the clock is set there."""
    ticks = "return [...document.querySelectorAll('#canvas text.m')].map((it) => it.textContent)"
    page.choose("first.script")
    for base, change in ((0, 250_000_000), (TODAY // 1000, TODAY)):
        alone = f"tc qdisc replace dev eth0 root taprio num_tc 2 map 0 1 base-time {base} sched-entry S 02 50000 sched-entry S 01 200000\n"
        page.set("text", alone)
        page.run()
        page.picture(f"two cycles of a schedule alone, base time {base}", alone.encode(), "--from", str(change), "--to", str(change + 500_000_000))
        page.same("counted from its change", page.do(ticks)[0], "0")
    page.choose("first.script")
    page.type(DATED)
    page.same("the marks of time", page.do(f"{ticks}.slice(0, 2)"), ["0", "10 us"])
    wanted = "2 frames sent, longest wait 0 (frame 1, class 0). No schedule is in force yet: it comes into force at 1764403200 s, 2025-11-29 08:00:00 if counted from 1970, and the run ends at 40 us. Until then every gate is open."
    page.same("not in force", page.text("verdict"), wanted)
    page.browser.shoot(SHOTS / f"{page.browser.name}-not-in-force.png")
    page.click("#set-clock")
    page.settle()
    moved = DATED.replace("frame 1", f"clock {TODAY}\nframe 1").replace("clock 20000000", f"clock {TODAY + 20000000}").replace("clock 40000000", f"clock {TODAY + 40000000}")
    page.same("the clock is set", page.do("return at('text').value"), moved)
    page.answers("the clock is set", program("script", text=moved.encode())[1])
    page.same("it is in force", ["No schedule is in force" in page.text("verdict"), page.do("return at('set-clock').checkVisibility()")], [False, False])
    page.same("marks count from the change", page.do(f"{ticks}.filter((it) => /^(0|[0-9]+ us)$/.test(it)).length") >= 4, True)
    page.same("bands of the two classes before it, of which one stays open, and that of the legend", page.do("return document.querySelectorAll('#canvas rect.o').length"), 3)
    page.browser.shoot(SHOTS / f"{page.browser.name}-in-force.png")
    page.do("at('text').focus()")
    page.browser.press("z", control=True)
    wait_for(page.browser, f"return document.getElementById('text').value === {json.dumps(DATED)}")
    page.settle()
    page.type("tc qdisc replace dev eth0 root taprio num_tc 1 map 0 base-time 9000000000000000000 sched-entry S 01 300000\nframe 1 0 60\nclock 20000000\n")
    page.same("a late date", page.text("verdict").partition("yet: ")[2].partition(", and")[0], "it comes into force at 9000000000 s, 2255-03-14 16:00:00 if counted from 1970")
    octets = bytearray((EXAMPLES / "machine.pcap").read_bytes())
    at = 24
    while at < len(octets):
        seconds = int.from_bytes(octets[at:at + 4], "little")
        octets[at:at + 4] = (seconds + 1764403200).to_bytes(4, "little")
        at += 16 + int.from_bytes(octets[at + 8:at + 12], "little")
    page.choose("machine.pcap")
    give(page, "dated.pcap", bytes(octets))
    page.click("[data-step=whole]")
    page.settle()
    page.same("the whole of a replay", page.do(f"{ticks}.every((it) => /^-?(0|[0-9.]+ (us|ms))$/.test(it))"), True)
    page.same("its frames are drawn apart", page.do("return document.querySelectorAll('#canvas rect.f').length") > 10, True)
    page.browser.shoot(SHOTS / f"{page.browser.name}-dated-replay.png")


def try_forgotten(page):
    """The time that an example shows goes with its text, and the verdict of another run with a value that is refused."""
    page.choose("schedule.script")
    page.same("the example's time", page.do("return at('to').value !== ''"), True)
    page.do("const it = at('text'); it.focus(); it.setSelectionRange(it.value.length, it.value.length)")
    page.browser.type("clock 900000000\nframe 3 0 60\nclock 990000000\n")
    page.browser.press("Enter", control=True)
    page.settle()
    page.same("another text is shown whole", page.do("return at('to').value"), "")
    page.picture("a third frame", page.do("return at('text').value").encode())
    page.same("the third frame is drawn", page.do("return [...document.querySelectorAll('#frames-table tbody tr')].length >= 0 && /^3 frames sent/.test(at('verdict').textContent)"), True)
    page.set("until", "soon")
    page.run()
    page.same("a refused value", page.text("fault-text").split(":")[0], "bad value of --until")
    page.same("no verdict of another run", [page.text("verdict"), page.do("return at('results').checkVisibility()")], ["", False])
    page.set("until", "")
    page.run()
    page.same("and it is there again", [page.text("verdict")[:13], page.do("return at('results').checkVisibility()")], ["3 frames sent", True])


# The middle of a part of the picture, where the pointer goes.
OVER = """const over = (it, down = 0.5) => { const r = it.getBoundingClientRect();
    at('frame').dispatchEvent(new PointerEvent('pointermove', { clientX: (r.left + r.right) / 2, clientY: r.top + down * r.height, bubbles: true })); return at('tip').hidden ? '' : at('tip').innerText; };"""


def try_tips(page):
    """What is told of a wait and of a band, from when time counts, and the way from a line of the answers to its frame."""
    page.choose("schedule.script")
    page.click("[data-step=whole]")
    page.settle()
    wait = "[...document.querySelectorAll('#canvas path.w')].find((it) => /H/.test(it.getAttribute('d')))"
    page.same("tip of a wait", page.do(f"{OVER} return over({wait})").split("\n")[0], "Frame 1, class 7")
    page.same("tip of a band", page.do(f"{OVER} return over(document.querySelector('#canvas rect.o'))").split("\n")[0], "Class 0 is open")
    for origin, tick, arrives in (("0", "20 us", "arrives 20 us"), ("20000000", "20 us", "arrives 0")):
        page.do(f"at('origin').value = '{origin}'; at('origin').dispatchEvent(new Event('change'))")
        page.same(f"marks counted from {origin}", page.do("return [...document.querySelectorAll('#canvas text.m')].map((it) => it.textContent)").count(tick), 1)
        page.same(f"tip counted from {origin}", page.do(f"{OVER} return over({wait})").split("\n")[1].split(", ")[1], arrives)
    page.do("at('answers').scrollIntoView({ block: 'center' })")
    page.do("""const text = at('answers').firstChild; const begin = text.data.indexOf('start 2'); const range = document.createRange();
        range.setStart(text, begin); range.setEnd(text, begin + 7); const r = range.getBoundingClientRect(); getSelection().removeAllRanges();
        at('answers').dispatchEvent(new MouseEvent('click', { clientX: r.left + 20, clientY: (r.top + r.bottom) / 2, bubbles: true }))""")
    page.same("the frame of a line", page.do("return [at('tip').firstChild.textContent, !!document.querySelector('#canvas .ring')]"), ["Frame 2, class 0", True])
    page.same("classes", page.saved("save-table").decode(), "class,queued,sent,dropped,left,least_ps,mean_ps,greatest_ps\n7,1,1,0,0,13336000,13336000,13336000\n0,1,1,0,0,0,0,0\n")
    page.choose("machine.pcap")
    page.same("marks of cycles", page.do("return document.querySelectorAll('#canvas path.y').length"), 6)
    page.choose("planned.streams")
    page.set("rate", "100")
    page.click("#take")
    page.settle()
    page.same("the rate goes with the script", page.do("return [at('form').elements.job.value, at('rate').value]"), ["script", "100"])


def try_pictures(page):
    """Pictures of a check, of each of its schedules, and of a replay."""
    page.choose("windows.schedules")
    page.same("a table that is not too wide for itself", page.do("return at('classes').scrollWidth <= at('classes').clientWidth"), True)
    told = (EXAMPLES / "windows.answers").read_text(encoding="utf-8").count("\nwindow ")
    page.same("windows", page.do("return document.querySelectorAll('#classes tbody tr').length"), told)
    page.same("bands", page.do("return document.querySelectorAll('#canvas rect.o').length") > 3, True)
    page.do("at('which').value = '1'; at('which').dispatchEvent(new Event('change'))")
    page.settle()
    page.same("bands of the second", page.do("return document.querySelectorAll('#canvas rect.o').length") > 3, True)
    page.choose("machine.pcap")
    page.same("frames of a replay", page.do("return document.querySelectorAll('#canvas rect.f').length") > 10, True)
    page.same("frames that are told", page.text("frames-name"), "Frames (12)")


# Windows of class 7 in the schedule of drive.bounds, and tables of frames that come late or at any moment: what is said, and how many
# streams have a bar.
LATE = (
    ("13000", "stream 1 7 60 250us 20us 1 jitter 5us deadline 300us\nstream 100 7 200 1ms any 1 shortest 60\n",
     "Every deadline is met, for ever. Class 7: at most 2 frames ever wait at once, whenever its frames come.", 2),
    ("13000", "stream 1 7 60 250us 20us 1 jitter 5us\n", "1 stream, no deadlines. Class 7: at most 1 frame ever waits at once, whenever its frames come.", 1),
    ("800", "stream 1 7 100 250us any 1 deadline 1ms\n",
     "0 of 1 deadlines are met for ever; missed: stream 1. Class 7 is stuck: no window takes its longest frame.", 0),
)


def try_bounds(page):
    """The two examples of bounds against the program, their table and their bars."""
    for name, verdict, unknown in (("drive.bounds", "Every deadline is met, for ever.", 0), ("drive_short.bounds", "2 of 4 deadlines are met for ever; not known: streams 200, 300.", 2)):
        page.choose(name)
        with tempfile.NamedTemporaryFile() as table:
            table.write(page.do("return at('beside').value").encode())
            table.flush()
            wanted = program("bounds", table.name, text=page.do("return at('text').value").encode())[1]
        page.answers(name, wanted)
        page.same(f"verdict of {name}", page.text("verdict")[: len(verdict)], verdict)
        page.same(f"rows of {name}", page.do("return document.querySelectorAll('#classes tbody tr').length"), 4)
        page.same(f"bars of {name}", page.do("return document.querySelectorAll('#canvas rect.f').length"), 4 - unknown)
        page.same(f"not known in {name}", page.do("return document.querySelectorAll('#canvas .unknown').length"), unknown)
        page.same(f"labels of {name} that cover a deadline", page.do(COVERED), [])
        drawn = page.saved("save-picture")
        page.same(f"saved picture of {name}", [drawn[:4], drawn.count(b'class="f"'), b"var(" in drawn], [b"<svg", 4 - unknown, False])
        page.browser.shoot(SHOTS / f"{page.browser.name}-{name}.png")
    page.choose("drive.bounds")
    schedule = page.do("return at('text').value")
    for window, table, said, bars in LATE:
        page.set("text", schedule.replace("S 80 13000", f"S 80 {window}"))
        page.set("beside", table)
        page.run()
        with tempfile.NamedTemporaryFile() as file:
            file.write(table.encode())
            file.flush()
            page.answers(f"bounds of {table!r}", program("bounds", file.name, text=page.do("return at('text').value").encode())[1])
        page.same(f"verdict of {table!r}", page.text("verdict")[: len(said)], said)
        page.same(f"bars of {table!r}", page.do("return document.querySelectorAll('#canvas rect.f').length"), bars)
        page.same(f"what the bars of {table!r} count from", "nominal moment" in page.text("picture-status"), bars > 0)
    page.set("beside", "stream 1 7 60 250us 20us\n")
    page.run()
    page.same("a fault of the table", page.do("return !document.querySelector('#beside-editor .mark').hidden"), True)
    page.same("what is expected", "stream FIRST_ID PRIORITY" in page.text("fault-hint"), True)
    page.same("where it is", page.text("fault-text"), "Table: Line 1: WordCount, the line has too few or too many words.")
    for name, text, said in (("beside", "", "The table has no stream."), ("text", "tc foo\n", "The schedule is not taken."), ("text", "", "No schedule stands there")):
        page.choose("drive.bounds")
        page.set(name, text)
        page.run()
        page.same(f"bounds of {text!r}", page.text("verdict")[: len(said)], said)


def chosen_rows(page, name):
    """The rows of a table of the page, each as its cells have it."""
    return page.do(f"return [...document.querySelectorAll('#{name} tbody tr')].map((it) => [...it.cells].map((cell) => cell.textContent))")


def choose_picture(page, place):
    """Chooses a picture by its place in the list."""
    page.do(f"at('which').value = '{place}'; at('which').dispatchEvent(new Event('change'))")
    page.settle()


CYCLE = "num_tc 8 map 0 1 2 3 4 5 6 7 base-time 0 sched-entry S 80 50000 sched-entry S 7f 200000"
TWO_PORTS = f"tc qdisc replace dev a root taprio {CYCLE}\ntc qdisc replace dev b root taprio {CYCLE}\n"
# Networks under these schedules: words of the options, what is said, how many paths have a bar, and the rows of the classes without bounds.
NETWORKS = (
    ("link a b 1us 2us\nclocks 100ns\nstream 1 7 60 250us 10us 1 deadline 100us via a b\nstream 2 5 200 1ms any 1 via a b\nstream 3 6 60 1ms any 1 via a\n", "",
     "Bounds for 2 of 3 paths; not known: stream 2. Of these: every deadline is met, for ever. At b: class 5 has no bounds: it shares windows with class 6, above it,", 2,
     [["b", "5", "no", "–", "–", "open to 6"]]),
    ("link a b 1us\nstream 2 5 200 1ms any 1 deadline 1ns via a b\n", "6", "0 of 1 deadlines are met for ever; missed: stream 2.", 1, []),
    ("port b mtu 100\nlink a b 1us\nstream 1 7 1000 1ms any 1 deadline 1ms via a b\n", "", "Bounds for 0 of 1 path; dropped: stream 1.", 0, []),
    ("link a b 1us\nlink b a 1us\nstream 1 7 60 1ms any 1 via a b\nstream 2 7 60 1ms any 1 via b a\n", "",
     "Bounds for 0 of 2 paths; not known: streams 1, 2. These depend on themselves, in a circle, or on such a class: a/7, b/7.", 0,
     [["a", "7", "yes", "–", "–", "cyclic"], ["b", "7", "yes", "–", "–", "cyclic"]]),
)


def try_paths(page):
    """The examples of paths against the program, their tables, their bars, and the schedule of each port; other networks, and faults."""
    for name, paths, hops, ports in (("line", 3, 8, ["sw1", "sw2", "sw3"]), ("vehicle", 6, 12, ["front", "rear", "core"])):
        page.choose(f"{name}.paths")
        page.answers(f"{name}.paths", (EXAMPLES / f"{name}.paths").read_bytes())
        page.same(f"verdict of {name}.paths", page.text("verdict"), "Every deadline is met, for ever.")
        page.same(f"rows of {name}.paths", [len(chosen_rows(page, it)) for it in ("classes", "hops", "ports")], [paths, hops, 8 if name == "line" else 9])
        page.same(f"bars of {name}.paths", page.do("return document.querySelectorAll('#canvas rect.f').length"), paths)
        page.same(f"what the bars of {name}.paths count from", "at the first port" in page.text("picture-status"), True)
        page.same(f"pictures of {name}.paths", page.do("return [...at('which').options].map((it) => it.textContent)"), ["all paths", *ports])
        page.browser.shoot(SHOTS / f"{page.browser.name}-{name}.paths.png")
        lines = [f"{it}\n" for it in re.sub(r" *\\\n *", " ", (EXAMPLES / f"{name}.schedules").read_text(encoding="utf-8")).split("\n") if it.startswith("tc")]
        for place, line in enumerate(lines, 1):
            choose_picture(page, place)
            base = int(re.search(r"base-time (\d+)", line)[1])
            change = re.search(rb"change (\d+)", program("script", text=line.encode())[1])[1].decode()
            cycle = sum(map(int, re.findall(r"sched-entry S \w+ (\d+)", line))) * 1000
            page.picture(f"the port {ports[place - 1]}, whose base time is {base}", line.encode(), "--from", change, "--to", str(int(change) + 2 * cycle))
        page.do("const it = document.querySelector('#gates-line'); it.value = '1'; it.dispatchEvent(new Event('change'))")
        page.settle()
        page.same(f"the port of {name}.paths whose gates are chosen", page.do("return at('which').value"), "2")
        choose_picture(page, 0)
        page.same(f"bars of {name}.paths again", page.do("return document.querySelectorAll('#canvas rect.f').length"), paths)
    page.choose("line.paths")
    for network, silent, said, bars, without in NETWORKS:
        page.set("silent", silent)
        page.set("text", TWO_PORTS)
        page.set("beside", network)
        page.run()
        with tempfile.NamedTemporaryFile() as file:
            file.write(network.encode())
            file.flush()
            page.answers(f"paths of {network!r}", program("paths", *(["--silent", silent] if silent else []), file.name, text=TWO_PORTS.encode())[1])
        page.same(f"verdict of {network!r}", page.text("verdict")[: len(said)], said)
        page.same(f"bars of {network!r}", page.do("return document.querySelectorAll('#canvas rect.f').length"), bars)
        page.same(f"classes of {network!r}", [it for it in chosen_rows(page, "ports") if it[-1] != "bounded"], without)
    page.open(f"#job=paths&beside={packed(NETWORKS[0][0])}&text={packed(TWO_PORTS)}")
    page.same("paths by a link", page.text("verdict")[:23], "Bounds for 2 of 3 paths")
    page.open("")
    try_faults_of_paths(page)


# Tables and networks without a plan, and what is said of them.
WITHOUT_PLAN = (
    ("stream 1 7 60 250us 20us 1 deadline 1ns\n", "No schedule is found that meets the deadline of stream 1."),
    ("stream 1 7 1514 20us 0us 1 deadline 20us\nstream 2 6 1514 30us 0us 1 deadline 30us\n",
     "The frames of class 1 and of those above it need more time than there is, under any schedule."),
    ("stream 1 16 60 250us 20us 1 deadline 20us\n", "No schedule is found: each frame of stream 1 is dropped when it comes, by its priority or its length."),
    ("link a b 1us\nstream 1 7 60 1ms any 1 deadline 2us via a b\n", "No schedule is found: no cycle fits, or the one that is given is too short."),
    ("# nothing\n", "The table has no stream."),
)

# Options of plans: their fields, the words of the program, and what is said of values that are none.
PLAN_OPTIONS = ({"cycle": "125 us"}, ["--cycle", "125us"]), ({"least": "2us", "entries": "3"}, ["--least-interval", "2us", "--entries", "3"]), (
    {"base": "1 ms", "rate": "100"}, ["--base-time", "1000000", "--rate", "100"]), ({"share": True}, ["--share"])
BAD_PLAN_OPTIONS = (
    ("cycle", "1.5", "bad value of --cycle: wanted is whole nanoseconds, from 1 to 4294967295, such as 1 ms."),
    ("cycle", "0", "bad value of --cycle: wanted is whole nanoseconds, from 1 to 4294967295, such as 1 ms."),
    ("cycle", "5 s", "bad value of --cycle: wanted is whole nanoseconds, from 1 to 4294967295, such as 1 ms."),
    ("entries", "257", "bad value of --entries: wanted is a whole number from 1 to 256."),
    ("least", "5 s", "bad value of --least-interval: wanted is whole nanoseconds, from 0 to 4294967295, such as 2 us."),
    ("base", "x", "bad value of --base-time: wanted is whole nanoseconds, from 0 to 9223372036854775807, such as 1 s."),
)


def planned(text, *words):
    with tempfile.NamedTemporaryFile() as file:
        file.write(text.encode())
        file.flush()
        return program("plan", *words, file.name, text=b"")[1]


def with_streams(table, schedule):
    """The script of a schedule with the frames of a table."""
    with tempfile.NamedTemporaryFile() as file:
        file.write(schedule.encode())
        file.flush()
        return program("streams", "--with", file.name, text=table.encode())[1]


def try_plan(page):
    """The examples of plans against the program, with their pictures; their schedules with their streams; other options, none, and faults."""
    for name, ports in (("drive.streams", 1), ("line.network", 3), ("vehicle.network", 3)):
        text = (EXAMPLES / name).read_text(encoding="utf-8")
        plan = planned(text)
        page.choose(f"{name.split('.')[0]}.plan")
        page.answers(f"the plan for {name}", plan)
        head = "A schedule is found" if ports == 1 else f"{ports} schedules are found, one for each port that streams cross"
        page.same(f"verdict of the plan for {name}", page.text("verdict"), f"{head}: every deadline is met, for ever.")
        page.same(f"pictures of the plan for {name}", page.do("return [at('which-row').hidden, at('which').length]"), [ports == 1, ports])
        page.same(f"frames of the plan for {name}", page.do("return [at('frames-box').hidden, at('frames-name').textContent]"), [ports > 1, f"Frames ({4000 if ports == 1 else 0:,})"])
        page.same(f"ports of the plan for {name}", list(dict.fromkeys(it[0] for it in chosen_rows(page, "classes"))), re.findall(r"dev (\S+)", plan.decode()))
        page.browser.shoot(SHOTS / f"{page.browser.name}-{name.split('.')[0]}.plan.png")
        for place, line in enumerate(plan.decode().splitlines()):
            if ports > 1:
                choose_picture(page, place)
            cycle = int(re.search(r"cycle-time (\d+)", line)[1]) * 1000
            change = re.search(rb"change (\d+)", program("script", text=f"{line}\n".encode())[1])[1].decode()
            script = f"{line}\n".encode() if ports > 1 else with_streams(text, f"{line}\n")
            page.picture(f"schedule {place + 1} of the plan for {name}", script, "--from", change, "--to", str(int(change) + 2 * cycle))
        page.click("#take")
        page.settle()
        page.same(f"the plan for {name} with its streams", page.do("return [at('form').elements.job.value, at('text').value, at('beside').value, at('gates').hidden, at('example').value]"),
                  ["bounds" if ports == 1 else "paths", plan.decode(), text, False, "own"])
        page.same(f"the plan for {name} is judged", page.text("verdict"), "Every deadline is met, for ever.")
    page.click("[name=job][value=plan]")
    page.settle()
    page.same("a plan of what was judged", page.do("return [at('form').elements.job.value, at('text').value]"), ["plan", text])
    try_other_plans(page)


def try_other_plans(page):
    table = "stream 1 7 60 250us 20us 1 deadline 60us\nstream 9 3 1000 1ms any 1\n"
    for options, words in PLAN_OPTIONS:
        page.choose("drive.plan")
        for name, value in options.items():
            page.set(name, value)
        page.set("text", table)
        page.run()
        page.answers(f"a plan with {words}", planned(table, *words))
        page.same(f"a plan with {words} is found", page.text("verdict"), "A schedule is found: every deadline is met, for ever.")
    page.choose("drive.plan")
    page.set("text", "# deadline\nstream 1 7 60 1ms any 1\n")
    page.run()
    page.same("a plan without deadlines", page.text("verdict"), "A schedule is found. No stream has a deadline.")
    for text, said in WITHOUT_PLAN:
        page.set("text", text)
        page.run()
        page.answers(f"no plan for {text!r}", planned(text))
        page.same(f"no plan for {text!r} is said", [page.text("verdict"), page.text("status")[:13], page.do("return [at('fault').hidden, at('frame').hidden, at('take').hidden]")], [said, "None is found", [True, True, True]])
    for text, said in (("streams\n", "Line 1: UnknownLine, the first word of the line is none that may stand there."), ("\nlink a b\n", "Line 2: WordCount, the line has too few or too many words.")):
        page.set("text", text)
        page.run()
        page.same(f"a plan for {text!r}", [page.text("fault-text"), page.text("status")[:21]], [said, "The input has a fault"])
    page.set("text", table)
    for name, value, said in BAD_PLAN_OPTIONS:
        page.set(name, value)
        page.run()
        page.same(f"a plan with {name} {value}", [page.text("fault-text"), page.do(f"return at('{name}').getAttribute('aria-invalid')")], [said, "true"])
        page.set(name, "" if name != "entries" else "256")
    page.open(f"#job=plan&entries=3&text={packed(table)}")
    page.same("a plan by a link", page.text("answers"), planned(table, "--entries", "3").decode())
    page.open("")
    give(page, "my.streams", table.encode())
    page.same("a table from a file", page.do("return [at('form').elements.job.value, at('text').value]"), ["plan", table])


# What is wrong with a network or with the schedules of its ports, what is said of it, and in which editor it is marked.
FAULTS_OF_PATHS = (
    ("link a b 1us\nlink a b 2us\n", TWO_PORTS, "Network: Line 2: SecondLink (line 1), a line before it has this link.", "beside"),
    ("stream 1 7 60 1ms 0us 1 via a b\n", TWO_PORTS, "Network: Line 1: NoLink a b, no link leads from the first port to the second.", "beside"),
    ("stream 1 7 60 1ms any 1 via a\n", TWO_PORTS, "Line 2: UnknownPort, the word behind dev is no port of the network.", "text"),
    ("stream 1 7 60 1ms any 1 via a\n", "tc qdisc replace dev a root taprio\n", "Line 1: tc-fault NoEntries, it is no schedule command.", "text"),
    ("stream 1 7 60 1ms any 1 via a\n", "\ntc qdisc replace dev a root taprio num_tc 1 map 0 sched-entry S 01 4\n", "Line 2: refused IntervalTooShort 0", "text"),
)


def try_faults_of_paths(page):
    for network, schedules, said, field in FAULTS_OF_PATHS:
        page.choose("line.paths")
        page.set("text", schedules)
        page.set("beside", network)
        page.run()
        page.same(f"fault of {network!r}", page.text("fault-text"), said)
        page.same(f"where {said!r} is", page.do("return [at('text'), at('beside')].filter((it) => it.getAttribute('aria-invalid') === 'true').map((it) => it.id)"), [field])
        page.same("what is expected", "link FROM TO TIME" in page.text("fault-hint"), True)
    page.choose("line.paths")
    page.set("beside", "")
    page.run()
    page.same("no streams", page.text("fault-text"), "Line 2: Uncrossed, no stream crosses this port.")
    page.set("text", "")
    page.run()
    page.same("nothing", [page.text("verdict"), page.text("answers")], ["The network has no stream.", "apart none\n"])
    # a network that is dropped goes beside the schedules, and a port that differs is drawn as it is
    give(page, "slow.network", b"port a rate 100 mtu 100\nstream 1 7 60 1ms any 1 via a\n")
    slow = "tc qdisc replace dev a root taprio num_tc 8 map 0 1 2 3 4 5 6 7 max-sdu 0 0 0 0 0 0 0 100 sched-entry S 80 50000 sched-entry S 7f 200000\n"
    page.set("text", slow)
    page.run()
    page.same("a network from a file", [page.do("return [at('form').elements.job.value, at('beside').value.split('\\n')[0]]"), page.text("status")[:4]],
              [["paths", "port a rate 100 mtu 100"], "Done"])
    choose_picture(page, 1)
    page.same("the picture of a slow port", page.do("return [at('frame').hidden, at('picture-status').textContent]"), [False, ""])


# (a deadline is three pixels wide)
COVERED = """const marks = [...document.querySelectorAll('#canvas .dl')].map((it) => it.getBBox());
    return [...document.querySelectorAll('#canvas .row text')].filter((it) => { const r = it.getBBox();
      return marks.some((m) => m.x - 1.5 < r.x + r.width && m.x + 1.5 > r.x && m.y < r.y + r.height && m.y + m.height > r.y); }).map((it) => it.textContent)"""


# A frame of class 7 comes before there is a map of two classes; the frames of these wait, and one that has no class is dropped.
ROWS = """frame 1 7 1514
clock 20000000
tc qdisc replace dev x root taprio num_tc 2 map 0 1 base-time 0 sched-entry S 02 100000 sched-entry S 01 100000
clock 200000000
frame 2 0 1514
frame 3 16 1514
clock 420000000
"""
LABELS = "return [...document.querySelectorAll('#canvas text')].map((it) => it.textContent).filter((it) => /^(class .|wire)$/.test(it)).sort().reverse()"
# The parts of the legend that lie outside of the picture, or on one another: by their shapes, since Firefox 153 takes what strokes could reach, too.
CUT = """const box = document.querySelector('#canvas svg').getBoundingClientRect();
    const placed = (it) => { const [r, m] = [it.getBBox(), it.getScreenCTM()]; return { left: m.a * r.x + m.e, right: m.a * (r.x + r.width) + m.e, top: m.d * r.y + m.f, bottom: m.d * (r.y + r.height) + m.f }; };
    const parts = [...document.querySelectorAll('#canvas .legend')].map(placed);
    const frame = document.getElementById('frame').getBoundingClientRect(); const right = Math.min(box.right, frame.right);
    return [parts.length, parts.filter((it, place) => it.left < box.left || it.right > right || it.bottom > box.bottom || it.top < box.top
      || parts.some((other, at) => at < place && other.left < it.right && it.left < other.right && other.top < it.bottom - 2 && it.top < other.bottom - 2)).length]"""


OTHER = "tc qdisc replace dev eth0 root taprio num_tc 8 map 0 1 2 3 4 5 6 7 base-time 20000 sched-entry S 81 22303 sched-entry S 00 40000"
# What the table of differences says, row by row.
DIFFERENCES = "return [...document.querySelectorAll('#differences tbody tr')].map((it) => [...it.cells].map((cell) => cell.textContent))"
SIDES = "return [at('frame'), at('other-frame'), at('differences')].map((it) => it.checkVisibility())"


def with_schedule(text, *commands):
    """A script with these schedule commands in the place of its own, each in one line; beyond them its own are left away."""
    given = list(commands)
    return re.sub(r"^tc (?:.*\\\n)*.*\n", lambda _: f"{given.pop(0)}\n" if given else "", text, flags=re.M)


def summed_up(text):
    """What the program sums up of a script: by class, what was sent, the least, the mean and the greatest wait in picoseconds."""
    said = program("script", "--summary", text=text.encode())[1].decode()
    found = re.findall(r"^summary class (\d) queued \d+ sent (\d+) .* least (\d+) mean (\d+) greatest (\d+) most", said, re.M)
    return {f"class {kind}": [int(it) for it in numbers] for kind, *numbers in found}


def sides(page, what, text, alone):
    """That both pictures are the program's, of one time."""
    begin, end = window(page) if page.do("return at('from').value") else ("0", "100000000")
    words = ["--from", begin, "--to", end, "--width", page.do("return at('frame').dataset.width")]
    one, other = (program("draw", *words, text=it.encode())[1] for it in (text, alone))
    page.same(f"{what}, the input's", page.saved("save-picture"), one)
    page.same(f"{what}, the other's", page.saved("save-other-picture"), other)
    # (the lower one has the legend of both)
    bars = [len(re.findall(rb'<rect class="f[ "]', it)) for it in (one, other)]
    page.same(f"bars of {what}", page.do("return ['canvas', 'other-canvas'].map((it) => at(it).querySelectorAll('rect.f').length + Number(at(it).querySelector('svg').dataset.shaded))"), [bars[0] - 1, bars[1]])


# A table whose frames may come at several moments, with several lengths; and one of bounds with deadlines.
DRAWN = "stream 1 5 100 250us 10us 3 shortest 60 jitter 40us\nstream 10 7 200 1ms any 2 jitter 1us\n"
DUE = "stream 1 7 60 250us 20us 1 jitter 5us deadline 300us\nstream 10 7 60 250us 0us 1 deadline 1us\nstream 20 7 60 250us 0us 1\n"


def try_timing(page):
    """Frames of streams at their latest moments, and as a number draws them; and how much jitter streams may have: against the program."""
    page.choose("planned.streams")
    page.set("beside", "")
    page.set("text", DRAWN)
    for field, value, words in (("late", None, ["--late"]), ("seed", "7", ["--seed", "7"]), ("seed", "18446744073709551615", ["--seed", "18446744073709551615"])):
        if value is None:
            page.do(f"at('{field}').checked = true")
        else:
            page.do("at('late').checked = false")
            page.set(field, value)
        page.run()
        page.answers(f"streams with {' '.join(words)}", program("streams", *words, text=DRAWN.encode())[1])
    for value, late in (("18446744073709551616", False), ("x", False), ("7", True)):
        page.set("seed", value)
        page.do(f"at('late').checked = {'true' if late else 'false'}")
        page.run()
        page.same(f"seed {value}, {late}", page.text("fault-text")[:27], "bad value of --seed: wanted")
    page.set("seed", "")
    page.do("at('late').checked = false")
    page.choose("drive.bounds")
    schedule = page.do("return at('text').value")
    page.set("beside", DUE)
    page.do("at('slack').checked = true")
    page.run()
    with tempfile.NamedTemporaryFile() as table:
        table.write(DUE.encode())
        table.flush()
        wanted = program("bounds", "--slack", table.name, text=schedule.encode())[1]
    page.answers("slack", wanted)
    jitter = int(re.search(rb"^slack 1 jitter (\d+)$", wanted, re.MULTILINE)[1])
    saved = list(csv.reader(page.saved("save-table").decode().splitlines()))
    page.same("columns of slack", saved[0][-2:], ["slack", "told"])
    page.same("cells of slack", [row[-2] for row in saved[1:]], [str(jitter), "none", ""])
    page.do("at('slack').checked = false")
    page.set("why", True)
    page.run()
    with tempfile.NamedTemporaryFile() as table:
        table.write(DUE.encode())
        table.flush()
        wanted = program("bounds", "--why", table.name, text=schedule.encode())[1]
    page.answers("why", wanted)
    parts = re.search(rb"^why 1 gates (\d+) blocking (\d+) higher (\d+) queue (\d+)$", wanted, re.MULTILINE).groups()
    saved = list(csv.reader(page.saved("save-table").decode().splitlines()))
    page.same("columns of why", saved[0][-5:], ["gates_ps", "blocking_ps", "higher_ps", "queue_ps", "told"])
    page.same("cells of why", saved[1][-5:-1], [it.decode() for it in parts])
    page.set("why", False)


# Two classes share their windows: a schedule, and a table of the lower one, of both, and of the upper one with a frame of the lower one
# before its window. By what is asked, what is said of them.
TOGETHER = "tc qdisc replace dev eth0 root taprio num_tc 3 map 0 1 2 base-time 0 sched-entry S 7 50000 sched-entry S 0 50000"
BEFORE = "tc qdisc replace dev eth0 root taprio num_tc 3 map 0 1 2 base-time 0 sched-entry S 1 20000 sched-entry S 3 5000 sched-entry S 0 50000"
LOW = "stream 2 0 60 1ms 0us 1 deadline 1ms\n"
BOTH = f"{LOW}stream 1 1 60 1ms any 1\n"
BLOCKED = "stream 1 1 60 1ms any 1\nstream 2 0 1514 1ms 0us 1 deadline 1ms\n"
WAITS = "at most 1 frame ever waits at once, whenever its frames come."
SHARING = (
    (TOGETHER, LOW, "", False, "0 of 1 deadlines are met for ever; not known: stream 2. Class 0 has no bounds: it shares windows with classes 1 and 2, above it, and what may be sent there is not known."),
    (TOGETHER, LOW, "2, 1", False, f"Every deadline is met, for ever. Classes 1 and 2 are taken to send nothing. Class 0: {WAITS}"),
    (TOGETHER, BOTH, "2", False, f"Every deadline is met, for ever. Class 2 is taken to send nothing. Class 0: {WAITS} Class 1: {WAITS}"),
    (TOGETHER, BOTH, "2", True, "0 of 1 deadlines are met for ever; not known: stream 2. Class 2 is taken to send nothing. Class 0 has no bounds: it shares windows with class 1, above it, and"),
    (TOGETHER, LOW, "0", False, "0 of 1 deadlines are met for ever; not known: stream 2. Each class that is said to be silent has streams. Class 0 has no bounds"),
    (BEFORE, BLOCKED, "", False, "0 of 1 deadlines are met for ever; not known: stream 2. Class 0 has no bounds: it shares windows with class 1, above it, which has none. "
     "Class 1 has no bounds: behind a frame of another class, no window takes its longest frame."),
)


def try_sharing(page):
    """Classes that share their windows, with silent ones and with leftovers: against the program, and what is said of them."""
    page.choose("drive.bounds")
    for schedule, table, silent, leftovers, said in SHARING:
        page.set("text", schedule + "\n")
        page.set("beside", table)
        page.set("silent", silent)
        page.set("leftovers", leftovers)
        page.run()
        words = [*(["--silent", silent.replace(" ", "")] if silent else []), *(["--leftovers"] if leftovers else [])]
        with tempfile.NamedTemporaryFile() as file:
            file.write(table.encode())
            file.flush()
            page.answers(f"bounds with {' '.join(words)}", program("bounds", *words, file.name, text=f"{schedule}\n".encode())[1])
        page.same(f"verdict with {' '.join(words)}", page.text("verdict")[: len(said)], said)
    for silent in ("8", "6,6", "6 7", "6,", "x"):
        page.set("silent", silent)
        page.run()
        page.same(f"silent {silent}", page.text("fault-text")[:29], "bad value of --silent: wanted")
    page.set("silent", "")
    page.set("leftovers", False)


# What the software mode of Linux does otherwise: schedules, and what is said of it.
LIKE_LINUX = "tc qdisc replace dev eth0 root taprio num_tc 2 map 0 1 sched-entry S 01 100000 sched-entry S 02 100000\n"
ON_LINUX = [
    (LIKE_LINUX, ""),
    (LIKE_LINUX.replace("sched", "cycle-time 250000 sched", 1), "The software mode of Linux begins the list of line 1 again each 200000 ns, and not each 250000 ns."),
    (LIKE_LINUX.replace("sched", "flags 0x2 cycle-time 250000 sched", 1), ""),
    (f"{LIKE_LINUX}tc qdisc del dev eth0 root\n", "The software mode of Linux deletes at once by line 2, and throws the frames away that wait."),
]


def try_linux(page):
    """What is said of the software mode of Linux beside a check."""
    page.choose("windows.schedules")
    for text, said in ON_LINUX:
        page.set("text", text)
        page.run()
        page.same(f"Linux by {text[:80]!r}", page.text("linux"), said)


def try_compare(page):
    """A script under a second schedule: its answers, its picture and what differs are those of a run of that schedule alone."""
    page.choose("schedule.script")
    page.same("no second schedule at first", page.do(f"at('compare').focus(); {SIDES}"), [True, False, False])
    page.browser.press("Enter")
    page.same("the field that the button opens", page.do("return document.activeElement.id"), "other")
    page.browser.type(OTHER)
    page.browser.press("Enter", control=True)
    page.settle()
    text = page.do("return at('text').value")
    alone = with_schedule(text, OTHER)
    page.answers("a script beside another schedule", program("script", text=text.encode())[1])
    page.same("answers under the other schedule", page.saved("save-other-answers"), program("script", text=alone.encode())[1])
    page.same("both pictures and what differs", page.do(SIDES), [True, True, True])
    sides(page, "a whole run", text, alone)
    page.do("at('ps').click()")
    rows = {(kind, what): [one, other, change] for kind, what, one, other, change in page.do(DIFFERENCES)}
    page.do("at('ps').click()")
    one, other = summed_up(text), summed_up(alone)
    for kind in one:
        for what, before, after in zip(("Sent", "Least wait", "Mean wait", "Greatest wait"), one[kind], other[kind]):
            change = f"{after - before:+}".replace("-", "\u2212") if after != before else "0"
            page.same(f"{what} of {kind}", rows[kind, what], [str(before), str(after), change])
    page.same("a gate", rows["class 7", "Gate open at most"], ["12303000", "22303000", "+10000000"])
    page.click("[data-step=nearer]")
    page.settle()
    sides(page, "both, nearer", text, alone)
    page.do("at('other-frame').dispatchEvent(new KeyboardEvent('keydown', { key: 'ArrowRight', shiftKey: true, bubbles: true }))")
    page.settle()
    sides(page, "both, moved in the other", text, alone)
    page.click("[data-step=whole]")
    page.settle()
    page.do("at('other-frame').dispatchEvent(new KeyboardEvent('keydown', { key: 'ArrowRight', bubbles: true }))")
    page.same("why a frame waits under both", [it in page.text("wait-why") for it in ("Frame 1 waits 13.336 us", "Under the other schedule: Frame 1 does not wait.")], [True, True])
    page.same("a frame that is marked in both", page.do("return document.querySelectorAll('.canvas rect.ring').length"), 2)
    try_compare_kept(page, text)
    try_compare_jobs(page)


def try_compare_kept(page, text):
    """A link carries the other schedule, a fault of it loses nothing, and Ctrl+Z brings back what was compared."""
    page.click("#link")
    wait_for(page.browser, "return document.getElementById('address').value.includes('other=')")
    page.open("#" + page.do("return at('address').value").partition("#")[2])
    page.same("the other schedule of a link", page.do(f"return [at('other').value, (() => {{ {SIDES} }})()]"), [OTHER, [True, True, True]])
    for bad, said in ((f"{OTHER}\ntc qdisc replace dev eth0 root taprio num_tc 2\n", "Line 2: tc-fault MissingWord map."), ("\nclok 7\n", "Line 2: UnknownLine, "), ("# none\n", "No schedule stands there")):
        page.set("other", bad)
        page.run()
        page.same(f"fault of {bad!r}", page.text("other-fault")[: len(said)], said)
        page.same(f"what stays beside {bad!r}", page.do(f"return [at('fault').hidden, (() => {{ {SIDES} }})()]"), [True, [True, False, False]])
        page.answers(f"the input beside {bad!r}", program("script", text=text.encode())[1])
    page.set("other", OTHER)
    page.run()
    page.set("other", "clok")
    wait_for(page.browser, "return !document.getElementById('other-fault').hidden")
    page.settle()
    page.same("while it is typed", page.do(f"return [at('other-fault').textContent.endsWith('What is shown is of an earlier schedule.'), (() => {{ {SIDES} }})()]"), [True, [True, True, True]])
    page.set("other", OTHER)
    page.run()
    page.click("#end-compare")
    time.sleep(0.5)
    page.settle()
    page.same("no longer compared", page.do(f"return [at('other-field').hidden, at('compare').hidden, (() => {{ {SIDES} }})()]"), [True, False, [True, False, False]])
    page.do("at('text').focus()")
    page.browser.press("z", control=True)
    wait_for(page.browser, "return document.getElementById('differences').checkVisibility()")
    page.same("brought back", page.do("return at('other').value"), OTHER)


def try_compare_paths(page):
    """A network under other schedules; and the schedule of a port, which is drawn alone."""
    schedules = (EXAMPLES / "line.schedules").read_text(encoding="utf-8")
    other = schedules.replace("sched-entry S 80 40000", "sched-entry S 80 500").replace("base-time 3000", "base-time 0")
    page.choose("line.paths")
    page.click("#compare")
    page.set("other", other)
    page.run()
    wanted = program("paths", EXAMPLES / "line.network", text=other.encode())[1]
    page.same("paths under other schedules", page.saved("save-other-answers"), wanted)
    page.same("deadlines of paths under both", page.do(DIFFERENCES)[0], ["all", "Deadlines met, of 2 streams", "2", "1", "\u22121"])
    page.same("bars of both", page.do("return ['canvas', 'other-canvas'].map((it) => document.querySelectorAll(`#${it} rect.f`).length)"), [3, 2])
    choose_picture(page, 1)
    page.same("a port beside other schedules", page.do("return [at('frame').hidden, at('other-view').hidden]"), [False, True])
    line = re.sub(r" *\\\n *", " ", schedules).split("\n")[1].encode()
    change = int(re.search(rb"change (\d+)", program("script", text=line)[1])[1])
    page.picture("a port beside other schedules", line, "--from", str(change), "--to", str(change + 500_000_000))
    page.set("other", f"{other}tc qdisc del dev sw1 root\n")
    page.run()
    page.same("a fault of other schedules", page.text("other-fault"), "Line 8: Deletion, a port whose gates are open has no line here.")


def try_compare_jobs(page):
    """Bounds, paths, a table of streams and a replay under another schedule."""
    page.choose("drive.bounds")
    short = (EXAMPLES / "drive_short.schedule").read_text(encoding="utf-8")
    page.click("#compare")
    page.set("other", short)
    page.run()
    page.same("bounds under the other schedule", page.saved("save-other-answers"), program("bounds", EXAMPLES / "drive.streams", text=short.encode())[1])
    page.same("deadlines under both", page.do(DIFFERENCES)[0], ["all", "Deadlines met, of 4 streams", "4", "2", "\u22122"])
    try_compare_paths(page)
    page.choose("planned.streams")
    page.click("#compare")
    page.set("other", OTHER)
    page.run()
    with tempfile.NamedTemporaryFile("w", encoding="utf-8") as file:
        file.write(with_schedule((EXAMPLES / "planned.schedule").read_text(encoding="utf-8"), OTHER))
        file.flush()
        wanted = program("streams", "--with", file.name, text=(EXAMPLES / "planned.streams").read_bytes())[1]
    page.same("streams under the other schedule", page.saved("save-other-answers"), wanted)
    page.choose("machine.pcap")
    command = "tc qdisc replace dev eth0 root taprio num_tc 2 map 0 0 0 0 0 0 1 0 base-time 0 sched-entry S 02 20000 sched-entry S 01 230000"
    page.click("#compare")
    page.set("other", command)
    page.run()
    with tempfile.NamedTemporaryFile("w", encoding="utf-8") as file, tempfile.NamedTemporaryFile() as out:
        file.write(with_schedule((EXAMPLES / "machine.script").read_text(encoding="utf-8"), command))
        file.flush()
        wanted = program("replay", "--until", "2000000000", file.name, EXAMPLES / "machine.pcap", out.name)[1]
    page.same("a replay under the other schedule", page.saved("save-other-answers"), wanted)
    for width in (1366, 390, 320):
        at_size(page, width, 844)
        page.same(f"two schedules at {width}", page.do("return [at('other-frame').checkVisibility(), document.documentElement.scrollWidth <= document.documentElement.clientWidth]"), [True, True])
        page.same(f"contrast of two schedules at {width}", page.do(CONTRAST), [])
        page.browser.shoot(SHOTS / f"{page.browser.name}-compare-{width}.png")
    page.browser.look()
    page.choose("first.script")


# What stands around a gate list stays as it is: comments, backslashes and the other commands.
GATES = """# a comment that goes on \\
tc qdisc replace dev x root taprio sched-entry S 01 5000
tc qdisc replace dev eth1 root taprio num_tc 2 map 0 1 base-time 0 \\
    sched-entry S 02 50000 \\
    sched-entry S 0x1 200000 cycle-time 240000 \\
\tclockid CLOCK_TAI
  tc qdisc replace dev eth2 root taprio num_tc 2 map 0 1 base-time 0 sched-entry S 03 300000
frame 1 1 1000
clock 900000000
"""
EDGES = "return [...document.querySelectorAll('#gates .edge')].map((it) => Number(it.ariaValueNow))"
TEXT = "return at('text').value"


def edge(page, number):
    """Where an edge of the strip is: its middle, in pixels of the window."""
    page.do("at('gates').scrollIntoView({ block: 'center' })")
    return page.do(f"const r = document.querySelectorAll('#gates .edge')[{number}].getBoundingClientRect(); return [(r.left + r.right) / 2, (r.top + r.bottom) / 2]")


def press_edge(page, keys, shift=False):
    for key in keys.split():
        page.browser.press(key, shift=shift)
    time.sleep(0.1)
    page.settle()


def gates_text(page, what, wanted):
    page.settle()
    page.same(what, page.do(TEXT), wanted)


def try_gates(page):
    """Edges of a gate list are dragged and moved by keys: only these words of its line change, and the port answers what stands there then."""
    page.choose("schedule.script")
    text = page.do(TEXT)
    page.same("edges", page.do(EDGES), [12303, 112303])
    page.same("numbers beside them", page.text("gates-said"), "Entry 1 of 2: 81, 0 to 12.303 us (12,303 ns). Cycle 112.303 us, the sum.")
    page.same("without a name", page.do(NAMELESS), [])
    page.same("one of them is reached by Tab", page.do("return [...document.querySelectorAll('#gates .edge')].map((it) => it.tabIndex)"), [0, -1])
    said = page.text("verdict")
    page.do(COUNTED)
    (x, y), (last, _) = edge(page, 0), edge(page, 1)
    for what, wanted in (("a click opens the gate of class 6", text.replace("S 00 100000", "S 40 100000")), ("and closes it", text)):
        # (the sentence of the example goes, and what is below it moves up)
        place = (x + last) / 2, page.do("return document.querySelector('#gates .strip').getBoundingClientRect().top") + 15
        page.browser.drag(place, place)
        gates_text(page, what, wanted)
    page.choose("schedule.script")
    x, y = edge(page, 0)
    per = (last - x) / 100_000
    page.browser.mouse("down", (x, y))
    for moved in range(1, 30):
        page.browser.mouse("move", (x + moved, y))
    wait_for(page.browser, f"return document.getElementById('verdict').textContent !== {json.dumps(said)}")
    page.browser.mouse("move", (x + 30_400 * per, y))
    page.browser.mouse("up", (x + 30_400 * per, y))
    got = page.do(EDGES)[0]
    page.same(f"dragged by about 30.4 us, in whole microseconds: {got}", [got % 1000, abs(got - 42_703) < 1500 + 1 / per], [0, True])
    dragged = text.replace("S 81 12303 sched-entry S 00 100000", f"S 81 {got} sched-entry S 00 {112303 - got}")
    gates_text(page, "only two words of the line", dragged)
    wait_for(page.browser, FRESH, 5)
    page.answers("a dragged edge", program("script", text=dragged.encode())[1])
    page.picture("a dragged edge", dragged.encode())
    page.same("one run at a time", page.do("return window.most <= 1"), True)
    page.same("the verdict follows", page.text("verdict"), "2 frames sent, longest wait 12.304 us (frame 2, class 0).")
    page.browser.shoot(SHOTS / f"{page.browser.name}-gates.png")
    page.do("at('text').focus()")
    page.browser.press("z", control=True)
    wait_for(page.browser, f"return document.getElementById('text').value === {json.dumps(text)}")
    page.settle()
    page.same("undone: the strip, too", [page.do(EDGES), page.text("verdict"), page.do("return at('example').value")], [[12303, 112303], said, "schedule.script"])
    page.browser.press("y", control=True)
    wait_for(page.browser, f"return document.getElementById('text').value === {json.dumps(dragged)}")
    page.settle()
    x, y = edge(page, 0)
    page.browser.mouse("down", (x, y))
    page.browser.mouse("move", (x - 37, y), shift=True)
    page.browser.mouse("up", (x - 37, y), shift=True)
    fine = page.do(EDGES)[0]
    page.same(f"with Shift by nanoseconds: {fine}", [fine % 1000 != 0, abs(fine - got + 37 / per) < 2 / per], [True, True])
    for x, wanted in ((1270, [112302, 112303]), (1, [1, 112303])):
        page.browser.mouse("down", edge(page, 0))
        page.browser.mouse("move", (x, y), shift=True)
        page.browser.mouse("up", (x, y), shift=True)
        page.same(f"no interval below a nanosecond, at {x}", page.do(EDGES), wanted)
    gates_text(page, "and it stands in the text", text.replace("S 81 12303 sched-entry S 00 100000", "S 81 1 sched-entry S 00 112302"))
    try_gates_by_keys(page)
    try_gates_in_text(page)


def try_gates_by_keys(page):
    """Arrows, Insert, Delete and digits on an edge."""
    page.set("text", GATES)
    page.settle()
    page.do("document.querySelector('#gates .edge').focus()")
    changed = [("ArrowLeft ArrowLeft", False, "02 50000", "02 48000", "0x1 200000", "0x1 202000"), ("ArrowRight", True, "02 48000", "02 48001", "0x1 202000", "0x1 201999"),
               ("ArrowRight", False, "02 48001", "02 49000", "0x1 201999", "0x1 201000"), ("1", False, "02 49000", "00 49000", "", ""),
               ("Insert", False, "S 00 49000", "S 00 25000 \\\n    sched-entry S 00 24000", "", ""), ("1", False, "S 00 25000", "S 02 25000", "", ""),
               ("PageDown Delete", False, "S 02 25000 \\\n    sched-entry S 00 24000", "S 02 49000", "", ""), ("End ArrowRight", False, "0x1 201000", "0x1 202000", "", ""),
               ("0", False, "0x1", "0x0", "", "")]
    text = GATES
    for keys, shift, before, after, other, its in changed:
        text = text.replace(before, after, 1).replace(other, its, 1) if other else text.replace(before, after, 1)
        press_edge(page, keys, shift)
        gates_text(page, f"after {keys}", text)
    page.same("the cycle that is given", page.text("gates-said"), "Entry 2 of 2: 00, 49 us to 251 us (202,000 ns). Cycle 240 us, as given: 11 us of the entries are cut.")
    page.same("it is marked", page.do("return document.querySelectorAll('#gates .cut').length"), 1)
    page.same("the focus stays on the edge", page.do("return [document.activeElement.role, document.activeElement.ariaValueText]"), ["slider", "251 us: all closed for 202 us"])
    page.answers("gates by keys", program("script", text=text.encode())[1])
    page.browser.press("z", control=True)
    wait_for(page.browser, f"return document.getElementById('text').value === {json.dumps(text.replace('0x0 ', '0x1 ', 1))}")
    page.settle()
    page.same("undone on the edge", page.do("return document.activeElement.role"), "slider")
    press_edge(page, "Home Delete Delete")
    page.same("the last entry stays", [page.do(EDGES), page.text("gates-said")], [[251000], "A gate list has at least one entry."])


def try_gates_in_text(page):
    """What is typed moves the strip: the line in which the cursor stands is shown; a fault leaves the strip, and says so."""
    page.set("text", GATES)
    page.do("at('text').focus()")
    place = GATES.index("300000")
    page.do(f"at('text').setSelectionRange({place}, {place + 1})")
    page.browser.type("4")
    wait_for(page.browser, FRESH, 5)
    page.same("the line of the cursor", page.do("return [at('gates-line').selectedOptions[0].textContent, at('gates-line').options.length]"), ["line 7, eth2", 2])
    page.same("what is typed moves the edge", page.do(EDGES), [400000])
    page.do(f"at('text').setSelectionRange({place}, {place + 6})")
    page.browser.type("x")
    wait_for(page.browser, FRESH_OR_FAULT, 5)
    page.same("a fault", [page.text("gates-said"), page.do(EDGES), page.do("return document.querySelector('[data-do=add]').disabled")],
              ["Line 7: sched-entry 1 can't be read: S, gates such as 01 and nanoseconds are expected.", [400000], True])
    most = "tc qdisc replace dev eth0 root taprio num_tc 1 map 0 " + " ".join(["sched-entry S 01 1000"] * 256)
    page.set("text", f"{most}\n")
    page.run()
    page.click("[data-do=add]")
    page.same("at most 256 entries", [page.text("gates-said"), page.do("return document.querySelectorAll('#gates .edge').length")], ["A gate list has at most 256 entries.", 256])
    page.click("[data-do=remove]")
    gates_text(page, "one is removed, and its neighbour has its time", most.replace("1000 sched-entry S 01 1000", "2000", 1) + "\n")
    page.choose("planned.streams")
    text = page.do("return at('beside').value")
    page.do("document.querySelector('#gates .edge').focus()")
    press_edge(page, "ArrowRight")
    page.same("the schedule beside a table", page.do("return at('beside').value"), text.replace("12303", "13000").replace("100000\n", "99303\n"))
    page.choose("schedule.script")
    text = page.do(TEXT)
    page.click("#compare")
    page.set("other", OTHER)
    page.run()
    page.do("at('gates-line').value = '1'; at('gates-line').dispatchEvent(new Event('change'))")
    page.same("the other schedule's gates", page.do("return [at('gates-line').selectedOptions[0].textContent, at('gates-said').textContent.slice(0, 40)]"),
              ["other schedule, line 1, eth0", "Entry 1 of 2: 81, 0 to 22.303 us (22,303"])
    page.do("document.querySelector('#gates .edge').focus()")
    press_edge(page, "ArrowLeft")
    moved = OTHER.replace("22303", "22000").replace("40000", "40303")
    page.same("only the other schedule is changed", [page.do("return at('other').value"), page.do(TEXT)], [moved, text])
    wait_for(page.browser, FRESH, 5)
    page.same("and is run", page.saved("save-other-answers"), program("script", text=with_schedule(text, moved).encode())[1])
    page.browser.press("z", control=True)
    wait_for(page.browser, f"return document.getElementById('other').value === {json.dumps(OTHER)}")
    page.settle()
    page.choose("windows.schedules")
    page.do("at('gates-line').value = '1'; at('gates-line').dispatchEvent(new Event('change'))")
    page.settle()
    page.same("the picture of a check shows the chosen one", page.do("return at('which').value"), "1")
    page.choose("first.script")
    page.same("no strip without a schedule", page.do("return ['gates', 'edit-gates', 'gates-hint'].map((it) => at(it).checkVisibility())"), [False, False, False])
    at_size(page, 390, 844)
    page.open("")
    page.choose("schedule.script")
    page.same("closed where there is little room", page.do("return ['gates', 'edit-gates'].map((it) => at(it).checkVisibility())"), [False, True])
    page.click("#edit-gates")
    page.same("opened, and it fits", page.do("return [at('gates').checkVisibility(), document.documentElement.scrollWidth <= document.documentElement.clientWidth]"), [True, True])
    page.same("contrast of the strip", page.do(CONTRAST), [])
    page.browser.shoot(SHOTS / f"{page.browser.name}-gates-390.png")
    page.browser.look()
    page.open("")


FRESH_OR_FAULT = "return document.getElementById('stop').disabled && (!document.getElementById('fault').hidden || !document.getElementById('view').classList.contains('stale'))"
IMPORTS = TOP / "tests" / "imports" / "cases.toml"
FORM_NAMES = {"show": "the output of tc qdisc show", "json": "the output of tc -j qdisc show", "qcw": "a schedule of IEEE 802.1Qcw as JSON", "xml": "XML"}


def import_cases():
    """The cases that the package of Python is tried on, too: their names, their texts, and themselves."""
    for case in tomllib.loads(IMPORTS.read_text(encoding="utf-8"))["case"]:
        yield case["name"], case["input"] if "input" in case else (TOP / case["file"]).read_text(encoding="utf-8"), case


def read_as(page, name, text, case, before):
    """That the page says what a text is, and has the tc lines of its schedules, or what stood there before."""
    form = name.partition(":")[0]
    is_other = form == "qcw" and not re.search("gate-parameter-table|control-list", text)
    begin = f"This is {'JSON' if is_other else FORM_NAMES[form]}"
    lines, said = case.get("lines"), page.text("read-as")
    if lines is None:
        fault = case["fault"][0].upper() + case["fault"][1:]
        page.same(f"{name}: fault", said, f"{begin}, and can't be read. {fault}. What stood here stays.")
        page.same(f"{name}: the text", page.do(TEXT), before)
        return
    notes = [f" Note: {it.replace(' (--side admin, --side both)', '')}." for it in case.get("notes", [])]
    page.same(f"{name}: what it is", said, f"{begin}: read as {len(lines)} tc line{'s' * (len(lines) != 1)}.{''.join(notes)}")
    page.same(f"{name}: tc lines", page.do(TEXT), "".join(f"{it}\n" for it in lines))


def try_imports(page):
    """Schedules of other forms are read as the package of Python does it: where they are dropped and where they are pasted."""
    page.choose("windows.schedules")
    for number, (name, text, case) in enumerate(import_cases()):
        before = page.do(TEXT)
        if number % 8 == 0:
            page.paste(text)
            time.sleep(0.4)
            page.settle()
        else:
            give(page, "ports.json", text.encode())
        read_as(page, name, text, case, before)
    page.browser.shoot(SHOTS / f"{page.browser.name}-imports.png")
    texts = {name: (text, case) for name, text, case in import_cases()}
    shown, case = texts["show: one schedule in force"]
    page.choose("first.script")
    before = page.do(TEXT)
    page.do(f"at('text').focus(); at('text').setSelectionRange({before.index('frame') + 3}, {before.index('frame') + 3})")
    page.paste_here(shown)
    page.settle()
    page.same("lines of their own in a script", page.do(TEXT), before.replace("frame", f"fra\n{case['lines'][0]}\nme", 1))
    page.browser.press("z", control=True)
    wait_for(page.browser, f"return document.getElementById('text').value === {json.dumps(before)}")
    page.settle()
    page.same("nothing is said any more", page.do("return at('read-as').hidden"), True)
    plain = '# [a note] with {braces} of "kind"\n'
    page.paste(plain)
    page.same("what is no schedule", [page.do(TEXT), page.do("return at('read-as').hidden")], [plain, True])
    page.choose("planned.streams")
    table, beside = page.do(TEXT), page.do("return at('beside').value")
    page.paste(shown)
    page.settle()
    page.same("a schedule that is pasted into a table", [page.do(TEXT), page.do("return at('beside').value")], [table, with_schedule(beside, case["lines"][0])])
    page.choose("first.script")


PASTED = TOP / "tests" / "imports" / "pasted_lines.toml"
# What each case of these rows comes to, by the page's own module.
READ_PASTED = """return rows.map(({ input, tolerant, device }) => {
    const { text, back, passed } = tolerant ? plainOf(input) : asItStands(input);
    const found = device === null ? { text, others: null } : linesOfDevice(text, device);
    const kept = [...text].every((sign, place) => input[back(place)] === sign);
    return [found.text, Object.fromEntries(passed.map((it) => [it.kind, [it.lines, it.first]])), found.others && [found.others.lines, found.others.first, found.others.device], kept];
});"""
KINDS_PASSED = {
    "byte_order": "a byte order mark", "prompt": "the prompt of a shell", "sudo": "sudo", "path": "the path of tc", "blanks": "blanks behind a backslash", "quotes": "quotation marks",
    "semicolon": "semicolons", "fp": "fp (frame preemption)", "txtime_delay": "txtime-delay", "txtime_assist": "flags 0x1 (txtime assist)",
}


def pasted_cases():
    """The rows of pasted lines whose octets are a text."""
    octets = lambda value: bytes.fromhex(value["hex"]) if isinstance(value, dict) else value.encode("latin-1")
    for case in tomllib.loads(PASTED.read_text(encoding="utf-8"))["case"]:
        try:
            yield {**case, "input": octets(case["input"]).decode(), "output": octets(case["output"]).decode(), "tolerant": case.get("tolerant", False),
                   "passed": {kind.lower(): told for kind, told in case.get("passed", {}).items()}}
        except UnicodeDecodeError:
            pass


def passed_said(passed, others=None):
    """What the page says of what was passed over."""
    lines = lambda number: f"{number} line{'s' * (number != 1)}"
    parts = [f"{words} ({lines(passed[kind][0])}, the first: {passed[kind][1]})" for kind, words in KINDS_PASSED.items() if kind in passed]
    parts += [f"tc lines of other devices, such as {others[2]} ({lines(others[0])}, the first: {others[1]})"] if others else []
    return f"Passed over: {', '.join(parts)}." if parts else ""


def try_pasted_rows(page):
    """The module of the page reads each row as the program does; and the page answers to it, and says what was passed over."""
    cases = list(pasted_cases())
    page.same("rows of pasted lines", len(cases) >= 55, True)
    rows = [{"input": it["input"], "tolerant": it["tolerant"], "device": it.get("device")} for it in cases]
    told = page.do(f"{modules('pasted.js', [])} const rows = {json.dumps(rows)}; {READ_PASTED}")
    for case, got in zip(cases, told):
        page.same(f"pasted: {case['name']}", got, [case["output"], case["passed"], case.get("others"), True])
    page.choose("first.script")
    for case in (it for it in cases if it["tolerant"] and "\r" not in it["input"]):
        page.set("device", case.get("device", ""))
        page.set("text", case["input"])
        page.run()
        words = ["--tolerant", *(["--device", case["device"]] if "device" in case else [])]
        status, wanted, fault = program("script", *words, text=case["input"].encode())
        page.same(f"pasted: {case['name']}, said", page.text("passed").split(" Line ")[0], passed_said(case["passed"], case.get("others")))
        if status == 0:
            page.same(f"pasted: {case['name']}, answers", page.text("answers"), wanted.decode())
        else:
            line = re.search(r"script line (\d+)", fault.decode())[1]
            page.same(f"pasted: {case['name']}, fault", page.text("fault-text").split(":")[0], f"Line {line}")
    page.set("device", "")


SHELL = """$ sudo tc qdisc replace dev eth0 parent root handle 100 taprio \\
> num_tc 2 map 0 1 base-time 0 \\
> sched-entry S 01 "300000" sched-entry S 02 200000 ;
"""
SHELL_PLAIN = SHELL.replace("$ sudo ", "").replace("> ", "").replace('"', "").replace(" ;", " ")
SHELL_SAID = "Passed over: the prompt of a shell (3 lines, the first: 1), sudo (1 line, the first: 1), quotation marks (1 line, the first: 3), semicolons (1 line, the first: 3)."


def try_pasted(page):
    """Lines that are pasted from a shell are read in each job that reads tc lines; a fault is underlined, and gates are moved, where they stand."""
    try_pasted_rows(page)
    for job, words, beside in (("check", ["check"], None), ("script", ["script"], None), ("streams", ["streams"], "stream 1 1 64 250us 0ns 2\n")):
        page.choose({"check": "windows.schedules", "script": "first.script", "streams": "planned.streams"}[job])
        page.set("windows", False)
        page.set("beside" if beside else "text", SHELL)
        if beside:
            page.set("text", beside)
        page.run()
        with tempfile.NamedTemporaryFile() as plain:
            pathlib.Path(plain.name).write_text(SHELL_PLAIN)
            wanted = program(*words, *(["--with", plain.name] if beside else []), text=(beside or SHELL_PLAIN).encode())[1]
        page.same(f"pasted lines of {job}", [page.text("answers").strip(), page.text("passed")], [wanted.decode().strip(), SHELL_SAID])
    page.choose("drive.bounds")
    table = page.do("return at('beside').value")
    page.set("text", SHELL)
    page.run()
    with tempfile.NamedTemporaryFile() as streams:
        pathlib.Path(streams.name).write_text(table)
        page.same("pasted lines of bounds", [page.text("answers").encode(), page.text("passed")], [program("bounds", streams.name, text=SHELL_PLAIN.encode())[1], SHELL_SAID])
    page.choose("line.paths")
    ports, network = page.do(TEXT), page.do("return at('beside').value")
    page.set("text", re.sub("(?m)^tc ", "root@box:~# /sbin/tc ", ports))
    page.run()
    with tempfile.NamedTemporaryFile() as given:
        pathlib.Path(given.name).write_text(network)
        page.same("pasted lines of paths", page.text("answers").encode(), program("paths", given.name, text=ports.encode())[1])
    page.same("what was passed over there", page.text("passed").startswith("Passed over: the prompt of a shell ("), True)
    page.choose("machine.pcap")
    page.set("until", "")
    page.set("text", re.sub("(?m)^tc ", "$ sudo tc ", page.do(TEXT)))
    page.run()
    page.same("pasted lines of a replay", page.text("answers").encode(), replayed()[0])
    page.choose("schedule.script")
    page.click("#compare")
    page.set("other", SHELL)
    page.run()
    page.same("pasted lines of the other schedule", [page.text("passed"), page.do("return at('other-fault').hidden && !at('differences-box').hidden")], [f"Of the other schedule: {SHELL_SAID}", True])
    try_pasted_places(page)
    try_pasted_choices(page)
    page.choose("first.script")


def try_pasted_places(page):
    """What is told of a word is shown where it stands behind what was passed over."""
    page.choose("first.script")
    page.set("text", SHELL.replace("base-time", "base_time"))
    page.run()
    page.same("the word that is wrong", page.do(ODD), ["base_time"])
    page.set("text", SHELL)
    page.run()
    page.do("document.querySelector('#gates .edge').focus()")
    press_edge(page, "ArrowRight")
    wait_for(page.browser, "return document.getElementById('text').value.includes('301000')", 5)
    page.settle()
    page.same("a gate that is moved", page.do(TEXT), SHELL.replace("300000", "301000").replace("200000", "199000"))


def try_pasted_choices(page):
    """Lines are read as they stand where that is chosen; of one device alone; and lines of two devices are told."""
    page.choose("first.script")
    comment = "# tc qdisc del dev eth0 root\nframe 1 0 60\nclock 1000000\n"
    page.set("text", comment)
    page.run()
    page.same("a prompt of root", page.text("passed"), "Passed over: the prompt of a shell (1 line, the first: 1).")
    page.do("at('exact').click()")
    page.run()
    page.same("as it stands", [page.text("answers").encode(), page.do("return at('passed').hidden")], [program("script", text=comment.encode())[1], True])
    page.reload()
    page.same("the choice is kept", page.do("return at('exact').checked"), True)
    page.do("at('exact').click()")
    both = "".join(SHELL_PLAIN.replace("eth0", it) for it in ("eth0", "eth1"))
    page.set("text", both)
    page.run()
    page.same("two devices", page.text("passed"), "Line 4 is of device eth1, line 1 of eth0: one port answers all lines. Device, in the options, takes those of one.")
    page.set("device", "eth1")
    page.run()
    page.same("one of two devices", [page.text("answers").encode(), page.text("passed")],
              [program("script", "--device", "eth1", text=both.encode())[1], "Passed over: tc lines of other devices, such as eth0 (1 line, the first: 1)."])
    page.set("device", "")


def try_rows(page):
    """Only rows of classes of the map, and of frames, are shown; what lies in them is found and marked there; the legend is whole at each width."""
    page.choose("first.script")
    page.same("eight rows without a map", page.do(LABELS), ["wire", *(f"class {it}" for it in range(7, -1, -1))])
    page.type(ROWS)
    page.picture("rows", ROWS.encode())
    page.same("rows of the map and of frames", page.do(LABELS), ["wire", "class 7", "class 1", "class 0"])
    tops = page.do("""const top = (it) => it.getBoundingClientRect().top; const label = (name) => top([...document.querySelectorAll('#canvas text')].find((it) => it.textContent === name));
        return ['change 1', 'class 7', 'class 1', 'class 0', 'wire'].map(label)""")
    page.same(f"one below the other: {tops}", all(30 <= other - one <= 40 for one, other in zip(tops, tops[1:])), True)
    page.do("at('canvas').scrollIntoView({ block: 'center' })")
    for name, told in (("rect.f[y='68']", "Frame 1, class 7"), ("path.d:not(.h)", "Frame 3")):
        page.same(f"tip of {name}", page.do(f"{OVER} return over(document.querySelector(`#canvas {name}`))").split("\n")[0], told)
    page.same("tip of a band", page.do(f"{OVER} return over([...document.querySelectorAll('#canvas rect.o')].find((it) => Number(it.getAttribute('y')) === 58))").split("\n")[0], "Class 7 is open")
    place = page.do("const r = document.querySelector(`#canvas rect.f[y='68']`).getBoundingClientRect(); return [(r.left + r.right) / 2, (r.top + r.bottom) / 2]")
    page.browser.drag(place, place)
    page.browser.drag((1, 1), (1, 1))
    page.same("the ring is about its bar", page.do("""const [ring, bar] = ['.ring', `rect.f[y='68']`].map((it) => document.querySelector(`#canvas ${it}`).getBoundingClientRect());
        return ring.top < bar.top && bar.bottom < ring.bottom && ring.bottom - ring.top < 40"""), True)
    page.choose("schedule.script")
    page.same("eight rows by a map of eight", len(page.do(LABELS)), 9)
    for width in (1366, 820, 390, 320):
        at_size(page, width, 800)
        for number, text in enumerate((ROWS, many_frames(random.Random(5), 1500))):
            page.set("text", text)
            page.run()
            page.same(f"legend at {width}", page.do(CUT), [5 + 2 * number, 0])
    page.browser.look()


def many_frames(chance, number):
    """A script of so many frames, which come faster or slower from time to time."""
    lines, now, slow = ["tc qdisc replace dev x root taprio num_tc 2 map 0 1 base-time 0 sched-entry S 02 10000 sched-entry S 01 10000"], 0, 3
    for frame in range(number):
        if frame % 500 == 0:
            slow = chance.choice((1, 3, 12))
        now += chance.randrange(1, slow * 3_000_000)
        lines.append(f"clock {now}\nframe {frame} {chance.randrange(2)} {chance.choice((60, 60, 300))}")
    return "\n".join(lines) + f"\nclock {now + 10**9}\n"


MANY = many_frames(random.Random(6), 5000)
SHADES = """return [...document.querySelectorAll('#canvas rect.v')].filter((it) => Number(it.getAttribute('y')) === 356)
    .map((it) => ['x', 'width', 'fill-opacity'].map((name) => Number(it.getAttribute(name))))"""
# The milliseconds that shades of 100,000 frames take, whose times the worker works out: of all as one bar, and of 10,000 as bars of their own,
# beside those in which the text of these is parsed.
SHADED = """
const wire = Array.from({ length: 100000 }, (_, place) => ({ class: place % 8, start: 3000000n * BigInt(place) + 10n ** 18n, end: 3000000n * BigInt(place) + 10n ** 18n + 1000000n }));
const times = timesOf(wire);
const bar = (x, y, width) => `<rect class="f" x="${x.toFixed(2)}" y="${y}" width="${width}" height="16"/>\\n`;
const one = Array.from({ length: 9 }, (_, place) => bar(64, 68 + 36 * place, '1104.00')).join('');
const many = Array.from({ length: 10000 }, (_, place) => bar(64 + place * 0.1104, 68 + 36 * (7 - place % 8), '2.00') + bar(64 + place * 0.1104, 356, '2.00')).join('');
return [[one, 100000], [many, 10000]].flatMap((it) => Array(8).fill(it)).map(([text, number]) => { const begun = performance.now();
    const { number: gone } = shaded(text, { from: 10n ** 18n, to: 10n ** 18n + 3000000n * BigInt(number), width: 1200 }, times); const took = performance.now() - begun;
    new DOMParser().parseFromString(`<svg xmlns="http://www.w3.org/2000/svg">${text}</svg>`, 'image/svg+xml'); return [took, performance.now() - begun - took, gone]; });
"""


def try_shades(page):
    """Where frames are closer than a pixel, each pixel of the wire is shaded by how full it is, by the program's table; bars of a pixel and more stay."""
    page.choose("first.script")
    for number, text in enumerate((MANY, many_frames(random.Random(7), 14000))):
        give(page, "many.script", text.encode())
        page.settle()
        page.picture("many frames", text.encode())
        wide = page.do("return Number(at('frame').dataset.width)") - 96
        frames = [tuple(int(it) for it in row.split(",")[4:6]) for row in program("frames", text=text.encode())[1].decode().splitlines()[1:]]
        last = int(re.findall(r"^clock (\d+)$", text, re.M)[-1])
        full = [0.0] * (wide + 1)
        for begin, end in frames:
            left, right = begin * wide / last, end * wide / last
            for pixel in range(int(left), int(right) + 1):
                full[pixel] += max(0.0, min(right, pixel + 1) - max(left, pixel))
        shades = [0.0] * (wide + 1)
        for x, width, share in page.do(SHADES):
            for pixel in range(int(x) - 64, int(x) - 64 + int(width)):
                shades[pixel] = (share - 0.25) / 0.75
        # (the shades are 32, and the page takes the end of the time that is shown from the ticks)
        apart = [(pixel, one, other) for pixel, (one, other) in enumerate(zip(full, shades)) if abs(one - other) > 0.5 / 32 + 0.015 and not (other and one < 1 / 32)]
        page.same(f"shades of {len(frames)} frames", apart[:5], [])
        page.same("bars in whose place shades are", page.do("return Number(document.querySelector('#canvas svg').dataset.shaded)") > 0, True)
        page.same("of full and of empty pixels", [max(shades) > 0.6, min(it for it in shades if it) < 0.3], [True, True])
        page.same("no bar of many frames is seen", page.do("return [...document.querySelectorAll('#canvas rect.f')].filter((it) => it.getBoundingClientRect().width > 4 && Number(it.getAttribute('y')) < 380).length"), 0)
        page.browser.shoot(SHOTS / f"{page.browser.name}-shades-{number}.png")
    page.set("to", "60 us")
    page.set("from", "0")
    page.click("#draw")
    page.settle()
    page.same("no shades where each frame is seen", page.do("return [...document.querySelectorAll('#canvas .v')].length"), 0)
    page.choose("priorities.script")
    page.same("none in an example", page.do("return [...document.querySelectorAll('#canvas .v')].length"), 0)
    told = page.do(modules("shades.js", []) + SHADED)
    page.same(f"100,000 frames are shaded in 50 ms: {told}", [min(told[:8])[0] < 50, min(told[8:])[0] < 2 * min(it[1] for it in told[8:]), told[0][2], told[8][2]], [True, True, 9, 20000])


def try_whole(page):
    """A run does not fold the result up and down, and all of the picture is printed."""
    page.choose("schedule.script")
    page.do("""window.heights = []; const note = () => heights.push(Math.round(at('view').getBoundingClientRect().height)); note();
        window.watched = new ResizeObserver(note); watched.observe(at('view')); window.noted = new MutationObserver(note); noted.observe(at('view'), { childList: true, subtree: true, attributes: true })""")
    for _ in range(3):
        page.run()
        time.sleep(0.1)
    heights = page.do("watched.disconnect(); noted.disconnect(); return heights")
    page.same(f"heights during a run: {sorted(set(heights))}", max(heights) - min(heights) <= 1 and len(heights) > 3, True)
    if not isinstance(page.browser, Chromium):
        return
    for width in (1366, 390):
        at_size(page, width, 800)
        page.browser.call("Emulation.setEmulatedMedia", media="print", features=[])
        page.browser.resize(700, 1000)
        page.same(f"printed from {width}", page.do("""const [svg, frame] = ['#canvas svg', '#frame'].map((it) => document.querySelector(it).getBoundingClientRect());
            return [svg.right <= frame.right + 1, svg.bottom <= frame.bottom + 1, frame.right <= innerWidth, at('zoom').checkVisibility(), at('run').checkVisibility(), document.documentElement.scrollWidth <= innerWidth,
              at('text').scrollHeight <= at('text').clientHeight + 2]"""), [True, True, True, False, False, True, True])
        page.browser.shoot(SHOTS / f"chromium-print-{width}.png")
        page.browser.call("Emulation.setEmulatedMedia", media="", features=[])
        page.browser.look()
        page.settle()


def try_story(page):
    """Each step of the story ends without a fault, and has its sentence."""
    for value in page.do("return [...document.querySelectorAll('#example optgroup')[0].children].map((it) => it.value)"):
        page.choose(value)
        page.same(f"{value} is done", page.text("status")[:4], "Done")
        page.same(f"{value} has a sentence", page.text("sentence") != "", True)


def packed(text):
    """A text as a link carries it."""
    made = zlib.compressobj(wbits=-15)
    return base64.urlsafe_b64encode(made.compress(text.encode()) + made.flush()).decode().rstrip("=")


def give(page, name, octets):
    """Drops a file on the page."""
    page.do(f"""const data = new DataTransfer(); data.items.add(new File([Uint8Array.from({list(octets)})], {json.dumps(name)}));
        document.body.dispatchEvent(new DragEvent('drop', {{ dataTransfer: data, bubbles: true, cancelable: true }}))""")
    time.sleep(0.3)
    page.settle()


def try_files(page):
    page.choose("first.script")
    text = b"frame 7 3 100\nclock 5000000\n"
    give(page, "my.script", text)
    page.answers("a file", program("script", text=text)[1])
    page.do("at('text').focus()")
    page.browser.type("# more")
    page.same("an input has the name of its file", page.kept()[0], "my.script")
    page.do("at('text').focus()")
    page.browser.press("a", control=True)
    page.browser.type(text.decode())
    wait_for(page.browser, FRESH, 3)
    give(page, "my.pcapng", bytes.fromhex("0a0d0d0a1c000000"))
    page.same("pcapng", page.text("read-as"), "This is a capture in pcapng, and can't be read: capture block 0 at octet 0: ShortBlock. What stood here stays.")
    page.same("and the text stays", page.do("return at('text').value"), text.decode())
    for name, octets, why in (("a.gz", b"\x1f\x8b\x08\0", "this is a gzip file. Unpack it first: gunzip FILE"), ("a.png", b"\x89PNG\r\n\x1a\n\0", "this is neither text nor a classic pcap file.")):
        give(page, name, octets)
        page.same(name, page.text("status"), f"{name}: {why}")
    give(page, "machine.pcap", (EXAMPLES / "machine.pcap").read_bytes())
    page.same("a capture", page.do("return at('form').elements.job.value"), "replay")
    page.same("it is run", page.text("verdict")[:15], "12 frames sent,")
    page.do("location.reload()")
    time.sleep(0.5)
    page.settle()
    page.same("kept over a reload", [page.text("capture-name"), page.text("verdict")[:15]], ["machine.pcap, 936 octets", "12 frames sent,"])
    page.open(f"#job=replay&until=1+ms&text={packed('clock 1000000')}")
    page.same("no capture", page.text("fault-text")[:21], "No capture is chosen:")
    page.open("")
    page.choose("planned.streams")
    table = b"stream 5 7 60 250us 20us 3\nstream 9 6 100 1ms 0us 2\n"
    give(page, "my.streams", table)
    page.same("a table", page.do("return [at('form').elements.job.value, at('text').value]"), ["streams", table.decode()])
    page.same("its frames leave", page.text("verdict")[:51], "As a script, run to 1 ms after its end: 5 frames sent"[:51])


MOST_OCTETS = 1_300_000  # of the page


def try_weight(page):
    """The page is small, and has its module whole."""
    page.same("octets of the page", len(PAGE.read_bytes()) <= MOST_OCTETS, True)
    page.same("its module is packed", module_in(PAGE.read_text(encoding="utf-8"))[:4], b"\0asm")


PCAPNG = TOP / "tests" / "imports" / "pcapng.toml"
# The capture that stands in the page, as it is kept for a reload.
KEPT_CAPTURE = "return JSON.parse(sessionStorage.getItem('taprio')).capture ?? ''"


def try_pcapng(page):
    """Captures in pcapng are read by the rule of the program's `--format auto`, where they are dropped and where they are pasted."""
    page.choose("machine.pcap")
    script = "clock 1000\n"
    page.set("text", script)
    page.run()
    for number, case in enumerate(tomllib.loads(PCAPNG.read_text(encoding="utf-8"))["case"]):
        name, octets = case["name"], bytes.fromhex(case["input"])
        before = page.do(KEPT_CAPTURE)
        if number % 4 == 1:
            page.do(f"""const data = new DataTransfer(); data.items.add(new File([Uint8Array.from({list(octets)})], 'my.pcapng'));
                const event = new Event('paste', {{ bubbles: true, cancelable: true }}); Object.defineProperty(event, 'clipboardData', {{ value: data }});
                at('text').dispatchEvent(event)""")
            time.sleep(0.3)
            page.settle()
        else:
            give(page, "my.pcapng", octets)
        wait_for(page.browser, "return document.getElementById('read-as').textContent !== ''")
        page.settle()
        said = page.text("read-as")
        if "block" in case:
            page.same(f"{name}: fault", said, f"This is a capture in pcapng, and can't be read: capture {case['block']}. What stood here stays.")
            page.same(f"{name}: the capture stays", page.do(KEPT_CAPTURE), before)
            continue
        classic = bytes.fromhex(case["classic"])
        frames = records_in(classic)
        note = " Note: moments are rounded down to whole nanoseconds." if case.get("rounded") else ""
        page.same(f"{name}: what it is", said, f"This is a capture in pcapng: read as a classic one of {frames} frame{'s' * (frames != 1)}.{note}")
        page.same(f"{name}: the capture", base64.b64decode(page.do(KEPT_CAPTURE)), classic)
        page.same(f"{name}: it is run", page.text("status")[:5], "Done:")
    page.choose("first.script")


def records_in(octets):
    """How many records a classic capture has."""
    at, found = 24, 0
    while at < len(octets):
        at += 16 + int.from_bytes(octets[at + 8 : at + 12], "little")
        found += 1
    return found


MARKED = "return [...document.querySelectorAll('#classes td.changed')].map((it) => [it.parentElement.cells[0].textContent, it.textContent, it.title])"
NEW_LINES = "const found = CSS.highlights.get('changed'); return found ? [...found].map((it) => it.startContainer.data.slice(it.startOffset, it.endOffset)) : null"


def try_changed(page):
    """What the last change altered is marked, in the tables and in the answers, and of a move by hand all of the move."""
    page.choose("first.script")
    page.same("an example has no marks", [page.do(MARKED), page.text("changed"), page.do(NEW_LINES)], [[], "", None])
    text = "frame 1 3 100\nframe 2 0 60\nclock 5000000\n"
    page.type(text)
    page.same("another text has none", [page.do(MARKED), page.text("changed")], [[], ""])
    page.do(f"at('text').setSelectionRange({text.index('60')}, {text.index('60') + 2})")
    page.browser.type("600")
    wait_for(page.browser, FRESH, 3)
    # (the second frame is longer now, and waits as long as before)
    page.same("a longer frame alters no wait", [page.do(MARKED), page.text("changed")], [[], "The last change altered none of these numbers."])
    page.same("but a line of the answers", page.do(NEW_LINES), [it for it in page.text("answers").split("\n") if it.startswith("start 2 ")])
    page.do(f"at('text').setSelectionRange({text.index('100')}, {text.index('100') + 3})")
    page.browser.type("300")
    wait_for(page.browser, FRESH, 3)
    marked = page.do(MARKED)
    page.same("a longer frame before it alters the waits", [it[:2] for it in marked], 3 * [["0", "2.592 us"]])
    page.same("each says what it was", [it[2] for it in marked], 3 * ["2592000 ps; before: 992 ns"])
    page.same("how many", page.text("changed"), "Marked: 3 values that the last change altered.")
    page.run()
    page.same("they stay in a run of the same", [page.do(MARKED), page.text("changed")], [marked, "Marked: 3 values that the last change altered."])
    page.browser.shoot(SHOTS / f"{page.browser.name}-changed.png")
    last = page.do(TEXT)
    page.set("text", f"{last}clok\n")
    page.run()
    page.same("a run with a fault tells no numbers", [page.do("return at('fault').hidden"), page.text("changed")], [False, ""])
    page.set("text", last.replace("300", "400"))
    wait_for(page.browser, FRESH, 3)
    page.same("and the next one is compared with that before it", [it[1:] for it in page.do(MARKED)], 3 * [["3.392 us", "3392000 ps; before: 2.592 us"]])
    page.choose("schedule.script")
    page.same("and go with another input", [page.do(MARKED), page.text("changed")], [[], ""])
    page.type("tc qdisc replace dev eth0 root taprio num_tc 2 map 0 1 base-time 0 sched-entry S 02 100000 sched-entry S 01 200000\nclock 300000000\nframe 1 0 60\nclock 900000000\n")
    page.do("document.querySelector('.edge').focus()")
    press_edge(page, "ArrowLeft ArrowLeft ArrowLeft")
    wait_for(page.browser, FRESH, 5)
    page.same("three steps by keys are one move", page.do(MARKED), 3 * [["0", "97 us", "97000000 ps; before: 100 us"]])
    page.choose("first.script")


INK = "return [...document.querySelectorAll('#editor .letters div')].map((it) => [...it.children].map((part) => [part.className, part.textContent]))"
ODD = "return [...document.querySelectorAll('.letters .odd')].filter((it) => it.checkVisibility()).map((it) => it.textContent)"
WRONG_COMMANDS = [
    "tc qdisc replace dev eth0 root taprio basetime 0",
    "tc qdisc replace dev eth0 root taprio base-time 1us sched-entry S 01 300000",
    "tc qdisc replace dev eth0 root taprio base-time 1 base-time 2 sched-entry S 01 300000",
    "tc qdisc replace dev eth0 root taprio num_tc 1 sched-entry S 01 300000",
    "tc qdisc replace dev eth0 root taprio num_tc 9 map 0 sched-entry S 01 300000",
    "tc qdisc replace dev eth0 root taprio num_tc 1 map 0 0 0 0 0 0 0 0 0 0 0 0 0 0 0 0 0 sched-entry S 01 300000",
    "tc qdisc replace dev eth0 root taprio num_tc 1 map 1 sched-entry S 01 300000",
    "tc qdisc replace dev eth0 root taprio num_tc 2 map 0 1 queues 1@0 sched-entry S 01 300000",
    "tc qdisc replace dev eth0 root taprio num_tc 1 map 0 queues 0@0 sched-entry S 01 300000",
    "tc qdisc replace dev eth0 root taprio num_tc 2 map 0 1 queues 1@0 1@0 sched-entry S 01 300000",
    "tc qdisc replace dev eth0 root taprio num_tc 1 map 0",
    "tc qdisc replace dev eth0 root taprio num_tc 1 map 0 sched-entry S 01 0",
    "tc qdisc replace dev eth0 root taprio num_tc 1 map 0 sched-entry S 1ff 300000",
    "tc qdisc replace dev eth0 root taprio num_tc 1 map 0 sched-entry H 01 300000",
    "tc qdisc replace dev eth0 root taprio num_tc 1 map 0 flags 0x1 sched-entry S 01 300000",
    "tc qdisc replace dev eth0 root taprio sched-entry S 01 300000",
    "tc qdisc replace dev eth0 root taprio num_tc 1 map 0 max-sdu 9000 sched-entry S 01 300000",
    "tc qdisc replace dev eth0 root taprio num_tc 1 map 0 sched-entry S 01 300000 sched-entry S 01 300",
    "tc qdisc replace dev eth0 root taprio num_tc 1 map 0 cycle-time 100 sched-entry S 01 300000",
    "tc qdisc replace dev eth0 root taprio num_tc 1 map 0 cycle-time 2000000000000 sched-entry S 01 300000",
    "tc qdisc replce dev eth0 root taprio num_tc 1 map 0 sched-entry S 01 300000",
    "tc filter replace dev eth0 root taprio num_tc 1 map 0 sched-entry S 01 300000",
]
WRONG_LINES = ["clok 5", "frame 1 300 60", "frame x 0 60", "frame 1 0", "frame 1 0 60 tagged more", "frame 1 0 60 taged", "count 8", "count", "clock 5us", "clock 9223372036854775807001", "query now"]
WRONG_STREAMS = ["strem 1 7 60 1ms 0us 1", "stream 1 7 60 1 0us 1", "stream 1 7 60 1ms soon 1", "stream 1 7 60 1ms any", "stream 1 7 60 1ms any 1 shortest x", "stream 1 7 60 1ms 0us 1 jitter 5", "stream 1 7 60 1ms 0us 1 tagged deadline 1us deadline 1us",
                 "stream 1 7 60 0.0001ns 0us 1", "stream 1 7 60 1ms 0us 1 more"]


def marked_word(errors):
    """The word of a line that the program marks with --explain: nothing where it marks none, and a blank where one lacks at the end."""
    rows = errors.decode().split("\n")
    place = next((at for at, it in enumerate(rows) if it.strip() and not it.strip("^ ")), None)
    if place is None:
        return None
    shown, marks = rows[place - 1], rows[place]
    word = shown[marks.index("^") : marks.rindex("^") + 1]
    return word or " "


def try_ink(page):
    """Words have colours where they stand, as they are typed and as they are scrolled; what a fault is about is underlined, as --explain marks it."""
    page.choose("first.script")
    page.type("# a comment 5\ntc qdisc replace dev eth0 root taprio num_tc 1 \\\n  map 0 sched-entry S 0f 300000\nframe 1 0 60 tagged\nfoo 5\n")
    page.same("colours", page.do(INK), [
        [["comment", "# a comment 5"]],
        [["key", "tc"], *[["option", it] for it in ("qdisc", "replace", "dev", "root", "taprio", "num_tc")], ["number", "1"]],
        [["option", "map"], ["number", "0"], ["option", "sched-entry"], ["number", "0f"], ["number", "300000"]],
        [["key", "frame"], ["number", "1"], ["number", "0"], ["number", "60"], ["option", "tagged"]],
        [["odd", "foo"], ["number", "5"]],
        [],
    ])
    letters = "return document.querySelector('#editor .letters').innerText.replace(/\\n$/, '')"
    page.same("the letters are those of the text", page.do(letters).split("\n")[1], page.do(TEXT).split("\n")[1])
    page.same("contrast of colours", page.do(CONTRAST), [])
    page.browser.shoot(SHOTS / f"{page.browser.name}-ink.png")
    page.set("text", "".join(f"frame {it} 0 60\n" for it in range(500)))
    page.do("at('text').scrollTop = 4000")
    time.sleep(0.2)
    page.same("scrolled", page.do("const number = document.querySelector('#editor .numbers').textContent.split('\\n')[0]; return document.querySelector('#editor .letters div').textContent === `frame ${number - 1} 0 60`"), True)
    page.set("text", f"frame 1 0 60\n# {200 * 'long '}\n")
    page.do("at('text').scrollLeft = 133")
    time.sleep(0.2)
    beside = page.do("const [one, other] = [at('text'), document.querySelector('#editor .letters')].map((it) => it.getBoundingClientRect()); return [other.left - one.left + 133 - at('text').clientLeft, other.top - one.top]")
    page.same(f"the letters lie where those of the text area do, but for {beside} pixels", [abs(it) < 0.1 for it in beside], [True, True])
    page.set("text", "frame 1 0 60\n")
    wait_for(page.browser, FRESH, 3)
    page.do("at('text').focus(); at('text').select()")
    page.browser.shoot(SHOTS / f"{page.browser.name}-selected.png")
    for job, example, lines in (("script", "first.script", WRONG_COMMANDS + WRONG_LINES), ("streams", "planned.streams", WRONG_STREAMS)):
        page.choose(example)
        # (as they are pasted, some of these lines have no fault)
        page.set("exact", True)
        for line in lines:
            text = f"{line}\n"
            wanted = marked_word(program(job, "--explain", text=text.encode())[2])
            page.set("text", text)
            page.run()
            page.same(f"underlined in {line}", page.do(ODD), [line if wanted is None else wanted])
    page.choose("first.script")
    # a line of 260,000 characters, as of a file whose line ends were lost
    page.do("at('text').select()")
    begun = time.monotonic()
    page.paste("frame 1 0 60 " * 20_000)
    page.settle()
    page.same("a long line is there at once", [time.monotonic() - begun < 3, page.do("return at('text').value.length")], [True, 260_000])
    page.choose("first.script")


STALE = "return ['view', 'results'].map((it) => at(it).classList.contains('stale'))"
# What is too long to be run while it is typed.
TOO_LONG = "# " + "long " * 6000 + "\n"


def try_stale(page):
    page.choose("first.script")
    page.same("fresh", page.do(STALE), [False, False])
    text = f"{TOO_LONG}frame 1 0 60\nclock 1000000\nquery\n"
    page.set("text", text)
    page.same("stale", page.do(STALE), [True, True])
    time.sleep(0.8)
    page.same("it is not run by itself, and the page says so", [page.do(STALE), page.text("status")],
              [[True, True], "Changed since this was run, and too long to be run while you type. Run it (Ctrl+Enter in the text)."])
    page.do("location.reload()")
    time.sleep(0.5)
    page.settle()
    page.same("kept over a reload", page.do("return at('text').value"), text)
    page.same("and run", page.do(STALE), [False, False])
    page.set("rate", "100")
    page.same("stale by an option", page.do(STALE), [True, True])
    page.run()
    page.same("run by the button", page.do(STALE), [False, False])
    page.answers("what is too long, run by the button", program("script", "--rate", "100", text=text.encode())[1])
    page.choose("schedule.script")
    page.click("[data-step=nearer]")
    page.settle()
    page.same("zoomed", page.do("return at('from').value"), "15 us")
    page.type("frame 1 0 60\nclock 5000000\n")
    page.same("another text is shown whole", page.do("return at('from').value"), "")
    page.picture("another text", b"frame 1 0 60\nclock 5000000\n")
    page.click("[data-step=nearer]")
    page.settle()
    give(page, "other.script", b"frame 2 0 60\nclock 9000000\n")
    page.picture("another file", b"frame 2 0 60\nclock 9000000\n")
    page.set("text", "".join(f"frame {(it * 7919) % 1000003} {it % 8} {60 + it * 31 % 1400}\n" for it in range(6000)))
    page.click("#link")
    wait_for(page.browser, "return !document.getElementById('long-link').hidden")
    page.same("a long link", page.do("return at('link-row').hidden"), True)
    page.same("the text instead", page.saved("save-text").decode(), page.do("return at('text').value"))


# How many workers of the page there are, and were at most at one time.
COUNTED = """window.alive = 0; window.most = 0; const Old = window.Worker;
    window.Worker = class extends Old { constructor(...words) { super(...words); this.ends = false; window.alive += 1; window.most = Math.max(window.most, window.alive); }
        terminate() { if (!this.ends) window.alive -= 1; this.ends = true; super.terminate(); } };"""
FRESH = "return document.getElementById('stop').disabled && !document.getElementById('view').classList.contains('stale')"


def try_live(page):
    """What is typed, and an option that is changed, is run by itself: one run at a time; a fault leaves the last picture."""
    page.choose("first.script")
    text = "frame 1 3 100\nframe 2 0 60\nclock 5000000\n"
    page.do("at('text').focus()")
    page.browser.press("a", control=True)
    page.browser.type(text)
    page.same("it is marked at once", page.do(STALE), [True, True])
    wait_for(page.browser, FRESH, 3)
    page.answers("what is typed", program("script", text=text.encode())[1])
    page.picture("what is typed", text.encode())
    page.same("the key stays in the text", page.do("return document.activeElement.id"), "text")
    page.set("rate", "100")
    wait_for(page.browser, FRESH, 3)
    page.answers("an option", program("script", "--rate", "100", text=text.encode())[1])
    drawn = page.do("return at('canvas').innerHTML")
    page.do("at('text').focus()")
    page.browser.press("a", control=True)
    page.browser.type(f"{text}clok")
    wait_for(page.browser, "return !document.getElementById('fault').hidden", 3)
    page.same("a fault", page.text("fault-text"), "Line 4: UnknownLine, the first word of the line is none that may stand there.")
    page.same("the last picture stays, as one of an earlier text", [page.do("return at('canvas').innerHTML") == drawn, page.do(STALE), page.text("status")],
              [True, [True, True], "What stands here now has a fault. What is shown is of an earlier text."])
    page.browser.shoot(SHOTS / f"{page.browser.name}-typed-fault.png")
    page.click("[data-step=nearer]")
    page.settle()
    page.same("the fault stays when the picture is zoomed", page.do("return at('fault').hidden"), False)
    page.set("until", "soon")
    wait_for(page.browser, "return /until/.test(document.getElementById('fault-text').textContent)", 3)
    page.same("a value that is refused", page.do("return [at('frame').hidden, at('results').hidden]"), [False, False])
    page.set("until", "")
    page.set("rate", "1000")
    page.set("text", text)
    wait_for(page.browser, FRESH, 3)
    page.same("the fault goes", page.do("return at('fault').hidden"), True)
    page.choose("planned.streams")
    page.do(COUNTED)
    page.set("text", "stream 1 7 60 20us 0us 1500000\n")
    wait_for(page.browser, "return !document.getElementById('stop').disabled", 3)
    table = "stream 1 7 60 250us 20us 2\n"
    for it in (table + "#", table + "##", table):
        time.sleep(0.4)
        page.set("text", it)
    wait_for(page.browser, FRESH, 5)
    with tempfile.NamedTemporaryFile() as beside:
        beside.write(page.do("return at('beside').value").encode())
        beside.flush()
        page.answers("a newer run", program("streams", "--with", beside.name, text=table.encode())[1])
    page.same("one run at a time", page.do("return window.most"), 1)
    page.open("")


STORY = "return [...document.querySelectorAll('#example optgroup')[0].children].map((it) => it.value)"


def at_size(page, width, height, dark=False):
    """Gives the window a size, and waits for what is drawn anew for it."""
    page.browser.look(dark, width, height)
    time.sleep(0.3)
    page.settle()


def try_screens(page):
    """That the first screen of each step shows its text, its verdict and its picture without scrolling."""
    for width, height in ((1366, 768), (1280, 900), (390, 844)):
        at_size(page, width, height)
        for name in page.do(STORY):
            page.choose(name)
            page.do("scrollTo(0, 0)")
            seen = "const inside = (it) => { const r = it.getBoundingClientRect(); return r.height > 0 && r.top >= 0 && r.bottom <= innerHeight && r.right <= innerWidth; };"
            page.same(f"what the page is, at {width}", page.do(f"{seen} return inside(document.querySelector('header p'))"), True)
            page.same(f"first screen of {name} at {width}", page.do(f"{seen} return ['text', 'verdict', 'frame'].filter((it) => !inside(at(it)))"), [])
        page.choose("schedule.script")
        page.browser.shoot(SHOTS / f"{page.browser.name}-first-{width}.png")
    page.browser.look()


SMALL = """const svg = document.querySelector('#canvas svg'); const scale = svg.clientWidth / svg.viewBox.baseVal.width;
    return [...svg.querySelectorAll('text')].map((it) => [parseFloat(getComputedStyle(it).fontSize) * scale, it.textContent]).filter(([size]) => size < 11).map(String)"""


def try_sizes(page, dark=False):
    """Each step at each size: what is written and drawn can be told from its ground, labels can be read, and nothing is wider than the window."""
    for width, height in ((1280, 900), (820, 1100), (390, 844), (320, 700)):
        at_size(page, width, height, dark)
        for name in page.do(STORY):
            page.choose(name)
            what = f"{name}, {width} wide{', dark' if dark else ''}"
            page.same(f"contrast, {what}", page.do(CONTRAST), [])
            page.same(f"contrast of marks, {what}", page.do(MARKS), [])
            page.same(f"labels, {what}", page.do(SMALL), [])
            page.same(f"{what} fits", page.do("return document.documentElement.scrollWidth <= document.documentElement.clientWidth"), True)
    page.browser.look(dark)


# A frame of class 1 goes, and another one of its class finds the queue full meanwhile: its cross lies on the bar of the first.
DROPS = "frame 1 1 1514\nclock 1000000\nframe 2 1 1500\nclock 3000000\nframe 3 1 60\nclock 30000000\n"
# Paints the picture as it looks, four times as large, and takes the colours of a cross on a bar: in its middle, beside its strokes, and farther.
PAINTED = """const svg = document.querySelector('#canvas svg'); const copy = svg.cloneNode(true); const scale = 4;
    const [old, made] = [svg, copy].map((it) => [...it.querySelectorAll('*')]);
    old.forEach((it, place) => { for (const name of ['fill', 'stroke', 'stroke-width', 'stroke-linecap', 'stroke-dasharray']) made[place].setAttribute(name, getComputedStyle(it).getPropertyValue(name)); });
    copy.setAttribute('xmlns', 'http://www.w3.org/2000/svg');
    const image = new Image(); window.painted = null;
    image.onload = () => {
      const canvas = document.createElement('canvas'); const box = svg.viewBox.baseVal;
      [canvas.width, canvas.height] = [box.width * scale, box.height * scale];
      const context = canvas.getContext('2d', { willReadFrequently: true }); context.fillStyle = getComputedStyle(document.body).backgroundColor;
      context.fillRect(0, 0, canvas.width, canvas.height); context.drawImage(image, 0, 0, canvas.width, canvas.height);
      const [, x, y] = /^M([\\d.]+) ([\\d.]+)/.exec(svg.querySelector('path.d:not(.h)').getAttribute('d')).map(Number);
      const colour = (right) => [...context.getImageData(Math.round((x + 4 + right - box.x) * scale), Math.round((y + 6 - box.y) * scale), 1, 1).data].slice(0, 3);
      window.painted = [2, 4.6, 9].map(colour);
    };
    image.src = URL.createObjectURL(new Blob([new XMLSerializer().serializeToString(copy)], { type: 'image/svg+xml' }))"""


def ratio(one, other):
    """The contrast of two colours: Web Content Accessibility Guidelines 2.2, the contrast ratio."""
    def light(colour):
        parts = [it / 255 for it in colour]
        parts = [it / 12.92 if it <= 0.04045 else ((it + 0.055) / 1.055) ** 2.4 for it in parts]
        return sum(it * weight for it, weight in zip(parts, (0.2126, 0.7152, 0.0722)))
    darker, lighter = sorted((light(one), light(other)))
    return (lighter + 0.05) / (darker + 0.05)


def try_marks(page):
    """The cross of a dropped frame on a bar, as it is painted, and that waits and changes lie under the bars."""
    page.choose("first.script")
    page.set("room", "1")
    page.set("text", DROPS)
    page.run()
    page.same("a frame is dropped", page.text("verdict")[:32], "2 of 3 frames sent, 1 dropped, l")
    page.do(PAINTED)
    wait_for(page.browser, "return window.painted !== null")
    mark, edge, bar = page.do("return window.painted")
    told = [[int(it) for it in re.findall(r"\d+", page.do(f"return getComputedStyle(document.querySelector('#canvas {name}')).{what}"))[:3]] for name, what in (("path.d:not(.h)", "stroke"), ("path.h", "stroke"), ("rect.f", "fill"))]
    page.same("colours of a cross, its edge and the bar", [mark, edge, bar], told)
    page.same(f"contrast of a cross on a bar, {ratio(mark, edge):.1f} and {ratio(edge, bar):.1f}", min(ratio(mark, edge), ratio(edge, bar)) >= 3, True)
    under = "const bar = document.querySelector('#canvas rect.f'); return [...document.querySelectorAll('#canvas path.w, #canvas path.c')].filter((it) => !it.getAttribute('d').includes('v') && bar.compareDocumentPosition(it) & 4).length"
    page.same("waits and changes on bars", page.do(under), 0)
    page.do("const r = document.querySelector('#canvas path.d:not(.h)').getBoundingClientRect(); at('frame').dispatchEvent(new PointerEvent('pointermove', { clientX: r.left + 4, clientY: r.top + 4, bubbles: true }))")
    page.same("tip of a cross", page.do("return at('tip').innerText").split("\n")[::2], ["Frame 3, class 1", "dropped: Full"])
    dark = page.do("return matchMedia('(prefers-color-scheme: dark)').matches")
    page.browser.shoot(SHOTS / f"{page.browser.name}-dropped{'-dark' if dark else ''}.png")


def try_tabs(page):
    """Each tab shows an example of its own; one's own text goes along where it can, and is there again where it can't."""
    tab = "document.querySelector('input[name=job][value={}]').click()"
    page.forget()
    for name, example in (("bounds", "drive.bounds"), ("paths", "line.paths"), ("plan", "drive.plan"), ("check", "windows.schedules"), ("streams", "planned.streams"), ("replay", "machine.pcap"), ("script", "first.script")):
        page.do(tab.format(name))
        page.settle()
        page.same(f"the tab {name}", page.do("return [at('example').value, at('sentence').textContent !== '', at('view').classList.contains('stale'), at('frame').hidden]"), [example, True, False, False])
    text = "tc qdisc replace dev eth0 root taprio num_tc 1 map 0 sched-entry S 01 100000\n"
    page.type(text)
    page.do(tab.format("check"))
    page.settle()
    page.same("one's own schedule", [page.do("return at('text').value"), page.text("verdict")], [text, "Kept apart: class 0."])
    page.do(tab.format("streams"))
    page.settle()
    page.same("the example of streams", page.do("return at('example').value"), "planned.streams")
    page.do(tab.format("check"))
    page.settle()
    page.same("one's own again", page.do("return at('text').value"), text)
    page.choose("first.script")
    page.click("#back")
    page.settle()
    page.same("one's own before the first example", page.do("return at('text').value"), text)


LINE = "frame {} 0 60\nclock {}\n"


def long_text(length):
    """A script of about so many characters."""
    lines = []
    size = 0
    while size < length:
        lines.append(LINE.format(len(lines), 10**6 * len(lines)))
        size += len(lines[-1])
    return "".join(lines)


def try_kept(page):
    """One's own text outlives an edit of a link, an example, a key in it, a reload and a closed tab; Ctrl+Z goes across an example."""
    shown = "return at('text').value"
    page.forget()
    page.same("nothing is kept at first", page.do("return at('inputs').hidden"), True)
    page.open(f"#text={packed('frame 1 0 60')}")
    page.same("a link is opened", page.do(shown), "frame 1 0 60")
    page.do("at('text').focus()")
    page.browser.type("# mine\n")
    edited = page.do(shown)
    page.reload()
    page.same("an edit of a link", page.do(shown), edited)
    page.same("its name", page.kept(), [edited.partition("\n")[0].lstrip("# ")])
    page.click("#link")
    wait_for(page.browser, "return location.hash.includes('text=')")
    page.reload()
    page.do("at('text').focus(); at('text').setSelectionRange(0, 0)")
    page.browser.type("# again\n")
    page.reload()
    page.same("an edit of a link that was made", page.do(shown), f"# again\n{edited}")
    page.same("of one input", page.kept(), ["again"])
    page.choose("priorities.script")
    example = page.do(shown)
    page.do("at('text').focus()")
    page.browser.press("z", control=True)
    wait_for(page.browser, f"return document.getElementById('text').value === {json.dumps(f'# again{chr(10)}{edited}')}")
    page.same("undone across an example", page.do("return at('example').value"), "own")
    page.settle()
    page.browser.press("y", control=True)
    wait_for(page.browser, f"return document.getElementById('text').value === {json.dumps(example)}")
    page.settle()
    page.do("at('text').focus(); at('text').setSelectionRange(0, 0)")
    page.browser.type("# key\n")
    page.reload()
    page.same("a key in an example", page.do(shown), f"# key\n{example}")
    page.same("takes the place of no input", page.kept(), ["key", "again"])
    page.do("at('inputs').open = true; document.querySelectorAll('#inputs-list button')[2].click()")
    wait_for(page.browser, f"return document.getElementById('text').value === {json.dumps(f'# again{chr(10)}{edited}')}")
    page.settle()
    page.do("const it = document.querySelector('#inputs-list input'); it.value = 'my ring'; it.dispatchEvent(new Event('change'))")
    page.kept()
    page.do("sessionStorage.clear(); addEventListener('pagehide', () => sessionStorage.clear())")
    page.open("")
    page.same("after a closed tab", page.do(shown) in (f"# again\n{edited}", f"# key\n{example}"), True)
    page.same("with a name", "my ring" in page.kept(), True)
    for number in range(12):
        page.paste(f"# number {number}\nframe 1 0 60\n")
        page.same(f"paste {number}", page.do(shown), f"# number {number}\nframe 1 0 60\n")
        page.kept()
    page.same("the last ten", page.kept(), [f"number {it}" for it in range(11, 1, -1)])
    page.do("document.querySelectorAll('#inputs-list button')[1].click()")
    wait_for(page.browser, "return document.querySelectorAll('#inputs-list li').length === 9")
    page.paste("# two\nframe 1 0 60\n")
    page.kept()
    page.do("""indexedDB.open('taprio').onsuccess = ({ target: { result: database } }) => { const list = database.transaction('list', 'readwrite').objectStore('list');
        list.openCursor(null, 'prev').onsuccess = ({ target: { result: it } }) => { it.update({ ...it.value, stamp: 'of another window' }); database.close(); }; }""")
    time.sleep(0.3)
    page.browser.type("# x\n")
    page.same("two windows do not overwrite each other", page.kept()[:2], ["two", "two"])
    page.do("indexedDB.open = () => { throw new Error('no room') }; IDBDatabase.prototype.transaction = () => { throw new Error('no room') }")
    page.do("at('text').focus()")
    page.browser.type("# lost\n")
    wait_for(page.browser, "return !document.getElementById('kept').hidden")
    page.same("what is not kept", page.text("kept-text"), "Not kept for later: this browser keeps nothing for this page (no room).")
    page.open("")
    page.forget()


def try_long(page):
    """A long text is pasted without a pause, undone, kept over a reload, cleared and replaced."""
    value = "return at('text').value"
    page.choose("schedule.script")
    before = page.do(value)
    for length in (175_000, 1_200_000):
        text = long_text(length)
        plain = page.do(f"""const it = document.createElement('textarea'); it.wrap = 'off'; document.body.append(it); const begun = performance.now();
            it.value = {json.dumps(text[:300_000])}; it.scrollTop; it.remove(); return (performance.now() - begun) / 1000""")
        seconds = page.paste(text)
        page.same(f"paste of {length} characters: {seconds:.1f} s, a plain area {plain:.1f} s", seconds < 3 + 4 * plain, True)
        page.run()
        page.same("all of it is there", page.text("status")[:5], "Done:")
        page.answers(f"{length} characters", program("script", text=text.encode())[1])
        page.same("named", page.kept()[0], "frame 0 0 60")
        if length < 300_000:
            page.do("at('text').focus()")
            page.browser.press("z", control=True)
            wait_for(page.browser, f"return document.getElementById('text').value === {json.dumps(before)}")
            page.settle()
    page.reload()
    page.answers("1,200,000 characters after a reload", program("script", text=text.encode())[1])
    page.same("held", page.do("return at('text').readOnly"), True)
    page.do("at('text').focus()")
    page.browser.press("a", control=True)
    page.browser.press("Delete")
    page.same("deleted", page.do("return [at('text').value, at('text').readOnly]"), ["", False])
    page.paste(text)
    page.same("held again", page.do("return at('text').readOnly"), True)
    page.paste("frame 1 0 60\n")
    page.same("replaced", page.do("return [at('text').value, at('text').readOnly]"), ["frame 1 0 60\n", False])
    page.paste(text)
    kept = page.kept()
    page.click(".held button")
    page.same("cleared", page.do("return [at('text').value, at('text').readOnly]"), ["", False])
    page.browser.type("frame 5 0 60\n")
    page.same("what was cleared is kept", page.kept(), ["frame 5 0 60", *kept][:10])
    page.forget()


def try_link(page):
    text = "# \u00e4 <b> & 'quoted' \U0001f680\nframe 1 0 60\nclock 1000000\n"
    page.choose("first.script")
    page.type(text)
    page.set("rate", "100")
    page.set("summary", True)
    page.click("#link")
    wait_for(page.browser, "return document.getElementById('address').value.includes('#')")
    fragment = "#" + page.do("return at('address').value").partition("#")[2]
    page.open(fragment)
    page.same("text of a link", page.do("return at('text').value"), text)
    page.answers("a link", program("script", "--rate", "100", "--summary", text=text.encode())[1])
    page.open("#text=%21%21")
    page.same("a broken link", page.text("status")[:23], "The link can't be read:")
    page.open("")


def try_stop(page):
    page.choose("first.script")
    page.do("""const text = Array.from({ length: 400000 }, (_, i) => `frame ${i} 0 60\\nclock ${i * 700000}`).join('\\n');
        const data = new DataTransfer(); data.items.add(new File([text], 'long.script'));
        document.body.dispatchEvent(new DragEvent('drop', { dataTransfer: data, bubbles: true, cancelable: true }))""")
    wait_for(page.browser, "return !document.getElementById('stop').disabled")
    page.same("can be stopped", str(page.do("return at('stop').disabled")), "False")
    begun = time.monotonic()
    page.do("return at('status').textContent")
    page.same("isn't frozen", str(time.monotonic() - begun < 1), "True")
    page.click("#stop")
    page.settle()
    page.same("stopped", page.text("status"), "Stopped.")
    page.choose("first.script")
    try_script(page, EXAMPLES / "first.script")
    page.do("at('status').textContent = 'Stopped.'; document.querySelector('[data-step=nearer]').click()")
    page.settle()
    page.same("drawn after a stop", page.text("status")[:4], "Done")


# Drops a capture of 300,000 records.
LONG_CAPTURE = """const count = 300000; const octets = new Uint8Array(24 + count * 80); const view = new DataView(octets.buffer);
    [0xa1b23c4d, 0x00040002, 0, 0, 65535, 1].forEach((it, place) => view.setUint32(4 * place, it, true));
    for (let i = 0; i < count; i += 1) [Math.floor(i / 200000), (i * 5000) % 1e9, 64, 64].forEach((it, place) => view.setUint32(24 + 80 * i + 4 * place, it, true));
    const data = new DataTransfer(); data.items.add(new File([octets], 'long.pcap'));
    document.body.dispatchEvent(new DragEvent('drop', { dataTransfer: data, bubbles: true, cancelable: true }))"""
LONGEST = 200  # milliseconds of a task of the page: no key is heard meanwhile


def try_blocks(page):
    """A file of 400,000 frames, a long capture and a long table are taken and drawn without a long task: by the time of the processor, which Chromium tells."""
    if not isinstance(page.browser, Chromium):
        return
    page.choose("first.script")
    page.do("""const frames = Array.from({ length: 400000 }, (_, i) => `frame ${i} ${i % 8} ${60 + (i * 31) % 600}\\nclock ${(i + 1) * 5000000}\\n`).join('');
        window.long = `tc qdisc replace dev eth0 root taprio num_tc 8 map 0 1 2 3 4 5 6 7 base-time 0 sched-entry S 0f 100000 sched-entry S f0 100000\\n${frames}`""")
    page.browser.trace()
    page.do("""const data = new DataTransfer(); data.items.add(new File([window.long], 'long.script'));
        document.body.dispatchEvent(new DragEvent('drop', { dataTransfer: data, bubbles: true, cancelable: true }))""")
    wait_for(page.browser, "return document.getElementById('frames-name').textContent === 'Frames (400,000)'")
    page.settle()
    longest = page.browser.longest()
    page.same(f"{longest:.0f} ms, a file of 400,000 frames", longest <= LONGEST, True)
    page.same("all are there", page.text("verdict")[:32], "399992 of 400,000 frames sent, 8")
    point = "const r = at('frame').getBoundingClientRect(); at('frame').dispatchEvent(new PointerEvent('pointermove', { clientX: r.right - 60, clientY: r.top + 50, bubbles: true }))"
    for what, script in (("a zoom", "document.querySelector('[data-step=nearer]').click()"), ("a look at the last frames", point)):
        page.browser.trace()
        page.do(script)
        time.sleep(0.3)
        page.settle()
        longest = page.browser.longest()
        page.same(f"{longest:.0f} ms, {what}", longest <= LONGEST, True)
    for what, example, begin in (
        ("a capture of 300,000 records", "machine.pcap", LONG_CAPTURE),
        ("a table of 300,000 frames", "planned.streams", "at('text').value = 'stream 1 7 60 5us 0us 300000\\n'; at('text').dispatchEvent(new Event('input', { bubbles: true })); at('run').click()"),
    ):
        page.choose(example)
        page.browser.trace()
        page.do(begin)
        wait_for(page.browser, "return document.getElementById('frames-name').textContent === 'Frames (300,000)'")
        page.settle()
        longest = page.browser.longest()
        page.same(f"{longest:.0f} ms, {what}", longest <= LONGEST, True)
    page.forget()


NAMELESS = """return [...document.querySelectorAll('input, select, textarea, button, [tabindex]')]
    .filter((it) => !(it.labels?.length || it.textContent.trim() || it.getAttribute('aria-label'))).map((it) => it.id)"""
REACHED = """const all = [...document.querySelectorAll('a[href], input, select, textarea, button, [tabindex]')];
    return all.filter((it) => it.checkVisibility() && !it.disabled && !(it.type === 'radio' && !it.checked)).map((it) => it.id || it.dataset.step || it.name)"""
CONTRAST = """
const parts = (text) => text.match(/[\\d.]+/g).map(Number);
const light = ([r, g, b]) => [r, g, b].map((it) => it / 255).map((it) => it <= 0.04045 ? it / 12.92 : ((it + 0.055) / 1.055) ** 2.4)
  .reduce((sum, it, place) => sum + it * [0.2126, 0.7152, 0.0722][place], 0);
const back = (it) => { for (; it; it = it.parentElement) { const found = parts(getComputedStyle(it).backgroundColor); if (found.length === 3 || found[3] === 1) return found; } return [255, 255, 255]; };
const texts = [...document.querySelectorAll('body *')].filter((it) => it.checkVisibility() && !it.disabled && [...it.childNodes].some((child) => child.nodeType === 3 && child.data.trim()));
const through = (it) => { let share = 1; for (; it; it = it.parentElement) share *= getComputedStyle(it).opacity; return share; };
const seen = (it) => { const [share, ground] = [through(it), back(it)]; return parts(getComputedStyle(it).color).slice(0, 3).map((part, place) => share * part + (1 - share) * ground[place]); };
return texts.map((it) => { const [one, other] = [light(seen(it)), light(back(it))].sort((a, b) => b - a);
  return [(one + 0.05) / (other + 0.05), it.tagName + '#' + it.id + '.' + it.className]; }).filter(([ratio]) => ratio < 4.5).map(String);
"""


MARKS = """
const light = (hex) => [1, 3, 5].map((at) => parseInt(hex.slice(at, at + 2), 16) / 255).map((it) => it <= 0.04045 ? it / 12.92 : ((it + 0.055) / 1.055) ** 2.4)
  .reduce((sum, it, place) => sum + it * [0.2126, 0.7152, 0.0722][place], 0);
const root = getComputedStyle(document.documentElement);
const of = (name) => { const it = root.getPropertyValue(`--${name}`).trim(); return light(it.length === 4 ? `#${[...it.slice(1)].map((c) => c + c).join('')}` : it); };
const ratio = (one, other) => { const [a, b] = [of(one), of(other)].sort((x, y) => y - x); return (a + 0.05) / (b + 0.05); };
return [['bar', 'back'], ['bar', 'open'], ['wait', 'back'], ['wait', 'open'], ['drop', 'back'], ['drop', 'open'], ['cycle', 'back'], ['open-edge', 'back'], ['good', 'back'], ['on-bar', 'bar']]
  .filter(([one, other]) => ratio(one, other) < 3).map(([one, other]) => `${one} on ${other}: ${ratio(one, other)}`);
"""


def try_access(page):
    page.choose("first.script")
    page.same("without a name", page.do(NAMELESS), [])
    wanted = page.do(REACHED)
    page.do("getSelection().removeAllRanges(); scrollTo(0, 0); document.querySelector('a[href]').focus()")
    reached = [""]
    for _ in range(3 * len(wanted)):
        page.browser.press("Tab")
        reached.append(page.do("const it = document.activeElement; return it.id || it.dataset.step || it.name || ''"))
    page.same("reached by the keyboard", sorted(set(wanted) - set(reached)), [])
    page.same("contrast", page.do(CONTRAST), [])


def try_closed(page, server):
    """That the page's policy lets it ask nobody, and that it did."""
    asked = f"http://127.0.0.1:{server.server_port}/secret"
    page.do(f"window.told = ''; fetch('{asked}').then(() => (window.told = 'reached'), () => (window.told = 'refused'))")
    wait_for(page.browser, "return window.told !== ''")
    page.same("connection", page.do("return window.told"), "refused")
    others = [it for it in server.asked if it not in (f"/{PAGE.name}", "/favicon.ico")]
    page.same("asked for", others, [])


def shoot(page, name, dark=False, width=1280):
    at_size(page, width, 1000, dark)
    page.same(f"contrast, {name}", page.do(CONTRAST), [])
    page.browser.shoot(SHOTS / f"{page.browser.name}-{name}.png")
    page.browser.look()


def try_looks(page):
    page.choose("priorities.script")
    shoot(page, "light")
    shoot(page, "middle", width=820)
    shoot(page, "narrow", width=390)
    if isinstance(page.browser, Chromium):
        shoot(page, "dark", dark=True)
        shoot(page, "middle-dark", dark=True, width=820)
        shoot(page, "narrow-dark", dark=True, width=390)
        page.choose("first.script")
        page.browser.look(dark=True)
        try_marks(page)
        try_sizes(page, dark=True)
        page.choose("drive_short.bounds")
        shoot(page, "bounds-dark", dark=True)
        page.choose("first.script")
        page.set("text", "clok\n")
        page.run()
        shoot(page, "fault-dark", dark=True)
    page.choose("priorities.script")
    page.set("text", f"frame 1 0 60\nclock 1000000\n{TOO_LONG}")
    shoot(page, "stale")
    page.choose("windows.schedules")
    shoot(page, "check")
    page.choose("planned.streams")
    shoot(page, "streams")
    page.choose("machine.pcap")
    shoot(page, "replay")


TRIES = [try_weight, try_examples, try_replay, try_typing, try_options, try_worked, try_faults, try_refused, try_zoom, try_keys, try_micros, try_moments, try_frames, try_reasons, try_why, try_drops, try_tips, try_marks, try_pictures, try_rows, try_shades, try_whole, try_bounds, try_paths, try_plan, try_timing, try_sharing, try_linux, try_compare, try_gates, try_imports, try_pasted, try_pcapng, try_changed, try_ink,
         try_story, try_tabs, try_kept, try_long, try_files, try_forgotten, try_dates, try_stale, try_live, try_link, try_stop, try_blocks, try_access, try_screens, try_sizes, try_looks]


def try_page(kind, address, server, tries=TRIES):
    with tempfile.TemporaryDirectory() as downloads:
        browser = kind(downloads)
        try:
            browser.look()
            page = Page(browser, downloads, address)
            for it in tries:
                it(page)
            try_logged(browser)
            try_closed(page, server)
            print(f"{browser.name} {address}: {page.compared} comparisons", flush=True)
        finally:
            browser.close()


def try_logged(browser):
    others = [it for it in browser.logged if "favicon" not in it]
    if others:
        raise Broken(f"{browser.name} logs {others}")


INSTEAD = "Use Chromium or Chrome 133, Firefox 134, or a later one. The program taprio_port answers the same."


def refuses(browser, address, name, wanted):
    """That the page says why it can't run here, where it is seen, and what to use."""
    browser.look()
    browser.open(address)
    wait_for(browser, "return !document.getElementById('fault').hidden")
    said = browser.evaluate("return document.getElementById('fault-text').textContent")
    if not re.fullmatch(wanted, said):
        raise Broken(f"{browser.name} {name}: {said}")
    browser.shoot(SHOTS / f"{browser.name}-{name}.png")


def old_chromium(downloads):
    """Chromium, whose WebAssembly takes no module with 64-bit memory."""
    browser = Chromium(downloads)
    browser.call("Page.addScriptToEvaluateOnNewDocument", source="WebAssembly.validate = () => false")
    return browser


def old_firefox(downloads):
    """Firefox without WebAssembly: it has no preference for 64-bit memory alone."""
    return Firefox(downloads, preferences='user_pref("javascript.options.wasm", false);\n')


OLD = {Chromium: (old_chromium, "its WebAssembly has no 64-bit memory"), Firefox: (old_firefox, "it has no WebAssembly")}


def try_lacking(kind, address):
    """What the page says in a browser that can't run its module."""
    make, why = OLD[kind]
    with tempfile.TemporaryDirectory() as downloads:
        browser = make(downloads)
        try:
            refuses(browser, address, "lacking", re.escape(f"This browser can't run the port: {why}. {INSTEAD}"))
            if browser.evaluate("return document.getElementById('form').checkVisibility()"):
                raise Broken(f"{browser.name}: there is a form that can't be used")
        finally:
            browser.close()


def try_broken(kind):
    """What a page says whose module does not compile, or can't be unpacked: one in which a part of it is another."""
    text = PAGE.read_text(encoding="utf-8")
    packed_text = re.search(r'id="page-wasm">([^<]+)<', text)[1]
    module = module_in(text)
    for broken in (packed_module(module[:1000] + bytes(4000) + module[5000:]), packed_text[:1000] + "A" * 4000 + packed_text[5000:]):
        with tempfile.TemporaryDirectory() as downloads:
            place = pathlib.Path(downloads) / "broken.html"
            place.write_text(text.replace(packed_text, broken), encoding="utf-8")
            browser = kind(downloads)
            try:
                refuses(browser, place.as_uri(), "broken", r"The port's module does not compile in this browser \(.*\)\. " + re.escape(INSTEAD))
            finally:
                browser.close()


def try_dark_firefox(address):
    """Firefox is told that it is dark when it begins."""
    with tempfile.TemporaryDirectory() as downloads:
        browser = Firefox(downloads, dark=True)
        try:
            page = Page(browser, downloads, address)
            browser.look()
            try_marks(page)
            try_sizes(page, dark=True)
            for width in (1280, 820, 390):
                at_size(page, width, 900)
                page.choose("schedule.script")
                browser.shoot(SHOTS / f"firefox-dark-{width}.png")
        finally:
            browser.close()


def main(names):
    SHOTS.mkdir(exist_ok=True)
    program("--help")
    server = Server()
    places = [PAGE.as_uri(), f"http://127.0.0.1:{server.server_port}/{PAGE.name}"]
    kinds = [it for it in (Chromium, Firefox) if it.name in names] or [Chromium, Firefox]
    wanted = [it for it in TRIES if it.__name__.removeprefix("try_") in names]
    if wanted:
        for kind in kinds:
            try_page(kind, places[0], server, wanted)
        return
    for kind in kinds:
        for address in places:
            try_page(kind, address, server)
        try_lacking(kind, places[0])
        try_broken(kind)
    if Firefox in kinds:
        try_dark_firefox(places[0])
    print("bindings/web/test: all is as it should be")


if __name__ == "__main__":
    main(sys.argv[1:])
