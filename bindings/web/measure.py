#!/usr/bin/env python3
"""Measures the page of bindings/web/out beside the program of the repository: times until it has run its first example, and of long scripts."""
import json
import random
import statistics
import subprocess
import sys
import tempfile
import time

from browsers import Chromium, Firefox, wait_for
from test import PAGE, PROGRAM, TOP, Page

sys.path.insert(0, str(TOP / "bench"))
import workloads  # noqa: E402

RUNS = 3
PICTURE = "return Math.round(performance.getEntriesByName('picture').at(-1).startTime)"


def of_program(text):
    """The seconds that the program takes, and what it answers."""
    begun = time.monotonic()
    ran = subprocess.run([PROGRAM, "script"], input=text.encode(), capture_output=True, check=True)
    return time.monotonic() - begun, ran.stdout


def of_page(page, text, wanted):
    """The milliseconds that the page says for the script."""
    # (a long text that was dropped can't be changed)
    page.choose("first.script")
    page.set("text", text)
    page.run(300)
    page.same("a long script", page.saved("save-answers"), wanted)
    return float(page.text("status").split(" in ")[1].split(" ms")[0].replace(",", ""))


def of_file(page, text):
    """The milliseconds from a file that is dropped on the page to its picture, answers and table."""
    page.do(f"""const data = new DataTransfer(); data.items.add(new File([{json.dumps(text)}], 'long.script'));
        performance.clearMarks('picture'); window.dropped = performance.now();
        document.body.dispatchEvent(new DragEvent('drop', {{ dataTransfer: data, bubbles: true, cancelable: true }}))""")
    wait_for(page.browser, "return performance.getEntriesByName('picture').length > 0")
    return page.do("return performance.getEntriesByName('picture')[0].startTime - window.dropped")


def measure(kind, scripts):
    with tempfile.TemporaryDirectory() as downloads:
        browser = kind(downloads)
        try:
            browser.look()
            page = Page(browser, downloads, PAGE.as_uri())
            print(f"{browser.name}: {page.do(PICTURE)} ms to the first picture; {page.text('status')}")
            for name, text, seconds, wanted in scripts:
                times = [of_page(page, text, wanted) for _ in range(RUNS)]
                whole = statistics.median(of_file(page, text) for _ in range(RUNS))
                print(f"{browser.name}, {name}: {statistics.median(times):.0f} ms; the program {1000 * seconds:.0f} ms; a file to its picture {whole:.0f} ms", flush=True)
        finally:
            browser.close()


def main():
    scripts = []
    for name, lines in (("open", workloads.open_gates), ("sched16", workloads.sixteen_entries)):
        text = "\n".join(list(lines(random.Random(1), 100_000))) + "\n"
        runs = [of_program(text) for _ in range(RUNS)]
        scripts.append((f"{name}, {text.count(chr(10)):,} lines", text, statistics.median(it[0] for it in runs), runs[0][1]))
    for kind in (Chromium, Firefox):
        measure(kind, scripts)


if __name__ == "__main__":
    main()
