#!/usr/bin/env python3
"""Makes the page of web/ one file: bundle.py WASM EXAMPLES OUT. WASM is the module, or a page that has it."""
import base64
import hashlib
import json
import pathlib
import re
import sys
import zlib

import sources

WEB = pathlib.Path(__file__).resolve().parent
IMPORT = re.compile(r'^import \{[^}]*\} from "\./([a-z]+\.js)";\n', re.M)
KINDS = {".script": "script", ".schedules": "check", ".streams": "streams"}
# How the repository's program of examples lists them: with answers and a flag, and with a picture and the time that it shows.
LISTED = re.compile(r'\("(\w+\.\w+)",\s*"\w+\.answers",\s*true,?\s*\)')
DRAWN = re.compile(r'\(\s*"(\w+\.\w+)",\s*"\w+\.svg",\s*(?:None|Some\(([\d_]+)\)),\s*(?:None|Some\(([\d_]+)\)),?\s*\)')
FLAGS = {"script": "summary", "check": "windows", "streams": ""}


def modules(name, seen):
    """The module of this name behind those that it imports, without its imports and exports: all share one scope."""
    if name in seen:
        return ""
    seen.append(name)
    text = (WEB / name).read_text(encoding="utf-8")
    below = "".join(modules(it, seen) for it in IMPORT.findall(text))
    return below + re.sub(r"^export ", "", IMPORT.sub("", text), flags=re.M)


def refuse_doubles(name, text):
    """Stops where two modules of a bundle give one name to two things."""
    names = re.findall(r"^(?:async )?(?:const|let|function\*?|class) (\w+)", text, re.M)
    doubles = sorted({it for it in names if names.count(it) > 1})
    if doubles:
        sys.exit(f"bundle.py: {name} has {', '.join(doubles)} twice")


def bundle(name):
    text = modules(name, [])
    refuse_doubles(name, text)
    if re.search(r"^(import|export)\b", text, re.M) or "</script" in text:
        sys.exit(f"bundle.py: {name} has what can't be bundled")
    return text


def options(folder):
    """The options with which the program of examples runs and draws each example, where it has any."""
    text = (folder.resolve().parent / "src" / "main.rt").read_text(encoding="utf-8")
    found = {name: {FLAGS[KINDS["." + name.partition(".")[2]]]: "1"} for name in LISTED.findall(text)}
    for name, begin, end in DRAWN.findall(text):
        times = {"from": begin.replace("_", ""), "to": end.replace("_", "")}
        found.setdefault(name, {}).update({key: value for key, value in times.items() if value not in ("", "0")})
    return found


def captures(folder):
    """The captures that a script of their name is beside, each with the moment that the program of examples replays it to."""
    text = (folder.resolve().parent / "src" / "main.rt").read_text(encoding="utf-8")
    until = re.search(r"settings\(Some\(([\d_]+)\)\)", text)[1].replace("_", "")
    return [{"name": path.name, "job": "replay", "text": path.with_suffix(".script").read_text(encoding="utf-8"), "until": until,
             "capture": base64.b64encode(path.read_bytes()).decode()}
            for path in sorted(folder.glob("*.pcap")) if path.with_suffix(".script").exists()]


def bounded(folder):
    """The examples of delay bounds: the schedule of their name, and the table of streams whose name theirs begins with."""
    return [{"name": path.name, "job": "bounds", "text": path.with_suffix(".schedule").read_text(encoding="utf-8"),
             "beside": (folder / f"{path.stem.split('_')[0]}.streams").read_text(encoding="utf-8")} for path in sorted(folder.glob("*.bounds"))]


def networks(folder):
    """The examples of paths: the schedules and the network of their name."""
    return [{"name": path.name, "job": "paths", "text": path.with_suffix(".schedules").read_text(encoding="utf-8"),
             "beside": path.with_suffix(".network").read_text(encoding="utf-8")} for path in sorted(folder.glob("*.paths"))]


def plans(folder):
    """The examples of plans: the streams of the delay bounds, and the networks of the paths."""
    given = [path.with_suffix(".streams") for path in folder.glob("*.bounds")] + [path.with_suffix(".network") for path in folder.glob("*.paths")]
    return [{"name": f"{path.stem}.plan", "job": "plan", "text": path.read_text(encoding="utf-8")} for path in sorted(given) if path.exists()]


def examples(folder):
    """The examples by name: what kind each is, its text, its options, and for a table the script that goes among its frames. Schedules of a
    network are those of its paths."""
    given = options(folder)
    found = []
    for path in sorted(folder.iterdir()):
        if path.suffix not in KINDS or path.with_suffix(".network").exists():
            continue
        beside = path.with_suffix(".schedule")
        entry = {"name": path.name, "job": KINDS[path.suffix], "text": path.read_text(encoding="utf-8")}
        if path.suffix == ".streams" and beside.exists():
            entry["beside"] = beside.read_text(encoding="utf-8")
        found.append(entry | given.get(path.name, {}))
    return found + bounded(folder) + networks(folder) + plans(folder) + captures(folder)


def data(value):
    """JSON that can stand within a script element."""
    return json.dumps(value, ensure_ascii=False).replace("<", "\\u003c")


def packed(octets):
    """Octets as deflate-raw in base64: the page's worker unpacks them."""
    made = zlib.compressobj(9, wbits=-zlib.MAX_WBITS)
    return base64.b64encode(made.compress(octets) + made.flush()).decode()


def unpacked(text):
    """The octets that `packed` made this text of."""
    return zlib.decompress(base64.b64decode(text), wbits=-zlib.MAX_WBITS)


def module_in(page):
    """The module that stands in a page's text."""
    return unpacked(re.search(r'id="page-wasm">([^<]+)<', page)[1])


def digest(text):
    return "'sha256-" + base64.b64encode(hashlib.sha256(text.encode()).digest()).decode() + "'"


def policy(style, script):
    """Nothing but the page's own style and script, its worker, its module and the pictures that it makes."""
    return "; ".join([
        "default-src 'none'",
        f"script-src {digest(script)} 'wasm-unsafe-eval'",
        "worker-src blob:",
        f"style-src {digest(style)}",
        "img-src blob:",
        "connect-src 'none'",
        "base-uri 'none'",
        "form-action 'none'",
    ])


def main(wasm, folder, out):
    """Makes the page of a module. Where the module is a page, it is that page's, and so are the sums of the crates that it was made of."""
    given = pathlib.Path(wasm)
    earlier = given.read_text(encoding="utf-8") if given.suffix == ".html" else None
    module = given.read_bytes() if earlier is None else module_in(earlier)
    style = (WEB / "page.css").read_text(encoding="utf-8")
    script = bundle("page.js")
    parts = {
        "POLICY": policy(style, script),
        "SOURCES": sources.told(earlier),
        "STYLE": style,
        "TRUST": (WEB / "trust.html").read_text(encoding="utf-8"),
        "EXAMPLES": data(examples(pathlib.Path(folder))),
        "WORKER": bundle("worker.js"),
        "WASM": packed(module),
        "SCRIPT": script,
    }
    page = (WEB / "page.html").read_text(encoding="utf-8")
    text = re.sub(r"@([A-Z]+)@", lambda it: parts[it[1]], page)
    pathlib.Path(out).write_text(text, encoding="utf-8", newline="\n")


if __name__ == "__main__":
    main(*sys.argv[1:])
