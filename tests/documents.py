"""Cases of the documents: links, line lengths, the commands that they show, the list of errors and the man page.

A fenced block whose first line begins with `$ ` is a session. Each command of it is run by sh in a copy of the repository, with the program that is
tested as `./taprio_port`, and what stands behind it up to the next `$ ` has to be its output. A backslash at the end of a line, or a here-document,
takes further lines into the command. The commands of a page are run in their order, in one folder. What cannot be run stands in a block whose first
line does not begin with `$ `.

    python3 tests/documents.py PROGRAM PAGE ..    writes into the pages what their commands give today
    python3 tests/documents.py --definitions      prints the list of docs/trust/definitions.md, for between its two marks"""
import os
import pathlib
import re
import shutil
import subprocess
import sys
import tempfile

ROOT = pathlib.Path(__file__).resolve().parent.parent
SECONDS = 120
README_LINES = 120
LINE_LENGTH = 120
LEFT_OUT = {"out", ".git", "crates", "__pycache__"}
NOTE = re.compile(r"^taprio_port: (?:this build is )?not proved on this machine.*\n", re.MULTILINE)
FENCE = re.compile(r"^( *)(```+|~~~+)(.*)$")
LINK = re.compile(r"!?\[(?:[^\]\[]|\[[^\]]*\])*\]\(\s*<?([^)\s>]+)>?(?:\s+\"[^\"]*\")?\s*\)")
ONLY_A_LINK = re.compile(r"^\s*(?:[-*] )?!?\[[^\]]*\]\(\S+\)\W*$|^\s*\[[^\]]+\]: \S+$|^\s*<?https?://\S+>?$")


def pages():
    """Each document, by its path from the root."""
    found = []
    for folder, names, files in os.walk(ROOT):
        names[:] = sorted(name for name in names if name not in LEFT_OUT and not os.path.islink(os.path.join(folder, name)))
        found += [pathlib.Path(folder, name).relative_to(ROOT) for name in sorted(files) if name.endswith(".md")]
    return found


def numbered(page):
    """The lines of a page, each with its number, and whether it is of a fenced block."""
    fence = None
    for number, line in enumerate((ROOT / page).read_text(encoding="utf-8").split("\n"), 1):
        mark = FENCE.match(line)
        if fence is None and mark:
            fence = mark[2]
            yield number, line, True
        elif fence is not None:
            yield number, line, True
            if mark and mark[2].startswith(fence) and not mark[3].strip():
                fence = None
        else:
            yield number, line, False


def prose(page):
    """The text of a page outside of fenced blocks, without what stands between backquotes; each line stands where it stood."""
    return "\n".join("" if fenced else re.sub(r"`[^`]*`", "", line) for _, line, fenced in numbered(page))


def slugs(page):
    """The anchors of a page's headings."""
    found, seen = set(), {}
    for _, line, fenced in numbered(page):
        heading = None if fenced else re.match(r"#{1,6} +(.*?)\s*#*$", line)
        if heading:
            text = re.sub(r"\[([^\]]*)\]\([^)]*\)", r"\1", heading[1]).replace("`", "").lower()
            slug = re.sub(r"[^\w\- ]", "", text).replace(" ", "-")
            count = seen.get(slug, 0)
            seen[slug] = count + 1
            found.add(f"{slug}-{count}" if count else slug)
    return found


def links(page):
    """The relative links of a page: the line, the file and the anchor."""
    text = prose(page)
    for pattern in (LINK, re.compile(r"(?:src|href)=\"([^\"]+)\""), re.compile(r"^\[[^\]]+\]: +(\S+)", re.MULTILINE)):
        for link in pattern.finditer(text):
            if not re.match(r"[a-z][a-z+.-]*:", link[1]):
                path, _, anchor = link[1].partition("#")
                yield text.count("\n", 0, link.start()) + 1, path, anchor


def told(faults):
    """Fails with what was found, if anything was."""
    if faults:
        raise AssertionError("\n".join(faults))


def case_links_resolve(program):
    """Each relative link leads to a file, and to a heading of it where it has an anchor; and through no symbolic link."""
    faults = []
    for page in pages():
        for number, path, anchor in links(page):
            target = ROOT / page if not path else ROOT / page.parent / path
            if not target.exists():
                faults.append(f"{page}:{number}: {path} is not there")
            elif os.path.realpath(target) != os.path.normpath(target):
                faults.append(f"{page}:{number}: {path} leads through a symbolic link, which a page on the web does not follow")
            elif anchor and target.suffix == ".md" and anchor not in slugs(target.resolve().relative_to(ROOT)):
                faults.append(f"{page}:{number}: {path}#{anchor}: there is no such heading")
    told(faults)


def case_the_index_has_each_page(program):
    """Each page under docs/ is linked from docs/README.md."""
    index = pathlib.Path("docs/README.md")
    linked = {(ROOT / index.parent / path).resolve() for _, path, _ in links(index) if path}
    told([f"{index}: it has no link to {page}" for page in pages() if page.parts[0] == "docs" and page != index and (ROOT / page).resolve() not in linked])


def case_the_readme_is_short(program):
    """README.md has at most 120 lines, each of less than 120 characters."""
    lines = (ROOT / "README.md").read_text(encoding="utf-8").splitlines()
    faults = [f"README.md: {len(lines)} lines, and {README_LINES} at most are wanted"] if len(lines) > README_LINES else []
    told(faults + [f"README.md:{number}: {len(line)} characters" for number, line in enumerate(lines, 1) if len(line) >= LINE_LENGTH])


def spec_lines(path):
    """How many lines a file of definitions has, without blank lines, comments and imports."""
    lines = [line.strip() for line in path.read_text(encoding="utf-8").splitlines()]
    return sum(1 for line in lines if line and not line.startswith(("--", "use ", "pub use ", "unfoldable pub use ")))


def case_the_readme_counts_what_there_is(program):
    """The number of lines that say what a port is: in the README, in the page of definitions, and in the files that it lists."""
    text = (ROOT / "docs/trust/definitions.md").read_text(encoding="utf-8")
    part = text.partition("\n## What a port is\n")[2].partition("\n## ")[0]
    count = sum(spec_lines(ROOT / "crates" / name) for name in re.findall(r"^\| `(\w+/specs/\w+\.antt)`", part, re.MULTILINE))
    found = {"README.md": r"(\d+)\s+lines\s+say\s+what\s+the\s+port\s+is", "docs/trust/definitions.md": r"(\d+)\s+lines\s+of\s+\"What\s+a\s+port\s+is\""}
    faults = []
    for page, pattern in found.items():
        said = re.search(pattern, (ROOT / page).read_text(encoding="utf-8"))
        if not said or int(said[1]) != count:
            faults.append(f"{page}: it says {said[1] if said else 'nothing'} of the {count} lines of \"What a port is\"")
    told(faults)


def grouped_crates():
    """The crates of crates.txt, by the headings that stand above them."""
    found = {}
    for line in (ROOT / "crates.txt").read_text(encoding="utf-8").splitlines():
        head, colon, _ = line.partition(":")
        if colon and not line.startswith("#"):
            found[next(reversed(found))].append(head.split()[0])
        elif re.fullmatch(r"# \w+", line):
            found[line[2:]] = []
    return found


def first_comment(path):
    """The comment with which a file of definitions begins, as one line."""
    lines = []
    for line in path.read_text(encoding="utf-8").splitlines():
        if not line.startswith("-- "):
            break
        lines.append(line[3:].strip())
    return " ".join(lines)


def definitions():
    """The list of all files of definitions: their number of lines, and what they say."""
    found = []
    for group, crates in grouped_crates().items():
        files = [path for crate in crates for path in sorted((ROOT / "crates" / crate / "specs").glob("*.antt")) if path.name != "Lib.antt" and spec_lines(path)]
        if files:
            found += ["", f"### {group[0].upper()}{group[1:]}: {sum(spec_lines(path) for path in files)} lines", "", "| file | lines | what it says |", "|---|---|---|"]
            found += [f"| `{path.relative_to(ROOT / 'crates')}` | {spec_lines(path)} | {first_comment(path)} |" for path in files]
    return "\n".join([*found[1:], ""])


def case_the_list_of_definitions_is_whole(program):
    """docs/trust/definitions.md lists each file of definitions, with its number of lines; a file that is listed by itself has that number too."""
    page = "docs/trust/definitions.md"
    text = (ROOT / page).read_text(encoding="utf-8")
    listed = text.partition("<!-- definitions -->\n")[2].partition("<!-- end of definitions -->")[0]
    faults = [] if listed.strip("\n") == definitions().strip("\n") else [f"{page}: put between the marks what `python3 tests/documents.py --definitions` prints"]
    for name, count in re.findall(r"^\| `(\w+/specs/\w+\.antt)` \|.*\| (\d+) \|$", text, re.MULTILINE):
        if int(count) != spec_lines(ROOT / "crates" / name):
            faults.append(f"{page}: {name} has {spec_lines(ROOT / 'crates' / name)} lines, and not {count}")
    told(faults)


PROMISE_WORDS = 30


def items_of(crate):
    """The names of the functions and types of a crate, and of the clauses of its contracts."""
    text = "\n".join(path.read_text(encoding="utf-8") for path in sorted((ROOT / "crates" / crate / "src").glob("**/*.rt")))
    return set(re.findall(r"\b(?:fn|struct|enum|trait|type|mod) +(\w+)", text)), set(re.findall(r"\bensures\*? +(\w+) *\{", text))


def case_promises_name_what_there_is(program):
    """Each row of docs/trust/promises.md is a sentence of at most 30 words, and names calls, types and clauses that the crates have."""
    page, faults, known = pathlib.Path("docs/trust/promises.md"), [], {}
    for number, line, fenced in numbered(page):
        cells = [cell.strip() for cell in line.strip("|").split("|")]
        if fenced or not line.startswith("| ") or len(cells) != 2 or cells[0] == "promise":
            continue
        if len(cells[0].split()) > PROMISE_WORDS:
            faults.append(f"{page}:{number}: {len(cells[0].split())} words, and {PROMISE_WORDS} at most are wanted")
        clauses = set()
        for words in re.findall(r"`([^`]+)`", cells[1]):
            crate, colons, names = words.partition("::")
            if not colons:
                continue
            if crate not in known:
                known[crate] = items_of(crate)
            clauses |= known[crate][1]
            for name in re.findall(r"\w+", names):
                if name not in known[crate][0]:
                    faults.append(f"{page}:{number}: {crate} has no {name}")
        for group in re.findall(r"\(((?:`\w+`(?:, )?)+)\)", cells[1]):
            faults += [f"{page}:{number}: no contract there has a clause {name}" for name in re.findall(r"`(\w+)`", group) if name not in clauses]
    told(faults)


def case_lines_are_short(program):
    """No line of prose is longer than a reader's window."""
    faults = []
    for page in pages():
        if page.parts[:2] == ("docs", "internals"):
            continue
        for number, line, fenced in numbered(page):
            if len(line) > LINE_LENGTH and not fenced and not line.lstrip().startswith("|") and not ONLY_A_LINK.match(line):
                faults.append(f"{page}:{number}: {len(line)} characters, and {LINE_LENGTH} at most are wanted")
    told(faults)


def sessions(page):
    """The commands of a page: the number of the line, the command, how many lines it has, and the lines behind it that are to be its output."""
    block = None
    for number, line, fenced in numbered(page):
        if fenced and block is None:
            block = []
        elif fenced and not FENCE.match(line):
            block.append((number, line))
        elif block is not None:
            yield from commands(block)
            block = None


def commands(lines):
    """The commands of a block's lines."""
    if not lines or not lines[0][1].startswith("$ "):
        return
    at = 0
    while at < len(lines):
        number, first = lines[at]
        text = [first[2:]]
        at += 1
        while text[-1].endswith("\\") and at < len(lines):
            text.append(lines[at][1])
            at += 1
        here = re.search(r"<<-?'?(\w+)'?", text[0])
        if here:
            while at < len(lines) and text[-1] != here[1]:
                text.append(lines[at][1])
                at += 1
        output = []
        while at < len(lines) and not lines[at][1].startswith("$ "):
            output.append(lines[at][1])
            at += 1
        yield number, "\n".join(text), len(text), output


def copy_of_the_root(folder, program):
    """A copy of the repository in which the commands of documents may write, with the program."""
    for name in os.listdir(ROOT):
        path = ROOT / name
        if name in LEFT_OUT or name == "taprio_port":
            continue
        if path.is_dir():
            shutil.copytree(path, os.path.join(folder, name), ignore=shutil.ignore_patterns("out", "__pycache__"))
        else:
            shutil.copy(path, os.path.join(folder, name))
    os.symlink(os.path.abspath(program), os.path.join(folder, "taprio_port"))


def ran(command, folder):
    """What a command prints, as a terminal shows it."""
    given = {"stdin": subprocess.DEVNULL, "stdout": subprocess.PIPE, "stderr": subprocess.STDOUT, "timeout": SECONDS, "cwd": folder}
    output = subprocess.run(["sh", "-c", command], **given).stdout.decode("utf-8", "replace")
    output = NOTE.sub("", output)
    return output.split("\n")[:-1] if output.endswith("\n") else output.split("\n") if output else []


def faults_of_commands(page, program):
    """In what the commands of a page do otherwise than it says."""
    faults = []
    with tempfile.TemporaryDirectory(prefix="taprio-documents-") as folder:
        copy_of_the_root(folder, program)
        for number, command, _, wanted in sessions(page):
            got = ran(command, folder)
            if got != wanted:
                row = next((row for row, (one, other) in enumerate(zip(wanted, got)) if one != other), min(len(wanted), len(got)))
                said = lambda lines: repr(lines[row]) if row < len(lines) else "nothing"
                faults.append(f"{page}:{number}: {command.splitlines()[0]}\n  output line {row + 1}: {said(wanted)} stands there, and it gives {said(got)}")
    return faults


def commands_case(page):
    """A case of the commands of a page."""
    return lambda program: told(faults_of_commands(page, program))


for _page in pages():
    if any(True for _ in sessions(_page)):
        globals()[f"case_commands_of_{_page.with_suffix('')}"] = commands_case(_page)


# Names of the reader of captures that no text has: `read failed`, `write failed` and `out of memory` are said in their place.
UNPRINTED = {"Read", "Write", "Memory"}

# Texts whose example would take half a minute.
UNSHOWN = {"paths: there are more than 65536 ports"}


def sources():
    """The text of each source file of the crates that the program stands on."""
    needs = {}
    for line in (ROOT / "crates.txt").read_text(encoding="utf-8").splitlines():
        name, colon, others = line.partition("#")[0].partition(":")
        if colon:
            needs[name.split()[0]] = others.split()
    below, ahead = set(), ["taprio_port"]
    while ahead:
        crate = ahead.pop()
        if crate in needs and crate not in below:
            below.add(crate)
            ahead += needs[crate]
    return [path.read_text(encoding="utf-8") for crate in sorted(below) for path in sorted((ROOT / "crates" / crate / "src").glob("**/*.rt"))]


def printed_names():
    """The names of faults, refusals and drops, in the tables of texts: `Kind::Name => b"Name"`, also with values behind the name or a call around
    the text."""
    found = set()
    for source in sources():
        found |= set(re.findall(r"\b[A-Z]\w*::([A-Z]\w*)\b[^=;{}]*=>\s*(?:\w+\(\s*)?b\"\1\"", source))
    return found - UNPRINTED


def printed_texts():
    """What the program says behind its own name on standard error, and the options that it refuses values of."""
    texts, options = set(), set()
    for source in sources():
        texts |= {text.removesuffix("\\n").strip(" :") for text in re.findall(r"b\"taprio_port: ([^\"]+)\"", source)}
        options |= set(re.findall(r"=>\s*b\"(--[a-z-]+)\"", source))
    return texts, options


def case_errors_has_each_name(program):
    """docs/errors.md has a section for each name that the sources can print, and its commands print that name."""
    page = pathlib.Path("docs/errors.md")
    heads = [(number, line) for number, line, fenced in numbered(page) if not fenced and line.startswith("### ")]
    shown = list(sessions(page))
    sections = []
    for (number, line), (end, _) in zip(heads, [*heads[1:], (10**9, "")]):
        outputs = [line for at, _, _, output in shown if number < at < end for line in output]
        sections += [(name, number, outputs) for name in re.findall(r"`([^`]+)`", line)]
    has = {name for name, _, _ in sections}
    names = printed_names()
    texts, options = printed_texts()
    faults = [] if len(names) >= 40 and len(texts) >= 6 and len(options) >= 7 else [f"crates: only {len(names)}, {len(texts)}, {len(options)} texts are found: mend the expressions here"]
    text = (ROOT / page).read_text(encoding="utf-8")
    own = {text for text in texts if "bad value" not in text and " line" not in text and not text.startswith(("warning: ", "note: "))}  # (warnings have one section, and notes)
    for name in sorted(names | own):
        if name not in has and not (name.startswith("capture ") and name in text):
            faults.append(f"{page}: it has no section for {name}")
    faults += [f"{page}: it says nothing of {word}" for word in sorted(texts | options) if word not in text]
    for name, number, outputs in sections:
        if name not in UNSHOWN and not any(re.search(rf"(?<![\w-]){re.escape(name)}(?![\w-])", line) for line in outputs):
            faults.append(f"{page}:{number}: no example there gives {name}")
    told(faults)


def case_the_man_page_is_in_step(program):
    """The man page has the jobs and the options that --help has, and no others."""
    def help_of(*words):
        return subprocess.run([program, *words, "--help"], capture_output=True, text=True, timeout=SECONDS).stdout
    options = lambda text: set(re.findall(r"(?<![\w-])--[a-z][a-z-]*", text))
    jobs = set(re.findall(r"^  ([a-z]+)  ", help_of(), re.MULTILINE))
    page = (ROOT / "docs/taprio_port.1").read_text(encoding="utf-8").replace("\\-", "-")
    faults = []
    of_macros = lambda text: options(" ".join(re.findall(r"^\.(?:BI?|BR) .*$", text, re.MULTILINE)))
    sections = dict(re.findall(r"^\.SS ([a-z]+)$\n(.*?)(?=^\.S[SH]|\Z)", page, re.MULTILINE | re.DOTALL))
    faults += [f"docs/taprio_port.1: it has no part `.SS {job}`" for job in sorted(jobs - sections.keys())]
    faults += [f"docs/taprio_port.1: there is no job {job}" for job in sorted(sections.keys() - jobs)]
    general = re.search(r"^\.SH OPTIONS\n(.*?)(?=^\.SH)", page, re.MULTILINE | re.DOTALL)
    parts = [("the program", options(help_of()), of_macros(general[1] if general else ""))]
    parts += [(job, options(help_of(job)) - {"--help"}, of_macros(sections[job])) for job in sorted(jobs & sections.keys() - {"help"})]
    for name, there, here in parts:
        faults += [f"docs/taprio_port.1: {name} has {word}, and the page has not" for word in sorted(there - here)]
        faults += [f"docs/taprio_port.1: {name} has no {word}, and the page says so" for word in sorted(here - there)]
    told(faults)


def case_the_completions_are_in_step(program):
    """The completions of the shells are those that the program's help makes."""
    ran = subprocess.run([ROOT / "completions/make", "--check", program], capture_output=True, text=True, timeout=SECONDS)
    told([f"completions: {line}" for line in ran.stderr.splitlines()])
    assert ran.returncode == 0


def case_bash_completes(program):
    """A job, an option, and nothing behind an option that takes a value."""
    script = 'source completions/taprio_port.bash; COMP_WORDS=("$@"); COMP_CWORD=$(($# - 1)); _taprio_port; echo "${COMPREPLY[@]}"'
    for words, wanted in ((["s"], "script streams"), (["script", "--r"], "--rate --room"), (["script", "--rate", ""], "")):
        ran = subprocess.run(["bash", "-c", script, "-", "taprio_port", *words], cwd=ROOT, capture_output=True, text=True, timeout=SECONDS)
        assert ran.stdout.strip() == wanted and not ran.stderr, (words, ran)


def fill(page, program):
    """Writes into a page what its commands give."""
    lines = (ROOT / page).read_text(encoding="utf-8").split("\n")
    with tempfile.TemporaryDirectory(prefix="taprio-documents-") as folder:
        copy_of_the_root(folder, program)
        found = [(number, count, len(wanted), ran(command, folder)) for number, command, count, wanted in sessions(page)]
    for number, count, length, output in reversed(found):
        lines[number - 1 + count : number - 1 + count + length] = output
    (ROOT / page).write_text("\n".join(lines), encoding="utf-8")


if __name__ == "__main__":
    if sys.argv[1:] == ["--definitions"]:
        print(definitions(), end="")
        sys.exit(0)
    if len(sys.argv) < 3:
        sys.exit(__doc__)
    for name in sys.argv[2:]:
        fill(pathlib.Path(name).resolve().relative_to(ROOT), os.path.abspath(sys.argv[1]))
