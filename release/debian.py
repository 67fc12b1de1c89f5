"""The Debian package of a release, from the folder that its tarball is made of."""
import gzip
import os
import pathlib
import shutil
import subprocess

CONTROL = """Package: taprio
Version: {version}
Architecture: amd64
Maintainer: {maintainer}
Installed-Size: {size}
Depends: libc6 (>= {glibc})
Section: net
Priority: optional
Description: transmit port of IEEE 802.1Qbv, exact to the picosecond
 Taprio says when each frame leaves an Ethernet port whose gates follow a
 schedule: the transmit port of IEEE Std 802.1Qbv, set up by the
 "tc ... taprio" lines of Linux. It answers scripts and captures, draws what
 happens, and tells bounds of waits that hold for ever.
 .
 The package has the program, the library for C with its header, the manual
 page, completions, a page for browsers, and the documents.
 {said}
"""
COPYRIGHT = """Format: https://www.debian.org/doc/packaging-manuals/copyright-format/1.0/
Upstream-Name: taprio
Source: the archive of this package's sources is named in its file PROVED, by their sums

Files: *
{holder}
License: Expat

License: Expat
{text}
"""
# By the folder of the release, where it goes. What isn't named here is a document.
PLACES = {
    "bin": "usr/bin", "include": "usr/include", "lib": "usr/lib",
    "share/man": "usr/share/man", "share/bash-completion": "usr/share/bash-completion", "share/fish": "usr/share/fish",
    "share/zsh/site-functions": "usr/share/zsh/vendor-completions",
}
DOCUMENTS = pathlib.Path("usr/share/doc/taprio")


def run(*words, **more):
    subprocess.run([*map(str, words)], stdin=subprocess.DEVNULL, check=True, **more)


def put_gzip(path, octets):
    """Writes a text as Debian has it: compressed, with no name and no date."""
    with open(path, "wb") as file, gzip.GzipFile("", "wb", 9, file, mtime=0) as to:
        to.write(octets)


def put_files(made, root):
    """Copies the files of the release to where Debian wants them."""
    taken = set()
    for source, target in PLACES.items():
        shutil.copytree(made / source, root / target, symlinks=True)
        taken.add(source.split("/")[0])
    for path in sorted(made.iterdir()):
        if path.name not in taken | {"LICENSE", "CHANGELOG.md"}:
            copy = shutil.copytree if path.is_dir() else shutil.copy
            copy(path, root / DOCUMENTS / path.name)
    page = root / "usr/share/man/man1/taprio_port.1"
    put_gzip(page.with_suffix(".1.gz"), page.read_bytes())
    page.unlink()


def put_texts(made, root, version, maintainer, when):
    """Writes the licence and the changes as Debian wants them. The changes themselves are those of CHANGELOG.md."""
    holder, _, rest = (made / "LICENSE").read_text(encoding="utf-8").partition("\n\n")[2].partition("\n\n")
    text = "\n".join(f" {line}" if line else " ." for line in rest.strip().splitlines())
    (root / DOCUMENTS / "copyright").write_text(COPYRIGHT.format(holder=holder.replace("Copyright (c)", "Copyright:", 1), text=text), encoding="utf-8")
    put_gzip(root / DOCUMENTS / "NEWS.gz", (made / "CHANGELOG.md").read_bytes())
    entry = f"taprio ({version}) unstable; urgency=medium\n\n  * The changes are in NEWS.gz.\n\n -- {maintainer}  {when}\n"
    put_gzip(root / DOCUMENTS / "changelog.gz", entry.encode())


def plain(root, date):
    """Strips symbols, and gives each file a mode and the date."""
    for path in sorted(root.rglob("*"), reverse=True):
        if path.is_symlink():
            os.utime(path, (date, date), follow_symlinks=False)
            continue
        if path.suffix == ".a":
            run("strip", "--strip-debug", "--enable-deterministic-archives", path)
        elif path.parent.name == "bin" or ".so." in path.name:
            run("strip", "--strip-unneeded", path)
        path.chmod(0o755 if path.is_dir() or path.parent == root / "usr/bin" else 0o644)
        os.utime(path, (date, date))
    root.chmod(0o755)
    os.utime(root, (date, date))


def package(made, to, version, said, glibc, maintainer, when, date):
    """Makes the package of the files in `made` as `to`; it needs a glibc of this version at least."""
    root = to.parent / "debian"
    (root / DOCUMENTS).mkdir(parents=True)
    put_files(made, root)
    put_texts(made, root, version, maintainer, when)
    plain(root, date)
    size = sum(-(-path.lstat().st_size // 1024) for path in root.rglob("*"))
    (root / "DEBIAN").mkdir()
    control = CONTROL.format(version=version, maintainer=maintainer, size=size, glibc=".".join(map(str, glibc)), said=said)
    (root / "DEBIAN" / "control").write_text(control, encoding="utf-8")
    (root / "DEBIAN" / "triggers").write_text("activate-noawait ldconfig\n", encoding="utf-8")
    (root / "DEBIAN" / "shlibs").write_text(f"libtaprio {version.rpartition('.')[0]} taprio (>= {version})\n", encoding="utf-8")
    for path in [*(root / "DEBIAN").iterdir(), root / "DEBIAN"]:
        os.utime(path, (date, date))
    run("dpkg-deb", "--root-owner-group", "-Zxz", "--build", root, to, stdout=subprocess.DEVNULL, env={**os.environ, "SOURCE_DATE_EPOCH": str(date)})
    shutil.rmtree(root)
