"""What built files need of the system that they run on, and programs that need less of it."""
import pathlib
import re
import struct
import subprocess

# What a file may ask for: the C library and the loader.
ALLOWED = {"libc.so.6", "ld-linux-x86-64.so.2"}
# What each program that is linked on a system with glibc 2.34 or later asks for, and the name that it has in each glibc of x86-64.
START, NEW, OLD = "__libc_start_main", "GLIBC_2.34", "GLIBC_2.2.5"
# What runs before `main`: by the old name the loader has to run it, and runs the entries of the second kind (System V ABI, "Dynamic Section").
EARLIER = {25: 32, 27: 33}  # DT_INIT_ARRAY and DT_INIT_ARRAYSZ: DT_PREINIT_ARRAY and DT_PREINIT_ARRAYSZ


def stop(why):
    raise SystemExit(f"release: {why}")


def shown(path, option):
    """What readelf says of a file."""
    return subprocess.run(["readelf", "-W", option, path], stdout=subprocess.PIPE, text=True, check=True).stdout


def libraries(path):
    """The shared objects that a file needs."""
    return set(re.findall(r"\(NEEDED\).*\[(.*)\]", shown(path, "--dynamic")))


def glibc(path):
    """The version of glibc whose symbols a file needs, as two numbers."""
    found = re.findall(r"Name: GLIBC_(\d+)\.(\d+)", shown(path, "--version-info"))
    return max(((int(major), int(minor)) for major, minor in found), default=(2, 2))


def least_glibc(paths):
    """The version of glibc that is enough for files, which need nothing else."""
    for path in paths:
        others = libraries(path) - ALLOWED
        if others:
            stop(f"{path} needs {', '.join(sorted(others))} beside the C library")
    return max(glibc(path) for path in paths)


def hash_of(name):
    """The hash of a version's name (System V ABI, \"Hash Table\")."""
    found = 0
    for octet in name.encode():
        found = (found << 4) + octet
        found = (found ^ (found & 0xF0000000) >> 24) & 0x0FFFFFFF
    return found


def section(octets, name):
    """Where a section of an ELF file lies: its place and its length."""
    start, size, count, names = *struct.unpack_from("<Q", octets, 40), *struct.unpack_from("<HHH", octets, 58)
    rows = [struct.unpack_from("<IIQQQQ", octets, start + at * size) for at in range(count)]
    for row in rows:
        said = octets[rows[names][4] + row[0]:].split(b"\0", 1)[0]
        if said == name.encode():
            return row[4], row[5]
    return stop(f"there is no section {name}")


def versions(octets):
    """Where each version stands that a file needs: its place, and its name."""
    place, length = section(octets, ".gnu.version_r")
    texts, _ = section(octets, ".dynstr")
    at, after = place, True
    while after:
        _, count, _, first, after = struct.unpack_from("<HHIII", octets, at)
        entry = at + first
        for _ in range(count):
            *_, name, more = struct.unpack_from("<IHHII", octets, entry)
            yield entry, octets[texts + name:].split(b"\0", 1)[0].decode(), name
            entry += more
        at += after


def start_as_of_old(path):
    """Has a program ask for the start of glibc by its oldest name, so that it runs on systems before 2.34, too. Its code stays as it is."""
    symbols = set(re.findall(rf"\b(\w+)@{re.escape(NEW)}", shown(path, "--dyn-syms")))
    if not symbols:
        return
    if symbols != {START}:
        stop(f"{path} needs more of {NEW} than {START}: {', '.join(sorted(symbols))}")
    octets = bytearray(path.read_bytes())
    found = {name: (place, text) for place, name, text in versions(octets)}
    struct.pack_into("<I", octets, found[NEW][0], hash_of(OLD))
    struct.pack_into("<I", octets, found[NEW][0] + 8, found[OLD][1])
    place, length = section(octets, ".dynamic")
    for at in range(place, place + length, 16):
        tag, = struct.unpack_from("<Q", octets, at)
        struct.pack_into("<Q", octets, at, EARLIER.get(tag, tag))
    mode = path.stat().st_mode
    path.write_bytes(octets)
    path.chmod(mode)
