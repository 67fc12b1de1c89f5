"""Makes the wheel of the package for pip: a build backend (PEP 517, and PEP 660 for `pip install -e`) that needs nothing but Python.

The wheel has the shared object and the program where they are built in this checkout, each the proved one where that is there. It is for this
machine's kind alone then. One without them is for any machine, and finds a program on the PATH. The same files give the same octets."""

from __future__ import annotations

import base64
import hashlib
import pathlib
import subprocess
import sys
import sysconfig
import tomllib
import zipfile

HERE = pathlib.Path(__file__).resolve().parent
ROOT = HERE.parent.parent
LIBRARIES = (HERE.parent / "c" / "out" / "libtaprio.so", ROOT / "out" / "unproved" / "libtaprio.so")
COMMAND = "[console_scripts]\ntaprio_port = taprio.program:command\n"
Files = dict[str, tuple[bytes, int]]
"""By its name in the wheel, the octets of a file and its mode."""


def project() -> dict:
    """What pyproject.toml says of the package."""
    return tomllib.loads((HERE / "pyproject.toml").read_text(encoding="utf-8"))["project"]


def built_program() -> pathlib.Path | None:
    """The program that is built in this checkout."""
    script = ROOT / "taprio_port"
    if not script.is_file():
        return None
    ran = subprocess.run([script, "--built"], stdin=subprocess.DEVNULL, stdout=subprocess.PIPE, text=True, check=False)
    return pathlib.Path(ran.stdout.strip()) if ran.returncode == 0 else None


def built() -> Files:
    """The shared object and the program, where they are there."""
    library = next((it for it in LIBRARIES if it.is_file()), None)
    program = built_program()
    found = {"taprio/libtaprio.so": library, "taprio/taprio_port": program}
    for name, path in found.items():
        print(f"{name}: {path or 'not built, and not in the wheel'}", file=sys.stderr)
    return {name: (path.read_bytes(), 0o755) for name, path in found.items() if path}


def modules() -> Files:
    """The files of the package itself."""
    paths = sorted([*(HERE / "taprio").rglob("*.py"), HERE / "taprio" / "py.typed"])
    return {str(path.relative_to(HERE)): (path.read_bytes(), 0o644) for path in paths}


def metadata(about: dict, version: str) -> str:
    """The file METADATA."""
    extras = about.get("optional-dependencies", {})
    lines = ["Metadata-Version: 2.1", f"Name: {about['name']}", f"Version: {version}", f"Summary: {about['description']}"]
    lines += [f"License: {about['license']['text']}", f"Requires-Python: {about['requires-python']}"]
    for extra, names in extras.items():
        lines += [f"Provides-Extra: {extra}", *(f"Requires-Dist: {name}; extra == '{extra}'" for name in names)]
    return "\n".join(lines) + "\n"


PURE = "py3-none-any"
"""The tag of a wheel that is for any machine."""


def own_tag() -> str:
    """The tag of a wheel that is for this machine's kind."""
    return f"py3-none-{sysconfig.get_platform().replace('-', '_').replace('.', '_')}"


def wheel(folder: str, files: Files, with_command: bool, tag: str, label: str = "") -> str:
    """Writes a wheel of these files, for what the tag says, and gives its name. A label stands behind the version."""
    about = project()
    version = about["version"] + label
    name = f"{about['name']}-{version}"
    info = f"{name}.dist-info"
    says = f"Wheel-Version: 1.0\nGenerator: taprio\nRoot-Is-Purelib: {str(tag == PURE).lower()}\nTag: {tag}\n"
    files = files | {f"{info}/METADATA": (metadata(about, version).encode(), 0o644), f"{info}/WHEEL": (says.encode(), 0o644)}
    if with_command:
        files[f"{info}/entry_points.txt"] = COMMAND.encode(), 0o644
    rows = []
    for path, (octets, _) in files.items():
        digest = base64.urlsafe_b64encode(hashlib.sha256(octets).digest()).decode().rstrip("=")
        rows.append(f"{path},sha256={digest},{len(octets)}\n")
    files[f"{info}/RECORD"] = ("".join(rows) + f"{info}/RECORD,,\n").encode(), 0o644
    with zipfile.ZipFile(pathlib.Path(folder, f"{name}-{tag}.whl"), "w", zipfile.ZIP_DEFLATED) as archive:
        for path, (octets, mode) in files.items():
            entry = zipfile.ZipInfo(path, (1980, 1, 1, 0, 0, 0))
            entry.compress_type, entry.external_attr = zipfile.ZIP_DEFLATED, (0o100000 | mode) << 16
            archive.writestr(entry, octets)
    return f"{name}-{tag}.whl"


def build_wheel(wheel_directory: str, config_settings: object = None, metadata_directory: object = None) -> str:
    """The wheel that pip installs."""
    found = built()
    return wheel(wheel_directory, modules() | found, "taprio/taprio_port" in found, own_tag() if found else PURE)


def build_editable(wheel_directory: str, config_settings: object = None, metadata_directory: object = None) -> str:
    """The wheel of `pip install -e`: it names this folder."""
    return wheel(wheel_directory, {"taprio.pth": (f"{HERE}\n".encode(), 0o644)}, False, PURE)
