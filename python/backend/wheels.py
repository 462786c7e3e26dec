"""Makes the wheel and the source archive of the package: the hooks of PEP 517 and 660, by Python's own library alone.

The wheel has libsynchrony.so if ./library has built it (or SYNCHRONY_LIBRARY names it), and is then one for this
system; else it is one for any, and a line on standard error says how to get the library.
"""

import base64
import hashlib
import io
import os
import re
import sys
import sysconfig
import tarfile
import zipfile
from pathlib import Path

HERE = Path(__file__).resolve().parent.parent
LIBRARY = Path(os.environ.get("SYNCHRONY_LIBRARY") or HERE.parent / "out/libsynchrony.so")
PACKAGE = HERE / "src/synchrony"
# The time of each file in an archive, so that the same files give the same bytes.
TIME = (1980, 1, 1, 0, 0, 0)


def project():
    """What pyproject.toml says about the project: the lines with one text each, and the optional dependencies."""
    text = (HERE / "pyproject.toml").read_text()
    part = re.search(r"^\[project\]\n(.*?)^\[", text, re.M | re.S)[1]
    extras = re.search(r"^\[project\.optional-dependencies\]\n(.*?)^\[", text, re.M | re.S)[1]
    return dict(re.findall(r'^([\w-]+) = "(.*)"$', part, re.M)), dict(re.findall(r'^([\w-]+) = \["([\w-]+)"\]$', extras, re.M))


def metadata():
    told, extras = project()
    lines = ["Metadata-Version: 2.1", f"Name: {told['name']}", f"Version: {told['version']}", f"Summary: {told['description']}"]
    lines += [f"License: {told['license']}", f"Requires-Python: {told['requires-python']}", "Description-Content-Type: text/markdown"]
    for name, needed in extras.items():
        lines += [f"Provides-Extra: {name}", f'Requires-Dist: {needed}; extra == "{name}"']
    return "\n".join([*lines, "", (HERE / told["readme"]).read_text()])


def stem():
    told, _ = project()
    return f"{told['name']}-{told['version']}"


def tag(has_library):
    return "py3-none-" + (re.sub(r"[-.]", "_", sysconfig.get_platform()) if has_library else "any")


def write_wheel(folder, files, which):
    """Writes a wheel of these files, by their names in it, and returns its name."""
    info = f"{stem()}.dist-info"
    head = f"Wheel-Version: 1.0\nGenerator: synchrony\nRoot-Is-Purelib: {'true' if which.endswith('any') else 'false'}\nTag: {which}\n"
    files = {**files, f"{info}/METADATA": metadata().encode(), f"{info}/WHEEL": head.encode()}
    lines = []
    for name, data in files.items():
        digest = base64.urlsafe_b64encode(hashlib.sha256(data).digest()).rstrip(b"=").decode()
        lines.append(f"{name},sha256={digest},{len(data)}\n")
    record = f"{info}/RECORD"
    files[record] = "".join([*lines, f"{record},,\n"]).encode()
    wheel = f"{stem()}-{which}.whl"
    with zipfile.ZipFile(Path(folder) / wheel, "w", zipfile.ZIP_DEFLATED) as archive:
        for name, data in files.items():
            entry = zipfile.ZipInfo(name, TIME)
            entry.external_attr, entry.compress_type = 0o644 << 16, zipfile.ZIP_DEFLATED
            archive.writestr(entry, data)
    return wheel


def sources(below):
    return sorted(it for it in below.rglob("*") if it.is_file() and it.suffix in (".py", ".typed", ".md", ".toml"))


def build_wheel(wheel_directory, config_settings=None, metadata_directory=None):
    files = {f"synchrony/{it.relative_to(PACKAGE)}": it.read_bytes() for it in sources(PACKAGE)}
    has_library = LIBRARY.is_file()
    if has_library:
        files["synchrony/libsynchrony.so"] = LIBRARY.read_bytes()
    else:
        print("synchrony: the wheel has no libsynchrony.so; run ./library at the top of the repository, and install again", file=sys.stderr)
    return write_wheel(wheel_directory, files, tag(has_library))


def build_editable(wheel_directory, config_settings=None, metadata_directory=None):
    """A wheel that names the sources, which find the library of the repository by themselves."""
    return write_wheel(wheel_directory, {"synchrony.pth": f"{PACKAGE.parent}\n".encode()}, tag(False))


def build_sdist(sdist_directory, config_settings=None):
    """The sources, without the library, which belongs to one system."""
    name = f"{stem()}.tar.gz"
    files = {str(it.relative_to(HERE)): it.read_bytes() for it in sources(HERE)}
    with tarfile.open(Path(sdist_directory) / name, "w:gz", format=tarfile.PAX_FORMAT) as archive:
        for file, data in {**files, "PKG-INFO": metadata().encode()}.items():
            entry = tarfile.TarInfo(f"{stem()}/{file}")
            entry.size, entry.mode = len(data), 0o644
            archive.addfile(entry, io.BytesIO(data))
    return name


def get_requires_for_build_wheel(config_settings=None):
    return []


get_requires_for_build_editable = get_requires_for_build_sdist = get_requires_for_build_wheel
