"""Builds a wheel of the Python package, with the shared library in it: a zip archive, as PyPA's specification "Binary
distribution format" has it. The same files give the same bytes."""
import ast
import base64
import hashlib
import re
import subprocess
import sys
import zipfile

from crates import ROOT

PACKAGE = ROOT / "python" / "nevgrasi"
CONFIG = ROOT / "include" / "nevgrasi.pc"
LICENCES = ("LICENSE-APACHE", "LICENSE-MIT")

# The one machine that the library is built for. The tag promises that glibc 2.17 is enough, and no other library.
TAG = "py3-none-manylinux2014_x86_64"
NEWEST_GLIBC = (2, 17)
LIBRARIES = {"libc.so.6"}

METADATA = """Metadata-Version: 2.4
Name: nevgrasi
Version: {version}
Summary: {summary}
Author: Nevgrasi maintainers
License-Expression: Apache-2.0 OR MIT
{licences}Classifier: Intended Audience :: Developers
Classifier: Operating System :: POSIX :: Linux
Classifier: Programming Language :: Python :: 3
Classifier: Topic :: Software Development :: Build Tools
Classifier: Typing :: Typed
Requires-Python: >=3.8
Description-Content-Type: text/x-rst

{description}
"""


def version():
    """Returns the one version of the programs, the library and the package."""
    return re.search(r"^Version: (.*)$", CONFIG.read_text(), re.M)[1]


def needed(library):
    """Returns what a shared library needs: the libraries, and the versions of their symbols."""
    told = subprocess.run(["readelf", "--wide", "--dynamic", "--version-info", library], capture_output=True, text=True,
                          check=True).stdout
    return {*re.findall(r"\(NEEDED\).*\[(.*)\]", told)}, {*re.findall(r"Name: (\S+)  Flags:", told)}


def of_glibc(name):
    """Returns the version of glibc that has this version of symbols, or one above all if it is not named after one."""
    found = re.fullmatch(r"GLIBC_(\d+)\.(\d+)(?:\.\d+)?", name)
    return (int(found[1]), int(found[2])) if found else (sys.maxsize,)


def exceeding(library):
    """Returns what a shared library needs that the tag does not promise."""
    libraries, versions = needed(library)
    return sorted((libraries - LIBRARIES) | {it for it in versions if of_glibc(it) > NEWEST_GLIBC})


def metadata():
    """Returns the metadata. The description is the docstring of the package."""
    summary = re.search(r"^Description: (.*)$", CONFIG.read_text(), re.M)[1]
    return METADATA.format(
        version=version(), summary=summary, licences="".join(f"License-File: {name}\n" for name in LICENCES),
        description=ast.get_docstring(ast.parse((PACKAGE / "__init__.py").read_text())))


def record_line(name, data):
    """Returns the line of RECORD for a file."""
    digest = base64.urlsafe_b64encode(hashlib.sha256(data).digest()).rstrip(b"=").decode()
    return f"{name},sha256={digest},{len(data)}\n"


def make_wheel(library, folder):
    """Writes the wheel into the folder, and returns its path. Ends the script if the library needs more than the tag
    promises."""
    if too_new := exceeding(library):
        sys.exit(f"wheel: {library.name} needs {', '.join(too_new)}, which {TAG} does not promise")
    about = f"nevgrasi-{version()}.dist-info"
    files = {f"nevgrasi/{it.name}": it.read_bytes() for it in sorted(PACKAGE.iterdir()) if it.is_file()}
    files["nevgrasi/libnevgrasi.so"] = library.read_bytes()
    files[f"{about}/METADATA"] = metadata().encode()
    files[f"{about}/WHEEL"] = f"Wheel-Version: 1.0\nGenerator: nevgrasi\nRoot-Is-Purelib: false\nTag: {TAG}\n".encode()
    files |= {f"{about}/licenses/{name}": (ROOT / name).read_bytes() for name in LICENCES}
    record = "".join(record_line(name, data) for name, data in files.items()) + f"{about}/RECORD,,\n"
    folder.mkdir(parents=True, exist_ok=True)
    wheel = folder / f"nevgrasi-{version()}-{TAG}.whl"
    with zipfile.ZipFile(wheel, "w") as archive:
        for name, data in [*files.items(), (f"{about}/RECORD", record.encode())]:
            entry = zipfile.ZipInfo(name)
            entry.external_attr = 0o644 << 16
            archive.writestr(entry, data, zipfile.ZIP_DEFLATED)
    return wheel
