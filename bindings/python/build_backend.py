"""Makes the wheel of the module cheri_caps, with the shared library in it.

    build_backend.py PREFIX    the wheel of the files in PREFIX, as bindings/build fills it, to PREFIX/python

The same files give the same bytes: nothing is compressed, times are 1980's, and files stand in one order. pip calls
`build_wheel` (PEP 517) for a folder that has pyproject.toml; that needs no other package and no network.
"""

from __future__ import annotations

import base64
import hashlib
import os
import re
import shutil
import subprocess
import sys
import tempfile
import zipfile
from pathlib import Path
from typing import Dict, Optional

HERE = Path(__file__).resolve().parent
TOP = HERE.parents[1]
#: The library asks for no other and for no version of a symbol (.ci/bindings looks), so it runs with every glibc that
#: pip has a tag for. The older of the two tags is for old versions of pip.
PLATFORMS = ("manylinux1_x86_64", "manylinux_2_5_x86_64")
METADATA = """\
Metadata-Version: 2.1
Name: cheri_caps
Version: {version}
Summary: Bounds, words and instructions of CHERI capabilities, proved
License: MIT OR Apache-2.0
Classifier: Operating System :: POSIX :: Linux
Classifier: Programming Language :: Python :: 3
Requires-Python: >=3.8
Description-Content-Type: text/plain

The functions of the C library cheri_caps, each proved equal to its definition, over ctypes. The library is in the
wheel, for x86-64 Linux. help(cheri_caps) shows what there is.
"""


def version_of(header: Path) -> str:
    """The version that the C header has."""
    found = re.search(r"^#define CHERI_CAPS_VERSION (\d+)$", header.read_text(encoding="ascii"), re.M)
    if not found:
        sys.exit(f"build_backend: {header} has no CHERI_CAPS_VERSION")
    return found[1]


def record_of(files: Dict[str, bytes], record: str) -> bytes:
    """The list of all files with their checksums; its own line has none."""
    lines = []
    for name, data in files.items():
        digest = base64.urlsafe_b64encode(hashlib.sha256(data).digest()).rstrip(b"=").decode()
        lines.append(f"{name},sha256={digest},{len(data)}\n")
    return "".join([*lines, f"{record},,\n"]).encode()


def write_wheel(prefix: Path) -> Path:
    """The wheel of the header, module and library in PREFIX, in its folder python."""
    version = version_of(prefix / "include/cheri_caps.h")
    info = f"cheri_caps-{version}.dist-info"
    tags = "".join(f"Tag: py3-none-{platform}\n" for platform in PLATFORMS)
    files = {
        "cheri_caps.py": (prefix / "python/cheri_caps.py").read_bytes(),
        "cheri_caps.libs/libcheri_caps.so.1": (prefix / "lib/libcheri_caps.so.1").read_bytes(),
        f"{info}/LICENSE-APACHE": (TOP / "LICENSE-APACHE").read_bytes(),
        f"{info}/LICENSE-MIT": (TOP / "LICENSE-MIT").read_bytes(),
        f"{info}/METADATA": METADATA.format(version=version).encode(),
        f"{info}/WHEEL": f"Wheel-Version: 1.0\nGenerator: build_backend\nRoot-Is-Purelib: false\n{tags}".encode(),
    }
    files[f"{info}/RECORD"] = record_of(files, f"{info}/RECORD")
    wheel = prefix / f"python/cheri_caps-{version}-py3-none-{'.'.join(PLATFORMS)}.whl"
    with zipfile.ZipFile(wheel, "w", zipfile.ZIP_STORED) as archive:
        for name, data in files.items():
            entry = zipfile.ZipInfo(name, (1980, 1, 1, 0, 0, 0))
            entry.create_system = 3  # Unix, as the modes below are
            entry.external_attr = (0o100755 if name.endswith(".so.1") else 0o100644) << 16
            archive.writestr(entry, data)
    return wheel


def build_wheel(
    wheel_directory: str, config_settings: Optional[dict] = None, metadata_directory: Optional[str] = None
) -> str:
    """What pip calls: the release's wheel, where it is made of the sources as they are; else one that is built, where
    Rattle's kit is here."""
    del config_settings, metadata_directory
    with tempfile.TemporaryDirectory() as prefix:
        build = [str(TOP / "bindings/build"), "--from-release", prefix]
        status = subprocess.run(build, check=False).returncode
        if status == 3 and shutil.which("rt"):
            status = subprocess.run([build[0], prefix], check=False).returncode
        wheels = list(Path(prefix, "python").glob("*.whl"))
        if status != 0 or len(wheels) != 1:
            raise RuntimeError("bindings/build made no wheel; its message is above")
        shutil.copyfile(wheels[0], os.path.join(wheel_directory, wheels[0].name))
        return wheels[0].name


def build_sdist(sdist_directory: str, config_settings: Optional[dict] = None) -> str:
    """There is none: a library can't be built of this folder alone."""
    raise RuntimeError("there is no source archive of cheri_caps: it is proved and built in its repository")


if __name__ == "__main__":
    if len(sys.argv) != 2:
        sys.exit(__doc__)
    print(write_wheel(Path(sys.argv[1])))
