"""The wheel of the Python module: an archive that pip installs as it is. What it says of itself is
that of bindings/python/pyproject.toml."""

from __future__ import annotations

import base64
import hashlib
import re
import time
import zipfile
from pathlib import Path
from typing import NamedTuple

WHEEL = """\
Wheel-Version: 1.0
Generator: tools/package
Root-Is-Purelib: false
Tag: {tag}
"""


class Project(NamedTuple):
    """What pyproject.toml says, and the page beside it."""

    told: str
    page: str

    def value(self, name: str) -> str:
        """The text of a line `name = "..."`."""
        return re.search(rf'^{name} = "(.*)"$', self.told, re.MULTILINE)[1]

    def values(self, name: str) -> list[str]:
        """The texts of a list."""
        found = re.search(rf"^{name} = \[(.*?)\]$", self.told, re.MULTILINE | re.DOTALL)
        return re.findall(r'"(.*?)"', found[1])

    def metadata(self) -> str:
        """The file METADATA (version 2.1)."""
        licence = re.search(r'^license = \{ text = "(.*)" \}$', self.told, re.MULTILINE)[1]
        lines = (
            "Metadata-Version: 2.1",
            f"Name: {self.value('name')}",
            f"Version: {self.value('version')}",
            f"Summary: {self.value('description')}",
            f"License: {licence}",
            f"Keywords: {','.join(self.values('keywords'))}",
            *(f"Classifier: {text}" for text in self.values("classifiers")),
            f"Requires-Python: {self.value('requires-python')}",
            "Description-Content-Type: text/markdown",
            "",
        )
        return "\n".join((*lines, self.page))


def digest(data: bytes) -> str:
    """A checksum, as RECORD has it."""
    made = base64.urlsafe_b64encode(hashlib.sha256(data).digest())
    return "sha256=" + made.rstrip(b"=").decode()


def python_tag(module: Path) -> str:
    """What a module asks of Python: that of pyproject.toml, and of an extension the interface that
    its name has (PEP 384)."""
    return "cp39-abi3" if any(module.glob("*.abi3.so")) else "py3-none"


def write(folder: Path, libc: str, seconds: int, to: Path) -> Path:
    """Packs the module of a folder, with its library, which needs a version of the C library; all
    with one date. The wheel stands in a folder, under the name that its tags give it."""
    project = Project((folder / "pyproject.toml").read_text(), (folder / "README.md").read_text())
    name, version = project.value("name"), project.value("version")
    tag = f"{python_tag(folder / name)}-manylinux_{libc.replace('.', '_')}_x86_64"
    about = f"{name}-{version}.dist-info"
    members = {
        f"{name}/{path.name}": path.read_bytes() for path in sorted((folder / name).iterdir())
    }
    members[f"{about}/METADATA"] = project.metadata().encode()
    members[f"{about}/WHEEL"] = WHEEL.format(tag=tag).encode()
    record = "".join(f"{path},{digest(data)},{len(data)}\n" for path, data in members.items())
    members[f"{about}/RECORD"] = f"{record}{about}/RECORD,,\n".encode()
    made = to / f"{name}-{version}-{tag}.whl"
    with zipfile.ZipFile(made, "w", zipfile.ZIP_DEFLATED) as archive:
        for path, data in members.items():
            member = zipfile.ZipInfo(path, time.gmtime(seconds)[:6])
            member.external_attr = 0o100644 << 16
            member.compress_type = zipfile.ZIP_DEFLATED
            archive.writestr(member, data)
    return made
