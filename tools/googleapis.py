#!/usr/bin/env python3
"""Makes a descriptor set of googleapis' files, of which the package golang-google-genproto-dev of
Debian has the descriptors: each is in the source that was generated of it, as bytes of gzip.

    python3 googleapis.py SET.pb                fetches the package by apt-get
    python3 googleapis.py SET.pb PACKAGE.deb    takes it from there

The set has all files that they import, each file after these: protobuf's own come from protoc. It is
said how many files, services, methods and methods that stream there are. Needed are dpkg-deb, protoc
with protobuf's own files, and protobuf's Python package. Exit status: 0, or 2 where no set could be
made.
"""

from __future__ import annotations

import gzip
import re
import sys
import tempfile
from collections.abc import Iterator
from graphlib import TopologicalSorter
from pathlib import Path

from google.protobuf.descriptor_pb2 import FileDescriptorProto, FileDescriptorSet

from library_speed import ToolError, must, own_files

PACKAGE = "golang-google-genproto-dev"
DESCRIPTOR = re.compile(r"var fileDescriptor_\w+ = \[\]byte\{(.*?)\n\}", re.DOTALL)


def generated(folder: Path) -> Iterator[FileDescriptorProto]:
    """The files whose descriptors stand in the sources of a folder."""
    for path in sorted(folder.rglob("*.pb.go")):
        for found in DESCRIPTOR.finditer(path.read_text(encoding="utf-8")):
            data = bytes(int(byte, 16) for byte in re.findall(r"0x([0-9a-f]{2})", found[1]))
            yield FileDescriptorProto.FromString(gzip.decompress(data))


def unpacked(package: list[str], room: Path) -> Path:
    """The folder of what a package has, which is fetched where none is given."""
    if not package:
        must(["sh", "-c", f"cd '{room}' && apt-get download {PACKAGE}"])
        package = [str(path) for path in room.glob("*.deb")]
    must(["dpkg-deb", "-x", package[0], str(room / "unpacked")])
    return room / "unpacked"


def made(package: list[str], room: Path) -> FileDescriptorSet:
    """The set of all files whose imports are there."""
    files = {file.name: file for file in FileDescriptorSet.FromString(own_files(room)).file}
    for file in generated(unpacked(package, room)):
        files.setdefault(file.name, file)
    while lacking := [
        name for name, file in files.items() if not files.keys() >= set(file.dependency)
    ]:
        for name in lacking:
            del files[name]
    imports = {name: sorted(file.dependency) for name, file in files.items()}
    return FileDescriptorSet(file=map(files.__getitem__, TopologicalSorter(imports).static_order()))


def counts(files: FileDescriptorSet) -> str:
    services = [service for file in files.file for service in file.service]
    methods = [method for service in services for method in service.method]
    streams = [it for it in methods if it.client_streaming or it.server_streaming]
    return (
        f"{len(files.file):,} files, {len(services):,} services, {len(methods):,} methods, "
        f"of which {len(streams):,} stream"
    )


def main() -> int:
    if len(sys.argv) not in (2, 3) or sys.argv[1] in ("-h", "--help"):
        print((__doc__ or "").strip())
        return 0 if sys.argv[1:] in (["-h"], ["--help"]) else 2
    try:
        with tempfile.TemporaryDirectory() as name:
            files = made(sys.argv[2:], Path(name))
        Path(sys.argv[1]).write_bytes(files.SerializeToString())
    except (ToolError, OSError) as fault:
        print(f"googleapis.py: {fault}", file=sys.stderr)
        return 2
    print(counts(files))
    return 0


if __name__ == "__main__":
    sys.exit(main())
