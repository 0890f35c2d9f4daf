"""Trials of the packages, as a user meets them: the archive and the wheel unpacked in folders, and
the packages for Debian installed. Each is then used: the programs, the library by pkg-config and as
an archive, the Python module, the example of the Rust crate, the manual pages, the completions, and
sources that are in git.

As root they run where what is mounted nobody else sees: the repository and the toolchain are hidden
there, and what dpkg installs is gone at the end. Where that can't be, the archive is tried without
it, in a folder of its own and with the toolchain off the PATH, and nothing is installed.
"""

from __future__ import annotations

import os
import re
import shutil
import subprocess
import sys
import tarfile
import tempfile
import zipfile
from pathlib import Path
from typing import NamedTuple, Optional

import source_trials
from python_wheel import digest
from trials import Trials, run

TOP = Path(__file__).resolve().parent.parent
SET = TOP / "crates/example_pool/data/well_known.pb"
REFUSED_SET = TOP / "crates/test_rows/data/checks/breaks/extension-of-a-message-without-ranges.pb"
FINDING = TOP / "dist/lib/_finding.abi3.so"
PYPROJECT = TOP / "bindings/python/pyproject.toml"
COUNTS = "12 files, 58 messages, 11 enums, 0 services, 0 extensions"
NUMBERS = [12, 58, 11, 0, 0]
"""What SET declares."""

SCRIPT = "file a.proto\npackage p.q\nmessage M\nend\nend\nlink\nfind p.q.M\n"
REPORT = "ok 1 1 0 0 0\nmessage 0 a.proto [4, 0, 1]\n"

PYTHON = """\
import protolink
pool = protolink.Pool()
pool.add_set(open("set.pb", "rb").read())
print(list(pool.counts()), protolink.version(), protolink._names.finding is not None)
"""

PAGES = (
    *("man1/check_descriptors.1", "man1/protolink-check.1", "man1/protoc-gen-protolink.1"),
    *("man1/protolink.1", "man3/libprotolink.3"),
)
"""The manual pages, in the folder of all."""

IN_BASH = """\
. "$1"
function=$2
shift 2
COMP_WORDS=(program "$@")
COMP_CWORD=$#
$function
echo "${COMPREPLY[@]}"
"""
IN_ZSH = """\
_arguments() { for word in $*; do [[ $word = *$found* ]] && print -r -- $word; done; return 0 }
found=$2
source $1
"""
"""The rules of an option, by the completions of zsh."""

IN_FISH = 'source $argv[1]; complete -C "$argv[2]" | string replace -r "\\t.*" ""'

MOUNTS = """\
mount -t tmpfs none "$1"
for at in usr var etc; do
    mkdir -p "$1/$at/upper" "$1/$at/work"
    mount -t overlay overlay \
        -o "lowerdir=/$at,upperdir=$1/$at/upper,workdir=$1/$at/work" "/$at"
done
shift
for hidden in "$@"; do
    mount -t tmpfs none "$hidden"
done
echo ready
exec cat
"""
"""What is mounted: folders over which dpkg may write, and nothing in place of what is hidden."""

KEPT = ("HOME", "CARGO_HOME", "RUSTUP_HOME")
"""What a user's environment has besides PATH."""

WITHIN = 'cd "$1" && shift && exec "$@"'


class Place(NamedTuple):
    """Where a package lies, and what is set to use it."""

    name: str
    prefix: Path
    rust: Path
    python: str
    settings: dict[str, str]


def toolchain() -> Optional[Path]:
    """The folder of the toolchain, where it is one of its own."""
    found = shutil.which("rt")
    folder = Path(found).resolve().parent.parent if found else None
    return folder if folder is not None and (folder / "rlibs").is_dir() else None


def environment() -> dict[str, str]:
    """What a user has set: a PATH without the toolchain, and nothing that tells of it."""
    folders = os.environ.get("PATH", os.defpath).split(os.pathsep)
    plain = (it for it in folders if not any((Path(it) / tool).exists() for tool in ("rt", "rattle")))
    kept = {name: os.environ[name] for name in KEPT if name in os.environ}
    return {**kept, "PATH": os.pathsep.join(plain), "LC_ALL": "C.UTF-8"}


class User:
    """One who runs commands in a folder, on a machine with mounts of its own where that can be."""

    def __init__(self, room: Path) -> None:
        self.room = room
        self.lacks = "" if os.geteuid() == 0 else "one is not root"
        self.machine: Optional[subprocess.Popen] = None

    def __enter__(self) -> User:
        if not self.lacks:
            self.mount()
        return self

    def __exit__(self, *_: object) -> None:
        if self.machine is not None:
            self.machine.communicate()

    def mount(self) -> None:
        """Makes the machine, or tells why it can't be made."""
        mounts = self.room / "mounts"
        mounts.mkdir()
        hidden = [str(it) for it in (TOP, toolchain()) if it is not None]
        words = ["unshare", "-m", "--propagation", "private", "sh", "-ec", MOUNTS, "sh", str(mounts)]
        pipes = {"stdin": subprocess.PIPE, "stdout": subprocess.PIPE, "stderr": subprocess.STDOUT}
        try:
            self.machine = subprocess.Popen([*words, *hidden], text=True, **pipes)
        except OSError as fault:
            self.lacks = f"unshare: {fault.strerror}"
            return
        said = self.machine.stdout.readline().strip()
        if said != "ready":
            self.machine.communicate()
            self.machine, self.lacks = None, f"nothing can be mounted ({said})"

    def run(
        self, words: list[str], settings: dict[str, str], given: str = ""
    ) -> subprocess.CompletedProcess:
        """Runs a command in the room, and answers its status and all that it writes."""
        before = []
        if self.machine is not None:
            before = ["nsenter", "-m", "-t", str(self.machine.pid)]
        within = [*before, "sh", "-c", WITHIN, "sh", str(self.room), *words]
        (self.room / "given").write_text(given)
        with (self.room / "given").open() as file:
            return run(within, env={**environment(), **settings}, stdin=file)


class Trial(NamedTuple):
    """What tries a package: a user, what is tried, and where it lies."""

    trials: Trials
    user: User
    place: Place

    def run(self, words: list[str], given: str = "", **more: str) -> subprocess.CompletedProcess:
        return self.user.run(words, {**self.place.settings, **more}, given)

    def tells(self, name: str, words: list[str], wanted: str, given: str = "", **more: str) -> None:
        """A command that ends with 0 and writes a text, or ends its writing with it."""
        said = self.run(words, given, **more)
        is_right = said.returncode == 0 and said.stdout.endswith(wanted)
        told = f"{said.stdout}\nended with status {said.returncode}; wanted was {wanted}"
        self.trials.tell(f"{self.place.name}: {name}", "" if is_right else told)


def try_programs(trial: Trial) -> None:
    """The programs: on a set, on a script, and as a plugin of protoc."""
    bin_ = trial.place.prefix / "bin"
    check = str(bin_ / "check_descriptors")
    trial.tells("check_descriptors accepts", [check, "set.pb"], f"accepted: {COUNTS}\n")
    said = trial.run([check, "refused.pb"])
    is_right = said.returncode == 1 and said.stdout.endswith("refused: 1 fault\n")
    trial.trials.tell(f"{trial.place.name}: check_descriptors refuses", "" if is_right else said.stdout)
    trial.tells("protolink", [str(bin_ / "protolink")], REPORT, SCRIPT)
    if trial.trials.has(f"{trial.place.name}: the plugin", "protoc"):
        path = f"{bin_}:/usr/bin:/bin"
        words = ["protoc", "--protolink_out=.", "google/protobuf/timestamp.proto"]
        trial.tells("protoc finds the plugin", words, "", PATH=path)


def try_c(trial: Trial) -> None:
    """The example in C, by pkg-config with the shared library, and with the archive."""
    what = f"{trial.place.name}: a program in C"
    if not trial.trials.has(what, "gcc", "pkg-config"):
        return
    source = str(trial.place.prefix / "share/doc/protolink/examples/check_set.c")
    for name, flags, library in (
        ("by pkg-config", "--libs", []),
        ("with the archive", "--libs-only-L", ["-l:libprotolink.a"]),
    ):
        said = trial.run(["pkg-config", "--cflags", flags, "protolink"])
        words = ["gcc", "-std=c99", source, *said.stdout.split(), *library, "-o", "check_set"]
        compiled = trial.run(words)
        if trial.trials.tell(f"{what} {name}", compiled.stdout):
            trial.tells(f"it starts, {name}", ["./check_set", "set.pb"], "")


def try_python(trial: Trial) -> None:
    """The Python module, with its extension where that was built."""
    version = re.search(r'^version = "(.*)"$', PYPROJECT.read_text(), re.MULTILINE)[1]
    words = [trial.place.python, "-c", PYTHON]
    trial.tells("the Python module", words, f"{NUMBERS} {version} {FINDING.is_file()}\n")


def try_wheel(trials: Trials, user: User, dist: Path) -> None:
    """The Python module as pip lays it: what the wheel has, beside what it tells of itself."""
    wheels = sorted(dist.glob("protolink-*.whl"))
    if len(wheels) != 1:
        trials.tell("the wheel", f"dist/ has {len(wheels)}")
        return
    folder = user.room / "site"
    with zipfile.ZipFile(wheels[0]) as archive:
        archive.extractall(folder)
        names = set(archive.namelist())
    (record,) = folder.glob("*.dist-info/RECORD")
    rows = [line.rsplit(",", 2) for line in record.read_text().splitlines()]
    wrong = [name for name, sum_, _ in rows if sum_ and sum_ != digest((folder / name).read_bytes())]
    lacking = names ^ {name for name, *_ in rows}
    trials.tell("the wheel has what it records", " ".join([*wrong, *sorted(lacking)]))
    place = Place("wheel", folder, folder, sys.executable, {"PYTHONPATH": str(folder)})
    try_python(Trial(trials, user, place))


def try_rust(trial: Trial) -> None:
    """The Rust crate: its example, and what would be published of it."""
    what = f"{trial.place.name}: the Rust crate"
    if not trial.trials.has(what, "cargo"):
        return
    folder = f"rust_{trial.place.name}"
    copied = trial.run(["cp", "-rL", str(trial.place.rust), folder])
    if not trial.trials.tell(f"{what} is there", copied.stdout):
        return
    settings = {"CARGO_TARGET_DIR": str(trial.user.room / "target")}
    manifest = ["--offline", "--quiet", "--manifest-path", f"{folder}/Cargo.toml"]
    words = ["cargo", "run", *manifest, "--example", "link", "--", "set.pb"]
    names = ("files", "messages", "enums", "services", "extensions")
    counts = ", ".join(f"{name}: {number}" for name, number in zip(names, NUMBERS))
    trial.tells("its example", words, f"Counts {{ {counts} }}\n", **settings)
    said = trial.run(["cargo", "package", *manifest, "--list", "--allow-dirty"], **settings)
    wanted = {"lib/libprotolink.a", "build.rs", "src/lib.rs", "README.md", "LICENSE-MIT"}
    lacking = wanted - set(said.stdout.split())
    told = f"{said.stdout}lacking {sorted(lacking)}" if lacking else ""
    trial.trials.tell(f"{what} is published whole", told)


def try_pages(trial: Trial) -> None:
    """The manual pages, which troff takes without a word."""
    what = f"{trial.place.name}: the manual pages"
    if not trial.trials.has(what, "groff", "gunzip"):
        return
    for name in PAGES:
        packed = str(trial.place.prefix / f"share/man/{name}.gz")
        words = ["sh", "-c", 'gunzip < "$1" | groff -man -Tutf8 -ww -P-cbou', "sh", packed]
        said = trial.run(words).stdout
        is_right = "\nSYNOPSIS\n" in said and "warning:" not in said
        trial.trials.tell(f"{what}: {name}", "" if is_right else said[:2000])


def try_completions(trial: Trial) -> None:
    """The completions of bash, zsh and fish."""
    share = trial.place.prefix / "share"
    folder = "vendor-completions" if trial.place.name == "Debian" else "site-functions"
    for program, function in (
        ("check_descriptors", "_check_descriptors"),
        ("protolink-check", "_protolink_check"),
    ):
        what = f"{trial.place.name}: the completions of {program}"
        if trial.trials.has(f"{what} in bash", "bash"):
            file = f"{share}/bash-completion/completions/{program}"
            try_bash(trial, program, ["bash", "-ec", IN_BASH, "bash", file, function])
        if trial.trials.has(f"{what} in zsh", "zsh"):
            file = f"{share}/zsh/{folder}/_{program}"
            words = ["zsh", "-fec", IN_ZSH, "zsh", file, "--level="]
            trial.tells(f"{program} in zsh", words, ":LEVEL:(wire json source)\n")
        if trial.trials.has(f"{what} in fish", "fish"):
            file = f"{share}/fish/vendor_completions.d/{program}.fish"
            words = ["fish", "--no-config", "-c", IN_FISH, file, f"{program} --format git"]
            trial.tells(f"{program} in fish", words, "github\ngitlab\n")


def try_bash(trial: Trial, program: str, words: list[str]) -> None:
    """The completions of a program in bash."""
    for begun, wanted in (
        (["--li"], "--list --linked\n"),
        (["--format", "g"], "github gitlab\n"),
        (["--compatibility", "f"], "forward full\n"),
        (["--max-faults", ""], "\n"),
        (["--list", "se"], "set.pb\n"),
        (["--against", "se"], "set.pb\n"),
    ):
        trial.tells(f"{program} in bash: {' '.join(begun)}", [*words, *begun], wanted)


def try_place(trial: Trial) -> None:
    """All of a package."""
    try_programs(trial)
    source_trials.try_sources(trial)
    try_c(trial)
    try_python(trial)
    try_rust(trial)
    try_pages(trial)
    try_completions(trial)


def unpacked(package: Path, room: Path) -> Place:
    """Where the archive was unpacked."""
    with tarfile.open(package) as tar:
        tar.extractall(room)
    prefix = room / package.name.removesuffix(".tar.gz")
    settings = {
        "PKG_CONFIG_PATH": str(prefix / "lib/pkgconfig"),
        "PYTHONPATH": str(prefix / "python"),
    }
    return Place("archive", prefix, prefix / "rust", sys.executable, settings)


def try_debian(trials: Trials, user: User, packages: list[Path]) -> None:
    """The packages for Debian, installed, tried, and removed."""
    what = "the packages for Debian, installed"
    if user.machine is None:
        trials.leave_out(what, user.lacks)
        return
    if not trials.has(what, "dpkg"):
        return
    for package in packages:
        shutil.copy(package, user.room)
    place = Place(
        "Debian", Path("/usr"), Path("/usr/lib/protolink/rust"), "/usr/bin/python3", {}
    )
    trial = Trial(trials, user, place)
    trial.tells("dpkg -i", ["dpkg", "-i", *(package.name for package in packages)], "")
    try_place(trial)
    for name in ("check_descriptors", "protolink-check", "protoc-gen-protolink"):
        trial.tells(f"man finds {name}", ["man", "-w", name], f"{name}.1.gz\n")
    trial.tells("dpkg --purge", ["dpkg", "--purge", "python3-protolink", "protolink"], "")
    left = trial.run(["sh", "-c", "ls -d /usr/bin/protolink /usr/lib/protolink 2>/dev/null"])
    trials.tell("Debian: nothing is left", left.stdout)


def try_all(trials: Trials, dist: Path) -> None:
    """Tries what dist/ has."""
    archives = sorted(dist.glob("protolink-*-x86_64-linux.tar.gz"))
    if len(archives) != 1:
        trials.leave_out("the packages", f"dist/ has {len(archives)} archives")
        return
    with tempfile.TemporaryDirectory() as name:
        room = Path(name)
        shutil.copy(SET, room / "set.pb")
        shutil.copy(REFUSED_SET, room / "refused.pb")
        place = unpacked(archives[0], room)
        with User(room) as user:
            try_place(Trial(trials, user, place))
            source_trials.try_gates(Trial(trials, user, place), archives[0])
            try_wheel(trials, user, dist)
            packages = [*sorted(dist.glob("protolink_*.deb")), *sorted(dist.glob("python3-*.deb"))]
            if len(packages) == 2:
                try_debian(trials, user, packages)
            else:
                trials.leave_out("the packages for Debian", "dpkg-deb made none")
