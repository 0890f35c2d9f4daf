#!/usr/bin/env python3
"""Makes the table of the characters that a terminal would obey or hide, in crates/verdict_texts:
specs/Hidden.antt as a definition, src/hidden.rt as code.

    python3 hidden_characters.py
    python3 hidden_characters.py --check

The characters are those of Unicode's general categories Cc, Cf, Zl and Zp, its default ignorable
code points, and the pattern of Braille without a dot, which looks like a space. Perl has the
properties. `--check` changes nothing: it says whether the tables are what is made, with status 1
where they are not.
"""

from __future__ import annotations

import re
import subprocess
import sys
from pathlib import Path

CRATE = Path(__file__).resolve().parent.parent / "crates" / "verdict_texts"
PAGE = CRATE / "specs" / "Hidden.antt"
CODE = CRATE / "src" / "hidden.rt"
VERSION = "14.0.0"
PROPERTIES = ("Cc", "Cf", "Zl", "Zp", "Default_Ignorable_Code_Point")
BLANK_BRAILLE = 0x2800
PERL = r"""
use Unicode::UCD;
print Unicode::UCD::UnicodeVersion(), "\n";
for my $code (0 .. 0x10ffff) {
    next if $code >= 0xd800 && $code <= 0xdfff;
    print "$code\n" if chr($code) =~ /[%s]/;
}
"""


class OtherVersion(Exception):
    """Perl knows another version of Unicode than the tables."""


def hidden_codes() -> list[int]:
    """The code points of the characters, in order."""
    classes = "".join(rf"\p{{{name}}}" for name in PROPERTIES)
    words = ["perl", "-e", PERL % (classes + rf"\x{{{BLANK_BRAILLE:x}}}")]
    done = subprocess.run(words, check=True, stdout=subprocess.PIPE, text=True)
    version, *codes = done.stdout.split()
    if version != VERSION:
        raise OtherVersion(f"Perl knows Unicode {version}, and the tables are made of {VERSION}")
    return [int(code) for code in codes]


def ranges_of(codes: list[int]) -> list[tuple[int, int]]:
    """Code points as ranges, each with its first and its last one."""
    ranges: list[tuple[int, int]] = []
    for code in codes:
        if ranges and ranges[-1][1] == code - 1:
            ranges[-1] = (ranges[-1][0], code)
        else:
            ranges.append((code, code))
    return ranges


def defined(ranges: list[tuple[int, int]]) -> str:
    """The lines of the definition."""
    lines, line = [], "   "
    for first, last in ranges:
        item = f" from_to 0x{first:x} 0x{last:x} ∷"
        if len(line + item) > 100:
            lines.append(line)
            line = "   "
        line += item
    return "\n".join([*lines, line + " []"]) + "\n"


def literal(code: int) -> str:
    """A character as the code writes it."""
    return r"'\0'" if code == 0 else rf"'\u{{{code:x}}}'"


def coded(ranges: list[tuple[int, int]]) -> str:
    """The lines of the code."""
    patterns = [
        literal(first) if first == last else f"{literal(first)}..={literal(last)}"
        for first, last in ranges
    ]
    return "        " + "\n            | ".join(patterns) + "\n"


def plain(text: str) -> str:
    """A text in which an escape stands for each of the characters of the table."""
    ranges = re.findall(r"from_to 0x(\w+) 0x(\w+)", PAGE.read_text())
    hidden = "".join(rf"\U{int(first, 16):08x}-\U{int(last, 16):08x}" for first, last in ranges)
    return re.sub(f"[{hidden}]", lambda found: escaped(ord(found[0])), text)


def escaped(code: int) -> str:
    """The escape of a character."""
    return rf"\u{code:04x}" if code < 0x10000 else rf"\U{code:08x}"


def tables() -> dict[Path, str]:
    """What each of the two files is to be."""
    ranges = ranges_of(hidden_codes())
    page, code = PAGE.read_text(), CODE.read_text()
    return {
        PAGE: re.sub(r"(?<=\nhidden_ranges =\n)(    .*\n)+", lambda _: defined(ranges), page),
        CODE: re.sub(r"(?<=\n        c,\n)(        .*\n)+", lambda _: coded(ranges), code),
    }


def main() -> None:
    made = tables()
    if sys.argv[1:] != ["--check"]:
        for path, text in made.items():
            path.write_text(text)
        return
    for path, text in made.items():
        if path.read_text() != text:
            sys.exit(f"{path} is not what hidden_characters.py makes")


if __name__ == "__main__":
    try:
        main()
    except OtherVersion as fault:
        sys.exit(str(fault))
