"""Pages of the repository as packages have them: what they link to is there."""

from __future__ import annotations

import os
import re
from pathlib import Path

LINK = re.compile(r"\[((?:`[^`\n]*`|[^\]`\n])+)\]\(([^)\s]+)\)")
"""A link of Markdown: its words, and what it leads to."""


def packed(page: Path, to: Path, places: dict[Path, Path]) -> str:
    """The text of a page that is packed at a place. A link to a file that has a place leads there;
    of one to another file the words stay."""

    def link(found: re.Match) -> str:
        words, target = found.groups()
        name, sign, anchor = target.partition("#")
        if "://" in target or not name:
            return found[0]
        place = places.get((page.parent / name).resolve())
        if place is None:
            return words
        return f"[{words}]({os.path.relpath(place, to.parent)}{sign}{anchor})"

    return LINK.sub(link, page.read_text())
