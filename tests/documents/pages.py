"""The pages, what each links to, and whether that is there."""

import re
import subprocess
from collections.abc import Iterator
from dataclasses import dataclass
from functools import cached_property
from pathlib import Path
from urllib.parse import unquote

FENCE = re.compile(r"^ *```.*?^ *```$", re.MULTILINE | re.DOTALL)
INDENTED = re.compile(r"^    .*$", re.MULTILINE)
CODE = re.compile(r"`[^`\n]*`")
LINK = re.compile(r"\]\(([^()\s]+)\)")
HEADING = re.compile(r"^#{1,6} +(.*?) *$", re.MULTILINE)
# A page that a file of code, a message or a man page names.
NAMED = re.compile(r"\bdocs/[A-Z]+\.md(?:#[a-z0-9_-]+)?")
ELSEWHERE = ("http://", "https://", "mailto:")


def without_code(text: str) -> str:
    """The text, with as many lines, but without what is shown in blocks of code and between backquotes."""
    text = FENCE.sub(lambda fence: "\n" * fence.group().count("\n"), text)
    return CODE.sub("`code`", INDENTED.sub("", text))


def anchor_of(heading: str) -> str:
    """The anchor of a heading, as GitHub makes it."""
    plain = re.sub(r"\[([^\]]*)\]\([^)]*\)", r"\1", heading).replace("`", "").lower()
    return re.sub(r"[^\w\- ]", "", plain).replace(" ", "-")


@dataclass(frozen=True)
class Page:
    """A page, by its path below the top of the tree, and its text."""

    top: Path
    path: Path
    text: str

    @property
    def name(self) -> str:
        """Its path below the top."""
        return str(self.path)

    @cached_property
    def anchors(self) -> frozenset[str]:
        """The anchors of its headings; one that comes again has a number."""
        counts: dict[str, int] = {}
        found = set()
        for heading in HEADING.findall(FENCE.sub("", self.text)):
            anchor = anchor_of(heading)
            count = counts.get(anchor, 0)
            counts[anchor] = count + 1
            found.add(f"{anchor}-{count}" if count else anchor)
        return frozenset(found)

    def links(self) -> Iterator[tuple[int, str]]:
        """The targets of its links, each with the number of its line."""
        for number, line in enumerate(without_code(self.text).split("\n"), 1):
            for target in LINK.findall(line):
                yield number, target


def tracked_files(top: Path) -> list[Path]:
    """The files of the tree: those that git tracks, or in a copy without git all that aren't hidden or built."""
    done = subprocess.run(["git", "-C", top, "ls-files", "-z"], capture_output=True, check=False)
    if done.returncode == 0:
        listed = [Path(name) for name in done.stdout.decode().split("\0") if name]
        return [path for path in listed if (top / path).is_file()]
    found = (path.relative_to(top) for path in top.rglob("*") if path.is_file())
    return sorted(path for path in found if "out" not in path.parts and not path.parts[0].startswith("."))


def read_pages(top: Path, files: list[Path]) -> list[Page]:
    """All pages of the tree."""
    return [Page(top, path, (top / path).read_text(encoding="utf-8")) for path in files if path.suffix == ".md"]


def fault_of_link(pages: dict[str, Page], page: Page, target: str) -> str | None:
    """The fault of a link of a page, if it has one."""
    if target.startswith(ELSEWHERE):
        return None
    name, _, anchor = unquote(target).partition("#")
    place = (page.top / page.path.parent / name).resolve() if name else page.top / page.path
    if not place.exists() or not place.is_relative_to(page.top):
        return "there is no such file"
    found = pages.get(str(place.relative_to(page.top)))
    if anchor and (found is None or anchor not in found.anchors):
        return "there is no such heading"
    return None


def broken_links(pages: dict[str, Page], page: Page) -> Iterator[str]:
    """A line for each link of a page that leads nowhere."""
    for line, target in page.links():
        if why := fault_of_link(pages, page, target):
            yield f"{page.name}:{line}: {target}: {why}"


def broken_page_names(top: Path, pages: dict[str, Page], files: list[Path]) -> Iterator[str]:
    """A line for each page that a file which is no page names, and that isn't there."""
    for path in files:
        if path.suffix in (".md", ".png"):
            continue
        text = (top / path).read_text(encoding="utf-8", errors="replace")
        for number, line in enumerate(text.split("\n"), 1):
            for name in NAMED.findall(line):
                target, _, anchor = name.partition("#")
                if target not in pages or anchor and anchor not in pages[target].anchors:
                    yield f"{path}:{number}: {name}: there is no such page or heading"
