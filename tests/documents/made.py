"""The parts of pages and other files that tools make, and whether they are what the tools make."""

import subprocess
from collections.abc import Iterator
from dataclasses import dataclass
from pathlib import Path

from documents.pages import Page


@dataclass(frozen=True)
class Made:
    """A page or another file, the lines around the part that is made (none: all of it is), and what prints it."""

    page: str
    begin: str | None
    end: str | None
    command: tuple[str, ...]


TABLE = "tools/settings_table.py"
MADE = (
    Made("docs/COVERAGE.md", None, None, ("tools/coverage.py",)),
    Made("docs/RULES.md", "<!-- made by tools/rules_table.py -->", "<!-- end -->", ("tools/rules_table.py",)),
    Made("docs/SETTINGS.md", f"<!-- made by {TABLE} page -->", "<!-- end -->", (TABLE, "page")),
    Made("client/pdsuite/scripts/defaults.py", f"# made by {TABLE} client", "# end", (TABLE, "client")),
    Made("packaging/man/pdregress.h2m", f'.\\" made by {TABLE} man', '.\\" end', (TABLE, "man")),
)


def page_or_file(top: Path, pages: dict[str, Page], name: str) -> Page | None:
    """A page, or another file as one; None where there is none."""
    if name in pages or not (top / name).is_file():
        return pages.get(name)
    return Page(top, Path(name), (top / name).read_text(encoding="utf-8"))


def run_tool(page: Page, made: Made) -> str:
    """The output of the tool that makes the part."""
    tool = str(page.top / made.command[0])
    done = subprocess.run([tool, *made.command[1:]], cwd=page.top, capture_output=True, check=True, encoding="utf-8")
    return done.stdout


def made_part_of(page: Page, made: Made) -> str | None:
    """The part of a page that is made, or None where its lines aren't there."""
    if made.begin is None or made.end is None:
        return page.text
    _, begin, rest = page.text.partition(f"\n{made.begin}\n")
    part, end, _ = rest.partition(f"{made.end}\n")
    return part if begin and end else None


def text_with_made_part(page: Page, made: Made, part: str) -> str:
    """The text of a page, with another part between its lines."""
    if made.begin is None or made.end is None:
        return part
    before, begin, rest = page.text.partition(f"\n{made.begin}\n")
    _, end, after = rest.partition(f"{made.end}\n")
    return f"{before}{begin}{part}{end}{after}"


def each_made_part_with_its_fault_or_none(top: Path, pages: dict[str, Page]) -> Iterator[tuple[str, str | None]]:
    """Each part with what is wrong with it."""
    for made in MADE:
        name = f"{made.page} is what {' '.join(made.command)} makes"
        page = page_or_file(top, pages, made.page)
        part = made_part_of(page, made) if page else None
        if page is None or part is None:
            yield name, f"there is no such file, or no line {made.begin!r} or {made.end!r} in it"
            continue
        try:
            yield name, None if part == run_tool(page, made) else "it isn't: tests/documents.py --write"
        except subprocess.CalledProcessError as fault:
            yield name, str(fault.stderr).strip()


def write_made_parts(top: Path, pages: dict[str, Page]) -> None:
    """Puts into the files what the tools print."""
    for made in MADE:
        page = page_or_file(top, pages, made.page)
        if page is not None and made_part_of(page, made) is not None:
            text = text_with_made_part(page, made, run_tool(page, made))
            (page.top / page.path).write_text(text, encoding="utf-8")
