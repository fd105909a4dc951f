"""Which paragraphs of pages a changed sender affects: those that cite a section of an RFC that the change cites, too.

A change is of definitions in `specs/`, or of functions and constants in `src/`. A definition cites what its comment
does, and what those that name it cite; a constant what the functions that name it do, and the definitions of their
contracts. A function cites nothing, since its rule is a definition. A default is written in three places. A comment
that names a section or a step alone means the RFC, and the section, of the heading above it, or of the file's first
line.
"""
from __future__ import annotations

import re
from collections.abc import Iterator
from dataclasses import dataclass, field, replace
from pathlib import Path

from changed_rules import (
    Key,
    SpecRule,
    spec_file_names_and_texts,
    own_and_imported_definitions_by_word,
    definitions_named_by,
    rules_in,
)
from affected_defaults import changed_defaults, find_lines_stating_default_of_setting

# The pages whose paragraphs, or rows of tables, are about rules.
PAGES = ("docs/SENDER.md", "docs/LINUX.md")
# The crates that have the rules of the sender.
CRATES = ("pd_seg", "pd_board", "pd_timer", "pd_recover", "pd_host")
NUMBER = r"(?:\d+|[A-Z]\b)(?:\.\d+)*"
LIST = rf"{NUMBER}(?:(?:, and |, | and | to ){NUMBER})*"
TOKEN = re.compile(
    rf"RFC (?P<rfc>\d+)(?:, (?P<bare>\d+(?:\.\d+)*)\b)?|[Ss]ections? (?P<sections>{LIST})"
    rf"|(?P<word>[Ss]teps?|rules?|equation) (?P<steps>{LIST})"
    r"|(?P<check>\w+th|first|second) check\b|(?P<name>IsLost|SetPipe|NextSeg)\b"
)
ITEM = re.compile(r"(?P<indent> *)(?:pub(?:\(\w+\))? )?(?P<kind>const fn|fn|const) (?P<name>\w+)")
GHOST_USE = re.compile(r"^ghost use Rattle\.(\w+)\.specs\.(\w+)\.\{([^}]*)\};", re.MULTILINE)
# A name that more functions than these use says little of who uses it.
MOST_USERS = 5
IDENTIFIER = re.compile(r"[^\W\d][\w-]*")


@dataclass(frozen=True)
class Citation:
    """A section of an RFC, and the steps or names in it."""

    rfc: str
    section: str = ""
    parts: frozenset[str] = frozenset()

    def cites_same_section_and_part_if_both_have_one(self, other: Citation) -> bool:
        """Whether both are about the same."""
        is_same = (self.rfc, self.section) == (other.rfc, other.section) and self.section
        return bool(is_same and (not self.parts or not other.parts or self.parts & other.parts))

    def __str__(self) -> str:
        return f"RFC {self.rfc}, section {self.section}"


NOTHING = Citation("")


def split_section_number_list(text: str) -> list[str]:
    """The numbers of a list, as `5.2 and 5.3`."""
    return [it for it in re.split(r", and |, | and | to ", text) if it]


def citations_in(text: str, above: Citation = NOTHING) -> list[Citation]:
    """The citations in a comment or a paragraph.

    >>> [str(it) for it in citations_in("a (RFC 6298, sections 3 and 5.6; RFC 2018, section 5)")]
    ['RFC 6298, section 3', 'RFC 6298, section 5.6', 'RFC 2018, section 5']
    >>> [str(it) for it in citations_in("RFC 6298, 5: a; RFC 8985, 7: b")]
    ['RFC 6298, section 5', 'RFC 8985, section 7']
    >>> citations_in("b (step 4.3)", Citation("6675", "5"))
    [Citation(rfc='6675', section='5', parts=frozenset({'4'}))]
    """
    found: list[Citation] = []
    rfc, names = above.rfc, set()
    for token in TOKEN.finditer(text):
        if token["rfc"]:
            rfc = token["rfc"]
            found += [Citation(rfc, token["bare"])] if token["bare"] else []
        elif token["sections"]:
            found += [Citation(rfc, it) for it in split_section_number_list(token["sections"])]
        elif token["name"]:
            names.add(token["name"])
        else:
            part = token["check"] or ""
            parts = {part} if part else {it.partition(".")[0] for it in split_section_number_list(token["steps"])}
            found = found or [replace(above, parts=frozenset())]
            found[-1] = replace(found[-1], parts=found[-1].parts | parts)
    return [replace(it, parts=it.parts | names) for it in found if it.section]


def default_citation_from_heading(text: str, above: Citation = NOTHING) -> Citation:
    """The citation that a heading gives to text without one: the only section that it names, or an RFC alone."""
    found = citations_in(text, above)
    rfc = re.search(r"RFC (\d+)", text)
    if len({(it.rfc, it.section) for it in found}) == 1:
        return replace(found[0], parts=frozenset())
    return Citation(rfc[1]) if rfc else above


@dataclass(frozen=True)
class SourceItem:
    """A definition, a function or a constant: its name and place, what it is written as, and what it cites."""

    name: str
    place: str
    text: str
    cited: tuple[Citation, ...]
    # The definitions that a definition or the contract of a function names.
    names: frozenset[Key] = frozenset()
    is_constant: bool = False


def definitions_with_citations_in(crate: str, file: str, text: str) -> Iterator[tuple[SpecRule, list[Citation]]]:
    """The definitions of a file, each with what it cites."""
    above = default_citation_from_heading(text.partition("\n")[0])
    head, line = above, 0
    for block in text.split("\n\n"):
        rule = next(rules_in(crate, file, block), None)
        comment = " ".join(re.findall(r"^\s*--(.*)", block, re.MULTILINE))
        if rule is None and line:
            head = default_citation_from_heading(comment, above) if comment else head
        elif rule is not None:
            own = citations_in(comment, head)
            yield replace(rule, line=rule.line + line), own or [head] * bool(head.section)
        line += block.count("\n") + 2


def functions_and_constants_with_line_and_text(text: str) -> Iterator[tuple[re.Match[str], int, list[str]]]:
    """The functions and constants of a file of code: each with its line, and its lines from its comment to its end."""
    lines = text.split("\n")
    for number, line in enumerate(lines):
        found = ITEM.match(line)
        if not found:
            continue
        begin = number
        while begin and lines[begin - 1].lstrip().startswith(("///", "#[")):
            begin -= 1
        closing = f"{found['indent']}}}"
        end = number
        while end < len(lines) - 1 and not (
            lines[end].endswith(";") if found["kind"] == "const" else lines[end] == closing
        ):
            end += 1
        yield found, number + 1, lines[begin : end + 1]


def functions_and_constants_with_citations(crate: str, path: str, text: str) -> Iterator[SourceItem]:
    """The functions and constants of a file."""
    used = {
        name.partition(" as ")[0]: (low, file, name.partition(" as ")[0])
        for low, file, names in GHOST_USE.findall(text)
        for name in (it.strip() for it in names.split(","))
    }
    for found, line, lines in functions_and_constants_with_line_and_text(text):
        comment = " ".join(it.strip().removeprefix("///") for it in lines if it.lstrip().startswith("///"))
        body = [it.strip() for it in lines if not it.lstrip().startswith("//")]
        contract = " ".join(it for it in body if it.startswith(("ensures", "requires")))
        named = frozenset(used[it] for it in IDENTIFIER.findall(contract) if it in used)
        place = f"crates/{crate}/{path}:{line}"
        yield SourceItem(
            found["name"], place, "\n".join(body), tuple(citations_in(comment)), named, found["kind"] == "const"
        )


@dataclass
class SenderSources:
    """The crates of a sender: definitions by their keys, and items of code by crate, file, name and count."""

    definitions: dict[Key, SourceItem] = field(default_factory=dict)
    code: dict[tuple[str, str, str, int], SourceItem] = field(default_factory=dict)

    def citations_of_definition(self, key: Key) -> tuple[Citation, ...]:
        """The citations of a definition; none where it isn't there."""
        return self.definitions[key].cited if key in self.definitions else ()


def read_sender_sources(tree: Path) -> SenderSources:
    """The crates of a tree's sender."""
    sources = SenderSources()
    for crate in CRATES:
        folder = tree / "crates" / crate
        for file, text in spec_file_names_and_texts(folder):
            rules = list(definitions_with_citations_in(crate, file, text))
            names = own_and_imported_definitions_by_word(crate, file, text, {rule.name for rule, _ in rules})
            for rule, cited in rules:
                named = frozenset(definitions_named_by(rule, names) - {rule.key})
                sources.definitions[rule.key] = SourceItem(rule.name, rule.place, rule.text, tuple(cited), named)
        for path in sorted(folder.glob("src/**/*.rt")):
            inner = str(path.relative_to(folder))
            for item in functions_and_constants_with_citations(crate, inner, path.read_text(encoding="utf-8")):
                count = sum(key[:3] == (crate, inner, item.name) for key in sources.code)
                sources.code[crate, inner, item.name, count] = item
    return sources


def new_changed_and_removed_items(before: dict, after: dict) -> list[SourceItem]:  # type: ignore[type-arg]
    """The items that are others, or are new; and those that are gone, as they were."""
    others = [it for key, it in after.items() if key not in before or before[key].text != it.text]
    return others + [it for key, it in before.items() if key not in after]


@dataclass(frozen=True)
class ChangedNames:
    """The names in a changed item: those in lines that changed, with its own and its users', and all of them.

    And the sections that it cites, as its contract does.
    """

    name: str
    place: str
    sections: tuple[str, ...]
    changed: tuple[str, ...]
    whole: tuple[str, ...]


def each_changed_code_item_with_names(before: Path, tree: Path) -> Iterator[ChangedNames]:
    """The names in the functions and constants of the sender that changed."""
    old, after = read_sender_sources(before).code, read_sender_sources(tree)
    new = after.code
    for key, item in new.items():
        lines = set(old[key].text.split("\n")) if key in old else set()
        others = [it for it in item.text.split("\n") if it not in lines]
        gone = lines - set(item.text.split("\n"))
        if not others and not gone:
            continue
        word = re.compile(rf"\b{item.name}\b")
        users = {it.name for it in new.values() if it is not item and word.search(it.text)}
        users = users if len(users) <= MOST_USERS else set()
        changed = {item.name, *users, *IDENTIFIER.findall(" ".join([*others, *gone]))}
        cited = [*item.cited, *(it for key in sorted(item.names) for it in after.citations_of_definition(key))]
        sections = tuple(dict.fromkeys(map(str, cited)))
        whole = tuple(sorted(set(IDENTIFIER.findall(item.text))))
        yield ChangedNames(item.name, item.place, sections, tuple(sorted(changed)), whole)


def changed_items_and_citations_none_if_function(
    before: SenderSources, after: SenderSources
) -> Iterator[tuple[SourceItem, set[Citation]]]:
    """The changed items, each with all that it cites: a function nothing, since its rule is what its contract names."""
    for item in new_changed_and_removed_items(before.definitions, after.definitions):
        users = [it for it in after.definitions.values() if any(after.definitions.get(key) is item for key in it.names)]
        yield item, {*item.cited, *(cited for it in users for cited in it.cited)}
    for item in new_changed_and_removed_items(before.code, after.code):
        if not item.is_constant:
            yield item, set()
            continue
        word = re.compile(rf"\b{item.name}\b")
        each = [item, *(it for it in after.code.values() if it is not item and word.search(it.text))]
        named = {cited for it in each for key in it.names for cited in after.citations_of_definition(key)}
        yield item, named.union(*(it.cited for it in each))


@dataclass(frozen=True)
class CitingParagraph:
    """A paragraph of the page, or a line of a list: its line, the heading above it, its name, and what it cites."""

    line: int
    heading: str
    name: str
    cited: tuple[Citation, ...]


def paragraphs_citing_any_section(page: str) -> Iterator[CitingParagraph]:
    """The paragraphs of the page that cite something."""
    heading, above = "", NOTHING
    for number, line in enumerate(page.split("\n"), 1):
        if line.startswith("## "):
            heading, above = line.removeprefix("## "), NOTHING
        elif heading and line:
            if not line.lstrip().startswith(("-", "|")) and above == NOTHING:
                above = default_citation_from_heading(line)
            cited = tuple(citations_in(line, above))
            if cited:
                yield CitingParagraph(number, heading, paragraph_name_from_bold_cell_or_first_words(line), cited)


def all_citing_paragraphs_of_page(page: Path) -> Iterator[CitingParagraph]:
    """The paragraphs of a page, if it is there."""
    return paragraphs_citing_any_section(page.read_text(encoding="utf-8")) if page.exists() else iter(())


def paragraph_name_from_bold_cell_or_first_words(line: str) -> str:
    """The name of a paragraph: its bold words, the first cell of its row, or else its first words.

    >>> name_of = paragraph_name_from_bold_cell_or_first_words
    >>> [name_of(it) for it in ("- a **b c** d", "| [e f](#e) | g |", "1. h i j k l m n")]
    ['b c', 'e f', 'h i j k l m']
    """
    bold = re.search(r"\*\*(.+?)\*\*", line)
    if bold:
        return bold[1]
    if line.startswith("| "):
        return re.sub(r"\[(.+?)\]\([^)]*\)", r"\1", line.split("|")[1].strip())
    return " ".join(line.lstrip("-0123456789. ").split()[:6])


@dataclass(frozen=True)
class AffectedParagraph:
    """A paragraph that may be wrong now; or, without a page, a changed rule that no paragraph cites."""

    page: str
    line: int
    heading: str
    name: str
    sections: tuple[str, ...]
    rules: tuple[str, ...]


def affected_paragraphs_and_unmatched_items(before: Path, tree: Path) -> Iterator[AffectedParagraph]:
    """Where changed defaults are written, the paragraphs of changed rules, and last what changed without one."""
    for default in changed_defaults(before, tree):
        reason = f"its default is {default.after}, and was {default.before}"
        for page, line in find_lines_stating_default_of_setting(default.key, tree):
            yield AffectedParagraph(page, line, "a default", default.key, (reason,), (default.place,))
    changed = list(changed_items_and_citations_none_if_function(read_sender_sources(before), read_sender_sources(tree)))
    listed: set[str] = set()
    for page, it in ((page, it) for page in PAGES for it in all_citing_paragraphs_of_page(tree / page)):
        common = [
            (item, one)
            for item, cited in changed
            for one in it.cited
            if any(map(one.cites_same_section_and_part_if_both_have_one, cited))
        ]
        if common:
            rules = tuple(dict.fromkeys(f"{item.name} ({item.place})" for item, _ in common))
            listed |= set(rules)
            yield AffectedParagraph(
                page, it.line, it.heading, it.name, tuple(dict.fromkeys(str(each) for _, each in common)), rules
            )
    for item, _ in changed:
        if f"{item.name} ({item.place})" not in listed:
            is_code = "/src/" in item.place and not item.is_constant
            yield AffectedParagraph("", 0, "", "code" if is_code else "", (), (f"{item.name} ({item.place})",))
