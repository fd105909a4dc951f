"""The sentences of a page; each cell of a table and each point of a list is by itself."""

import re
from collections.abc import Iterator

FENCE = re.compile(r"^```.*?^```$", re.MULTILINE | re.DOTALL)
CODE = re.compile(r"`[^`]*`")
END = re.compile(r"(?<=[.?!])[)\"]?\s+")
POINT = re.compile(r"^\s*(?:[-*]|\d+\.)\s+")


def text_blocks(text: str) -> Iterator[tuple[int, str]]:
    """The paragraphs, points, headings and cells of a document, each with the line where it begins."""
    text = FENCE.sub(lambda fence: "\n" * fence.group().count("\n"), text)
    start = 1
    lines: list[str] = []
    for number, line in enumerate([*text.split("\n"), ""], 1):
        begins = not line.strip() or line.startswith(("|", "#", "    ")) or POINT.match(line)
        if begins and lines:
            yield start, " ".join(lines)
            lines = []
        if line.startswith("|"):
            yield from ((number, cell) for cell in line.strip("|").split("|"))
        elif line.strip() and not line.startswith(("#", "    ")):
            start = start if lines else number
            lines.append(POINT.sub("", line).strip())


def sentences_of_block(block: str) -> Iterator[str]:
    """The sentences of a block; a piece of code counts as one word."""
    return (sentence for sentence in END.split(CODE.sub("`code`", block)) if sentence)


def sentences_of_page(text: str) -> Iterator[tuple[int, str]]:
    """The sentences of a document, each with the line where its block begins."""
    return ((line, sentence) for line, block in text_blocks(text) for sentence in sentences_of_block(block))
