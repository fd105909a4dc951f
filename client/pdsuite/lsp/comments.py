"""The comments of a script, and what an outline makes of them: sections, and what can be folded."""

import re
from collections.abc import Iterator
from dataclasses import dataclass

from pdsuite.lsp.json_values import Json
from pdsuite.lsp.positions import DocumentLines
from pdsuite.packetdrill.lines import Extent
from pdsuite.packetdrill.tokens import ScriptSyntaxError, tokens_of

_COMMENT = re.compile(r"//[^\n]*|/\*.*?\*/", re.DOTALL)
_NAMESPACE = 3
_LONGEST_NAME = 120
# The marks of a comment, which a section's name is without.
_MARKS = re.compile(r"^(?://+|/\*+)\s*|\s*\*+/$")


@dataclass(frozen=True, slots=True)
class CommentBlock:
    """Lines that have comments and nothing else, one after another: the first and the last."""

    first: int
    last: int


def comment_extents_up_to_syntax_fault(text: str) -> Iterator[Extent]:
    """The comments, up to where no token of a script begins."""
    end = 0
    try:
        for token in tokens_of(text):
            yield from _comments_between(text, end, token.start)
            end = token.end
        yield from _comments_between(text, end, len(text))
    except ScriptSyntaxError as unread:
        yield from _comments_between(text, end, unread.place)


def _comments_between(text: str, start: int, end: int) -> Iterator[Extent]:
    return (Extent(it.start(), it.end()) for it in _COMMENT.finditer(text, start, end))


def whole_line_comment_blocks_of(lines: DocumentLines) -> list[CommentBlock]:
    """The blocks of comments that have lines of their own."""
    blocks: list[CommentBlock] = []
    for comment in comment_extents_up_to_syntax_fault(lines.text):
        first, last = lines.line_of(comment.start), lines.line_of(comment.end)
        if not _is_alone_in_lines(lines, comment):
            continue
        if blocks and blocks[-1].last + 1 == first:
            blocks[-1] = CommentBlock(blocks[-1].first, last)
        elif not blocks or blocks[-1].last < first:
            blocks.append(CommentBlock(first, last))
    return blocks


def _is_alone_in_lines(lines: DocumentLines, comment: Extent) -> bool:
    """Whether nothing else stands in a comment's lines."""
    before = lines.text[lines.line_start(lines.line_of(comment.start)) : comment.start]
    after = lines.text[comment.end : lines.line_end(lines.line_of(comment.end))]
    return not before.strip() and not after.strip()


def section_symbols_of(lines: DocumentLines) -> list[Json]:
    """The sections of a script: each begins with a block of comments, and is named by its first line with words."""
    blocks = whole_line_comment_blocks_of(lines)
    ends = [lines.line_end(it.first - 1) for it in blocks[1:]] + [len(lines.text)]
    return [
        {
            "name": name,
            "kind": _NAMESPACE,
            "range": lines.range_json(Extent(lines.line_start(block.first), max(end, lines.line_end(block.last)))),
            "selectionRange": lines.range_json(lines.line_extent_after_indent(block.first)),
        }
        for block, end in zip(blocks, ends)
        if (name := _section_name_or_empty(lines, block))
    ]


def _section_name_or_empty(lines: DocumentLines, block: CommentBlock) -> str:
    names = (_MARKS.sub("", lines.line_content(line).strip()) for line in range(block.first, block.last + 1))
    return next((it for it in names if it), "")[:_LONGEST_NAME]


def comment_foldings_of(lines: DocumentLines) -> list[Json]:
    """The blocks of comments that have more than one line."""
    return [
        {"startLine": _protocol_line(lines, it.first), "endLine": _protocol_line(lines, it.last), "kind": "comment"}
        for it in whole_line_comment_blocks_of(lines)
        if it.first < it.last
    ]


def _protocol_line(lines: DocumentLines, line: int) -> int:
    """The line of the protocol in which a line of a script begins."""
    return lines.position_of(lines.line_start(line)).line
