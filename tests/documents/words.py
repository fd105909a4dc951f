"""How long pages and their sentences are, which decides nothing, and the words that no page has."""

import re
from collections.abc import Iterator

from documents.pages import Page, without_code
from documents.sentences import sentences_of_page

# Words on how something was once: git has that. And "behind" of time: that is "after".
LOG = re.compile(r"\b(at commit|measured again|formerly|until now|behind)\b", re.IGNORECASE)
COMMIT = re.compile(r"(?<!logic )\b(?=[0-9a-f]*[0-9])(?=[0-9a-f]*[a-f])[0-9a-f]{7,40}\b")


def count_words(page: Page) -> int:
    """How many words a page has."""
    return len(page.text.encode().split())


def page_length_lines(pages: dict[str, Page]) -> Iterator[str]:
    """How many words each page has, all together, and the longest sentence of each: a hint for whoever reads them."""
    for name, page in pages.items():
        line, words = max(
            ((line, len(sentence.split())) for line, sentence in sentences_of_page(page.text)),
            key=lambda found: found[1],
            default=(1, 0),
        )
        yield f"{name}: {count_words(page)} words, {words} in the sentence of line {line}"
    yield f"all pages: {sum(map(count_words, pages.values()))} words"


def past_words_and_commits(page: Page) -> Iterator[str]:
    """A line for each commit, and for each word about the past."""
    for number, line in enumerate(page.text.split("\n"), 1):
        for found in COMMIT.finditer(line):
            yield f"{page.name}:{number}: {found.group()}: a commit"
    for number, line in enumerate(without_code(page.text).split("\n"), 1):
        for found in LOG.finditer(line):
            yield f"{page.name}:{number}: {found.group()}: git tells what was"
