"""The report of an import, as one JSON object."""

import json
from collections import Counter
from collections.abc import Iterable, Iterator, Sequence

from pdsuite.imports.conversion import Imported, NotImported
from pdsuite.imports.findings import Heading
from pdsuite.imports.listing import Listed, sole_reason_of_each_script
from pdsuite.output.octets import printable_path, printable_text

# Of the object, as docs/import.schema.json has it.
VERSION = 2
_encoded = json.JSONEncoder(ensure_ascii=False).encode


def as_json(scripts: Sequence[Listed]) -> str:
    """The object of an import, with a line for each script."""
    lines = ",".join(f"\n{_encoded(_script_object_without_findings(it))}" for it in scripts)
    imported = [it.came for it in scripts if isinstance(it.came, Imported)]
    left = [it.came for it in scripts if isinstance(it.came, NotImported)]
    kept = sum(not it.changed for it in imported)
    rest = {
        "reasons": list(_reason_counts(left)),
        "findings": list(_conversion_finding_counts(imported)),
        "total": {
            "scripts": len(scripts),
            "imported": len(imported),
            "packets kept": kept,
            "changed to this profile": len(imported) - kept,
            "not imported": len(left),
            "error": len(scripts) - len(imported) - len(left),
        },
    }
    return f'{{"version": {VERSION}, "scripts": [{lines}\n], {_encoded(rest)[1:]}\n'


def _script_object_without_findings(listed: Listed) -> dict[str, object]:
    path = printable_path(listed.path)
    match listed.came:
        case str(reason):
            return {"path": path, "came": "error", "reason": printable_text(reason)}
        case Imported(changed=changed, settings=settings):
            return {"path": path, "came": "imported", "changed": changed, "settings": dict(settings)}
        case NotImported(reasons):
            reason_objects = [
                {"line": it.line, "words": printable_text(it.words), "what": printable_text(it.what)} for it in reasons
            ]
            return {"path": path, "came": "not imported", "reasons": reason_objects}


def _reason_counts(left: Sequence[NotImported]) -> Iterator[dict[str, object]]:
    """Each reason: how many scripts have it, and how many no other."""
    alone = Counter(sole_reason_of_each_script(left))
    for words, count in _word_counts_most_frequent_first(reason.words for it in left for reason in it.reasons):
        yield {"words": printable_text(words), "scripts": count, "alone": alone[words]}


def _conversion_finding_counts(imported: Sequence[Imported]) -> Iterator[dict[str, object]]:
    """The findings of scripts with their counts, below the headings that people see."""
    for heading in Heading:
        words = (it.words for script in imported for it in script.findings if it.heading is heading)
        for word, count in _word_counts_most_frequent_first(words):
            yield {"heading": heading.value, "words": printable_text(word), "count": count}


def _word_counts_most_frequent_first(words: Iterable[str]) -> list[tuple[str, int]]:
    """Words with their counts, the most frequent first."""
    return sorted(Counter(words).items(), key=lambda it: (-it[1], it[0]))
