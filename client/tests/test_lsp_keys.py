"""`pdsuite lsp` reports of texts what `pdsuite run` reports of them, whatever was typed before."""

import json
import os
import random
import subprocess
from pathlib import Path
from typing import Any

import pytest

from pdsuite.lsp.documents import uri_of_path
from tests.helpers import HANGS, TOP
from tests.lsp_client import Json, LspClient, span
from tests.lsp_scripts import HEAD, PASSES


def test_texts_of_all_kinds_are_those_of_a_run(client: LspClient, workspace: Path, recording_programs: Path) -> None:
    texts = ["", "// only\n", "\n" * 5_000, "// \u00e4" * 40_000, PASSES.replace("\n", "\r\n"), PASSES.rstrip("\n")]
    texts += [HEAD[:100], "0 a() = 1 \r", "\x00", PASSES + "+0 \u00fc\n"]
    uris = [client.open(workspace / f"{number}.pkt", text) for number, text in enumerate(texts)]
    for uri in uris:
        client.settled(uri)
    compare(client, workspace, recording_programs)


def rows(client: LspClient) -> dict[str, list[tuple[str, int, str]]]:
    """The diagnostics of each open script: code, line, and the first line of the message."""
    return {
        uri: [(it["code"], it["range"]["start"]["line"] + 1, it["message"].splitlines()[0]) for it in found]
        for uri, (_, found) in client.diagnostics.items()
        if uri in client.documents and uri.endswith(".pkt")
    }


def compare(client: LspClient, workspace: Path, programs: Path) -> None:
    """Holds what is reported of all open scripts against `pdsuite run` on the same texts."""
    for uri, document in client.documents.items():
        (workspace / uri.rpartition("/")[2]).write_bytes(document.octets)
    environment = {**os.environ, "PDSUITE_PROGRAMS": str(programs)}
    done = subprocess.run(
        [TOP / "pdsuite", "run", "--json", workspace], env=environment, capture_output=True, timeout=HANGS
    )
    reported = rows(client)
    for script in json.loads(done.stdout)["scripts"]:
        uri = uri_of_path(script["path"])
        if uri not in client.documents:
            continue
        found = reported.get(uri, [])
        match script:
            case {"verdict": "pass", "events": 0}:
                assert [it[2] for it in found] == ["passes, but has no event"]
            case {"verdict": "pass"}:
                assert found == [], script
            case {"verdict": "error", "reason": reason}:
                assert [it[2] for it in found] == [reason]
            case {"verdict": verdict, "line": line}:
                (one,) = found
                assert one[0] == script.get("kind", verdict), (script, one)
                marked = (script.get("explanation") or {}).get("text_line", line)
                assert one[1] in (line, marked) or line > client.documents[uri].text.count("\n"), (script, one)
                assert one[2].startswith(verdict), (script, one)


def keyed(client: LspClient, chance: random.Random, uri: str) -> list[Json]:
    """Random changes of a text, like those of a moment at the keyboard."""
    document = client.documents[uri]
    lines = document.text.split("\n")

    def place() -> Json:
        line = chance.randrange(len(lines))
        return {"line": line, "character": chance.randint(0, len(lines[line].encode("utf-16-le")) // 2)}

    def part(most: int) -> Json:
        start = place()
        line = lines[start["line"]]
        end = min(len(line.encode("utf-16-le")) // 2, start["character"] + chance.randint(0, most))
        return {"start": start, "end": {**start, "character": end}}

    match chance.randrange(8):
        case 0:
            return [{"range": {"start": (at := place()), "end": at}, "text": "\n".join(HEAD.split("\n") * 25)}]
        case 1:
            first = chance.randrange(len(lines))
            last = min(len(lines) - 1, first + chance.randint(0, 40))
            return [{"range": span(first, 0, last, 0), "text": ""}]
        case 2:
            rows_of = sorted(chance.sample(range(len(lines)), min(len(lines), 4)), reverse=True)
            return [{"range": span(it, 0, it, 0), "text": chance.choice(("// ", "+0 ", " "))} for it in rows_of]
        case 3:
            return [{"range": part(3), "text": ""}]
        case 4:
            return [{"range": part(0), "text": chance.choice(("\n", "\r\n", "// \U0001f980", "+0 close(4) = 0\n"))}]
        case _:
            return [{"range": part(1), "text": chance.choice("0123456789.,:()<>=+ SPFRackwin\u00e4\U0001f980")}]


@pytest.mark.parametrize("seed", range(2))
def test_random_keys_end_in_what_a_run_says(
    client: LspClient, workspace: Path, recording_programs: Path, seed: int
) -> None:
    chance = random.Random(seed)
    sources = sorted((TOP / "examples/scripts").glob("*.pkt"))[seed * 10 : seed * 10 + 10]
    uris = [client.open(workspace / it.name, it.read_text()) for it in sources]
    undone: dict[str, list[Any]] = {uri: [] for uri in uris}
    for number in range(1_000):
        uri = chance.choice(uris)
        if undone[uri] and chance.random() < 0.25:
            client.put(uri, undone[uri].pop())
        else:
            undone[uri].append(client.documents[uri].text)
            client.change(uri, *keyed(client, chance, uri))
        if number % 100 == 99:
            for each in uris:
                client.settled(each)
            compare(client, workspace, recording_programs)
    assert not client.stale and not client.logged
