"""Measures `pdsuite lsp` with all scripts of a folder open: how long after a change its diagnostics come, and how long
after a request what hover shows.

It is called by bench/suite.sh. Each change is in the middle of a script; every second one makes it fail, the next one
mends it.
"""

import gc
import os
import statistics
import sys
import time
from pathlib import Path

top, suite, count = sys.argv[1:]
sys.path.insert(0, f"{top}/client")

from tests.lsp_client import LspClient  # noqa: E402

BAD = "+0 bind(3, ..., ...) = 1\n"
ERROR = 1
MEDIAN, MOST, HOVER = 20.0, 60.0, 30.0


def time_change(client: LspClient, uri: str, is_bad: bool) -> float:
    """Changes a script; the milliseconds until its diagnostics came."""
    document = client.documents[uri]
    line = document.text.count("\n") // 2
    start = {"line": line, "character": 0}
    end = start if is_bad else {"line": line + 1, "character": 0}
    begin = time.monotonic()
    client.change(uri, {"range": {"start": start, "end": end}, "text": BAD if is_bad else ""})
    found = client.settled(uri)
    took = client.times[uri] - begin
    # Some scripts are warned of; a failure is an error.
    assert any(it["severity"] == ERROR for it in found) == is_bad, found
    return took * 1_000


def time_hover(client: LspClient, uri: str) -> float:
    """Asks what hover shows of the last event; the milliseconds until that came."""
    line = client.documents[uri].text.count("\n") - 1
    begin = time.monotonic()
    found = client.request("textDocument/hover", client.at(uri, line, 0))
    assert found is not None
    return (time.monotonic() - begin) * 1_000


def print_times(what: str, times: list[float]) -> None:
    """Prints the median and the worst."""
    middle, worst = statistics.median(times), max(times)
    print(f"{len(times)} times: {what} after {middle:.1f} ms, the median; {worst:.1f} ms at worst")


def main() -> int:
    """Opens all scripts, changes some, and answers whether it takes longer than it may."""
    gc.disable()  # this client's garbage is none of the server's time
    paths = sorted(Path(suite).glob("*/*.pkt"))
    begin = time.monotonic()
    with LspClient(Path(os.environ["PDSUITE_PROGRAMS"]), Path(suite)) as client:
        uris = [client.open(path) for path in paths]
        for uri in uris:
            client.settled(uri)
        print(f"{len(uris)} scripts are open {time.monotonic() - begin:.2f} s after the start")
        changes, hovers = [], []
        for number in range(int(count)):
            time.sleep(0.03 + 0.01 * (number % 7))
            uri = uris[number // 2 * 7 % len(uris)]
            changes.append(time_change(client, uri, is_bad=number % 2 == 0))
            hovers.append(time_hover(client, uri))
    print_times("diagnostics come", changes)
    print_times("hover is answered", hovers)
    return int(statistics.median(changes) > MEDIAN or max(changes) > MOST or max(hovers) > HOVER)


sys.exit(main())
