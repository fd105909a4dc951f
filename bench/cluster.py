"""Measures `pdsuite run` on a cluster of 1, 2 and 4 workers of this machine beside the same without a cluster.

    bench/cluster.py TOP SUITE      TOP is the repository; PDSUITE_PROGRAMS names the programs
"""

import os
import subprocess
import sys
import tempfile
import time
from pathlib import Path

top, suite = Path(sys.argv[1]), sys.argv[2]
sys.path.insert(0, str(top / "client"))

from tests.cluster_fixture import LocalCluster  # noqa: E402


def seconds_of_run(*words: str) -> float:
    """How long a run takes, with all that is shown."""
    begin = time.monotonic()
    done = subprocess.run([top / "pdsuite", "run", *words, suite], stdout=subprocess.DEVNULL)
    assert done.returncode in (0, 1), done.returncode
    return time.monotonic() - begin


def seconds_on_cluster(count: int) -> float:
    """The same by so many workers of one thread."""
    with tempfile.TemporaryDirectory() as folder:
        cluster = LocalCluster(Path(folder) / "cluster")
        try:
            for _ in range(count):
                cluster.add(Path(os.environ["PDSUITE_PROGRAMS"]))
            cluster.wait()
            return seconds_of_run("--scheduler", cluster.address)
        finally:
            cluster.close()


for count in (1, 2, 4):
    own = seconds_of_run("--workers", str(count))
    other = seconds_on_cluster(count)
    print(f"{count} workers: {other:.2f} s on a cluster, {own:.2f} s without: {other / own:.2f} times")
