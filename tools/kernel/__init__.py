"""Runs of scripts against the TCP of this machine's kernel, in a network namespace of their own.

Scripts are read as the client reads them.
"""

import sys
from pathlib import Path

sys.path.insert(0, str(Path(__file__).resolve().parents[2] / "client"))
