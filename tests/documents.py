#!/usr/bin/env -S python3 -I -B
"""Tests the documents; `documents.py --help` says how."""
import sys
from pathlib import Path

sys.path.insert(0, str(Path(__file__).resolve().parent))

from documents.main import main  # noqa: E402

sys.exit(main(sys.argv[1:]))
