#!/usr/bin/env python3
"""Runs scripts against the TCP of this machine's kernel; `kernel.py --help` says how."""
import sys

from kernel.main import main

sys.exit(main(sys.argv[1:]))
