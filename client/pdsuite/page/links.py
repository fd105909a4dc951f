"""Where a script's page lies: a name that people can read, and that no two paths share."""

import hashlib
import os
import re

from pdsuite.output.octets import printable_path

FOLDER = "scripts"
PLOTS = "plots"
_LONGEST = 80
_DIGITS = 16
_OTHER = re.compile(r"[^A-Za-z0-9.-]+")
_NAME = re.compile(rf"[A-Za-z0-9._-]+-[0-9a-f]{{{_DIGITS}}}\.html")
_PLOT = re.compile(rf"[A-Za-z0-9._-]+-[0-9a-f]{{{_DIGITS}}}\.(svg|png)")


def page_file_name_of(path: str) -> str:
    """The name of the file with a script's page: the end of its path, and a digest of the whole."""
    digest = hashlib.sha256(os.fsencode(path)).hexdigest()[:_DIGITS]
    words = _OTHER.sub("_", printable_path(path)).removesuffix(".pkt")
    return f"{words[-_LONGEST:].strip('._-') or 'script'}-{digest}.html"


def is_script_page_file(name: str) -> bool:
    """Whether a file's name is that of a script's page."""
    return _NAME.fullmatch(name) is not None


def plot_file_names(path: str) -> tuple[str, str]:
    """The names of the files with a script's diagram."""
    stem = page_file_name_of(path).removesuffix(".html")
    return f"{stem}.svg", f"{stem}.png"


def is_plot_file(name: str) -> bool:
    """Whether a file's name is that of a script's diagram."""
    return _PLOT.fullmatch(name) is not None
