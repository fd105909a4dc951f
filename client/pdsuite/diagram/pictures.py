"""Pictures of strokes as octets: for a page, and as files. The same strokes give the same octets."""

import io
import re
import warnings
from html import escape

import matplotlib

from pdsuite.diagram.canvas import NARROW, SETTINGS, WIDE, Size
from pdsuite.diagram.palette import LIGHT, light_and_dark_css_variables
from pdsuite.diagram.plot import draw_figure
from pdsuite.diagram.timeline_parts import Timeline

_DPI = 144
_WORDS = "Time-sequence diagram: octets over time, and below it the windows over the same time"
# The head, the metadata and the style that matplotlib writes with a picture.
_HEAD = re.compile(r"^.*?(?=<svg )|<metadata>.*?</metadata>\s*|<defs>\s*<style.*?</style>\s*</defs>\s*", re.DOTALL)
_SIZE = re.compile(r'^<svg [^>]*?viewBox="([^"]*)"[^>]*>')
_FONT = re.compile(r"font: ([\d.]+)px [^;\"]*")
_NUMBERED = re.compile(r' id="[A-Za-z0-9.]*_[0-9]+"')
_COLOR = re.compile("|".join(map(re.escape, LIGHT.values())))
_NAMES = {color: name for name, color in LIGHT.items()}
_CLASS = re.compile(rf'id="({"|".join(LIGHT)}|legend)"')
# Stands for a title until all else is done.
_TITLE = "@title@"
_LONGEST_TITLE = 120
_NAMESPACES = 'xmlns="http://www.w3.org/2000/svg" xmlns:xlink="http://www.w3.org/1999/xlink"'
_STYLE = (
    f"{light_and_dark_css_variables('svg')}\nsvg {{ background: var(--diagram-card); stroke-linejoin: round;"
    " font-family: 'DejaVu Sans', system-ui, sans-serif }"
)


def wide_and_narrow_svgs_for_page(timeline: Timeline) -> str:
    """Two pictures for a page, of which it shows the one that fits: for wide and for narrow windows."""
    return _render_embeddable_svg(timeline, WIDE, "wide") + _render_embeddable_svg(timeline, NARROW, "narrow")


def standalone_svg_octets(timeline: Timeline, title: str) -> bytes:
    """A picture as a file of its own, dark where the reader prefers it."""
    first, rest = _render_embeddable_svg(timeline, WIDE, "wide", _TITLE).split(">", 1)
    text = f"{first} {_NAMESPACES}><style>{_STYLE}</style>{rest}"
    return text.replace(_TITLE, escape(_cut_title_start_if_long(title))).encode("utf-8", "replace")


def png_octets(timeline: Timeline, title: str) -> bytes:
    """A picture as dots, on white."""
    return _render_figure_octets(
        timeline, WIDE, _cut_title_start_if_long(title), "png", dpi=_DPI, facecolor="white", metadata={"Software": None}
    )


def _render_embeddable_svg(timeline: Timeline, size: Size, name: str, title: str = "") -> str:
    """A picture as SVG that stands in another text: with classes, and colours by variables."""
    return clean_svg_for_page_without_ids(
        _render_figure_octets(timeline, size, title, "svg", metadata={"Date": None}).decode(), name, _WORDS
    )


def clean_svg_for_page_without_ids(text: str, name: str, words: str) -> str:
    """A picture that matplotlib wrote, as it stands in a page: of a class, with words for who can't see it."""
    text = _HEAD.sub("", text)
    text = _SIZE.sub(rf'<svg class="{name}" role="img" aria-label="{words}" viewBox="\1">', text)
    text = _CLASS.sub(r'class="\1"', _NUMBERED.sub("", text))
    text = _COLOR.sub(lambda it: f"var(--diagram-{_NAMES[it[0]]})", text)
    return _FONT.sub(r"font-size: \1px", text)


def _render_figure_octets(timeline: Timeline, size: Size, title: str, form: str, **words: object) -> bytes:
    octets = io.BytesIO()
    # Neither the user's own settings nor letters that a font hasn't make a difference.
    with matplotlib.rc_context(), warnings.catch_warnings():
        warnings.simplefilter("ignore")
        matplotlib.rcdefaults()
        matplotlib.rcParams.update(SETTINGS)
        draw_figure(timeline, size, title).savefig(octets, format=form, **words)
    return octets.getvalue()


def _cut_title_start_if_long(title: str) -> str:
    return title if len(title) <= _LONGEST_TITLE else f"...{title[3 - _LONGEST_TITLE:]}"
