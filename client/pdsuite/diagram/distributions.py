"""Distributions side by side: of each share of some numbers how large those are at most, as a picture for a page."""

import io
import warnings
from collections.abc import Sequence

import matplotlib
from matplotlib.figure import Figure
from matplotlib.ticker import FuncFormatter, MaxNLocator

from pdsuite.diagram.canvas import SETTINGS
from pdsuite.diagram.palette import LIGHT
from pdsuite.diagram.pictures import clean_svg_for_page_without_ids

_DPI = 72
_WIDTH, _HEIGHT = 960, 230
_NARROW = 340
# The colour and the stroke of each side.
_SIDES = (("flight", (0, (4, 2))), ("new", "-"))
_WORDS = "Shares of the runs that are delivered after so long, before and after"


def wide_and_narrow_distribution_svg_text(numbers: Sequence[Sequence[float]], names: Sequence[str], axis: str) -> str:
    """Two pictures of the numbers of both sides, of which a page shows the one that fits."""
    sizes = (("wide", _WIDTH, 9), ("narrow", _NARROW, 4))
    return "".join(_render_distribution_svg(numbers, names, axis, name, width, ticks) for name, width, ticks in sizes)


def _render_distribution_svg(
    numbers: Sequence[Sequence[float]], names: Sequence[str], axis: str, name: str, width: int, ticks: int
) -> str:
    octets = io.BytesIO()
    # Neither the user's own settings nor letters that a font hasn't make a difference.
    with matplotlib.rc_context(), warnings.catch_warnings():
        warnings.simplefilter("ignore")
        matplotlib.rcdefaults()
        matplotlib.rcParams.update(SETTINGS)
        _draw_cumulative_distributions(numbers, names, axis, width, ticks).savefig(
            octets, format="svg", metadata={"Date": None}
        )
    return clean_svg_for_page_without_ids(octets.getvalue().decode(), name, _WORDS)


def _draw_cumulative_distributions(
    numbers: Sequence[Sequence[float]], names: Sequence[str], axis: str, width: int, ticks: int
) -> Figure:
    figure = Figure(figsize=(width / _DPI, _HEIGHT / _DPI), dpi=_DPI)
    figure.patch.set_visible(False)
    axes = figure.add_axes((62 / width, 52 / _HEIGHT, (width - 76) / width, (_HEIGHT - 84) / _HEIGHT))
    axes.set_facecolor("none")
    for values, side, (color, stroke) in zip(numbers, names, _SIDES):
        ordered = sorted(values)
        shares = [number / len(ordered) for number in range(len(ordered) + 1)]
        places = [ordered[0], *ordered]
        axes.plot(places, shares, drawstyle="steps-post", color=LIGHT[color], linestyle=stroke, linewidth=2, label=side)
    axes.set_ylim(0, 1.02)
    axes.margins(x=0.04)
    axes.xaxis.set_major_locator(MaxNLocator(ticks, steps=[1, 2, 2.5, 5, 10]))
    axes.xaxis.set_major_formatter(FuncFormatter(lambda it, _: f"{it:,.10g}"))
    axes.yaxis.set_major_formatter(FuncFormatter(lambda it, _: f"{100 * it:.0f} %"))
    axes.tick_params(colors=LIGHT["dim"], labelsize=10.5, length=3)
    axes.grid(True, color=LIGHT["rule"], linewidth=0.7)
    axes.set_axisbelow(True)
    for name, spine in axes.spines.items():
        spine.set_color(LIGHT["dim"])
        spine.set_visible(name in ("left", "bottom"))
    axes.set_xlabel(axis, color=LIGHT["ink"], fontsize=11)
    axes.set_ylabel("runs", color=LIGHT["ink"], fontsize=11)
    legend = figure.legend(loc="upper left", ncol=2, frameon=False, fontsize=11, labelcolor=LIGHT["ink"])
    legend.set_gid("legend")
    return figure
