"""The frame of a diagram, which is two axes over the same time and a legend below, and what can be drawn in it."""

from collections.abc import Iterable, Sequence
from dataclasses import dataclass

from matplotlib.axes import Axes
from matplotlib.collections import PolyCollection
from matplotlib.figure import Figure
from matplotlib.lines import Line2D
from matplotlib.patches import Patch
from matplotlib.ticker import FuncFormatter, MaxNLocator

from pdsuite.diagram.labels import Label, PlacedLabel
from pdsuite.diagram.palette import LIGHT
from pdsuite.diagram.timeline_parts import Stair

# The settings of matplotlib: the same strokes give the same octets, and each text is drawn as it is.
SETTINGS = {
    "svg.hashsalt": "pdsuite",
    "svg.fonttype": "none",
    "text.parse_math": False,
    "path.simplify": False,
    "font.family": "sans-serif",
    "font.sans-serif": ["DejaVu Sans"],
    "axes.unicode_minus": False,
}
_DPI = 72
_PALE = 0.4
_SECOND = 1_000_000

Box = list[tuple[float, float]]


@dataclass(frozen=True, slots=True)
class Size:
    """How large a picture is, in the units of its file, which are pixels; and how large its letters are."""

    width: int
    left: int
    right: int
    octets: int
    windows: int
    letters: float
    columns: int
    ticks: int

    @property
    def letter_width_in_pixels(self) -> float:
        """How wide a letter is at most, on the average."""
        return self.letters * 0.6

    @property
    def line_height_in_pixels(self) -> float:
        return self.letters * 1.5


WIDE = Size(960, 78, 14, 380, 130, 11.0, 4, 9)
NARROW = Size(340, 62, 10, 300, 110, 11.0, 1, 4)


class Canvas:
    """A figure that grows stroke by stroke: two axes over the same time, octets and windows, and a legend."""

    def __init__(self, size: Size, begin: int, end: int, high: float) -> None:
        self.size = size
        self.legend: list[tuple[Line2D | Patch, str]] = []
        span = max(end - begin, 1_000)
        self.begin, self.end = begin - 0.03 * span, begin + 1.04 * span
        self.low, self.high = -0.07 * high, high
        # How much time and how many octets a pixel is.
        self.unit = (self.end - self.begin) / (size.width - size.left - size.right)
        self.octet = (self.high - self.low) / size.octets
        # Where the axes stand is known once the legend is.
        self.figure = Figure(figsize=(size.width / _DPI, 1), dpi=_DPI)
        self.figure.patch.set_visible(False)
        self.octets = self._add_styled_axes_of_height(size.octets)
        self.windows = self._add_styled_axes_of_height(size.windows)
        self.octets.set_ylim(self.low, self.high)
        self._label_axes(end >= _SECOND)

    def draw_bars(self, role: str, bars: Iterable[tuple[int, int, int, bool]], wide: float, words: str) -> None:
        """Strokes as bars, with a gap at both ends that tells neighbours apart."""
        boxes: dict[bool, list[Box]] = {False: [], True: []}
        for at, start, end, is_later in bars:
            gap = min(self.octet * 0.7, (end - start) / 4)
            low, high = start + gap, max(end - gap, start + gap + self.octet * 1.5)
            boxes[is_later].append(
                rectangle_corners_from_bounds(at - wide / 2 * self.unit, at + wide / 2 * self.unit, low, high)
            )
        for is_later, each in boxes.items():
            if each:
                self.octets.add_collection(
                    PolyCollection(
                        each,
                        facecolors=LIGHT[role],
                        edgecolors="none",
                        alpha=alpha_paler_after_failing_line(is_later),
                        zorder=3,
                        gid=role,
                    ),
                    autolim=False,
                )
        if boxes[False] or boxes[True]:
            self.legend.append((Line2D([], [], color=LIGHT[role], linewidth=wide), words))

    def draw_points(
        self,
        role: str,
        places: Sequence[tuple[int, float, bool]],
        marker: str | int,
        large: float,
        words: str,
        is_hollow: bool = False,
    ) -> None:
        """Strokes as markers at octets."""
        color = LIGHT[role]
        face = LIGHT["card"] if is_hollow else color
        style = {"marker": marker, "markersize": large, "markeredgecolor": color, "markerfacecolor": face}
        for is_later in (False, True):
            chosen = [(at, octet) for at, octet, later in places if later is is_later]
            if chosen:
                xs, ys = zip(*chosen)
                self.octets.plot(
                    xs,
                    ys,
                    linestyle="none",
                    zorder=5,
                    alpha=alpha_paler_after_failing_line(is_later),
                    gid=role,
                    **style,
                )
        if places:
            self.legend.append((Line2D([], [], linestyle="none", **style), words))

    def draw_area_below_staircase(self, role: str, steps: Sequence[Stair], words: str) -> None:
        """The octets on the way, as an area below their staircase."""
        for xs, ys, is_later in _gapless_pieces_of_staircase(steps, self.end):
            alpha = 0.3 * alpha_paler_after_failing_line(is_later)
            self.windows.fill_between(
                xs, ys, step="post", color=LIGHT[role], alpha=alpha, linewidth=0, zorder=2, gid=role
            )
        if steps:
            self.legend.append((Patch(color=LIGHT[role], alpha=0.3, linewidth=0), words))

    def draw_stairs(
        self, axes: Axes, role: str, steps: Sequence[Stair], words: str, wide: float, style: object = "-"
    ) -> None:
        """A staircase, pale from the failing line on."""
        for xs, ys, is_later in _gapless_pieces_of_staircase(steps, self.end):
            axes.plot(
                xs,
                ys,
                drawstyle="steps-post",
                color=LIGHT[role],
                linewidth=wide,
                linestyle=style,
                alpha=alpha_paler_after_failing_line(is_later),
                zorder=2.5,
                gid=role,
            )
        if steps:
            self.legend.append((Line2D([], [], color=LIGHT[role], linewidth=wide, linestyle=style), words))

    def place_axes_labels_and_legend(self, title: str, labels: Sequence[PlacedLabel]) -> None:
        """Gives each part its place, once all strokes are drawn: a title, words, octets, windows, the legend."""
        size = self.size
        rows = max((it.row + 1 for it in labels if it.row is not None), default=0)
        below = (3.2 + 1.02 * -(-len(self.legend) // size.columns)) * size.line_height_in_pixels
        above = 8 + rows * size.line_height_in_pixels + (1.7 * size.line_height_in_pixels if title else 0)
        gap = 1.2 * size.line_height_in_pixels
        height = above + size.octets + gap + size.windows + below
        self.figure.set_size_inches(size.width / _DPI, height / _DPI)
        wide = (size.width - size.left - size.right) / size.width
        for axes, bottom, high in (
            (self.octets, below + size.windows + gap, size.octets),
            (self.windows, below, size.windows),
        ):
            axes.set_position((size.left / size.width, bottom / height, wide, high / height))
        if title:
            place = (size.left / size.width, 1 - size.line_height_in_pixels * 0.4 / height)
            self.figure.text(*place, title, color=LIGHT["ink"], fontsize=size.letters * 1.1, va="top", parse_math=False)
        self._draw_labels_in_rows_above_axes(labels, below + size.windows + gap + size.octets, height)
        self._draw_legend()

    def _add_styled_axes_of_height(self, high: float) -> Axes:
        axes = self.figure.add_axes((0, 0, 1, 1), label=str(high))
        axes.set_facecolor("none")
        axes.set_xlim(self.begin, self.end)
        axes.xaxis.set_major_locator(MaxNLocator(self.size.ticks, steps=[1, 2, 2.5, 5, 10]))
        axes.yaxis.set_major_locator(MaxNLocator(6 if high > 200 else 4, integer=True, steps=[1, 2, 5, 10]))
        axes.yaxis.set_major_formatter(FuncFormatter(lambda it, _: f"{it:,.0f}"))
        axes.tick_params(colors=LIGHT["dim"], labelsize=self.size.letters * 0.95, length=3)
        axes.grid(True, color=LIGHT["rule"], linewidth=0.7)
        axes.set_axisbelow(True)
        for name, spine in axes.spines.items():
            spine.set_color(LIGHT["dim"])
            spine.set_visible(name in ("left", "bottom"))
        return axes

    def _label_axes(self, in_seconds: bool) -> None:
        size = self.size
        self.octets.tick_params(labelbottom=False)
        self.octets.set_ylabel("octets, as sequence numbers", color=LIGHT["ink"], fontsize=size.letters)
        self.windows.set_ylabel("octets", color=LIGHT["ink"], fontsize=size.letters)
        unit = "seconds" if in_seconds else "milliseconds"
        self.windows.set_xlabel(f"{unit} after the start of the run", color=LIGHT["ink"], fontsize=size.letters)
        scale = _SECOND if in_seconds else 1_000
        self.windows.xaxis.set_major_formatter(FuncFormatter(lambda it, _: f"{it / scale:,.10g}"))

    def _draw_labels_in_rows_above_axes(self, labels: Sequence[PlacedLabel], bottom: float, height: float) -> None:
        """The words, in rows above the octets."""
        size = self.size
        for it in labels:
            if it.row is not None:
                place = (
                    (size.left + it.left) / size.width,
                    (bottom + 4 + it.row * size.line_height_in_pixels) / height,
                )
                style = {"color": LIGHT[color_name_of_label(it.label)], "fontsize": size.letters, "va": "bottom"}
                alpha = 0.75 if it.label.is_later else 1.0
                self.figure.text(*place, it.label.words, alpha=alpha, parse_math=False, **style)

    def _draw_legend(self) -> None:
        size = self.size
        legend = self.figure.legend(
            [it for it, _ in self.legend],
            [words for _, words in self.legend],
            loc="lower left",
            bbox_to_anchor=(0.0 if size.columns == 1 else (size.left - 30) / size.width, 0.0),
            ncol=size.columns,
            frameon=False,
            fontsize=size.letters,
            labelcolor=LIGHT["ink"],
            handlelength=1.8,
            labelspacing=0.35,
            columnspacing=1.6,
            borderpad=0.2,
        )
        legend.set_gid("legend")


def rectangle_corners_from_bounds(left: float, right: float, low: float, high: float) -> Box:
    """The corners of a box, in microseconds and octets."""
    return [(left, low), (right, low), (right, high), (left, high)]


def widen_to_least(low: float, high: float, least: float) -> tuple[float, float]:
    """Both ends, apart by so much at least."""
    more = max(0.0, least - (high - low)) / 2
    return low - more, high + more


def alpha_paler_after_failing_line(is_later: bool) -> float:
    """How pale a stroke is: what comes after the failing line is paler."""
    return _PALE if is_later else 1.0


def _gapless_pieces_of_staircase(steps: Sequence[Stair], end: float) -> Iterable[tuple[list[float], list[int], bool]]:
    """The pieces of a staircase, each without gaps and of one paleness, up to the next piece or the end."""
    xs: list[float] = []
    ys: list[int] = []
    for step, after in zip(steps, [*steps[1:], None]):
        if step.value is None:
            continue
        xs.append(step.at)
        ys.append(step.value)
        if after is None or after.value is None or after.is_later is not step.is_later:
            xs.append(end if after is None else after.at)
            ys.append(step.value)
            yield xs, ys, step.is_later
            # A piece that goes on, paler, begins where this one ends.
            goes_on = after is not None and after.value is not None
            xs, ys = (xs[-1:], ys[-1:]) if goes_on else ([], [])


def color_name_of_label(label: Label) -> str:
    """The colour of a label, by its name in the palette."""
    return "again" if label.is_failure else "ink"
