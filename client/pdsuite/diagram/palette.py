"""The colours of a diagram: each has a name, which is that of a CSS variable of the page; no two are alike."""

LIGHT = {
    "ink": "#1b1d21",
    "dim": "#5a6069",
    "rule": "#d8dadf",
    "card": "#fffffe",
    "new": "#1f5fae",
    "again": "#d4380d",
    "empty": "#7b8087",
    "ack": "#1a7336",
    "edge": "#9a6a00",
    "sack": "#7f3aa6",
    "expected": "#1b1d22",
    "span": "#fdf4d8",
    "cwnd": "#0b6e80",
    "ssthresh": "#a3195b",
    "flight": "#6a6f77",
    "pipe": "#7f3aa7",
}

DARK = {
    "ink": "#e6e6e3",
    "dim": "#a3a9b2",
    "rule": "#32373f",
    "card": "#1a1d22",
    "new": "#76b0ff",
    "again": "#ff8a66",
    "empty": "#8d939b",
    "ack": "#62cd83",
    "edge": "#e0b64d",
    "sack": "#d7a5f4",
    "expected": "#e6e6e4",
    "span": "#3d3417",
    "cwnd": "#4fd0e0",
    "ssthresh": "#ff8cc0",
    "flight": "#a3a9b3",
    "pipe": "#d7a5f5",
}


def light_and_dark_css_variables(selector: str) -> str:
    """CSS that gives an element the colours as variables, dark ones where the reader prefers them."""
    light, dark = (_css_block(selector, it) for it in (LIGHT, DARK))
    return f"{light}\n@media screen and (prefers-color-scheme: dark) {{ {dark} }}"


def _css_block(selector: str, colors: dict[str, str]) -> str:
    return f"{selector} {{ {' '.join(f'--diagram-{name}: {color};' for name, color in colors.items())} }}"
