"""Text in pieces, each with the style that it has on a terminal."""

from dataclasses import dataclass, field


@dataclass(slots=True)
class StyledText:
    """A text that grows piece by piece. A style is in the words of rich, which only a terminal pays for."""

    pieces: list[tuple[str, str]] = field(default_factory=list)

    @property
    def text_without_styles(self) -> str:
        """The text without its styles."""
        return "".join(text for text, _ in self.pieces)

    def append(self, text: str, style: str = "") -> "StyledText":
        """Puts a piece at the end."""
        self.pieces.append((text, style))
        return self

    def append_text(self, other: "StyledText") -> "StyledText":
        """Puts another text at the end."""
        self.pieces.extend(other.pieces)
        return self


def styled_text_of_one_plain_piece(text: str) -> StyledText:
    """A text without a style."""
    return StyledText([(text, "")])
