"""The rules that a sender has from the handshake and the settings."""

from dataclasses import dataclass

DUP_THRESH = 3
# A window grows no further.
MOST_WINDOW = 1 << 30
SECOND = 1_000_000
RFC6675, RFC9937 = "rfc6675", "rfc9937"
RFC6928 = "rfc6928"


@dataclass(frozen=True, slots=True)
class Rules:
    """Sizes in octets, times in microseconds."""

    smss: int
    has_sack: bool = True
    algorithm: str = RFC6675
    limit: int = 1  # L of RFC 3465, in segments
    restarts: bool = False
    transmits_early: bool = True
    window_rule: str = "rfc5681"
    first_ssthresh: int = MOST_WINDOW
    least_rto: int = SECOND
    most_rto: int = 60 * SECOND
    granularity: int = 1_000
    has_nagle: bool = True  # until a call changes it

    @property
    def initial_window(self) -> int:
        """IW (RFC 5681, section 3.1; RFC 6928, section 2)."""
        if self.window_rule == RFC6928:
            return min(10 * self.smss, max(2 * self.smss, 14_600))
        return self.smss * (2 if self.smss > 2_190 else 3 if self.smss > 1_095 else 4)
