"""The program at the near end of a transfer: when it writes how much, and how long that takes to be delivered."""

from collections.abc import Iterator

from pdsuite.measure.paths import NetworkPath

# The most that a script's `write` may have.
_MOST = 262_144


class TransferWriter:
    """Writes a transfer, or two with an idle time between, as far as the sender's buffer has room.

    A program that waits for room goes on once half of the buffer is free.
    """

    def __init__(self, path: NetworkPath, size: int, room: int) -> None:
        self._path = path
        self._room = room
        self.total = path.octets_written_doubled_if_idle(size)
        # Where the parts end, as the number after their last octet.
        self._ends = [size + 1, self.total + 1] if path.idle_us else [size + 1]
        self._part = self._delivered = 0
        self._written = self._una = 1
        self._due: int | None = 0
        self._woken: int | None = None
        self._begins: list[int] = []
        # How long the parts took that are delivered, in microseconds.
        self.time = 0

    @property
    def is_all_acknowledged(self) -> bool:
        """Whether all was written, and is acknowledged."""
        return self._una == self.total + 1

    def take_due_write_sizes(self, at: int) -> Iterator[int]:
        """The octets that it writes at a moment, write by write."""
        while self._due is not None and self._due <= at and (octets := self._write_size_or_zero_if_buffer_lacks_room()):
            if self._written == self._current_part_first_octet:
                self._begins.append(at)
            self._written += octets
            if self._written == self._ends[self._part]:
                self._due = None
            elif self._path.write and (self._written - self._current_part_first_octet) % self._path.write == 0:
                self._due = at + self._path.write_every_us
            yield octets

    def take_next_wake_moment_if_new(self, at: int) -> int | None:
        """When it wants to write next, if that is later and it hasn't answered so before."""
        if self._due is None or self._due <= at or self._due == self._woken:
            return None
        self._woken = self._due
        return self._due

    def note_acknowledged_and_start_next_part(self, at: int, number: int) -> None:
        """Takes note that all octets below a number are acknowledged."""
        self._una = max(self._una, number)
        if self._una == self._ends[self._part] and self._part + 1 < len(self._ends):
            self._part += 1
            self._due = at + self._path.idle_us

    def note_delivered_and_sum_part_times(self, at: int, number: int) -> None:
        """Takes note that the peer has all octets below a number."""
        while self._delivered < len(self._ends) and number >= self._ends[self._delivered]:
            self.time += at - self._begins[self._delivered]
            self._delivered += 1

    @property
    def _current_part_first_octet(self) -> int:
        """Where the present part begins."""
        return self._ends[self._part - 1] if self._part else 1

    def _write_size_or_zero_if_buffer_lacks_room(self) -> int:
        """How much the next write has: nothing where too little of the buffer is free."""
        left = self._ends[self._part] - self._written
        if self._path.write:
            left = min(left, self._path.write - (self._written - self._current_part_first_octet) % self._path.write)
        free = self._room - (self._written - self._una)
        return min(left, free, _MOST) if free >= min(left, self._room // 2) else 0
