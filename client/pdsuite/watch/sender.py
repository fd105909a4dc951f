"""The sender by which rows come while files change: the proved one, or else one that is built without proofs."""

from collections.abc import Mapping, Sequence
from dataclasses import dataclass
from math import inf
from pathlib import Path

from pdsuite.faults import Fault
from pdsuite.file_stamps import Stamp, are_stamps_current
from pdsuite.programs.build import Build, BuildError, BuildMode
from pdsuite.programs.locate import RECORD, REGRESS
from pdsuite.programs.lookup import ProgramLookup, StampedProgram, stamped_program

# A build begins once no source has changed for so many seconds.
_QUIET = 0.3
# So often it is shown how long a build takes.
_SECOND = 1.0
# The build that is there first serves: what is watched is few scripts.
WAY: BuildMode = "any"
_BUILDING = "it is built without proofs"
_REFUSED = "it isn't built"


@dataclass(frozen=True)
class LiveSender:
    """The programs of a sender; the one that records may be missing."""

    regress: StampedProgram
    record: StampedProgram | None
    is_proved: bool = True

    def require_unchanged(self) -> None:
        """Raises SenderChangedError where a program's file isn't the one that was found."""
        for it in (self.regress, self.record):
            if it is not None:
                it.raise_if_changed()

    @property
    def program_paths(self) -> tuple[Path, Path | None]:
        """Where the programs are."""
        return self.regress.path, None if self.record is None else self.record.path

    @property
    def are_program_files_unchanged(self) -> bool:
        """Whether the programs can be started still."""
        return all(it is None or it.is_file_unchanged for it in (self.regress, self.record))


class SenderFollower:
    """Follows which sender stands: the one with the programs that are needed, or else one that is built of a tree.

    While it is built, or can't be, the one before goes on answering as long as its programs are there.
    """

    def __init__(self, look: ProgramLookup, needs: Sequence[str] = (REGRESS,), tree: Path | None = None) -> None:
        self._look = look
        self._needs = needs
        self.tree = tree
        self.sender: LiveSender | None = None
        self.reason = ""  # why none stands, if so it is
        self.failure: tuple[str, ...] = ()  # why none can be built: what the compiler says stands below the first line
        self._sources: Mapping[str, Stamp] | None = None
        self._built: LiveSender | None = None  # of these sources
        self._building: Build | None = None
        self._quiet_at = inf

    def __enter__(self) -> "SenderFollower":
        return self

    def __exit__(self, *error: object) -> None:
        self.close()

    def close(self) -> None:
        """Ends what is built."""
        self._end_build()

    @property
    def is_current(self) -> bool:
        """Whether the sender stands by which rows come."""
        return self.sender is not None and not self.reason

    @property
    def build_phase(self) -> str:
        """The phase of the build that goes on, if there is one."""
        return "" if self._building is None else f"building without proofs: {self._building.phase or 'begun'}"

    @property
    def build_phase_and_seconds(self) -> str:
        """The phase of the build that goes on, and how long that phase has lasted."""
        return "" if self._building is None else f"{self.build_phase} {self._building.phase_seconds:.0f} s"

    def update_returning_if_sender_or_reason_changed(self, now: float) -> bool:
        """Looks at what stands; whether that is other than it was."""
        before = self.sender, self.reason, self.failure
        if self._building is not None and not are_stamps_current(self._sources or {}):
            self._end_build()  # before any query, which takes longer
        found = self._look.current_programs_or_faults()
        missing = [str(it) for name in self._needs if isinstance(it := found[name], Fault)]
        regress, record = found[REGRESS], found[RECORD]
        if isinstance(regress, StampedProgram) and not missing:
            self._end_build()
            self._sources, self.failure = None, ()
            self._set_sender_clearing_reason(
                LiveSender(regress, record if isinstance(record, StampedProgram) else None)
            )
        elif self.tree is None:
            self._keep_old_sender_if_programs_remain(missing[0])
        else:
            self._advance_build_and_set_sender(self.tree, now)
        return before != (self.sender, self.reason, self.failure)

    def folders_to_watch(self) -> set[str]:
        """The folders in which a change may make another sender stand."""
        return self._look.folders_to_watch()

    def next_look_moment(self, now: float) -> float:
        """The moment at which it is to be looked again, whatever is reported."""
        return now + _SECOND if self._building is not None else self._quiet_at

    def build_output_filenos(self) -> list[int]:
        """The descriptors that can be read once a build has something to say."""
        return [] if self._building is None else [self._building.fileno()]

    def _set_sender_clearing_reason(self, sender: LiveSender) -> None:
        self.sender, self.reason = sender, ""

    def _keep_old_sender_if_programs_remain(self, reason: str) -> None:
        """Goes on with the sender before, if it is there still."""
        self.reason = reason
        if self.sender is not None and not self.sender.are_program_files_unchanged:
            self.sender = None

    def _advance_build_and_set_sender(self, tree: Path, now: float) -> None:
        """Has a sender built of the sources as they are now; a change of these ends what is built."""
        sources = self._look.source_stamps()
        if sources != self._sources:
            self._end_build()
            self._quiet_at = now if self._sources is None and self.sender is None else now + _QUIET
            self._sources, self._built, self.failure = sources, None, ()
        if self._built is None and not self.failure:
            self._start_build_or_take_its_result(tree, now)
        if self._built is not None and self._built.are_program_files_unchanged:
            self._set_sender_clearing_reason(self._built)
            return
        if self._built is not None:
            self._built, self._quiet_at = None, now  # it was taken away, and is built anew
        self._keep_old_sender_if_programs_remain(_REFUSED if self.failure else _BUILDING)

    def _start_build_or_take_its_result(self, tree: Path, now: float) -> None:
        """Begins a build where it is time, or reads how the one goes on."""
        if self._building is None and now >= self._quiet_at:
            self._quiet_at = inf
            self._building = Build(tree, WAY)
        if self._building is None:
            return
        self._building.read_output_to_update_phase_and_is_over()
        if not self._building.is_over:
            return
        try:
            folder = self._building.wait_and_require_programs_folder()
            self._built = LiveSender(stamped_program(folder / REGRESS), stamped_program(folder / RECORD), False)
        except BuildError as untried:
            self.failure = tuple(str(untried).splitlines())
        except Fault as fault:
            self.failure = (str(fault),)
        self._end_build()

    def _end_build(self) -> None:
        if self._building is not None:
            self._building.end_tool()
            self._building = None
