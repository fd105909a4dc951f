"""Keeps transfers as scripts, as each side's program records them, with their settings beside them."""

from collections.abc import Iterator, Sequence
from pathlib import Path

from pdsuite.compare.sides import Side
from pdsuite.faults import Fault
from pdsuite.files import real_path_requiring_new_or_empty_folder, write_folder_atomically
from pdsuite.measure.measurement import MeasuredCase, TransferCase, program_path_of_side, side_settings_with_path_mss
from pdsuite.measure.transfer import TransferResult, SegmentDeparture
from pdsuite.output.octets import printable_path
from pdsuite.packetdrill.items import Packet
from pdsuite.programs.locate import RECORD
from pdsuite.programs.recorder import TRACE, Recording, record_texts
from pdsuite.programs.trace import traced_events_in
from pdsuite.scripts.config import CONFIG_FILE
from pdsuite.scripts.settings import Settings, settings_as_toml
from pdsuite.signals import Stop

_SIDES = ("before", "after")
_TRACE_LINE = "//= "


class TransferFolder:
    """A new folder, which transfers are written into: `SIDE/PATH-OCTETS/RUN.pkt`."""

    def __init__(self, folder: Path, sides: tuple[Side, Side]) -> None:
        for side in sides:
            if not side.sender.has_recorder_or_is_unbuilt:
                raise Fault(f"--save: {side.sender} has no pdrecord")
        self._sides = sides
        self._target = real_path_requiring_new_or_empty_folder(folder)

    def write_all_transfers(self, cases: Sequence[MeasuredCase], common: Settings, stop: Stop) -> None:
        """Writes all transfers."""
        write_folder_atomically(self._target, self._yield_recorded_scripts_and_configs(cases, common, stop))

    def _yield_recorded_scripts_and_configs(
        self, cases: Sequence[MeasuredCase], common: Settings, stop: Stop
    ) -> Iterator[tuple[str, bytes]]:
        for number, side in enumerate(self._sides):
            for measured in cases:
                case = measured.case
                folder = f"{_SIDES[number]}/{case.path.name}-{case.size}"
                settings = side_settings_with_path_mss(side, common, case.path)
                yield f"{folder}/{CONFIG_FILE}", f"root = true\n{settings_as_toml(settings)}\n".encode()
                deliveries = [it.sides[number] for it in measured.pairs]
                scripts = [it.inputs_only_script_octets() for it in deliveries]
                recordings = record_texts(program_path_of_side(side, RECORD), scripts, settings, stop, (TRACE,))
                for pair, delivery, recording in zip(measured.pairs, deliveries, recordings):
                    name = f"{folder}/{pair.run:04}.pkt"
                    yield name, self._script_requiring_same_departures(name, case, delivery, recording)

    def _script_requiring_same_departures(
        self, name: str, case: TransferCase, delivery: TransferResult, recording: Recording
    ) -> bytes:
        """A recording as a script; a fault where it has other packets than were played."""
        if sent_data_segments_in_recording(recording) != list(delivery.departures_stripped_of_cause):
            why = recording.fault or "pdrecord sends other packets than were played"
            raise Fault(f"--save: {printable_path(self._target / name)}: {why}")
        head = f"// {case.size:,} octets over {case.path.name}: delivered in {delivery.time / 1_000:.3f} ms.\n"
        lines = (it for it in recording.text.split("\n") if not it.startswith(_TRACE_LINE))
        return (head + "\n".join(lines)).encode()


def sent_data_segments_in_recording(recording: Recording) -> list[SegmentDeparture]:
    """The segments with octets of a recording with its trace."""
    packets = [(it.moment, it.what) for it in traced_events_in(recording.text) if isinstance(it.what, Packet)]
    return [SegmentDeparture(at, it.start, it.end) for at, it in packets if not it.is_inbound and it.start < it.end]
