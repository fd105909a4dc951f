"""How much two senders send with the same scripts, and how long it takes: as lines, and by keys."""

from collections.abc import Iterator, Sequence

from pdsuite.compare.comparison import ComparedScript
from pdsuite.compare.quantities import (
    Quantities,
    Quantity,
    QuantityChange,
    sorted_quantity_changes,
    summed_quantities_before_and_after,
)
from pdsuite.output.octets import printable_path
from pdsuite.packetdrill.items import SECOND

# So many scripts are reported, where not all are requested.
_MOST = 10
_NAMES = {
    Quantity.SEGMENTS: "segments",
    Quantity.AGAIN: "octets sent again",
    Quantity.EXPIRIES: "expiries",
    Quantity.TIME: "last octet acknowledged at",
}


def total_and_changed_quantity_lines(
    compared: Sequence[ComparedScript], sort: Quantity, is_every: bool
) -> Iterator[str]:
    """A line for all scripts, and one for each whose quantities changed, the largest change first."""
    changes = sorted_quantity_changes(compared, sort)
    if not changes:
        return
    summed = summed_quantities_before_and_after(compared)
    yield f"quantities of all scripts: {_quantities_before_to_after(summed, list(Quantity))}"
    for it in changes if is_every else changes[:_MOST]:
        changed = [each for each in Quantity if it.absolute_change(each)]
        yield f"  {printable_path(it.path)}: {_quantities_before_to_after(it, changed)}"
    if not is_every and len(changes) > _MOST:
        yield f"  {len(changes) - _MOST} more (--every)"


def _quantities_before_to_after(it: QuantityChange, quantities: Sequence[Quantity]) -> str:
    before, after = it.before.quantities_by_name(), it.after.quantities_by_name()
    return ", ".join(
        f"{_NAMES[each]} {_format_quantity_without_unit(each, before[each])}"
        f" to {_format_quantity_without_unit(each, after[each])}"
        for each in quantities
    )


def _format_quantity_without_unit(quantity: Quantity, value: int) -> str:
    return f"{value / SECOND:.6f}" if quantity is Quantity.TIME else f"{value:,}"


def changed_quantities_json_object(compared: Sequence[ComparedScript], sort: Quantity) -> dict[str, object]:
    """The same by keys: of all scripts, and of those whose quantities changed."""
    scripts: list[dict[str, object]] = [
        {
            "path": printable_path(it.path),
            "before": _quantities_json_object(it.before),
            "after": _quantities_json_object(it.after),
        }
        for it in sorted_quantity_changes(compared, sort)
    ]
    return {
        "total": _quantities_before_after_json_object(summed_quantities_before_and_after(compared)),
        "scripts": scripts,
    }


def _quantities_before_after_json_object(it: QuantityChange) -> dict[str, object]:
    return {"before": _quantities_json_object(it.before), "after": _quantities_json_object(it.after)}


def _quantities_json_object(it: Quantities) -> dict[str, object]:
    return {"segments": it.segments, "again": it.again, "expiries": it.expiries, "time_us": it.time}
