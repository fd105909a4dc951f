"""The two sides of a comparison: the settings of each, and the keys that its sender lacks or has by another name."""

from collections.abc import Callable, Iterable, Sequence
from dataclasses import dataclass, replace
from pathlib import Path

from pdsuite.compare.senders import Sender, current_sender, last_proved_sender, sender_of_folder_or_checked_out_commit
from pdsuite.programs.refusals import Refusal
from pdsuite.run.batches import SuiteScript
from pdsuite.scripts.config import BASE_OPTION, WITH_OPTION, Claim, Layer, every_claim_of_layers, layer_of_option
from pdsuite.scripts.renamed import KEYS, OLD_KEYS, UNKNOWN_KEY, old_setting_name_and_words_text, old_word_or_same_value
from pdsuite.scripts.settings import Settings, Value, settings_as_toml, sorted_settings


class SideSettingsError(Exception):
    """That a sender refuses settings; the lines say which."""

    def __init__(self, sender: Sender, refused: Iterable[Refusal]) -> None:
        super().__init__()
        self.lines = [f"{it.refusal_line} (by {sender})" for it in refused]


@dataclass(frozen=True)
class Side:
    """A sender, what its own option sets, before all else, and the keys that it lacks: they have no effect here."""

    sender: Sender
    option: Layer
    lacks: frozenset[str] = frozenset()
    renamed: frozenset[str] = frozenset()  # keys that have their old names here

    @property
    def own_settings(self) -> Settings:
        """The settings of its own option."""
        return sorted_settings(self.option.keys)

    def adapted_common_and_own_setting_claims(self, common: Iterable[Claim]) -> list[Claim]:
        """The claims for the sender: those that hold for both sides, but for what it lacks, and its own."""
        known = [it for it in common if it.key not in self.lacks]
        named = [
            replace(
                it, key=self._current_or_old_key_name(it.key), value=self._current_or_old_value_word(it.key, it.value)
            )
            for it in known
        ]
        return [*named, *every_claim_of_layers([self.option])]

    def adapted_given_and_own_settings(self, given: Settings) -> Settings:
        """The settings that hold here, where these are given."""
        here = {key: value for key, value in given if key not in self.lacks}
        named = {
            self._current_or_old_key_name(key): self._current_or_old_value_word(key, value)
            for key, value in here.items()
        }
        return sorted_settings({**named, **self.option.keys})

    def scripts_with_effective_settings(self, scripts: Iterable[SuiteScript]) -> list[SuiteScript]:
        """Scripts under the settings that hold here."""
        return [
            it if it.fault else replace(it, settings=self.adapted_given_and_own_settings(it.settings)) for it in scripts
        ]

    def with_keys_that_sender_accepts(
        self, common: Sequence[Claim], query: Callable[[list[Claim]], list[Refusal]]
    ) -> "Side":
        """The side as its sender takes it, which is queried until it refuses nothing, by the old names of keys too."""
        side = self
        while refused := query(side.adapted_common_and_own_setting_claims(common)):
            side = side.with_refused_keys_dropped_or_renamed(refused, may_retry=True)
        return side

    def with_refused_keys_dropped_or_renamed(self, refused: Sequence[Refusal], may_retry: bool = False) -> "Side":
        """The side without keys that its sender is found to lack; a fault where it refuses more than such a key.

        With `may_retry`, a key that has an old name gets that name before it counts as lacking.
        """
        if wrong := [
            it for it in refused if it.reason != UNKNOWN_KEY or it.claim.place == self.option.file_or_option_name
        ]:
            raise SideSettingsError(self.sender, wrong)
        refused_keys = {it.claim.key for it in refused}
        keys = {KEYS[it] if KEYS.get(it) in self.renamed else it for it in refused_keys}
        old = {it for it in keys - self.renamed if may_retry and it in OLD_KEYS}
        return replace(self, lacks=self.lacks | (keys - old), renamed=(self.renamed - keys) | old)

    def _current_or_old_key_name(self, key: str) -> str:
        """The name of a key here."""
        return OLD_KEYS[key] if key in self.renamed else key

    def _current_or_old_value_word(self, key: str, value: Value) -> Value:
        """The word for a value of a key here."""
        return old_word_or_same_value(key, value) if key in self.renamed else value


def make_side_named_with_settings(sender: Sender, text: str, option: str) -> Side:
    """A side whose sender is called by the settings of its own option, too, which has this name and text."""
    layer = layer_of_option(text, option)
    own = settings_as_toml(sorted_settings(layer.keys)).replace("\n", ", ")
    return Side(replace(sender, name=f"{sender.name} with {own}") if own else sender, layer)


def sides_before_and_after_change(
    base: str | None, base_settings: str, other: str | None, with_settings: str, room: Path
) -> tuple[Side, Side]:
    """The sender before the change, and the one after it; what is checked out goes into a folder.

    Without a word the first is the sender that was proved last, and the second that of this tree.
    """
    before = (
        last_proved_sender()
        if base is None
        else sender_of_folder_or_checked_out_commit(base, "--base", room / "before")
    )
    after = (
        current_sender() if other is None else sender_of_folder_or_checked_out_commit(other, "--with", room / "after")
    )
    return (
        make_side_named_with_settings(before, base_settings, BASE_OPTION),
        make_side_named_with_settings(after, with_settings, WITH_OPTION),
    )


def refuse_commonly_lacked_keys(sides: Sequence[Side], claims: Iterable[Claim]) -> None:
    """Raises a fault where a claim of both sides is of a key that both lack."""
    lacked = frozenset.intersection(*(it.lacks for it in sides))
    if wrong := [Refusal(it, UNKNOWN_KEY) for it in claims if it.key in lacked]:
        raise SideSettingsError(sides[0].sender, wrong)


def note_renamed_and_lacking_keys(sides: Sequence[Side], note: Callable[[str], None]) -> None:
    """Says once of each key that a sender has by its old name, and of each that it lacks, where it has no effect."""
    for side in sides:
        for key in sorted(side.renamed):
            note(f"pdsuite: {side.sender}: the setting {key} is {old_setting_name_and_words_text(key)} there")
        for key in sorted(side.lacks):
            note(f"pdsuite: {side.sender}: there is no setting {key}, which counts as its default")
