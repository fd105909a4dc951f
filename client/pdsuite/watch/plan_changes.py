"""The changes of runs for a change of the folders: one function of what the runs hold and of what is wanted."""

from collections import Counter
from collections.abc import Iterator, Mapping, Sequence
from dataclasses import dataclass

from pdsuite.run.batches import BATCH_SIZE
from pdsuite.scripts.defaults import has_default_for_each_old_key_not_in_new, changed_settings_with_new_values
from pdsuite.scripts.settings import Settings, set_command_words_or_placeholders
from pdsuite.scripts.text import ScriptText
from pdsuite.scripts.text_edit import Edit, edit_between


@dataclass(frozen=True, slots=True)
class WantedScript:
    """The text of a script's file, and the settings under which it is to run."""

    settings: Settings
    text: ScriptText


@dataclass(frozen=True)
class RunContents:
    """The contents of a run: its settings, and the texts of its scripts by their paths, in the order of adding."""

    settings: Settings
    texts: Mapping[str, ScriptText]


@dataclass(frozen=True, slots=True)
class RemoveScript:
    path: str


@dataclass(frozen=True, slots=True)
class SetKey:
    key: str
    word: str


@dataclass(frozen=True, slots=True)
class EditScript:
    path: str
    edit: Edit


@dataclass(frozen=True, slots=True)
class AddScript:
    path: str
    text: ScriptText


Act = RemoveScript | SetKey | EditScript | AddScript


@dataclass(frozen=True)
class RunChange:
    """The acts of one run, and what it holds after them: no script if it is to end. A run without a number is new."""

    run: int | None
    acts: tuple[Act, ...]
    after: RunContents

    @property
    def rerun_paths(self) -> list[str]:
        """The scripts that are run again."""
        if any(isinstance(it, SetKey) for it in self.acts):
            return list(self.after.texts)
        return [it.path for it in self.acts if isinstance(it, EditScript | AddScript)]


def plan_changes(runs: Sequence[RunContents], wanted: Mapping[str, WantedScript]) -> list[RunChange]:
    """The changes that make the runs hold what is wanted, first of runs that are there, then of new ones.

    A script stays in its run while that has its settings; any other goes to the first run with room.
    """
    targets = _target_settings_of_each_run(runs, wanted)
    after: list[RunContents] = []
    placed: set[str] = set()
    for run, target in zip(runs, targets):
        stays = {path: wanted[path].text for path in run.texts if _is_wanted_with_settings(wanted.get(path), target)}
        placed.update(stays)
        after.append(RunContents(run.settings if target is None else target, stays))
    _place_in_runs({path: it for path, it in wanted.items() if path not in placed}, after)
    old = [RunChange(number, _acts_between(run, then), then) for number, (run, then) in enumerate(zip(runs, after))]
    new = [RunChange(None, _acts_between(RunContents(it.settings, {}), it), it) for it in after[len(runs) :]]
    return [change for change in [*old, *new] if change.acts]


def _is_wanted_with_settings(it: WantedScript | None, settings: Settings | None) -> bool:
    return it is not None and it.settings == settings


def _place_in_runs(scripts: Mapping[str, WantedScript], runs: list[RunContents]) -> None:
    """Puts each script into the first run that has its settings and room, or else into a new one."""
    rooms: dict[Settings, list[dict[str, ScriptText]]] = {}
    for number, run in enumerate(runs):
        texts = dict(run.texts)
        runs[number] = RunContents(run.settings, texts)
        rooms.setdefault(run.settings, []).append(texts)
    for path, it in scripts.items():
        having = rooms.setdefault(it.settings, [])
        while having and len(having[0]) >= BATCH_SIZE:
            having.pop(0)
        if not having:
            having.append({})
            runs.append(RunContents(it.settings, having[0]))
        having[0][path] = it.text


def _target_settings_of_each_run(
    runs: Sequence[RunContents], wanted: Mapping[str, WantedScript]
) -> list[Settings | None]:
    """The settings that each run is to have: those of most of its scripts, if that takes no run too many.

    A run that can't be given them has none, and ends.
    """
    choices = [_wanted_settings_of_run_most_frequent_first(run, wanted) for run in runs]
    need = {
        settings: -(-count // BATCH_SIZE) for settings, count in Counter(it.settings for it in wanted.values()).items()
    }
    having: Counter[Settings] = Counter()
    targets: list[Settings | None] = [None] * len(runs)
    # Those that stay as they are come first, so that no other is changed to what is there.
    for number in sorted(range(len(runs)), key=lambda it: choices[it][:1] != [runs[it].settings]):
        for settings in choices[number]:
            before = runs[number].settings
            if (
                settings == before
                or having[settings] < need[settings]
                and has_default_for_each_old_key_not_in_new(before, settings)
            ):
                targets[number] = settings
                having[settings] += 1
                break
    return targets


def _wanted_settings_of_run_most_frequent_first(run: RunContents, wanted: Mapping[str, WantedScript]) -> list[Settings]:
    """The settings that a run's scripts are to have: those of most scripts first, and of equally many its own."""
    counts = Counter(wanted[path].settings for path in run.texts if path in wanted)
    return sorted(counts, key=lambda it: (-counts[it], it != run.settings))


def _acts_between(old: RunContents, new: RunContents) -> tuple[Act, ...]:
    if not new.texts:
        return tuple(RemoveScript(path) for path in old.texts)
    return (*_remove_acts(old, new), *_set_key_acts(old, new), *_edit_acts(old, new), *_add_acts(old, new))


def _remove_acts(old: RunContents, new: RunContents) -> Iterator[RemoveScript]:
    return (RemoveScript(path) for path in old.texts if path not in new.texts)


def _set_key_acts(old: RunContents, new: RunContents) -> Iterator[SetKey]:
    if old.settings != new.settings:
        yield from (
            SetKey(*set_command_words_or_placeholders(key, value))
            for key, value in changed_settings_with_new_values(old.settings, new.settings)
        )


def _edit_acts(old: RunContents, new: RunContents) -> Iterator[EditScript]:
    for path, text in old.texts.items():
        then = new.texts.get(path)
        if then is not None and then is not text and then.octets != text.octets:
            yield EditScript(path, edit_between(text, then))


def _add_acts(old: RunContents, new: RunContents) -> Iterator[AddScript]:
    return (AddScript(path, text) for path, text in new.texts.items() if path not in old.texts)
