"""Where a search begins: the inputs of scripts, as a sender is recorded to play them."""

from collections.abc import Iterator
from pathlib import Path

from pdsuite.programs.trace import traced_events_in
from pdsuite.run.batches import SuiteScript
from pdsuite.run.collect import find_selected_script_files_and_read_configs, suite_scripts_with_config
from pdsuite.run.run_batches import load_script_text_or_fault
from pdsuite.scripts.config import SuiteConfig, layer_of_option
from pdsuite.search.inputs import Input, Inputs
from pdsuite.search.mutate import CorpusEntry
from pdsuite.search.oracle import ConfiguredScript, SenderOracle
from pdsuite.signals import Stop

# In a tree: the scripts whose inputs a search varies.
SUITE = "examples/suite"


def suite_scripts_of_tree(tree: Path | None, stop: Stop) -> list[ConfiguredScript]:
    """The scripts of a tree's suite with their settings, in the order of their paths; none where there is no suite."""
    if tree is None or not (tree / SUITE).is_dir():
        return []
    suite = SuiteConfig(layer_of_option(""))
    return [
        it
        for script in suite_scripts_with_config(
            find_selected_script_files_and_read_configs([tree / SUITE], [], suite, stop), suite
        )
        for it in _yield_configured_script_if_readable(script)
    ]


def _yield_configured_script_if_readable(script: SuiteScript) -> Iterator[ConfiguredScript]:
    text = load_script_text_or_fault(script)
    if not isinstance(text, str):
        yield ConfiguredScript(script.settings, text.octets)


def record_corpus_without_fixed_settings(
    scripts: list[ConfiguredScript], oracle: SenderOracle, fixed: frozenset[str]
) -> list[CorpusEntry]:
    """The inputs of scripts with their recordings, without settings that are fixed; none of what isn't recorded."""
    configured = [
        ConfiguredScript(tuple(it for it in one.settings if it[0] not in fixed), one.octets) for one in scripts
    ]
    found: dict[Inputs, str] = {}
    for it, recording in zip(configured, oracle.record_inputs_or_scripts(configured)):
        events = [Input(event.moment, event.what) for event in traced_events_in(recording.text) if event.is_input]
        if events:
            found.setdefault(Inputs(it.settings, tuple(events)), recording.text)
    return [CorpusEntry(*it) for it in found.items()]
