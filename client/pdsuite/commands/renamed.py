"""Options that have another name now: the old one is refused like any unknown word, and the error says the new one."""

from collections.abc import Mapping

import click

# By command: the old name of an option, and its name.
RENAMED: Mapping[str, Mapping[str, str]] = {
    "run": {"--all-differences": "--full-diff", "--new": "--new-only"},
    "record": {"--drop": "--drop-missing"},
    "compare": {"--owes": "--affected"},
    "import": {"--keep": "--keep-packets"},
}


def error_with_new_option_name(error: click.ClickException) -> click.ClickException:
    """The same error, which says the name of an option that has another one now, and guesses no other."""
    if not isinstance(error, click.NoSuchOption) or error.ctx is None:
        return error
    old = error.option_name
    name = RENAMED.get(error.ctx.command.name or "", {}).get(old)
    return (
        error if name is None else click.NoSuchOption(old, f"No such option: {old}; its name is {name}.", ctx=error.ctx)
    )
