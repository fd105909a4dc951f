"""Debian packages that only some commands need."""

from importlib.util import find_spec

from pdsuite.faults import Fault


def raise_if_module_missing(module: str) -> None:
    """Raises a fault that names the package of a module, where that isn't installed."""
    if reason := message_if_module_missing(module):
        raise Fault(reason)


def message_if_module_missing(module: str) -> str:
    """The words that name the package of a module, where that isn't installed."""
    if find_spec(module) is not None:
        return ""
    package = f"python3-{module.replace('_', '-')}"
    return f"{package} isn't installed: apt-get install --no-install-recommends {package}"
