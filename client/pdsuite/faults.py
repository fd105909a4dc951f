"""The faults that end a command before its work is done."""


class Fault(Exception):
    """Something without which a command can't go on; its text is one line for people."""


class PlacedFault(Fault):
    """A fault of what a file says: its text begins with the file's place, which editors read there."""


class CutShortError(Fault):
    """Something that ends a run early; what is settled until then is shown."""


def error_reason(error: OSError | ValueError) -> str:
    """The system's reason for refusing a call, or Python's for not making one, as with a NUL in a path."""
    return (isinstance(error, OSError) and error.strerror) or str(error)
