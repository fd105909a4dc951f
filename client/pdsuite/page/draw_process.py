"""A process that draws: it reads its job on standard input, and says on standard output which pages stand."""

import logging
import pickle
import sys

from pdsuite.faults import Fault
from pdsuite.page.jobs import PageJob, write_table_and_script_pages_of_job
from pdsuite.signals import Stop, StoppedError

# Begins the line that says why it has to end; the status then.
FAULT = "!"
FAILED = 2


def main() -> int:
    """Does one job, and answers the exit status."""
    logging.disable()  # what counts is printed here
    with Stop() as stop:
        job: PageJob = pickle.load(sys.stdin.buffer)
        try:
            write_table_and_script_pages_of_job(job, stop, _print_line_ignoring_os_errors)
        except StoppedError as stopped:
            return stopped.status
        except Fault as fault:
            _print_line_ignoring_os_errors(f"{FAULT}{fault}")
            return FAILED
    return 0


def _print_line_ignoring_os_errors(what: int | str) -> None:
    try:
        print(what, flush=True)
    except OSError:
        pass  # nobody waits for it any more
