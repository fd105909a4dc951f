"""`pdsuite lsp`: a language server on standard input and output."""

from pdsuite.packages import raise_if_module_missing


def serve_editor(settings: str) -> int:
    """Serves a client until it ends the server, and answers the exit status."""
    raise_if_module_missing("pylsp_jsonrpc")
    # Only who has it serve pays for what reads messages.
    from pdsuite.lsp.main_loop import serve

    return serve(settings)
