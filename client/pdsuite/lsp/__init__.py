"""A language server for scripts and their settings: what it says of texts are functions over values.

Verdicts, explanations and recordings come from the programs; this package says where in a text they belong.
`EventLoop` waits and serves, `Transport` reads and writes messages, `Server` handles them, `Workspace` has the texts
and their results (`watch.LivePool` runs them), `LanguageFeatures` answers about a text, and `Publisher` sends
diagnostics.

    Transport --message--> Server --text--> Workspace --> LivePool --> Result
                             |                                           |
                             +-- Promise: a request that waits           +--> Publisher --> diagnostics
                             +-- LanguageFeatures + ProgramQueries --> hover, actions, completion, lenses

    a session:  initialized --> no sender: syntax and outline alone --> a sender stands: SenderSession
                                          ^                                     |
                                          +---- none stands any more <----------+--> another one: a new session
    a request:  pending --> answered, cancelled, or refused since its text changed

- No answer is older than its text: diagnostics have its version, and a change gives up the requests before it.
- An open text counts in place of its file, for settings files, too.
- Messages come first: runs and looks at folders wait for a pause, garbage is collected at rest.
- A message of another shape is refused (`RequestError`) and ends nothing.
- An action is offered only if a run of the new text leads past the failing line.

The server has no parser that judges: what the client's own reader says is shown only while no sender stands.
"""
