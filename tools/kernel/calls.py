"""System calls of a script, made for real: 3 is the listening socket and 4 the connection."""

from __future__ import annotations

import errno
import os
import socket
from collections.abc import Callable
from dataclasses import dataclass, field

from kernel.script import UnsupportedScript
from kernel.wire import LOCAL, PORT
from pdsuite.packetdrill.items import Call

LISTENER, CONNECTION = 3, 4
OPTIONS = {
    ("SOL_SOCKET", "SO_REUSEADDR"): (socket.SOL_SOCKET, socket.SO_REUSEADDR),
    ("SOL_TCP", "TCP_NODELAY"): (socket.SOL_TCP, socket.TCP_NODELAY),
    ("IPPROTO_TCP", "TCP_NODELAY"): (socket.SOL_TCP, socket.TCP_NODELAY),
}


@dataclass(frozen=True)
class KernelAnswer:
    """The kernel's answer to a call: a number, and with -1 the name of the error."""

    result: int
    error: str = ""

    def is_expected_by(self, call: Call) -> bool:
        """Whether it is what the script expects.

        >>> KernelAnswer(-1, "EPIPE").is_expected_by(Call("write", ("4", "...", "1"), -1, "EINVAL"))
        False
        """
        return self.result == call.result and (call.error in (None, self.error) or self.result >= 0)

    def __str__(self) -> str:
        return f"{self.result} {self.error}".strip()


@dataclass
class Sockets:
    """The sockets of a run, by the descriptors that the script calls them by."""

    nodelay: bool
    open: dict[int, socket.socket] = field(default_factory=dict)

    def make_call(self, call: Call) -> KernelAnswer:
        """Makes a call, and gives the kernel's answer."""
        if call.name not in CALLS:
            raise UnsupportedScript(0, f"{call.name} isn't run")
        try:
            return KernelAnswer(CALLS[call.name](self, call.arguments))
        except OSError as fault:
            return KernelAnswer(-1, errno.errorcode.get(fault.errno or 0, str(fault.errno)))

    def close(self) -> None:
        """Closes what the script left open."""
        for it in self.open.values():
            it.close()

    def socket_of(self, descriptor: str) -> socket.socket:
        """The socket of a descriptor, or EBADF."""
        if int(descriptor) not in self.open:
            raise OSError(errno.EBADF, "")
        return self.open[int(descriptor)]


def make_socket(sockets: Sockets, _: tuple[str, ...]) -> int:
    sockets.open[LISTENER] = socket.socket(socket.AF_INET, socket.SOCK_STREAM)
    sockets.open[LISTENER].setblocking(False)
    return LISTENER


def bind(sockets: Sockets, arguments: tuple[str, ...]) -> int:
    sockets.socket_of(arguments[0]).bind((LOCAL, PORT))
    return 0


def listen(sockets: Sockets, arguments: tuple[str, ...]) -> int:
    backlog = int(arguments[1]) if arguments[1].isdigit() else 1
    sockets.socket_of(arguments[0]).listen(backlog)
    return 0


def accept(sockets: Sockets, arguments: tuple[str, ...]) -> int:
    connection, _ = sockets.socket_of(arguments[0]).accept()
    connection.setblocking(False)
    if sockets.nodelay:
        connection.setsockopt(socket.SOL_TCP, socket.TCP_NODELAY, 1)
    sockets.open[CONNECTION] = connection
    return CONNECTION


def set_socket_option(sockets: Sockets, arguments: tuple[str, ...]) -> int:
    target = sockets.socket_of(arguments[0])
    if (arguments[1], arguments[2]) not in OPTIONS:
        raise UnsupportedScript(0, f"{arguments[2]} isn't run")
    level, name = OPTIONS[arguments[1], arguments[2]]
    value = arguments[3].strip("[] ")
    target.setsockopt(level, name, int(value) if value.isdigit() else 1)
    return 0


def accept_fcntl(sockets: Sockets, arguments: tuple[str, ...]) -> int:
    sockets.socket_of(arguments[0])
    return 0


def write(sockets: Sockets, arguments: tuple[str, ...]) -> int:
    return os.write(sockets.socket_of(arguments[0]).fileno(), b"x" * int(arguments[2]))


def close(sockets: Sockets, arguments: tuple[str, ...]) -> int:
    sockets.socket_of(arguments[0]).close()
    del sockets.open[int(arguments[0])]
    return 0


CALLS: dict[str, Callable[[Sockets, tuple[str, ...]], int]] = {
    "socket": make_socket,
    "bind": bind,
    "listen": listen,
    "accept": accept,
    "setsockopt": set_socket_option,
    "fcntl": accept_fcntl,
    "write": write,
    "close": close,
}
