"""The namespace of a run and its tun device: packets go in, and what the kernel sends comes out with its time."""

from __future__ import annotations

import ctypes
import fcntl
import os
import select
import struct
import subprocess
import time
from collections import deque
from dataclasses import dataclass, field

from kernel.settings import Tuning, sysctl_file
from kernel.wire import LOCAL, SeenPacket, decode_packet, encode_packet
from pdsuite.packetdrill.items import Packet

NEW_NET = 0x40000000
SET_INTERFACE = 0x400454CA
TUN_WITHOUT_HEAD = 0x1001
DEVICE = "tun0"
BEAT = 0.010
REMOTE_NET = "192.0.2.0/24"


class NoDevice(Exception):
    """This machine, or who runs the tool here, has no namespace or no tun device."""


def run_setup_command(*words: str) -> None:
    """Runs one command of the namespace's set-up."""
    done = subprocess.run(words, check=False, capture_output=True, text=True)
    if done.returncode:
        raise NoDevice(f"{' '.join(words)}: {done.stderr.strip()}")


def enter_namespace() -> None:
    """Moves this process into a network namespace of its own, which goes with it."""
    libc = ctypes.CDLL(None, use_errno=True)
    if libc.unshare(NEW_NET):
        raise NoDevice(f"unshare: {os.strerror(ctypes.get_errno())}")


def open_tun() -> int:
    """A tun device that gives and takes bare IP packets."""
    try:
        tun = os.open("/dev/net/tun", os.O_RDWR | os.O_NONBLOCK)
        fcntl.ioctl(tun, SET_INTERFACE, struct.pack("16sH14x", DEVICE.encode(), TUN_WITHOUT_HEAD))
    except OSError as fault:
        raise NoDevice(f"/dev/net/tun: {fault.strerror}") from fault
    return tun


def set_up_namespace(tuning: Tuning) -> None:
    """Gives the namespace its sysctls, its addresses and its route to the peer."""
    for name, value in tuning.sysctls:
        try:
            sysctl_file(name).write_text(value)
        except OSError as fault:
            raise NoDevice(f"{name}={value}: {fault.strerror}") from fault
    run_setup_command("ip", "link", "set", "lo", "up")
    run_setup_command("ip", "link", "set", DEVICE, "mtu", str(tuning.mtu), "up")
    run_setup_command("ip", "addr", "add", f"{LOCAL}/16", "dev", DEVICE)
    run_setup_command("ip", "route", "add", REMOTE_NET, "dev", DEVICE, *tuning.route)


@dataclass
class Device:
    """The device of one run: the packets that were sent and not yet taken, and the kernel's first sequence number.

    It never sleeps longer than a beat, so that it notices when the machine holds it up: `late` is the longest time.
    """

    tun: int
    zero: float = field(default_factory=time.monotonic)
    isn: int | None = None
    untaken: deque[SeenPacket] = field(default_factory=deque)
    late: float = 0.0

    def now(self) -> float:
        """Seconds since the run's start."""
        return time.monotonic() - self.zero

    def close(self) -> None:
        """Takes the device away, so that nothing more is sent."""
        os.close(self.tun)

    def inject_packet(self, packet: Packet) -> None:
        """Lets a packet arrive; the kernel has dealt with it when the write returns."""
        os.write(self.tun, encode_packet(packet, self.isn or 0))

    def wait_at_most_a_beat_for_packet(self, until: float) -> bool:
        """Sleeps up to a moment, or for a beat, and says whether the kernel has sent something."""
        before = self.now()
        most = min(BEAT, max(0.0, until - before))
        ready, _, _ = select.select([self.tun], [], [], most)
        self.late = max(self.late, self.now() - before - most)
        return bool(ready)

    def queue_next_packet_waiting_until(self, until: float) -> bool:
        """Waits for the next packet of the kernel up to a moment, and keeps it; False if none came."""
        while True:
            if not self.wait_at_most_a_beat_for_packet(until):
                if self.now() >= until:
                    return False
                continue
            found = decode_packet(os.read(self.tun, 65536), self.now(), self.isn)
            if found is not None:
                seen, self.isn = found
                self.untaken.append(seen)
                return True

    def queue_packets_until(self, until: float) -> None:
        """Waits up to a moment, and keeps what is sent meanwhile."""
        while self.queue_next_packet_waiting_until(until):
            pass

    def take_oldest_packet_waiting_until(self, until: float) -> SeenPacket | None:
        """The oldest packet that wasn't taken yet; it may come up to a moment."""
        if not self.untaken:
            self.queue_next_packet_waiting_until(until)
        return self.untaken.popleft() if self.untaken else None


def open_device(tuning: Tuning) -> Device:
    """A device in a new namespace that is set up."""
    enter_namespace()
    tun = open_tun()
    set_up_namespace(tuning)
    return Device(tun)
