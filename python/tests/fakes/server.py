"""Runs tigercanon-tools for the tests: each command in a fork of one process that has loaded the package, since to start Python takes
longer than most commands. `client.py` takes the place of the command. What only a real start shows is in test_commands.py."""

from __future__ import annotations

import marshal
import os
import signal
import socket
import sys
import tempfile
from typing import Any


def serve(place: str) -> None:
    """Listens at a name that no file has, and prints it."""
    from tigercanon import archive, commands  # noqa: F401

    with socket.socket(socket.AF_UNIX) as listener:
        listener.bind(f"\0{place}")
        listener.listen()
        print(place, flush=True)
        signal.signal(signal.SIGCHLD, signal.SIG_IGN)
        while True:
            peer, _ = listener.accept()
            if os.fork() == 0:
                signal.signal(signal.SIGCHLD, signal.SIG_DFL)
                listener.close()
                answer(peer)
                os._exit(0)
            peer.close()


def answer(peer: socket.socket) -> None:
    """Runs the command that a client sends, and sends its status: a negative one is a signal."""
    text, streams, _, _ = socket.recv_fds(peer, 8, 3)
    size = int.from_bytes(text, "little")
    command = marshal.loads(peer.recv(size, socket.MSG_WAITALL))
    child = os.fork()
    if child == 0:
        peer.close()
        perform(command, streams)
    _, status = os.waitpid(child, 0)
    peer.sendall(str(os.waitstatus_to_exitcode(status)).encode())


def perform(command: dict[str, Any], streams: list[int]) -> None:
    """Runs a command as Python would: in its folder, with its environment and those of the standard streams that are open."""
    for number in range(3):
        if number in command["streams"]:
            os.dup2(streams[command["streams"].index(number)], number)
        else:
            os.close(number)
    for stream in streams:
        os.close(stream)
    os.chdir(command["folder"])
    os.environ.clear()
    os.environ.update(command["environment"])
    tempfile.tempdir = None
    for number, name in enumerate(("stdin", "stdout", "stderr")):
        is_there, buffering = number in command["streams"], 1 if number == 2 else -1
        setattr(sys, name, open(number, "w" if number else "r", buffering, closefd=False) if is_there else None)
    from tigercanon.commands import run

    status: Any = 1
    try:
        status = run(command["words"])
    except SystemExit as ended:
        status = ended.code or 0
    os._exit(status)


serve(f"tigercanon-{os.getpid()}")
