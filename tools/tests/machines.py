"""Workers on this machine for tests: two machines over `ssh`, and programs that are away in the middle."""
from __future__ import annotations

import os
import pathlib
import shutil
import signal
import socket
import subprocess
import time
from collections.abc import Callable

SSHD = shutil.which("sshd", path=f"{os.environ.get('PATH', '')}:/usr/sbin:/usr/local/sbin")
SERVER = """Port {port}
ListenAddress 127.0.0.1
HostKey {room}/host
PidFile {room}/{name}.pid
AuthorizedKeysFile {room}/me.pub
StrictModes no
UsePAM no
PermitRootLogin yes
"""
CLIENT = """Host {name}
  HostName 127.0.0.1
  Port {port}
  IdentityFile {room}/me
  IdentitiesOnly yes
  StrictHostKeyChecking no
  UserKnownHostsFile {room}/known
  LogLevel ERROR
"""


def free_port() -> int:
    with socket.socket() as listening:
        listening.bind(("127.0.0.1", 0))
        return int(listening.getsockname()[1])


def is_open(port: int) -> bool:
    with socket.socket() as asking:
        return asking.connect_ex(("127.0.0.1", port)) == 0


def waited(is_so: Callable[[], bool], seconds: float = 20) -> bool:
    """Whether something becomes so within the time."""
    end = time.monotonic() + seconds
    while time.monotonic() < end:
        if is_so():
            return True
        time.sleep(0.05)
    return False


def has_module(python: str, module: str) -> bool:
    """Whether this Python has the module."""
    return os.access(python, os.X_OK) and subprocess.run([python, "-c", f"import {module}"], capture_output=True).returncode == 0


class Machines:
    """Machines that are servers of `ssh` on this one, with keys of their own."""

    def __init__(self, room: pathlib.Path, names: list[str]) -> None:
        self.room, self.why, self.ports = room, "", dict[str, int]()
        self.servers: list[subprocess.Popen[bytes]] = []
        assert SSHD
        for name in ("host", "me"):
            subprocess.run(["ssh-keygen", "-q", "-t", "ed25519", "-N", "", "-f", room / name], check=True)
        told = ""
        for name in names:
            port = self.ports[name] = free_port()
            config = room / f"{name}.sshd"
            config.write_text(SERVER.format(port=port, room=room, name=name))
            self.why = subprocess.run([SSHD, "-t", "-f", config], capture_output=True, text=True).stderr.strip()
            if self.why:
                return
            self.servers.append(subprocess.Popen([SSHD, "-D", "-f", config], stderr=subprocess.DEVNULL))
            told += CLIENT.format(name=name, port=port, room=room)
            if not waited(lambda: is_open(port)):
                self.why = "sshd doesn't listen"
                return
        (room / "ssh_config").write_text(told)
        self.env = {"PARALLEL_SSH": f"ssh -F {room / 'ssh_config'}"}

    def end_of(self, name: str) -> str:
        """Lines of a shell on the machine that end its server and the session in which they run."""
        up = 'while case $(ps -o comm= -p $at) in sshd*) false ;; esac; do at=$(ps -o ppid= -p $at | tr -d " "); done'
        return f"  kill $(cat {self.room}/{name}.pid)\n  at=$PPID\n  {up}\n  kill -9 $at $$"

    def close(self) -> None:
        for server in self.servers:
            if server.poll() is None:
                server.send_signal(signal.SIGTERM)
            server.wait()


def dying(path: pathlib.Path, program: str, mark: pathlib.Path, how: str, when: str = "true") -> None:
    """A program that runs another one; the first time that `when` is so it prints a part of it, and then does `how`."""
    first = f'if {when} && mkdir "{mark}" 2>/dev/null; then\n  "{program}" "$@" | head -c 200\n{how}\nfi\n'
    path.write_text(f'#!/bin/sh\n{first}exec "{program}" "$@"\n')
    path.chmod(0o755)
