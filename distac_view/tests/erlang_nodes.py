"""Real nodes of Erlang/OTP on the loopback interface, with their own name server (epmd).

Everything started here is ended here, by its process, even if a test fails or is interrupted. Nodes end by themselves
once their standard input is closed.
"""

from __future__ import annotations

import os
import queue
import shutil
import signal
import socket
import subprocess
import threading
import time
from contextlib import contextmanager
from pathlib import Path
from typing import Iterable, Iterator

HERE = Path(__file__).resolve().parent
HOST = "127.0.0.1"
NEEDED = ("erl", "erlc", "epmd")
# The time in which a killed process is gone, even on a very busy machine.
MOST_SECONDS = 60
# Signals that end a comparison.
ENDING = (signal.SIGALRM, signal.SIGINT, signal.SIGTERM)


def is_installed() -> bool:
    """Whether Erlang is in PATH."""
    return all(shutil.which(program) for program in NEEDED)


def release_of_otp() -> str:
    version = "element(3,lists:keyfind(kernel,1,application:loaded_applications()))"
    text = f'io:format("OTP ~s, kernel ~s",[erlang:system_info(otp_release),{version}]),halt().'
    done = subprocess.run(["erl", "-noinput", "-boot", "start_clean", "-eval", text], capture_output=True, text=True, timeout=60, check=True)
    return done.stdout


def free_port() -> int:
    """A free port of the loopback interface."""
    with socket.socket() as trial:
        trial.bind((HOST, 0))
        return int(trial.getsockname()[1])


def surroundings(port: int) -> dict[str, str]:
    """The environment of nodes: the name server's port and address."""
    kept = {name: value for name, value in os.environ.items() if not name.startswith("ERL_")}
    return {**kept, "ERL_EPMD_PORT": str(port), "ERL_EPMD_ADDRESS": HOST, "ERL_CRASH_DUMP_SECONDS": "0"}


@contextmanager
def held(numbers: Iterable[int]) -> Iterator[None]:
    """Signals of these numbers take effect afterwards."""
    came: list[int] = []
    before = {number: signal.signal(number, lambda caught, _: came.append(caught)) for number in numbers}
    try:
        yield
    finally:
        for number, handler in before.items():
            signal.signal(number, handler)
        for number in came:
            signal.raise_signal(number)


class Node:
    """A node: its process, and its messages line by line."""

    def __init__(self, name: str, words: list[str], environment: dict[str, str], folder: Path) -> None:
        self.name = name
        self.told: queue.Queue[str] = queue.Queue()
        self.noise: list[str] = []
        self.process = subprocess.Popen(
            words,
            cwd=folder,
            env=environment,
            text=True,
            errors="replace",
            stdin=subprocess.PIPE,
            stdout=subprocess.PIPE,
            stderr=subprocess.STDOUT,
        )
        self.thread = threading.Thread(target=self.listen, daemon=True)
        self.thread.start()

    def listen(self) -> None:
        """Reads the node's output: answers begin with a word of their own."""
        for line in self.process.stdout or ():
            if line.startswith("stage "):
                self.told.put(line[len("stage ") :].rstrip("\n"))
            else:
                self.noise.append(line)
        self.told.put("ended")

    def order(self, text: str) -> None:
        try:
            self.process.stdin.write(text + "\n")  # type: ignore[union-attr]
            self.process.stdin.flush()  # type: ignore[union-attr]
        except OSError:
            pass

    def answer(self, word: str, seconds: float) -> list[str] | None:
        """The words after an answer's first one, or nothing if none comes in time."""
        end = time.monotonic() + seconds
        while True:
            try:
                words = self.told.get(timeout=max(0.0, end - time.monotonic())).split(" ")
            except queue.Empty:
                return None
            if words[0] == word:
                return [each for each in words[1:] if each]
            if words[0] == "ended":
                return None

    def ask(self, text: str, seconds: float = 5.0) -> list[str] | None:
        """The answer to a command, with the command's first word."""
        self.order(text)
        return self.answer(text.split(" ")[0], seconds)

    def kill(self) -> None:
        """The node goes down silently. What it started may keep its output open, and closing that would wait for them."""
        self.process.kill()
        self.process.wait(MOST_SECONDS)
        self.thread.join(5)
        for pipe in (self.process.stdin, *([] if self.thread.is_alive() else [self.process.stdout])):
            try:
                pipe.close()  # type: ignore[union-attr]
            except OSError:
                pass

    @property
    def is_up(self) -> bool:
        """Whether its process runs."""
        return self.process.poll() is None


class Cluster:
    """A name server, and nodes with their files in a folder, for use in a `with`."""

    def __init__(self, folder: Path, apps: dict[str, int]) -> None:
        self.folder = folder
        self.port = free_port()
        self.environment = surroundings(self.port)
        self.cookie = os.urandom(16).hex()
        self.nodes: dict[str, Node] = {}
        subprocess.run(["erlc", "-o", str(folder), str(HERE / "stage.erl")], env=self.environment, timeout=120, check=True)
        for name, milliseconds in apps.items():
            text = '{application,%s,[{vsn,"1"},{modules,[stage]},{registered,[%s]},{applications,[kernel,stdlib]},{mod,{stage,[%s,%d]}}]}.\n'
            (folder / f"{name}.app").write_text(text % (name, name, name, milliseconds))

    def __enter__(self) -> Cluster:
        words = ["epmd", "-port", str(self.port), "-address", HOST]
        self.name_server = subprocess.Popen(words, env=self.environment, stdout=subprocess.DEVNULL, stderr=subprocess.DEVNULL)
        try:
            self.wait_for_name_server()
        except BaseException:
            self.end()
            raise
        return self

    def __exit__(self, *_: object) -> None:
        with held(ENDING):
            self.end()

    def end(self) -> None:
        """Ends all nodes and the name server."""
        for node in self.nodes.values():
            if node.is_up:
                node.kill()
        self.name_server.kill()
        self.name_server.wait(MOST_SECONDS)

    def wait_for_name_server(self) -> None:
        """Waits until it accepts connections."""
        for _ in range(100):
            try:
                socket.create_connection((HOST, self.port), 1).close()
                return
            except OSError:
                time.sleep(0.05)
        raise TimeoutError("no answer by epmd")

    def boot(self, name: str, config: str) -> Node:
        """A node comes up with a configuration file of the folder."""
        words = ["erl", "-noshell", "-name", name, "-setcookie", self.cookie, "-start_epmd", "false", "-pa", str(self.folder)]
        words += ["-kernel", "inet_dist_use_interface", "{127,0,0,1}", "-config", config, "-s", "stage", "listen"]
        self.nodes[name] = Node(name, words, self.environment, self.folder)
        return self.nodes[name]

    def up(self) -> list[Node]:
        """The nodes that run."""
        return [node for node in self.nodes.values() if node.is_up]

    def where(self, apps: list[str]) -> dict[str, list[str]]:
        """The nodes at which each application runs."""
        found: dict[str, list[str]] = {app: [] for app in apps}
        asked = self.up()
        for node in asked:
            node.order("where " + " ".join(apps))
        for node in asked:
            for app in node.answer("where", 5.0) or []:
                found[app].append(node.name)
        return found
