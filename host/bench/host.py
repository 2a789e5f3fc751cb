"""How much processor time 10 MB of text take with somebody looking: glass, and tmux and screen where they are installed.

python3 host.py GLASS [ROUNDS]: in each round every one of them in turn; of each the best counts. It is no test.
"""
import os
import pty
import shutil
import signal
import subprocess
import sys
import tempfile
import threading
import time

sys.path.insert(0, os.path.join(os.path.dirname(__file__), "..", "tests"))
from glass import set_size, until  # noqa: E402

MUCH = 10_000_000
WORDS = "lamp horn tide gauge watch north light fog bell keeper".split()
TICK = os.sysconf("SC_CLK_TCK")


def text(path):
    """Lines of 2 to 13 words."""
    state, size = 1, 0
    with open(path, "w") as out:
        while size < MUCH:
            line = []
            state = state * 1103515245 + 12345 & 0x7FFFFFFF
            for _ in range(2 + (state >> 16) % 12):
                state = state * 1103515245 + 12345 & 0x7FFFFFFF
                line.append(WORDS[(state >> 16) % len(WORDS)])
            size += out.write(" ".join(line) + "\n")


def cpu(process):
    with open(f"/proc/{process}/stat") as stat:
        fields = stat.read().rsplit(")", 1)[1].split()
    return (int(fields[11]) + int(fields[12])) / TICK


class Terminal:
    """A program on a terminal of 80 x 24, all of whose bytes are read and counted."""

    def __init__(self, words, environment):
        self.count, self.last = 0, time.monotonic()
        self.process, self.terminal = pty.fork()
        if self.process == 0:
            set_size(0, 80, 24)
            os.execvpe(words[0], words, environment)
        threading.Thread(target=self.read, daemon=True).start()

    def read(self):
        try:
            while True:
                self.count += len(os.read(self.terminal, 65536))
                self.last = time.monotonic()
        except OSError:
            pass

    def still(self):
        until("nothing more comes", lambda: time.monotonic() - self.last > 0.5, 120)


def measure(folder, words, servers, environment):
    """Processor seconds of viewer and server, wall seconds, and bytes that came to the terminal."""
    done = os.path.join(folder, "done")
    if os.path.exists(done):
        os.remove(done)
    terminal = Terminal(words, environment)
    terminal.still()
    processes = [terminal.process, *servers()]
    used, count, start = sum(map(cpu, processes)), terminal.count, time.monotonic()
    os.write(terminal.terminal, b"\r")
    until("all is written", lambda: os.path.exists(done), 120)
    terminal.still()
    result = (sum(map(cpu, processes)) - used, terminal.last - start, terminal.count - count)
    os.kill(processes[-1], signal.SIGTERM)
    os.waitpid(terminal.process, 0)
    os.close(terminal.terminal)
    return result


def output(*words, environment):
    return subprocess.run(words, env=environment, capture_output=True, text=True, check=False).stdout


def children_of(process):
    with open(f"/proc/{process}/task/{process}/children") as children:
        return [int(child) for child in children.read().split()]


def contestants(program, folder):
    """For each its command line, how its server is found, and its environment."""
    job = ["sh", "-c", f"read x; cat {folder}/text; echo > {folder}/done; sleep 60"]
    base = {"PATH": os.environ["PATH"], "HOME": folder, "TERM": "xterm", "SHELL": "/bin/sh", "LC_ALL": "C"}
    own = {**base, "GLASS_DIR": folder + "/glass"}
    yield "glass", [program, *job], lambda: [int(output(program, "ls", environment=own).split()[-1])], own
    if shutil.which("tmux"):
        tmux = ["tmux", "-S", folder + "/tmux", "-f", "/dev/null"]
        yield "tmux", [*tmux, "new", *job], lambda: [
            int(output(*tmux, "display", "-p", "#{pid}", environment=base))], base
    if shutil.which("screen"):
        screen = {**base, "SCREENDIR": folder + "/screen"}
        os.makedirs(screen["SCREENDIR"], 0o700, exist_ok=True)
        yield "screen", ["screen", "-c", "/dev/null", "-S", "bench", *job], lambda: [
            int(output("screen", "-ls", environment=screen).split(".bench")[0].split()[-1])], screen


def main(program, rounds="3"):
    best = {}
    with tempfile.TemporaryDirectory(prefix="glass-bench-") as folder:
        text(folder + "/text")
        for _ in range(int(rounds)):
            for name, words, servers, environment in contestants(os.path.abspath(program), folder):
                result = measure(folder, words, servers, environment)
                best[name] = min(best.get(name, result), result)
                time.sleep(0.3)
    print("| | CPU s | ratio | wall s | bytes to the terminal |\n|---|---|---|---|---|")
    for name, (used, wall, count) in best.items():
        print(f"| {name} | {used:.2f} | {used / best['glass'][0]:.2f} | {wall:.2f} | {count:,} |")


if __name__ == "__main__":
    main(*sys.argv[1:])
