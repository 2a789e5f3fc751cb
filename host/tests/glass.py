"""Drives glass on pseudo-terminals: viewers of any size, their screens as show_screen writes them out, and servers."""
import fcntl
import os
import pty
import re
import select
import signal
import struct
import subprocess
import tempfile
import termios
import time

FRESH = b"\033[m\017\033(B\033[4;20l"  # how the fresh screen begins
PATIENCE = 10.0


class Failed(Exception):
    pass


def until(what, condition, patience=PATIENCE, pause=0.01):
    """Waits for the condition, and gives its value."""
    end = time.monotonic() + patience
    while True:
        value = condition()
        if value:
            return value
        if time.monotonic() > end:
            raise Failed(f"did not come within {patience} s: {what}")
        time.sleep(pause)


def set_size(terminal, columns, rows):
    fcntl.ioctl(terminal, termios.TIOCSWINSZ, struct.pack("HHHH", rows, columns, 0, 0))


class Place:
    """A socket folder of its own, with the programs that are tested."""

    def __init__(self, program, show):
        self.program = os.path.abspath(program)
        self.show = os.path.abspath(show)
        self.work = tempfile.TemporaryDirectory(prefix="glass-test-")
        self.folder = os.path.join(self.work.name, "sockets")
        self.viewers = []

    def environment(self, leaks=False, **more):
        """What glass finds. Leaks are looked for at the end of a program, and only where that is asked for: a program that
        is ended from outside while it looks may hang."""
        kept = {name: os.environ[name] for name in ("PATH", "HOME") if name in os.environ}
        checks = f"log_path={self.file('checks')}:detect_leaks={int(leaks)}"
        return {**kept, "ASAN_OPTIONS": checks, "UBSAN_OPTIONS": checks, "GLASS_DIR": self.folder, "SHELL": "/bin/sh",
                "TERM": "xterm", "PS1": "$ ", **more}

    def file(self, name):
        return os.path.join(self.work.name, name)

    def look(self, *words, size=(80, 24), session="main", environment=None):
        viewer = Viewer(self, ["--session", session, *words], size, environment or self.environment())
        self.viewers.append(viewer)
        return viewer

    def run(self, *words, environment=None):
        """glass without a terminal."""
        return subprocess.run([self.program, *words], env=environment or self.environment(), timeout=PATIENCE,
                              stdin=subprocess.DEVNULL, capture_output=True, text=True)

    def sessions(self):
        """What glass ls says: for each name whether somebody looks, and the server's process."""
        found = {}
        for line in self.run("ls").stdout.splitlines():
            name, size, looked, process = re.fullmatch(r"(\S+): (\S+), (.*), process (\d+)", line).groups()
            found[name] = {"size": size, "looked": looked == "looked at", "process": int(process)}
        return found

    def server(self, session="main"):
        return until("the session", lambda: self.sessions().get(session))["process"]

    def end(self):
        for viewer in self.viewers:
            viewer.end()
        if os.path.isdir(self.folder) and os.stat(self.folder).st_mode & 0o77 == 0:
            for session in self.sessions().values():
                os.kill(session["process"], signal.SIGTERM)
            until("servers end", lambda: not self.sessions())
        found = self.found()
        self.work.cleanup()
        if found:
            raise Failed(f"found by the compiler's checks:\n{found}")

    def found(self):
        """What a program that was built with the compiler's checks has found; not that it was killed while it looked."""
        said = []
        for name in os.listdir(self.work.name):
            if name.startswith("checks."):
                with open(self.file(name)) as checks:
                    said.append(checks.read())
        return "".join(text for text in said if "ERROR: " in text or "runtime error: " in text)


class Viewer:
    """glass on a pseudo-terminal of its own. All that it writes is kept."""

    def __init__(self, place, words, size, environment):
        self.place = place
        self.size = size
        self.written = bytearray()
        self.open = True
        self.process, self.terminal = pty.fork()
        if self.process == 0:
            set_size(0, *size)
            os.execve(place.program, [place.program, *words], environment)
        set_size(self.terminal, *size)
        self.status = None

    def read(self, patience=0.02, most=65536):
        """What has come by then. False when there is nothing."""
        if not self.open or not select.select([self.terminal], [], [], patience)[0]:
            return False
        try:
            came = os.read(self.terminal, most)
        except OSError:
            came = b""
        self.written += came
        self.open = came != b""
        return self.open

    def type(self, keys):
        """Types all the keys, and reads meanwhile."""
        while keys:
            readable, writable, _ = select.select([self.terminal], [self.terminal], [], PATIENCE)
            if readable:
                self.read()
            if writable:
                keys = keys[os.write(self.terminal, keys[:512]):]

    def screen(self):
        """The screen since it was last made fresh, written out; none if it never was."""
        start = self.written.rfind(FRESH)
        if start < 0:
            return ""
        columns, rows = (str(number) for number in self.size)
        return subprocess.run([self.place.show, columns, rows], input=self.written[start:], capture_output=True,
                              timeout=PATIENCE, check=True).stdout.decode("latin-1")

    def until(self, condition, what, patience=PATIENCE):
        """Waits until the screen fulfils the condition, and gives it."""
        end = time.monotonic() + patience
        while True:
            pause = time.monotonic() + 1
            while self.read(0.02) and time.monotonic() < pause:
                pass
            screen = self.screen()
            if condition(screen):
                return screen
            if time.monotonic() > end or not self.open:
                raise Failed(f"not on the screen: {what}\n{screen}{bytes(self.written[-200:])!r}")
            select.select([self.terminal], [], [], 0.2)

    def shows(self, text, patience=PATIENCE):
        return self.until(lambda screen: text in screen, text, patience)

    def shows_screen(self, wanted, patience=PATIENCE):
        return self.until(lambda screen: screen == wanted, wanted, patience)

    def ready(self):
        """Waits until the session is shown: from then on keys go to it as they are."""
        return self.shows(" 0*")

    def still(self, quiet=0.2):
        """The screen once nothing more comes."""
        while self.read(quiet):
            pass
        return self.screen()

    def resize(self, columns, rows):
        self.size = (columns, rows)
        set_size(self.terminal, columns, rows)

    def wait(self, patience=PATIENCE):
        """Reads until the viewer ends. Its status, or minus the signal."""
        def ended():
            self.read(0)
            process, status = os.waitpid(self.process, os.WNOHANG)
            if process:
                self.status = os.waitstatus_to_exitcode(status)
            return process
        if self.status is None:
            until("the viewer's end", ended, patience)
            while self.read(0):
                pass
        return self.status

    def break_off(self, way):
        """The line breaks: by a signal, or as the terminal goes."""
        if way == "closed":
            os.close(self.terminal)
            self.open = False
            self.terminal = -1
        else:
            os.kill(self.process, way)
        self.wait()

    def end(self):
        if self.status is None:
            os.kill(self.process, signal.SIGKILL)
            self.wait()
        if self.terminal >= 0:
            os.close(self.terminal)
            self.terminal = -1
