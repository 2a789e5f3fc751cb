"""The command line: help, the list, errors, and ends."""
import os
import signal
import socket
import termios

from glass import Failed, until


def check(condition, what):
    if not condition:
        raise Failed(what)


def refused(result, text, status):
    """A clear error, the status, and nothing on standard output."""
    check(result.returncode == status, f"status {result.returncode}, not {status}: {result.stderr}")
    check(text in result.stderr and result.stderr.startswith("glass: "), f"not said: {text}\n{result.stderr}")
    check(result.stdout == "", result.stdout)


def refused_viewer(viewer, text, status=1):
    """The same of a viewer, whose terminal was not touched."""
    check(viewer.wait() == status, f"status {viewer.status}, not {status}")
    check(text in viewer.written.decode("latin-1"), f"not said: {text}\n{viewer.written!r}")
    check(b"\033" not in viewer.written, "the screen was touched")


def test_help(place):
    result = place.run("--help")
    check(result.returncode == 0 and result.stdout.startswith("usage: glass"), "help")
    result = place.run("--version")
    check(result.returncode == 0 and result.stdout.startswith("glass "), "version")
    refused(place.run("--nonsense"), "no such option", 2)
    refused(place.run("--session"), "a name must follow", 2)


def test_bad_names(place):
    for name in ("", "a/b", "..", "x" * 33, "-x", "a b", "caf\u00e9", "a\nb"):
        refused(place.run("--session", name, "true"), "a session's name is", 2)
        refused(place.run(f"--session={name}", "true"), "a session's name is", 2)
    check(not os.path.exists(place.folder), "a folder was made for a bad name")


def test_no_terminal(place):
    refused(place.run("true"), "must be a terminal", 1)


def test_bad_folder(place):
    os.mkdir(place.folder, 0o755)
    os.chmod(place.folder, 0o755)
    refused(place.run("ls"), "open to others", 1)
    refused_viewer(place.look("true"), "open to others")
    os.rmdir(place.folder)
    os.mkdir(place.file("other"), 0o700)
    os.symlink(place.file("other"), place.folder)
    refused_viewer(place.look("true"), "is not a folder")
    os.remove(place.folder)
    with open(place.folder, "w"):
        pass
    refused_viewer(place.look("true"), "is not a folder")
    os.remove(place.folder)
    refused(place.run("ls", environment=place.environment(GLASS_DIR=place.file("a/b"))), "cannot make", 1)
    refused(place.run("ls", environment=place.environment(GLASS_DIR="/" + "x" * 300)), "too long", 1)
    refused_viewer(place.look("true", environment=place.environment(GLASS_DIR=place.file("y" * 100))), "File name too long")
    if os.getuid() == 0:
        os.mkdir(place.folder, 0o700)
        os.chown(place.folder, 12345, -1)
        refused(place.run("ls"), "belongs to another user", 1)
        os.rmdir(place.folder)


def test_no_such_command(place):
    refused_viewer(place.look("/no/such/command", environment=place.environment(leaks=True)), "cannot run /no/such/command: No such file or directory")
    refused_viewer(place.look("no-such-command"), "cannot run no-such-command")
    refused_viewer(place.look("/etc/passwd"), "Permission denied")
    until("no session is left", lambda: not place.sessions())
    check(os.listdir(place.folder) == [".lock"], "a socket was left")


def test_folder_and_socket_are_closed_to_others(place):
    place.look("cat").type(b"")
    until("the session", lambda: "main" in place.sessions())
    check(os.stat(place.folder).st_mode & 0o777 == 0o700, "the folder's mode")
    check(os.stat(os.path.join(place.folder, "main")).st_mode & 0o77 == 0, "the socket's mode")


def heard_by_another_user(path):
    """What another user gets who asks how the session is; none is b""."""
    reading, writing = os.pipe()
    child = os.fork()
    if child == 0:
        os.setgid(12345)
        os.setuid(12345)
        with socket.socket(socket.AF_UNIX) as line:
            line.settimeout(2)
            try:
                line.connect(path)
                line.sendall(b"Q\0\0\0\0")
                os.write(writing, b"connected " + line.recv(100))
            except ConnectionError:
                os.write(writing, b"connected ")
            finally:
                os._exit(0)
    os.waitpid(child, 0)
    os.close(writing)
    with os.fdopen(reading, "rb") as said:
        return said.read()


def test_another_user_is_not_served(place):
    """Even if the folder were opened to others while the session runs."""
    if os.getuid() != 0:
        return
    place.look("cat").ready()
    path = os.path.join(place.folder, "main")
    check(heard_by_another_user(path) == b"", "the folder can be entered")
    os.chmod(place.work.name, 0o755)
    os.chmod(place.folder, 0o755)
    os.chmod(path, 0o777)
    check(heard_by_another_user(path) == b"connected ", "another user was served")
    os.chmod(place.folder, 0o700)


def test_list(place):
    check(place.run("ls").stdout == "", "no sessions")
    one = place.look("cat", session="one", size=(70, 20))
    place.look("cat", session="two", size=(60, 19)).type(b"ahoy")
    until("both", lambda: {name for name, state in place.sessions().items() if state["looked"]} == {"one", "two"})
    check(place.sessions()["one"]["size"] == "70x20", "the size")
    one.break_off(signal.SIGKILL)
    until("one is not looked at", lambda: not place.sessions()["one"]["looked"])
    check(place.sessions()["two"]["looked"], "two is looked at")


def test_over(place):
    viewer = place.look("sh", "-c", "read x; echo last; exit 3", environment=place.environment(leaks=True))
    viewer.type(b"\r")
    check(viewer.wait() == 0, f"status {viewer.status}")
    check(b"[glass: session main is over]" in viewer.written, "not said")
    check(os.listdir(place.folder) == [".lock"], "the socket was left")


def test_terminal_is_restored(place):
    viewer = place.look("sh", "-c", "read x")
    before = termios.tcgetattr(viewer.terminal)
    viewer.ready()
    raw = termios.tcgetattr(viewer.terminal)
    check(not raw[3] & (termios.ECHO | termios.ICANON | termios.ISIG), "the terminal is not raw")
    slave = os.open(f"/proc/{viewer.process}/fd/0", os.O_RDWR | os.O_NOCTTY)
    viewer.type(b"\r")
    viewer.wait()
    check(termios.tcgetattr(slave)[:4] == before[:4], "the terminal was not restored")
    os.close(slave)


def test_short_command(place):
    for _ in range(10):
        viewer = place.look("true", environment=place.environment(leaks=True))
        check(viewer.wait() == 0 and b"session main is over" in viewer.written, f"{viewer.status} {viewer.written!r}")


def test_inside_itself(place):
    viewer = place.look("sh")
    viewer.shows("$")
    viewer.type(f"{place.program} && echo not refused; {place.program} ls; echo $GLASS.\r".encode())
    screen = viewer.shows("main.\n")
    check("inside session main" in screen and "not refused" not in screen.replace("echo not refused", ""), screen)


def test_server_signal(place):
    viewer = place.look("cat")
    viewer.ready()
    os.kill(place.server(), signal.SIGTERM)
    check(viewer.wait() == 1 and b"ended by a signal" in viewer.written, f"{viewer.status} {viewer.written!r}")
    until("the session is gone", lambda: not place.sessions())


def test_server_killed(place):
    viewer = place.look("cat")
    viewer.ready()
    os.kill(place.server(), signal.SIGKILL)
    check(viewer.wait() == 1 and b"line to the session broke" in viewer.written, f"{viewer.status} {viewer.written!r}")
    check(os.path.exists(os.path.join(place.folder, "main")), "the dead socket")
    place.look("sh", "-c", "echo anew; cat").shows("anew")


def test_begun_twice_at_once(place):
    first = [place.look("sh", "-c", "echo begun >> " + place.file("log") + "; cat") for _ in range(6)]
    until("one of them looks", lambda: sum(was_let_go(viewer) for viewer in first) == len(first) - 1)
    with open(place.file("log")) as log:
        check(log.read() == "begun\n", "begun more than once")


def was_let_go(viewer):
    while viewer.read(0):
        pass
    return b"somebody else looks" in viewer.written
