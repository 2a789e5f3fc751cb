"""Much of everything: nothing is lost, nothing grows, nobody waits for somebody slow."""
import os
import random
import select
import signal
import socket
import time
import zlib

from glass import until
from test_commands import check

MUCH = 10_000_000
MEMORY = 24_000  # KiB that a server may have used; one that is checked by the compiler has much more
MEMORY_CHECKED = 400_000


def most_memory(process):
    with open(f"/proc/{process}/status") as status:
        return next(int(line.split()[1]) for line in status if line.startswith("VmHWM"))


def check_memory(place, process):
    most = MEMORY_CHECKED if "checked" in place.program else MEMORY
    used = most_memory(process)
    check(used < most, f"the server has used {used} KiB")


def lines_program(place):
    """A program that writes 10 MB in numbered lines once it gets a line, and then a mark."""
    return ("sh", "-c", f"read x; yes 'lamps, horns and tide gauges' | head -c {MUCH} | cat -n; "
            f"echo; echo the mark; echo done > {place.file('done')}; cat")


def written(place):
    return os.path.exists(place.file("done"))


def test_ten_megabytes_while_nobody_looks(place):
    viewer = place.look(*lines_program(place))
    viewer.ready()
    process = place.server()
    viewer.type(b"\r")
    viewer.shows("lamps")
    viewer.break_off(signal.SIGKILL)
    until("all is written", lambda: written(place), 40)
    again = place.look(size=(90, 30))
    screen = again.shows("the mark")
    last = -(-MUCH // len("lamps, horns and tide gauges\n"))
    check(f"{last}\t"[:-1] in screen and f"{last - 1}" in screen, screen)
    check_memory(place, process)


def test_ten_megabytes_while_somebody_looks(place):
    viewer = place.look(*lines_program(place))
    viewer.ready()
    viewer.type(b"\r")
    viewer.shows("the mark", 50)
    check_memory(place, place.server())


def test_a_viewer_that_reads_a_byte_a_second(place):
    viewer = place.look(*lines_program(place))
    viewer.ready()
    process = place.server()
    viewer.type(b"\r")
    for _ in range(4):
        time.sleep(1)
        viewer.read(0, 1)
        check(place.sessions()["main"]["looked"], "the server does not answer")
    check(not written(place), "the program did not wait for the viewer")
    check_memory(place, process)
    other = place.look(size=(70, 20))
    other.shows("the mark", 40)
    check_memory(place, process)


def test_interrupt_with_a_slow_viewer(place):
    viewer = place.look("sh", "-c", f"trap 'echo > {place.file('done')}; exit' INT; while :; do seq 1000; done")
    until("it writes", lambda: viewer.read() and len(viewer.written) > 2000)
    time.sleep(1)
    os.write(viewer.terminal, b"\003")
    until("the program is interrupted", lambda: written(place))


def test_keys_to_a_program_that_does_not_read(place):
    count = 400_000
    source = random.Random(1)
    keys = bytes(source.choice(b"abcdefghijklmnopqrstuvwxyz \n") for _ in range(count))
    with open(place.file("reader"), "w") as reader:
        reader.write("import os, sys, time, zlib\nsum = n = 0\nprint('ready', flush=True)\ntime.sleep(2)\n"
                     f"while n < {count}:\n got = os.read(0, 65536)\n n += len(got)\n sum = zlib.crc32(got, sum)\n"
                     "print('sum', sum, 'end', flush=True)\nos.read(0, 1)\n")
    viewer = place.look("sh", "-c", f"stty raw -echo; exec python3 {place.file('reader')}")
    viewer.shows("ready")
    viewer.type(keys[:100_000])
    check(place.sessions()["main"]["looked"], "the server does not answer")
    check_memory(place, place.server())
    viewer.type(keys[100_000:])
    viewer.shows(f"sum {zlib.crc32(keys)} end", 30)


def test_reports_to_a_program_that_does_not_read(place):
    viewer = place.look("sh", "-c", "stty raw -echo; while :; do printf '\\033[6n\\033[6n\\033[6n\\033[6n'; done | cat -u")
    process = place.server()
    time.sleep(1)
    check(place.sessions()["main"]["looked"], "the server does not answer")
    check_memory(place, process)
    viewer.break_off(signal.SIGKILL)
    place.look().still()


def test_reports(place):
    viewer = place.look("sh", "-c", "stty raw -echo; printf 'ahoy\\033[6n'; head -c 6 | od -An -tx1; cat")
    viewer.shows("1b 5b 31 3b 35 52")


def test_a_program_whose_child_keeps_the_terminal(place):
    viewer = place.look("sh", "-c", "trap '' HUP; (sleep 5; echo late) & echo first; read x")
    viewer.shows("first")
    viewer.type(b"\r")
    check(viewer.wait(4) == 0, "the session is over with its program")


def test_a_program_that_opens_its_terminal_again(place):
    viewer = place.look("sh", "-c", "exec < /dev/null > /dev/null 2>&1; sleep 1; echo back > /dev/tty; sleep 20")
    process = place.server()
    before = cpu(process)
    viewer.shows("back", 5)
    check(cpu(process) - before <= 5, "time was used while the terminal was closed")


def test_last_words(place):
    """All that a program wrote before its end comes before the end."""
    for _ in range(5):
        viewer = place.look("sh", "-c", "seq 20000 | tail -c 50000; printf 'last words'")
        check(viewer.wait() == 0 and "last words\n" in viewer.screen(), viewer.screen())


def test_junk_on_the_socket(place):
    viewer = place.look("cat")
    viewer.type(b"ahoy\r")
    viewer.until(lambda screen: screen.startswith("ahoy\nahoy\n"), "ahoy")
    source = random.Random(2)
    for junk in (b"", b"L", b"L\0\0\0\0", b"K\0\0\0\1x", b"K\377\377\377\377", b"W\0\0\0\3abc",
                 bytes(source.randrange(256) for _ in range(10000))):
        with socket.socket(socket.AF_UNIX) as line:
            line.connect(os.path.join(place.folder, "main"))
            line.settimeout(2)
            try:
                line.sendall(junk)
                line.shutdown(socket.SHUT_WR)
                while line.recv(4096):
                    pass
            except OSError:
                pass
    idle = [socket.socket(socket.AF_UNIX) for _ in range(20)]
    for line in idle:
        line.connect(os.path.join(place.folder, "main"))
    viewer.type(b"still\r")
    viewer.shows("still\nstill\n")
    for line in idle:
        line.close()


def test_no_time_is_burnt(place):
    """While nothing comes the server and the viewer sleep."""
    viewer = place.look("cat")
    viewer.ready()
    before = cpu(place.server()) + cpu(viewer.process)
    select.select([], [], [], 1)
    check(cpu(place.server()) + cpu(viewer.process) - before <= 3, "time was used")


def cpu(process):
    with open(f"/proc/{process}/stat") as stat:
        fields = stat.read().rsplit(")", 1)[1].split()
    return int(fields[11]) + int(fields[12])
