"""A wild night: viewers come, go, break off and change their size, keys are typed, and a program writes all the while."""
import os
import random
import signal

from glass import PATIENCE, until
from test_commands import check

WAYS = (signal.SIGKILL, signal.SIGHUP, signal.SIGTERM, "closed")
STEPS = 300
PROGRAM = """stty -echo
read x
while [ ! -e "$1" ]; do seq 300; printf '\\033[6n\\033[3;5Hab\\033[31mc\\033[m\\n'; done
echo the end
sleep 60
"""


def any_size(source):
    return source.randrange(1, 210), source.randrange(1, 65)


def type_some(source, viewer):
    try:
        os.write(viewer.terminal, bytes(source.choice(b"abc\r\001x") for _ in range(source.randrange(1, 200))))
    except OSError:
        pass  # it has ended meanwhile


def one_step(place, source, viewer):
    """What happens next. The viewer that looks then."""
    chance = source.random()
    if chance < 0.15:
        return place.look(size=any_size(source))
    if chance < 0.3 and viewer.status is None:
        viewer.break_off(source.choice(WAYS))
        viewer.end()
        return place.look(size=any_size(source))
    if chance < 0.6:
        viewer.resize(*any_size(source))
    elif chance < 0.8:
        type_some(source, viewer)
    viewer.read(0.01)
    return viewer


def test_a_wild_night(place):
    source = random.Random(900)
    viewer = place.look("sh", "-c", PROGRAM, "sh", place.file("stop"))
    viewer.ready()
    process = place.server()
    viewer.type(b"\r")
    until("it writes", lambda: viewer.read() and len(viewer.written) > 3000)
    for _ in range(STEPS):
        viewer = one_step(place, source, viewer)
    for earlier in place.viewers:
        earlier.end()
    last = place.look()
    last.ready()
    with open(place.file("stop"), "w"):
        pass
    last.shows("the end", 2 * PATIENCE)
    wanted = last.still()
    last.break_off(signal.SIGKILL)
    place.look().shows_screen(wanted)
    check(place.server() == process, "another server")
    until("the files of those who left are closed", lambda: len(os.listdir(f"/proc/{process}/fd")) < 12)
