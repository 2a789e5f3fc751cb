"""Looking, breaks of the line, sizes: the screen afterwards is the one before."""
import os
import shutil
import signal

from glass import until
from test_commands import check

BREAKS = (signal.SIGKILL, signal.SIGHUP, "closed", signal.SIGTERM)


def looked_again(place, viewer, way, size=None):
    """The line breaks, and somebody looks again: the same screen must be there if the size is the same."""
    before = viewer.still()
    viewer.break_off(way)
    viewer.end()
    again = place.look(size=size or viewer.size)
    if size in (None, viewer.size):
        again.shows_screen(before)
    return again


def test_cat(place):
    viewer = place.look("cat")
    viewer.type(b"ahoy\r")
    viewer.until(lambda screen: screen.startswith("ahoy\nahoy\n"), "ahoy, twice")
    for way in BREAKS:
        viewer = looked_again(place, viewer, way)
    viewer.type(b"again\r")
    viewer.until(lambda screen: screen.startswith("ahoy\nahoy\nagain\nagain\n"), "again, twice")


def test_environment(place):
    viewer = place.look("sh", size=(100, 30), session="lamp-1")
    viewer.type(b"echo $TERM.$LC_ALL.$GLASS.$COLUMNS.; stty size\r")
    viewer.shows("glass.C.lamp-1..\n29 100\n")
    viewer.type(b"test -d $TERMINFO && infocmp glass | head -c 300; tput cols; tput longname\r")
    viewer.shows("100\npane of the glass")


def test_another_size(place):
    viewer = place.look("sh")
    viewer.shows("$")
    viewer.type(b"echo ahoy\r")
    viewer.shows("\nahoy\n$")
    viewer.break_off(signal.SIGKILL)
    viewer = place.look(size=(50, 10))
    viewer.shows("\nahoy\n$")
    viewer.type(b"stty size\r")
    viewer.shows("\n9 50\n")
    viewer.resize(120, 40)
    viewer.type(b"stty size\r")
    viewer.shows("\n39 120\n")
    check(viewer.written.count(b"\033[2J") >= 2, "the screen was not made fresh for the new size")


def test_odd_sizes(place):
    viewer = place.look("sh", size=(300, 100))
    viewer.size = (200, 60)
    viewer.type(b"stty size\r")
    viewer.shows("59 200\n")
    for size in ((1, 1), (1, 2), (2, 2), (200, 60), (201, 61), (80, 24)):
        viewer.resize(*size)
        until("looked at", lambda: not viewer.read(0.1))
    viewer.type(b"clear; stty size\r")
    viewer.shows("23 80\n")


def test_many_sizes_in_a_row(place):
    viewer = place.look("sh")
    viewer.shows("$")
    for step in range(100):
        viewer.resize(40 + step % 37, 10 + step % 13)
        viewer.read(0)
    viewer.resize(77, 22)
    viewer.type(b"clear; stty size\r")
    viewer.shows("21 77\n")


def test_a_new_size_before_the_last_is_shown(place):
    viewer = place.look("sh")
    viewer.shows("$")
    process = place.server()
    os.kill(process, signal.SIGSTOP)
    for size in ((50, 10), (60, 12), (70, 14)):
        viewer.resize(*size)
        viewer.read(0.1)
    os.kill(process, signal.SIGCONT)
    viewer.type(b"clear; stty size\r")
    viewer.shows("13 70\n")


def edited(place, *editor):
    with open(place.file("text"), "w") as text:
        text.writelines(f"line {number} of the tide gauge\n" for number in range(1, 200))
    viewer = place.look(*editor, place.file("text"))
    viewer.shows("line 20 of")
    return viewer


def test_vi(place):
    if not shutil.which("vi"):
        return
    viewer = edited(place, "vi", "-u", "NONE")
    viewer.type(b"5Gohigh water\033")
    viewer.shows("high water")
    viewer = looked_again(place, viewer, signal.SIGKILL)
    small = looked_again(place, viewer, signal.SIGHUP, size=(60, 16))
    small.shows("high water")
    viewer = looked_again(place, small, "closed", size=(80, 24))
    viewer.shows("line 20 of")
    viewer.type(b":wq\r")
    check(viewer.wait() == 0, "vi ended")
    with open(place.file("text")) as text:
        check(text.read().splitlines()[5] == "high water", "vi wrote the file")


def test_less(place):
    if not shutil.which("less"):
        return
    viewer = edited(place, "less")
    viewer.type(b"  ")
    viewer.shows("line 60 of")
    viewer = looked_again(place, viewer, signal.SIGKILL)
    viewer.type(b"q")
    check(viewer.wait() == 0, "less ended")


def test_a_hundred_breaks(place):
    viewer = place.look("sh", "-c", "printf 'one\\r\\n\\033[7mtwo\\033[m three'; cat")
    wanted = viewer.shows("three")
    process = place.server()
    for number in range(100):
        viewer.break_off(BREAKS[number % len(BREAKS)])
        viewer.end()
        viewer = place.look()
        viewer.shows_screen(wanted)
    check(place.server() == process, "another server")
    until("the files of those who left are closed", lambda: len(os.listdir(f"/proc/{process}/fd")) < 12)


def test_taken_over(place):
    first = place.look("cat")
    first.type(b"ahoy\r")
    wanted = first.until(lambda screen: screen.startswith("ahoy\nahoy\n"), "ahoy")
    second = place.look()
    second.shows_screen(wanted)
    check(first.wait() == 0 and b"somebody else looks" in first.written, f"{first.status} {first.written!r}")
    second.type(b"mine\r")
    second.shows("mine\nmine\n")


def test_keys_before_a_break_arrive(place):
    viewer = place.look("cat")
    viewer.ready()
    viewer.type(b"last words\r")
    viewer.read(0.3)
    viewer.break_off(signal.SIGKILL)
    place.look().shows("last words\nlast words\n")


def test_prefix_twice(place):
    viewer = place.look("cat", "-v")
    viewer.ready()
    viewer.type(b"a\001\001b\r")
    viewer.shows("a^Ab\na^Ab\n")


def test_leave(place):
    viewer = place.look("cat", "-v")
    viewer.type(b"ahoy\r")
    wanted = viewer.until(lambda screen: screen.startswith("ahoy\nahoy\n"), "ahoy, twice")
    viewer.type(b"\001d")
    check(viewer.wait() == 0 and b"[glass: left session main]" in viewer.written, f"{viewer.status} {viewer.written!r}")
    check(not place.sessions()["main"]["looked"], "nobody looks")
    place.look().shows_screen(wanted)


def test_a_break_after_the_prefix(place):
    """Neither the prefix nor how the machine is told of the break comes to the program, and none is left for the next."""
    viewer = place.look("cat", "-v")
    viewer.ready()
    for way in BREAKS:
        viewer.type(b"\001")
        viewer.read(0.3)
        viewer.break_off(way)
        viewer = place.look()
        viewer.ready()
    viewer.type(b"d\r")
    viewer.until(lambda screen: screen.startswith("d\nd\n"), "d, twice")


def test_viewer_stopped_and_continued(place):
    viewer = place.look("cat")
    viewer.type(b"ahoy\r")
    wanted = viewer.until(lambda screen: screen.startswith("ahoy\nahoy\n"), "ahoy")
    count = viewer.written.count(b"\033[2J")
    os.kill(viewer.process, signal.SIGSTOP)
    os.kill(viewer.process, signal.SIGCONT)
    until("fresh again", lambda: viewer.read() and viewer.written.count(b"\033[2J") > count)
    viewer.shows_screen(wanted)
