"""The whole way: what a program writes is on the screen as show_screen has it, in its place above the last row."""
import random
import signal
import subprocess

from glass import Failed

WORDS = (b"lamp", b"horn", b"tide gauge", b"\r\n", b"\r\n", b"\t", b"\b", b"\r", b"\n", b"\xe9", b"\177", b"\a")
SEQUENCES = "[%d;%dH [%dA [%dB [%dC [%dD [%dG [%dd [%dJ [%dK [%dL [%dM [%d@ [%dP [%dX [%dS [%dT [%d;%dr [%dm [%d;%dm " \
            "[?7l [?7h [?6h [?6l [4h [4l [?25l [?25h 7 8 D E M [s [u ]title\a (B"


def something(source):
    """A word, or a sequence with small numbers."""
    if source.random() < 0.6:
        return source.choice(WORDS)
    sequence = source.choice(SEQUENCES.split())
    while "%d" in sequence:
        sequence = sequence.replace("%d", str(source.choice((0, 1, 2, 3, 5, 7, 12, 31, 44, 60))), 1)
    return b"\033" + sequence.encode()


def alone(place, columns, rows, written):
    """The screen of a terminal of its own, row by row, and its cursor."""
    shown = subprocess.run([place.show, str(columns), str(rows)], input=written, capture_output=True, check=True)
    return shown.stdout.decode("latin-1").splitlines()


def compare(place, viewer, written):
    """Above the last row the screen is the program's, and so is the cursor; the last row is glass's own."""
    columns, rows = viewer.size
    *wanted, cursor = alone(place, columns, rows - 1, written)
    last = " 0*"[:columns].rstrip()
    viewer.shows_screen("\n".join([*wanted, last, cursor]) + "\n")


def play(place, seed, size, length):
    source = random.Random(seed)
    written = b"".join(something(source) for _ in range(length))
    with open(place.file(f"bytes-{seed}"), "wb") as out:
        out.write(written)
    session = f"play-{seed}"
    viewer = place.look("sh", "-c", f"stty raw -echo; cat {place.file(f'bytes-{seed}')}; sleep 60", size=size,
                        session=session)
    try:
        compare(place, viewer, written)
        viewer.break_off(signal.SIGKILL)
        again = place.look(size=size, session=session)
        compare(place, again, written)
    except Failed as failed:
        raise Failed(f"seed {seed}, {size}: {failed}") from None


def test_the_screen_is_what_the_program_wrote(place):
    for seed, size in enumerate(((80, 24), (200, 60), (1, 2), (3, 3), (40, 9), (132, 43))):
        for length in (20, 3000):
            play(place, 10 * length + seed, size, length)
