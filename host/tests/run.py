"""Tests glass from end to end: python3 run.py GLASS SHOW_SCREEN [NAME ...]. Each test has a time limit."""
import importlib
import os
import signal
import sys
import time
import traceback

from glass import Failed, Place

TIME = 60
PARTS = ("test_commands", "test_looking", "test_screen", "test_flow", "test_night")


def too_long(_number, _frame):
    raise Failed(f"took more than {TIME} s")


def tests(names):
    for part in PARTS:
        for name, test in vars(importlib.import_module(part)).items():
            if name.startswith("test_") and callable(test) and (not names or name in names):
                yield name, test


def run(test, program, show):
    place = Place(program, show)
    good = True
    for step in (lambda: test(place), place.end):
        signal.alarm(TIME)
        try:
            step()
        except Exception:  # whatever it is, the other tests run
            traceback.print_exc(file=sys.stdout)
            good = False
    signal.alarm(0)
    return good


# On a busy machine a process may miss its time; a fault fails again.
def again(name, test, program, show):
    print(f"failed, tried again: {name}", flush=True)
    return run(test, program, show)


def main(program, show, *names):
    signal.signal(signal.SIGALRM, too_long)
    passed = failed = 0
    for name, test in tests(names):
        start = time.monotonic()
        good = run(test, program, show) or again(name, test, program, show)
        print(f"{'ok' if good else 'FAILED'} {name} ({time.monotonic() - start:.1f} s)", flush=True)
        passed, failed = passed + good, failed + (not good)
    print(f"host: {passed} passed, {failed} failed")
    return 1 if failed or not passed else 0


if __name__ == "__main__":
    os.environ.pop("GLASS", None)
    sys.exit(main(*sys.argv[1:]))
