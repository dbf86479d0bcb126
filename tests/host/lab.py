"""What the tests of the host share: building it, and what a text of bookings must come to, worked out one by one."""
import pathlib
import subprocess
import sys

ROOT = pathlib.Path(__file__).resolve().parent.parent.parent
RECORDS = 512
HIGHEST = 2**64 - 1
FLAGS = "-std=c++17 -O1 -Wall -Wextra -Wpedantic -Wconversion -Wshadow -Werror".split()


def build(prefix, folder):
    """Builds the host, the checker and what notes its fsyncs into a folder. Ends the program where that fails."""
    prefix = pathlib.Path(prefix).resolve()
    tests = ROOT / "tests/host"
    core = [f"-L{prefix}/lib", "-lmaruvoog"]
    for name, files, links in [
        ("host", sorted((ROOT / "examples/host").glob("*.cpp")), core),
        ("check", [tests / "check.cpp"], core),
        ("synced.so", [tests / "synced.cpp"], ["-shared", "-fPIC", "-ldl"]),
    ]:
        command = ["g++", *FLAGS, f"-I{prefix}/include", *map(str, files), *links, "-o", f"{folder}/{name}"]
        if subprocess.run(command).returncode != 0:
            sys.exit(f"{name} could not be built with the library in {prefix}")


def run(command, stdin=None, **more):
    """Runs a program to its end; gives status, output and errors as text."""
    done = subprocess.run(command, input=stdin, capture_output=True, text=True, **more)
    return done.returncode, done.stdout, done.stderr


def changes(booking):
    """The booking's changes: tube, kind, volume."""
    verb, *numbers = booking.split()
    numbers = [int(n) for n in numbers]
    if verb == "move":
        return [(numbers[0], "load", numbers[2]), (numbers[1], "fill", numbers[2])]
    return [(numbers[0], verb, numbers[1])]


def carry_out(bookings, tubes, records):
    """One booking after the other: gives for each its answer and what the tubes hold after it."""
    outcomes, full = [], False
    for booking in bookings:
        after, answer = dict(tubes), None
        for tube, kind, volume in changes(booking):
            held = after.get(tube, 0)
            after[tube] = {"fill": held + volume, "load": held - volume, "measure": volume}[kind]
            if not 0 <= after[tube] <= HIGHEST:
                answer = f"refused: tube {tube} holds {held}"
                break
        full = full or answer is None and records == RECORDS
        if full:
            answer = "log full"
        elif answer is None:
            records += 1
            answer, tubes = f"committed {records}", after
        outcomes.append((answer, tubes))
    return outcomes


def shown(tubes):
    """What `host FOLDER show` prints for tubes with these volumes."""
    return "".join(f"tube {tube} holds {tubes[tube]}\n" for tube in sorted(tubes) if tubes[tube] != 0)
