#!/usr/bin/env python3
"""Runs the cases of "On both sides of each edge" that are not marked, the ends of the numbers, every answer number and
every cause of a bad frame through a stepping program, and holds its answers against those that the scope paper fixes.
usage: edges.py PROGRAM
"""
import subprocess
import sys

START, READ, WRITE, PREPARE, SAVE, COMMIT, ABORT, SETTLE, CRASH, RESTART, STATUS, LOOK = range(1, 13)
ANY = None  # an answer that the case does not fix


def frame(kind, txn=0, obj=0, value=0):
    return f"{kind:02x}{txn:08x}{obj:02x}{value:016x}\n".encode()


def start():
    return frame(START)


def read(x, o):
    return frame(READ, x, o)


def write(x, o, v):
    return frame(WRITE, x, o, v)


def prepare(x, o):
    return frame(PREPARE, x, o)


def save(o):
    return frame(SAVE, 0, o)


def commit(x):
    return frame(COMMIT, x)


def abort(x):
    return frame(ABORT, x)


def settle(o):
    return frame(SETTLE, 0, o)


def crash(s):
    return frame(CRASH, 0, 0, s)


def restart():
    return frame(RESTART)


def status(x):
    return frame(STATUS, x)


def look(o):
    return frame(LOOK, 0, o)


def started(n):
    return [(start(), (0x00, i)) for i in range(1, n + 1)]


def chain_of_eight():
    """Eight writers of object 0 have prepared; the ninth's prepare is 0b, a reader's is 00."""
    case = started(10)
    for x in range(1, 9):
        case += [(write(x, 0, x), (0, 0)), (prepare(x, 0), (0, 0))]
    return case + [
        (write(9, 0, 9), (0, 0)),
        (prepare(9, 0), (0x0B, 0)),
        (abort(9), (0, 1)),
        (read(10, 0), (0, 8)),
        (prepare(10, 0), (0, 0)),
        (save(0), (0, 8)),
        (commit(10), (0x0E, 8)),
        (commit(1), (0, 1)),
        (settle(0), (0, 1)),
        (look(0), (0, 1)),
    ]


def thirty_three_starts():
    return started(32) + [(start(), (0x10, 0)), (abort(5), (0, 1)), (start(), (0, 33)), (start(), (0x10, 0))]


def full_log():
    """Record 512 is written, the next commit is 0f; the transaction lives on."""
    case = []
    for n in range(1, 513):
        case += [(start(), (0, n)), (commit(n), (0, n))]
    return case + [(start(), (0, 513)), (commit(513), (0x0F, 0)), (status(513), (0, 1)), (status(512), (0, 2)), (restart(), (0, 1))]


def numbers_end():
    """Number 999,999 is given out, and none after it; not after a restart either."""
    case = []
    for n in range(1, 1000000):
        case += [(start(), (0, n)), (abort(n), (0, 1))]
    return case + [(start(), (0x11, 0)), (restart(), (0, 0)), (start(), (0x11, 0)), (status(999999), (0, 3)), (status(1000000), (3, 0))]


def every_answer():
    """Each answer number that sound tables can give, once at least (0f and 10 and 11 in the cases above)."""
    return [
        (look(32), (0x02, 0)),
        (crash(1 << 32), (0x02, 0)),
        (read(1, 0), (0x03, 0)),
        (read(0, 0), (0x03, 0)),
        (start(), (0, 1)),
        (start(), (0, 2)),
        (start(), (0, 3)),
        (abort(3), (0, 1)),
        (abort(3), (0x04, 3)),
        (write(2, 4, 9), (0, 0)),
        (read(1, 4), (0x07, 2)),
        (start(), (0, 4)),
        (read(4, 4), (0x08, 2)),
        (commit(4), (0x04, 3)),
        (prepare(2, 5), (0x09, 0)),
        (commit(2), (0x0C, 4)),
        (prepare(2, 4), (0, 0)),
        (prepare(2, 4), (0x0A, 0)),
        (write(2, 6, 1), (0x05, 0)),
        (commit(2), (0x0D, 4)),
        (read(1, 4), (0, 9)),
        (prepare(1, 4), (0, 0)),
        (save(4), (0, 1)),
        (commit(1), (0x0E, 2)),
        (commit(2), (0, 1)),
        (commit(2), (0x04, 2)),
        (commit(1), (0, 2)),
        (settle(4), (0, 1)),
        (look(4), (0, 9)),
        (start(), (0, 5)),
        (write(5, 7, 1), (0, 0)),
        (crash(1 << 7), (0, 0)),
        (prepare(5, 7), (0x06, 1)),
        (start(), (0, 6)),
        (write(6, 7, 1), (0, 0)),
        (prepare(6, 7), (0, 0)),
        (crash(1 << 7), (0, 1)),
        (commit(6), (0x06, 1)),
    ]


def bad_frames():
    good = frame(LOOK, 0, 3)
    case = [(good, (0, 0))]
    bad = [
        b"\n",
        good[:-2] + b"\n",
        good[:-1] + b"0\n",
        good[:-1] + b"\r\n",
        b"0C" + good[2:],
        b"0g" + good[2:],
        b" " + good[1:],
        good[:5] + b"\x00" + good[6:],
        good[:5] + b"\xff" + good[6:],
        b"x" * 100000 + b"\n",
    ]
    bad += [frame(k) for k in [0x00] + list(range(0x0D, 0x100))]
    uses = {
        START: "", READ: "to", WRITE: "tov", PREPARE: "to", SAVE: "o", COMMIT: "t",
        ABORT: "t", SETTLE: "o", CRASH: "v", RESTART: "", STATUS: "t", LOOK: "o",
    }
    for kind, fields in uses.items():
        if "t" not in fields:
            bad.append(frame(kind, txn=1))
        if "o" not in fields:
            bad.append(frame(kind, obj=1))
        if "v" not in fields:
            bad.append(frame(kind, value=1))
    case += [(line, (0x12, 0)) for line in bad]
    return case + [(good, (0, 0)), (good[:-1], (0x12, 0))]  # the last line has no line feed


CASES = {
    "chain at 8": chain_of_eight(),
    "thirty-third start": thirty_three_starts(),
    "log record 512": full_log(),
    "the numbers' end": numbers_end(),
    "every answer number": every_answer(),
    "every bad frame": bad_frames(),
    "no input": [],
    "one byte": [(b"0", (0x12, 0))],
}


def main():
    program = sys.argv[1]
    faults = 0
    for name, case in CASES.items():
        text = b"".join(line for line, _ in case)
        got = subprocess.run([program], input=text, stdout=subprocess.PIPE, check=True).stdout.split(b"\n")[:-1]
        want = [b"%02x%016x" % answer for _, answer in case]
        if got == want:
            print(f"ok: {name}: {len(case)} lines")
            continue
        faults += 1
        at = next((i for i, (g, w) in enumerate(zip(got, want)) if g != w), min(len(got), len(want)))
        print(f"FAILED: {name}: line {at + 1}: {case[at][0][:40] if at < len(case) else 'no call'}: got {got[at:at + 1]}, not {want[at:at + 1]}")
    print(f"{len(CASES) - faults} passed, {faults} failed")
    return 1 if faults else 0


sys.exit(main())
