#!/usr/bin/env python3
"""Makes packages with a loop that never ends, and times `defend` and `run` on each.

    bench/make_runs.py FOLDER [CAPCHECK [PERCENT]]

Each loop becomes the folder FOLDER/LOOP, with the file of roles. With CAPCHECK, the path of the program or of the script
`capcheck`, each of the two is run for a number of steps and for half of them, and the steps a second are printed side by side
that the difference of the two times tells: so what is loaded, linked and verified before does not count. With PERCENT, there are this much of the steps below.
"""
import os
import subprocess
import sys
import time

from packages import SHORT, Package, class_record, method, static_field, u2

STEPS = 20_000_000
SCONST_0, SCONST_1, SLOAD_0, SSTORE_0, SADD, GOTO = 3, 4, 28, 47, 65, 112
GETSTATIC_S, PUTSTATIC_S, INVOKESTATIC, RETURN = 125, 129, 141, 122


def back(count):
    """A branch back over so many bytes."""
    return bytes([GOTO, 256 - count])


def looping(begin, turn, callee=b"", pool=(), fields=()):
    """Object and throwable, and a static method of object: its code begins once and then takes a turn after the other. Another
    method, if there is one, stands after it."""
    package = Package()
    package.pool = list(pool)
    code = begin + turn + back(len(turn))
    package.methods = bytes([0x02, 0x01]) + code
    methods = [method(1, package.first_type(), len(code))]
    if callee:
        methods.append(method(package.next_method(), package.first_type(), len(callee), token=1))
        package.methods += bytes([0x00, 0x00]) + callee
    if fields:
        package.values = u2(7)
    package.add_class(class_record(), fields, methods)
    package.add_class(class_record(above=2))
    package.roles = bytes([0, 1, 1, 1, 1, 1, 1, 1])
    return package


def arithmetic():
    """One is added to a local."""
    return looping(bytes([SCONST_0, SSTORE_0]), bytes([SLOAD_0, SCONST_1, SADD, SSTORE_0]))


def fields():
    """A static field is read and written."""
    at = u2(0)
    return looping(b"", bytes([GETSTATIC_S]) + at + bytes([PUTSTATIC_S]) + at, pool=[bytes([5, 0]) + u2(0)], fields=[static_field(0, SHORT)])


def calls():
    """A method that does nothing is called."""
    turn = bytes([INVOKESTATIC]) + u2(0)
    after = 1 + 2 + len(turn) + len(back(len(turn)))
    return looping(b"", turn, callee=bytes([RETURN]), pool=[bytes([6, 0]) + u2(after)])


def seconds(capcheck, command, steps, folder):
    """How long a command takes for so many steps; it has to be spent."""
    begin = time.monotonic()
    done = subprocess.run([capcheck, command, str(steps), "0.0", folder], capture_output=True, text=True)
    taken = time.monotonic() - begin
    if done.stdout.split("\n", 1)[0] != "spent":
        sys.exit("bench/make_runs.py: %s %s: %s" % (command, folder, done.stdout))
    return taken


def rate(capcheck, command, steps, folder):
    """The steps a second of a command, by the difference of a run and of one of half as many steps."""
    whole, half = (seconds(capcheck, command, count, folder) for count in (steps, steps // 2))
    return steps / 2 / max(whole - half, 0.001)


def main(words):
    if not 1 <= len(words) <= 3:
        sys.exit(__doc__)
    steps = STEPS * int(words[2]) // 100 if len(words) == 3 else STEPS
    for loop in (arithmetic, fields, calls):
        folder = os.path.join(words[0], loop.__name__)
        loop().write(folder)
        if len(words) > 1:
            rates = [rate(words[1], command, steps, folder) for command in ("defend", "run")]
            print("%-13s %d steps: defend %.0f, run %.0f steps a second" % (loop.__name__, steps, *rates), flush=True)


main(sys.argv[1:])
