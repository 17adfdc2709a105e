"""Tries families of cases on all cores, and prints a line for each family and, last, the tally."""
import os
import signal
import traceback
from concurrent.futures import ProcessPoolExecutor
from concurrent.futures.process import BrokenProcessPool
from functools import partial

# a case that takes longer, in seconds, ends its process
LONGEST = 200
DIED = "a process ended in the midst of a case"
# so many differences of a family are shown
SHOWN = 5


def tried(function, case):
    """What the function gives for the case. An error in it, like a call that never returns, ends the process and so the whole test."""
    signal.alarm(LONGEST)
    try:
        return function(case)
    except Exception:
        traceback.print_exc()
        os._exit(1)


def report(name, unit, results):
    """Prints the family's line and some of its differences; gives whether it passed."""
    count, differences = 0, []
    try:
        for compared, found in results:
            count += compared
            differences += found
    except BrokenProcessPool:
        differences.append(DIED)
    if not count and not differences:
        differences.append("nothing was compared")
    print(f"{name}: {count:,} {unit}" + (f", {len(differences)} differences" if differences else ""), flush=True)
    for difference in differences[:SHOWN]:
        print(f"  {difference}", flush=True)
    return not differences


def tally(families, unit, setup=None, given=()):
    """Tries every family, by name a function and its cases: the function of a case gives how many it compared, and what differs. Each
    process is set up first. Gives the exit status."""
    with ProcessPoolExecutor(os.cpu_count(), initializer=setup, initargs=given) as pool:
        # the cases of all families are handed out at once, and told of family by family
        try:
            running = {
                name: pool.map(partial(tried, function), cases, chunksize=1 + len(cases) // 64)
                for name, (function, cases) in families.items()
            }
        except BrokenProcessPool:
            return fail(DIED)
        passed = [report(name, unit, results) for name, results in running.items()]
    print(f"{passed.count(True)} passed, {passed.count(False)} failed")
    return 0 if all(passed) else 1


def summed(results):
    """Of several comparisons, how many were made and the differences."""
    pairs = list(results)
    return sum(count for count, _ in pairs), [difference for _, found in pairs for difference in found]


def shown(data):
    """Bytes in a few characters."""
    return data.hex() if len(data) <= 64 else f"{data[:64].hex()}... of {len(data)} bytes"


def fail(reason):
    """For a test that can't be run: tells why, and gives the exit status."""
    print(reason)
    print("0 passed, 1 failed")
    return 1
