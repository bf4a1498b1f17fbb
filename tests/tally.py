"""The count of what passed and failed in one test, with the total as its last line."""
import sys

SHOWN = 20  # faults of one kind
passed = failed = 0


def count(what, faults):
    global passed, failed
    for fault in faults[:SHOWN]:
        print(fault)
    if len(faults) > SHOWN:
        print(f"and {len(faults) - SHOWN} more")
    print(("FAILED: " if faults else "ok: ") + what, flush=True)
    passed, failed = passed + (not faults), failed + bool(faults)


def end():
    print(f"{passed} passed, {failed} failed")
    sys.exit(1 if failed else 0)
