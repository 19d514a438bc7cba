#!/usr/bin/env python3
"""What the real store answers at devices and at names that can't be read or written, where the program isn't built: `rt try` runs
crates/measure without a proof.

    tests/store_devices.py

Each call fails, or answers bytes, and always returns. It ends with status 1 if an answer is another one.
"""

import os
import shutil
import sys

import harness

# what is done, and the line of its answer
CALLS = [
    ("read /dev/zero 20", "read 1310720"),
    ("read /dev/null 20", "read 0"),
    ("read /no/such/folder/file 1", "failed"),
    ("read / 1", "failed"),
    ("write /dev/full 1", "failed"),
    ("write /no/such/folder/file 1", "failed"),
]


def main():
    harness.arguments(__doc__)
    if not shutil.which("rt"):
        print("store_devices: there is no rt, skipped")
        return 0
    words = " ".join(call for call, _ in CALLS).split()
    done = harness.run(["rt", "try", "--", *words], os.path.join(harness.ROOT, "crates/measure"), seconds=600)
    got, wanted = done.out.decode().splitlines()[: len(CALLS)], [answer for _, answer in CALLS]
    if got != wanted:
        print(f"store_devices: wanted {wanted}, got {got}")
        return 1
    print(f"store_devices: {len(CALLS)} calls, no other answer")
    return 0


if __name__ == "__main__":
    sys.exit(main())
