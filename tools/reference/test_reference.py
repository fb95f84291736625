"""Runs the tests of the reference implementation: the worked values of SPECIFICATION 12 and the three demands, on fixed
random cases.

`python3 tools/reference/test_reference.py`; no output but one line a test, and a traceback where one fails.
"""

import time

import test_bare
import test_fold
import test_kept
import test_next
import test_one_digit
import test_ring
import test_sheet


def main():
    started = time.time()
    for module in (test_ring, test_fold, test_next, test_one_digit, test_bare, test_sheet, test_kept):
        for name, test in vars(module).items():
            if name.startswith("test_"):
                before = time.time()
                test()
                print(f"{name}: {time.time() - before:.1f} s")
    print(f"all passed in {time.time() - started:.1f} s")


if __name__ == "__main__":
    main()
