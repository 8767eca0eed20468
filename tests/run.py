#!/usr/bin/env python3
"""Runs the tests of this folder: each function test_* of tests/test_*.py. Last line: 'N passed, M failed'."""
import importlib
import pathlib
import sys
import traceback

HERE = pathlib.Path(__file__).resolve().parent
sys.path.insert(0, str(HERE))


def main():
    passed = failed = 0
    for path in sorted(HERE.glob("test_*.py")):
        module = importlib.import_module(path.stem)
        for name in sorted(n for n in dir(module) if n.startswith("test_")):
            try:
                getattr(module, name)()
                passed += 1
                print(f"{path.stem}.{name}: passed")
            except Exception:
                failed += 1
                print(f"{path.stem}.{name}: FAILED")
                traceback.print_exc(file=sys.stdout)
    print(f"{passed} passed, {failed} failed")
    return 1 if failed or not passed else 0


if __name__ == "__main__":
    sys.exit(main())
