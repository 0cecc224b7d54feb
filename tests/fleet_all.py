"""fleet_all.py PROGRAM [NAME ..]: all tests of fleet, or those whose names contain a NAME."""
import os
import sys
import unittest

HERE = os.path.dirname(os.path.abspath(__file__))
sys.path[:0] = [HERE, os.path.join(os.path.dirname(HERE), "fleet")]
sys.dont_write_bytecode = True
os.environ["TINK"] = sys.argv[1]

MODULES = ("fleet_units", "fleet_parts", "fleet_attacks", "fleet_runs", "fleet_rotations", "fleet_clusters", "fleet_docs")


def chosen(suite: unittest.TestSuite, names: list[str]):
    for test in suite:
        if isinstance(test, unittest.TestSuite):
            yield from chosen(test, names)
        elif not names or any(name in test.id() for name in names):
            yield test


class Result(unittest.TextTestResult):
    """Counts what passed: a class that cannot be set up is an error and no test that ran."""

    passed = 0

    def addSuccess(self, test: unittest.TestCase) -> None:
        super().addSuccess(test)
        self.passed += 1


def main() -> int:
    tests = list(chosen(unittest.TestLoader().loadTestsFromNames(MODULES), sys.argv[2:]))
    if not tests:
        print(f"no test has a name with {' or '.join(sys.argv[2:])}")
        return 2
    runner = unittest.TextTestRunner(stream=sys.stdout, verbosity=2, resultclass=Result)
    result = runner.run(unittest.TestSuite(tests))
    for test, why in result.skipped:
        print(f"skipped: {test.id()}: {why}")
    bad = len(result.failures) + len(result.errors)
    print(f"{result.passed} passed, {bad} failed")
    return int(bad > 0)


if __name__ == "__main__":
    sys.exit(main())
