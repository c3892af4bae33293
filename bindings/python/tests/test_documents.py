"""The examples of the package's own texts."""
import doctest
import unittest

from l4 import calls, judge, kernel, outcomes, plans, protocols, shared, tables, words


def load_tests(_loader, tests, _pattern):
    for module in (calls, judge, kernel, outcomes, plans, protocols, shared, tables, words):
        tests.addTests(doctest.DocTestSuite(module))
    return tests


if __name__ == "__main__":
    unittest.main()
