"""The examples of the documents of the package."""

import doctest

import fancy
from fancy import _patterns, _scanner, re


def load_tests(loader, tests, pattern):
    for module in (fancy, _patterns, _scanner, re):
        tests.addTests(doctest.DocTestSuite(module))
    return tests
