"""The examples of the package's page and of its docstring."""

import doctest
import unittest

import boltcomfrey


class Examples(unittest.TestCase):
    def test_the_page(self):
        found = doctest.testfile("../README.md")
        self.assertEqual((found.failed, found.attempted > 8), (0, True))

    def test_the_docstring(self):
        found = doctest.testmod(boltcomfrey)
        self.assertEqual((found.failed, found.attempted > 4), (0, True))


if __name__ == "__main__":
    unittest.main()
