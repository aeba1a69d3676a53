"""Tests of the parts of the tests, and of the scripts: they need no program."""
