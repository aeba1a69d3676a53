"""Test cases that a transcript can't tell: each is a function `test_..` that plays on a stage, and
the first line of its docstring is its title; or one of a table CASES, by its title."""
