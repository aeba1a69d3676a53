"""Attempts to break the programs and scripts, by hand: each module that has a `main`."""
