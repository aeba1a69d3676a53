"""The tests of the programs and scripts, and what the trials and the benchmarks share with them."""
