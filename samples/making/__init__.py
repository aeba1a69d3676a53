"""What make_large, the tests, the trials and the benchmarks make registries of."""
