"""The parts of `fuzz.py`: the inputs that are damaged, what has to come of them, and the trials of
the program over them."""
