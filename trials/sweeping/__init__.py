"""What `sweep.py` is made of: the releases that are swept, the refusals, and what has to come of
each."""
