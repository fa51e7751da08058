"""How a test of documents ends."""


def verdict(faults, passed):
    """Prints the faults, a line for each, or else what has passed. Returns the exit status."""
    print(*(faults or [passed]), sep="\n")
    return 1 if faults else 0
