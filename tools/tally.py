"""Says what failed of the things that a tool tried, and how many passed."""


def tell(count, faults):
    """Prints these faults of so many tries, a line each, and then how many passed and failed. Returns the exit status."""
    for fault in faults:
        print(fault)
    print(f"{count - len(faults)} passed, {len(faults)} failed")
    return 1 if faults else 0
