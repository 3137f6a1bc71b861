"""How a test ends that is made of looks: what is looked at, and whether it is as it should be."""
from collections import Counter


def counted(name, looks):
    """Says what isn't as it should be, and last how many looks passed and failed. Returns the status of the test."""
    count = Counter()
    for what, is_right in looks:
        if not is_right:
            print(what, flush=True)
        count[bool(is_right)] += 1
    print(f"{name}: {count[True]} passed, {count[False]} failed", flush=True)
    return 0 if count[True] and not count[False] else 1
