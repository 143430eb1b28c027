"""What crates.txt says, for the scripts beside it: which crates there are, and what each stands on."""
from pathlib import Path

TOP = Path(__file__).resolve().parent.parent.parent


def stands_on():
    """The crates that each crate stands on, those of others too; the lowest crate comes first."""
    lines = [it.split("#")[0].strip() for it in (TOP / "crates.txt").read_text().splitlines()]
    pairs = [it.partition(":") for it in lines if it]
    return {name.split()[0]: rest.split() for name, _, rest in pairs}


def is_of_tests(crate):
    """Whether a crate has tests, or stands below such crates alone."""
    return crate.endswith(("_tests", "_testing"))


def reduced(crates):
    """The same without crates of others, and without a crate on which another one in the row stands already."""
    below = {}
    for name, rest in crates.items():
        direct = [it for it in rest if it in crates]
        below[name] = {it for low in direct for it in (low, *below[low])}
    found = {}
    for name, rest in crates.items():
        direct = [it for it in rest if it in crates]
        found[name] = [it for it in direct if not any(it in below[other] for other in direct)]
    return found
