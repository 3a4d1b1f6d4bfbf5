"""The lines of crates.txt. Each has a crate's name, a colon, and what it uses; what follows a # is a comment."""


def crate_of(line):
    """The crate of a line with what it uses, or None where it has none."""
    name, colon, uses = line.partition("#")[0].partition(":")
    return (name.strip(), uses.split()) if colon and name.strip() else None


def crates_of(lines):
    """What each crate uses, by the crates' names in the order of their lines."""
    return dict(filter(None, map(crate_of, lines)))
