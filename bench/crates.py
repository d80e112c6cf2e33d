"""What crates.txt says, for the scripts that go by it."""


def listed(file):
    """The libraries that each crate lists, in the file's order: lowest first."""
    below = {}
    for line in file.read_text().splitlines():
        line = line.split('#')[0].strip()
        if line:
            name, libraries = line.split(':')
            below[name.split()[0]] = libraries.split()
    return below
