"""The nearest of several names."""


def nearest(unknown, names):
    """The question whether the nearest of the names is meant, or None if none is near."""
    most = min((len(unknown) + 2) // 3, len(unknown) - 1)
    found = [(distance(unknown, n), index, n) for index, n in enumerate(names) if n != unknown]
    near = [it for it in found if it[0] <= most]
    return "did you mean '%s'?" % min(near)[2] if near else None


def distance(one, other):
    """How many characters are inserted, deleted or replaced, at least, to make one text of another."""
    row = list(range(len(other) + 1))
    for x in one:
        before, row[0] = row[0], row[0] + 1
        for j, y in enumerate(other, 1):
            before, row[j] = row[j], min(row[j] + 1, row[j - 1] + 1, before + (x != y))
    return row[-1]
