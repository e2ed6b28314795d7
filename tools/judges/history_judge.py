"""Which steps of an issuing history are valid at a date, from its records alone.

A step is valid where its root, itself where it has no issuer, and every ancestor are CAs, the k-th
ancestor, counted from the nearest and from 0, allows k certificates below it (RFC 5280 4.2.1.9), and
the date lies in the window of the step and of each ancestor, both ends included (RFC 5280 4.1.2.5).
Nothing is shared with the program, and no certificate is read.
"""


def ancestors(steps, index):
    """The issuer of a step, that one's issuer and so on, up to a root."""
    found = []
    while steps[index].issuer is not None:
        index = steps[index].issuer
        found.append(steps[index])
    return found


def is_valid(steps, index, date):
    """Whether the step of this index is valid at a date, of 14 digits."""
    above = ancestors(steps, index)
    root = above[-1] if above else steps[index]
    return (
        root.ca
        and all(one.ca for one in above)
        and all(one.path_length is None or below <= one.path_length for below, one in enumerate(above))
        and all(one.first <= date <= one.last for one in (steps[index], *above))
    )
