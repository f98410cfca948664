"""The order in which what is told is compared."""


def in_order(told):
    """At one time, what is released before the next `made` is a set: it stands behind what is told, by name."""
    ordered, released = [], []
    time = None
    for it in told:
        words = it.split(" ")
        if words[0] != time or words[2] == "made":
            ordered += sorted(released)
            released = []
        time = words[0]
        (released if words[2] == "released" else ordered).append(it)
    return ordered + sorted(released)
