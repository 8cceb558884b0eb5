"""Groups of booms whose boxes meet, directly or through others: no box of one group meets a box of another, so that each can be planned apart."""


def groups(count, meeting):
    """The places of `count` things in groups, each in order, by the pairs that meet; the groups in the order of their first."""
    beside = [[] for _ in range(count)]
    for i, j in meeting:
        beside[i].append(j)
        beside[j].append(i)
    found, seen = [], set()
    for first in range(count):
        group, left = [], [first]
        while left:
            place = left.pop()
            if place not in seen:
                seen.add(place)
                group.append(place)
                left += beside[place]
        if group:
            found.append(sorted(group))
    return found
