"""The triangles of topologies, counted from the definition."""


def triangles_of(nodes, arcs, order):
    """The triangles of the least topology of arcs between nodes, which count from 1, in an order that counts them from 0: nodes are taken in turn, and the
    later neighbours of each are joined."""
    near = [set() for _ in range(nodes)]
    for start, end, *_ in arcs:
        if start != end:
            near[start - 1].add(end - 1)
            near[end - 1].add(start - 1)
    count, taken = 0, set()
    for node in order:
        taken.add(node)
        later = near[node] - taken
        count += len(later) * (len(later) - 1) // 2
        for one in later:
            near[one] |= later - {one}
    return count
