"""Arcs, places, and the roads between nodes: spots on roads, trips between them, routes, and what
is reached. Each module says what it holds."""
