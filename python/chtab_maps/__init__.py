"""Makes graphs from maps of OpenStreetMap. docs/MAPS.md has the rules: what becomes a road, for
whom, and how fast.

| module | what it holds |
|---|---|
| `reading` | the forms of map files, and what is read of them |
| `profiles` | the tables of `tables/`: one for each way of travelling, and the limits of speed |
| `tags` | access and direction by tags |
| `speeds` | limits of speed and durations of ferries by tags |
| `signs` | the streets of ways, from the tags that travellers read on signs |
| `ways` | which ways are roads, and what was left out |
| `arcs` | roads as arcs between nodes: crossings, dead ends and barriers; metres between places |
| `restrictions` | relations that forbid turns |
| `turns` | nodes that are split so that no walk makes a forbidden turn |
| `turning_back` | where drivers may turn back |
| `turn_costs` | the graph of the ends of roads, in which turns cost time |
| `parts` | strongly connected components |
| `report` | the table of what was left out |
| `converting` | all of these in order, and the files written |

Only Python's own library is needed, and pyosmium for `.osm.pbf`.
"""
