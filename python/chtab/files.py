"""The files of chtab. Each kind is read and written here alone, with no more than Python's own
library.

| file | what it holds | read | write |
|---|---|---|---|
| `.gr` | a graph: arcs in order | `read_graph` | `write_graph` |
| `.co` | places of nodes in millionths of a degree | `read_coordinates` | `write_coordinates` |
| `.bends` | the points of each arc between its ends | `read_bends` | `write_bends` |
| `.nodes` | the name of each node, in OpenStreetMap or elsewhere | `read_names` | `write_names` |
| `.p2p` | queries: pairs of nodes | `read_queries` | `write_queries` |
| `.ss` | a list of nodes: sources or targets | `read_list` | `write_list` |
| `.names` | the street of each arc, and the driving side | `read_streets` | `write_streets` |
| `.ways` | the number of each arc's way in OpenStreetMap | `read_ways` | `write_ways` |
| places | a longitude, a latitude and a name in each line | `read_places` | |
| text of `dist` | distances and routes | `read_answers` | |
| text of `near` | the targets near each source | `read_near` | |
| text of `table` | a row for each source | `read_rows` | `write_csv` |

Nodes are numbered from 1, and arcs from 0, in their order. Columns of numbers are `array.array`s,
which numpy takes without a copy. Readers take a path, an open file or lines, and writers a path or
an open file. A `FileFault` names the file.
"""
from chtab.errors import FileFault
from chtab._files.forms import whole
from chtab._files.graphs import (
    UNITS, Coordinates, Graph, counts_in, read_bends, read_coordinates, read_graph, read_turns,
    read_unit, scale_comment, write_bends, write_coordinates, write_graph, write_graph_columns,
    write_point_columns)
from chtab._files.labelling import Labelling, read_labels, write_labels
from chtab._files.lists import (
    Place, read_list, read_names, read_places, read_queries, write_list, write_names, write_queries)
from chtab._files.streets import SIDES, Street, Streets, read_streets, write_streets
from chtab._files.texts import Answer, read_answers, read_near, read_routes, read_rows, write_csv
from chtab._files.way_numbers import read_ways, write_ways

# The rest of what is imported here is for the packages of this distribution alone.
__all__ = [
    "SIDES", "UNITS", "Answer", "Coordinates", "FileFault", "Graph", "Place", "Street", "Streets",
    "read_answers", "read_bends", "read_coordinates", "read_graph", "read_list", "read_names",
    "read_near", "read_places", "read_queries", "read_routes", "read_rows", "read_streets",
    "read_ways", "write_bends", "write_coordinates", "write_csv", "write_graph", "write_list",
    "write_names", "write_queries", "write_streets", "write_ways"]
