"""The library for C, called by ctypes: its header's names and numbers, and handles."""
import ctypes
import functools
import gc
import re
import resource
import subprocess

from helpers.running import ROOT

HEADER = ROOT / "include" / "chtab.h"
# Where `packaging/library` puts what it makes.
MADE = ROOT / "out" / "library"
SHARED = MADE / "lib" / "libchtab.so"
NO_DISTANCE = 2**64 - 1
# The number of places of a near row that leaves none out.
ALL = 2**32 - 1


@functools.cache
def make():
    """Makes the library, unless there is one that is newer than all sources of the crates; its path."""
    sources = [path for path in ROOT.glob("crates/*/*/**/*") if {"src", "specs", "proofs"} & {*path.parts} and path.is_file()]
    if not SHARED.exists() or SHARED.stat().st_mtime < max(path.stat().st_mtime for path in [HEADER, *sources] if "out" not in path.parts):
        subprocess.run([ROOT / "packaging" / "library"], check=True, stdout=subprocess.DEVNULL)
    return str(SHARED.resolve())


class Handle(ctypes.Structure):
    _fields_ = [("is_open", ctypes.c_uint64), ("engine", ctypes.c_void_p)]


class Topology(ctypes.Structure):
    _fields_ = [("is_open", ctypes.c_uint64), ("topology", ctypes.c_void_p)]


class Fault(ctypes.Structure):
    _fields_ = [("line", ctypes.c_uint64), ("place", ctypes.c_uint64), ("kind", ctypes.c_uint32)]

    def told(self):
        return self.line, self.place, self.kind


def statuses():
    """The names of `chtab_status` with their numbers, as the header has them."""
    body = re.search(r"enum chtab_status \{(.*?)\}", HEADER.read_text(), re.DOTALL).group(1)
    return {name: int(number) for name, number in re.findall(r"CHTAB_(\w+) = (\d+)", body)}


def declared():
    """The functions that the header declares and does not define."""
    return set(re.findall(r"^uint32_t (chtab_\w+)\(", HEADER.read_text(), re.MULTILINE))


def numbers(nodes, kind=ctypes.c_uint32):
    """An array of C. It has room for one element at least, so that its address is one also where it is empty."""
    return (kind * max(len(nodes), 1))(*nodes)


class Library:
    """The calls, each with the lengths of what it is given."""

    def __init__(self, path=SHARED):
        self.calls = ctypes.CDLL(str(path))
        for name in declared():
            getattr(self.calls, name).restype = ctypes.c_uint32

    def open(self, graph, saved, handle=None):
        """The status, the handle and the fault."""
        handle, fault = handle or Handle(), Fault()
        status = self.calls.chtab_open(ctypes.byref(handle), graph, ctypes.c_size_t(len(graph)), saved, ctypes.c_size_t(len(saved)), ctypes.byref(fault))
        return status, handle, fault

    def open_arrays(self, nodes, tails, heads, weights, saved=b"", handle=None):
        """The status, the handle and the fault. The arrays are lists, or arrays of C that are ready."""
        handle, fault = handle or Handle(), Fault()
        lists = (tails, ctypes.c_uint32), (heads, ctypes.c_uint32), (weights, ctypes.c_uint64)
        arrays = [word for items, kind in lists for word in (items if isinstance(items, ctypes.Array) else numbers(items, kind), ctypes.c_size_t(len(items)))]
        given = ctypes.byref(handle), ctypes.c_uint32(nodes), *arrays, saved, ctypes.c_size_t(len(saved)), ctypes.byref(fault)
        return self.calls.chtab_open_arrays(*given), handle, fault

    def open_quick(self, graph, handle=None):
        """The status, the handle and the fault."""
        handle, fault = handle or Handle(), Fault()
        return self.calls.chtab_open_quick(ctypes.byref(handle), graph, ctypes.c_size_t(len(graph)), ctypes.byref(fault)), handle, fault

    def open_like(self, graph, other, fresh=5, handle=None):
        """The status, the handle and the fault."""
        handle, fault = handle or Handle(), Fault()
        given = ctypes.byref(handle), graph, ctypes.c_size_t(len(graph)), ctypes.byref(other), ctypes.c_uint32(fresh), ctypes.byref(fault)
        return self.calls.chtab_open_like(*given), handle, fault

    def topology_open(self, graph, order=b"", topology=None):
        """The status, the topology and the fault."""
        topology, fault = topology or Topology(), Fault()
        given = graph, ctypes.c_size_t(len(graph)), order, ctypes.c_size_t(len(order)), ctypes.byref(fault)
        return self.calls.chtab_topology_open(ctypes.byref(topology), *given), topology, fault

    def topology_open_arrays(self, nodes, tails, heads, order=b"", topology=None):
        """The status, the topology and the fault. The arrays are lists, or arrays of C that are ready."""
        topology, fault = topology or Topology(), Fault()
        arrays = [word for items in (tails, heads) for word in (items if isinstance(items, ctypes.Array) else numbers(items), ctypes.c_size_t(len(items)))]
        given = ctypes.c_uint32(nodes), *arrays, order, ctypes.c_size_t(len(order)), ctypes.byref(fault)
        return self.calls.chtab_topology_open_arrays(ctypes.byref(topology), *given), topology, fault

    def topology_share(self, topology, other):
        return self.calls.chtab_topology_share(ctypes.byref(topology), ctypes.byref(other))

    def topology_order(self, topology, room):
        """The status and the nodes, in which 7 stands where nothing was written."""
        order = numbers([7] * (room + 1))
        status = self.calls.chtab_topology_order(ctypes.byref(topology), order, ctypes.c_size_t(room))
        assert order[room] == 7, "a node past the room is written"
        return status, list(order)[:room]

    def topology_close(self, topology):
        return self.calls.chtab_topology_close(ctypes.byref(topology))

    def customized(self, topology, weights, handle=None):
        """The status, the handle and the fault."""
        handle, fault = handle or Handle(), Fault()
        given = numbers(weights, ctypes.c_uint64), ctypes.c_size_t(len(weights)), ctypes.byref(fault)
        return self.calls.chtab_customized(ctypes.byref(handle), ctypes.byref(topology), *given), handle, fault

    def close(self, handle):
        return self.calls.chtab_close(ctypes.byref(handle))

    def share(self, handle, other):
        return self.calls.chtab_share(ctypes.byref(handle), ctypes.byref(other))

    def nodes(self, handle):
        count = ctypes.c_uint32()
        return self.calls.chtab_nodes(ctypes.byref(handle), ctypes.byref(count)), count.value

    def save(self, handle, room):
        """The status, the size, and the bytes in the room, in which 7 stands where nothing was written."""
        size, out = ctypes.c_uint64(7), numbers([7] * (room + 1), ctypes.c_uint8)
        status = self.calls.chtab_save(ctypes.byref(handle), ctypes.byref(size), out, ctypes.c_size_t(room))
        assert out[room] == 7, "a byte past the room is written"
        return status, size.value, bytes(out[:room])

    def distances(self, handle, sources, targets, room=None):
        """The status and the words, in which 7 stands where nothing was written. One word more than the room is given, and stays."""
        room = len(sources) if room is None else room
        out = numbers([7] * (room + 1), ctypes.c_uint64)
        status = self.calls.chtab_distances(ctypes.byref(handle), numbers(sources), ctypes.c_size_t(len(sources)), numbers(targets),
                                            ctypes.c_size_t(len(targets)), out, ctypes.c_size_t(room))
        assert out[room] == 7, "a word past the room is written"
        return status, list(out)[:room]

    def table(self, handle, sources, targets, limit=NO_DISTANCE, room=None):
        room = len(sources) * len(targets) if room is None else room
        out = numbers([7] * (room + 1), ctypes.c_uint64)
        status = self.calls.chtab_table(ctypes.byref(handle), numbers(sources), ctypes.c_size_t(len(sources)), numbers(targets),
                                        ctypes.c_size_t(len(targets)), ctypes.c_uint64(limit), out, ctypes.c_size_t(room))
        assert out[room] == 7, "a word past the room is written"
        return status, list(out)[:room]

    def route(self, handle, source, target, room):
        """Of the route of one pair the status, the weight, the number of nodes, and what stands in the room."""
        status, routes, weights, ends, nodes, _ = self.routes(handle, [source], [target], room)
        assert routes in ((0, 7) if status else (1,)), "the number of routes"
        return status, weights[0], ends[0], nodes

    def many(self, call, handle, lists, rooms):
        """What a call answers of many questions: the status, their number, and its arrays, in which 7 stands where nothing was written. `lists` are
        what it reads and `rooms` the lengths of what it writes, each with its kind of numbers."""
        count, arrays = ctypes.c_uint64(7), [(numbers([7] * (length + 1), kind), length) for length, kind in rooms]
        read = [word for items, kind in lists for word in (numbers(items, kind), ctypes.c_size_t(len(items)))]
        written = [word for array, length in arrays for word in (array, ctypes.c_size_t(length))]
        status = call(ctypes.byref(handle), *read, ctypes.byref(count), *written)
        assert all(array[length] == 7 for array, length in arrays), "a word past the room is written"
        return status, count.value, *(list(array)[:length] for array, length in arrays)

    def routes(self, handle, sources, targets, room, weights_room=None, ends_room=None, lines_room=0):
        """The status, the number of routes, and the weights, ends, nodes and lines."""
        rooms = [len(sources) if length is None else length for length in (weights_room, ends_room)]
        lists = [(sources, ctypes.c_uint32), (targets, ctypes.c_uint32)]
        return self.many(self.calls.chtab_routes, handle, lists, [*((length, ctypes.c_uint64) for length in rooms), (room, ctypes.c_uint32), (lines_room, ctypes.c_uint32)])

    def route_sums(self, handle, sources, targets, values, weights_room=None, sums_room=None):
        """The status, the number of pairs, and the weights and sums."""
        lists = [(sources, ctypes.c_uint32), (targets, ctypes.c_uint32), (values, ctypes.c_uint64)]
        rooms = [(len(sources) if length is None else length, ctypes.c_uint64) for length in (weights_room, sums_room)]
        return self.many(self.calls.chtab_route_sums, handle, lists, rooms)

    def keep_values(self, handle, values):
        return self.calls.chtab_keep_values(ctypes.byref(handle), numbers(values, ctypes.c_uint64), ctypes.c_size_t(len(values)))

    def kept_table_sums(self, handle, sources, targets, weights_room=None, sums_room=None):
        """The status, the number of cells, and the weights and sums of all cells, row after row."""
        cells = len(sources) * len(targets)
        rooms = [(cells if length is None else length, ctypes.c_uint64) for length in (weights_room, sums_room)]
        return self.many(self.calls.chtab_kept_table_sums, handle, [(sources, ctypes.c_uint32), (targets, ctypes.c_uint32)], rooms)

    def flows(self, handle, sources, targets, demands, room):
        """The status, the number of pairs without a walk, and the flows."""
        lists = [(sources, ctypes.c_uint32), (targets, ctypes.c_uint32), (demands, ctypes.c_uint64)]
        return self.many(self.calls.chtab_flows, handle, lists, [(room, ctypes.c_uint64)])

    def flows_table(self, handle, sources, targets, demands, room):
        """The same of each source with each target."""
        lists = [(sources, ctypes.c_uint32), (targets, ctypes.c_uint32), (demands, ctypes.c_uint64)]
        return self.many(self.calls.chtab_flows_table, handle, lists, [(room, ctypes.c_uint64)])

    def near_sums(self, handle, sources, values, limits, room=None):
        """The status, the number of sources, and the sums."""
        lists = [(sources, ctypes.c_uint32), (values, ctypes.c_uint64), (limits, ctypes.c_uint64)]
        return self.many(self.calls.chtab_near_sums, handle, lists, [(len(sources) * len(limits) if room is None else room, ctypes.c_uint64)])

    def near_table(self, handle, sources, room):
        """The status, the number of rows, and the cells."""
        return self.many(self.calls.chtab_near_table, handle, [(sources, ctypes.c_uint32)], [(room, ctypes.c_uint64)])

    def near_places(self, handle, places, limit=NO_DISTANCE, count=ALL, is_from=0):
        return self.calls.chtab_near_places(ctypes.byref(handle), ctypes.c_uint32(is_from), numbers(places), ctypes.c_size_t(len(places)),
                                            ctypes.c_uint64(limit), ctypes.c_uint32(count))

    def near_sweep(self, handle):
        return self.calls.chtab_near_sweep(ctypes.byref(handle))

    def near_rows(self, handle, sources, room, places_room=None, ends_room=None):
        """The status, the number of rows, and the ends, weights and places, in which 7 stands where nothing was written."""
        rooms = [len(sources) if ends_room is None else ends_room, room, room if places_room is None else places_room]
        kinds = ctypes.c_uint64, ctypes.c_uint64, ctypes.c_uint32
        return self.many(self.calls.chtab_near_rows, handle, [(sources, ctypes.c_uint32)], [*zip(rooms, kinds)])

    def kept_near_sums(self, handle, sources, room, places_room=None, ends_room=None, sums_room=None):
        """The same, and the sums of the values that are kept."""
        rooms = [len(sources) if ends_room is None else ends_room, room, *(room if other is None else other for other in (places_room, sums_room))]
        kinds = ctypes.c_uint64, ctypes.c_uint64, ctypes.c_uint32, ctypes.c_uint64
        return self.many(self.calls.chtab_kept_near_sums, handle, [(sources, ctypes.c_uint32)], [*zip(rooms, kinds)])


def growth(work, times):
    """How many kilobytes more memory is in use after the second half of the repetitions than before it."""
    for _ in range(times // 2):
        work()
    gc.collect()
    before = resource.getrusage(resource.RUSAGE_SELF).ru_maxrss
    for _ in range(times - times // 2):
        work()
    return resource.getrusage(resource.RUSAGE_SELF).ru_maxrss - before
