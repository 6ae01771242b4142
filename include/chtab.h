/* chtab.h: exact distances, tables, routes and nearest places in road networks, in your own process.
 *
 * Link with -lchtab (or `pkg-config --cflags --libs chtab`). The library has no global state. It starts no thread, opens no
 * file, prints nothing and never ends the process. It takes its memory with your program's malloc, realloc and free.
 *
 *     chtab network = CHTAB_CLOSED_HANDLE;
 *     chtab_fault fault;
 *     uint32_t source = 0, target = 2;
 *     uint64_t metres;
 *     if (chtab_open(&network, graph, graph_len, saved, saved_len, &fault) == CHTAB_OK &&
 *         chtab_distances(&network, &source, 1, &target, 1, &metres, 1) == CHTAB_OK) { ... }
 *     chtab_close(&network);
 *
 * Units. Calls count nodes from 0, and files count them from 1: node 0 is the node 1 of the files. Weights and distances
 * are whole numbers in the unit of the graph, such as metres or milliseconds. Sizes of arrays are numbers of elements.
 *
 * Errors. Each call except chtab_version returns a `chtab_status`. With any other status than CHTAB_OK it has written
 * nothing, unless its comment says so, and the handle is as before. You may pass a closed handle, wrong nodes, wrong
 * lengths or faulty files: each call tests what it gets, and returns a status.
 *
 * Threads. Make one call at a time with a handle: if two threads use one at once, a call may return CHTAB_OK with a wrong
 * answer, and the network may be lost. Give each thread a handle of its own with chtab_share, and a topology of its own with
 * chtab_topology_share: they share one network, or one topology, in memory. Do not call from a signal handler. In a forked
 * child, do not call with a handle that a thread of the parent may have been calling with: share another one, or open one.
 *
 * Your duties. The library cannot test these:
 *   - A pointer is not NULL, even if its length is 0, and points to as many elements as its length says.
 *   - The memory that a call writes overlaps no other argument. The two handles of chtab_share, chtab_topology_share and
 *     chtab_open_like are different.
 *   - A handle is CHTAB_CLOSED_HANDLE, all zeros, before its first call. After that only this library changes it, and you
 *     do not copy it. Close it before you free its memory.
 */
#ifndef CHTAB_H
#define CHTAB_H

#include <stddef.h>
#include <stdint.h>

/* The version of this header: millions for the first number, thousands for the second. */
#define CHTAB_VERSION 1003000

/* Stands for no distance, if there is no walk: the greatest number of 64 bits. Each distance is less. */
#define CHTAB_NO_DISTANCE ((uint64_t)-1)

/* The limit of a table or of near rows that leaves out no distance. */
#define CHTAB_NO_LIMIT ((uint64_t)-1)

/* Stands for no line: the greatest number of 32 bits. Each line is less. */
#define CHTAB_NO_LINE ((uint32_t)-1)

/* The number of places of a near row that leaves out no place. */
#define CHTAB_ALL ((uint32_t)-1)

/* The per cent of nodes that chtab_open_like orders afresh if nothing speaks for another number. */
#define CHTAB_FRESH 5

/* A closed handle. */
#define CHTAB_CLOSED_HANDLE { 0, 0 }

#if defined(__cplusplus) || (defined(__STDC_VERSION__) && __STDC_VERSION__ >= 199901L)
#define CHTAB_INLINE static inline
#elif defined(__GNUC__)
#define CHTAB_INLINE static __inline__
#else
#define CHTAB_INLINE static
#endif

#ifdef __cplusplus
extern "C" {
#endif

/* The result of a call. */
typedef enum chtab_status {
    CHTAB_OK = 0,           /* the call is done */
    CHTAB_NO_MEMORY = 1,    /* malloc refused memory; you may make the call again */
    CHTAB_CLOSED = 2,       /* the handle is closed */
    CHTAB_IS_OPEN = 3,      /* the handle is already open; close it first */
    CHTAB_NODE_RANGE = 4,   /* a node is not below the number of nodes */
    CHTAB_LENGTHS = 5,      /* the lengths do not fit one another */
    CHTAB_TOO_LARGE = 6,    /* there are more than 65,536 sources or targets of a table, or near places */
    CHTAB_TOO_SHORT = 7,    /* there is not enough room for the nodes of routes, the pairs of near rows, or a text's bytes */
    CHTAB_BAD_GRAPH = 8,    /* the graph's bytes are faulty: see the fault's line and kind; of arrays, its place and kind */
    CHTAB_BAD_SAVED = 9,    /* the hierarchy's bytes are faulty: see the fault's line and kind */
    CHTAB_WRONG_SAVED = 10, /* the hierarchy is not right for the graph: see the fault's kind and place */
    CHTAB_NO_PLACES = 11,   /* the handle keeps no near places: give it some with chtab_near_places */
    CHTAB_SUM_TOO_LARGE = 12, /* a sum is 2^64 or more, or a flow is more than 2^63 */
    CHTAB_OTHER_NODES = 13, /* the graph has another number of nodes than the network in whose order it is built */
    CHTAB_FRESH_RANGE = 14, /* more than 100 per cent of the nodes would be ordered afresh */
    CHTAB_TRIANGLES = 15,   /* the topology would have more than 40 triangles a node: customization would not pay */
    CHTAB_NO_VALUES = 16    /* the handle keeps no values of lines: give it some with chtab_keep_values */
} chtab_status;

/* The kind of a fault. The first ten are faults of a line or of the end of a file, the others of a hierarchy for its graph.
 * */
typedef enum chtab_fault_kind {
    CHTAB_FAULT_NONE = 0,
    CHTAB_FAULT_UNKNOWN_LINE = 1,
    CHTAB_FAULT_BAD_PROBLEM = 2,
    CHTAB_FAULT_SECOND_PROBLEM = 3,
    CHTAB_FAULT_NO_PROBLEM = 4,
    CHTAB_FAULT_BAD_LINE = 5,
    CHTAB_FAULT_NODE_RANGE = 6,
    CHTAB_FAULT_WEIGHT = 7,
    CHTAB_FAULT_SIZE = 8,
    CHTAB_FAULT_TOO_MANY = 9,
    CHTAB_FAULT_TOO_FEW = 10,
    CHTAB_FAULT_ORDER = 11,  /* the order does not have each node once */
    CHTAB_FAULT_PAIR = 12,   /* place: a leg with equal ends, an end that is no node, or the ends of an earlier leg */
    CHTAB_FAULT_BOUND = 13,  /* place: a leg that is too heavy or has too many arcs */
    CHTAB_FAULT_BASE = 14,   /* place: a leg without a middle that is no arc */
    CHTAB_FAULT_MIDDLE = 15, /* place: a leg that is not the sum of the two legs of its middle */
    CHTAB_FAULT_ARC = 16,    /* place: an arc of the graph without a leg of at most its cost */
    CHTAB_FAULT_LOWER = 17   /* place: a node with a way through it that is shorter than each other way in the hierarchy */
} chtab_fault_kind;

/* A network, with room for one question at a time, and the near places and the values that it keeps: 16 bytes. Only the library
 * reads and writes its members. */
typedef struct chtab {
    uint64_t is_open;
    void *engine;
} chtab;

/* The topology of a graph: its arcs without their weights, and an order of the nodes with the pairs of them between which
 * there may be a leg: 16 bytes. It is made once, and opens networks with other weights on the same arcs. Only the library
 * reads and writes its members. */
typedef struct chtab_topology {
    uint64_t is_open;
    void *topology;
} chtab_topology;

/* The first fault of a file. Members that a fault does not have are 0. */
typedef struct chtab_fault {
    uint64_t line;  /* the line of the file, counted from 1 */
    uint64_t place; /* the leg, the arc or the node with the fault, counted from 0 in the order of the files */
    uint32_t kind;  /* a chtab_fault_kind */
} chtab_fault;

/* Returns the version of the library. If you load the library at run time, first compare this with CHTAB_VERSION. */
uint32_t chtab_version(void);

/* Opens a closed handle with a graph and its saved hierarchy: the bytes of the two files. `chtab save` makes the second,
 * but you may take both from anywhere: faulty files are refused. The call checks the hierarchy against the graph, and that
 * takes some time: open once, and ask often. If `saved_len` is 0, the call builds the hierarchy itself, by depth. That takes
 * 3 to 15 microseconds a node of a road network, and nothing can break it off. You may free the bytes afterwards.
 * Errors: CHTAB_IS_OPEN, CHTAB_NO_MEMORY, CHTAB_BAD_GRAPH, CHTAB_BAD_SAVED, CHTAB_WRONG_SAVED. All of these except the
 * first write `fault`; it is all 0 for CHTAB_NO_MEMORY. Otherwise `fault` stays. */
uint32_t chtab_open(chtab *handle, const uint8_t *graph, size_t graph_len, const uint8_t *saved, size_t saved_len,
                    chtab_fault *fault);

/* Opens a closed handle with a graph alone, as chtab_open does without a saved hierarchy, but in a third to a half of the
 * time. The hierarchy is built in an order that takes little time to find. No rule names this order, so that another version
 * may choose another one. Answers are exact in each order, and only which of equal routes is taken may depend on it.
 * Errors: CHTAB_IS_OPEN, CHTAB_NO_MEMORY, CHTAB_BAD_GRAPH. The last two write `fault`; it is all 0 for CHTAB_NO_MEMORY.
 * Otherwise `fault` stays. */
uint32_t chtab_open_quick(chtab *handle, const uint8_t *graph, size_t graph_len, chtab_fault *fault);

/* Opens a closed handle, as chtab_open does, with the graph of `nodes` nodes where arc k leads from tails[k] to heads[k] and
 * has the weight weights[k]. Nodes count from 0, and arc k is line k. The limits are those of files: at most 2^25 nodes and
 * 2^27 arcs, and `nodes` times a weight is at most 2^60. The lengths of the three arrays are equal. You may free all arrays
 * afterwards. `saved` is as with chtab_open, but if `saved_len` is 0, the hierarchy is built as by chtab_open_quick.
 * Errors: CHTAB_IS_OPEN, CHTAB_LENGTHS, CHTAB_NO_MEMORY, CHTAB_BAD_GRAPH, CHTAB_BAD_SAVED, CHTAB_WRONG_SAVED. All of these
 * except the first write `fault`; it is all 0 for CHTAB_LENGTHS and CHTAB_NO_MEMORY. For CHTAB_BAD_GRAPH its kind is
 * CHTAB_FAULT_SIZE, CHTAB_FAULT_NODE_RANGE or CHTAB_FAULT_WEIGHT, its line is 0, and its place is the arc, or 0 for
 * CHTAB_FAULT_SIZE. Otherwise `fault` stays. */
uint32_t chtab_open_arrays(chtab *handle, uint32_t nodes, const uint32_t *tails, size_t tails_len, const uint32_t *heads,
                           size_t heads_len, const uint64_t *weights, size_t weights_len, const uint8_t *saved,
                           size_t saved_len, chtab_fault *fault);

/* Opens the closed handle `handle` with a graph, as chtab_open does without a saved hierarchy, but in about half of
 * the time. It serves new weights on known roads: the hierarchy is built in the order of the nodes that the network of the
 * open handle `other` has, and only the last `fresh` per cent of them are ordered afresh, by depth. CHTAB_FRESH is mostly
 * right. If the weights are of another kind, such as metres in place of seconds, 25 is better. The graph has as many nodes as
 * that network. Its arcs and weights may differ in any way: answers are exact in each order, and only times depend on it.
 * With 100 per cent the hierarchy is that of chtab_open. So it is with fewer if the order would join too many nodes: if more
 * than 128 edges touch one of its nodes in its turn, before the last hundredth of all nodes. `other` keeps its network, its
 * weights and its places. Another thread may ask that network meanwhile with a handle of its own, but not with one of these
 * two.
 * Errors: CHTAB_IS_OPEN for `handle`, CHTAB_CLOSED for `other`; then CHTAB_BAD_GRAPH, CHTAB_OTHER_NODES, CHTAB_FRESH_RANGE,
 * in this order, and CHTAB_NO_MEMORY. All of these except the first two write `fault`; it is all 0 except for
 * CHTAB_BAD_GRAPH. Otherwise `fault` stays. */
uint32_t chtab_open_like(chtab *handle, const uint8_t *graph, size_t graph_len, chtab *other, uint32_t fresh,
                         chtab_fault *fault);

/* Opens the closed handle `other` in the network of the open handle `handle`, for another thread. No other call may use one
 * of the two handles meanwhile. The network is freed with the last handle that shares it, and so are the values that `handle`
 * keeps, which both share from then on. Near places are not shared.
 * Errors: CHTAB_IS_OPEN for `other`, CHTAB_CLOSED for `handle`, CHTAB_NO_MEMORY. */
uint32_t chtab_share(chtab *handle, chtab *other);

/* Closes an open handle, and frees its memory. You may open it again.
 * Errors: CHTAB_CLOSED. */
uint32_t chtab_close(chtab *handle);

/* Opens a closed topology with a graph: the bytes of its file. Weights do not count. `order` has the bytes of a saved
 * hierarchy of as many nodes, or of its lines `p` and `o` alone, and names the order of the nodes. If `order_len` is 0, the
 * call finds a nested dissection order itself, which takes about 3 to 5 microseconds a node, and nothing can break it off. Roads
 * with the small cuts of real maps have some 10 to 30 triangles a node in such an order. An order with more than 40 a node is
 * refused before the work: chtab_open_like serves it better. You may free the bytes afterwards.
 * Errors: CHTAB_IS_OPEN, CHTAB_NO_MEMORY, CHTAB_BAD_GRAPH, CHTAB_BAD_SAVED for the bytes of the order, CHTAB_WRONG_SAVED if
 * the order does not have each node once, CHTAB_TRIANGLES. All of these except the first write `fault`; it is all 0 for
 * CHTAB_NO_MEMORY and CHTAB_TRIANGLES. Otherwise `fault` stays. */
uint32_t chtab_topology_open(chtab_topology *topology, const uint8_t *graph, size_t graph_len, const uint8_t *order,
                             size_t order_len, chtab_fault *fault);

/* Opens a closed topology, as chtab_topology_open does, with the arcs from tails[k] to heads[k] between `nodes` nodes, as
 * chtab_open_arrays takes them.
 * Errors: CHTAB_IS_OPEN, CHTAB_LENGTHS, and those of chtab_topology_open. All of these except the first write `fault`; it is
 * all 0 for CHTAB_LENGTHS, CHTAB_NO_MEMORY and CHTAB_TRIANGLES. For CHTAB_BAD_GRAPH its kind is CHTAB_FAULT_SIZE or
 * CHTAB_FAULT_NODE_RANGE, its line is 0, and its place is the arc, or 0 for CHTAB_FAULT_SIZE. Otherwise `fault` stays. */
uint32_t chtab_topology_open_arrays(chtab_topology *topology, uint32_t nodes, const uint32_t *tails, size_t tails_len,
                                    const uint32_t *heads, size_t heads_len, const uint8_t *order, size_t order_len,
                                    chtab_fault *fault);

/* Opens the closed topology `other` as the open one `topology` is, for another thread. No other call may use one of the two
 * meanwhile. Both share their memory, which is freed with the last of them.
 * Errors: CHTAB_IS_OPEN for `other`, CHTAB_CLOSED for `topology`, CHTAB_NO_MEMORY. */
uint32_t chtab_topology_share(chtab_topology *topology, chtab_topology *other);

/* Writes the nodes in the order of the topology, from the one that is contracted first on. order_len is the number of nodes.
 * With the line `p ch N 0` and a line `o V` for each node V, counted from 1, they are what chtab_topology_open takes.
 * Errors: CHTAB_CLOSED, CHTAB_LENGTHS. */
uint32_t chtab_topology_order(chtab_topology *topology, uint32_t *order, size_t order_len);

/* Closes an open topology, and frees its memory. Networks that were opened with it stay open.
 * Errors: CHTAB_CLOSED. */
uint32_t chtab_topology_close(chtab_topology *topology);

/* Opens the closed handle `handle` with the graph that has the nodes and arcs of `topology`, where arc k, which is on line k of
 * its file or at place k of its arrays, weighs weights[k]. weights_len is the number of arcs. This is customization: it takes a
 * small part of the time of chtab_open_like. Answers are as exact. `topology` stays open, and so does each handle that was
 * opened before, with the weights that it has. You may free the weights afterwards.
 * Errors: CHTAB_IS_OPEN for `handle`, CHTAB_CLOSED for `topology`; then CHTAB_LENGTHS and CHTAB_BAD_GRAPH, in this order, and
 * CHTAB_NO_MEMORY. All of these except the first two write `fault`; it is all 0 except for CHTAB_BAD_GRAPH, where its kind is
 * CHTAB_FAULT_WEIGHT and its place is the first arc whose weight is too large. Otherwise `fault` stays. */
uint32_t chtab_customized(chtab *handle, chtab_topology *topology, const uint64_t *weights, size_t weights_len,
                          chtab_fault *fault);

/* Writes the number of nodes.
 * Errors: CHTAB_CLOSED. */
uint32_t chtab_nodes(chtab *handle, uint32_t *nodes);

/* Writes the hierarchy to `out`, as the text that `chtab save` writes for it, and the number of its bytes to `size`. Ask
 * for the size first, with an out_len of 0. Both calls make the whole text, in memory of their own.
 * Errors: CHTAB_CLOSED, CHTAB_NO_MEMORY; and CHTAB_TOO_SHORT, which writes `size` and leaves `out`. */
uint32_t chtab_save(chtab *handle, uint64_t *size, uint8_t *out, size_t out_len);

/* Writes the distance from sources[k] to targets[k] to out[k], or CHTAB_NO_DISTANCE if there is no walk. The three lengths
 * are equal. The call takes no memory.
 * Errors: CHTAB_CLOSED, CHTAB_LENGTHS, CHTAB_NODE_RANGE. */
uint32_t chtab_distances(chtab *handle, const uint32_t *sources, size_t sources_len, const uint32_t *targets,
                         size_t targets_len, uint64_t *out, size_t out_len);

/* Writes the distance from sources[i] to targets[j] to out[i * targets_len + j]. It is CHTAB_NO_DISTANCE if there is no
 * walk, or if the distance is above `limit` (CHTAB_NO_LIMIT: no limit). out_len is sources_len times targets_len. The call
 * takes the time of one search for each target and one for each source. Ask for a large table in blocks of rows if you want
 * to stop in between.
 * Errors: CHTAB_CLOSED, CHTAB_LENGTHS, CHTAB_NODE_RANGE, CHTAB_TOO_LARGE, CHTAB_NO_MEMORY. */
uint32_t chtab_table(chtab *handle, const uint32_t *sources, size_t sources_len, const uint32_t *targets, size_t targets_len,
                     uint64_t limit, uint64_t *out, size_t out_len);

/* Writes the routes from sources[k] to targets[k], one after the other, and their number to `routes`. Each is a walk of the
 * least weight, and among these one with the fewest arcs. weights[k] is its weight, or CHTAB_NO_DISTANCE if there is no walk.
 * Its nodes are at the places from ends[k - 1], or from 0 for the first route, up to ends[k] - 1, in order of travel with both
 * ends. If there is no walk, it has no nodes. targets_len, weights_len and ends_len are sources_len. lines_len is 0, or it is
 * nodes_len if you ask for the lines of arcs too. Then lines[j] is the line of the arc that leads to nodes[j]: its place among
 * the arcs of the graph's file, counted from 0. Of several arcs between two nodes it is the one of least weight, and of these
 * the first. For the first node of a route lines[j] is CHTAB_NO_LINE. With a value for each line you can add up any measure
 * along routes.
 * Errors: CHTAB_CLOSED, CHTAB_LENGTHS, CHTAB_NODE_RANGE. With CHTAB_TOO_SHORT or CHTAB_NO_MEMORY the first routes are
 * written, and `routes` is their number: there is not enough room or memory for the next route. Ask for the other pairs in
 * a further call. Room for as many nodes as the network has is always enough for one route. */
uint32_t chtab_routes(chtab *handle, const uint32_t *sources, size_t sources_len, const uint32_t *targets,
                      size_t targets_len, uint64_t *routes, uint64_t *weights, size_t weights_len, uint64_t *ends,
                      size_t ends_len, uint32_t *nodes, size_t nodes_len, uint32_t *lines, size_t lines_len);

/* Writes sums along the routes from sources[k] to targets[k], and the number of pairs to `pairs`. The routes and the lines of
 * their arcs are those that chtab_routes gives. weights[k] is the weight of the route, or CHTAB_NO_DISTANCE if there is no
 * walk. sums[k] is the sum of the values on the lines of its arcs, such as the metres of the fastest route, and 0 if there is
 * no walk. values[j] is the value of line j, and values_len is the number of arcs of the graph's file. targets_len,
 * weights_len and sums_len are sources_len. A call with many pairs keeps a copy of the values with the handle, and a word for
 * each leg of the hierarchy, until a call with many pairs has other values: calls with the same ones are quicker.
 * Errors: CHTAB_CLOSED, CHTAB_LENGTHS, CHTAB_NODE_RANGE. With CHTAB_SUM_TOO_LARGE or CHTAB_NO_MEMORY the weights and sums of
 * the first pairs are written, and `pairs` is their number: the sum of the next pair is 2^64 or more, or there is no memory
 * for its route. */
uint32_t chtab_route_sums(chtab *handle, const uint32_t *sources, size_t sources_len, const uint32_t *targets,
                          size_t targets_len, const uint64_t *values, size_t values_len, uint64_t *pairs,
                          uint64_t *weights, size_t weights_len, uint64_t *sums, size_t sums_len);

/* Keeps a copy of a value for each line with the handle, in place of the values that it kept: values[j] is the value of line j,
 * and values_len is the number of arcs of the graph's file. The call takes some steps for each leg of the hierarchy, and keeps a
 * word for each. With the values that are kept already it compares them alone. You may free the values afterwards.
 * Errors: CHTAB_CLOSED, CHTAB_LENGTHS, CHTAB_NO_MEMORY. Then the values that were kept stay. */
uint32_t chtab_keep_values(chtab *handle, const uint64_t *values, size_t values_len);

/* Writes the weights and the sums of a table, and the number of cells to `cells`. The route from sources[i] to targets[j] has
 * its weight in weights[i * targets_len + j], and at the same place of `sums` the sum of the values that chtab_keep_values keeps
 * on the lines of its arcs, both as chtab_route_sums gives them. weights_len and sums_len are sources_len times targets_len. The
 * call takes one search for each source and each target. It does not look at all values, so that a table takes 1.5 to 3.5
 * times as long as with chtab_table, on a network of any size.
 * Errors: CHTAB_CLOSED, CHTAB_NO_VALUES, CHTAB_LENGTHS, CHTAB_NODE_RANGE. With CHTAB_SUM_TOO_LARGE or CHTAB_NO_MEMORY the first
 * cells are written, row after row, and `cells` is their number: the sum of the next cell is 2^64 or more, or there is no memory
 * for it. */
uint32_t chtab_kept_table_sums(chtab *handle, const uint32_t *sources, size_t sources_len, const uint32_t *targets,
                               size_t targets_len, uint64_t *cells, uint64_t *weights, size_t weights_len, uint64_t *sums,
                               size_t sums_len);

/* Writes flows on the lines of the graph's file, and the number of pairs without a walk to `missed`. demands[i] is what goes
 * from sources[i] to targets[i], and flows[l] is the sum of the demands of the pairs whose routes take the arc on line l. Lines
 * count from 0, and flows_len is the number of the graph's arcs. Routes are those of chtab_routes: of several arcs between two
 * nodes, one of least weight has the flow, and of these the first. A pair without a walk adds nothing. The call takes a search
 * for each pair, and beside the searches some steps for each leg of the hierarchy, once for all pairs. Flows of parts of the
 * pairs add up, so that several threads can share the pairs.
 * Errors: CHTAB_CLOSED, CHTAB_LENGTHS, CHTAB_NODE_RANGE, CHTAB_NO_MEMORY. With CHTAB_SUM_TOO_LARGE a flow is more than 2^63. With
 * an error nothing is written. */
uint32_t chtab_flows(chtab *handle, const uint32_t *sources, size_t sources_len, const uint32_t *targets, size_t targets_len,
                     const uint64_t *demands, size_t demands_len, uint64_t *missed, uint64_t *flows, size_t flows_len);

/* Writes the flows and the number of pairs without a walk as chtab_flows does, of the pairs of each source with each target:
 * demands[i * targets_len + j] is what goes from sources[i] to targets[j]. The call takes a search for each source and for each
 * target, and then some steps for each pair, so that it is far faster than chtab_flows with the same pairs. It keeps what the
 * searches from targets found. Flows of parts of the sources add up, so that several threads can share these.
 * Errors: those of chtab_flows, and CHTAB_LENGTHS if demands_len is not sources_len * targets_len. With an error nothing is
 * written. */
uint32_t chtab_flows_table(chtab *handle, const uint32_t *sources, size_t sources_len, const uint32_t *targets,
                           size_t targets_len, const uint64_t *demands, size_t demands_len, uint64_t *missed, uint64_t *flows,
                           size_t flows_len);

/* Searches from each of these nodes, the places, and keeps the results for near rows. They replace the places that the
 * handle kept. A row has the first `count` places (CHTAB_ALL: all of them) in order of distance, and at equal distances in
 * the order of this list. It has only places whose distance is at most `limit` (CHTAB_NO_LIMIT: all places with a walk).
 * If is_from is 0, distances go from a source to the places, and otherwise from the places to a source. The list may have a
 * node more than once. The call takes the time of one search for each place. An empty list frees what was kept.
 * Errors: CHTAB_CLOSED, CHTAB_TOO_LARGE, CHTAB_NODE_RANGE, CHTAB_NO_MEMORY. Then the places that were kept stay. */
uint32_t chtab_near_places(chtab *handle, uint32_t is_from, const uint32_t *places, size_t places_len, uint64_t limit,
                           uint32_t count);

/* Makes the near rows of all nodes in one sweep, and keeps them with the places: 16 bytes for each pair of each row. This
 * is faster than one search for each node. Afterwards chtab_near_rows copies rows and makes no search. No answer changes.
 * Errors: CHTAB_CLOSED, CHTAB_NO_PLACES, CHTAB_NO_MEMORY. */
uint32_t chtab_near_sweep(chtab *handle);

/* Writes the near rows of sources, one after the other, and their number to `rows`. Row i is the row of sources[i]. Its
 * pairs are at the places from ends[i - 1], or from 0 for the first row, up to ends[i] - 1. For each of these j, weights[j]
 * is a distance, and places[j] is its place, counted from 0 in the order of chtab_near_places. ends_len is sources_len, and
 * places_len is weights_len. The call takes the time of one search for each source, or of a copy after chtab_near_sweep.
 * Errors: CHTAB_CLOSED, CHTAB_LENGTHS, CHTAB_NO_PLACES, CHTAB_NODE_RANGE. With CHTAB_TOO_SHORT or CHTAB_NO_MEMORY the first
 * rows are written, and `rows` is their number: there is not enough room or memory for the next row. Ask for the other
 * sources in a further call. Room for as many pairs as there are places, or for `count` pairs, is always enough for one
 * row. */
uint32_t chtab_near_rows(chtab *handle, const uint32_t *sources, size_t sources_len, uint64_t *rows, uint64_t *ends,
                         size_t ends_len, uint64_t *weights, size_t weights_len, uint32_t *places, size_t places_len);

/* Writes the near rows of sources as chtab_near_rows does, and for each pair the sum of the values that chtab_keep_values keeps:
 * sums[j] is that along the route of the pair at weights[j] and places[j], in the direction of chtab_near_places. Routes are
 * those of chtab_routes. sums_len is places_len. The call takes one more search for each source, and one for each place that a
 * row has for the first time. What these find stays with the places until other places or other values are kept.
 * Errors: CHTAB_CLOSED, CHTAB_NO_VALUES, CHTAB_LENGTHS, CHTAB_NO_PLACES, CHTAB_NODE_RANGE. With CHTAB_TOO_SHORT,
 * CHTAB_SUM_TOO_LARGE or CHTAB_NO_MEMORY the first rows are written, and `rows` is their number: there is not enough room for
 * the next row, one of its sums is 2^64 or more, or there is no memory for it. */
uint32_t chtab_kept_near_sums(chtab *handle, const uint32_t *sources, size_t sources_len, uint64_t *rows, uint64_t *ends,
                              size_t ends_len, uint64_t *weights, size_t weights_len, uint32_t *places, size_t places_len,
                              uint64_t *sums, size_t sums_len);

/* Writes sums over the near rows of sources, and the number of sources to `rows`. sums[i * limits_len + j] is for sources[i]
 * the sum of the values of the places whose distances are at most limits[j]. values[p] is the value of place p, in the order
 * of chtab_near_places, and values_len is the number of places. A sum has only places that the near row has: the limit and
 * the count of chtab_near_places hold too. sums_len is sources_len times limits_len. The call takes the time of one search
 * for each source, or of a look at its row after chtab_near_sweep.
 * Errors: CHTAB_CLOSED, CHTAB_NO_PLACES, CHTAB_LENGTHS, CHTAB_NODE_RANGE. With CHTAB_SUM_TOO_LARGE or CHTAB_NO_MEMORY the
 * sums of the first sources are written, and `rows` is their number: a sum of the next source is 2^64 or more, or there is
 * no memory for its row. */
uint32_t chtab_near_sums(chtab *handle, const uint32_t *sources, size_t sources_len, const uint64_t *values,
                         size_t values_len, const uint64_t *limits, size_t limits_len, uint64_t *rows, uint64_t *sums,
                         size_t sums_len);

/* Writes rows of a table over the places, one after the other, and the number of rows to `rows`. cells[i * n + j] is the distance
 * with sources[i] of place j, in the order and the direction of chtab_near_places, which was given n places. It is
 * CHTAB_NO_DISTANCE if there is no walk, or if the distance is above the limit of that call. cells_len is sources_len times n.
 * The call takes the time of one search for each source, also after chtab_near_sweep. Thus a large table takes one search for
 * each place and one for each source, in as many calls as you like.
 * Errors: CHTAB_CLOSED; CHTAB_NO_PLACES, also if the `count` of chtab_near_places is below n; CHTAB_LENGTHS, CHTAB_NODE_RANGE.
 * With CHTAB_NO_MEMORY the first rows are written, and `rows` is their number. Ask for the other sources in a further call. */
uint32_t chtab_near_table(chtab *handle, const uint32_t *sources, size_t sources_len, uint64_t *rows, uint64_t *cells,
                          size_t cells_len);

/* Returns the text of a status, for every number. The text stays valid. */
CHTAB_INLINE const char *chtab_strerror(uint32_t status) {
    switch (status) {
    case CHTAB_OK: return "done";
    case CHTAB_NO_MEMORY: return "out of memory";
    case CHTAB_CLOSED: return "the handle is closed";
    case CHTAB_IS_OPEN: return "the handle is open already";
    case CHTAB_NODE_RANGE: return "node out of range";
    case CHTAB_LENGTHS: return "lengths do not fit";
    case CHTAB_TOO_LARGE: return "too many sources, targets or places";
    case CHTAB_TOO_SHORT: return "not enough room for the answer";
    case CHTAB_BAD_GRAPH: return "bad graph";
    case CHTAB_BAD_SAVED: return "bad hierarchy";
    case CHTAB_WRONG_SAVED: return "the hierarchy is not right for the graph";
    case CHTAB_NO_PLACES: return "no near places are kept";
    case CHTAB_SUM_TOO_LARGE: return "a sum is too large";
    case CHTAB_OTHER_NODES: return "another number of nodes";
    case CHTAB_FRESH_RANGE: return "more than 100 per cent afresh";
    case CHTAB_TRIANGLES: return "too many triangles";
    case CHTAB_NO_VALUES: return "no values of lines are kept";
    }
    return "unknown status";
}

#ifdef __cplusplus
}
#endif
#endif
