/* Opens a network and asks it for distances, a table, routes, sums along them, near rows and their sums: once each way, and once each wrong way that a program can take.
 *
 *   example GRAPH SAVED
 *
 * Prints what it is answered, and ends with status 0 if all of it is as it must be. */
#include <chtab.h>

#include <stdio.h>
#include <stdlib.h>
#include <string.h>

static int failures = 0;

static void expect(int holds, const char *told) {
    if (!holds) {
        printf("failed: %s\n", told);
        failures++;
    }
}

/* All bytes of a file, which the caller frees. */
static uint8_t *bytes_of(const char *path, size_t *len) {
    FILE *file = fopen(path, "rb");
    uint8_t *bytes;
    long size;
    if (!file || fseek(file, 0, SEEK_END) || (size = ftell(file)) < 0) exit(2);
    rewind(file);
    bytes = (uint8_t *)malloc((size_t)size + 1);
    if (!bytes || fread(bytes, 1, (size_t)size, file) != (size_t)size) exit(2);
    fclose(file);
    *len = (size_t)size;
    return bytes;
}

/* The route of one pair, with its weight and the number of its nodes. A call that is refused leaves the number of routes too. */
static uint32_t route_of(chtab *network, uint32_t source, uint32_t target, uint64_t *weight, uint64_t *length, uint32_t *nodes, size_t room) {
    uint64_t routes = 9;
    uint32_t status = chtab_routes(network, &source, 1, &target, 1, &routes, weight, 1, length, 1, nodes, room, nodes, 0);
    expect(routes == (status == CHTAB_OK ? 1 : status == CHTAB_TOO_SHORT ? 0 : 9), "the number of routes");
    return status;
}

static void ask(chtab *network) {
    static uint32_t nodes[100000];
    uint32_t sources[2] = {0, 1}, targets[2], count = 0, k;
    uint64_t pairs[2], cells[4], weight, length;
    expect(chtab_nodes(network, &count) == CHTAB_OK && count > 1, "nodes");
    targets[0] = count - 1;
    targets[1] = count / 2;
    expect(chtab_distances(network, sources, 2, targets, 2, pairs, 2) == CHTAB_OK, "distances");
    expect(chtab_table(network, sources, 2, targets, 2, CHTAB_NO_LIMIT, cells, 4) == CHTAB_OK, "table");
    expect(cells[0] == pairs[0] && cells[3] == pairs[1], "a cell is the distance of its pair");
    expect(route_of(network, sources[0], targets[0], &weight, &length, nodes, 100000) == CHTAB_OK, "route");
    expect(weight == pairs[0], "a route weighs the distance");
    printf("nodes %lu distances %lu %lu cells %lu %lu route", (unsigned long)count, (unsigned long)pairs[0], (unsigned long)pairs[1],
           (unsigned long)cells[1], (unsigned long)cells[2]);
    for (k = 0; k < length; k++) printf(" %lu", (unsigned long)nodes[k]);
    printf("\n");
}

/* The rows of two sources to two places: each with the distances of its pairs, in order, by searches and by the sweep. */
static void ask_near(chtab *network) {
    uint32_t sources[2] = {0, 1}, places[2], found[4] = {7, 7, 7, 7}, count = 0, k, swept;
    uint64_t ends[2] = {5, 5}, weights[4] = {5, 5, 5, 5}, rows = 9, cells[4], begin = 0;
    expect(chtab_near_sweep(network) == CHTAB_NO_PLACES, "no places to sweep to");
    expect(chtab_near_rows(network, sources, 2, &rows, ends, 2, weights, 4, found, 4) == CHTAB_NO_PLACES, "no places");
    expect(rows == 9 && ends[0] == 5 && weights[0] == 5 && found[0] == 7, "a refusal writes no row");
    expect(chtab_nodes(network, &count) == CHTAB_OK, "nodes");
    places[0] = count - 1;
    places[1] = count / 2;
    expect(chtab_table(network, sources, 2, places, 2, CHTAB_NO_LIMIT, cells, 4) == CHTAB_OK, "table");
    expect(chtab_near_places(network, 0, &count, 1, CHTAB_NO_LIMIT, CHTAB_ALL) == CHTAB_NODE_RANGE, "a place past the nodes");
    expect(chtab_near_places(network, 0, places, 2, CHTAB_NO_LIMIT, CHTAB_ALL) == CHTAB_OK, "places");
    for (swept = 0; swept < 2; swept++) {
        if (swept) expect(chtab_near_sweep(network) == CHTAB_OK, "sweep");
        expect(chtab_near_rows(network, sources, 2, &rows, ends, 2, weights, 4, found, 4) == CHTAB_OK && rows == 2, "near rows");
        expect(ends[0] <= 2 && ends[1] <= 4, "at most two pairs a row");
        for (k = 0; k < ends[1]; k++) {
            expect(found[k] < 2 && weights[k] == cells[(k < ends[0] ? 0 : 2) + found[k]], "a pair has its cell's distance");
            expect(k == 0 || k == ends[0] || weights[k - 1] <= weights[k], "pairs are in order");
        }
    }
    expect(chtab_near_places(network, 1, places, 2, 0, 1) == CHTAB_OK, "places from which");
    expect(chtab_near_rows(network, places, 2, &rows, ends, 2, weights, 1, found, 1) == CHTAB_TOO_SHORT && rows == 1, "room for a row");
    expect(ends[0] == 1 && weights[0] == 0 && found[0] == 0, "a place is the nearest to itself");
    for (k = 0; k < 2; k++) {
        expect(chtab_near_rows(network, places + k, 1, &rows, ends, 1, weights, 1, found, 1) == CHTAB_OK && rows == 1, "one row");
        begin += ends[0];
    }
    expect(begin == 2, "each place has a row of one pair");
}

/* Two routes in one call, also where there is room for one: each is the one that is given alone. */
static void ask_routes(chtab *network) {
    static uint32_t nodes[100000], way[100000], lines[100000];
    uint32_t sources[2] = {0, 1}, targets[2], count = 0, k;
    uint64_t routes = 9, weights[2] = {5, 5}, ends[2] = {5, 5}, begin, end, weight, length;
    expect(chtab_nodes(network, &count) == CHTAB_OK, "nodes");
    targets[0] = count / 2;
    targets[1] = count - 1;
    expect(chtab_routes(network, sources, 2, &count, 1, &routes, weights, 2, ends, 2, nodes, 100000, nodes, 0) == CHTAB_LENGTHS && routes == 9, "lengths of routes");
    expect(chtab_routes(network, sources, 2, targets, 2, &routes, weights, 2, ends, 2, nodes, 100000, lines, 100000) == CHTAB_OK && routes == 2, "routes");
    expect(lines[0] == CHTAB_NO_LINE && lines[ends[0]] == CHTAB_NO_LINE, "no arc leads to the first node of a route");
    for (k = 0; k < 2; k++) {
        begin = k ? ends[0] : 0;
        end = ends[k];
        expect(route_of(network, sources[k], targets[k], &weight, &length, way, 100000) == CHTAB_OK && weight == weights[k], "one route");
        expect(length == end - begin && !memcmp(way, nodes + begin, (size_t)(end - begin) * sizeof *way), "the nodes of one route");
    }
    expect(chtab_routes(network, sources, 2, targets, 2, &routes, weights, 2, ends, 2, nodes, (size_t)ends[1] - 1, way, 0) == CHTAB_TOO_SHORT && routes == 1, "room for one route");
}

/* The sums along two routes of as many arcs as values of 1 count, and a sum that is too large. */
static void ask_route_sums(chtab *network, size_t arcs) {
    static uint32_t nodes[100000];
    uint32_t sources[2] = {0, 0}, targets[2] = {0, 0}, count = 0;
    uint64_t *values = (uint64_t *)malloc(arcs * sizeof *values), weights[2] = {5, 5}, sums[2] = {5, 5}, pairs = 9, weight, length;
    size_t k;
    if (!values) exit(2);
    for (k = 0; k < arcs; k++) values[k] = 1;
    expect(chtab_nodes(network, &count) == CHTAB_OK, "nodes");
    targets[1] = count - 1;
    expect(chtab_route_sums(network, sources, 2, targets, 2, values, arcs - 1, &pairs, weights, 2, sums, 2) == CHTAB_LENGTHS && pairs == 9 && weights[0] == 5 && sums[0] == 5,
           "a value too few");
    expect(chtab_route_sums(network, sources, 2, targets, 2, values, arcs, &pairs, weights, 2, sums, 2) == CHTAB_OK && pairs == 2, "sums along routes");
    expect(route_of(network, 0, count - 1, &weight, &length, nodes, 100000) == CHTAB_OK && weight == weights[1] && length == sums[1] + 1, "the arcs of a route");
    expect(weights[0] == 0 && sums[0] == 0 && sums[1] > 1, "no arcs to the same node");
    for (k = 0; k < arcs; k++) values[k] = CHTAB_NO_LIMIT;
    expect(chtab_route_sums(network, sources, 2, targets, 2, values, arcs, &pairs, weights, 2, sums, 2) == CHTAB_SUM_TOO_LARGE && pairs == 1, "a sum along a route too large");
    free(values);
}

/* The number of arcs of a graph's text. */
static size_t count_arcs(const uint8_t *graph, size_t graph_len) {
    size_t count = 0, at;
    for (at = 0; at < graph_len; at++) count += graph[at] == 'a' && (at == 0 || graph[at - 1] == '\n');
    return count;
}

/* The sums of a source within two limits, over two places that it is one of, and a sum that is too large. */
static void ask_sums(chtab *network) {
    uint32_t source = 0, places[2] = {0, 0};
    uint64_t values[2] = {3, 4}, limits[2] = {0, 9}, sums[2] = {5, 5}, cells[2] = {5, 5}, rows = 9;
    expect(chtab_near_places(network, 0, places, 2, CHTAB_NO_LIMIT, CHTAB_ALL) == CHTAB_OK, "places");
    expect(chtab_near_sums(network, &source, 1, values, 1, limits, 2, &rows, sums, 2) == CHTAB_LENGTHS && rows == 9 && sums[0] == 5, "lengths of sums");
    expect(chtab_near_sums(network, &source, 1, values, 2, limits, 2, &rows, sums, 2) == CHTAB_OK && rows == 1, "sums");
    expect(sums[0] == 7 && sums[1] == 7, "a place that is the source counts");
    expect(chtab_near_table(network, &source, 1, &rows, cells, 1) == CHTAB_LENGTHS && cells[0] == 5, "lengths of cells");
    expect(chtab_near_table(network, &source, 1, &rows, cells, 2) == CHTAB_OK && rows == 1 && !cells[0] && !cells[1], "cells of kept places");
    values[0] = CHTAB_NO_LIMIT;
    expect(chtab_near_sums(network, &source, 1, values, 2, limits, 2, &rows, sums, 2) == CHTAB_SUM_TOO_LARGE && rows == 0 && sums[0] == 7, "a sum too large");
}

/* The text of the hierarchy is that of its file. */
static void save(chtab *network, const uint8_t *saved, size_t saved_len) {
    uint64_t size = 0;
    uint8_t *text, none = 7;
    expect(chtab_save(network, &size, &none, 0) == CHTAB_TOO_SHORT && size == saved_len && none == 7, "the size of the text");
    text = (uint8_t *)malloc((size_t)size);
    if (!text) exit(2);
    expect(chtab_save(network, &size, text, (size_t)size) == CHTAB_OK && !memcmp(text, saved, saved_len), "the text");
    free(text);
}

/* The graph alone answers the same. */
static void open_quick(chtab *network, const uint8_t *graph, size_t graph_len) {
    chtab quick = CHTAB_CLOSED_HANDLE;
    chtab_fault fault = {9, 9, 9};
    uint32_t source = 0, target = 1;
    uint64_t one = 5, other = 7;
    expect(chtab_open_quick(&quick, graph, 0, &fault) == CHTAB_BAD_GRAPH && fault.line == 1, "no graph alone");
    expect(chtab_open_quick(&quick, graph, graph_len, &fault) == CHTAB_OK, "open a graph alone");
    expect(chtab_open_quick(&quick, graph, graph_len, &fault) == CHTAB_IS_OPEN, "open a graph alone again");
    expect(chtab_distances(network, &source, 1, &target, 1, &one, 1) == CHTAB_OK, "a distance by the saved hierarchy");
    expect(chtab_distances(&quick, &source, 1, &target, 1, &other, 1) == CHTAB_OK && one == other, "the distance by the one that is built");
    expect(chtab_close(&quick) == CHTAB_OK, "close what was opened alone");
}

/* The same graph in the order of its own network answers the same. */
static void open_like(chtab *network, const uint8_t *graph, size_t graph_len) {
    chtab like = CHTAB_CLOSED_HANDLE, closed = CHTAB_CLOSED_HANDLE;
    chtab_fault fault = {9, 9, 9};
    uint32_t source = 0, target = 1;
    uint64_t one = 5, other = 7;
    expect(chtab_open_like(&like, graph, graph_len, &closed, CHTAB_FRESH, &fault) == CHTAB_CLOSED && fault.line == 9, "the order of a closed handle");
    expect(chtab_open_like(&like, graph, 0, network, CHTAB_FRESH, &fault) == CHTAB_BAD_GRAPH && fault.line == 1, "no graph in an order");
    expect(chtab_open_like(&like, graph, graph_len, network, 101, &fault) == CHTAB_FRESH_RANGE && fault.line == 0, "more than all afresh");
    expect(chtab_open_like(&like, graph, graph_len, network, CHTAB_FRESH, &fault) == CHTAB_OK, "open in an order");
    expect(chtab_open_like(&like, graph, graph_len, network, CHTAB_FRESH, &fault) == CHTAB_IS_OPEN, "open in an order again");
    expect(chtab_distances(network, &source, 1, &target, 1, &one, 1) == CHTAB_OK, "a distance of the network");
    expect(chtab_distances(&like, &source, 1, &target, 1, &other, 1) == CHTAB_OK && one == other, "the distance in its order");
    expect(chtab_close(&like) == CHTAB_OK, "close what was opened in an order");
}

static void ask_wrongly(chtab *network) {
    uint32_t node = 0, past = 0, nodes[1] = {7};
    uint64_t out[2] = {5, 5}, weight = 3, length = 3;
    expect(chtab_nodes(network, &past) == CHTAB_OK, "nodes");
    expect(chtab_distances(network, &past, 1, &node, 1, out, 1) == CHTAB_NODE_RANGE, "a source past the nodes");
    expect(chtab_distances(network, &node, 1, &node, 1, out, 2) == CHTAB_LENGTHS, "lengths of distances");
    expect(chtab_table(network, &node, 1, &past, 1, 0, out, 1) == CHTAB_NODE_RANGE, "a target past the nodes");
    expect(chtab_table(network, &node, 1, &node, 1, 0, out, 2) == CHTAB_LENGTHS, "lengths of a table");
    expect(route_of(network, past, node, &weight, &length, nodes, 1) == CHTAB_NODE_RANGE, "a route from past the nodes");
    expect(out[0] == 5 && out[1] == 5 && weight == 3 && length == 3 && nodes[0] == 7, "a refusal writes nothing");
    expect(chtab_near_rows(network, &node, 1, out, out, 0, out, 1, nodes, 1) == CHTAB_LENGTHS, "lengths of ends");
    expect(chtab_near_rows(network, &node, 1, out, out, 1, out, 2, nodes, 1) == CHTAB_LENGTHS, "lengths of near rows");
    expect(out[0] == 5 && out[1] == 5 && nodes[0] == 7, "a refusal writes no row");
    expect(route_of(network, node, node, &weight, &length, nodes, 0) == CHTAB_TOO_SHORT && weight == 3 && length == 3 && nodes[0] == 7, "no room");
    expect(route_of(network, node, node, &weight, &length, nodes, 1) == CHTAB_OK && weight == 0 && length == 1 && nodes[0] == 0, "a route of one node");
}

int main(int count, char **words) {
    chtab network = CHTAB_CLOSED_HANDLE, other = CHTAB_CLOSED_HANDLE;
    chtab_fault fault = {9, 9, 9};
    size_t graph_len, saved_len, arcs;
    uint8_t *graph, *saved;
    uint32_t nodes = 6;
    uint64_t ends[1] = {5};
    uint8_t byte = 7;
    if (count != 3) return 2;
    graph = bytes_of(words[1], &graph_len);
    saved = bytes_of(words[2], &saved_len);
    expect(chtab_version() == CHTAB_VERSION, "the version");
    expect(chtab_nodes(&network, &nodes) == CHTAB_CLOSED && nodes == 6, "a closed handle");
    expect(chtab_close(&network) == CHTAB_CLOSED, "a closed handle closed");
    expect(chtab_save(&network, ends, &byte, 1) == CHTAB_CLOSED && ends[0] == 5 && byte == 7, "a closed handle saved");
    expect(chtab_share(&network, &other) == CHTAB_CLOSED, "a closed handle shared");
    expect(chtab_open(&network, saved, saved_len, saved, saved_len, &fault) == CHTAB_BAD_GRAPH, "no graph");
    expect(fault.line == 1 && fault.kind == CHTAB_FAULT_BAD_PROBLEM && fault.place == 0, "the fault of a graph");
    expect(chtab_open(&network, graph, graph_len, graph, graph_len, &fault) == CHTAB_BAD_SAVED, "no hierarchy");
    expect(chtab_open(&network, graph, graph_len, saved, saved_len, &fault) == CHTAB_OK, "open");
    expect(chtab_open(&network, graph, graph_len, saved, saved_len, &fault) == CHTAB_IS_OPEN, "open again");
    arcs = count_arcs(graph, graph_len);
    save(&network, saved, saved_len);
    open_quick(&network, graph, graph_len);
    open_like(&network, graph, graph_len);
    free(graph);
    free(saved);
    expect(chtab_share(&network, &other) == CHTAB_OK, "share");
    expect(chtab_share(&network, &other) == CHTAB_IS_OPEN, "share into an open handle");
    expect(chtab_close(&network) == CHTAB_OK, "close");
    expect(chtab_close(&network) == CHTAB_CLOSED, "close again");
    ask(&other);
    ask_near(&other);
    ask_routes(&other);
    ask_route_sums(&other, arcs);
    ask_sums(&other);
    ask_wrongly(&other);
    expect(chtab_close(&other) == CHTAB_OK, "close the other");
    return failures > 0;
}
