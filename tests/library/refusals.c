/* Refuses each request for memory of each call in turn, alone and with all that come after it.
 *
 *   refusals GRAPH [SAVED]
 *
 * Without SAVED the hierarchy is built, and only opening is tried: the graph alone, and then in the order of the network that it gives.
 *
 * Each call answers what it answers with ample memory, or CHTAB_NO_MEMORY; then its handle and its outputs are as before, and the same call
 * made again is answered. Link it with the archive and `-Wl,--wrap=malloc,--wrap=realloc`. It prints how many requests it refused. */
#include <chtab.h>

#include <stdio.h>
#include <stdlib.h>
#include <string.h>

enum { MOST_NODES = 100000, FEW_NODES = 1000 };

/* Requests before the one that is refused, or -1 where none is; and whether those after it are refused too. */
static long granted = -1;
static int all_after = 0;
static long refused = 0;
static int failures = 0;

void *__real_malloc(size_t size);
void *__real_realloc(void *block, size_t size);
void *__wrap_malloc(size_t size);
void *__wrap_realloc(void *block, size_t size);

static int is_refused(void) {
    if (granted < 0) return 0;
    if (granted > 0) {
        granted--;
        return 0;
    }
    if (!all_after) granted = -1;
    refused++;
    return 1;
}

void *__wrap_malloc(size_t size) { return is_refused() ? NULL : __real_malloc(size); }
void *__wrap_realloc(void *block, size_t size) { return is_refused() ? NULL : __real_realloc(block, size); }

static void expect(int holds, const char *told) {
    if (!holds) {
        printf("failed: %s\n", told);
        failures++;
    }
}

/* The values of places. */
static const uint64_t VALUES[8] = {1, 2, 3, 4, 5, 6, 7, 8};

/* What the calls are given, and what they write. */
static struct {
    uint8_t *graph, *saved, *text;
    size_t graph_len, saved_len;
    chtab network, other;
    chtab_topology topology, second;
    uint32_t ends[8], targets[8];
    uint32_t nodes[MOST_NODES];
    uint32_t lines[MOST_NODES];
    uint64_t cells[64];
    uint64_t row_ends[8];
    uint32_t places[64];
    /* The weights of the graph's arcs, their ends, their number, and that of nodes. */
    uint64_t *values;
    uint32_t *tails, *heads, count;
    size_t arcs;
    /* What the weights of all routes, or all sums, add up to. */
    uint64_t whole;
} g;

static uint32_t open_network(void) {
    chtab_fault fault = {9, 9, 9};
    uint32_t status = chtab_open(&g.network, g.graph, g.graph_len, g.saved, g.saved_len, &fault), count;
    if (status) expect(!fault.line && !fault.place && !fault.kind && chtab_nodes(&g.network, &count) == CHTAB_CLOSED, "a handle stays closed");
    return status;
}

/* The graph's arcs as arrays. The hierarchy that is built, or the saved one. */
static uint32_t open_arrays(void) {
    chtab_fault fault = {9, 9, 9};
    uint32_t count, status = chtab_open_arrays(&g.network, g.count, g.tails, g.arcs, g.heads, g.arcs, g.values, g.arcs, g.saved, g.saved_len, &fault);
    if (status) expect(!fault.line && !fault.place && !fault.kind && chtab_nodes(&g.network, &count) == CHTAB_CLOSED, "a handle stays closed");
    return status;
}

static uint32_t open_quick(void) {
    chtab_fault fault = {9, 9, 9};
    uint32_t status = chtab_open_quick(&g.other, g.graph, g.graph_len, &fault), count;
    if (status) expect(!fault.line && !fault.place && !fault.kind && chtab_nodes(&g.other, &count) == CHTAB_CLOSED, "a handle stays closed");
    return status;
}

static uint32_t share_network(void) {
    uint32_t status = chtab_share(&g.network, &g.other), count;
    expect(chtab_nodes(&g.network, &count) == CHTAB_OK, "the shared handle stays open");
    if (status) expect(chtab_nodes(&g.other, &count) == CHTAB_CLOSED, "the other handle stays closed");
    return status;
}

/* In the order of the network that is open, which stays as it is. */
static uint32_t open_like(void) {
    chtab_fault fault = {9, 9, 9};
    uint32_t status = chtab_open_like(&g.other, g.graph, g.graph_len, &g.network, CHTAB_FRESH, &fault), count;
    expect(chtab_nodes(&g.network, &count) == CHTAB_OK, "the handle that gives its order stays open");
    if (status) expect(!fault.line && !fault.place && !fault.kind && chtab_nodes(&g.other, &count) == CHTAB_CLOSED, "a handle stays closed");
    return status;
}

/* The topology of the graph, in an order that is found, or in that of the saved hierarchy. */
static uint32_t open_topology(void) {
    chtab_fault fault = {9, 9, 9};
    uint32_t status = chtab_topology_open(&g.topology, g.graph, g.graph_len, g.saved, g.saved_len, &fault);
    if (status) expect(!fault.line && !fault.place && !fault.kind && chtab_topology_order(&g.topology, g.nodes, 0) == CHTAB_CLOSED, "a topology stays closed");
    return status;
}

static uint32_t open_topology_arrays(void) {
    chtab_fault fault = {9, 9, 9};
    uint32_t status = chtab_topology_open_arrays(&g.second, g.count, g.tails, g.arcs, g.heads, g.arcs, g.saved, g.saved_len, &fault);
    if (status) expect(!fault.line && !fault.place && !fault.kind && chtab_topology_order(&g.second, g.nodes, 0) == CHTAB_CLOSED, "a topology stays closed");
    return status;
}

static uint32_t share_topology(void) {
    uint32_t status = chtab_topology_share(&g.topology, &g.second);
    expect(chtab_topology_order(&g.topology, g.nodes, g.count) == CHTAB_OK, "the shared topology stays open");
    if (status) expect(chtab_topology_order(&g.second, g.nodes, 0) == CHTAB_CLOSED, "the other topology stays closed");
    return status;
}

/* The weights of the graph on its topology, which stays as it is. */
static uint32_t customize(void) {
    chtab_fault fault = {9, 9, 9};
    uint32_t status = chtab_customized(&g.other, &g.topology, g.values, g.arcs, &fault), count;
    expect(chtab_topology_order(&g.topology, g.nodes, g.count) == CHTAB_OK, "the topology stays open");
    if (status) expect(!fault.line && !fault.place && !fault.kind && chtab_nodes(&g.other, &count) == CHTAB_CLOSED, "a handle stays closed");
    return status;
}

static uint32_t make_table(void) {
    uint32_t status;
    int k;
    memset(g.cells, 7, sizeof g.cells);
    status = chtab_table(&g.network, g.ends, 8, g.ends, 8, CHTAB_NO_LIMIT, g.cells, 64);
    for (k = 0; status && k < (int)sizeof g.cells; k++) expect(((unsigned char *)g.cells)[k] == 7, "a table stays");
    return status;
}

static uint32_t find_route(void) {
    uint64_t routes = 9, weight = 3, length = 3;
    uint32_t status;
    g.nodes[0] = 7;
    status = chtab_routes(&g.network, g.ends, 1, g.ends + 7, 1, &routes, &weight, 1, &length, 1, g.nodes, MOST_NODES, g.lines, 0);
    expect(status ? !routes && weight == 3 && length == 3 && g.nodes[0] == 7 : routes == 1, "a route, or nothing of it");
    return status;
}

static uint32_t save_text(void) {
    uint64_t size = 9;
    uint32_t status;
    memset(g.text, 7, g.saved_len);
    status = chtab_save(&g.network, &size, g.text, g.saved_len);
    expect(status ? size == 9 && g.text[0] == 7 : size == g.saved_len && !memcmp(g.text, g.saved, g.saved_len), "a text, or nothing of it");
    return status;
}

/* Rows of the first `count` ends among the kept places, with no request refused, whatever is refused after them. */
static uint64_t pairs_of(size_t count) {
    uint64_t rows = 9;
    long kept = granted;
    granted = -1;
    expect(chtab_near_rows(&g.network, g.ends, count, &rows, g.row_ends, count, g.cells, 64, g.places, 64) == CHTAB_OK && rows == count, "near rows");
    granted = kept;
    return g.row_ends[count - 1];
}

static void keep_one_place(void) {
    expect(chtab_near_places(&g.network, 0, g.ends, 1, CHTAB_NO_LIMIT, CHTAB_ALL) == CHTAB_OK && pairs_of(1) == 1, "one place");
}

/* Where places are refused memory, the one before stays. */
static uint32_t keep_places(void) {
    uint32_t status = chtab_near_places(&g.network, 0, g.ends, 8, CHTAB_NO_LIMIT, CHTAB_ALL);
    if (status) expect(pairs_of(1) == 1, "places stay");
    return status;
}

static void keep_all_places(void) {
    expect(chtab_near_places(&g.network, 0, g.ends, 8, CHTAB_NO_LIMIT, CHTAB_ALL) == CHTAB_OK, "all places");
}

static uint32_t sweep_rows(void) {
    uint32_t status = chtab_near_sweep(&g.network);
    expect(pairs_of(8) >= 8, "places stay");
    return status;
}

/* Where a row is refused memory, those before it are written, and the next call gives the others. */
static uint32_t write_rows(void) {
    uint64_t rows = 9, from = 0, pairs = pairs_of(8);
    uint32_t status;
    long kept = granted;
    granted = -1;
    keep_all_places();
    granted = kept;
    status = chtab_near_rows(&g.network, g.ends, 8, &rows, g.row_ends, 8, g.cells, 64, g.places, 64);
    granted = -1;
    expect((status == CHTAB_OK) == (rows == 8) && rows <= 8, "rows before the one that is refused");
    if (rows) from = g.row_ends[rows - 1];
    if (rows < 8) {
        expect(chtab_near_rows(&g.network, g.ends + rows, 8 - rows, &rows, g.row_ends, 8 - rows, g.cells, 64, g.places, 64) == CHTAB_OK, "other rows");
        from += g.row_ends[rows - 1];
    }
    expect(from == pairs, "all rows");
    return status;
}

/* Takes no memory. */
static uint64_t distance_of(uint32_t source, uint32_t target) {
    uint64_t weight = 0;
    expect(chtab_distances(&g.network, &source, 1, &target, 1, &weight, 1) == CHTAB_OK, "a distance");
    return weight;
}

/* The arcs of a route. */
static uint64_t arcs_between(uint32_t source, uint32_t target) {
    uint64_t routes, weight, length = 0;
    expect(chtab_routes(&g.network, &source, 1, &target, 1, &routes, &weight, 1, &length, 1, g.nodes, MOST_NODES, g.lines, 0) == CHTAB_OK, "a route");
    return length ? length - 1 : 0;
}

/* Where a route is refused memory, those before it are written, and the next call gives the others. */
static uint32_t write_routes(void) {
    uint64_t routes = 9, weight = 0;
    uint32_t status, k;
    status = chtab_routes(&g.network, g.ends, 8, g.targets, 8, &routes, g.cells, 8, g.row_ends, 8, g.nodes, MOST_NODES, g.lines, MOST_NODES);
    granted = -1;
    expect((status == CHTAB_OK) == (routes == 8) && routes <= 8, "routes before the one that is refused");
    for (k = 0; k < routes; k++) weight += g.cells[k];
    if (routes < 8) {
        uint32_t from = (uint32_t)routes, left = 8 - from;
        expect(chtab_routes(&g.network, g.ends + from, left, g.targets + from, left, &routes, g.cells, left, g.row_ends, left, g.nodes, MOST_NODES,
                            g.lines, 0) == CHTAB_OK && routes == left, "other routes");
        for (k = 0; k < left; k++) weight += g.cells[k];
    }
    expect(weight == g.whole, "all routes");
    return status;
}

/* Where a route is refused memory, the sums of the pairs before are written, and the next call gives the others. The weights are the values, so that
 * each sum is a weight. */
static uint32_t write_route_sums(void) {
    uint64_t pairs = 9, weight = 0;
    uint32_t status, k;
    memset(g.cells, 7, sizeof g.cells);
    status = chtab_route_sums(&g.network, g.ends, 8, g.targets, 8, g.values, g.arcs, &pairs, g.row_ends, 8, g.cells, 8);
    granted = -1;
    expect((status == CHTAB_OK) == (pairs == 8) && pairs <= 8, "sums before the route that is refused");
    for (k = 0; k < pairs; k++) expect(g.cells[k] == (g.row_ends[k] == CHTAB_NO_DISTANCE ? 0 : g.row_ends[k]), "a sum is a weight");
    for (k = 0; k < pairs; k++) weight += g.row_ends[k];
    for (; k < 8; k++) expect(!memcmp(g.cells + k, g.cells + 8, sizeof *g.cells), "a sum stays");
    if (pairs < 8) {
        uint32_t from = (uint32_t)pairs, left = 8 - from;
        expect(chtab_route_sums(&g.network, g.ends + from, left, g.targets + from, left, g.values, g.arcs, &pairs, g.row_ends, left, g.cells, left) == CHTAB_OK &&
               pairs == left, "other sums along routes");
        for (k = 0; k < left; k++) weight += g.row_ends[k];
    }
    expect(weight == g.whole, "all weights of routes");
    return status;
}

/* Where values are refused memory, those before stay: each of them is 1, so that a sum counts the arcs of a route. */
static void expect_kept(const char *told) {
    uint64_t cells = 9, weight = 9, sum = 9;
    long kept = granted;
    granted = -1;
    expect(chtab_kept_table_sums(&g.network, g.ends, 1, g.targets, 1, &cells, &weight, 1, &sum, 1) == CHTAB_OK && cells == 1, told);
    expect(weight == distance_of(g.ends[0], g.targets[0]) && sum == arcs_between(g.ends[0], g.targets[0]), told);
    granted = kept;
}

static void keep_ones(void) {
    uint64_t *ones = (uint64_t *)malloc((g.arcs + 1) * sizeof *ones);
    size_t k;
    if (!ones) exit(2);
    for (k = 0; k < g.arcs; k++) ones[k] = 1;
    expect(chtab_keep_values(&g.network, ones, g.arcs) == CHTAB_OK, "values of 1");
    free(ones);
    expect_kept("the arcs of a route");
}

static uint32_t keep_weights(void) {
    uint32_t status = chtab_keep_values(&g.network, g.values, g.arcs);
    if (status) expect_kept("values stay");
    return status;
}

/* Where cells are refused memory, those before are written, and behind them all stays. The values are 1. */
static uint32_t write_kept_sums(void) {
    uint64_t cells = 99, weights[64];
    uint32_t status, k;
    memset(g.cells, 7, sizeof g.cells);
    status = chtab_kept_table_sums(&g.network, g.ends, 8, g.targets, 8, &cells, weights, 64, g.cells, 64);
    granted = -1;
    expect((status == CHTAB_OK) == (cells == 64) && cells <= 64, "cells before the one that is refused");
    for (k = 0; k < cells; k++) expect(weights[k] == distance_of(g.ends[k / 8], g.targets[k % 8]), "the weight of a cell");
    for (k = 0; k < cells; k++) expect(g.cells[k] == arcs_between(g.ends[k / 8], g.targets[k % 8]), "the arcs of a cell");
    for (; k < 64; k++) expect(g.cells[k] == 0x0707070707070707u, "a sum of kept values stays");
    return status;
}

/* Where a near row with sums is refused memory, those before it are written, and behind them all stays. The values are 1. */
static uint32_t write_summed_rows(void) {
    uint64_t rows = 9, ends[8], weights[64], first;
    uint32_t status, places[64], k, row;
    long kept = granted;
    granted = -1;
    keep_all_places();
    granted = kept;
    memset(g.cells, 7, sizeof g.cells);
    status = chtab_kept_near_sums(&g.network, g.ends, 8, &rows, ends, 8, weights, 64, places, 64, g.cells, 64);
    granted = -1;
    expect((status == CHTAB_OK) == (rows == 8) && rows <= 8, "rows with sums before the one that is refused");
    first = rows ? ends[rows - 1] : 0;
    for (k = 0, row = 0; k < first; k++) {
        while (k == ends[row]) row++;
        expect(weights[k] == distance_of(g.ends[row], g.ends[places[k]]), "the weight of a pair");
        expect(g.cells[k] == arcs_between(g.ends[row], g.ends[places[k]]), "the arcs of a pair");
    }
    for (; k < 64; k++) expect(g.cells[k] == 0x0707070707070707u, "a sum of a pair stays");
    return status;
}

/* Where flows are refused memory, none is written. Each pair has the demand 1, so that the flows count the arcs of all routes. */
static uint32_t write_flows(void) {
    static const uint64_t demands[8] = {1, 1, 1, 1, 1, 1, 1, 1};
    uint64_t missed = 9, sum = 0;
    uint32_t status;
    size_t k;
    memset(g.values, 7, g.arcs * sizeof *g.values);
    status = chtab_flows(&g.network, g.ends, 8, g.targets, 8, demands, 8, &missed, g.values, g.arcs);
    granted = -1;
    for (k = 0; k < g.arcs; k++) sum += status == CHTAB_OK ? g.values[k] : g.values[k] == 0x0707070707070707u;
    expect(status == CHTAB_OK ? missed <= 8 && sum == g.whole : missed == 9 && sum == g.arcs, "flows, or none");
    return status;
}

/* The same of a table with as many sources, and the ends of the pairs in one row each: other cells have no demand. */
static uint32_t write_table_flows(void) {
    uint64_t demands[64] = {0}, missed = 99, sum = 0;
    uint32_t status;
    size_t k;
    for (k = 0; k < 8; k++) demands[9 * k] = 1;
    memset(g.values, 7, g.arcs * sizeof *g.values);
    status = chtab_flows_table(&g.network, g.ends, 8, g.targets, 8, demands, 64, &missed, g.values, g.arcs);
    granted = -1;
    for (k = 0; k < g.arcs; k++) sum += status == CHTAB_OK ? g.values[k] : g.values[k] == 0x0707070707070707u;
    expect(status == CHTAB_OK ? missed <= 64 && sum == g.whole : missed == 99 && sum == g.arcs, "flows of a table, or none");
    return status;
}

/* Where the row of a source is refused memory, the sums of those before it are written, and the next call gives the others. */
static uint32_t write_sums(void) {
    static const uint64_t limit = CHTAB_NO_LIMIT - 1;
    uint64_t rows = 9, sum = 0;
    uint32_t status, k;
    long kept = granted;
    granted = -1;
    keep_all_places();
    granted = kept;
    status = chtab_near_sums(&g.network, g.ends, 8, VALUES, 8, &limit, 1, &rows, g.cells, 8);
    granted = -1;
    expect((status == CHTAB_OK) == (rows == 8) && rows <= 8, "sums before the one that is refused");
    for (k = 0; k < rows; k++) sum += g.cells[k];
    if (rows < 8) {
        uint32_t from = (uint32_t)rows, left = 8 - from;
        expect(chtab_near_sums(&g.network, g.ends + from, left, VALUES, 8, &limit, 1, &rows, g.cells, left) == CHTAB_OK && rows == left, "other sums");
        for (k = 0; k < left; k++) sum += g.cells[k];
    }
    expect(sum == g.whole, "all sums");
    return status;
}

/* Where the cells of a source are refused memory, the rows before it are written, and the next call gives the others. */
static uint32_t write_cells(void) {
    uint64_t rows = 9, more = 9;
    uint32_t status, k;
    long kept = granted;
    granted = -1;
    keep_all_places();
    granted = kept;
    memset(g.cells, 7, sizeof g.cells);
    status = chtab_near_table(&g.network, g.ends, 8, &rows, g.cells, 64);
    granted = -1;
    expect((status == CHTAB_OK) == (rows == 8) && rows <= 8, "rows of cells before the one that is refused");
    for (k = 8 * (uint32_t)rows; k < 64; k++) expect(g.cells[k] == 0x0707070707070707u, "cells behind stay");
    if (rows < 8) expect(chtab_near_table(&g.network, g.ends + rows, 8 - rows, &more, g.cells + 8 * rows, 64 - 8 * rows) == CHTAB_OK, "other rows of cells");
    for (k = 0; k < 64; k++) expect(g.cells[k] == distance_of(g.ends[k / 8], g.ends[k % 8]), "all cells");
    return status;
}

/* Whether the call goes on without some of its memory, if that request alone is refused. Building does so: it packs its lists of legs, and
 * asks again. So do sums along routes, which then search for each pair, and keeping values, where a list of nodes grows step by step instead. */
static int goes_on = 0;

/* Refuses one request more or less each time, until the call meets no refusal. */
static void refuse_each(uint32_t (*call)(void), void (*undo)(void), const char *told) {
    long at;
    for (all_after = 0; all_after < 2; all_after++) {
        for (at = 0;; at++) {
            long before = refused;
            uint32_t status;
            granted = at;
            status = call();
            granted = -1;
            expect(status == (refused == before ? CHTAB_OK : CHTAB_NO_MEMORY) || (status == CHTAB_OK && goes_on && !all_after), told);
            if (status == CHTAB_OK && undo) undo();
            if (refused == before) break;
        }
    }
}

static void close_network(void) { expect(chtab_close(&g.network) == CHTAB_OK, "close"); }
static void close_other(void) { expect(chtab_close(&g.other) == CHTAB_OK, "close"); }

static void close_topology(void) { expect(chtab_topology_close(&g.topology) == CHTAB_OK, "close a topology"); }
static void close_second(void) { expect(chtab_topology_close(&g.second) == CHTAB_OK, "close a second topology"); }

static uint8_t *bytes_of(const char *path, size_t *len) {
    FILE *file = fopen(path, "rb");
    uint8_t *bytes = (uint8_t *)malloc(1 << 24);
    if (!file || !bytes) exit(2);
    *len = fread(bytes, 1, 1 << 24, file);
    fclose(file);
    return bytes;
}

/* The weights and the ends of the arcs of the graph's text, which has several bytes for each. */
static void read_values(void) {
    const char *at = (const char *)g.graph, *end = at + g.graph_len;
    g.values = (uint64_t *)malloc((g.graph_len + 1) * sizeof *g.values);
    g.tails = (uint32_t *)malloc((g.graph_len + 1) * sizeof *g.tails);
    g.heads = (uint32_t *)malloc((g.graph_len + 1) * sizeof *g.heads);
    if (!g.values || !g.tails || !g.heads) exit(2);
    g.arcs = 0;
    for (; at < end; at++) {
        char *rest;
        if (*at == 'a' && (at == (const char *)g.graph || at[-1] == '\n')) {
            g.tails[g.arcs] = (uint32_t)strtoul(at + 1, &rest, 10) - 1;
            g.heads[g.arcs] = (uint32_t)strtoul(rest, &rest, 10) - 1;
            g.values[g.arcs++] = strtoul(rest, &rest, 10);
        }
    }
}

static void free_values(void) {
    free(g.values);
    free(g.tails);
    free(g.heads);
}

static void refuse_questions(void) {
    uint32_t nodes = 0, k, place;
    expect(open_network() == CHTAB_OK && chtab_nodes(&g.network, &nodes) == CHTAB_OK, "open");
    for (k = 0; k < 8; k++) g.ends[k] = k * (nodes - 1) / 7;
    refuse_each(share_network, close_other, "share");
    g.text = (uint8_t *)malloc(g.saved_len);
    refuse_each(save_text, NULL, "save");
    free(g.text);
    refuse_each(make_table, NULL, "table");
    refuse_each(find_route, NULL, "route");
    keep_one_place();
    refuse_each(keep_places, keep_one_place, "places");
    keep_all_places();
    refuse_each(sweep_rows, keep_all_places, "sweep");
    refuse_each(write_rows, NULL, "near rows");
    refuse_each(write_cells, NULL, "cells of kept places");
    g.whole = 0;
    for (k = 0; k < 8; k++) {
        g.targets[k] = g.ends[(k + 3) % 8];
        g.whole += distance_of(g.ends[k], g.targets[k]);
    }
    refuse_each(write_routes, NULL, "routes");
    read_values();
    goes_on = 1;
    refuse_each(write_route_sums, NULL, "sums along routes");
    keep_ones();
    refuse_each(keep_weights, keep_ones, "values");
    goes_on = 0;
    refuse_each(write_kept_sums, NULL, "sums of kept values");
    refuse_each(write_summed_rows, NULL, "near rows with sums");
    g.whole = 0;
    for (k = 0; k < 8; k++) g.whole += arcs_between(g.ends[k], g.targets[k]);
    refuse_each(write_flows, NULL, "flows");
    refuse_each(write_table_flows, NULL, "flows of a table");
    free_values();
    g.whole = 0;
    for (k = 0; k < 64; k++) {
        place = k % 8;
        if (distance_of(g.ends[k / 8], g.ends[place]) != CHTAB_NO_DISTANCE) g.whole += VALUES[place];
    }
    refuse_each(write_sums, NULL, "sums");
    close_network();
}

/* A topology takes memory for each node, so that there are too many requests on a large network. */
static void refuse_topologies(void) {
    refuse_each(open_topology, close_topology, "open a topology");
    refuse_each(open_topology_arrays, close_second, "open a topology by arrays");
    expect(open_topology() == CHTAB_OK, "open a topology");
    refuse_each(share_topology, close_second, "share a topology");
    refuse_each(customize, close_other, "customize");
    close_topology();
}

/* What is opened by arrays, and topologies. */
static void refuse_arrays(void) {
    expect(open_network() == CHTAB_OK && chtab_nodes(&g.network, &g.count) == CHTAB_OK, "open");
    close_network();
    read_values();
    refuse_each(open_arrays, close_network, "open by arrays");
    if (g.count <= FEW_NODES) refuse_topologies();
    free_values();
}

static void refuse_likes(void) {
    expect(open_network() == CHTAB_OK, "open");
    refuse_each(open_like, close_other, "open in the order of another network");
    refuse_each(open_quick, close_other, "open a graph alone");
    close_network();
}

int main(int count, char **words) {
    if (count != 2 && count != 3) return 2;
    g.graph = bytes_of(words[1], &g.graph_len);
    g.saved = count == 3 ? bytes_of(words[2], &g.saved_len) : (uint8_t *)malloc(1);
    goes_on = count == 2;
    refuse_each(open_network, close_network, "open");
    refuse_arrays();
    if (count == 3) {
        refuse_questions();
    } else {
        refuse_likes();
    }
    free(g.graph);
    free(g.saved);
    printf("%ld requests refused\n", refused);
    return failures > 0;
}
