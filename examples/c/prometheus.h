/* Prints what calls came to in Prometheus' text format, for a page that Prometheus reads: of several
 * caches, or clients, each under labels of its own. For C and C++. */
#ifndef PROMETHEUS_H
#define PROMETHEUS_H

#include "ferretgold.h"

#include <inttypes.h>
#include <stddef.h>
#include <stdio.h>

/* Counts, and the labels under which they are printed: as `cache="blocks"`. */
typedef struct labelled_counts {
    const char *labels;
    ferretgold_counts counts;
} labelled_counts;

/* A counter: what one field counts. Those of one name stand together, and differ by a label more. */
typedef struct counter {
    const char *name, *help, *label;
    size_t field;
} counter;

static const counter counters[] = {
    {"hits_total", "Look-ups and readings that found their key.", "", offsetof(ferretgold_counts, hits)},
    {"misses_total", "All others.", "", offsetof(ferretgold_counts, misses)},
    {"insertions_total", "Insertions, by what came of them.", ",outcome=\"placed\"",
     offsetof(ferretgold_counts, placed)},
    {"insertions_total", NULL, ",outcome=\"there\"", offsetof(ferretgold_counts, there)},
    {"insertions_total", NULL, ",outcome=\"dropped\"", offsetof(ferretgold_counts, dropped)},
    {"insertions_total", NULL, ",outcome=\"standalone\"", offsetof(ferretgold_counts, standalone)},
    {"insertions_total", NULL, ",outcome=\"refused\"", offsetof(ferretgold_counts, refused)},
    {"evicted_total", "Entries that evictions freed.", "", offsetof(ferretgold_counts, evicted)},
    {"evicted_hit_total", "Those of them that a look-up had marked.", "",
     offsetof(ferretgold_counts, evicted_hit)},
    {"evicted_charge_total", "Their charges in sum.", "", offsetof(ferretgold_counts, freed)},
    {"lost_exchanges_total", "Compare-exchanges that lost to another thread's step.", "",
     offsetof(ferretgold_counts, lost)},
};

static inline uint64_t number_at(const ferretgold_counts *counts, size_t field) {
    return *(const uint64_t *)(const void *)((const char *)counts + field);
}

static inline void print_counter(FILE *out, const counter *it, const labelled_counts *all, size_t many) {
    if (it->help != NULL) {
        fprintf(out, "# HELP ferretgold_%s %s\n# TYPE ferretgold_%s counter\n", it->name, it->help,
                it->name);
    }
    for (size_t k = 0; k < many; k++) {
        fprintf(out, "ferretgold_%s{%s%s} %" PRIu64 "\n", it->name, all[k].labels, it->label,
                number_at(&all[k].counts, it->field));
    }
}

/* The turns of the hand an insertion: each bucket has those before it, too. */
static inline void print_turns(FILE *out, const labelled_counts *it) {
    const char *name = "ferretgold_insertion_turns";
    const size_t last = sizeof it->counts.by_turns / sizeof it->counts.by_turns[0] - 1;
    uint64_t sum = 0;
    for (size_t k = 0; k < last; k++) {
        sum += it->counts.by_turns[k];
        fprintf(out, "%s_bucket{%s,le=\"%" PRIu64 "\"} %" PRIu64 "\n", name, it->labels,
                UINT64_C(1) << k >> 1, sum);
    }
    sum += it->counts.by_turns[last];
    fprintf(out, "%s_bucket{%s,le=\"+Inf\"} %" PRIu64 "\n", name, it->labels, sum);
    fprintf(out, "%s_sum{%s} %" PRIu64 "\n", name, it->labels, it->counts.turns);
    fprintf(out, "%s_count{%s} %" PRIu64 "\n", name, it->labels, sum);
}

/* Prints all of them. Labels must differ, and none may be empty. */
static inline void print_metrics(FILE *out, const labelled_counts *all, size_t many) {
    for (size_t k = 0; k < sizeof counters / sizeof counters[0]; k++) {
        print_counter(out, &counters[k], all, many);
    }
    fprintf(out, "# HELP ferretgold_insertion_turns Turns of the clock's hand an insertion.\n"
                 "# TYPE ferretgold_insertion_turns histogram\n");
    for (size_t k = 0; k < many; k++) {
        print_turns(out, &all[k]);
    }
}

#endif
