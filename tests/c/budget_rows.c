/* Prints the rows of the guide's table of budgets: for values of a size, what a configuration takes of
 * each budget, how much it holds in values, and from which budget on it holds twice as much. */
#include "ferretgold.h"

#include <inttypes.h>
#include <stdio.h>

enum { MIB = 1 << 20, THREADS = 8 };

static uint64_t rounded_up(uint64_t bytes) {
    return (bytes + MIB - 1) / MIB;
}

static void print_cell(uint64_t mebibytes, size_t value) {
    ferretgold_config config;
    ferretgold_fit fit;
    if (ferretgold_config_for(mebibytes * MIB, value, THREADS, &config, &fit) != FERRETGOLD_OK) {
        printf(" none |");
    } else if (fit.more == 0) {
        printf(" %" PRIu64 " / %" PRIu64 " / - |", rounded_up(fit.bytes), fit.values / MIB);
    } else {
        printf(" %" PRIu64 " / %" PRIu64 " / %" PRIu64 " |", rounded_up(fit.bytes),
               fit.values / MIB, rounded_up(fit.more));
    }
}

int main(void) {
    static const struct { const char *name; size_t value; } rows[] = {
        {"64", 64}, {"256", 256}, {"1,024", 1024}, {"4,096", 4096}};
    for (size_t k = 0; k < sizeof rows / sizeof *rows; k++) {
        printf("| %s |", rows[k].name);
        for (uint64_t mebibytes = 16; mebibytes <= 4096; mebibytes *= 4) {
            print_cell(mebibytes, rows[k].value);
        }
        printf("\n");
    }
    return 0;
}
