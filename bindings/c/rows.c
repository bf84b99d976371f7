/* Walks a finished session by its rows, without copying one. Reads a list of calls as the program sangvireb does (examples/), runs it, and prints each block
 * with its parameters and each destination of its branch with its arguments. */
#include "sangvireb.h"
#include <stdio.h>

static uint32_t calls[4][SANGVIREB_CALLS], codes[SANGVIREB_CALLS], numbers[SANGVIREB_CALLS];
static uint32_t graph[SANGVIREB_GRAPH_NEED], form[SANGVIREB_FORM_NEED], work[SANGVIREB_WORK_NEED];

/* The entries lie in the table itself: `row` says where. */
static void print(const uint32_t *table, sangvireb_row row) {
    for (size_t i = 0; i < row.length; i++) {
        printf("%sv%u", i ? ", " : "", (unsigned)table[row.start + i]);
    }
}

static void walk(void) {
    const uint32_t *params = form + SANGVIREB_PARAM_ROWS, *args = form + SANGVIREB_ARG_ROWS;
    for (uint32_t block = 0; block < graph[SANGVIREB_BLOCK_COUNT]; block++) {
        printf("b%u(", (unsigned)block);
        print(params, sangvireb_params(params, SANGVIREB_PARAM_CELLS, block));
        printf(")\n");
        /* its destinations are a row of the graph: the count, then the blocks */
        const uint32_t *dests = graph + SANGVIREB_DEST_ROWS + block * SANGVIREB_DEST_ROW;
        for (uint32_t place = 0; place < dests[0]; place++) {
            printf("  to b%u(", (unsigned)dests[1 + place]);
            print(args, sangvireb_args(args, SANGVIREB_ARG_CELLS, block, place));
            printf(")\n");
        }
    }
}

int main(void) {
    unsigned count, number;
    if (scanf("%u", &count) != 1 || count > SANGVIREB_CALLS) {
        fprintf(stderr, "no list of calls, or one that is too long\n");
        return 1;
    }
    for (unsigned cell = 0; cell < 4 * count; cell++) {
        if (scanf("%u", &number) != 1) {
            fprintf(stderr, "the list ends early\n");
            return 1;
        }
        calls[cell % 4][cell / 4] = number;
    }
    sangvireb_session(calls[0], count, calls[1], count, calls[2], count, calls[3], count, codes, count, numbers, count, graph,
                      SANGVIREB_GRAPH_NEED, form, SANGVIREB_FORM_NEED, work, SANGVIREB_WORK_NEED);
    walk();
    return 0;
}
