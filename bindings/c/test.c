/* Two branches give a reading different values; after the join a parameter stands for it, and is drawn. Then the refusals of a whole session, unset
 * values of many types, a loop that carries an index, values recorded for stack maps, and resolving. */
#include "sangvireb.h"
#include <stdio.h>
#include <string.h>

static uint32_t graph[SANGVIREB_GRAPH_NEED + 1], form[SANGVIREB_FORM_NEED + 1], work[SANGVIREB_WORK_NEED + 1];
static int failures;

static void expect(int holds, const char *what) {
    if (!holds) {
        printf("not so: %s\n", what);
        failures++;
    }
}

int main(void) {
    expect(sangvireb_fits(), "the library is the one that the header speaks of");
    expect(sangvireb_limit(99) == 0, "no limit is told at another place");
    /* case C: a diamond 0 to 1, 2 to 3; value 0 in block 1, value 1 in block 2; use in 3 */
    static const uint32_t calls[][4] = {
        {SANGVIREB_KIND_DECLARE_BLOCK, 0, 0, 0}, {1, 1, 0, 0}, {1, 2, 0, 0}, {1, 3, 0, 0}, {SANGVIREB_KIND_DECLARE_VAR, 0, SANGVIREB_TYPE_I32, 0}, {3, 1, 2, 0}, {4, 0, 0, 1}, {3, 2, 2, 0},
        {4, 0, 1, 2}, {7, 0, 0, 0}, {8, 0, 1, 0}, {8, 0, 2, 0}, {9, 1, 0, 0}, {9, 2, 0, 0}, {7, 1, 0, 0}, {8, 1, 3, 0},
        {9, 3, 1, 0}, {7, 2, 0, 0}, {8, 2, 3, 0}, {9, 3, 2, 0}, {12, 0, 0, 0}, {6, 0, 3, 0}, {6, 9, 3, 0}};
    enum { N = sizeof calls / sizeof calls[0] };
    uint32_t k[N], x[N], y[N], z[N], codes[N], numbers[N]; /* no later list is longer */
    for (size_t i = 0; i < N; i++) {
        k[i] = calls[i][0], x[i] = calls[i][1], y[i] = calls[i][2], z[i] = calls[i][3];
    }
    memset(graph, 0xa5, sizeof graph), memset(form, 0xa5, sizeof form), memset(work, 0xa5, sizeof work);

    uint32_t r = sangvireb_session(k, N, x, N, y, N, z, N, codes, N, numbers, N, graph, SANGVIREB_GRAPH_NEED, form,
                                   SANGVIREB_FORM_NEED - 1, work, SANGVIREB_WORK_NEED);
    expect(r == SANGVIREB_SHORT && form[0] == 0xa5a5a5a5, "a form one cell short gets 1 and is untouched");
    r = sangvireb_session(k, N, x, N - 1, y, N, z, N, codes, N, numbers, N, graph, SANGVIREB_GRAPH_NEED, form,
                          SANGVIREB_FORM_NEED, work, SANGVIREB_WORK_NEED);
    expect(r == SANGVIREB_UNFIT && graph[0] == 0xa5a5a5a5, "lists of different lengths get 2 and all is untouched");

    r = sangvireb_session(k, N, x, N, y, N, z, N, codes, N, numbers, N, graph, SANGVIREB_GRAPH_NEED + 1, form,
                          SANGVIREB_FORM_NEED + 1, work, SANGVIREB_WORK_NEED + 1);
    expect(r == SANGVIREB_RUN, "the session runs");
    expect(codes[N - 2] == 0 && numbers[N - 2] == 2, "the use after the join answers the parameter, value 2");
    expect(codes[N - 1] == SANGVIREB_ABSENT && numbers[N - 1] == 0, "an unknown variable gets 6 and number 0");
    uint32_t *params = form + SANGVIREB_PARAM_ROWS, *args = form + SANGVIREB_ARG_ROWS;
    sangvireb_row row = sangvireb_params(params, SANGVIREB_PARAM_CELLS, 3);
    expect(row.code == 0 && row.length == 1 && params[row.start] == 2, "block 3 has the parameter 2");
    static const uint32_t values[][2] = {{0, 1}, {0, 2}, {1, 3}};
    for (uint32_t v = 0; v < 3; v++) {
        uint32_t cell = form[SANGVIREB_DESCRIBED + v];
        expect(SANGVIREB_SORT_OF(cell) == values[v][0] && SANGVIREB_TYPE_OF(cell) == 2 && SANGVIREB_BLOCK_OF(cell) == values[v][1],
               "two made values and a parameter, each of type 2 in its block");
    }
    expect(SANGVIREB_TYPE_OF(0xffffffff) == 31 && SANGVIREB_SORT_OF(0xffffffff) == 3 && SANGVIREB_BLOCK_OF(0xff7f) == 255,
           "the parts of a cell end where the next begins");
    for (uint32_t p = 1; p <= 2; p++) {
        row = sangvireb_args(args, SANGVIREB_ARG_CELLS, p, 0);
        expect(row.code == 0 && row.length == 1 && args[row.start] == p - 1, "each side passes its own value");
    }
    row = sangvireb_params(params, SANGVIREB_PARAM_CELLS, SANGVIREB_BLOCKS - 1);
    expect(row.code == 0 && row.length == 0 && row.start == SANGVIREB_PARAM_CELLS - SANGVIREB_PARAM_ROW + 1, "a row that is there and empty gets 0");
    row = sangvireb_params(params, SANGVIREB_PARAM_CELLS - 1, SANGVIREB_BLOCKS - 1);
    expect(row.code == SANGVIREB_ABSENT && row.start == 0 && row.length == 0, "a row that is not whole in the table gets 6 and is empty");
    row = sangvireb_params(params, SANGVIREB_PARAM_CELLS, SANGVIREB_BLOCKS);
    expect(row.code == SANGVIREB_ABSENT && row.length == 0, "a block past the limit gets 6");
    row = sangvireb_args(args, SANGVIREB_ARG_CELLS, 1, SANGVIREB_DESTS);
    expect(row.code == SANGVIREB_ABSENT && row.length == 0, "a place past the limit gets 6, though the table goes on");
    expect(work[0] == 0 && work[SANGVIREB_WORK_NEED - 1] == 0, "work cells end as 0");
    expect(form[SANGVIREB_FORM_NEED] == 0xa5a5a5a5, "cells past the need keep what they held");

    static const char text[] = "digraph f {\n"
                               "b0 [label=\"b0()\"];\nb1 [label=\"b1()\"];\nb2 [label=\"b2()\"];\nb3 [label=\"b3(v2)\"];\n"
                               "b0 -> b1 [label=\"\"];\nb0 -> b2 [label=\"\"];\nb1 -> b3 [label=\"v0\"];\nb2 -> b3 [label=\"v1\"];\n"
                               "}\n";
    enum { LONG = sizeof text - 1 };
    char buffer[LONG + 1];
    memset(buffer, '?', sizeof buffer);
    sangvireb_drawn d = sangvireb_draw(graph, SANGVIREB_GRAPH_NEED - 1, form, SANGVIREB_FORM_NEED, buffer, sizeof buffer);
    expect(d.code == SANGVIREB_SHORT && d.length == 0, "a graph one cell short is not drawn");
    form[SANGVIREB_VALUE_COUNT] = 2;
    d = sangvireb_draw(graph, SANGVIREB_GRAPH_NEED, form, SANGVIREB_FORM_NEED, buffer, 0);
    expect(d.code == SANGVIREB_NOT_DRAWABLE && d.length == 0, "a parameter not below the count of values gets 16, before the buffer is looked at");
    form[SANGVIREB_VALUE_COUNT] = 3;
    d = sangvireb_draw(graph, SANGVIREB_GRAPH_NEED, form, SANGVIREB_FORM_NEED, buffer, LONG - 1);
    expect(d.code == SANGVIREB_NO_ROOM && d.length == 0 && buffer[0] == '?', "a buffer one byte short gets 15 and is untouched");
    d = sangvireb_draw(graph, SANGVIREB_GRAPH_NEED, form, SANGVIREB_FORM_NEED, buffer, sizeof buffer);
    expect(d.code == 0 && d.length == LONG && memcmp(buffer, text, LONG) == 0, "the picture is drawn");
    expect(buffer[LONG] == '?', "bytes past the text keep what they held");

    r = sangvireb_session(NULL, 0, NULL, 0, NULL, 0, NULL, 0, NULL, 0, NULL, 0, graph, SANGVIREB_GRAPH_NEED, form, SANGVIREB_FORM_NEED, work,
                          SANGVIREB_WORK_NEED);
    expect(r == SANGVIREB_RUN && graph[SANGVIREB_BLOCK_COUNT] == 0, "a session without calls, lists of length 0 being NULL, leaves the empty one");
    r = sangvireb_session(k, N, x, N, y, N, z, N, codes, N, numbers, N, NULL, 0, form, SANGVIREB_FORM_NEED, work, SANGVIREB_WORK_NEED);
    expect(r == SANGVIREB_SHORT, "no graph at all is too short");

    /* Variables of several types, used where nothing has set them. Each use appends a parameter and answers a zero, the last of its steps: an I128 is an I64,
     * widened, and a vector of floats a scalar, put in each lane. */
    static const struct {
        uint32_t type, lane, lanes, width, step, zero;
        uint64_t low, high;
    } unset[] = {
        {SANGVIREB_TYPE_F32, SANGVIREB_TYPE_F32, 1, 4, 0, 1, 0x7FC00000, 0},
        {SANGVIREB_TYPE_F64, SANGVIREB_TYPE_F64, 1, 8, 0, 3, 0x7FF8000000000000, 0},
        {SANGVIREB_TYPE_I64, SANGVIREB_TYPE_I64, 1, 8, 0, 5, 0, 0},
        {SANGVIREB_TYPE_I128, SANGVIREB_TYPE_I128, 1, 16, SANGVIREB_TYPE_I64 + 1, 8, 0, 0},
        {SANGVIREB_TYPE_F16, SANGVIREB_TYPE_F16, 1, 2, 0, 10, 0x7E00, 0},
        {SANGVIREB_TYPE_F128, SANGVIREB_TYPE_F128, 1, 16, 0, 12, 0, 0x7FFF800000000000},
        {SANGVIREB_TYPE_I8X16, SANGVIREB_TYPE_I8, 16, 16, 0, 14, 0, 0},
        {SANGVIREB_TYPE_F16X2, SANGVIREB_TYPE_F16, 2, 4, SANGVIREB_TYPE_F16 + 1, 17, 0x7E007E00, 0},
        {SANGVIREB_TYPE_F32X4, SANGVIREB_TYPE_F32, 4, 16, SANGVIREB_TYPE_F32 + 1, 20, 0x7FC000007FC00000, 0x7FC000007FC00000},
        {SANGVIREB_TYPE_F64X2, SANGVIREB_TYPE_F64, 2, 16, SANGVIREB_TYPE_F64 + 1, 23, 0x7FF8000000000000, 0x7FF8000000000000}};
    enum { T = sizeof unset / sizeof unset[0], M = 2 * T + 2 };
    k[0] = 1, k[1] = 11, x[0] = x[1] = 0;
    for (uint32_t v = 0; v < T; v++) {
        k[2 + v] = 2, x[2 + v] = v, y[2 + v] = unset[v].type;
        k[2 + T + v] = 6, x[2 + T + v] = v, y[2 + T + v] = 0;
    }
    r = sangvireb_session(k, M, x, M, y, M, z, M, codes, M, numbers, M, graph, SANGVIREB_GRAPH_NEED, form, SANGVIREB_FORM_NEED, work,
                          SANGVIREB_WORK_NEED);
    expect(r == SANGVIREB_RUN && form[SANGVIREB_ZERO_CALLS] == T && form[SANGVIREB_VALUE_COUNT] == 24,
           "one row of the log a zero, however many steps it takes");
    for (uint32_t v = 0; v < T; v++) {
        sangvireb_type_facts facts = sangvireb_type(unset[v].type);
        expect(facts.lane == unset[v].lane && facts.lanes == unset[v].lanes && facts.width == unset[v].width && facts.step == unset[v].step,
               "a type has its lane, its lanes, its width and its steps");
        uint32_t zero = numbers[2 + T + v], cell = form[SANGVIREB_DESCRIBED + zero];
        expect(zero == unset[v].zero && SANGVIREB_SORT_OF(cell) == SANGVIREB_SORT_ZERO && SANGVIREB_TYPE_OF(cell) == unset[v].type,
               "a variable that nothing has set is answered a zero of its type");
        sangvireb_bits bits = sangvireb_zero_bits(form, zero);
        expect(bits.low == unset[v].low && bits.high == unset[v].high, "a zero holds its type's unset value, in each lane of a float a quiet NaN");
        cell = form[SANGVIREB_DESCRIBED + zero - 1];
        expect(facts.step == 0 || (SANGVIREB_SORT_OF(cell) == SANGVIREB_SORT_ZERO && SANGVIREB_TYPE_OF(cell) == facts.step - 1),
               "the first of two steps stands directly before the zero, with its own type");
    }
    sangvireb_type_facts past = sangvireb_type(SANGVIREB_TYPE_F64X2 + 1), far = sangvireb_type(UINT32_MAX);
    expect(past.lanes == 0 && past.width == 0 && past.step == 0 && past.low == 0 && past.high == 0 && far.lanes == 0 && far.low == 0,
           "a number that names no type has no lanes, no width and no bits");

    /* a loop that carries an index: block 1's own parameter 0 takes 1 from block 0 and 4 from itself, and the builder's parameter 3 stands behind it */
    static const uint32_t carried[][4] = {
        {1, 0, 0, 0}, {1, 1, 0, 0}, {2, 0, 5, 0}, {SANGVIREB_KIND_APPEND_BLOCK_PARAM, 1, 2, 0}, {3, 0, 2, 0}, {3, 0, 5, 0}, {4, 0, 2, 0}, {7, 0, 0, 0},
        {8, 0, 1, 0}, {16, 0, 2, 0}, {SANGVIREB_KIND_APPEND_ARGUMENT, 0, 1, 0}, {16, 0, 1, 0}, {9, 1, 0, 0}, {15, 1, 2, 0}, {6, 0, 1, 0}, {3, 1, 2, 0},
        {3, 1, 5, 0}, {4, 0, 5, 1}, {7, 1, 0, 0}, {8, 1, 1, 0}, {16, 1, 4, 0}, {9, 1, 1, 0}, {12, 0, 0, 0}};
    enum { L = sizeof carried / sizeof carried[0] };
    for (size_t i = 0; i < L; i++) {
        k[i] = carried[i][0], x[i] = carried[i][1], y[i] = carried[i][2], z[i] = carried[i][3];
    }
    r = sangvireb_session(k, L, x, L, y, L, z, L, codes, L, numbers, L, graph, SANGVIREB_GRAPH_NEED, form, SANGVIREB_FORM_NEED, work,
                          SANGVIREB_WORK_NEED);
    for (size_t i = 0; i < L; i++) {
        uint32_t code = i == 9 ? SANGVIREB_TYPES_DIFFER : i == 11 ? SANGVIREB_NO_PARAM_LEFT : i == 13 ? SANGVIREB_PARAMS_FIXED : 0;
        expect(r == SANGVIREB_RUN && codes[i] == code, "another type gets 7, one argument too many 18, a parameter after the predecessor 17");
    }
    row = sangvireb_params(params, SANGVIREB_PARAM_CELLS, 1);
    expect(form[SANGVIREB_OWNS + 1] == 1 && row.length == 2 && params[row.start] == 0 && params[row.start + 1] == 3,
           "the caller's parameter stands before the builder's");
    expect(SANGVIREB_SORT_OF(form[SANGVIREB_DESCRIBED]) == SANGVIREB_SORT_CALLER_PARAMETER, "and is of its own sort");
    for (uint32_t p = 0; p < 2; p++) {
        row = sangvireb_args(args, SANGVIREB_ARG_CELLS, p, 0);
        expect(row.length == 2 && args[row.start] == 3 * p + 1 && args[row.start + 1] == 3 * p + 2, "each way in brings the index, then the variable");
    }

    /* variable 0 is marked: value 0, which it is given in block 0, is recorded, and its parameter 2 in block 1; value 1, which variable 1 is given, is not */
    static const uint32_t marked[][4] = {
        {1, 0, 0, 0}, {1, 1, 0, 0}, {2, 0, 5, 0}, {2, 1, 5, 0}, {SANGVIREB_KIND_MARK_VAR_NEEDS_STACK_MAP, 0, 0, 0}, {17, 0, 0, 0}, {17, 2, 0, 0}, {3, 0, 5, 0},
        {4, 0, 0, 0}, {3, 0, 5, 0}, {4, 1, 1, 0}, {17, 0, 0, 0}, {17, 1, 0, 0}, {7, 0, 0, 0}, {8, 0, 1, 0}, {9, 1, 0, 0}, {6, 0, 1, 0}, {6, 1, 1, 0}, {18, 0, 0, 0}};
    enum { P = sizeof marked / sizeof marked[0] };
    for (size_t i = 0; i < P; i++) {
        k[i] = marked[i][0], x[i] = marked[i][1], y[i] = marked[i][2], z[i] = marked[i][3];
    }
    r = sangvireb_session(k, P, x, P, y, P, z, P, codes, P, numbers, P, graph, SANGVIREB_GRAPH_NEED, form, SANGVIREB_FORM_NEED, work,
                          SANGVIREB_WORK_NEED);
    for (size_t i = 0; i < P; i++) {
        uint32_t code = i == 6 ? SANGVIREB_ABSENT : i == 11 || i == 12 ? SANGVIREB_DEFINED : i == 18 ? SANGVIREB_UNKNOWN_KIND : 0;
        expect(r == SANGVIREB_RUN && codes[i] == code, "twice is accepted; an absent variable gets 6, one with a definition 19, kind 18 gets 3");
    }
    expect(graph[SANGVIREB_MARKS] == 1 && graph[SANGVIREB_MARKS + 1] == 0, "variable 0 is marked and variable 1 is not");
    const uint32_t *described = form + SANGVIREB_DESCRIBED;
    uint32_t values_left = form[SANGVIREB_VALUE_COUNT], met = 0;
    for (uint32_t v = sangvireb_stack_map_value(form, 0); v < values_left; v = sangvireb_stack_map_value(form, v + 1)) {
        met = 10 * met + v + 1;
    }
    expect(values_left == 4 && met == 13, "recorded are, in order, the values 0 and 2");
    for (uint32_t v = 0; v < 4; v++) {
        sangvireb_answer one = sangvireb_recorded(described, values_left, v);
        expect(one.code == 0 && one.number == (v == 0 || v == 2) && one.number == SANGVIREB_RECORDED(described[v]), "each by itself");
        expect(SANGVIREB_TYPE_OF(described[v]) == 5 && SANGVIREB_BLOCK_OF(described[v]) == v / 2, "a recorded value has its type and block as before");
    }
    sangvireb_answer none = sangvireb_recorded(described, values_left, 4);
    expect(none.code == SANGVIREB_ABSENT && none.number == 0, "a value that is not there gets 6");

    const uint32_t targets[] = {1, 2, 2, 4, 3, 9};
    sangvireb_answer a = sangvireb_resolve(targets, 6, 0);
    expect(a.code == 0 && a.number == 2, "0 resolves to 2");
    a = sangvireb_resolve(targets, 6, 3);
    expect(a.code == SANGVIREB_NO_END && a.number == 0, "a ring gets 14");
    a = sangvireb_resolve(targets, 6, 5);
    expect(a.code == SANGVIREB_NO_END && a.number == 0, "a target outside gets 14");
    a = sangvireb_resolve(targets, 6, 6);
    expect(a.code == SANGVIREB_ABSENT && a.number == 0, "a number past the list gets 6");
    a = sangvireb_resolve(NULL, 0, 0);
    expect(a.code == SANGVIREB_ABSENT && a.number == 0, "nothing is in a list of length 0");
    args[0] = SANGVIREB_PARAM_ROOM + 1;
    row = sangvireb_args(args, SANGVIREB_ARG_CELLS, 0, 0);
    expect(row.code == SANGVIREB_ABSENT && row.length == 0, "a count past the row's room gets 6");
    printf("%s\n", failures ? "failed" : "all as expected");
    return failures != 0;
}
