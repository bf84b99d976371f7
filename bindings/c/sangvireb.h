/* The public calls of Sangvireb, for C and C++. Link crates/exports/out/libexports.a, which `rt lib` writes in crates/exports; README.md has the command.
 * What each call answers and leaves is proved in crates/session, crates/alias, crates/reader, crates/draw and crates/exports; docs/RULES.md says it in words.
 *
 * A list is a pointer and a length. What a call is lent must be there for the call: as many cells as its length says, and no cell in two lists,
 * neither in two of those that are changed nor in one that is changed and one that is read. A list of length 0 may be NULL.
 * No call keeps what it was lent, allocates, or has state of its own, so calls with different lists may run at the same time. */
#ifndef SANGVIREB_H
#define SANGVIREB_H

#include <stddef.h>
#include <stdint.h>

#ifdef __cplusplus
extern "C" {
#endif

/* The interface that this header is for. Ask sangvireb_fits() once before anything else. */
enum { SANGVIREB_VERSION = 6 };

/* Limits, and the lengths that the three lists of tables need. The answers need a cell a call. */
enum {
    SANGVIREB_BLOCKS = 64,
    SANGVIREB_VARIABLES = 64,
    SANGVIREB_DESTS = 8,
    SANGVIREB_MADE = 4096,
    SANGVIREB_OWN_PARAMS = 64, /* parameters of a block that are the caller's own */
    SANGVIREB_CALLS = 16384,
    SANGVIREB_GRAPH_NEED = 5058,
    SANGVIREB_FORM_NEED = 123653,
    SANGVIREB_WORK_NEED = 1665
};

/* Where each table starts in `graph`, and how long a row is (docs/LAYOUT.md says what each holds). A row is its count, its entries, zeros. */
enum {
    SANGVIREB_BLOCK_COUNT = 0,
    SANGVIREB_TYPES = 1,
    SANGVIREB_BRANCHES = 66,
    SANGVIREB_SEALED = 130,
    SANGVIREB_EVER_DECLARED = 194,
    SANGVIREB_MARKS = 258, /* which variables are marked for stack maps */
    SANGVIREB_DEST_ROWS = 322,
    SANGVIREB_DEST_ROW = 9,
    SANGVIREB_PRED_ROWS = 898,
    SANGVIREB_PRED_ROW = 65
};

/* And in `form`. */
enum {
    SANGVIREB_VALUE_COUNT = 0,
    SANGVIREB_MADE_COUNT = 1,
    SANGVIREB_TARGET = 2,
    SANGVIREB_DESCRIBED = 16386,
    SANGVIREB_PLACED = 32770,
    SANGVIREB_ZERO_CALLS = 32835,
    SANGVIREB_ZERO_BLOCKS = 36932,
    SANGVIREB_PARAM_ROWS = 41029,
    SANGVIREB_OWNS = 49285, /* how many of a block's parameters, its first ones, are the caller's */
    SANGVIREB_PENDING_ROWS = 49349,
    SANGVIREB_DEFS = 53509,
    SANGVIREB_ARG_ROWS = 57605,
    SANGVIREB_PARAM_ROOM = 128, /* parameters of a block or arguments of a destination */
    SANGVIREB_PARAM_ROW = 129,
    SANGVIREB_PARAM_CELLS = 8256,
    SANGVIREB_ARG_CELLS = 66048,
    SANGVIREB_PENDING_ROW = 65
};

/* Kinds of call, with their x, y, z (docs/RULES.md has the refusals and answers). */
enum {
    SANGVIREB_KIND_DECLARE_BLOCK = 1,              /* block */
    SANGVIREB_KIND_DECLARE_VAR = 2,                /* variable, type */
    SANGVIREB_KIND_MAKE_VALUE = 3,                 /* block, type */
    SANGVIREB_KIND_DEF_VAR = 4,                    /* variable, value, block */
    SANGVIREB_KIND_DEF_VAR_ANSWER = 5,             /* variable, number of the call of an accepted use, block */
    SANGVIREB_KIND_USE_VAR = 6,                    /* variable, block */
    SANGVIREB_KIND_NEW_BRANCH = 7,                 /* block */
    SANGVIREB_KIND_NEW_DEST = 8,                   /* branch, block */
    SANGVIREB_KIND_DECLARE_BLOCK_PREDECESSOR = 9,  /* block, branch */
    SANGVIREB_KIND_REMOVE_BLOCK_PREDECESSOR = 10,  /* block, branch */
    SANGVIREB_KIND_SEAL_BLOCK = 11,                /* block */
    SANGVIREB_KIND_SEAL_ALL_BLOCKS = 12,
    SANGVIREB_KIND_HAS_ANY_PREDECESSORS = 13,      /* block */
    SANGVIREB_KIND_IS_SEALED = 14,                 /* block */
    SANGVIREB_KIND_APPEND_BLOCK_PARAM = 15,        /* block, type: a parameter of the caller's own */
    SANGVIREB_KIND_APPEND_ARGUMENT = 16,           /* branch, value, place of the destination: an argument for such a parameter */
    SANGVIREB_KIND_MARK_VAR_NEEDS_STACK_MAP = 17   /* variable: the values that it receives from here on are recorded */
};

/* Types of variables and values, by the crate's names: I8X16 is a vector of 16 lanes that are I8. sangvireb_type() has what there is to know of each. */
enum {
    SANGVIREB_TYPE_I8 = 0,
    SANGVIREB_TYPE_I16 = 1,
    SANGVIREB_TYPE_I32 = 2,
    SANGVIREB_TYPE_I64 = 3,
    SANGVIREB_TYPE_F32 = 4,
    SANGVIREB_TYPE_F64 = 5,
    SANGVIREB_TYPE_I128 = 6,
    SANGVIREB_TYPE_F16 = 7,
    SANGVIREB_TYPE_F128 = 8,
    SANGVIREB_TYPE_I8X2 = 9,
    SANGVIREB_TYPE_I8X4 = 10,
    SANGVIREB_TYPE_I8X8 = 11,
    SANGVIREB_TYPE_I8X16 = 12,
    SANGVIREB_TYPE_I16X2 = 13,
    SANGVIREB_TYPE_I16X4 = 14,
    SANGVIREB_TYPE_I16X8 = 15,
    SANGVIREB_TYPE_I32X2 = 16,
    SANGVIREB_TYPE_I32X4 = 17,
    SANGVIREB_TYPE_I64X2 = 18,
    SANGVIREB_TYPE_F16X2 = 19,
    SANGVIREB_TYPE_F16X4 = 20,
    SANGVIREB_TYPE_F16X8 = 21,
    SANGVIREB_TYPE_F32X2 = 22,
    SANGVIREB_TYPE_F32X4 = 23,
    SANGVIREB_TYPE_F64X2 = 24
};

/* Sorts of values. */
enum {
    SANGVIREB_SORT_MADE = 0,
    SANGVIREB_SORT_PARAMETER = 1, /* made by the builder for a variable */
    SANGVIREB_SORT_ZERO = 2,
    SANGVIREB_SORT_CALLER_PARAMETER = 3 /* given to its block by the caller */
};

/* What a value is, from its cell of SANGVIREB_DESCRIBED: its type's number, its sort, whether it is recorded for stack maps, and its block. */
#define SANGVIREB_TYPE_OF(cell) ((uint32_t)(cell) % 32)
#define SANGVIREB_SORT_OF(cell) ((uint32_t)(cell) / 32 % 4)
#define SANGVIREB_RECORDED(cell) ((uint32_t)(cell) / 128 % 2)
#define SANGVIREB_BLOCK_OF(cell) ((uint32_t)(cell) / 256)

/* What a session itself answers. */
enum { SANGVIREB_RUN = 0, SANGVIREB_SHORT = 1, SANGVIREB_UNFIT = 2 };

/* Codes of single calls and of resolving; 0 is an accepted call. */
enum {
    SANGVIREB_UNKNOWN_KIND = 3,
    SANGVIREB_FULL = 4,
    SANGVIREB_SKIPS = 5,
    SANGVIREB_ABSENT = 6,
    SANGVIREB_TYPES_DIFFER = 7,
    SANGVIREB_IS_SEALED = 8,
    SANGVIREB_HAS_BRANCH = 9,
    SANGVIREB_DESTS_FULL = 10,
    SANGVIREB_DECLARED = 11,
    SANGVIREB_DECLARED_HERE = 12,
    SANGVIREB_NO_EDGE = 13,
    SANGVIREB_NO_END = 14,
    SANGVIREB_PARAMS_FIXED = 17, /* the block is sealed, has a predecessor or a pending use: it gets no more parameters of the caller's */
    SANGVIREB_NO_PARAM_LEFT = 18, /* the block has 64 parameters of the caller's; or none that the destination has no argument for */
    SANGVIREB_DEFINED = 19, /* a mark of a variable that has a definition, a parameter or a copied value on record in some block */
    SANGVIREB_LATE = 20 /* a definition in a block whose branch was declared before, even if it was removed since */
};

/* Codes of a drawing, beside 0 and SANGVIREB_SHORT for a table shorter than its need. */
enum {
    SANGVIREB_NO_ROOM = 15,     /* the buffer is shorter than the text */
    SANGVIREB_NOT_DRAWABLE = 16 /* a count is past its limit, or a number not below its count */
};

/* Runs the calls kinds[i], xs[i], ys[i], zs[i] in turn, from the empty session. */
uint32_t sangvireb_session(const uint32_t *kinds, size_t kinds_len, const uint32_t *xs, size_t xs_len,
                           const uint32_t *ys, size_t ys_len, const uint32_t *zs, size_t zs_len,
                           uint32_t *codes, size_t codes_len, uint32_t *numbers, size_t numbers_len,
                           uint32_t *graph, size_t graph_len, uint32_t *form, size_t form_len,
                           uint32_t *work, size_t work_len);

typedef struct {
    uint32_t code;
    uint32_t number;
} sangvireb_answer;

/* Follows alias targets from a value to one that is its own target. */
sangvireb_answer sangvireb_resolve(const uint32_t *targets, size_t targets_len, uint32_t value);

/* A row of the lent table, read where it lies: its entries are the `length` cells of the table from cell `start` on. Code SANGVIREB_ABSENT if the table hasn't
 * the row, and then no entries, from 0 on; else code 0, so that a row that is there and empty can be told apart. */
typedef struct {
    uint32_t code;
    size_t start;
    size_t length;
} sangvireb_row;

/* The parameters of a block: first the caller's, as many as its cell of SANGVIREB_OWNS says, then the builder's. Lent is the table of parameters: of a
 * session's form the SANGVIREB_PARAM_CELLS cells from SANGVIREB_PARAM_ROWS on. */
sangvireb_row sangvireb_params(const uint32_t *params, size_t params_len, uint32_t block);

/* The arguments of a branch's destination by its place. Lent is the table of arguments: the SANGVIREB_ARG_CELLS cells from SANGVIREB_ARG_ROWS on. */
sangvireb_row sangvireb_args(const uint32_t *args, size_t args_len, uint32_t branch, uint32_t place);

/* Is the value recorded for stack maps? Number 1 if it is and 0 if not; code SANGVIREB_ABSENT if no such value is lent. Lent are the values' descriptions: of
 * a session's form as many cells from SANGVIREB_DESCRIBED on as there are values. */
sangvireb_answer sangvireb_recorded(const uint32_t *described, size_t described_len, uint32_t value);

/* The first recorded value from this number on. If there is none, a number that is not below `described_len`. */
size_t sangvireb_next_recorded(const uint32_t *described, size_t described_len, size_t from);

/* The same in a finished session's `form`: all recorded values, in order, are met by
 *     for (uint32_t v = sangvireb_stack_map_value(form, 0); v < form[SANGVIREB_VALUE_COUNT]; v = sangvireb_stack_map_value(form, v + 1)) */
static inline uint32_t sangvireb_stack_map_value(const uint32_t *form, uint32_t from) {
    return (uint32_t)sangvireb_next_recorded(form + SANGVIREB_DESCRIBED, form[SANGVIREB_VALUE_COUNT], from);
}

typedef struct {
    uint32_t code;
    size_t length;
} sangvireb_drawn;

/* Writes finished tables, whatever they hold, as Graphviz's DOT into the buffer and answers the text's length; no NUL is written. With any code
 * but 0 the length is 0 and the buffer stays as it was. */
sangvireb_drawn sangvireb_draw(const uint32_t *graph, size_t graph_len, const uint32_t *form, size_t form_len, char *buffer,
                               size_t buffer_len);

/* What there is to know of a type. */
typedef struct {
    uint32_t lane;  /* the type of each lane; a type that is no vector is its own */
    uint32_t lanes; /* 1 unless it is a vector */
    uint32_t width; /* in bytes */
    uint32_t step;  /* a zero takes one step, 0, or two: then the first one's type plus one */
    uint64_t low;   /* the bits of its unset value: the low 64 .. */
    uint64_t high;  /* .. and the high 64 */
} sangvireb_type_facts;

/* By the type's number. The unset value is what a variable of that type holds where it has received nothing, and what each zero of that type holds: no bit is
 * set for an integer, and in each lane of a float is a quiet NaN. A number that names no type has no lanes, no width and no bits. */
sangvireb_type_facts sangvireb_type(uint32_t type);

/* Up to 128 bits. */
typedef struct {
    uint64_t low;
    uint64_t high;
} sangvireb_bits;

static inline sangvireb_bits sangvireb_unset_bits(uint32_t type) {
    sangvireb_type_facts facts = sangvireb_type(type);
    sangvireb_bits bits = {facts.low, facts.high};
    return bits;
}

/* The bits that a value of sort SANGVIREB_SORT_ZERO in a finished session's `form` holds wherever its block begins. Where a zero takes two steps, both are
 * values of that sort, each with its own type's bits. */
static inline sangvireb_bits sangvireb_zero_bits(const uint32_t *form, uint32_t value) {
    return sangvireb_unset_bits(SANGVIREB_TYPE_OF(form[SANGVIREB_DESCRIBED + value]));
}

/* What the linked library was built for, by these places; 0 for any other place. */
enum {
    SANGVIREB_TELL_VERSION = 0,
    SANGVIREB_TELL_BLOCKS = 1,
    SANGVIREB_TELL_VARIABLES = 2,
    SANGVIREB_TELL_DESTS = 3,
    SANGVIREB_TELL_MADE = 4,
    SANGVIREB_TELL_CALLS = 5,
    SANGVIREB_TELL_GRAPH_NEED = 6,
    SANGVIREB_TELL_FORM_NEED = 7,
    SANGVIREB_TELL_WORK_NEED = 8,
    SANGVIREB_TELL_KINDS = 9,
    SANGVIREB_TELL_TYPES = 10,
    SANGVIREB_TELL_SORTS = 11,
    SANGVIREB_TELL_OWN_PARAMS = 12
};
uint32_t sangvireb_limit(uint32_t which);

/* 1 if the linked library is the one that this header speaks of, 0 if its version, limits or numbers are others. */
static inline int sangvireb_fits(void) {
    static const uint32_t here[] = {
        SANGVIREB_VERSION, SANGVIREB_BLOCKS, SANGVIREB_VARIABLES, SANGVIREB_DESTS,
        SANGVIREB_MADE, SANGVIREB_CALLS, SANGVIREB_GRAPH_NEED, SANGVIREB_FORM_NEED,
        SANGVIREB_WORK_NEED, SANGVIREB_KIND_MARK_VAR_NEEDS_STACK_MAP, SANGVIREB_TYPE_F64X2 + 1, SANGVIREB_SORT_CALLER_PARAMETER + 1,
        SANGVIREB_OWN_PARAMS};
    for (uint32_t which = 0; which < sizeof here / sizeof here[0]; which++) {
        if (sangvireb_limit(which) != here[which]) {
            return 0;
        }
    }
    return 1;
}

#ifdef __cplusplus
}
#endif

#endif
