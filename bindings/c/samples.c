/* Document 01's sample models, and others, through both checks of onnx_gate.h, and the name service. Prints what fails, and how many
 * passed. */
#define _DEFAULT_SOURCE /* MAP_ANONYMOUS, under -std=c99 */
#include "expect.h"
#include "onnx_gate.h"

#include <string.h>
#include <sys/resource.h>

#define L "\x00\x00\x00\x0B\x01\x00\x08\x00\x00\x00\x07\x00\x00\x00\x15"
#define M0 "\x08\x08\x42\x02\x10\x0D\x3A\x03\x12\x01\x67"
#define M1 "\x08\x08\x42\x02\x10\x0D\x3A\x0B\x12\x01\x67\x0A\x06\x12\x01\x61\x22\x01\x58"
#define NINE "\xFF\xFF\xFF\xFF\xFF\xFF\xFF\xFF\xFF"
#define GRAPH "\x3A\x03\x12\x01\x67" /* that of M0 */
/* M0 with more in its graph, which has this length then; and with a node of these inputs and outputs */
#define OF_GRAPH(length, more) "\x08\x08\x42\x02\x10\x0D\x3A" length "\x12\x01\x67" more
#define OF_NODE(named) OF_GRAPH("\x0E", "\x0A\x09" named "\x22\x01\x58")
#define INPUT(name) "\x5A\x0B\x0A\x01" name "\x12\x06\x0A\x04\x08\x01\x12\x00"
#define TENSOR(name) "\x2A\x05\x42\x01" name "\x10\x01"
#define WRITES(name) "\x0A\x06\x12\x01" name "\x22\x01\x58"
#define READS(name) "\x0A\x09\x0A\x01" name "\x12\x01\x62\x22\x01\x58"
#define BODY(graph, output)                                                                                                        \
    "\x0A\x1B\x12\x01" "a\x22\x01\x58\x2A\x13\x0A\x01k\x32\x0B\x12\x01" graph WRITES(output) "\xA0\x01\x05"
#define WITH_BODY BODY("h", "b")
/* M0 at another IR version with more in its graph; and a node with a body that has more than its name, with the lengths of these */
#define AT(version, length, more) "\x08" version "\x42\x02\x10\x0D\x3A" length "\x12\x01\x67" more
#define HOLDS(node, attribute, graph, more)                                                                                        \
    "\x0A" node "\x12\x00\x22\x01\x58\x2A" attribute "\x0A\x01k\x32" graph "\x12\x01h" more "\xA0\x01\x05"
#define HOLDS_TENSOR(name) HOLDS("\x19", "\x12", "\x0A", TENSOR(name))
#define HOLDS_DEFAULT HOLDS("\x1E", "\x17", "\x0F", "\x5A\x03\x0A\x01i" TENSOR("i"))
/* an input of the main graph whose one dim has this dim_param, and the lengths that this makes */
#define DIM(input, type, tensor, shape, dim, named)                                                                                \
    "\x5A" input "\x0A\x01w\x12" type "\x0A" tensor "\x08\x01\x12" shape "\x0A" dim "\x12" named
/* M1 with an attribute of type 7, and the lengths that this makes */
#define INTS(graph, node, attribute, ints)                                                                                         \
    "\x08\x08\x42\x02\x10\x0D\x3A" graph "\x12\x01\x67\x0A" node "\x12\x01\x61\x22\x01\x58\x2A" attribute                           \
    "\x0A\x01\x6B\xA0\x01\x07" ints

/* a string's bytes and their number, without the 0 that C puts at its end */
#define BYTES(s) (s), sizeof(s) - 1

static const struct sample {
    const char *model;
    size_t model_length;
    const char *operators;
    size_t operators_length;
    size_t cells;
    struct onnx_gate_answer answer;
} samples[] = {
    {NULL, 0, BYTES(L), 0, {10, 0, 0, 0, 0, 0}},
    {BYTES("\x08"), BYTES(L), 0, {1, 0, 0, 0, 0, 0}},
    {BYTES("\x00"), BYTES(L), 0, {3, 0, 0, 0, 0, 0}},
    {BYTES("\x0A"), BYTES(L), 0, {4, 0, 0, 0, 0, 0}},
    {BYTES("\x08\x08\x08\x08"), BYTES(L), 0, {5, 2, 0, 0, 0, 0}},
    {BYTES("\x08" NINE "\x01"), BYTES(L), 0, {10, 0, 0, 0, 0, 0}},
    {BYTES("\x08" NINE "\x02"), BYTES(L), 0, {2, 0, 0, 0, 0, 0}},
    {BYTES(M0), BYTES(L), 0, {0, 0, 0, 0, 0, 0}},
    {BYTES(M1), BYTES(L), 2, {0, 0, 1, 1, 0, 0}},
    {BYTES(M1), BYTES(L), 3, {0, 0, 1, 1, 0, 0}},
    {BYTES(M1), BYTES(L), 8, {0, 0, 1, 1, 0, 0}},
    {BYTES(M1), BYTES(L), 9, {0, 0, 1, 1, 0, 0}},
    {BYTES(M1), BYTES(L), 0, {40, 13, 0, 0, 0, 0}},
    {BYTES(M1), BYTES(L), 1, {40, 13, 0, 0, 0, 0}},
    {BYTES(OF_NODE("\x0A\x01\x61\x12\x01\x61")), BYTES(L), 0, {30, 13, 0, 0, 0, 0}},
    {BYTES(OF_NODE("\x0A\x01\x61\x12\x01\x61")), BYTES(L), 1, {30, 13, 0, 0, 0, 0}},
    {BYTES(OF_NODE("\x0A\x01\x61\x12\x01\x61")), BYTES(L), 2, {30, 13, 0, 0, 0, 0}},
    {BYTES(OF_NODE("\x12\x01\x61\x12\x01\x61")), BYTES(L), 0, {40, 13, 0, 0, 0, 0}},
    {BYTES(OF_NODE("\x12\x01\x61\x12\x01\x61")), BYTES(L), 1, {40, 13, 0, 0, 0, 0}},
    {BYTES(OF_NODE("\x12\x01\x61\x12\x01\x61")), BYTES(L), 2, {23, 16, 0, 0, 13, 0}},
    {BYTES(OF_NODE("\x12\x01\x61\x12\x01\x61")), BYTES(L), 9, {23, 16, 0, 0, 13, 0}},
    /* two names: the second takes the third cell and the fourth */
    {BYTES(OF_NODE("\x12\x01\x61\x12\x01\x62")), BYTES(L), 4, {0, 0, 1, 2, 0, 0}},
    {BYTES(OF_NODE("\x12\x01\x61\x12\x01\x62")), BYTES(L), 5, {0, 0, 1, 2, 0, 0}},
    {BYTES(OF_NODE("\x12\x01\x61\x12\x01\x62")), BYTES(L), 3, {40, 16, 0, 0, 0, 0}},
    {BYTES(OF_NODE("\x12\x01\x61\x12\x01\x62")), BYTES(L), 2, {40, 16, 0, 0, 0, 0}},
    {BYTES(OF_NODE("\x12\x01\x61\x12\x01\x62")), BYTES(L), 1, {40, 13, 0, 0, 0, 0}},
    /* a default adds no name; the second one shows the input, which may stand behind both */
    {BYTES(OF_GRAPH("\x17", INPUT("w") TENSOR("w"))), BYTES(L), 2, {0, 0, 0, 1, 0, 0}},
    {BYTES(OF_GRAPH("\x1E", INPUT("w") TENSOR("w") TENSOR("w"))), BYTES(L), 2, {23, 33, 0, 0, 13, 0}},
    {BYTES(OF_GRAPH("\x1E", TENSOR("w") INPUT("w") TENSOR("w"))), BYTES(L), 3, {23, 33, 0, 0, 20, 0}},
    {BYTES(OF_GRAPH("\x1E", TENSOR("w") TENSOR("w") INPUT("w"))), BYTES(L), 2, {23, 20, 0, 0, 27, 0}},
    {BYTES(OF_GRAPH("\x11", TENSOR("w") TENSOR("w"))), BYTES(L), 2, {23, 20, 0, 0, 13, 0}},
    {BYTES(OF_GRAPH("\x12", WRITES("w") TENSOR("w"))), BYTES(L), 2, {23, 13, 0, 0, 21, 0}},
    /* behind a body its names have vanished; in it those before it are visible */
    {BYTES(OF_GRAPH("\x28", WITH_BODY WRITES("b"))), BYTES(L), 4, {0, 0, 3, 2, 0, 0}},
    {BYTES(OF_GRAPH("\x30", WITH_BODY WRITES("b") WRITES("b"))), BYTES(L), 4, {23, 50, 0, 0, 42, 0}},
    {BYTES(OF_GRAPH("\x30", WITH_BODY WRITES("b") WRITES("b"))), BYTES(L), 3, {40, 42, 0, 0, 0, 0}},
    {BYTES(OF_GRAPH("\x28", WRITES("b") WITH_BODY)), BYTES(L), 2, {23, 39, 0, 0, 13, 0}},
    {BYTES(AT("\x02", "\x03", "")), BYTES(L), 0, {10, 0, 0, 0, 0, 0}},
    {BYTES(AT("\x03", "\x03", "")), BYTES(L), 0, {0, 0, 0, 0, 0, 0}},
    {BYTES(AT("\x0B", "\x03", "")), BYTES(L), 0, {0, 0, 0, 0, 0, 0}},
    {BYTES(AT("\x0C", "\x03", "")), BYTES(L), 0, {10, 0, 0, 0, 0, 0}},
    /* at version 3 an initializer bears the name of an input of its own graph, in a body too; later a body has no defaults */
    {BYTES(AT("\x03", "\x0A", TENSOR("w"))), BYTES(L), 2, {43, 13, 0, 0, 0, 0}},
    {BYTES(AT("\x04", "\x0A", TENSOR("w"))), BYTES(L), 2, {0, 0, 0, 1, 0, 0}},
    {BYTES(AT("\x03", "\x0A", TENSOR("w"))), BYTES(L), 0, {43, 13, 0, 0, 0, 0}},
    {BYTES(AT("\x03", "\x17", INPUT("w") TENSOR("w"))), BYTES(L), 2, {0, 0, 0, 1, 0, 0}},
    {BYTES(AT("\x03", "\x1E", INPUT("w") TENSOR("w") TENSOR("w"))), BYTES(L), 2, {23, 33, 0, 0, 13, 0}},
    {BYTES(AT("\x03", "\x1E", HOLDS_TENSOR("w"))), BYTES(L), 2, {43, 30, 0, 0, 0, 0}},
    {BYTES(AT("\x04", "\x1E", HOLDS_TENSOR("w"))), BYTES(L), 2, {0, 0, 1, 1, 0, 0}},
    {BYTES(AT("\x03", "\x2B", INPUT("w") HOLDS_TENSOR("w"))), BYTES(L), 2, {43, 43, 0, 0, 0, 0}},
    {BYTES(AT("\x04", "\x2B", INPUT("w") HOLDS_TENSOR("w"))), BYTES(L), 2, {23, 43, 0, 0, 13, 0}},
    {BYTES(AT("\x03", "\x23", HOLDS_DEFAULT)), BYTES(L), 2, {0, 0, 1, 1, 0, 0}},
    {BYTES(AT("\x03", "\x23", HOLDS_DEFAULT)), BYTES(L), 1, {40, 30, 0, 0, 0, 0}},
    {BYTES(AT("\x04", "\x23", HOLDS_DEFAULT)), BYTES(L), 2, {23, 35, 0, 0, 30, 0}},
    {BYTES("\x42\x02\x10\x0D\x3A\x23\x12\x01\x67" HOLDS_DEFAULT "\x08\x03"), BYTES(L), 2, {0, 0, 1, 1, 0, 0}},
    {BYTES("\x08\x08\x42\x02\x10\x16\x3A\x03\x12\x01\x67"), BYTES(L), 0, {14, 2, 0, 0, 0, 0}},
    {BYTES(M0), BYTES("\x00\x00\x00\x01\x01"), 0, {14, 2, 0, 0, 0, 0}},
    {BYTES(M0), BYTES("\x00\x00\x00\x01\x02"), 0, {8, 0, 0, 0, 0, 0}},
    {BYTES(M0), NULL, 0, 3, {8, 0, 0, 0, 0, 0}},
    /* padded: a tag, a value, a length, and a value inside a message; then of a field that no row names, beside its shortest form */
    {BYTES("\x88\x00\x08\x42\x02\x10\x0D" GRAPH), BYTES(L), 0, {9, 0, 0, 0, 0, 0}},
    {BYTES("\x08\x88\x00\x42\x02\x10\x0D" GRAPH), BYTES(L), 0, {9, 0, 0, 0, 0, 0}},
    {BYTES("\x08\x08\x42\x82\x00\x10\x0D" GRAPH), BYTES(L), 0, {9, 2, 0, 0, 0, 0}},
    {BYTES("\x08\x08\x42\x03\x10\x8D\x00" GRAPH), BYTES(L), 0, {9, 4, 0, 0, 0, 0}},
    {BYTES(M0 "\x98\x86\x00\x01"), BYTES(L), 0, {9, 11, 0, 0, 0, 0}},
    {BYTES(M0 "\x98\x06\x81\x00"), BYTES(L), 0, {9, 11, 0, 0, 0, 0}},
    {BYTES(M0 "\x98\x06\x01"), BYTES(L), 0, {0, 0, 0, 0, 0, 0}},
    {BYTES(M0 "\x9A\x06\x81\x00\x00"), BYTES(L), 0, {9, 11, 0, 0, 0, 0}},
    {BYTES(M0 "\x9A\x06\x01\x00"), BYTES(L), 0, {0, 0, 0, 0, 0, 0}},
    {BYTES(M0 "\x98\x06" NINE "\x00"), BYTES(L), 0, {9, 11, 0, 0, 0, 0}},
    {BYTES(M0 "\x98\x06" NINE "\x01"), BYTES(L), 0, {0, 0, 0, 0, 0, 0}},
    /* with another fault: 2 before 9; of a tag 9 before 3, 4 and 5, but 4 and 5 before the value's 9; 9 before the 1 of an extent */
    {BYTES("\x88" NINE "\x02"), BYTES(L), 0, {2, 0, 0, 0, 0, 0}},
    {BYTES("\x80\x00\x00"), BYTES(L), 0, {9, 0, 0, 0, 0, 0}},
    {BYTES("\x8A\x00\x00"), BYTES(L), 0, {9, 0, 0, 0, 0, 0}},
    {BYTES("\x0A\x80\x00"), BYTES(L), 0, {4, 0, 0, 0, 0, 0}},
    {BYTES("\x08\x08\x88\x00\x08"), BYTES(L), 0, {9, 2, 0, 0, 0, 0}},
    {BYTES("\x08\x08\x08\x88\x00"), BYTES(L), 0, {5, 2, 0, 0, 0, 0}},
    {BYTES("\x3A\x81\x00"), BYTES(L), 0, {9, 0, 0, 0, 0, 0}},
    {BYTES("\x3A\x01"), BYTES(L), 0, {1, 0, 0, 0, 0, 0}},
    /* padded ints of an attribute: packed ones are not opened */
    {BYTES(INTS("\x17", "\x12", "\x0A", "\x42\x02\x81\x00")), BYTES(L), 2, {0, 0, 1, 1, 0, 0}},
    {BYTES(INTS("\x16", "\x11", "\x09", "\x40\x81\x00")), BYTES(L), 1, {9, 27, 0, 0, 0, 0}},
    /* no identifiers: a graph's name, an output, one and a read of it, an input and its default, two in a body, a dim_param */
    {BYTES("\x08\x08\x42\x02\x10\x0D\x3A\x03\x12\x01/"), BYTES(L), 0, {0, 0, 0, 0, 0, 1}},
    {BYTES(OF_GRAPH("\x0B", WRITES("9"))), BYTES(L), 2, {0, 0, 1, 1, 0, 1}},
    {BYTES(OF_GRAPH("\x16", WRITES("/") READS("/"))), BYTES(L), 4, {0, 0, 2, 2, 0, 2}},
    {BYTES(OF_GRAPH("\x17", INPUT("/") TENSOR("/"))), BYTES(L), 2, {0, 0, 0, 1, 0, 2}},
    {BYTES(OF_GRAPH("\x20", BODY("/", "-"))), BYTES(L), 2, {0, 0, 2, 1, 0, 2}},
    {BYTES(OF_GRAPH("\x15", DIM("\x10", "\x0B", "\x09", "\x05", "\x03", "\x01-"))), BYTES(L), 2, {0, 0, 0, 1, 0, 1}},
    {BYTES(OF_GRAPH("\x14", DIM("\x0F", "\x0A", "\x08", "\x04", "\x02", "\x00"))), BYTES(L), 2, {21, 26, 0, 0, 0, 0}},
    /* UTF-8: zero and the last character. Not: a lone tail, a longer form, a surrogate, a tail too few, above the last character */
    {BYTES(OF_GRAPH("\x0B", WRITES("\x00"))), BYTES(L), 2, {0, 0, 1, 1, 0, 1}},
    {BYTES(OF_GRAPH("\x0E", "\x0A\x09\x12\x04\xF4\x8F\xBF\xBF\x22\x01\x58")), BYTES(L), 2, {0, 0, 1, 1, 0, 1}},
    {BYTES(OF_GRAPH("\x0B", WRITES("\x80"))), BYTES(L), 2, {21, 13, 0, 0, 0, 0}},
    {BYTES(OF_GRAPH("\x0C", "\x0A\x07\x12\x02\xC0\xAF\x22\x01\x58")), BYTES(L), 2, {21, 13, 0, 0, 0, 0}},
    {BYTES(OF_GRAPH("\x0D", "\x0A\x08\x12\x03\xED\xA0\x80\x22\x01\x58")), BYTES(L), 2, {21, 13, 0, 0, 0, 0}},
    {BYTES(OF_GRAPH("\x0C", "\x0A\x07\x12\x02\xE2\x82\x22\x01\x58")), BYTES(L), 2, {21, 13, 0, 0, 0, 0}},
    {BYTES(OF_GRAPH("\x0E", "\x0A\x09\x12\x04\xF4\x90\x80\x80\x22\x01\x58")), BYTES(L), 2, {21, 13, 0, 0, 0, 0}},
#include "function_rows.h"
};

/* The largest size: an initializer first, whose lengths end in these bytes, and last in the graph and in the model what is given. */
#define MOST 2147483647
#define FILLED(tensor, contents)                                                                                                   \
    "\x08\x08\x42\x02\x10\x0D\x3A\xF3\xFF\xFF\xFF\x07\x12\x01\x67\x2A" tensor "\xFF\xFF\xFF\x07"                                     \
    "\x42\x01\x77\x10\x01\x4A" contents "\xFF\xFF\xFF\x07"

static const struct large {
    size_t length;
    const char *first;
    size_t first_length;
    const char *last;
    size_t last_length;
    size_t cells;
    struct onnx_gate_answer answer;
} larges[] = {
    {MOST, BYTES(""), BYTES(""), 0, {3, 0, 0, 0, 0, 0}},
    {MOST + UINT64_C(1), BYTES(""), BYTES(""), 0, {7, 0, 0, 0, 0, 0}},
    {sizeof M1 - 1 + (UINT64_C(1) << 32), BYTES(M1), BYTES(""), 1, {7, 0, 0, 0, 0, 0}}, /* in 32 bits its length is that of M1 */
    {MOST, BYTES(FILLED("\xE2", "\xD7")), BYTES(WRITES("a")), 4, {0, 0, 1, 2, 0, 0}},
    {MOST, BYTES(FILLED("\xE2", "\xD7")), BYTES(WRITES("a")), 3, {40, MOST - 6, 0, 0, 0, 0}},
    {MOST, BYTES(FILLED("\xE2", "\xD7")), BYTES(WRITES("w")), 2, {23, MOST - 6, 0, 0, 21, 0}},
    {MOST, BYTES(FILLED("\xDF", "\xD4")), BYTES(READS("w")), 4, {0, 0, 1, 2, 0, 0}},
    {MOST, BYTES(FILLED("\xDF", "\xD4")), BYTES(READS("q")), 4, {30, MOST - 9, 0, 0, 0, 0}},
};

static const struct {
    uint64_t start, length;
    struct onnx_gate_part part;
} parts[] = {
    {15, 1, {15, 1}},
    {0, 19, {0, 19}},
    {19, 0, {19, 0}},
    {0, 20, {0, 0}},
    {18, 2, {0, 0}},
    {20, 0, {0, 0}},
    {1, UINT64_MAX, {0, 0}},
    {UINT64_MAX, 1, {0, 0}},
};

static int is(struct onnx_gate_answer a, struct onnx_gate_answer b)
{
    return a.refusal == b.refusal && a.place == b.place && a.nodes == b.nodes && a.names == b.names && a.first == b.first &&
           a.odd == b.odd;
}

#define GARBAGE 0xA5A5A5A5u

/* cells that are not zero, more than any sample takes */
struct lent {
    uint32_t cells[10], extra[512];
};

static void fill(struct lent *lent)
{
    memset(lent, 0xA5, sizeof *lent);
}

/* whether the first `count` are zero, and the one behind them is as it was */
static int cleared(const uint32_t *cells, size_t count)
{
    size_t i;
    for (i = 0; i < count; i++)
        if (cells[i] != 0)
            return 0;
    return cells[count] == GARBAGE;
}

static struct onnx_gate_answer plain(const struct sample *s, struct lent *lent)
{
    return onnx_gate_check((const uint8_t *)s->model, s->model_length, (const uint8_t *)s->operators, s->operators_length,
                           s->cells ? lent->cells : NULL, s->cells);
}

static struct onnx_gate_answer indexed(const struct sample *s, struct lent *lent, size_t extra, uint64_t seed)
{
    return onnx_gate_check_indexed((const uint8_t *)s->model, s->model_length, (const uint8_t *)s->operators, s->operators_length,
                                   s->cells ? lent->cells : NULL, s->cells, extra ? lent->extra : NULL, extra, seed);
}

static void check_sample(const struct sample *s, size_t which)
{
    struct lent lent;
    fill(&lent);
    expect(is(plain(s, &lent), s->answer), "sample", which);
    expect(cleared(lent.cells, s->cells), "cells, sample", which);
    expect(lent.extra[0] == GARBAGE, "no extra cells, sample", which);
}

static void check_indexed(const struct sample *s, size_t which, size_t extra, uint64_t seed)
{
    struct onnx_gate_answer too_few = {ONNX_GATE_TOO_FEW_EXTRA, 0, 0, 0, 0, 0};
    struct lent lent;
    fill(&lent);
    expect(is(indexed(s, &lent, extra, seed), extra < 4 * s->cells ? too_few : s->answer), "indexed sample", which);
    expect(cleared(lent.cells, s->cells), "cells, indexed sample", which);
    expect(cleared(lent.extra, extra), "extra cells, indexed sample", which);
}

static void check_indexed_sample(const struct sample *s, size_t which)
{
    static const uint64_t seeds[] = {0, 1, UINT64_C(0x0123456789ABCDEF), UINT64_MAX};
    static const size_t more[] = {0, 1, 2, 5, 6, 7, 50, 400};
    size_t i, j;
    for (i = 0; i < sizeof seeds / sizeof seeds[0]; i++) {
        for (j = 0; j < sizeof more / sizeof more[0]; j++)
            check_indexed(s, which, 4 * s->cells + more[j], seeds[i]);
        if (s->cells > 0) {
            check_indexed(s, which, 4 * s->cells - 1, seeds[i]);
            check_indexed(s, which, 0, seeds[i]);
        }
    }
}

/* Of 2 GiB and more only the first and the last page are written. */
static void check_large(const struct large *large, size_t which)
{
    struct sample s = {NULL, large->length, BYTES(L), large->cells, large->answer};
    uint8_t *model = zeros(large->length);
    struct onnx_gate_part last;
    expect(model != NULL, "a mapping, sample", which);
    if (model == NULL)
        return;
    memcpy(model, large->first, large->first_length);
    memcpy(model + large->length - large->last_length, large->last, large->last_length);
    s.model = (const char *)model;
    check_sample(&s, which);
    check_indexed_sample(&s, which);
    last = onnx_gate_show_name(model, large->length, large->length - 1, 1);
    expect(last.start == large->length - 1 && last.length == 1, "the last byte, sample", which);
    munmap(model, large->length);
}

/* whether all of this took less memory than one of the large models has bytes */
static int took_little(void)
{
    struct rusage used;
    return getrusage(RUSAGE_SELF, &used) == 0 && used.ru_maxrss < 500000;
}

int main(void)
{
    size_t i, count = sizeof samples / sizeof samples[0];
    for (i = 0; i < count; i++) {
        check_sample(&samples[i], i);
        check_indexed_sample(&samples[i], i);
    }
    for (i = 0; i < sizeof parts / sizeof parts[0]; i++) {
        struct onnx_gate_part p = onnx_gate_show_name((const uint8_t *)M1, sizeof M1 - 1, parts[i].start, parts[i].length);
        expect(p.start == parts[i].part.start && p.length == parts[i].part.length, "part", i);
    }
    for (i = 0; i < sizeof larges / sizeof larges[0]; i++)
        check_large(&larges[i], count + i);
    expect(took_little(), "memory, samples", count + i);
    return told();
}
