/* The check that stands in front of an ONNX runtime, and the name service, for C99 and C++ on x86-64 Linux.
 *
 * The library is proved: for every input it gives the answer that document 01 has for it, reads only what is lent, writes only the
 * cells and extra cells, and returns. It allocates nothing and does no input or output. What it asks of its caller is what C
 * always asks: each pointer reaches as many elements as the length beside it says. Where a length is 0 nothing is read or written
 * there, so the pointer may be NULL.
 *
 * Threads: there is no state between calls and none shared by them. Any number of calls may run at once, on the same model and
 * list too, as long as each has cells and extra cells of its own and nothing writes to the model or the list before it returns.
 *
 * Lifetime: nothing of what is lent is kept after a call returns, and nothing is to be freed: answers are plain numbers.
 */
#ifndef ONNX_GATE_H
#define ONNX_GATE_H

#include <stddef.h>
#include <stdint.h>

/* Of the header and of the library, as of the bindings for Rust and Python. */
#define ONNX_GATE_VERSION "0.1.0"

/* How many cells a visible name takes: its place and its length. Half of the cells, rounded down, is how many names may be visible
 * together; one cell holds none. */
#define ONNX_GATE_CELLS_PER_NAME 2

#ifdef __cplusplus
extern "C" {
#endif

/* An answer: accepted with three counts, or refused with a number and a place, and 23 with a second place. What does not apply
 * is 0. */
struct onnx_gate_answer {
    uint64_t refusal; /* 0: accepted. Else one of the numbers below. */
    uint64_t place;   /* refused: the byte of the model at which the field at fault begins; for something absent, the message
                         that lacks it, 0 being the model. 7, 8 and 65 have place 0. Always below 2^31. */
    uint64_t nodes;   /* accepted: how many nodes all graphs and functions have. */
    uint64_t names;   /* accepted: the most names visible together, in the main graph or in a function, which sees only its own.
                         With fewer than two cells for each it is refused with 40. */
    uint64_t first;   /* refused with 23: the place of the definition that is already visible, as `place` the byte at which the
                         field that holds the name begins; of an input with a default it is the input's. It may lie behind
                         `place`, as inputs are judged before initializers and these before nodes wherever they stand. */
    uint64_t odd;     /* accepted: how many fields hold a name that is no identifier of C (a letter or underscore, then letters,
                         digits and underscores, ASCII only), as exporters write them: /encoder/MatMul_output_0. Counted is each
                         name of a graph, function, input, output, initializer, node and attribute, each op_type, input and output
                         of a node, and each dim_param of the main graph's inputs and outputs; not domains, overloads and
                         references, nor what stands in a value_info, in the type of a body's input or output, or in an attribute's
                         value but a graph. */
};

/* The refusals. Of several that apply the first is told: 65, which is for onnx_gate_check_indexed only; 7; 8; the first of 1 to 6
 * and 9 in the order of the bytes, of a tag as 1, 2, 9, 3, 4, 5 and of the value or length behind it as 1, 2, 9, 1, 6; then 10 to 43,
 * as documents 01 and 02 order them: the header, the main graph, and function by function; 43 is tested after 21 and before 23. */
enum onnx_gate_refusal {
    ONNX_GATE_ACCEPTED = 0,
    ONNX_GATE_PAST_END = 1,             /* a varint, value or length runs past the end of its message */
    ONNX_GATE_TENTH_BYTE = 2,           /* the tenth byte of a varint is above 1 */
    ONNX_GATE_BAD_TAG = 3,              /* not a tag: above 2^32 - 1, field number 0, or a wire type other than 0, 1, 2 and 5 */
    ONNX_GATE_WRONG_WIRE = 4,           /* the field has another wire type than onnx.proto gives it */
    ONNX_GATE_REPEATED = 5,             /* a field that may stand once stands again, or a second member of a one-of */
    ONNX_GATE_TOO_DEEP = 6,             /* graphs are nested more than 8 deep, the main graph or a function being the first */
    ONNX_GATE_MODEL_TOO_LARGE = 7,      /* the model has more than 2,147,483,647 bytes */
    ONNX_GATE_LIST_UNSOUND = 8,         /* the operator list is not in its format, or has a domain twice */
    ONNX_GATE_PADDED = 9,               /* a tag, value or length is padded: a varint of more than one byte that ends in 0 */
    ONNX_GATE_BAD_IR_VERSION = 10,      /* ir_version must be 3 to 11 */
    ONNX_GATE_NO_GRAPH = 11,            /* the model has no graph */
    ONNX_GATE_NO_OPSET_IMPORT = 12,     /* the model, or a function, has no opset_import */
    ONNX_GATE_IMPORTED_TWICE = 13,      /* the model, or a function, imports a domain twice (the empty domain is ai.onnx) */
    ONNX_GATE_VERSION_NOT_LISTED = 14,  /* the operator list does not allow this version of the domain */
    ONNX_GATE_SPARSE_INITIALIZER = 16,  /* a graph has a sparse_initializer */
    ONNX_GATE_GRAPH_NAME_EMPTY = 20,    /* a graph must have a name */
    ONNX_GATE_NOT_UTF8 = 21,            /* not well-formed UTF-8, or an empty dim_param */
    ONNX_GATE_NAME_EMPTY = 22,          /* a function, input, initializer, output or attribute must have a name */
    ONNX_GATE_ALREADY_VISIBLE = 23,     /* the name is already defined and visible here */
    ONNX_GATE_NO_TENSOR_TYPE = 24,      /* an input or output of the main graph must have a tensor type */
    ONNX_GATE_BAD_ELEM_TYPE = 25,       /* elem_type must be 1 to 23 */
    ONNX_GATE_BAD_DATA_TYPE = 26,       /* data_type must be 1 to 23 */
    ONNX_GATE_OP_TYPE_EMPTY = 27,       /* a node must have an op_type */
    ONNX_GATE_NOT_IMPORTED = 28,        /* the node's domain is not imported; a function has imports of its own */
    ONNX_GATE_NODE_NAME_TWICE = 29,     /* an earlier node of the graph or function has the same name */
    ONNX_GATE_INPUT_NOT_VISIBLE = 30,   /* the node reads a name that is not defined before it, or not visible here */
    ONNX_GATE_ATTRIBUTE_TWICE = 31,     /* an earlier attribute of the node has the same name */
    ONNX_GATE_BAD_VALUE = 32,           /* an attribute's type is outside 1..14 or does not fit its value; a reference has none,
                                           a default is no graph */
    ONNX_GATE_BAD_REFERENCE = 33,       /* ref_attr_name is for nodes of a function, and must name an attribute of that function */
    ONNX_GATE_NO_OUTPUT = 34,           /* a node must have an output */
    ONNX_GATE_OUTPUT_NOT_VISIBLE = 35,  /* an output of the graph or function is a name that nothing visible defines */
    ONNX_GATE_NO_SHAPE = 37,            /* a tensor type of the main graph must have a shape */
    ONNX_GATE_NEGATIVE_DIM = 38,        /* a dim_value is negative */
    ONNX_GATE_CELLS_FULL = 40,          /* more names are visible together than fit in the cells, two for each */
    ONNX_GATE_FUNCTION_TWICE = 41,      /* an earlier function has the same name and domain, from IR version 10 on overload too */
    ONNX_GATE_FUNCTION_ATTRIBUTE_TWICE = 42, /* the function names an attribute twice, with a default or without */
    ONNX_GATE_INITIALIZER_NOT_INPUT = 43, /* at IR version 3 an initializer must bear the name of an input of its own graph */
    ONNX_GATE_TOO_FEW_EXTRA = 65        /* a program lent the indexed check fewer extra cells than four times its cells */
};

/* Checks a model.
 *
 *   model, model_length          the bytes of the model, any bytes at all; only read.
 *   operators, operators_length  the bytes of the operator list, any bytes at all; only read. All numbers big-endian: four bytes
 *                                that count all that follows, the byte 1, then entries: two bytes that count the rest of
 *                                the entry, the domain, lowest version (four bytes), highest version (four bytes).
 *   cells, cells_length          working space, counted in cells of 32 bits, aligned as uint32_t is, apart from model and list. A
 *                                visible name takes two cells, so that their number bounds how many may be visible together,
 *                                cells_length / 2, and has no other effect. What they hold before does not matter; whatever
 *                                the answer, all are 0 when the call returns.
 */
struct onnx_gate_answer onnx_gate_check(const uint8_t *model, size_t model_length, const uint8_t *operators,
                                        size_t operators_length, uint32_t *cells, size_t cells_length);

/* The same check, made fast by an index of the names in extra cells. Without it the time grows with the square of the names: for
 * 20,000 nodes seconds, and with it milliseconds.
 *
 *   model .. cells_length        as above.
 *   extra, extra_length          more working space, apart from all else. Fewer than 4 * cells_length of them, as whole numbers, are
 *                                refused with 65 at 0, whatever the model; with that many or more the answer is that of
 *                                onnx_gate_check. What they hold before does not matter; whatever the answer, all are 0 when
 *                                the call returns.
 *   seed                         how names are spread over the index. No answer depends on it, only the time: draw it at random for
 *                                each call (getrandom), and whoever makes a model cannot make its names collide.
 *
 * How many extra cells: 4 * cells_length, or 4 * (cells_length / 2) + 2 + 4 * R where that is more, make everything linear in the
 * model's length. 4 * (cells_length / 2) + 1 of them index the visible names, the last ones the functions, four for each, and the
 * lists have the others. R is the number of functions, and besides the most names of lists that are open at once: imports with a
 * domain that is not empty, initializers of the main graph, or at IR version 3 of the innermost graph that is open, named nodes of
 * the graphs that are open, attributes of the nodes that are open; in a function also its own attributes, its own imports with such a
 * domain, and its own named nodes. With fewer than that, a list that does not fit is read again for each name in it, and functions
 * that do not are: the same answer, later. All cells of both kinds are cleared in
 * each call, so that far more of them than needed cost time as well.
 *
 * How much memory: never are more than model_length / 3 names visible, and R is never more than model_length / 3. A name takes 8
 * bytes of cells and 32 of extra cells, in which R has room as well as long as it is less than the names. That comes to 13.4 bytes for
 * each byte of the model, 28.7 GB for the largest, and a model that needs anything near it is none that people make. So begin with
 * few cells, and lend more when the answer is 40: any other answer is the same with more cells. onnx_gate_sizing.h counts how many
 * names a model can have visible, and R.
 */
struct onnx_gate_answer onnx_gate_check_indexed(const uint8_t *model, size_t model_length, const uint8_t *operators,
                                                size_t operators_length, uint32_t *cells, size_t cells_length,
                                                uint32_t *extra, size_t extra_length, uint64_t seed);

/* A part of the model: `length` bytes from model + start on. It always lies inside the model. */
struct onnx_gate_part {
    uint64_t start;
    uint64_t length;
};

/* Shows a name, or any other part of a model: where the `length` bytes from `start` on lie in it. A range that does not fit, however
 * large its numbers, gives { 0, 0 }: the empty part at the model's start. No byte of the model is read. The name that is shown
 * is not ended by a 0: print it with its length, and not raw, as it may hold zeros and what a terminal obeys.
 *
 *   model, model_length  the bytes of the model.
 *   start, length        the range, in bytes.
 */
struct onnx_gate_part onnx_gate_show_name(const uint8_t *model, size_t model_length, uint64_t start, uint64_t length);

#ifdef __cplusplus
}
#endif

#endif
