/* What onnx_gate_needed counts, and that it survives any bytes. Prints what fails, and how many passed. */
#define _DEFAULT_SOURCE /* MAP_ANONYMOUS, under -std=c99 */
#include "expect.h"
#include "onnx_gate.h"
#include "onnx_gate_sizing.h"

#include <string.h>

#define PAGE 4096
#define MOST 2147483647
#define CELLS 64
#define EXTRA 256

/* a string's bytes and their number, without the 0 that C puts at its end */
#define BYTES(s) (s), sizeof(s) - 1

#define L "\x00\x00\x00\x0B\x01\x00\x08\x00\x00\x00\x07\x00\x00\x00\x15"
/* a graph with an input, an initializer, and a node with an input, two outputs, an empty one, a name and an attribute */
#define INPUT "\x5A\x0B\x0A\x01i\x12\x06\x0A\x04\x08\x01\x12\x00"
#define TENSOR "\x2A\x05\x42\x01w\x10\x01"
#define OF_NODE "\x0A\x01i\x12\x01" "a\x12\x01" "b\x12\x00\x1A\x01n\x22\x01X\x2A\x06\x0A\x01k\xA0\x01\x02"
#define SOUND "\x08\x08\x42\x02\x10\x0D\x3A\x32\x12\x01g" INPUT TENSOR "\x0A\x19" OF_NODE
/* at IR version 3, with two inputs and their defaults, one of them of a body */
#define OF_BODY "\x12\x01h\x5A\x03\x0A\x01j\x2A\x05\x42\x01j\x10\x01"
#define DEFAULT "\x2A\x05\x42\x01i\x10\x01"
#define HOLDER "\x0A\x1E\x12\x00\x22\x01X\x2A\x17\x0A\x01k\x32\x0F" OF_BODY "\xA0\x01\x05"
#define SOUND_3 "\x08\x03\x42\x02\x10\x0D\x3A\x37\x12\x01g" INPUT DEFAULT HOLDER
#define ENTRY "\x42\x05\x0A\x01x\x10\x0D"
/* a function with an attribute, a default, an import, an input, a named node that refers to the attribute, and an output */
#define OF_CALLED "\x0A\x01i\x12\x01o\x1A\x01n\x22\x01X\x2A\x0A\x0A\x01k\xA0\x01\x02\xAA\x01\x01k"
#define OF_FUNCTION                                                                                                                \
    "\x0A\x01q\x32\x01k\x5A\x08\x0A\x01m\x18\x01\xA0\x01\x02\x4A\x02\x10\x0D\x22\x01i\x3A\x18" OF_CALLED "\x2A\x01o"
#define SOUND_WITH_FUNCTION "\x08\x08\x42\x02\x10\x0D\x3A\x03\x12\x01g\xCA\x01\x34" OF_FUNCTION
/* functions with two inputs and an attribute, and with one input and two attributes */
#define TWO_INPUTS "\xCA\x01\x09\x22\x01i\x22\x01j\x32\x01k"
#define ONE_INPUT "\xCA\x01\x09\x22\x01i\x32\x01k\x32\x01m"
#define TWO_TENSORS "\x3A\x0E" TENSOR TENSOR

static const struct {
    const char *model;
    size_t length;
    struct onnx_gate_need need;
} rows[] = {
    {NULL, 0, {0, 0}},
    {BYTES("\x08\x08\x42\x02\x10\x0D\x3A\x0B\x12\x01g\x0A\x06\x12\x01" "a\x22\x01X"), {1, 0}},
    {BYTES(SOUND), {4, 3}},
    {BYTES(SOUND_3), {4, 3}}, /* the body's initializer is one of a list, at every IR version */
    {BYTES(ENTRY ENTRY), {0, 2}},
    {BYTES("\x42\x04\x0A\x02xx\x42\x00\x42\x00"), {0, 0}},              /* six bytes, and two */
    {BYTES("\x3A\x0A\x2A\x03\x42\x01w\x2A\x03\x42\x01v"), {2, 0}},      /* initializers of five */
    {BYTES("\x3A\x0C\x5A\x00\x5A\x00\x5A\x00\x5A\x00\x2A\x00\x2A\x00"), {2, 0}}, /* inputs with no bytes */
    {BYTES("\x3A\x08\x2A\x00\x2A\x00\x2A\x00\x2A\x00"), {3, 0}},        /* 10 / 3 */
    {BYTES("\x3A\x0D\x0A\x0B\x1A\x01n\x1A\x01m\x1A\x01o\x1A\x00"), {0, 3}}, /* one name is empty */
    {BYTES("\xC2\x80\x80\x80\x00\x85\x80\x00\x0A\x01x\x10\x0D"), {0, 1}}, /* a padded tag and length count, too */
    {BYTES(ENTRY "\x79" "12345678" "\x7D" "1234" "\x78\xFF\x01" ENTRY), {0, 2}}, /* unknown fields */
    {BYTES("\x9A\x06\x07" ENTRY ENTRY), {0, 1}},                        /* inside an unknown one nothing is counted */
    {BYTES("\xDA\x10\x01x"), {0, 0}},                                  /* field 267 of a model is no field 11 of a graph */
    {BYTES(ENTRY "\x78\xFF\xFF\xFF\xFF\xFF\xFF\xFF\xFF\xFF\x01" ENTRY), {0, 2}}, /* a varint of ten bytes */
    {BYTES("\x3A\x0A\x0A\x08\x1A\x00\x12\x01" "a\x22\x01X"), {1, 0}}, /* an empty name of a node */
    {BYTES("\x3A\x0D\x0A\x0B\x2A\x09\x5A\x07" TENSOR), {1, 2}},       /* a graph of field 11 */
    {BYTES(SOUND_WITH_FUNCTION), {2, 5}},
    /* names and lists of a graph or function, the most of them and not their sum; and each function */
    {BYTES(TWO_INPUTS), {2, 2}},
    {BYTES(TWO_INPUTS ONE_INPUT ONE_INPUT), {2, 5}},
    {BYTES(TWO_TENSORS ONE_INPUT), {2, 3}},
    {BYTES(ONE_INPUT TWO_TENSORS ENTRY), {2, 4}},
    {BYTES("\xCA\x01\x0B\x4A\x05\x0A\x01x\x10\x0D\x4A\x02\x10\x0D"), {0, 2}}, /* its own imports, one with a domain */
    {BYTES("\xCA\x01\x03\x0A\x01q"), {0, 0}},                          /* six bytes */
    {BYTES("\xCA\x01\x04\x32\x00\x22\x00"), {0, 1}},                   /* empty names */
    {BYTES("\xCA\x01\x0D\x3A\x0B\x2A\x09\x32\x07" TENSOR), {1, 3}},      /* a body of a node */
    {BYTES("\xCA\x01\x0B\x5A\x09\x32\x07" TENSOR), {0, 2}},            /* and in a default nothing is kept */
    /* what the library refuses with 1 to 3 */
    {BYTES(ENTRY "\x3A"), {0, 0}},
    {BYTES(ENTRY "\x3A\x80"), {0, 0}},
    {BYTES(ENTRY "\x3A\x01"), {0, 0}},
    {BYTES(ENTRY "\x79\x01"), {0, 0}},
    {BYTES(ENTRY "\x7D\x01\x02\x03"), {0, 0}},
    {BYTES(ENTRY "\x78"), {0, 0}},
    {BYTES(ENTRY "\x00\x00"), {0, 0}},
    {BYTES(ENTRY "\x0B"), {0, 0}},
    {BYTES(ENTRY "\x0F"), {0, 0}},
    {BYTES(ENTRY "\x80\x80\x80\x80\x10\x00"), {0, 0}},
    {BYTES(ENTRY "\x78\xFF\xFF\xFF\xFF\xFF\xFF\xFF\xFF\xFF\xFF\x01"), {0, 0}},
    {BYTES(ENTRY "\x42\x81\x80\x80\x80\x10" "a"), {0, 0}},                /* 2^32 + 1 bytes, which has one */
    {BYTES(ENTRY "\x42\xFF\xFF\xFF\xFF\xFF\xFF\xFF\xFF\xFF\x01" "a"), {0, 0}}, /* 2^64 - 1 */
    {BYTES(ENTRY "\x42\xF5\xFF\xFF\xFF\xFF\xFF\xFF\xFF\xFF\x01" "a"), {0, 0}}, /* 2^64 - 11, back to its tag */
    {BYTES("\x3A\x02\x0A\x05" ENTRY), {0, 0}},
    {BYTES("\xCA\x01\x02\x3A\x05" ENTRY), {0, 0}},
};

/* The bytes where nothing can be read behind them; `page` has two pages, of which the second is closed. */
static uint8_t *at_the_edge(uint8_t *page, const void *bytes, size_t length)
{
    return length == 0 ? NULL : (uint8_t *)memcpy(page + PAGE - length, bytes, length);
}

static void check_rows(uint8_t *page)
{
    size_t i;
    for (i = 0; i < sizeof rows / sizeof rows[0]; i++) {
        struct onnx_gate_need need = onnx_gate_needed(at_the_edge(page, rows[i].model, rows[i].length), rows[i].length);
        expect(need.names == rows[i].need.names && need.lists == rows[i].need.lists, "row", i);
    }
}

/* The indexed check in as many cells of both kinds as are counted. */
static struct onnx_gate_answer check_counted(const uint8_t *model, size_t length, struct onnx_gate_need need)
{
    uint32_t cells[CELLS], extra[EXTRA];
    size_t count = ONNX_GATE_CELLS_PER_NAME * need.names, more = onnx_gate_extra_for(count, need.lists);
    expect(count <= CELLS && more <= EXTRA, "room, length", length);
    return onnx_gate_check_indexed(model, length, (const uint8_t *)L, sizeof L - 1, cells, count, extra, more, 7);
}

/* Never more than the bytes have room for; never fewer names than the library finds. 1 where it accepts. */
static size_t check_bounds(const uint8_t *model, size_t length)
{
    uint32_t cells[CELLS];
    struct onnx_gate_need need = onnx_gate_needed(model, length);
    struct onnx_gate_answer answer = onnx_gate_check(model, length, (const uint8_t *)L, sizeof L - 1, cells, CELLS);
    struct onnx_gate_answer counted = check_counted(model, length, need);
    expect(need.names <= length / 3 && need.lists <= length / 3, "bounds, length", length);
    expect(answer.names <= need.names, "names, length", length);
    expect(counted.refusal == answer.refusal && counted.place == answer.place && counted.first == answer.first, "counted, length",
           length);
    return answer.refusal == ONNX_GATE_ACCEPTED;
}

/* Four times the cells, and more only for more lists than names. */
static void check_extra(void)
{
    static const size_t extra[][3] = {{0, 0, 2},  {1, 0, 4},   {2, 0, 8},    {3, 0, 12},        {0, 5, 22},        {1, 5, 22},
                                      {2, 1, 10}, {3, 5, 26},  {4, 1, 16},   {4, 2, 18},        {5, 2, 20},        {5, 3, 22},
                                      {8, 3, 32}, {8, 4, 34},  {8, 99, 414}, {131072, 65535, 524288}, {131072, 65536, 524290},
                                      {2 * (size_t)(MOST / 3), MOST / 3, 8 * (size_t)(MOST / 3) + 2}};
    size_t i;
    for (i = 0; i < sizeof extra / sizeof extra[0]; i++)
        expect(onnx_gate_extra_for(extra[i][0], extra[i][1]) == extra[i][2], "extra cells, row", i);
}

/* Each start of a sound model, and each of its bytes replaced by each other. */
static void check_changes(uint8_t *page, const char *sound, size_t length)
{
    size_t accepted = 0, i;
    for (i = 0; i <= length; i++)
        check_bounds(at_the_edge(page, sound, i), i);
    for (i = 0; i < length * 256; i++) {
        uint8_t *model = at_the_edge(page, sound, length);
        model[i / 256] = (uint8_t)i;
        accepted += check_bounds(model, length);
    }
    expect(accepted > length, "accepted changes", accepted);
}

/* A tag, and a length in so many bytes. */
static void put_head(uint8_t *at, uint8_t tag, size_t length, size_t bytes)
{
    size_t i;
    *at = tag;
    for (i = 0; i < bytes; i++)
        at[1 + i] = (uint8_t)((length >> 7 * i & 0x7F) | (i + 1 < bytes ? 0x80 : 0));
}

/* So many graphs in graphs, the first of them a function where that is asked for, and each other one the body of an attribute of eight
 * bytes or more; each length takes five bytes, which the count lets pass. */
static struct onnx_gate_need nested(uint8_t *space, size_t depth, int function)
{
    static const uint8_t tags[] = {0x0A, 0x2A, 0x32};
    size_t at = 65536, end = at, level;
    for (level = 3 * depth - 2; level > 0; level--) {
        at -= 6;
        put_head(space + at, level <= (size_t)(function ? 2 : 1) ? 0x3A : tags[(level - 2) % 3], end - at - 6, 5);
    }
    if (function) {
        space[at] = 0x01;
        space[--at] = 0xCA;
    }
    return onnx_gate_needed(space + at, end - at);
}

static void check_depth(uint8_t *space)
{
    int function;
    for (function = 0; function <= 1; function++) {
        struct onnx_gate_need eight = nested(space, 8, function), nine = nested(space, 9, function);
        struct onnx_gate_need many = nested(space, 3000, function);
        expect(eight.names == 0 && eight.lists == (function ? 8 : 7), "depth", 8);
        expect(nine.lists == 0 && many.lists == 0, "depth", 9);
    }
}

/* Of a model with this ir_version, so many initializers, and one name of its graph or two. The graph's length needs three bytes. */
static struct onnx_gate_need of_many(uint8_t *model, uint8_t ir_version, size_t count, size_t names, size_t bytes)
{
    size_t graph = 7 * count + 3 * names, at = 7 + bytes, i;
    memcpy(model, "\x08\x08\x42\x02\x10\x0D", 6);
    model[1] = ir_version;
    put_head(model + 6, 0x3A, graph, bytes);
    for (i = 0; i < count; i++)
        memcpy(model + at + 7 * i, TENSOR, 7);
    memcpy(model + at + 7 * count, "\x12\x01g\x12\x01g", 3 * names);
    return onnx_gate_needed(model, at + graph);
}

/* Of a model with this ir_version and a function of so many attributes. Its length needs three bytes. */
static struct onnx_gate_need of_attributes(uint8_t *model, uint8_t ir_version, size_t count)
{
    size_t at = 16, i;
    memcpy(model, "\x08\x08\x42\x02\x10\x0D\x3A\x03\x12\x01g\xCA", 12);
    model[1] = ir_version;
    put_head(model + 12, 0x01, 3 * count, 3);
    for (i = 0; i < count; i++)
        memcpy(model + at + 3 * i, "\x32\x01k", 3);
    return onnx_gate_needed(model, at + 3 * count);
}

/* From 65,537 names of lists on the library is asked whether it keeps one. It does not where it refuses with 5, 9 or 10. */
static void check_long_lists(uint8_t *model)
{
    struct onnx_gate_need unasked = of_many(model, 8, 65536, 2, 3), kept = of_many(model, 8, 65537, 1, 3);
    struct onnx_gate_need twice = of_many(model, 8, 65537, 2, 3), old = of_many(model, 2, 65537, 1, 3);
    struct onnx_gate_need padded = of_many(model, 8, 65537, 1, 4);
    struct onnx_gate_need in_function = of_attributes(model, 8, 65536), too_old = of_attributes(model, 2, 65536);
    expect(unasked.names == 65536 && unasked.lists == 65536, "long lists", 65536);
    expect(kept.names == 65537 && kept.lists == 65537, "long lists", 65537);
    expect(twice.names == 0 && twice.lists == 0, "long lists, refused with", 5);
    expect(padded.names == 0 && padded.lists == 0, "long lists, refused with", 9);
    expect(old.names == 0 && old.lists == 0, "long lists, refused with", 10);
    expect(in_function.names == 0 && in_function.lists == 65537 && too_old.lists == 0, "long lists of a function", 65537);
}

/* Of a model of so many bytes: an initializer, whose contents reach up to an import. What is not written takes no memory. */
static struct onnx_gate_need of_large(uint8_t *model, size_t length)
{
    put_head(model, 0x3A, length - 7 - 6, 5);
    put_head(model + 6, 0x2A, length - 7 - 12, 5);
    memcpy(model + 12, "\x42\x01w", 3);
    put_head(model + 15, 0x4A, length - 7 - 21, 5);
    memcpy(model + length - 7, ENTRY, 7);
    return onnx_gate_needed(model, length);
}

static void check_large(uint8_t *model)
{
    struct onnx_gate_need most = of_large(model, MOST), more = of_large(model, (size_t)MOST + 1);
    expect(most.names == 1 && most.lists == 2, "large", MOST);
    expect(more.names == 0 && more.lists == 0, "large", (size_t)MOST + 1);
}

int main(void)
{
    uint8_t *page = zeros(2 * PAGE), *large = zeros((size_t)MOST + 1);
    if (page == NULL || large == NULL || mprotect(page + PAGE, PAGE, PROT_NONE) != 0) {
        printf("failed: no memory\n");
        return 1;
    }
    check_rows(page);
    check_changes(page, BYTES(SOUND));
    check_changes(page, BYTES(SOUND_3));
    check_changes(page, BYTES(SOUND_WITH_FUNCTION));
    check_extra();
    check_depth(large);
    check_long_lists(large);
    check_large(large);
    return told();
}
