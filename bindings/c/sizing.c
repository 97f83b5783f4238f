/* How many cells a model can need. Only memory is sized by it: the library judges, and any bytes are survived here. */
#include "onnx_gate_sizing.h"
#include "onnx_gate.h"

#define LARGEST_MODEL 2147483647
#define LONG_LISTS 65536 /* a megabyte for their names */
#define DEEPEST 8     /* graphs in graphs; the library refuses deeper ones before it keeps a name */
#define LEAST_NAME 3  /* bytes of a field that holds a visible name */
#define LEAST_ENTRY 7 /* bytes of a function, import, initializer or attribute; a shorter one is refused, and so the last */

/* the messages that hold what is counted */
enum message { MODEL, FUNCTION, GRAPH, NODE, ATTRIBUTE };
#define WHERE(message, number) ((message) << 8 | (number))

struct count {
    const uint8_t *model;
    size_t outside;             /* imports of the model, and its functions: room is made for all of these before the first is judged */
    struct onnx_gate_need open; /* of the graph or function that is counted */
    struct onnx_gate_need most; /* of those before it */
};

struct field {
    uint64_t number;
    size_t bytes;      /* of the whole field */
    size_t start, end; /* of its contents, which a varint has none of */
};

/* Reads a varint, padded or not, and moves on behind it; 0 where it does not end. */
static int read_varint(const uint8_t *model, size_t *at, size_t end, uint64_t *value)
{
    int shift;
    *value = 0;
    for (shift = 0; shift < 70 && *at < end; shift += 7) {
        uint8_t byte = model[(*at)++];
        *value |= (uint64_t)(byte & 0x7F) << shift;
        if (byte < 0x80)
            return 1;
    }
    return 0;
}

/* How many bytes of contents follow a tag of this wire type; 0 where that cannot be read. */
static int read_length(const uint8_t *model, size_t *at, size_t end, unsigned wire, uint64_t *length)
{
    uint64_t ignored;
    *length = wire == 1 ? 8 : wire == 5 ? 4 : 0;
    if (wire == 0)
        return read_varint(model, at, end, &ignored);
    if (wire == 2)
        return read_varint(model, at, end, length);
    return wire == 1 || wire == 5;
}

/* Reads a field and moves on behind it; 0 where the library refuses it. */
static int read_field(const uint8_t *model, size_t *at, size_t end, struct field *field)
{
    size_t first = *at;
    uint64_t tag, length;
    if (!read_varint(model, at, end, &tag) || tag < 8 || tag > UINT32_MAX)
        return 0;
    /* compared with what is left, since a sum could wrap */
    if (!read_length(model, at, end, tag & 7, &length) || length > end - *at)
        return 0;
    field->number = tag >> 3;
    field->start = *at;
    *at += (size_t)length;
    field->end = *at;
    field->bytes = *at - first;
    return 1;
}

static int count_message(struct count *count, enum message message, size_t at, size_t end, int depth);

static size_t most(size_t one, size_t other)
{
    return one > other ? one : other;
}

/* The main graph or a function. Each begins with no names, and with no lists but those of the model. */
static int count_alone(struct count *count, enum message message, const struct field *field)
{
    struct onnx_gate_need nothing = {0, 0};
    count->open = nothing;
    if (!count_message(count, message, field->start, field->end, 1))
        return 0;
    count->most.names = most(count->most.names, count->open.names);
    count->most.lists = most(count->most.lists, count->open.lists);
    return 1;
}

static int where(enum message message, const struct field *field)
{
    return field->number < 256 ? (int)WHERE(message, field->number) : 0;
}

/* Adds the name that a field holds, or that its message has in a list. */
static void add_name(struct count *count, enum message message, const struct field *field)
{
    int named = field->start != field->end, entry = field->bytes >= LEAST_ENTRY;
    switch (where(message, field)) {
    case WHERE(MODEL, 8):
    case WHERE(MODEL, 25):
        count->outside += entry;
        break;
    case WHERE(FUNCTION, 9):
    case WHERE(FUNCTION, 11):
    case WHERE(NODE, 5):
        count->open.lists += entry;
        break;
    case WHERE(FUNCTION, 6):
    case WHERE(NODE, 3):
        count->open.lists += named;
        break;
    case WHERE(GRAPH, 5): /* those of a body are a list at IR version 3 only, and count at every version */
        count->open.names++;
        count->open.lists += entry;
        break;
    case WHERE(FUNCTION, 4):
    case WHERE(GRAPH, 11):
    case WHERE(NODE, 2):
        count->open.names += named;
        break;
    }
}

/* Adds what a field of a message holds; 0 where the library refuses it. `depth` is that of the graph or function around it. */
static int count_field(struct count *count, enum message message, const struct field *field, int depth)
{
    add_name(count, message, field);
    switch (where(message, field)) {
    case WHERE(MODEL, 7):
        return count_alone(count, GRAPH, field);
    case WHERE(MODEL, 25):
        return count_alone(count, FUNCTION, field);
    case WHERE(FUNCTION, 7):
    case WHERE(GRAPH, 1):
        return count_message(count, NODE, field->start, field->end, depth);
    case WHERE(NODE, 5):
        return count_message(count, ATTRIBUTE, field->start, field->end, depth);
    case WHERE(ATTRIBUTE, 6):
    case WHERE(ATTRIBUTE, 11):
        return depth < DEEPEST && count_message(count, GRAPH, field->start, field->end, depth + 1);
    default:
        return 1;
    }
}

static int count_message(struct count *count, enum message message, size_t at, size_t end, int depth)
{
    struct field field;
    while (at < end)
        if (!read_field(count->model, &at, end, &field) || !count_field(count, message, &field, depth))
            return 0;
    return 1;
}

/* Whether the library refuses a model before it keeps a name. Where no operators are allowed it refuses the first import with 14, and
 * every other answer, 9 among them, comes before that. */
static int keeps_nothing(const uint8_t *model, size_t model_length)
{
    static const uint8_t no_operators[] = {0, 0, 0, 1, 1};
    struct onnx_gate_answer answer = onnx_gate_check(model, model_length, no_operators, sizeof no_operators, NULL, 0);
    return answer.refusal != ONNX_GATE_VERSION_NOT_LISTED;
}

size_t onnx_gate_extra_for(size_t cells, size_t lists)
{
    size_t least = 4 * cells, linear = 4 * (cells / ONNX_GATE_CELLS_PER_NAME) + 2 + 4 * lists;
    return linear < least ? least : linear;
}

struct onnx_gate_need onnx_gate_needed(const uint8_t *model, size_t model_length)
{
    struct onnx_gate_need nothing = {0, 0}, need;
    struct count count = {model, 0, nothing, nothing};
    if (model_length > LARGEST_MODEL || !count_message(&count, MODEL, 0, model_length, 0))
        return nothing;
    need.lists = count.outside + count.most.lists;
    if (need.lists > LONG_LISTS && keeps_nothing(model, model_length))
        return nothing;
    need.names = count.most.names < model_length / LEAST_NAME ? count.most.names : model_length / LEAST_NAME;
    return need;
}
