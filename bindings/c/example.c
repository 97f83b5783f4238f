/* Checks the model in a file for a runtime that has ai.onnx 7 to 21 and ai.onnx.ml 1 to 5, and prints the answer. */
#include "onnx_gate.h"
#include "onnx_gate_sizing.h"

#include <inttypes.h>
#include <stdio.h>
#include <stdlib.h>
#include <sys/random.h>

#define MOST 2147483648u /* one byte more than may be accepted, so that no model passes because it was cut */
#define FIRST 65536      /* the most names of a first try: a file that only claims more of them costs no more */

/* what `operators '' 7 21 ai.onnx.ml 1 5` writes */
static const uint8_t operators[] = {0,   0,   0,   31,  1,   0,   8,   0,   0,   0,   7, 0, 0, 0, 21, 0, 18, 'a',
                                    'i', '.', 'o', 'n', 'n', 'x', '.', 'm', 'l', 0,   0, 0, 1, 0, 0,  0, 5};

static void fail(void)
{
    perror("example");
    exit(2);
}

/* Room for so many bytes, with those that are in the old one. */
static void *resized(void *old, size_t bytes)
{
    void *room = realloc(old, bytes);
    if (room == NULL)
        fail();
    return room;
}

/* The file to its end, or MOST bytes of it. The room grows with what is read, so that a pipe will do. */
static uint8_t *read_model(FILE *file, size_t *length)
{
    uint8_t *model = NULL;
    size_t room;
    *length = 0;
    for (room = 65536; room <= MOST; room *= 2) {
        model = (uint8_t *)resized(model, room);
        *length += fread(model + *length, 1, room - *length, file);
        if (*length < room)
            break;
    }
    if (ferror(file))
        fail();
    return model;
}

static struct onnx_gate_answer check_with(const uint8_t *model, size_t length, size_t names, size_t lists, uint64_t seed)
{
    size_t cells = ONNX_GATE_CELLS_PER_NAME * names, extra = onnx_gate_extra_for(cells, lists);
    uint32_t *lent = (uint32_t *)resized(NULL, (cells + extra) * sizeof *lent);
    struct onnx_gate_answer answer = onnx_gate_check_indexed(model, length, operators, sizeof operators, lent, cells,
                                                             lent + cells, extra, seed);
    free(lent);
    return answer;
}

/* With cells for few names first, and with more as long as the answer is 40: no other answer depends on them. */
static struct onnx_gate_answer check(const uint8_t *model, size_t length, uint64_t seed)
{
    struct onnx_gate_need need = onnx_gate_needed(model, length);
    size_t names = need.names < FIRST ? need.names : FIRST;
    struct onnx_gate_answer answer = check_with(model, length, names, need.lists, seed);
    while (answer.refusal == ONNX_GATE_CELLS_FULL && names < need.names) {
        names = need.names / 8 < names ? need.names : 8 * names;
        answer = check_with(model, length, names, need.lists, seed);
    }
    return answer;
}

static void print(struct onnx_gate_answer answer)
{
    if (answer.refusal == ONNX_GATE_ACCEPTED)
        printf("accepted nodes %" PRIu64 " names %" PRIu64 " odd %" PRIu64 "\n", answer.nodes, answer.names, answer.odd);
    else if (answer.refusal == ONNX_GATE_ALREADY_VISIBLE)
        printf("refused %" PRIu64 " at %" PRIu64 " first %" PRIu64 "\n", answer.refusal, answer.place, answer.first);
    else
        printf("refused %" PRIu64 " at %" PRIu64 "\n", answer.refusal, answer.place);
}

int main(int argc, char **argv)
{
    uint64_t seed;
    size_t length;
    uint8_t *model;
    struct onnx_gate_answer answer;
    FILE *file = argc == 2 ? fopen(argv[1], "rb") : NULL;
    if (file == NULL) {
        fprintf(stderr, "usage: example MODEL\n");
        return 2;
    }
    if (getrandom(&seed, sizeof seed, 0) != (ssize_t)sizeof seed)
        fail();
    model = read_model(file, &length);
    answer = check(model, length, seed);
    print(answer);
    return answer.refusal != ONNX_GATE_ACCEPTED;
}
