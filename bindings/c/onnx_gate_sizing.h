/* How many cells a model can need: for callers that lend memory to onnx_gate_check_indexed by the model, and not a fixed amount.
 *
 * Ordinary C in sizing.c, and not proved. No acceptance rests on it: with too few cells the answer is 40, with too few extra cells
 * for lists it is the same, later.
 */
#ifndef ONNX_GATE_SIZING_H
#define ONNX_GATE_SIZING_H

#include <stddef.h>
#include <stdint.h>

#ifdef __cplusplus
extern "C" {
#endif

/* Upper bounds, of names and not of cells: with ONNX_GATE_CELLS_PER_NAME * names cells, and onnx_gate_extra_for these cells and
 * `lists`, none is missing. */
struct onnx_gate_need {
    size_t names; /* how many names are visible together; at most model_length / 3 */
    size_t lists; /* R of onnx_gate.h: how many names of lists are open at once; at most model_length / 3 */
};

/* Counts in one pass over the model, any bytes at all, that skips what tensors hold and allocates nothing. Both are 0 where it sees
 * that no name is ever kept: the model has more bytes than any that is accepted, or a fault that is told with 1, 2, 3 or 6, if no
 * other stands before it. Padding is not looked for, so that what the library refuses with 9 is counted as it stands. Where more
 * than 65,536 names of lists are counted the library itself is asked, in no cells, whether the model is refused before its imports;
 * then both are 0 as well.
 *
 * A file may claim many names and be refused at the first of them. So begin with cells for some thousand names where `names` is more,
 * and lend more, eight times as many, as long as the answer is 40: any other answer is the same with more cells. example.c does so.
 */
struct onnx_gate_need onnx_gate_needed(const uint8_t *model, size_t model_length);

/* How many extra cells, beside so many cells, make everything linear where so many names of lists are open at once: as onnx_gate.h
 * says, and never so few that the answer is 65. For cells and lists of up to 2^31 each. */
size_t onnx_gate_extra_for(size_t cells, size_t lists);

#ifdef __cplusplus
}
#endif

#endif
