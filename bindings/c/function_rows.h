/* Rows of samples.c with functions. These stand behind M0, at 11, and the contents of the first begin at 14. Included in the table, so
 * that it has no guard. */

/* a name and an import, of seven bytes; a function with more, and the length that this makes; and M0 with it */
#define NAMED(name) "\x0A\x01" name "\x4A\x02\x10\x0D"
#define FUNCTION(length, more) "\xCA\x01" length NAMED("q") more
#define OF(length, more) M0 FUNCTION(length, more)
/* a default of ten bytes; a node of eight, one of eleven that has a name, and one of twenty whose attribute refers to m */
#define DEFAULT(name) "\x5A\x08\x0A\x01" name "\x18\x01\xA0\x01\x02"
#define BINDS(output) "\x3A\x06\x12\x01" output "\x22\x01X"
#define IS_N(output) "\x3A\x09\x12\x01" output "\x1A\x01n\x22\x01X"
#define TO_M "\x12\x12\x01y\x22\x01X\x2A\x0A\x0A\x01k\xA0\x01\x02\xAA\x01\x01m"
#define REFERS "\x3A" TO_M
#define ROW(model, cells, ...) {BYTES(model), BYTES(L), cells, {__VA_ARGS__}}

/* one with no nodes; then a name that is absent, empty, no UTF-8, and no identifier */
ROW(OF("\x07", ""), 0, 0, 0, 0, 0, 0, 0),
ROW(M0 "\xCA\x01\x04\x4A\x02\x10\x0D", 0, 22, 11, 0, 0, 0, 0),
ROW(M0 "\xCA\x01\x06\x0A\x00\x4A\x02\x10\x0D", 0, 22, 14, 0, 0, 0, 0),
ROW(M0 "\xCA\x01\x07" NAMED("\x80"), 0, 21, 14, 0, 0, 0, 0),
ROW(M0 "\xCA\x01\x07" NAMED("/"), 0, 0, 0, 0, 0, 0, 1),
/* twice, apart by domain, not apart by ai.onnx, and by overload from IR version 10 on */
ROW(OF("\x07", "") FUNCTION("\x07", ""), 0, 41, 21, 0, 0, 0, 0),
ROW(OF("\x07", "") FUNCTION("\x0A", "\x52\x01w"), 0, 0, 0, 0, 0, 0, 0),
ROW(OF("\x07", "") FUNCTION("\x10", "\x52\x07" "ai.onnx"), 0, 41, 21, 0, 0, 0, 0),
ROW(AT("\x09", "\x03", "") FUNCTION("\x07", "") FUNCTION("\x0A", "\x6A\x01w"), 0, 41, 21, 0, 0, 0, 0),
ROW(AT("\x0A", "\x03", "") FUNCTION("\x07", "") FUNCTION("\x0A", "\x6A\x01w"), 0, 0, 0, 0, 0, 0, 0),
ROW(AT("\x0B", "\x03", "") FUNCTION("\x07", "") FUNCTION("\x0A", "\x6A\x01w"), 0, 0, 0, 0, 0, 0, 0),
/* attributes: two, an empty one, one twice in each list and in both, a default that is a graph, and one that is a reference */
ROW(OF("\x0D", "\x32\x01k\x32\x01m"), 0, 0, 0, 0, 0, 0, 0),
ROW(OF("\x09", "\x32\x00"), 0, 22, 21, 0, 0, 0, 0),
ROW(OF("\x0D", "\x32\x01k\x32\x01k"), 0, 42, 24, 0, 0, 0, 0),
ROW(OF("\x1B", DEFAULT("k") DEFAULT("k")), 0, 42, 33, 0, 0, 0, 0),
ROW(OF("\x14", DEFAULT("k") "\x32\x01k"), 0, 42, 23, 0, 0, 0, 0),
ROW(OF("\x14", "\x5A\x0B\x0A\x01k\x32\x03\x12\x01g\xA0\x01\x05"), 0, 32, 21, 0, 0, 0, 0),
ROW(OF("\x13", "\x5A\x0A\x0A\x01k\xAA\x01\x01k\xA0\x01\x01"), 0, 33, 21, 0, 0, 0, 0),
/* imports: none, a version that is not listed, one twice */
ROW(M0 "\xCA\x01\x03\x0A\x01q", 0, 12, 11, 0, 0, 0, 0),
ROW(M0 "\xCA\x01\x07\x0A\x01q\x4A\x02\x10\x16", 0, 14, 17, 0, 0, 0, 0),
ROW(OF("\x0B", "\x4A\x02\x10\x07"), 0, 13, 21, 0, 0, 0, 0),
/* inputs and outputs; no function sees what the graph or another function binds */
ROW(OF("\x0D", "\x2A\x01x\x22\x01x"), 2, 0, 0, 0, 1, 0, 0),
ROW(OF("\x0D", "\x2A\x01x\x22\x01x"), 1, 40, 24, 0, 0, 0, 0),
ROW(OF("\x09", "\x22\x00"), 2, 22, 21, 0, 0, 0, 0),
ROW(OF("\x09", "\x2A\x00"), 2, 22, 21, 0, 0, 0, 0),
ROW(OF("\x0D", "\x22\x01x\x22\x01x"), 2, 23, 24, 0, 0, 21, 0),
ROW(OF("\x0A", "\x2A\x01x"), 2, 35, 21, 0, 0, 0, 0),
ROW(OF("\x0F", BINDS("y")) "\xCA\x01\x0F" NAMED("r") BINDS("y"), 2, 0, 0, 2, 1, 0, 0),
ROW(M1 FUNCTION("\x12", "\x3A\x09\x0A\x01" "a\x12\x01y\x22\x01X"), 2, 30, 31, 0, 0, 0, 0),
ROW(M1 FUNCTION("\x0F", BINDS("a")), 2, 0, 0, 2, 1, 0, 0),
/* nodes: a domain that is not imported, one name twice */
ROW(OF("\x12", "\x3A\x09\x12\x01y\x22\x01X\x3A\x01w"), 2, 28, 29, 0, 0, 0, 0),
ROW(OF("\x1D", IS_N("y") IS_N("z")), 4, 29, 37, 0, 0, 0, 0),
/* references: to an attribute of the function, to none, to another function's, with a value, and in the main graph */
ROW(OF("\x1E", REFERS "\x32\x01m"), 2, 0, 0, 1, 1, 0, 0),
ROW(OF("\x1B", REFERS), 2, 33, 29, 0, 0, 0, 0),
ROW(OF("\x0A", "\x32\x01m") "\xCA\x01\x1B" NAMED("r") REFERS, 2, 33, 42, 0, 0, 0, 0),
ROW(OF("\x20", "\x32\x01m\x3A\x14\x12\x01y\x22\x01X\x2A\x0C\x0A\x01k\x18\x01\xA0\x01\x02\xAA\x01\x01m"), 2, 32, 32, 0, 0, 0, 0),
ROW(OF_GRAPH("\x17", "\x0A" TO_M), 2, 33, 19, 0, 0, 0, 0),
/* the first walk opens a function, before the header is judged; its other numbers are unknown */
ROW("\xCA\x01\x07" NAMED("q"), 0, 10, 0, 0, 0, 0, 0),
ROW("\xCA\x01\x06\x0A\x01q\x0A\x01q", 0, 5, 6, 0, 0, 0, 0),
ROW(OF("\x11", "\x10\x01\x18\x01\x42\x00\x62\x00\x72\x00"), 0, 0, 0, 0, 0, 0, 0),
