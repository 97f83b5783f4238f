//! The refusal numbers of document 01, and 9, 41 to 43 and 65 of document 02, each with a name and a line for people.

/// A number that a model can be refused with.
#[derive(Clone, Copy, Debug, PartialEq, Eq)]
pub struct Rule {
    pub number: u64,
    pub name: &'static str,
    pub explanation: &'static str,
}

const fn of(number: u64, name: &'static str, explanation: &'static str) -> Rule {
    Rule { number, name, explanation }
}

/// All numbers, in ascending order.
pub const RULES: [Rule; 38] = [
    of(1, "past-end", "a varint, value or length runs past the end of its message"),
    of(2, "tenth-byte", "the tenth byte of a varint is above 1"),
    of(3, "bad-tag", "not a tag: above 2^32 - 1, field number 0, or a wire type other than 0, 1, 2 and 5"),
    of(4, "wrong-wire", "the field has another wire type than onnx.proto gives it"),
    of(5, "repeated", "a field that may stand once stands again, or a second member of a one-of"),
    of(6, "too-deep", "graphs are nested more than 8 deep, the main graph or a function being the first"),
    of(7, "model-too-large", "the model has more than 2,147,483,647 bytes"),
    of(8, "list-unsound", "the operator list is not in its format, or has a domain twice"),
    of(9, "padded", "a tag, value or length is padded: a varint of more than one byte that ends in 0"),
    of(10, "bad-ir-version", "ir_version must be 3 to 11"),
    of(11, "no-graph", "the model has no graph"),
    of(12, "no-opset-import", "the model, or a function, has no opset_import"),
    of(13, "imported-twice", "the model, or a function, imports a domain twice (the empty domain is ai.onnx)"),
    of(14, "version-not-listed", "the operator list does not allow this version of the domain"),
    of(16, "sparse-initializer", "a graph has a sparse_initializer"),
    of(20, "graph-name-empty", "a graph must have a name"),
    of(21, "not-utf8", "not well-formed UTF-8, or an empty dim_param"),
    of(22, "name-empty", "a function, input, initializer, output or attribute must have a name"),
    of(23, "already-visible", "the name is already defined and visible here"),
    of(24, "no-tensor-type", "an input or output of the main graph must have a tensor type"),
    of(25, "bad-elem-type", "elem_type must be 1 to 23"),
    of(26, "bad-data-type", "data_type must be 1 to 23"),
    of(27, "op-type-empty", "a node must have an op_type"),
    of(28, "not-imported", "the node's domain is not imported; a function has imports of its own"),
    of(29, "node-name-twice", "an earlier node of the graph or function has the same name"),
    of(30, "input-not-visible", "the node reads a name that is not defined before it, or not visible here"),
    of(31, "attribute-twice", "an earlier attribute of the node has the same name"),
    of(
        32,
        "bad-value",
        "an attribute's type is outside 1..14 or does not fit its value; a reference has none, a default is no graph",
    ),
    of(33, "bad-reference", "ref_attr_name is for nodes of a function, and must name an attribute of that function"),
    of(34, "no-output", "a node must have an output"),
    of(35, "output-not-visible", "an output of the graph or function is a name that nothing visible defines"),
    of(37, "no-shape", "a tensor type of the main graph must have a shape"),
    of(38, "negative-dim", "a dim_value is negative"),
    of(40, "cells-full", "more names are visible together than fit in the cells, two for each"),
    of(41, "function-twice", "an earlier function has the same name and domain, from IR version 10 on overload too"),
    of(42, "function-attribute-twice", "the function names an attribute twice, with a default or without"),
    of(43, "initializer-not-input", "at IR version 3 an initializer must bear the name of an input of its own graph"),
    of(65, "too-few-extra", "a program lent the indexed check fewer extra cells than four times its cells"),
];

/// The rule with this number.
pub fn rule(number: u64) -> Option<&'static Rule> {
    RULES.iter().find(|r| r.number == number)
}
