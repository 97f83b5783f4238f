//! What onnx.proto calls its fields: the model's own terms.

#[derive(Clone, Copy, Debug, PartialEq, Eq)]
pub enum Kind {
    Model,
    Import,
    Function,
    Graph,
    Node,
    Attribute,
    Tensor,
    ValueInfo,
    Type,
    TensorType,
    Shape,
    Dim,
}

/// What a field holds.
#[derive(Clone, Copy, Debug, PartialEq, Eq)]
pub enum Holds {
    /// A message that is opened.
    Message(Kind),
    /// A name or a domain.
    Name,
    Other,
}
use Holds::{Message, Name, Other};
use Kind::*;

/// Number, name, whether it may stand again, what it holds.
pub type Row = (u64, &'static str, bool, Holds);

const MODEL: &[Row] = &[
    (1, "ir_version", false, Other),
    (2, "producer_name", false, Other),
    (3, "producer_version", false, Other),
    (4, "domain", false, Other),
    (5, "model_version", false, Other),
    (6, "doc_string", false, Other),
    (7, "graph", false, Message(Graph)),
    (8, "opset_import", true, Message(Import)),
    (14, "metadata_props", true, Other),
    (20, "training_info", true, Other),
    (25, "functions", true, Message(Function)),
    (26, "configuration", true, Other),
];
const IMPORT: &[Row] = &[(1, "domain", false, Name), (2, "version", false, Other)];
const FUNCTION: &[Row] = &[
    (1, "name", false, Name),
    (4, "input", true, Name),
    (5, "output", true, Name),
    (6, "attribute", true, Name),
    (7, "node", true, Message(Node)),
    (8, "doc_string", false, Other),
    (9, "opset_import", true, Message(Import)),
    (10, "domain", false, Name),
    (11, "attribute_proto", true, Message(Attribute)),
    (12, "value_info", true, Other),
    (13, "overload", false, Other),
    (14, "metadata_props", true, Other),
];
const GRAPH: &[Row] = &[
    (1, "node", true, Message(Node)),
    (2, "name", false, Name),
    (5, "initializer", true, Message(Tensor)),
    (10, "doc_string", false, Other),
    (11, "input", true, Message(ValueInfo)),
    (12, "output", true, Message(ValueInfo)),
    (13, "value_info", true, Message(ValueInfo)),
    (14, "quantization_annotation", true, Other),
    (15, "sparse_initializer", true, Other),
    (16, "metadata_props", true, Other),
];
const NODE: &[Row] = &[
    (1, "input", true, Name),
    (2, "output", true, Name),
    (3, "name", false, Name),
    (4, "op_type", false, Name),
    (5, "attribute", true, Message(Attribute)),
    (6, "doc_string", false, Other),
    (7, "domain", false, Name),
    (8, "overload", false, Other),
    (9, "metadata_props", true, Other),
    (10, "device_configurations", true, Other),
];
const ATTRIBUTE: &[Row] = &[
    (1, "name", false, Name),
    (2, "f", false, Other),
    (3, "i", false, Other),
    (4, "s", false, Other),
    (5, "t", false, Message(Tensor)),
    (6, "g", false, Message(Graph)),
    (7, "floats", true, Other),
    (8, "ints", true, Other),
    (9, "strings", true, Other),
    (10, "tensors", true, Message(Tensor)),
    (11, "graphs", true, Message(Graph)),
    (13, "doc_string", false, Other),
    (14, "tp", false, Other),
    (15, "type_protos", true, Other),
    (20, "type", false, Other),
    (21, "ref_attr_name", false, Name),
    (22, "sparse_tensor", false, Other),
    (23, "sparse_tensors", true, Other),
];
const TENSOR: &[Row] = &[
    (1, "dims", true, Other),
    (2, "data_type", false, Other),
    (3, "segment", false, Other),
    (4, "float_data", true, Other),
    (5, "int32_data", true, Other),
    (6, "string_data", true, Other),
    (7, "int64_data", true, Other),
    (8, "name", false, Name),
    (9, "raw_data", false, Other),
    (10, "double_data", true, Other),
    (11, "uint64_data", true, Other),
    (12, "doc_string", false, Other),
    (13, "external_data", true, Other),
    (14, "data_location", false, Other),
    (16, "metadata_props", true, Other),
];
const VALUE_INFO: &[Row] = &[
    (1, "name", false, Name),
    (2, "type", false, Message(Type)),
    (3, "doc_string", false, Other),
    (4, "metadata_props", true, Other),
];
const TYPE: &[Row] = &[
    (1, "tensor_type", false, Message(TensorType)),
    (4, "sequence_type", false, Other),
    (5, "map_type", false, Other),
    (6, "denotation", false, Other),
    (7, "opaque_type", false, Other),
    (8, "sparse_tensor_type", false, Other),
    (9, "optional_type", false, Other),
];
const TENSOR_TYPE: &[Row] = &[(1, "elem_type", false, Other), (2, "shape", false, Message(Shape))];
const SHAPE: &[Row] = &[(1, "dim", true, Message(Dim))];
const DIM: &[Row] = &[(1, "dim_value", false, Other), (2, "dim_param", false, Name), (3, "denotation", false, Other)];

impl Kind {
    fn rows(self) -> &'static [Row] {
        match self {
            Model => MODEL,
            Import => IMPORT,
            Function => FUNCTION,
            Graph => GRAPH,
            Node => NODE,
            Attribute => ATTRIBUTE,
            Tensor => TENSOR,
            ValueInfo => VALUE_INFO,
            Type => TYPE,
            TensorType => TENSOR_TYPE,
            Shape => SHAPE,
            Dim => DIM,
        }
    }

    pub fn row(self, number: u64) -> Option<&'static Row> {
        self.rows().iter().find(|r| r.0 == number)
    }

    /// The field that says which of several such messages this is.
    pub fn label(self) -> Option<u64> {
        match self {
            Import | Function | Attribute | ValueInfo => Some(1),
            Node => Some(3),
            Tensor => Some(8),
            _ => None,
        }
    }
}
