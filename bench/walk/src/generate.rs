//! Workloads, the same in every run.

/// splitmix64.
pub struct Random(pub u64);

impl Random {
    pub fn next(&mut self) -> u64 {
        self.0 = self.0.wrapping_add(0x9E37_79B9_7F4A_7C15);
        let mut z = self.0;
        z = (z ^ (z >> 30)).wrapping_mul(0xBF58_476D_1CE4_E5B9);
        z = (z ^ (z >> 27)).wrapping_mul(0x94D0_49BB_1331_11EB);
        z ^ (z >> 31)
    }

    pub fn below(&mut self, n: u64) -> u64 {
        self.next() % n
    }

    /// A number of up to `bits` bits, each length as likely as another.
    pub fn number(&mut self, bits: u64) -> u64 {
        self.next() >> (63 - self.below(bits))
    }
}

/// A message as it is written, and how many fields a walk meets in it.
#[derive(Default)]
pub struct Message {
    pub bytes: Vec<u8>,
    pub fields: u64,
}

impl Message {
    pub fn put_varint(&mut self, mut value: u64) {
        while value >= 0x80 {
            self.bytes.push(value as u8 | 0x80);
            value >>= 7;
        }
        self.bytes.push(value as u8);
    }

    fn tag(&mut self, number: u64, wire: u64) {
        self.put_varint(number << 3 | wire);
        self.fields += 1;
    }

    pub fn varint(&mut self, number: u64, value: u64) {
        self.tag(number, 0);
        self.put_varint(value);
    }

    pub fn fixed(&mut self, number: u64, bytes: &[u8]) {
        self.tag(number, if bytes.len() == 8 { 1 } else { 5 });
        self.bytes.extend_from_slice(bytes);
    }

    pub fn bytes(&mut self, number: u64, bytes: &[u8]) {
        self.tag(number, 2);
        self.put_varint(bytes.len() as u64);
        self.bytes.extend_from_slice(bytes);
    }

    pub fn message(&mut self, number: u64, inner: &Message) {
        self.bytes(number, &inner.bytes);
        self.fields += inner.fields;
    }
}

/// A message that `write` fills.
pub fn message(write: impl FnOnce(&mut Message)) -> Message {
    let mut m = Message::default();
    write(&mut m);
    m
}

/// A model with this graph.
fn model(graph: &Message) -> Message {
    message(|m| {
        m.varint(1, 8);
        m.message(8, &message(|import| import.varint(2, 13)));
        m.message(7, graph);
    })
}

fn name(r: &mut Random) -> String {
    format!("value_{}", r.number(20))
}

/// An attribute with an int, a float, a string or packed ints.
fn attribute(r: &mut Random) -> Message {
    message(|a| {
        a.bytes(
            1,
            [&b"axis"[..], b"alpha", b"strides", b"mode"][r.below(4) as usize],
        );
        match r.below(4) {
            0 => a.varint(3, r.number(64)),
            1 => a.fixed(2, &1f32.to_le_bytes()),
            2 => a.bytes(4, b"constant"),
            _ => a.bytes(8, &[1, 1, 2, 2]),
        }
        a.varint(20, 1 + r.below(8));
    })
}

fn node(r: &mut Random, attributes: impl FnOnce(&mut Random, &mut Message)) -> Message {
    message(|n| {
        for _ in 0..1 + r.below(3) {
            n.bytes(1, name(r).as_bytes());
        }
        n.bytes(2, name(r).as_bytes());
        n.bytes(
            4,
            [
                &b"Conv"[..],
                b"Relu",
                b"MatMul",
                b"Add",
                b"BatchNormalization",
            ][r.below(5) as usize],
        );
        attributes(r, n);
    })
}

fn small_node(r: &mut Random) -> Message {
    node(r, |r, n| {
        for _ in 0..r.below(4) {
            n.message(5, &attribute(r));
        }
    })
}

/// A graph input with its type and two dims.
fn value_info(r: &mut Random) -> Message {
    let shape = message(|s| {
        s.message(1, &message(|d| d.varint(1, r.number(12))));
        s.message(1, &message(|d| d.bytes(2, b"batch")));
    });
    let tensor = message(|t| {
        t.varint(1, 1 + r.below(16));
        t.message(2, &shape);
    });
    message(|v| {
        v.bytes(1, name(r).as_bytes());
        v.message(2, &message(|t| t.message(1, &tensor)));
    })
}

/// A graph of many small nodes.
pub fn flat(r: &mut Random, size: usize) -> Message {
    model(&message(|g| {
        g.bytes(2, b"flat");
        while g.bytes.len() < size {
            g.message(1, &small_node(r));
        }
        g.message(11, &value_info(r));
        g.message(12, &value_info(r));
    }))
}

/// A field that no row names, of any of the four wire types.
fn unknown_field(r: &mut Random, m: &mut Message) {
    let number = 26 + r.number(12);
    match r.below(4) {
        0 => m.varint(number, r.number(64)),
        1 => m.fixed(number, &r.next().to_le_bytes()),
        2 => m.bytes(number, &[7; 24][..r.below(25) as usize]),
        _ => m.fixed(number, &(r.next() as u32).to_le_bytes()),
    }
}

pub fn unknown(r: &mut Random, size: usize) -> Message {
    model(&message(|g| {
        while g.bytes.len() < size {
            unknown_field(r, g);
        }
    }))
}

/// A graph with small messages and, in an attribute of a node, a graph of the next depth.
fn nested_graph(r: &mut Random, depth: u64, deepest: u64) -> Message {
    message(|g| {
        g.bytes(2, b"body");
        g.message(11, &value_info(r));
        g.message(1, &node(r, |r, n| n.message(5, &attribute(r))));
        if depth < deepest {
            let body = nested_graph(r, depth + 1, deepest);
            g.message(
                1,
                &node(r, |_, n| n.message(5, &message(|a| a.message(6, &body)))),
            );
        }
        g.message(12, &value_info(r));
    })
}

pub fn nested(r: &mut Random, size: usize, deepest: u64) -> Message {
    model(&message(|g| {
        while g.bytes.len() < size {
            let body = nested_graph(r, 2, deepest);
            g.message(
                1,
                &node(r, |_, n| n.message(5, &message(|a| a.message(11, &body)))),
            );
        }
    }))
}

/// A function with attributes, one of them with a default, and small nodes.
fn function(r: &mut Random) -> Message {
    message(|f| {
        f.bytes(1, name(r).as_bytes());
        f.bytes(4, b"x");
        f.bytes(5, b"y");
        f.bytes(6, b"scale");
        for _ in 0..1 + r.below(8) {
            f.message(7, &small_node(r));
        }
        f.message(9, &message(|import| import.varint(2, 13)));
        f.bytes(10, b"com.example");
        f.message(11, &attribute(r));
        f.bytes(13, b"tensor");
    })
}

/// A model whose main graph has no nodes, and this in it besides.
fn model_with(write: impl FnOnce(&mut Message)) -> Message {
    let mut m = model(&message(|g| g.bytes(2, b"main")));
    write(&mut m);
    m
}

pub fn functions(r: &mut Random, size: usize) -> Message {
    model_with(|m| {
        while m.bytes.len() < size {
            m.message(25, &function(r));
        }
    })
}

/// A function with graphs in graphs, in a node of it or in a default.
pub fn nested_function(r: &mut Random, deepest: u64) -> Message {
    let body = nested_graph(r, 2, deepest);
    let holder = message(|a| a.message(6, &body));
    let field = if r.below(2) == 0 {
        message(|f| f.message(7, &node(r, |_, n| n.message(5, &holder))))
    } else {
        message(|f| f.message(11, &holder))
    };
    model_with(|m| m.message(25, &field))
}

/// One initializer whose raw data are all of the model.
pub fn one_field(size: usize) -> Message {
    let tensor = message(|t| {
        t.varint(2, 1);
        t.bytes(8, b"weight");
        t.bytes(9, &vec![0xA5; size]);
    });
    model(&message(|g| g.message(5, &tensor)))
}

/// Varints of one to `longest` bytes, each length as likely as another.
pub fn varints(r: &mut Random, size: usize, longest: u64) -> Message {
    message(|m| {
        while m.bytes.len() < size {
            let top = 1 << (7 * r.below(longest));
            m.put_varint(top | r.next() & (top - 1));
            m.fields += 1;
        }
    })
}
