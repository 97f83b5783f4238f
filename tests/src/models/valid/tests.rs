use super::*;
use crate::models::proto::Value;

fn ir_version(model: &Tree) -> usize {
    let found = model.items.iter().find_map(|item| match item.value {
        Value::Varint(version) if item.number == 1 => Some(version),
        _ => None,
    });
    found.unwrap_or(0) as usize
}

/// Counts the initializers of a graph and its bodies by depth.
fn count(graph: &Tree, depth: usize, counts: &mut [u64; 9]) {
    counts[depth] += graph.children(5).count() as u64;
    for attribute in graph.children(1).flat_map(|node| node.children(5)) {
        attribute.children(6).chain(attribute.children(11)).for_each(|body| count(body, depth + 1, counts));
    }
}

/// Each version that is taken has many models, some with ir_version last; those of version 3 have defaults at several depths.
#[test]
fn ir_versions() {
    let (mut versions, mut last, mut defaults) = ([0; 12], [0; 12], [0; 9]);
    for number in 0..6_000 {
        let Made { tree, .. } = valid(&mut Rng::of_case(9, number));
        let version = ir_version(&tree);
        versions[version] += 1;
        last[version] += u64::from(tree.items.last().is_some_and(|item| item.number == 1));
        if version == 3 {
            tree.children(7).for_each(|graph| count(graph, 1, &mut defaults));
        }
    }
    assert!(versions[..3] == [0; 3] && versions[3..].iter().all(|count| *count > 300), "{versions:?}");
    assert!(last[3..].iter().all(|count| *count > 60), "{last:?}");
    assert!(defaults[1..=5].iter().all(|count| *count > 50), "{defaults:?}");
}

/// What functions hold, over many models.
#[derive(Debug, Default)]
struct Functions {
    models: u64,
    functions: u64,
    /// Functions named as another one of their model.
    named_again: u64,
    attributes: u64,
    defaults: u64,
    /// References in the function itself, and in graphs by depth.
    references: [u64; 9],
    /// Models with so many functions.
    of_count: [u64; 5],
}

impl Functions {
    fn count(&mut self, model: &Tree) {
        let names: Vec<_> = model.children(25).filter_map(|function| function.get_bytes(1)).collect();
        self.models += u64::from(!names.is_empty());
        self.of_count[names.len()] += 1;
        for (place, function) in model.children(25).enumerate() {
            self.functions += 1;
            self.named_again += u64::from(names[..place].contains(&names[place]));
            self.attributes += function.all_bytes(6).len() as u64;
            self.defaults += function.children(11).count() as u64;
            function.children(7).for_each(|node| self.node(node, 1));
        }
    }

    fn node(&mut self, node: &Tree, depth: usize) {
        for attribute in node.children(5) {
            let refers = attribute.get_bytes(21).is_some_and(|name| !name.is_empty());
            self.references[depth] += u64::from(refers);
            for graph in attribute.children(6).chain(attribute.children(11)) {
                graph.children(1).for_each(|node| self.node(node, depth + 1));
            }
        }
    }
}

/// At each IR version more than a third of the models have functions, often several, with all that a function can have.
#[test]
fn functions() {
    let mut seen: [Functions; 12] = Default::default();
    for number in 0..20_000 {
        let Made { tree, .. } = valid(&mut Rng::of_case(10, number));
        seen[ir_version(&tree)].count(&tree);
    }
    for seen in &seen[3..] {
        assert!(2 * seen.models > seen.of_count[0], "{seen:?}");
        assert!(seen.of_count[1..].iter().all(|count| *count > 100), "{seen:?}");
        let (half, fifth) = (seen.functions / 2, seen.functions / 5);
        assert!(seen.attributes > half && seen.defaults > half && seen.named_again > fifth, "{seen:?}");
        assert!(seen.references[1..=3].iter().all(|count| *count > 50), "{seen:?}");
    }
}
