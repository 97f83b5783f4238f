use super::*;
use crate::samples::{bytes, part, Random};

/// The paths and names that are told, and what is wrong with them.
fn listed(model: &[u8], counted: u64) -> (Vec<String>, Option<String>) {
    let mut lines = Vec::new();
    let flaw = list(model, counted, |path, name| {
        assert!(path.target().is_some());
        lines.push(format!("{}: {}", path.shown(), crate::text::quoted(name)));
        Ok(())
    });
    (lines, flaw.unwrap())
}

#[test]
fn what_is_odd() {
    for name in ["a", "_", "Z9_", "int", "_0"] {
        assert!(!is_odd(name.as_bytes()), "{name}");
    }
    assert!(!is_odd(b""));
    for name in ["/", "0", "9a", "a/b", "a.0", "a-b", " a", "a ", "\0", "é", "aé", "\u{feff}a", "a@", "a[", "a`"] {
        assert!(is_odd(name.as_bytes()), "{name}");
    }
    assert_eq!((0..=255).filter(|b| !is_odd(&[*b])).count(), 53);
    assert_eq!((0..=255).filter(|b| !is_odd(&[b'a', *b])).count(), 63);
}

/// Each place where a name is tested, in the order of the bytes and not of the walk; and those where none is.
#[test]
fn every_place() {
    let dim = |name: &[u8]| part(1, &part(2, name));
    let value = |name: &[u8], dims: &[u8]| [part(1, name), part(2, &part(1, &part(2, dims)))].concat();
    let tensor = part(8, b"/t");
    // in a nested graph no types
    let nested = [part(2, b"/n"), part(11, &value(b"/i", &dim(b"/no")))].concat();
    let graph = [part(1, b"/g"), part(6, &nested)].concat();
    let graphs = [part(1, b"gs"), part(11, &part(2, b"/1")), part(11, &part(2, b"/2"))].concat();
    // tensors, strings, a reference
    let other = [part(5, &tensor), part(10, &tensor), part(4, b"/s"), part(9, b"/s"), part(21, b"/r")].concat();
    let attributes = [part(5, &graph), part(5, &graphs), part(5, &other)].concat();
    let names = [part(1, b""), part(1, b"/x"), part(2, b"/y"), part(3, b"N:0"), part(4, b"Mat.Mul"), part(7, b"a.b")];
    let node = part(1, &[names.concat(), attributes].concat());
    let output = part(12, &value(b"/o", &[dim(b"N+1"), dim(b"N"), dim(b"N+1")].concat()));
    let others = [part(13, &value(b"/v", &[])), part(2, b"main graph"), part(11, &value(b"/o", &[]))].concat();
    let main = [node, part(5, &tensor), output, others].concat();
    let model = [part(7, &main), part(8, &part(1, b"a.b"))].concat();
    let expected = [
        r#"graph > node[0] "N:0" > input[1]: "/x""#,
        r#"graph > node[0] "N:0" > output[0]: "/y""#,
        r#"graph > node[0] "N:0" > name: "N:0""#,
        r#"graph > node[0] "N:0" > op_type: "Mat.Mul""#,
        r#"graph > node[0] "N:0" > attribute[0] "/g" > name: "/g""#,
        r#"graph > node[0] "N:0" > attribute[0] "/g" > g > name: "/n""#,
        r#"graph > node[0] "N:0" > attribute[0] "/g" > g > input[0] "/i" > name: "/i""#,
        r#"graph > node[0] "N:0" > attribute[1] "gs" > graphs[0] > name: "/1""#,
        r#"graph > node[0] "N:0" > attribute[1] "gs" > graphs[1] > name: "/2""#,
        r#"graph > initializer[0] "/t" > name: "/t""#,
        r#"graph > output[0] "/o" > name: "/o""#,
        r#"graph > output[0] "/o" > type > tensor_type > shape > dim[0] > dim_param: "N+1""#,
        r#"graph > output[0] "/o" > type > tensor_type > shape > dim[2] > dim_param: "N+1""#,
        r#"graph > name: "main graph""#,
        r#"graph > input[0] "/o" > name: "/o""#,
    ];
    assert_eq!(listed(&model, 15), (expected.map(String::from).to_vec(), None));
}

/// A function's own names, those of its attributes and those in its nodes; not its imports, its domain and its overload,
/// nor what a default holds.
#[test]
fn every_place_of_a_function() {
    let untested = part(2, &part(1, &part(2, &part(1, &part(2, b"/no")))));
    let nested = [part(2, b"/n"), part(11, &[part(1, b"/i"), untested].concat())].concat();
    let graph = part(5, &[part(1, b"g"), part(6, &nested)].concat());
    let reference = part(5, &[part(1, b"r/"), part(21, b"/r")].concat());
    let node = [part(1, b"/x"), part(2, b"/y"), part(4, b"Mat.Mul"), part(7, b"a.b"), graph, reference].concat();
    let default = [part(1, b"/d"), part(5, &part(8, b"/t")), part(4, b"/s")].concat();
    let names = [part(1, b"f:0"), part(4, b"/x"), part(4, b"x"), part(5, b"/y"), part(6, b"k-1")].concat();
    let others = [part(9, &part(1, b"a.b")), part(10, b"a.b"), part(12, &part(1, b"/v")), part(13, b"/o")].concat();
    let function = [names, part(7, &node), others, part(11, &default)].concat();
    let model = [part(25, &part(1, b"f")), part(7, &part(2, b"/g")), part(25, &function)].concat();
    let expected = [
        r#"graph > name: "/g""#,
        r#"functions[1] "f:0" > name: "f:0""#,
        r#"functions[1] "f:0" > input[0]: "/x""#,
        r#"functions[1] "f:0" > output[0]: "/y""#,
        r#"functions[1] "f:0" > attribute[0]: "k-1""#,
        r#"functions[1] "f:0" > node[0] (Mat.Mul) > input[0]: "/x""#,
        r#"functions[1] "f:0" > node[0] (Mat.Mul) > output[0]: "/y""#,
        r#"functions[1] "f:0" > node[0] (Mat.Mul) > op_type: "Mat.Mul""#,
        r#"functions[1] "f:0" > node[0] (Mat.Mul) > attribute[0] "g" > g > name: "/n""#,
        r#"functions[1] "f:0" > node[0] (Mat.Mul) > attribute[0] "g" > g > input[0] "/i" > name: "/i""#,
        r#"functions[1] "f:0" > node[0] (Mat.Mul) > attribute[1] "r/" > name: "r/""#,
        r#"functions[1] "f:0" > attribute_proto[0] "/d" > name: "/d""#,
    ];
    assert_eq!(listed(&model, 12), (expected.map(String::from).to_vec(), None));
}

/// The path to each name is the one that is found from its place.
#[test]
fn paths_agree() {
    let model = bytes("3A 12 12 01 2F 0A 06 12 01 2B 22 01 58 0A 05 12 00 12 01 2D");
    let mut places = Vec::new();
    list(&model, 3, |path, _| {
        let place = path.target().unwrap().field.tag;
        assert_eq!(path.shown(), crate::path::find(&model, place).shown());
        places.push(place);
        Ok(())
    })
    .unwrap();
    assert_eq!(places, [2, 7, 17]);
}

/// Of a field that may stand once the first counts.
#[test]
fn the_first_counts() {
    let model = bytes("3A 06 12 01 61 12 01 2F 3A 03 12 01 2F");
    assert_eq!(listed(&model, 0), (vec![], None));
}

#[test]
fn a_count_that_differs_is_told() {
    let model = bytes("3A 03 12 01 2F");
    assert_eq!(listed(&model, 1).1, None);
    for counted in [0, 2, u64::MAX] {
        let (lines, flaw) = listed(&model, counted);
        let expected = format!("internal error: --odd finds 1 odd names, and the library counts {counted}");
        assert_eq!((lines.len(), flaw), (1, Some(expected)));
    }
    // what cannot be read, or lies deeper than in any accepted model, is not passed over in silence
    assert!(listed(&model[..4], 1).1.is_some());
    let nested = |levels| part(7, &(1..levels).fold(model[2..].to_vec(), |g, _| part(1, &part(5, &part(6, &g)))));
    assert_eq!(listed(&nested(8), 1).1, None);
    assert!(listed(&nested(1000), 1).1.is_some());
}

#[test]
fn what_fails_goes_no_further() {
    let model = bytes("3A 03 12 01 2F");
    let flaw = list(&model, 1, |_, _| panic!("as a test")).unwrap();
    assert_eq!(flaw.as_deref(), Some("no whole list of odd names: a mistake in this command"));
    let full = || io::Error::from(io::ErrorKind::StorageFull);
    assert_eq!(list(&model, 1, |_, _| Err(full())).unwrap_err().kind(), full().kind());
}

/// Damaged examples: as many names are told as the library counts in what it accepts.
#[test]
fn as_many_as_the_library_counts() {
    let operators = onnx_gate::operators::write(&crate::args::DEFAULT).unwrap();
    let (mut r, mut odd) = (Random(17), 0);
    for file in std::fs::read_dir(concat!(env!("CARGO_MANIFEST_DIR"), "/../examples")).unwrap() {
        let sound = std::fs::read(file.unwrap().path()).unwrap();
        for _ in 0..2_000 {
            let mut model = sound.clone();
            for _ in 0..=r.below(3) {
                let at = r.below(model.len() as u64 + 1) as usize;
                model.get_mut(at).into_iter().for_each(|b| *b = r.below(128) as u8);
            }
            let Ok(accepted) = onnx_gate::check_with(&model, &operators, &mut [0; 64]) else { continue };
            let (lines, flaw) = listed(&model, accepted.odd);
            assert_eq!((lines.len() as u64, flaw), (accepted.odd, None), "{model:02x?}");
            odd += accepted.odd;
        }
    }
    assert!(odd > 1000, "{odd}");
}

/// Any bytes are survived.
#[test]
fn any_bytes() {
    let mut r = Random(3);
    let sound = bytes(
        "08 08 42 02 10 0D 3A 1B 12 01 2F 0A 10 0A 01 2E 12 01 61 22 01 58 2A 05 0A 01 2F 32 00 62 04 0A 02 2F 2F
         CA 01 13 0A 01 2F 32 01 2E 5A 03 0A 01 2F 3A 06 12 01 2D 22 01 58",
    );
    for _ in 0..20_000 {
        let mut model = sound.clone();
        for _ in 0..=r.below(4) {
            let at = r.below(model.len() as u64) as usize;
            model[at] = r.below(256) as u8;
        }
        model.truncate(r.below(model.len() as u64 + 1) as usize);
        listed(&model, r.below(5));
    }
}
