use super::*;

fn parsed(words: &str) -> Result<Command, String> {
    parse(words.split_whitespace().map(OsString::from))
}

fn list_of(words: &str) -> Vec<u8> {
    match parsed(words) {
        Ok(Command::Check(Check { terms: Terms { operators: Operators::List(list), .. }, .. })) => list,
        other => panic!("{other:?}"),
    }
}

#[test]
fn a_check() {
    let Ok(Command::Check(c)) = parsed("check --cells 5 --json -- --b.onnx a.onnx -") else { panic!() };
    assert_eq!((c.terms.cells, c.terms.seed), (Some(5), None));
    assert_eq!(c.form, Form { json: true, ..Form::default() });
    assert_eq!(c.models, ["--b.onnx", "a.onnx", "-"]);
    assert_eq!(c.terms.operators, Operators::List(operators::write(&DEFAULT).unwrap()));
}

#[test]
fn forms() {
    for (words, json, quiet, odd) in [
        ("check m", false, false, false),
        ("check --quiet m", false, true, false),
        ("check --odd m", false, false, true),
        ("check --odd --json m", true, false, true),
    ] {
        let Ok(Command::Check(c)) = parsed(words) else { panic!("{words}") };
        assert_eq!(c.form, Form { json, quiet, odd }, "{words}");
    }
}

#[test]
fn a_pass() {
    let Ok(Command::Pass(p)) = parsed("pass --seed 3 --operators l -") else { panic!() };
    let terms = Terms { operators: Operators::File("l".into()), cells: None, seed: Some(3) };
    assert_eq!(p, Pass { model: "-".into(), terms });
}

#[test]
fn versions_that_are_allowed() {
    let two = operators::write(&[("ai.onnx", 7, 21), ("com.x:y", 3, 3)]).unwrap();
    assert_eq!(list_of("check --allow ai.onnx:7-21 --allow=com.x:y:3 m"), two);
    assert_eq!(list_of("check --allow :1-2 m"), operators::write(&[("", 1, 2)]).unwrap());
}

#[test]
fn seeds() {
    for (word, seed) in [
        ("0", 0),
        ("007", 7),
        ("0x0", 0),
        ("0xfF", 255),
        ("18446744073709551615", u64::MAX),
        ("0xFFFFFFFFFFFFFFFF", u64::MAX),
    ] {
        let Ok(Command::Check(c)) = parsed(&format!("check --seed {word} m")) else { panic!("{word}") };
        assert_eq!(c.terms.seed, Some(seed), "{word}");
    }
}

#[test]
fn bad_usage_is_told() {
    for words in [
        "",
        "chek",
        "check",
        "check --cells",
        "check --cells x m",
        "check --cells +1 m",
        "check --cells 99999999999 m",
        "check --seed",
        "check --seed= m",
        "check --seed x m",
        "check --seed +1 m",
        "check --seed -1 m",
        "check --seed 1.0 m",
        "check --seed 0x m",
        "check --seed 0x+1 m",
        "check --seed 0X1 m",
        "check --seed ff m",
        "check --seed 18446744073709551616 m",
        "check --seed 0x10000000000000000 m",
        "operators show --seed 1 l",
        "check --nonsense m",
        "check --json=1 m",
        "check --allow ai.onnx m",
        "check --allow ai.onnx:7- m",
        "check --allow ai.onnx:+7-8 m",
        "check --allow ai.onnx:9-7 m",
        "check --allow ai.onnx:0-7 m",
        "check --allow ai.onnx:1-4294967296 m",
        "check --allow ai.onnx:1-2 --allow :1-2 m",
        "check --operators l --allow ai.onnx:1-2 m",
        "operators",
        "operators write",
        "operators write f",
        "operators show",
        "operators show a b",
        "rules 3",
        "pass",
        "pass a b",
        "pass --json a",
        "pass -q a",
        "pass --operators - -",
        "check --operators - -",
        "check - -",
        "check --json -q a",
        "check --odd -q a",
        "check --odd=1 m",
        "check --odd",
        "pass --odd a",
        "check --cells 1 --cells 1 a",
        "check --seed 1 --seed 1 a",
        "check --operators a --operators a b",
    ] {
        assert!(parsed(words).is_err(), "{words}");
    }
}

#[test]
fn help_and_version() {
    assert_eq!(parsed("--help"), Ok(Command::Say(crate::help::MAIN)));
    assert_eq!(parsed("check --help"), Ok(Command::Say(crate::help::CHECK)));
    assert_eq!(parsed("operators -h"), Ok(Command::Say(crate::help::OPERATORS)));
    assert_eq!(parsed("check -V"), Ok(Command::Say(crate::help::VERSION)));
}

/// What a shell may make of `*` or `*.onnx` is never help, a version or another rule.
#[test]
fn file_names_are_no_options() {
    for words in [
        "--help a",
        "--help=.onnx",
        "--version a",
        "check --help a",
        "check a --help",
        "check --help=.onnx",
        "check --help=.onnx a.onnx",
        "check -V=.onnx",
        "check --operators=z.onnx a.onnx",
        "check --operators=z.ONNX a.onnx",
        "check --operators z.onnx a.onnx",
        "check --cells=1.onnx a.onnx",
        "check --json.onnx a.onnx",
        "check --json=.onnx a.onnx",
        "check --odd=.onnx a.onnx",
        "check a.onnx --odd",
        "check -q.onnx a.onnx",
        "check a.onnx --json",
        "check a.onnx -q",
        "check a.onnx -- b.onnx",
        "check - --json",
        "pass --operators=z.onnx a.onnx",
        "pass a.onnx --seed=3",
    ] {
        assert!(parsed(words).is_err(), "{words}");
    }
}

#[test]
fn messages_are_printable() {
    let hostile = OsString::from("--\u{1b}[2J\u{202e}\u{85}é");
    for words in [
        vec![hostile.clone()],
        vec!["check".into(), hostile.clone()],
        vec!["check".into(), "a".into(), hostile.clone()],
        vec!["check".into(), "--cells".into(), hostile.clone()],
        vec!["check".into(), "--allow".into(), hostile.clone()],
        vec!["check".into(), "--allow=\u{202e}:0".into(), "a".into()],
        vec!["rules".into(), "--".into(), hostile],
    ] {
        let message = parse(words.iter().cloned()).unwrap_err();
        assert!(message.bytes().all(|b| (b' '..=b'~').contains(&b)), "{words:?}: {message:?}");
    }
}
