//! Each call once, with answers that the library's rows state too.

use nevgrasi::{facts_of, graph, known_targets, match_keys};
use nevgrasi::{Error, ErrorKind, Facts, Key, Kind, Package, Sides, Targets};
use std::collections::{BTreeSet, HashSet};

fn key(text: &str) -> Key {
    text.parse().expect("a key")
}

/// The error of a text that is no key: its kind, its message, its span and its snippet.
fn error_of(text: &str) -> (ErrorKind, String, Option<std::ops::Range<usize>>, Option<String>) {
    let error = Key::new(text).expect_err("an error");
    (error.kind(), error.to_string(), error.span(), error.snippet().map(str::to_string))
}

#[test]
fn a_key_prints_canonically() {
    let read = key(r#"cfg( all(unix,not(target_os="macos"),) )"#);
    assert_eq!(read.canonical(), r#"cfg(all(unix, not(target_os = "macos")))"#);
    assert_eq!(read.text(), r#"cfg( all(unix,not(target_os="macos"),) )"#);
    assert_eq!(read.to_string(), read.canonical());
    assert_eq!(format!("[{:>12}]", key("cfg( a )")), "[      cfg(a)]");
    assert_eq!(key("x86_64-apple-darwin").canonical(), "x86_64-apple-darwin");
}

#[test]
fn keys_are_compared_by_their_canonical_forms() {
    let (one, other) = (key("cfg( all(a,b) )"), key("cfg(all(a, b))"));
    assert_eq!(one, other);
    assert_eq!(HashSet::from([one.clone(), other.clone(), key("cfg(a)")]).len(), 2);
    assert_ne!(key("cfg(a)"), key("a"));
    assert_ne!(key("cfg(a)"), key("cfg(r#a)"));
    let sorted = BTreeSet::from([key("x86_64"), key("cfg(b)"), key("cfg( a )"), key("cfg(any())")]);
    let printed: Vec<String> = sorted.iter().map(Key::to_string).collect();
    assert_eq!(printed, ["cfg(a)", "cfg(any())", "cfg(b)", "x86_64"]);
}

#[test]
fn a_rejected_key_has_a_span_and_a_snippet() {
    let message = "failed to parse `all(a b)` as a cfg expression: expected `)`, found an identifier";
    let snippet = "cfg(all(a b))\n          ^ expected `)`, found an identifier";
    let wanted = (ErrorKind::InvalidKey, message.to_string(), Some(10..11), Some(snippet.to_string()));
    assert_eq!(error_of("cfg(all(a b))"), wanted);
    assert_eq!("cfg(all(a b))".parse::<Key>(), Key::new("cfg(all(a b))"));
}

#[test]
fn errors_are_errors_that_other_threads_take() {
    fn is_error<E: std::error::Error + Send + Sync + 'static>(_: &E) {}
    is_error(&Key::new("cfg(").expect_err("an error"));
    let boxed: Box<dyn std::error::Error> = Box::new(Key::new("a b").expect_err("an error"));
    assert_eq!(
        boxed.to_string(),
        "failed to parse `a b` as a cfg expression: invalid target specifier: unexpected character   in target name"
    );
    assert_eq!(boxed.downcast_ref::<Error>().and_then(Error::span), Some(1..2));
}

#[test]
fn too_many_parentheses_are_rejected() {
    let deep = |levels| format!("cfg({}a{})", "not(".repeat(levels), ")".repeat(levels));
    assert!(Key::new(&deep(9_999)).is_ok());
    let wanted = (ErrorKind::TooDeep, "too many parentheses are open".to_string(), None, None);
    assert_eq!(error_of(&deep(10_000)), wanted);
}

#[test]
fn targets_are_those_that_rustc_knows() {
    let held = key(r#"cfg(all(target_os = "ios", target_env = "macabi"))"#).targets();
    assert_eq!(held.expect("targets"), ["aarch64-apple-ios-macabi", "x86_64-apple-ios-macabi"]);
    let known = known_targets().expect("targets");
    assert_eq!(known.len(), 320);
    assert_eq!(known.first().map(String::as_str), Some("aarch64-apple-darwin"));
    assert_eq!(key("cfg(all())").targets().expect("targets"), known);
    assert_eq!(key("cfg(any())").targets().expect("targets").len(), 0);
}

#[test]
fn many_keys_are_matched_as_each_alone() {
    let deep = format!("cfg({}a{})", "not(".repeat(10_000), ")".repeat(10_000));
    let keys = ["cfg(unix)", "cfg(windows)", "cfg(é", "avr-none", &deep, "cfg(a b)", "", "cfg(target_arch = \"avr\")"];
    let facts = Facts::of_target("avr-none").expect("facts");
    let alone = |text: &&str| match Key::new(text) {
        Ok(key) => Ok(key.condition().and_then(|it| it.matches(&facts)).expect("an answer")),
        Err(error) => Err(error.kind()),
    };
    let wanted: Vec<_> = keys.iter().map(alone).collect();
    assert_eq!(match_keys(&keys, &facts).expect("answers"), wanted);
    assert_eq!(wanted.iter().filter(|it| **it == Ok(true)).count(), 2);
    assert_eq!(match_keys::<&str>(&[], &facts), Ok(vec![]));
    assert_eq!(Facts::of_target("avr").map(|_| ()).unwrap_err().kind(), ErrorKind::UnknownTarget);
}

#[test]
fn facts_are_the_lines_of_rustc() {
    // What `rustc --print cfg --target avr-none` prints.
    let lines = [
        "debug_assertions",
        r#"panic="unwind""#,
        r#"target_abi="""#,
        r#"target_arch="avr""#,
        r#"target_endian="little""#,
        r#"target_env="""#,
        r#"target_os="none""#,
        r#"target_pointer_width="16""#,
        r#"target_vendor="unknown""#,
    ];
    assert_eq!(facts_of("avr-none").expect("facts"), lines);
    assert_eq!(facts_of("avr").expect_err("an error").kind(), ErrorKind::UnknownTarget);
}

#[test]
fn keys_are_compared_over_each_set_of_facts() {
    let (linux, unix) = (key(r#"cfg(target_os = "linux")"#), key("cfg(unix)"));
    let no = unix.implies(&linux).expect("an answer");
    assert!(!no.holds);
    assert_eq!(no.example.expect("an example").facts, [r#"target_family = "unix""#, "unix"]);
    assert!(unix.equivalent(&key(r#"cfg(target_family = "unix")"#)).expect("an answer").holds);
    assert!(linux.excludes(&key(r#"cfg(target_os = "macos")"#)).expect("an answer").holds);
    let named = key("x").implies(&key("y")).expect("an answer").example.expect("an example");
    assert_eq!((named.name.as_deref(), named.facts.len()), (Some("x"), 0));
}

#[test]
fn comparisons_take_no_more_splits_than_their_budget() {
    let (any, all) = (key("cfg(any(a, b))"), key("cfg(all(c, d))"));
    for found in [any.implies_within(&all, 0), any.equivalent_within(&all, 0), any.excludes_within(&all, 0)] {
        assert_eq!(found.expect_err("an error").kind(), ErrorKind::Undecided);
    }
    assert_eq!(any.can_hold_within(0).expect_err("an error").kind(), ErrorKind::Undecided);
    assert_eq!(any.implies_within(&all, 100), any.implies(&all));
    assert_eq!(any.equivalent_within(&all, 100), any.equivalent(&all));
    assert_eq!(any.excludes_within(&all, 100), any.excludes(&all));
    assert_eq!(any.can_hold_within(100), any.can_hold());
}

#[test]
fn what_can_hold_has_an_example() {
    assert_eq!(key("cfg(a)").can_hold().expect("an answer").example.expect("an example").facts, ["a"]);
    assert!(!key("cfg(all(unix, not(unix)))").can_hold().expect("an answer").holds);
    let broken = key("cfg(a = \"two\nlines\")").can_hold().expect("an answer").example.expect("an example");
    assert_eq!(broken.facts, ["a = \"two\nlines\""]);
}

/// What a package is.
fn parts(it: &Package) -> (&str, &str, Option<&str>, usize, &Targets, Option<Sides>, &[Kind], bool) {
    (&it.package, &it.id, it.license.as_deref(), it.targets, &it.at, it.side, &it.kinds, it.proc_macro)
}

#[test]
fn packages_of_a_graph_have_their_targets() {
    let document = r#"{"version": 1, "workspace_members": ["a"],
        "packages": [{"id": "a", "name": "a", "version": "1.0.0", "license": "MIT", "targets": []},
                     {"id": "\"b\"", "name": "b", "version": "0.1.0", "targets": []}],
        "resolve": {"nodes": [{"id": "\"b\"", "deps": []}, {"id": "a", "deps": [
            {"pkg": "\"b\"", "dep_kinds": [{"kind": null, "target": "x86_64-apple-darwin"},
                                           {"kind": "dev", "target": "avr-none"}]}]}]}}"#;
    let named = Targets::Named(vec!["avr-none".to_string(), "x86_64-apple-darwin".to_string()]);
    for host in [None, Some("x86_64-apple-darwin")] {
        let packages = graph(document, host).expect("packages");
        let found: Vec<_> = packages.iter().map(parts).collect();
        let wanted = [
            ("a 1.0.0", "a", Some("MIT"), 320, &Targets::All, Some(Sides::Target), &[][..], false),
            ("b 0.1.0", "\"b\"", None, 2, &named, Some(Sides::Target), &[Kind::Normal, Kind::Dev][..], false),
        ];
        assert_eq!(found, wanted);
    }
    assert_eq!(graph(document, Some("x")).expect_err("an error").kind(), ErrorKind::UnknownTarget);
    let error = graph(r#"{"version": 1}"#, None).expect_err("an error");
    assert_eq!((error.kind(), error.to_string().as_str()), (ErrorKind::InvalidDocument, "packages: expected an array"));
    assert_eq!((error.span(), error.snippet()), (None, None));
}

#[test]
fn the_library_has_the_version_of_this_crate() {
    assert_eq!(nevgrasi::version().as_deref(), Ok(env!("CARGO_PKG_VERSION")));
}
