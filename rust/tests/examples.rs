// SPDX-License-Identifier: MIT OR Apache-2.0
//! Compares the calls with the examples of the repository.

use kat::{Answer, Error, Status};
use std::fs;
use std::path::{Path, PathBuf};
use std::thread;

fn examples() -> PathBuf {
    Path::new(env!("CARGO_MANIFEST_DIR")).join("../examples")
}

fn read(name: &str) -> Vec<u8> {
    fs::read(examples().join(name)).unwrap_or_else(|why| panic!("{name}: {why}"))
}

/// The problems of a folder, each with what is expected.
fn problems(folder: &str) -> Vec<(Vec<u8>, Vec<u8>)> {
    let mut found: Vec<_> = fs::read_dir(examples().join(folder)).unwrap().map(|it| it.unwrap().path()).collect();
    found.retain(|it| it.extension().map_or(false, |suffix| suffix == "kat"));
    found.sort();
    assert!(!found.is_empty());
    found.iter().map(|it| (fs::read(it).unwrap(), fs::read(it.with_extension("out")).unwrap())).collect()
}

fn decides(folder: &str, status: Status, accepted: &[u8]) {
    for (text, expected) in problems(folder) {
        assert_eq!(kat::decide(&text), Ok(Answer { status, output: expected.clone() }));
        assert_eq!(kat::check(&text, &expected), Ok(Answer { status, output: accepted.to_vec() }));
    }
}

#[test]
fn goals_that_hold() {
    decides("holds", Status::Equal, b"accepted equal\n");
}

#[test]
fn goals_that_fail() {
    decides("fails", Status::Different, b"accepted different\n");
}

#[test]
fn refused_texts() {
    for (text, expected) in problems("refused") {
        let printed = String::from_utf8(expected).unwrap().trim_end().to_owned();
        assert_eq!(kat::decide(text), Err(Error::Refused(printed)));
    }
}

#[test]
fn threads() {
    let threads: Vec<_> = (0..4).map(|_| thread::spawn(goals_that_fail)).collect();
    threads.into_iter().for_each(|it| it.join().unwrap());
}

#[test]
fn the_other_calls() {
    let euclid = read("runs/euclid.kat");
    assert_eq!(kat::run(&euclid, "gcd", "a=12,b=18", 100).unwrap().output, b"done a=6 b=6\n");
    assert!(matches!(kat::run(&euclid, "none", "a=12,b=18", 100), Err(Error::NoSuch(_))));
    let hoisted = read("fails/assignment-hoisted.kat");
    let string = kat::decide(&hoisted).unwrap().output;
    assert_eq!(kat::try_with(&hoisted, 100, &string).unwrap().status, Status::Different);
    assert_eq!(kat::try_(&hoisted, 100).unwrap().status, Status::Different);
    assert_eq!(kat::explain(&hoisted, &string).unwrap().output, read("fails/assignment-hoisted.explain"));
    assert_eq!(kat::replay(&hoisted, &string).unwrap().status, Status::Equal);
    assert!(kat::show(&hoisted).unwrap().output.starts_with(b"# t0 is "));
    let triple = read("outlines/one-by-one.kat");
    let notes = kat::outline(&triple).unwrap();
    assert_eq!(notes.status, Status::Equal);
    assert_eq!(kat::outline_check(&triple, &notes.output).unwrap().output, b"accepted outline\n");
    let proof = read("chains/star-twice.proof");
    assert_eq!(kat::chain(read("chains/star-twice.kat"), proof).unwrap().output, b"accepted chain\n");
    assert_eq!(kat::oneloop(read("runs/bounded.kat"), "P").unwrap().output, read("runs/bounded.P.kat"));
    assert_eq!(kat::optimise(&euclid, "gcd", 10).unwrap().status, Status::Equal);
    assert_eq!(kat::batch(read("batches/loop-rule.kat")).unwrap().output, read("batches/loop-rule.out"));
    assert!(kat::decide_json(&hoisted).unwrap().output.starts_with(b"{"));
    assert!(matches!(kat::flow("graph"), Err(Error::Refused(_))));
    assert!(matches!(kat::gkat("?"), Err(Error::Refused(_))));
}

#[test]
fn a_rejected_evidence_is_an_answer() {
    let string = kat::decide(read("fails/assignment-hoisted.kat")).unwrap().output;
    let other = read("holds/loop-peeled.kat");
    assert_eq!(kat::check(other, string).unwrap().status, Status::Rejected);
}
