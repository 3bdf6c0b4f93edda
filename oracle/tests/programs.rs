//! The records, streams, agreement and shrinking that the programs are made of.

use oracle::{
    agree::{lines_agree, sort_of},
    answer::Answer,
    generate, plain,
    record::{self, Record, Shape},
    shrink::shrink,
};
use std::collections::BTreeSet;

#[test]
fn records_are_read_as_they_were_written() {
    let records: Vec<Record> = (0..2_000)
        .map(|k| generate::record(1, k, &[1, 2, 3, 4, 5]))
        .collect();
    let stream: Vec<u8> = records.iter().flat_map(Record::write).collect();
    let read = record::read_all(&stream).expect("well-formed");
    let again: Vec<u8> = read.iter().flat_map(Record::write).collect();
    assert_eq!(read.len(), records.len());
    assert_eq!(stream, again);
}

#[test]
fn marked_records_answer_as_the_documents_say() {
    let sorts: Vec<String> = generate::marked()
        .iter()
        .map(|record| sort_of(&record::line(1, &plain::answer(record))))
        .collect();
    let expected = [
        "hit",
        "none",
        "none",
        "hit",
        "hit",
        "none",
        "hit",
        "refused 6",
        "hit",
        "refused 5",
        "hit",
        "hit",
        "hit",
        "refused 8",
        "refused 6",
        "refused 7",
        "hit",
        "refused 6",
        "refused 6",
    ];
    assert_eq!(sorts, expected);
}

#[test]
fn every_answer_that_a_kind_can_give_is_met() {
    let expected = [
        "hit,none,refused 1,refused 2,refused 6",
        "hit,none,refused 1,refused 6,refused 7",
        "hit,none,refused 1,refused 5,refused 6,refused 7",
        "hit,none,refused 1,refused 2,refused 6,refused 7",
        "hit,none,refused 1,refused 2,refused 5,refused 6,refused 8",
    ];
    for (kind, expected) in (1..=5).zip(expected) {
        let answer = |number| generate::record(2, number, &[kind]).answer();
        let sorts: BTreeSet<String> = (0..4_000)
            .map(|number| sort_of(&record::line(1, &answer(number))))
            .collect();
        assert_eq!(Vec::from_iter(sorts).join(","), expected);
    }
}

#[test]
fn every_malformed_stream_ends_in_bad() {
    for (name, bytes) in generate::bad_streams() {
        let mut lines = Vec::new();
        record::probe(&bytes, |line, _| lines.push(line.to_owned()));
        let bad = lines.iter().filter(|line| line.ends_with(" bad")).count();
        assert_eq!(bad, usize::from(name != "empty-is-not-bad"), "{name}");
        assert!(
            lines.last().is_none_or(|line| line.ends_with(" bad")),
            "{name}"
        );
    }
}

#[test]
fn agreement_is_equality_under_ieee_754() {
    let zeros = ("1 hit 8000000000000000", "1 hit 0000000000000000");
    assert!(lines_agree(zeros.0, zeros.1));
    assert!(lines_agree(
        "1 hit fff8000000000001",
        "1 hit 7ff8000000000000"
    ));
    assert!(!lines_agree(
        "1 hit 7ff0000000000000",
        "1 hit 7ff8000000000000"
    ));
    assert!(!lines_agree(
        "1 hit 3ff0000000000000",
        "1 hit 3ff0000000000001"
    ));
    assert!(!lines_agree(
        "1 hit 3ff0000000000000 4",
        "1 hit 3ff0000000000000 5"
    ));
    assert!(!lines_agree(
        "1 hit 3ff0000000000000",
        "1 hit 3ff0000000000000 5"
    ));
    assert!(!lines_agree("1 none", "1 refused 1"));
}

#[test]
fn a_mesh_shrinks_to_what_is_needed() {
    let needs_a_hit = |records: &[Record]| {
        let hit = |record: &Record| matches!(record.answer(), Answer::Hit { .. });
        records.iter().map(hit).collect::<Vec<bool>>()
    };
    let numbers = 0..400;
    let record = numbers
        .map(|number| generate::record(3, number, &[3]))
        .find(|record| record.write().len() > 2_000 && needs_a_hit(std::slice::from_ref(record))[0])
        .expect("a large mesh that is hit");
    let Shape::Mesh { vertices, indices } = shrink(record, needs_a_hit).shape else {
        unreachable!()
    };
    assert_eq!((vertices.len(), indices.len()), (9, 3));
}
