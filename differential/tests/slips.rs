//! Every altered model (oracle/src/slips.rs) is told: by a stored record, whose line it changes, by K15, by a case made for it, or
//! by a case of the run over the library, in which it and the library differ. So no such slip can stand in a definition and in the
//! code together.

use differential::{cabinets, log::Log, merge, run, shapes};
use oracle::{
    plain,
    random::Random,
    record::{self, Record},
    slips::{self, Slip},
};

/// Enough for every slip of trees and areas; each is told by the first few hundred.
const CASES: u64 = 4_000;

fn line(record: &Record) -> String {
    record::line(0, &plain::answer(record))
}

/// How many stored records' lines the slip changes.
fn lines_changed(slip: Slip, stored: &[(Record, String)]) -> usize {
    let changes = |(record, rule): &&(Record, String)| {
        slips::with(slip, || line(record)).as_ref() != Some(rule)
    };
    stored.iter().filter(changes).count()
}

/// K15: -2.5 rounds to -3.
fn changes_k15(slip: Slip) -> bool {
    slips::with(slip, || plain::round(-2.5)) != Some(-3.0)
}

/// Those that no seeded case tells.
const MADE: [Slip; 5] = [
    Slip::GridMost,
    Slip::GridMore,
    Slip::MergeVertices,
    Slip::MergeTriangles,
    Slip::CabinetOrigin,
];

/// Whether the altered model and the library differ in a case made by hand: the largest merges and distance grids, and a cabinet
/// cast from a part's own origin.
fn differs_where_made(slip: Slip) -> bool {
    let mut log = Log::default();
    let ran = slips::with(slip, || {
        merge::at_the_limits(&mut log, &mut Random::new(1));
        shapes::at_the_limits(&mut log);
        cabinets::compare_made(&mut log);
    });
    ran.is_none() || !log.differences.is_empty()
}

/// The first case in which the altered model and the library differ.
fn first_case(slip: Slip) -> Option<u64> {
    (0..CASES).find(|&number| {
        let mesh = run::mesh_of(1, number);
        let mut log = Log::default();
        let ran = slips::with(slip, || run::compare(&mut log, 1, number, &mesh));
        ran.is_none() || !log.differences.is_empty()
    })
}

#[test]
fn every_altered_model_is_told() {
    std::panic::set_hook(Box::new(|_| {}));
    let stored = include_bytes!("../../crates/probe/stdin");
    let records = record::read_all(stored).expect("well-formed");
    let stored: Vec<(Record, String)> =
        records.into_iter().map(|r| (r.clone(), line(&r))).collect();
    let mut untold = Vec::new();
    for &(slip, what) in Slip::ALL {
        let told = match lines_changed(slip, &stored) {
            0 if changes_k15(slip) => "K15".to_owned(),
            0 if MADE.contains(&slip) && differs_where_made(slip) => {
                "a case made by hand".to_owned()
            }
            0 => match first_case(slip) {
                Some(number) => format!("case {number}"),
                None => {
                    untold.push(what);
                    "nothing".to_owned()
                }
            },
            lines => format!("{lines} lines"),
        };
        println!("{slip:?}, {what}: told by {told}");
    }
    assert!(untold.is_empty(), "not told: {untold:?}");
    assert!(Slip::ALL.len() >= 60);
}
