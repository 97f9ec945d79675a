//! The examples: their files are those of their sources, and this engine prints what the page of edges says.

use independent::trace::{replay, replay_with};
use independent::{edges, examples, Fault, Scheme};
use std::collections::BTreeSet;
use std::path::PathBuf;

fn folder() -> PathBuf {
    [env!("CARGO_MANIFEST_DIR"), "..", "..", "examples"].iter().collect()
}

#[test]
fn the_files_are_those_of_their_sources() {
    let made: Vec<_> = examples::files().into_iter().chain(edges::files()).collect();
    for (name, contents) in &made {
        let kept = std::fs::read(folder().join(name)).unwrap_or_else(|trouble| panic!("{name}: {trouble}"));
        assert!(kept == *contents, "{name} is not as its source has it; trace make-examples writes it");
    }
    let names: BTreeSet<_> = made.iter().map(|(name, _)| name.as_str()).collect();
    for entry in std::fs::read_dir(folder()).expect("the examples") {
        let name = entry.expect("an entry").file_name().into_string().expect("a name");
        let of_a_trace = ["trace", "expected", "blocking"].iter().any(|ending| name.ends_with(&format!(".{ending}")));
        assert!(!of_a_trace || names.contains(name.as_str()), "{name} has no source");
    }
}

#[test]
fn what_was_worked_by_hand_is_what_this_engine_prints() {
    let all = edges::all();
    assert_eq!(all.len(), 11);
    for (edges, scheme) in all.iter().flat_map(|edges| Scheme::ALL.map(|scheme| (edges, scheme))) {
        assert!((1..=256).contains(&edges.events.len()), "{}", edges.name);
        assert_eq!(replay(scheme, &edges.bytes()), edges.prints(scheme), "{} by {}", edges.name, scheme.word());
    }
}

/// The examples of the page that notice a wrong engine.
fn notices(fault: Fault, scheme: Scheme) -> Vec<String> {
    let differs = |edges: &&edges::Edges| replay_with(scheme, &edges.bytes(), fault) != edges.prints(scheme);
    edges::all().iter().filter(differs).map(|edges| edges.name.clone()).collect()
}

/// No theorem of the model notices these definitions: an example does. The least room is the depot program's.
#[test]
fn wrong_definitions_are_noticed() {
    let form = "edges-form".to_string();
    for scheme in Scheme::ALL {
        for fault in [Fault::Coordinator254, Fault::ReadWithAmount, Fault::FlagsUpTo7, Fault::DependenceBeforeNumber] {
            assert!(notices(fault, scheme).contains(&form), "{fault:?} by {}", scheme.word());
        }
        assert!(notices(Fault::LeastRoom1023, scheme).is_empty());
    }
}

/// Another number than the one that a failing operation found, none, or more. The page has operations that fail on a
/// cell which their own transaction has changed.
#[test]
fn what_was_not_found_is_noticed() {
    let faults = [
        Fault::FoundNotTold,
        Fault::FoundAfterwards,
        Fault::FoundAfterUndo,
        Fault::FoundTheAmount,
        Fault::FoundAmongOthers,
    ];
    for (fault, scheme) in faults.into_iter().flat_map(|fault| Scheme::ALL.map(|scheme| (fault, scheme))) {
        assert!(notices(fault, scheme).contains(&"edges-codes".to_string()), "{fault:?} by {}", scheme.word());
    }
}

/// What a commit releases with another dependence, too late, twice, too little or too much.
#[test]
fn wrong_releases_are_noticed() {
    let faults = [
        Fault::ReleaseMissing,
        Fault::ReleaseWithoutDependence,
        Fault::ReleaseDependsOnTheFront,
        Fault::ReleaseAsksThoseBehind,
        Fault::ReleaseAsksTheFrontAlone,
        Fault::ReleaseStaysHeld,
        Fault::ReleaseAfterTheDrain,
    ];
    for fault in faults {
        assert!(notices(fault, Scheme::Speculation).contains(&"release".to_string()), "{fault:?}");
        assert!(notices(fault, Scheme::Blocking).is_empty(), "{fault:?}");
    }
}

/// Attempts that are raised too seldom, too often or for others, and answers that name another one.
#[test]
fn wrong_attempts_are_noticed() {
    let faults = [
        Fault::AttemptNotRaised,
        Fault::AttemptTwoAfterAnAbort,
        Fault::AttemptOfTheWaitingRaised,
        Fault::AttemptOfTheFirstAlone,
        Fault::AttemptOfMultisAlone,
        Fault::AttemptOfTheSentAlone,
        Fault::AttemptRaisedByAFragment,
        Fault::AttemptRaisedByACommit,
        Fault::AttemptsNotMovedUp,
        Fault::HeldWithoutAttempt,
        Fault::AttemptsSwapped,
        Fault::DependenceInItsOwnAttempt,
        Fault::DependenceInTheFrontsAttempt,
        Fault::DependenceWithoutAttempt,
        Fault::AttemptWithoutDependence,
        Fault::ReleaseInItsOwnAttempt,
    ];
    for fault in faults {
        assert!(notices(fault, Scheme::Speculation).contains(&"attempts".to_string()), "{fault:?}");
        assert_eq!(!notices(fault, Scheme::Blocking).is_empty(), fault.shows_by(Scheme::Blocking), "{fault:?}");
    }
}
