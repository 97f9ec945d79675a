//! The depot cases, the examples, the order of the refusals, the trace program, and what the generator reaches.

use independent::event::*;
use independent::generate::{self, Reach};
use independent::trace::{self, replay, replay_with};
use independent::{edges, examples, Dependence, Engine, Fault, Operation, Scheme, State};

fn prints(cells: &[u32], events: &[Event]) -> String {
    replay(Scheme::Speculation, &trace::write(cells, events))
}

/// The output without the `e` lines of accepted events.
fn matters(cells: &[u32], events: &[Event]) -> Vec<String> {
    let accepted = |line: &&str| line.starts_with("e ") && line.ends_with(" 0");
    prints(cells, events).lines().filter(|line| !accepted(line)).map(String::from).collect()
}

#[test]
fn p1_to_p9() {
    let depot = [5, 10];
    let p1 = "e 1 0\na 1 0 1 0 0 1 5\ne 2 0\ne 3 0\ne 4 0\na 1 0 1 0 0 1 17\ne 5 0\na 2 0 1 0 0 1 18\na 3 0 1 0 0 1 19\nc 0 19\n";
    assert_eq!(prints(&[5], &examples::p1()), p1);

    let mut p2 = examples::p1();
    p2[4] = Event::abort(1);
    assert_eq!(
        matters(&[5], &p2),
        ["a 1 0 1 0 0 1 5", "a 1 0 1 0 0 1 17", "a 2 0 2 0 0 1 6", "a 3 0 2 0 0 1 7", "c 0 7"]
    );

    let p3 = examples::p3();
    assert_eq!(matters(&depot, &p3[..1]), ["a 1 0 1 0 0 2 9 8", "c 0 5", "c 1 8"]);
    assert_eq!(matters(&depot, &p3), ["a 1 0 1 0 0 2 9 8", "c 0 5", "c 1 10"]);

    assert_eq!(matters(&depot, &[Event::single(1, &[(TAKE, 1, 10)])]), ["a 1 0 1 0 0 1 0", "c 0 5", "c 1 0"]);
    assert_eq!(matters(&depot, &[Event::single(1, &[(TAKE, 1, 11)])]), ["a 1 0 1 0 1 1 10", "c 0 5", "c 1 10"]);

    let p6 = [Event::single(1, &[(ADD, 0, 0)]), Event::single(2, &[(ADD, 0, 1)])];
    assert_eq!(matters(&[TOP], &p6), ["a 1 0 1 0 0 1 4294967295", "a 2 0 1 0 1 1 4294967295", "c 0 4294967295"]);

    assert_eq!(matters(&depot, &examples::p7()), ["a 1 0 1 0 0 1 17", "a 3 1 1 1 0 1 19", "c 0 19", "c 1 10"]);

    let p8 =
        ["a 1 0 1 0 0 1 17", "a 3 1 1 1 0 1 19", "e 5 7", "a 2 0 1 0 0 1 18", "a 4 0 1 0 0 1 19", "c 0 19", "c 1 10"];
    assert_eq!(matters(&depot, &examples::p8()), p8);

    let p9 = [
        Event::open(1, 1, &[(READ, 0, 0)]),
        Event::commit(1),
        Event::open(1, 1, &[(SET, 0, 1), (TAKE, 1, 11)]),
        Event::commit(1),
    ];
    assert_eq!(matters(&depot, &p9), ["a 1 0 1 0 0 1 5", "e 2 13", "a 1 0 1 0 2 1 10", "e 4 14", "c 0 5", "c 1 10"]);
}

#[test]
fn every_code_at_its_edges() {
    let after = |code, content, amount| Operation { code, cell: 0, amount }.apply(content);
    assert_eq!(after(READ, 5, 0), Some(5));
    assert_eq!(after(SET, 5, 0), Some(0));
    assert_eq!([after(ADD, 5, TOP - 5), after(ADD, 5, TOP - 4)], [Some(TOP), None]);
    assert_eq!([after(TAKE, 5, 5), after(TAKE, 5, 6)], [Some(0), None]);
    assert_eq!([after(NEED, 5, 5), after(NEED, 5, 6)], [Some(5), None]);
    assert_eq!([after(MATCH, 5, 5), after(MATCH, 5, 4)], [Some(5), None]);
    assert_eq!([after(RAISE, 5, 4), after(RAISE, 5, 6)], [Some(5), Some(6)]);
    assert_eq!([after(LOWER, 5, 4), after(LOWER, 5, 6)], [Some(4), Some(5)]);
}

#[test]
fn examples_show_what_they_are_for() {
    for example in examples::all() {
        let bytes = example.bytes();
        if example.shows != Fault::None {
            let [right, wrong] =
                [Fault::None, example.shows].map(|fault| replay_with(Scheme::default(), &bytes, fault));
            assert_ne!(right, wrong, "{}", example.name);
        }
    }
    let named = |name| examples::all().into_iter().find(|example| example.name == name).expect(name);
    let output = |name| replay(Scheme::Speculation, &named(name).bytes());
    assert!(output("depth16").contains("a 16 1 1 1 0 1 115\ne 17 0\ne 18 7\ne 19 0\n"));
    assert!(output("live64").contains("e 65 10\n") && output("live64").contains("e 70 0\na 65 0 1 0 0 1 63\n"));
    assert!(output("ninth-fragment").contains("e 8 0\na 1 0 1 0 0 1 2\ne 9 11\n"));
    assert!(output("shelf40").contains("e 12 0\na 3 0 2 0 0 1 3\na 4 0 2 0 0 2 3 1\na 5 0 2 0 1 1 0\n"));
}

/// Every form that 4 refuses, each spoiled by one thing alone.
fn malformed() -> Vec<Event> {
    let single = Event::single(9, &[(ADD, 0, 1), (READ, 0, 0)]);
    let multi = Event::last(9, 1, &[(ADD, 0, 1)]);
    let with = |event: &Event, changes: &[(usize, u32)]| {
        let mut words = event.words();
        changes.iter().for_each(|&(at, word)| words[at] = word);
        Event::read(&words)
    };
    let mut events = vec![Event::default(), Event::single(9, &[]), Event::last(9, 1, &[])];
    events.extend([0, 2, 3, 4, TOP].map(|kind| with(&single, &[(0, kind)])));
    events.extend([single, multi, Event::commit(9), Event::abort(9)].map(|event| with(&event, &[(1, 0)])));
    events.extend([0, 4, 6, 8, 1 << 31 | 2].map(|flags| with(&single, &[(2, flags)])));
    events.extend([5, 7, 1 << 31 | 3].map(|flags| with(&multi, &[(2, flags)])));
    events.extend([1, 255, 256, TOP].map(|coordinator| with(&single, &[(3, coordinator)])));
    events.extend([0, 256, TOP].map(|coordinator| with(&multi, &[(3, coordinator)])));
    // A count too small leaves an unused place that is not zero, one too large a used one without a code.
    events.extend([0, 1, 3, 8, 9, TOP].map(|count| with(&single, &[(4, count)])));
    events.push(with(&Event::single(9, &[(READ, 0, 0); 8]), &[(4, 9)]));
    events.extend([0, 9, TOP].map(|code| with(&single, &[(5, code)])));
    events.push(with(&single, &[(10, 1)]));
    events.extend((11..EVENT_WORDS).map(|unused| with(&single, &[(unused, 1)])));
    events.extend((2..EVENT_WORDS).map(|more| with(&Event::commit(9), &[(more, 1)])));
    events.extend((2..EVENT_WORDS).map(|more| with(&Event::abort(9), &[(more, TOP)])));
    events
}

#[test]
fn four_refuses_each_form_and_no_other() {
    for event in malformed() {
        assert!(!event.well_formed(), "{:?}", event.words());
    }
    let right = [Event::single(TOP, &[(LOWER, TOP, TOP); 8]), Event::open(1, 255, &[(READ, 0, 0)]), Event::commit(TOP)];
    assert!(right.iter().all(Event::well_formed));
}

/// An engine of two cells (5, 10) that was handed the events; all of them accepted.
fn after(scheme: Scheme, events: &[Event]) -> (Engine, Vec<u32>) {
    let (number, mut engine) = Engine::start(2);
    let mut cells = vec![5, 10];
    assert_eq!(number, 0);
    for event in events {
        assert_eq!(engine.call_by(scheme, &mut cells, event, 1024).0, 0, "{event:?}");
    }
    (engine, cells)
}

#[test]
fn refusals_in_their_order() {
    let outside = (READ, 2, 0);
    let read = (READ, 0, 0);
    let fails = (NEED, 0, TOP);
    let running = [Event::single(2, &[read]), Event::open(4, 1, &[read]), Event::single(6, &[read])];
    let finished = [&running[..], &[Event::last(4, 1, &[read])]].concat();
    let failed = [&running[..], &[Event::open(4, 1, &[fails])]].concat();
    let eight = [&running[..], &vec![Event::open(4, 1, &[read]); 7]].concat();
    let full = [&running[..], &(7..=68).map(|number| Event::single(number, &[read])).collect::<Vec<_>>()].concat();

    let check_by = |scheme: Scheme, before: &[Event], event: Event, expected: u32| {
        let (mut engine, mut cells) = after(scheme, before);
        let (record, contents) = (engine.record.clone(), cells.clone());
        let mut call = |cells: &mut [u32], room| engine.call_by(scheme, cells, &event, room);
        let (number, answers) = call(&mut cells, 1024);
        assert_eq!(number, expected, "{event:?} by {scheme:?}");
        // 2 comes before everything but 1, and 3 next.
        assert_eq!(call(&mut cells, 1023).0, 2);
        assert_eq!(call(&mut [], 0).0, 2);
        for lent in [0, 1, 3] {
            assert_eq!(call(&mut vec![0; lent], 1024).0, 3);
        }
        if number != 0 {
            assert!(answers.is_empty() && engine.record == record && cells == contents);
        }
    };
    let check = |before: &[Event], event: Event, expected: u32| {
        Scheme::ALL.into_iter().for_each(|scheme| check_by(scheme, before, event, expected));
    };
    let bad_code_last = [outside, read, read, read, read, read, read, (9, 0, 0)];
    for before in [&[][..], &running, &finished, &failed, &full] {
        malformed().into_iter().for_each(|event| check(before, event, 4));
        check(before, Event::single(100, &bad_code_last), 4);
        check(before, Event::single(100, &[read, outside]), 5);
    }
    // 5 before 6 to 11.
    for number in [1, 2, 3, 4, 6] {
        check(&finished, Event::last(number, 2, &[outside]), 5);
    }
    check(&full, Event::single(69, &[outside]), 5);
    check(&eight, Event::open(4, 1, &[outside]), 5);
    // Numbers of the past, and skipped ones, whatever comes with them.
    for number in [1, 2, 3, 5] {
        for event in [Event::last(number, 2, &[read]), Event::commit(number), Event::abort(number)] {
            check(&finished, event, 6);
            check(&full, event, 6);
        }
    }
    for event in [Event::single(6, &[read]), Event::last(6, 9, &[read]), Event::commit(6), Event::abort(6)] {
        check(&running, event, 7);
        check(&finished, event, 7);
        check(&full, event, 7);
    }
    for event in [Event::last(4, 1, &[read]), Event::open(4, 2, &[read]), Event::single(4, &[read])] {
        check(&finished, event, 8);
        check(&failed, event, 8);
    }
    for event in [Event::last(4, 2, &[read]), Event::single(4, &[read])] {
        check(&running, event, 9);
        check(&eight, event, 9);
        check(&full, event, 9);
    }
    check(&full, Event::single(69, &[read]), 10);
    check(&full, Event::open(TOP, 1, &[read]), 10);
    check(&full, Event::open(4, 1, &[read]), 0);
    check(&eight, Event::open(4, 1, &[read]), 11);
    check(&eight, Event::last(4, 1, &[read]), 11);
    for event in [Event::commit(69), Event::abort(69), Event::commit(TOP)] {
        check(&full, event, 12);
        check(&[], event, 12);
    }
    check(&running, Event::commit(4), 13);
    check(&eight, Event::commit(4), 13);
    check(&failed, Event::commit(4), 14);
    for before in [&running[..], &finished, &failed, &eight, &full] {
        check(before, Event::abort(4), 0);
    }
    check(&finished, Event::commit(4), 0);
}

/// A failed front takes back its earlier fragments before the drain; a failed single is answered in its turn.
#[test]
fn failing() {
    let events = [
        Event::open(1, 1, &[(SET, 0, 1)]),
        Event::single(2, &[(SET, 1, 0), (NEED, 0, 6)]),
        Event::last(3, 2, &[(ADD, 0, 1)]),
        Event::open(1, 1, &[(SET, 0, 2), (ADD, 1, 1), (TAKE, 0, 3)]),
        Event::last(1, 1, &[(READ, 0, 0)]),
        Event::abort(1),
        Event::commit(3),
    ];
    let expected =
        ["a 1 0 1 0 0 1 1", "a 1 0 1 0 3 1 2", "e 5 8", "a 2 0 2 0 2 1 5", "a 3 0 2 0 0 1 6", "c 0 6", "c 1 10"];
    assert_eq!(matters(&[5, 10], &events), expected);
}

/// Request L4: the content that the failing operation saw, whatever is taken back after it.
#[test]
fn what_was_found() {
    // Each code that may fail, on a cell of 10.
    for (code, amount) in [(ADD, TOP - 9), (ADD, TOP), (TAKE, 11), (NEED, TOP), (MATCH, 9), (MATCH, 11)] {
        let alone = [Event::single(1, &[(code, 1, amount)])];
        assert_eq!(matters(&[5, 10], &alone), ["a 1 0 1 0 1 1 10", "c 0 5", "c 1 10"], "code {code}");
    }
    // Its own transaction's changes are in it: of the same fragment, and of earlier ones.
    let same = [Event::single(1, &[(TAKE, 1, 4), (TAKE, 1, 7)])];
    assert_eq!(matters(&[5, 10], &same), ["a 1 0 1 0 2 1 6", "c 0 5", "c 1 10"]);
    let earlier = [Event::open(1, 1, &[(TAKE, 1, 4)]), Event::open(1, 1, &[(SET, 0, 0), (NEED, 1, 7)])];
    assert_eq!(matters(&[5, 10], &earlier), ["a 1 0 1 0 0 1 6", "a 1 0 1 0 2 1 6", "c 0 5", "c 1 10"]);
    // A 0 that was found is told too.
    let nothing = [Event::single(1, &[(SET, 1, 0), (READ, 0, 0), (TAKE, 1, 1)])];
    assert_eq!(matters(&[5, 10], &nothing), ["a 1 0 1 0 3 1 0", "c 0 5", "c 1 10"]);
    // Behind a front: 2 is held with what it found, 3 is told what it found under 1, and an abort makes both anew.
    let mut behind = vec![
        Event::last(1, 1, &[(TAKE, 1, 8)]),
        Event::single(2, &[(ADD, 1, 1), (TAKE, 1, 4)]),
        Event::last(3, 1, &[(TAKE, 1, 11)]),
        Event::commit(1),
    ];
    let committed = ["a 1 0 1 0 0 1 2", "a 3 1 1 1 1 1 2", "a 2 0 1 0 2 1 3", "c 0 5", "c 1 2"];
    assert_eq!(matters(&[5, 10], &behind), committed);
    behind[3] = Event::abort(1);
    let aborted = ["a 1 0 1 0 0 1 2", "a 3 1 1 1 1 1 2", "a 2 0 2 0 0 2 11 7", "a 3 0 2 0 1 1 7", "c 0 5", "c 1 7"];
    assert_eq!(matters(&[5, 10], &behind), aborted);
}

#[test]
fn bad_traces() {
    let good = trace::write(&[5], &[Event::default()]);
    let most = trace::write(&[0; 4096], &[Event::default(); 256]);
    for scheme in Scheme::ALL {
        assert_eq!(replay(scheme, &good), "e 1 4\nc 0 5\n");
        assert_eq!(replay(scheme, &trace::write(&[5], &[])), "c 0 5\n");
        assert_eq!(replay(scheme, &most).lines().count(), 4096 + 256);
    }
    let with = |at: usize, word: u32| {
        let mut bytes = good.clone();
        bytes[4 * at..4 * at + 4].copy_from_slice(&word.to_le_bytes());
        bytes
    };
    let mut bad = vec![Vec::new(), vec![0; 16], trace::write(&[], &[]), trace::write(&[0; 4097], &[])];
    bad.push(trace::write(&[5], &[Event::default(); 257]));
    bad.extend((0..good.len()).map(|length| good[..length].to_vec()));
    bad.extend([1, 2, 3, 4, 116].map(|more| [&good[..], &vec![0; more]].concat()));
    bad.extend(
        [(0, 0), (0, 2), (0, TOP), (1, 3), (1, 5), (2, 0), (2, 2), (2, 257), (3, 4), (3, 6)].map(|(a, w)| with(a, w)),
    );
    bad.extend([with(2, 1 + (1 << 30)), with(3, TOP)]);
    for bytes in bad {
        assert_eq!(Scheme::ALL.map(|scheme| replay(scheme, &bytes)), ["bad trace\n"; 2], "{} bytes", bytes.len());
    }
}

#[test]
fn generated_traces_reach_everything() {
    let reaches = Scheme::ALL.map(|scheme| {
        let mut reach = Reach::by(scheme);
        (1..=64).for_each(|seed| reach.note_trace(&generate::trace(seed)));
        assert!(reach.missing().is_empty() && reach.stopped_by_tail > 0, "{:?} by {scheme:?}", reach.missing());
        reach
    });
    assert!(reaches[0].requeued.iter().all(|&count| count > 0) && reaches[0].stopped_by_depth > 0);
    assert!(reaches[0].most_attempt > 8 && reaches[1].most_attempt == 1);
    for (scheme, fault) in Scheme::ALL.iter().flat_map(|&scheme| Fault::ALL.map(|fault| (scheme, fault))) {
        let shows = |seed| {
            let trace = generate::trace(seed);
            replay(scheme, &trace) != replay_with(scheme, &trace, fault)
        };
        assert_eq!((1..=64).any(shows), fault.shows_by(scheme), "{fault:?} by {scheme:?}");
    }
}

/// A comparison that met no second attempt is worth nothing: by these traces nothing is undone.
#[test]
fn missing_attempts_are_told() {
    let mut reach = Reach::by(Scheme::Speculation);
    examples::all().iter().filter(|example| example.name == "p1").for_each(|p1| reach.note_trace(&p1.bytes()));
    let missing = reach.missing();
    for name in ["an answer of", "a dependence on"] {
        assert!(missing.contains(&format!("{name} attempt 2 or more")), "{missing:?}");
    }
    let page = edges::all().into_iter().find(|edges| edges.name == "attempts").expect("on the page");
    reach.note_trace(&page.bytes());
    assert!(!reach.missing().iter().any(|name| name.contains("attempt")), "{:?}", reach.missing());
}

/// Each clause of 4 must be met alone, in generated traces and on the page of edges: repairing that one thing makes the
/// event well formed.
#[test]
fn each_clause_of_4_is_broken_alone() {
    type Repair = (&'static str, fn(&mut Event));
    let repairs: [Repair; 10] = [
        ("kind", |event| event.kind = if (FRAGMENT..=ABORT).contains(&event.kind) { event.kind } else { FRAGMENT }),
        ("number", |event| event.fragment.number = 1),
        ("count", |event| {
            event.fragment.count = event.fragment.operations.iter().take_while(|o| o.code != 0).count() as u32
        }),
        ("code", |event| {
            let used = event.fragment.used().len();
            event.fragment.operations[..used]
                .iter_mut()
                .for_each(|o| o.code = if (READ..=LOWER).contains(&o.code) { o.code } else { LOWER });
        }),
        ("read", |event| event.fragment.operations.iter_mut().filter(|o| o.code == READ).for_each(|o| o.amount = 0)),
        ("unused", |event| {
            let used = event.fragment.used().len();
            event.fragment.operations[used..].fill(Operation::default());
        }),
        ("not last", |event| event.fragment.flags |= LAST),
        ("coordinator", |event| event.fragment.coordinator = u32::from(event.fragment.is_multi())),
        ("flag", |event| event.fragment.flags &= MULTI | LAST),
        ("decision", |event| {
            if event.kind != FRAGMENT {
                *event = Event { kind: event.kind, ..Event::commit(event.fragment.number) };
            }
        }),
    ];
    let traces = (1..=200).filter_map(|seed| trace::read(&generate::trace(seed)));
    let events: Vec<Event> = traces.flat_map(|trace| trace.events).filter(|event| !event.well_formed()).collect();
    let edges: Vec<Event> = edges::all().into_iter().flat_map(|edges| edges.events).collect();
    for (name, repair) in repairs {
        let alone = |event: &&Event| {
            let mut event = **event;
            repair(&mut event);
            event.well_formed()
        };
        assert!(events.iter().filter(alone).count() >= 5, "{name}");
        assert!(edges.iter().filter(|event| !event.well_formed()).any(|event| alone(&event)), "{name} on the page");
    }
}

/// The readings' facts of every run from a fresh start, over generated traces.
#[test]
fn facts_of_every_run() {
    let traces = (1..=200).filter_map(|seed| trace::read(&generate::trace(seed)));
    for (trace, scheme) in traces.flat_map(|trace| Scheme::ALL.map(|scheme| (trace.clone(), scheme))) {
        trace::play(&trace, scheme, Fault::None, |step| {
            let record = step.after;
            assert!(record.sound());
            let (count, tail) = (record.uncommitted.len(), record.uncommitted.back());
            let stopped = match scheme {
                Scheme::Speculation => count == 16 || tail.is_some_and(|tail| tail.state == State::Running),
                Scheme::Blocking => count == 1,
            };
            assert!(record.waiting.is_empty() || stopped);
            if scheme == Scheme::Blocking {
                assert!(count <= 1 && step.answers.iter().all(|answer| answer.dependence.number == 0));
                // Nothing that has run returns.
                assert!(record.attempts().chain(step.answers.iter().map(|answer| answer.attempt)).all(|n| n == 1));
            }
            for (at, one) in record.uncommitted.iter().enumerate() {
                let first = &one.first;
                let failed = one.state == State::Failed;
                let writes = first.used().iter().filter(|operation| operation.writes()).count();
                assert!(!failed || one.undo.is_empty());
                if one.fragments_run == 1 && !failed {
                    assert_eq!(one.undo.len(), writes);
                    assert_eq!(one.state == State::Finished, first.is_last());
                }
                let mut ahead = record.uncommitted.iter().take(at).filter(|other| other.first.is_multi());
                // Since L6 a multi is held exactly where another coordinator is ahead of it.
                if first.is_multi() {
                    assert_eq!(one.held.is_some(), ahead.any(|other| other.first.coordinator != first.coordinator));
                }
                match &one.held {
                    Some(held) if failed => assert!((1..=first.count).contains(&held.place) && held.numbers.len() == 1),
                    Some(held) => assert!(held.place == 0 && held.numbers.len() == first.count as usize),
                    None => assert!(first.is_multi()),
                }
            }
            // Each undoing took away one that was ahead. So a coordinator sees rising attempts, and never one above 64.
            assert!(record.attempts().zip(0..).all(|(attempt, ahead)| attempt >= 1 && attempt + ahead <= 64));
            for answer in step.answers {
                let Dependence { number, attempt } = answer.dependence;
                assert!((1..=64).contains(&answer.attempt));
                // An undoing that reaches one reaches those ahead of it.
                assert!(if number == 0 { attempt == 0 } else { attempt >= answer.attempt });
            }
            let numbers: Vec<u32> = step.answers.iter().map(|answer| answer.number).collect();
            assert!(numbers.windows(2).all(|pair| pair[0] < pair[1]) && numbers.len() <= 64);
        });
    }
}
