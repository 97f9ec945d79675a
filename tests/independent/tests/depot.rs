//! The depot program's expected output: the same calls on the independent engine.

use independent::event::*;
use independent::layout::{call_on, lay_out, read, start, Words};
use independent::{Engine, Fault, Record, Scheme};

type Case = (&'static str, &'static [(usize, u32)]);

const UNSOUND: &[Case] = &[
    ("a cell count above 4,096", &[(0, 4097)]),
    ("17 uncommitted", &[(2, 17), (3, 0)]),
    ("65 live", &[(3, 61)]),
    ("counts that overflow", &[(2, 4294967295), (3, 4294967295)]),
    ("nine fragments run", &[(1860, 9)]),
    ("185 undo entries", &[(1863, 185)]),
    ("a live number 0", &[(4, 0)]),
    ("numbers not rising", &[(33, 3)]),
    ("a number above the largest", &[(149, 13)]),
    ("a stored fragment that 4 refuses: a flag", &[(121, 4)]),
    ("a code", &[(124, 9)]),
    ("an amount of a read", &[(126, 1)]),
    ("a used unused place", &[(133, 1)]),
    ("no operation", &[(123, 0)]),
    ("a single with a coordinator", &[(35, 1)]),
    ("a multi with none", &[(64, 0)]),
    ("one that 5 refuses", &[(154, 4)]),
    ("no fragment run", &[(1892, 0), (1895, 0)]),
    ("one behind the front with two runs", &[(1892, 2)]),
    ("a front that is a single", &[(5, 2), (6, 0)]),
    ("a front that holds its answer", &[(1862, 1)]),
    ("a single whose answer is not held", &[(1878, 0)]),
    ("an unfinished one that is not the last", &[(1877, 0)]),
    ("nine held numbers", &[(1881, 9)]),
    ("a held place 9", &[(1912, 9)]),
    ("an undo cell outside", &[(2126, 4)]),
    ("17 entries of two fragments", &[(1863, 17)]),
    ("nine entries of one", &[(1911, 9)]),
    ("a state that stands for nothing", &[(1909, 3)]),
    ("a reply that stands for nothing", &[(1910, 2)]),
    ("65 entries of eight fragments", &[(1860, 8), (1863, 65)]),
    ("a largest below a live number", &[(1, 11)]),
    ("an unknown flag alone", &[(121, 6)]),
    ("a single that is not last", &[(121, 0)]),
    ("code 0", &[(124, 0)]),
    ("a multi with coordinator 256", &[(64, 256)]),
    ("a cell in an unused place", &[(134, 1)]),
    ("an amount in an unused place", &[(135, 1)]),
    ("ones that 5 refuses by the count", &[(0, 3)]),
    ("an attempt 0 of the front", &[(32, 0)]),
    ("of one behind it", &[(61, 0)]),
    ("of one that waits", &[(148, 0)]),
    ("an attempt 65 of the front", &[(32, 65)]),
    ("an attempt 64 with one ahead", &[(61, 64)]),
    ("61 with four ahead, of one that waits", &[(148, 61)]),
    ("60 with five", &[(177, 60)]),
    ("an attempt that overflows with those ahead", &[(177, 4294967295)]),
];

const ODD: &[Case] = &[
    ("nothing odd", &[]),
    ("the largest is TOP", &[(1, 4294967295)]),
    ("eight fragments run", &[(1860, 8)]),
    ("no entries", &[(1863, 0), (1879, 0)]),
    ("failed ones that own entries", &[(1877, 2), (1909, 2)]),
    ("finished without a last fragment", &[(1909, 1)]),
    ("nothing uncommitted, six wait", &[(2, 0), (3, 6)]),
    ("three wait behind a finished one", &[(2, 3), (3, 3)]),
    ("a held place and numbers", &[(1880, 8), (1881, 8)]),
    ("a held answer with none", &[(1881, 0)]),
    ("garbage behind the live ones and the runs", &[(178, 1), (1924, 4294967295)]),
    ("garbage behind the entries", &[(2128, 4294967295), (2483, 1)]),
    ("garbage in held numbers", &[(1884, 77), (1890, 4294967295)]),
    ("garbage of an answer that was sent", &[(1864, 9), (1865, 9)]),
    ("4,096 cells", &[(0, 4096)]),
    ("the least number", &[(4, 1)]),
    ("a number just above the one before", &[(33, 4)]),
    ("16 entries of two fragments", &[(1863, 16)]),
    ("64 entries of eight", &[(1860, 8), (1863, 64)]),
    ("eight entries of one", &[(1911, 8)]),
    ("code 8 in one that waits", &[(124, 8)]),
    ("coordinator 255", &[(64, 255)]),
    ("the last cell in one that waits", &[(154, 3)]),
    ("both flags in one that waits", &[(121, 3), (122, 1)]),
    ("an attempt 64 of the front", &[(32, 64)]),
    ("63 with one ahead, and 60 with four", &[(61, 63), (148, 60)]),
    ("62 with two ahead, and 59 with five", &[(90, 62), (177, 59)]),
    ("garbage in the attempts behind the live ones", &[(206, 65), (1859, 4294967295)]),
];

fn base() -> Words {
    let mut cells = vec![5, 10, 0, 7];
    let (_, mut engine) = Engine::start(4);
    let events = [
        Event::open(3, 1, &[(SET, 0, 1), (ADD, 1, 1), (READ, 0, 0)]),
        Event::last(3, 1, &[(SET, 2, 4)]),
        Event::single(5, &[(ADD, 0, 1), (READ, 1, 0)]),
        Event::last(6, 1, &[(TAKE, 1, 1)]),
        Event::open(8, 2, &[(RAISE, 3, 9)]),
        Event::single(9, &[(READ, 0, 0)]),
        Event::last(12, 7, &[(LOWER, 1, 3)]),
    ];
    for event in events {
        assert_eq!(engine.call(&mut cells, &event, 1024).0, 0);
    }
    assert_eq!(cells, [2, 10, 4, 9]);
    lay_out(&engine.record)
}

fn with(words: &Words, changes: &[(usize, u32)]) -> Words {
    let mut words = *words;
    changes.iter().for_each(|&(at, word)| words[at] = word);
    words
}

/// The lines of one call, by an engine with a fault where its record is sound.
fn lines(
    out: &mut String,
    fault: Fault,
    case: usize,
    record: &Words,
    cells: &mut [u32],
    event: &[u32; EVENT_WORDS],
    room: usize,
) -> u32 {
    let (mut next, mut room) = (*record, vec![0; room]);
    let (number, answers) = match read(record).filter(Record::sound) {
        None => (1, 0),
        Some(sound) => {
            let mut engine = Engine { fault, ..Engine::of(sound) };
            call_on(Scheme::Speculation, &mut engine, &mut next, cells, event, &mut room)
        }
    };
    out.push_str(&format!("e {case} {number}\n"));
    for answer in room.chunks(16).take(answers as usize) {
        // As a trace's answers are printed: the attempts stand behind the dependence.
        let told = [&answer[..2], &answer[12..14], &answer[2..4 + answer[3] as usize]].concat();
        let words: Vec<_> = told.iter().map(u32::to_string).collect();
        out.push_str(&format!("a {}\n", words.join(" ")));
    }
    number
}

/// All that the program prints, and the cases that are not what their table says.
fn printed(fault: Fault) -> (String, Vec<String>) {
    let base = base();
    let (mut out, mut astray) = (String::new(), Vec::new());
    let mut expect = |name: &str, as_said: bool| {
        if !as_said {
            astray.push(name.to_string());
        }
    };
    for (i, (name, changes)) in UNSOUND.iter().enumerate() {
        let abort = Event::abort(3).words();
        let number = lines(&mut out, fault, i + 1, &with(&base, changes), &mut [2, 10, 4, 9], &abort, 1024);
        expect(name, number == 1);
    }
    for (i, (name, changes)) in ODD.iter().enumerate() {
        for event in [Event::commit(3), Event::abort(3)] {
            let record = with(&base, changes);
            let number = lines(&mut out, fault, i + 1, &record, &mut [2, 10, 4, 9], &event.words(), 1024);
            expect(name, number != 1);
        }
    }
    let mut unknown = [0; EVENT_WORDS];
    unknown[0] = 9;
    let mut lend = |out: &mut String, first: usize, lent: &[(&Words, usize, usize, u32)]| {
        for (i, &(record, cells, room, number)) in lent.iter().enumerate() {
            let returned = lines(out, fault, first + i, record, &mut vec![0; cells], &unknown, room);
            expect(&format!("what is lent, {}", first + i), returned == number);
        }
    };
    let [(none, empty), (many, refused), (one, single), (most, full)] = [0, 4097, 1, 4096].map(start);
    let unsound = with(&base, &[(0, 4097)]);
    let lent = [
        (&unsound, 3, 1023, 1),
        (&base, 3, 1023, 2),
        (&base, 3, 1024, 3),
        (&base, 5, 1024, 3),
        (&base, 0, 1024, 3),
        (&empty, 0, 1024, 3),
        (&empty, 4, 1024, 3),
        (&base, 4, 1024, 4),
    ];
    lend(&mut out, 1, &lent);
    out.push_str(&format!("e 9 {none}\ne 10 {many}\ne 11 {one}\ne 12 {most}\n"));
    let fresh = [
        (&base, 4, 1023, 2),
        (&base, 4, 0, 2),
        (&single, 0, 1024, 3),
        (&single, 1, 1024, 4),
        (&single, 2, 1024, 3),
        (&full, 5, 1024, 3),
        (&refused, 4, 1024, 3),
        (&refused, 4, 1023, 2),
    ];
    lend(&mut out, 13, &fresh);
    (out, astray)
}

fn expected() -> String {
    let file = concat!(env!("CARGO_MANIFEST_DIR"), "/../../crates/depot/stdout");
    std::fs::read_to_string(file).expect("the program's expected output")
}

#[test]
fn the_depot_program_prints_what_this_engine_says() {
    let (out, astray) = printed(Fault::None);
    assert_eq!(astray, [""; 0]);
    assert_eq!(expected(), out);
}

/// No theorem of the model and no trace notices a least room of 1,023: these calls do.
#[test]
fn a_least_room_of_1023_is_noticed() {
    let (wrong, astray) = printed(Fault::LeastRoom1023);
    assert_eq!(astray, ["what is lent, 2", "what is lent, 13", "what is lent, 20"]);
    assert_ne!(expected(), wrong);
}
