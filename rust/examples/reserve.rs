//! A partition of four shelves on a busy morning, the story of `examples/c/reserve.c`, line for line: a sale, a
//! reservation that spans depots, a sale behind it whose answer is held, a second reservation answered under a
//! dependence, a commit, an abort. Every result is compared with the one that must come.
//!
//! ```text
//! cargo run --example reserve
//! ```

use harukdalis::{Dependence, Engine, Event, Op, Outcome, Refusal, Room};
use std::error::Error;
use std::fmt::Write;

const PADS: u32 = 0;
const FILTERS: u32 = 1;
const WIPERS: u32 = 2;
const RESERVED: u32 = 3;
const SHELVES: u32 = 4;

/// What must come back: the answers as transaction, attempt, dependence, outcome; or a refusal.
type Expected<'a> = Result<&'a [(u32, u32, Option<Dependence>, Outcome<'a>)], Refusal>;

struct Depot {
    engine: Engine,
    cells: [u32; SHELVES as usize],
    room: Room,
    told: String,
}

impl Depot {
    /// One call, told in words, with what must come back.
    fn call(&mut self, story: &str, event: &Event, expected: Expected<'_>) -> Result<(), Box<dyn Error>> {
        let answers = match self.engine.call(&mut self.cells, event, &mut self.room) {
            Ok(answers) => answers,
            Err(refusal) => {
                writeln!(self.told, "{story}: {}", in_words(refusal))?;
                return if expected == Err(refusal) { Ok(()) } else { Err(refusal.into()) };
            }
        };
        writeln!(self.told, "{story}: accepted")?;
        let answers: Vec<_> = answers.collect();
        let got: Vec<_> = answers.iter().map(|a| (a.transaction(), a.attempt(), a.dependence(), a.outcome())).collect();
        if expected != Ok(&got[..]) {
            return Err(format!("{story}: {got:?}, expected {expected:?}").into());
        }
        for (transaction, attempt, dependence, outcome) in got {
            write!(self.told, "  transaction {transaction}, attempt {attempt}")?;
            if let Some(Dependence { transaction, attempt }) = dependence {
                write!(self.told, ", if {transaction} commits in attempt {attempt}")?;
            }
            match outcome {
                Outcome::Failed { place, found } => {
                    writeln!(self.told, ": failed at operation {place}, which found {found}")?;
                }
                Outcome::Numbers(numbers) => {
                    let numbers: Vec<_> = numbers.iter().map(u32::to_string).collect();
                    writeln!(self.told, ": {}", numbers.join(" "))?;
                }
            }
        }
        if answers.is_empty() {
            writeln!(self.told, "  no answer yet")?;
        }
        Ok(())
    }
}

/// Short words, as the story has them in C; a host shows the refusal itself.
fn in_words(refusal: Refusal) -> &'static str {
    match refusal {
        Refusal::CellOutside => "cell outside",
        Refusal::NotLive => "not live",
        Refusal::NotFront => "not the front",
        Refusal::FrontFinished => "front finished",
        _ => "not part of this story",
    }
}

/// The whole story, or the first thing that was not as it must be.
pub fn story() -> Result<String, Box<dyn Error>> {
    let numbers = Outcome::Numbers;
    let reservation = Event::multi(2, 1, true, &[Op::take(PADS, 3), Op::add(RESERVED, 3)]);
    if Engine::start(0) != Err(Refusal::WrongCells) {
        return Err("a start with no cells was accepted".into());
    }
    let engine = Engine::start(SHELVES)?;
    let mut depot = Depot { engine, cells: [12, 5, 40, 0], room: Room::new(), told: String::new() };
    writeln!(depot.told, "four shelves: 12 pads, 5 filters, 40 wipers, 0 reserved")?;

    let sale = Event::single(1, &[Op::take(PADS, 2), Op::read(FILTERS)]);
    depot.call("1 sells 2 pads", &sale, Ok(&[(1, 1, None, numbers(&[10, 5]))]))?;

    // A multi: it is answered, and stays undecided until its coordinator has heard all depots.
    depot.call("2 reserves 3 pads across depots", &reservation, Ok(&[(2, 1, None, numbers(&[7, 3]))]))?;

    // A single behind it runs, but a customer must not hear of pads that 2 may give back.
    let held = Event::single(3, &[Op::take(PADS, 1), Op::take(FILTERS, 1)]);
    depot.call("3 sells 1 pad and 1 filter, behind 2", &held, Ok(&[]))?;

    // A multi of the same coordinator is answered at once: that coordinator knows what becomes of 2, and in which attempt
    // 2 was answered last.
    let second = Event::multi(4, 1, true, &[Op::take(PADS, 2), Op::add(RESERVED, 2)]);
    let on_2 = Some(Dependence { transaction: 2, attempt: 1 });
    depot.call("4 reserves 2 pads, behind 2", &second, Ok(&[(4, 1, on_2, numbers(&[4, 5]))]))?;

    // The network delivers twice, a clerk mistypes, a coordinator is early: nothing changes.
    depot.call("2's fragment comes again", &reservation, Err(Refusal::FrontFinished))?;
    let beyond = Event::single(5, &[Op::read(SHELVES)]);
    depot.call("5 asks for a shelf that is not there", &beyond, Err(Refusal::CellOutside))?;
    depot.call("4 is committed ahead of 2", &Event::commit(4), Err(Refusal::NotFront))?;

    // 3 settles and is answered. 4 is the front now; its answer was sent and holds, as 2 was answered in attempt 1 and in
    // no other, so it is not sent again.
    depot.call("2 is committed", &Event::commit(2), Ok(&[(3, 1, None, numbers(&[6, 4]))]))?;

    // 6 needs 5 pads, and while 4 has its 2 there are 4: it fails, for now. Its failure is held like any answer.
    let large = Event::single(6, &[Op::need(WIPERS, 30), Op::take(PADS, 5)]);
    depot.call("6 sells 5 pads, behind 4", &large, Ok(&[]))?;

    // 4 gives its pads back, 6 is requeued, runs again and finds enough: its second attempt.
    depot.call("4 is aborted", &Event::abort(4), Ok(&[(6, 2, None, numbers(&[40, 1]))]))?;

    // All of a failed transaction is taken back: the wipers too. Its answer tells what the failing operation found.
    let too_much = Event::single(7, &[Op::take(WIPERS, 10), Op::take(PADS, 2)]);
    let failed = Outcome::Failed { place: 2, found: 1 };
    depot.call("7 sells 10 wipers and 2 pads", &too_much, Ok(&[(7, 1, None, failed)]))?;
    depot.call("4's abort comes again", &Event::abort(4), Err(Refusal::NotLive))?;

    let shelves = depot.cells.map(|content| content.to_string());
    writeln!(depot.told, "shelves: {}", shelves.join(" "))?;
    if depot.cells != [1, 4, 40, 3] {
        return Err(format!("the shelves are {:?}", depot.cells).into());
    }
    Ok(depot.told)
}

#[allow(dead_code)] // where a test takes the story from here
fn main() -> Result<(), Box<dyn Error>> {
    print!("{}", story()?);
    Ok(())
}
