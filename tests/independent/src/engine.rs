//! The record and the steps of document 01, in place and on plain lists.

use crate::event::{Event, Fragment, Operation, ABORT, ADD, COMMIT, FRAGMENT, LAST, MULTI, PLACES, READ, TAKE};
use std::collections::VecDeque;
use std::mem::swap;

pub const MOST_CELLS: u32 = 4096;
pub const MOST_LIVE: usize = 64;
pub const DEPTH: usize = 16;
pub const MOST_FRAGMENTS: u32 = 8;
/// Numbers in an answer, and the room for answers that every call must lend.
pub const ANSWER_WORDS: usize = 16;
pub const ROOM: usize = MOST_LIVE * ANSWER_WORDS;

/// Failed implies finished.
#[derive(Clone, Copy, Debug, PartialEq, Eq)]
pub enum State {
    Running,
    Finished,
    Failed,
}

/// What a fragment gave: a place of failure and the one number that was found there, or place 0 and a number for each
/// operation.
#[derive(Clone, Debug, Default, PartialEq, Eq)]
pub struct Outcome {
    pub place: u32,
    pub numbers: Vec<u32>,
}

/// The transaction that must commit for an answer to be right, and the attempt in which it must; 0 and 0 for none.
#[derive(Clone, Copy, Debug, Default, PartialEq, Eq)]
pub struct Dependence {
    pub number: u32,
    pub attempt: u32,
}

#[derive(Clone, Debug, PartialEq, Eq)]
pub struct Answer {
    pub number: u32,
    pub attempt: u32,
    pub dependence: Dependence,
    pub outcome: Outcome,
}

impl Answer {
    /// The attempts stand right after the eight numbers.
    pub fn words(&self) -> [u32; ANSWER_WORDS] {
        let Answer { number, attempt, dependence, outcome: Outcome { place, numbers } } = self;
        let mut words = [0; ANSWER_WORDS];
        words[..4].copy_from_slice(&[*number, dependence.number, *place, numbers.len() as u32]);
        words[4..4 + numbers.len()].copy_from_slice(numbers);
        words[12..14].copy_from_slice(&[*attempt, dependence.attempt]);
        words
    }

    /// What the two schemes have in common of a single's answer.
    pub fn attempts_aside(mut self) -> Answer {
        (self.attempt, self.dependence.attempt) = (0, 0);
        self
    }
}

/// Which steps a call takes; no record keeps it.
#[derive(Clone, Copy, Debug, Default, PartialEq, Eq)]
pub enum Scheme {
    /// As document 01 has them.
    #[default]
    Speculation,
    /// The drain runs only while nothing is uncommitted.
    Blocking,
}

impl Scheme {
    pub const ALL: [Scheme; 2] = [Scheme::Speculation, Scheme::Blocking];

    pub fn other(self) -> Scheme {
        match self {
            Scheme::Speculation => Scheme::Blocking,
            Scheme::Blocking => Scheme::Speculation,
        }
    }

    /// As the trace program is told it.
    pub fn word(self) -> &'static str {
        match self {
            Scheme::Speculation => "speculation",
            Scheme::Blocking => "blocking",
        }
    }

    /// Of the file that has what an example prints.
    pub fn ending(self) -> &'static str {
        match self {
            Scheme::Speculation => "expected",
            Scheme::Blocking => "blocking",
        }
    }
}

/// One that waits.
#[derive(Clone, Copy, Debug, PartialEq, Eq)]
pub struct Waiting {
    pub first: Fragment,
    /// Of its next run.
    pub attempt: u32,
}

#[derive(Clone, Debug, PartialEq, Eq)]
pub struct Uncommitted {
    pub first: Fragment,
    /// 1, and one more for each undoing; later fragments of the front belong to the same attempt.
    pub attempt: u32,
    pub fragments_run: u32,
    pub state: State,
    /// Nothing where the answer was sent.
    pub held: Option<Outcome>,
    /// (cell, old number), oldest first.
    pub undo: Vec<(u32, u32)>,
}

impl Uncommitted {
    /// The clauses of refusal 1 about one uncommitted transaction, but for its number, its fragment and its attempt.
    fn sound(&self, is_front: bool, is_tail: bool, cells: u32) -> bool {
        let most_fragments = if is_front { MOST_FRAGMENTS } else { 1 };
        let reply = match &self.held {
            Some(held) => !is_front && held.place <= PLACES as u32 && held.numbers.len() <= PLACES,
            None => self.first.is_multi(),
        };
        (1..=most_fragments).contains(&self.fragments_run)
            && (!is_front || self.first.is_multi())
            && reply
            && (self.state != State::Running || is_tail)
            && self.undo.len() <= PLACES * self.fragments_run as usize
            && self.undo.iter().all(|&(cell, _)| cell < cells)
    }

    /// As an answer that depends on it names it.
    fn named(&self) -> Dependence {
        Dependence { number: self.first.number, attempt: self.attempt }
    }
}

#[derive(Clone, Debug, PartialEq, Eq)]
pub struct Record {
    pub cells: u32,
    pub largest: u32,
    /// The first one is the front.
    pub uncommitted: VecDeque<Uncommitted>,
    pub waiting: VecDeque<Waiting>,
}

impl Record {
    pub fn live(&self) -> impl Iterator<Item = &Fragment> {
        self.uncommitted.iter().map(|one| &one.first).chain(self.waiting.iter().map(|one| &one.first))
    }

    /// Of the live ones, in the same order.
    pub fn attempts(&self) -> impl Iterator<Item = u32> + '_ {
        self.uncommitted.iter().map(|one| one.attempt).chain(self.waiting.iter().map(|one| one.attempt))
    }

    fn attempts_mut(&mut self) -> impl Iterator<Item = &mut u32> {
        self.uncommitted
            .iter_mut()
            .map(|one| &mut one.attempt)
            .chain(self.waiting.iter_mut().map(|one| &mut one.attempt))
    }

    /// The list of refusal 1 and no stricter.
    pub fn sound(&self) -> bool {
        let mut before = 0;
        let mut rises = |number| std::mem::replace(&mut before, number) < number;
        let tail = self.uncommitted.len().wrapping_sub(1);
        self.cells <= MOST_CELLS
            && self.uncommitted.len() <= DEPTH
            && self.live().count() <= MOST_LIVE
            && self.live().all(|stored| {
                rises(stored.number)
                    && stored.number <= self.largest
                    && stored.well_formed()
                    && stored.inside(self.cells)
            })
            // Each undoing has taken one of those ahead away, and there were 63 at most.
            && self.attempts().zip((1..=MOST_LIVE as u32).rev()).all(|(attempt, most)| (1..=most).contains(&attempt))
            && self.uncommitted.iter().enumerate().all(|(at, one)| one.sound(at == 0, at == tail, self.cells))
    }
}

/// The errors of the trade and a few more, to show that a comparison notices them.
#[derive(Clone, Copy, Debug, PartialEq, Eq)]
pub enum Fault {
    None,
    UndoOldestFirst,
    SpeculateBehindUnfinishedFront,
    RequeueReversed,
    SingleAnsweredEarly,
    SinglesCountAsForeign,
    AnswerRepeated,
    AddWraps,
    TakeFailsOnEquality,
    FailureKeepsWrites,
    CellsBeforeForm,
    CoordinatorBeforeFinished,
    Depth17,
    Live65,
    BlockingNeverBlocks,
    BlockingSpeculatesOnce,
    BlockingWhenIdle,
    BlockingRefusesNew,
    Coordinator254,
    ReadWithAmount,
    FlagsUpTo7,
    DependenceBeforeNumber,
    /// Tells no number with a place of failure.
    FoundNotTold,
    /// Tells what the failing operation would have left: a sum or a rest that wraps.
    FoundAfterwards,
    /// Tells what the cell holds once the transaction's changes are taken back.
    FoundAfterUndo,
    /// Tells the amount that was asked for.
    FoundTheAmount,
    /// Tells the numbers of the operations before it too.
    FoundAmongOthers,
    /// After a commit: releases nothing.
    ReleaseMissing,
    /// Answers what it releases with dependence 0.
    ReleaseWithoutDependence,
    /// Answers it with a dependence on the front and not on the nearest multi ahead.
    ReleaseDependsOnTheFront,
    /// Asks the multis behind a held one too.
    ReleaseAsksThoseBehind,
    /// Asks the front alone, and not the multis between.
    ReleaseAsksTheFrontAlone,
    /// Leaves what it releases marked as held, and so sends it again.
    ReleaseStaysHeld,
    /// Releases after the drain.
    ReleaseAfterTheDrain,
    /// Releases after a fragment too. Where a run is from a fresh start nothing is held then that could be released:
    /// the odd records of the soak show it.
    ReleaseAfterAFragment,
    /// An abort raises no attempt.
    AttemptNotRaised,
    /// Has 2 after each abort, however many there were.
    AttemptTwoAfterAnAbort,
    /// Raises those that were waiting too.
    AttemptOfTheWaitingRaised,
    /// Raises the first that returns alone.
    AttemptOfTheFirstAlone,
    /// Raises no single, as a coordinator sees none.
    AttemptOfMultisAlone,
    /// Raises none whose answer was held, as nobody has seen it.
    AttemptOfTheSentAlone,
    /// A later fragment of the front raises its attempt.
    AttemptRaisedByAFragment,
    /// A commit raises those that were uncommitted behind the front.
    AttemptRaisedByACommit,
    /// A commit moves the live ones up and leaves the attempts where they are.
    AttemptsNotMovedUp,
    /// Counts the runs that were: a new one waits with 0, and its run makes it 1. Its answers are right, its record is
    /// not: the soak shows it.
    AttemptCountsRuns,
    /// Sends what was held without its attempt.
    HeldWithoutAttempt,
    /// Gives the two attempts of an answer in the other order.
    AttemptsSwapped,
    /// With a dependence: gives the attempt of the answered one for the one that it depends on.
    DependenceInItsOwnAttempt,
    /// Gives the front's.
    DependenceInTheFrontsAttempt,
    /// Gives none.
    DependenceWithoutAttempt,
    /// With no dependence: gives its own attempt where 0 stands for none.
    AttemptWithoutDependence,
    /// Gives what it releases its own attempt for that of the dependence; what the drain runs is right.
    ReleaseInItsOwnAttempt,
    /// Takes the decision of a speculated multi when it arrives, and settles it or takes it back where it stands. What
    /// is ahead of it and undone later puts old numbers over its own.
    DecidedSettlesInItsPlace,
    /// Takes it, undoes all, and lets the decided one run ahead of all that are undecided: they settle in the order of
    /// their decisions.
    DecidedGoesAhead,
    /// A commit that comes when singles have run behind the front settles them first: all is undone, and the front runs
    /// once more behind them.
    LateCommitGoesBehind,
    /// An abort takes back the front's changes and leaves what has run behind it.
    AbortUndoesTheFrontAlone,
    /// A single that waits first runs and settles before a later fragment of the front does.
    WaitingPassesTheFront,
    /// No trace lends less than the room: the depot program's calls show it.
    LeastRoom1023,
}

impl Fault {
    pub const ALL: [Fault; 57] = [
        Fault::UndoOldestFirst,
        Fault::SpeculateBehindUnfinishedFront,
        Fault::RequeueReversed,
        Fault::SingleAnsweredEarly,
        Fault::SinglesCountAsForeign,
        Fault::AnswerRepeated,
        Fault::AddWraps,
        Fault::TakeFailsOnEquality,
        Fault::FailureKeepsWrites,
        Fault::CellsBeforeForm,
        Fault::CoordinatorBeforeFinished,
        Fault::Depth17,
        Fault::Live65,
        Fault::BlockingNeverBlocks,
        Fault::BlockingSpeculatesOnce,
        Fault::BlockingWhenIdle,
        Fault::BlockingRefusesNew,
        Fault::Coordinator254,
        Fault::ReadWithAmount,
        Fault::FlagsUpTo7,
        Fault::DependenceBeforeNumber,
        Fault::FoundNotTold,
        Fault::FoundAfterwards,
        Fault::FoundAfterUndo,
        Fault::FoundTheAmount,
        Fault::FoundAmongOthers,
        Fault::ReleaseMissing,
        Fault::ReleaseWithoutDependence,
        Fault::ReleaseDependsOnTheFront,
        Fault::ReleaseAsksThoseBehind,
        Fault::ReleaseAsksTheFrontAlone,
        Fault::ReleaseStaysHeld,
        Fault::ReleaseAfterTheDrain,
        Fault::ReleaseAfterAFragment,
        Fault::AttemptNotRaised,
        Fault::AttemptTwoAfterAnAbort,
        Fault::AttemptOfTheWaitingRaised,
        Fault::AttemptOfTheFirstAlone,
        Fault::AttemptOfMultisAlone,
        Fault::AttemptOfTheSentAlone,
        Fault::AttemptRaisedByAFragment,
        Fault::AttemptRaisedByACommit,
        Fault::AttemptsNotMovedUp,
        Fault::AttemptCountsRuns,
        Fault::HeldWithoutAttempt,
        Fault::AttemptsSwapped,
        Fault::DependenceInItsOwnAttempt,
        Fault::DependenceInTheFrontsAttempt,
        Fault::DependenceWithoutAttempt,
        Fault::AttemptWithoutDependence,
        Fault::ReleaseInItsOwnAttempt,
        Fault::DecidedSettlesInItsPlace,
        Fault::DecidedGoesAhead,
        Fault::LateCommitGoesBehind,
        Fault::AbortUndoesTheFrontAlone,
        Fault::WaitingPassesTheFront,
        Fault::LeastRoom1023,
    ];

    /// Whether runs by this scheme alone can show it. What needs a speculated one is no error by blocking.
    pub fn shows_by(self, scheme: Scheme) -> bool {
        match self {
            Fault::None | Fault::ReleaseAfterAFragment | Fault::AttemptCountsRuns | Fault::LeastRoom1023 => false,
            Fault::SpeculateBehindUnfinishedFront
            | Fault::RequeueReversed
            | Fault::SingleAnsweredEarly
            | Fault::SinglesCountAsForeign
            | Fault::AnswerRepeated
            | Fault::Depth17
            | Fault::ReleaseMissing
            | Fault::ReleaseWithoutDependence
            | Fault::ReleaseDependsOnTheFront
            | Fault::ReleaseAsksThoseBehind
            | Fault::ReleaseAsksTheFrontAlone
            | Fault::ReleaseStaysHeld
            | Fault::ReleaseAfterTheDrain
            | Fault::AttemptNotRaised
            | Fault::AttemptTwoAfterAnAbort
            | Fault::AttemptOfTheFirstAlone
            | Fault::AttemptOfMultisAlone
            | Fault::AttemptOfTheSentAlone
            | Fault::AttemptRaisedByACommit
            | Fault::AttemptsNotMovedUp
            | Fault::HeldWithoutAttempt
            | Fault::DependenceInItsOwnAttempt
            | Fault::DependenceInTheFrontsAttempt
            | Fault::DependenceWithoutAttempt
            | Fault::ReleaseInItsOwnAttempt
            | Fault::DecidedSettlesInItsPlace
            | Fault::DecidedGoesAhead
            | Fault::LateCommitGoesBehind
            | Fault::AbortUndoesTheFrontAlone => scheme == Scheme::Speculation,
            Fault::BlockingNeverBlocks
            | Fault::BlockingSpeculatesOnce
            | Fault::BlockingWhenIdle
            | Fault::BlockingRefusesNew => scheme == Scheme::Blocking,
            Fault::UndoOldestFirst
            | Fault::AddWraps
            | Fault::TakeFailsOnEquality
            | Fault::FailureKeepsWrites
            | Fault::CellsBeforeForm
            | Fault::CoordinatorBeforeFinished
            | Fault::Live65
            | Fault::Coordinator254
            | Fault::ReadWithAmount
            | Fault::FlagsUpTo7
            | Fault::DependenceBeforeNumber
            | Fault::FoundNotTold
            | Fault::FoundAfterwards
            | Fault::FoundAfterUndo
            | Fault::FoundTheAmount
            | Fault::FoundAmongOthers
            | Fault::AttemptOfTheWaitingRaised
            | Fault::AttemptRaisedByAFragment
            | Fault::AttemptsSwapped
            | Fault::AttemptWithoutDependence
            | Fault::WaitingPassesTheFront => true,
        }
    }

    /// Whether the two schemes differ under it in more than the answers of multis and the attempts.
    pub fn parts_schemes(self) -> bool {
        matches!(
            self,
            Fault::UndoOldestFirst
                | Fault::SpeculateBehindUnfinishedFront
                | Fault::RequeueReversed
                | Fault::SingleAnsweredEarly
                | Fault::FailureKeepsWrites
                | Fault::BlockingWhenIdle
                | Fault::BlockingRefusesNew
                | Fault::DecidedSettlesInItsPlace
                | Fault::DecidedGoesAhead
                | Fault::LateCommitGoesBehind
                | Fault::AbortUndoesTheFrontAlone
        )
    }

    /// Whether two merges of the same transactions and decisions differ under it in more than the answers of multis and
    /// the attempts, or one of them has no end.
    pub fn parts_merges(self) -> bool {
        matches!(
            self,
            Fault::UndoOldestFirst
                | Fault::SpeculateBehindUnfinishedFront
                | Fault::RequeueReversed
                | Fault::SingleAnsweredEarly
                | Fault::FailureKeepsWrites
                | Fault::BlockingWhenIdle
                | Fault::DependenceBeforeNumber
                | Fault::DecidedSettlesInItsPlace
                | Fault::DecidedGoesAhead
                | Fault::LateCommitGoesBehind
                | Fault::AbortUndoesTheFrontAlone
                | Fault::WaitingPassesTheFront
        )
    }
}

#[derive(Clone, Debug)]
pub struct Engine {
    pub record: Record,
    pub fault: Fault,
}

impl Engine {
    /// The returned number and the engine; with a bad count of cells one that refuses everything.
    pub fn start(cells: u32) -> (u32, Engine) {
        let good = (1..=MOST_CELLS).contains(&cells);
        let record = Record {
            cells: if good { cells } else { 0 },
            largest: 0,
            uncommitted: VecDeque::new(),
            waiting: VecDeque::new(),
        };
        (if good { 0 } else { 3 }, Engine::of(record))
    }

    pub fn of(record: Record) -> Engine {
        Engine { record, fault: Fault::None }
    }

    /// By speculation.
    pub fn call(&mut self, cells: &mut [u32], event: &Event, room: usize) -> (u32, Vec<Answer>) {
        self.call_by(Scheme::Speculation, cells, event, room)
    }

    /// The returned number and the answers; `room` is how many numbers were lent for these.
    pub fn call_by(&mut self, scheme: Scheme, cells: &mut [u32], event: &Event, room: usize) -> (u32, Vec<Answer>) {
        let mut refused = self.refusal(cells, event, room);
        if refused == 0 && self.turns_away(scheme, event) {
            refused = 10;
        }
        let mut answers = Vec::new();
        if refused == 0 {
            match (event.kind, self.early(event)) {
                (_, Some(at)) => self.decide_early(at, event.kind, cells, &mut answers),
                (FRAGMENT, _) => self.arrive(event.fragment, cells, &mut answers),
                (COMMIT, _) => self.commit(cells, &mut answers),
                _ => self.abort(cells, &mut answers),
            }
            let late = self.fault == Fault::ReleaseAfterTheDrain;
            let releases = self.releases_after(event.kind);
            if releases && !late {
                self.release(&mut answers);
            }
            self.drain(scheme, cells, &mut answers);
            if releases && late {
                self.release(&mut answers);
            }
        }
        answers.iter_mut().for_each(|answer| self.misname(answer));
        (refused, answers)
    }

    /// Does nothing. A wrong engine names other transactions or attempts.
    fn misname(&self, Answer { number, attempt, dependence, .. }: &mut Answer) {
        let front = self.record.uncommitted.front().map_or(0, |front| front.attempt);
        match (self.fault, dependence.number != 0) {
            (Fault::DependenceBeforeNumber, _) => swap(number, &mut dependence.number),
            (Fault::AttemptsSwapped, _) => swap(attempt, &mut dependence.attempt),
            (Fault::DependenceInItsOwnAttempt, true) => dependence.attempt = *attempt,
            (Fault::DependenceInTheFrontsAttempt, true) => dependence.attempt = front,
            (Fault::DependenceWithoutAttempt, true) => dependence.attempt = 0,
            (Fault::AttemptWithoutDependence, false) => dependence.attempt = *attempt,
            _ => {}
        }
    }

    /// Never: the refusals are the same by both schemes. A wrong engine blocks at the door too.
    fn turns_away(&self, scheme: Scheme, event: &Event) -> bool {
        let new = event.kind == FRAGMENT && event.fragment.number > self.record.largest;
        let blocks = self.fault == Fault::BlockingRefusesNew && scheme == Scheme::Blocking;
        blocks && new && !self.record.uncommitted.is_empty()
    }

    fn refusal(&self, cells: &[u32], event: &Event, room: usize) -> u32 {
        let record = &self.record;
        let number = event.fragment.number;
        let front = record.uncommitted.front().filter(|front| front.first.number == number);
        let live = record.live().any(|stored| stored.number == number);
        let outside = event.kind == FRAGMENT && !event.fragment.inside(record.cells);

        // What a faulty engine leaves may be unsound; it shall go on and show its error.
        if self.fault == Fault::None && !record.sound() {
            1
        } else if room < self.least_room() {
            2
        } else if cells.is_empty() || cells.len() != record.cells as usize {
            3
        } else if self.fault == Fault::CellsBeforeForm && outside {
            5
        } else if !self.well_formed(event) {
            4
        } else if outside {
            5
        } else if !live && number <= record.largest {
            6
        } else if live && front.is_none() {
            if self.early(event).is_some() {
                0
            } else {
                7
            }
        } else if event.kind == FRAGMENT {
            self.fragment_refusal(front, &event.fragment)
        } else {
            match front.map(|front| front.state) {
                None => 12,
                Some(State::Running) if event.kind == COMMIT => 13,
                Some(State::Failed) if event.kind == COMMIT => 14,
                Some(_) => 0,
            }
        }
    }

    /// What refusal 4 lets pass. A wrong engine refuses more, or puts an event right before it asks.
    fn well_formed(&self, event: &Event) -> bool {
        let righted = |right: fn(&mut Fragment)| {
            let mut event = *event;
            right(&mut event.fragment);
            event.well_formed()
        };
        match self.fault {
            Fault::Coordinator254 => event.well_formed() && event.fragment.coordinator < 255,
            Fault::ReadWithAmount => righted(|fragment| {
                fragment.operations.iter_mut().filter(|o| o.code == READ).for_each(|o| o.amount = 0);
            }),
            Fault::FlagsUpTo7 if event.kind == FRAGMENT && event.fragment.flags <= 7 => {
                righted(|fragment| fragment.flags &= MULTI | LAST)
            }
            _ => event.well_formed(),
        }
    }

    /// Refusals 8 to 11: a fragment for the front, or a new number where `front` is nothing.
    fn fragment_refusal(&self, front: Option<&Uncommitted>, fragment: &Fragment) -> u32 {
        let Some(front) = front else {
            return if self.record.live().count() >= self.most_live() { 10 } else { 0 };
        };
        let foreign = !fragment.is_multi() || fragment.coordinator != front.first.coordinator;
        if self.fault == Fault::CoordinatorBeforeFinished && foreign {
            9
        } else if front.state != State::Running {
            8
        } else if foreign {
            9
        } else if front.fragments_run >= MOST_FRAGMENTS {
            11
        } else {
            0
        }
    }

    fn arrive(&mut self, fragment: Fragment, cells: &mut [u32], answers: &mut Vec<Answer>) {
        let fault = self.fault;
        let later = self.record.uncommitted.front().is_some_and(|front| front.first.number == fragment.number);
        if later && fault == Fault::WaitingPassesTheFront {
            self.pass(cells, answers);
        }
        match self.record.uncommitted.front_mut().filter(|_| later) {
            Some(front) => {
                let outcome = run(front, &fragment, cells, fault);
                front.attempt += u32::from(fault == Fault::AttemptRaisedByAFragment);
                let (number, attempt) = (fragment.number, front.attempt);
                answers.push(Answer { number, attempt, dependence: Dependence::default(), outcome });
            }
            None => {
                let attempt = u32::from(fault != Fault::AttemptCountsRuns);
                self.record.largest = fragment.number;
                self.record.waiting.push_back(Waiting { first: fragment, attempt });
            }
        }
    }

    /// A wrong engine's: the single that waits first runs as if nothing were uncommitted.
    fn pass(&mut self, cells: &mut [u32], answers: &mut Vec<Answer>) {
        let waiting = &mut self.record.waiting;
        if waiting.front().is_some_and(|next| !next.first.is_multi()) {
            answers.extend(waiting.pop_front().map(|next| run_alone(next, cells, self.fault)));
        }
    }

    fn commit(&mut self, cells: &mut [u32], answers: &mut Vec<Answer>) {
        let uncommitted = &mut self.record.uncommitted;
        let ran = uncommitted.iter().skip(1).take_while(|one| !one.first.is_multi()).count();
        // What more fragments than the first did is not kept, and cannot be run once more.
        if self.fault != Fault::LateCommitGoesBehind || ran == 0 || uncommitted[0].fragments_run > 1 {
            return self.settle(answers);
        }
        self.undo_all(cells);
        self.requeue();
        let late = self.record.waiting.pop_front();
        let singles: Vec<Waiting> = self.record.waiting.drain(..ran).collect();
        answers.extend(singles.into_iter().map(|next| run_alone(next, cells, self.fault)));
        late.map(|late| run_alone(late, cells, self.fault));
    }

    /// The place of a multi behind the front whose decision is taken all the same: never. A wrong engine does.
    fn early(&self, event: &Event) -> Option<usize> {
        let takes = match self.fault {
            Fault::DecidedSettlesInItsPlace => true,
            Fault::DecidedGoesAhead => self.record.uncommitted.front().is_some_and(|front| front.fragments_run == 1),
            _ => false,
        };
        if !takes || event.kind == FRAGMENT {
            return None;
        }
        let of_event = |one: &Uncommitted| one.first.number == event.fragment.number && one.first.is_multi();
        let at = self.record.uncommitted.iter().position(of_event).filter(|&at| at > 0)?;
        (event.kind == ABORT || self.record.uncommitted[at].state == State::Finished).then_some(at)
    }

    fn decide_early(&mut self, at: usize, kind: u32, cells: &mut [u32], answers: &mut Vec<Answer>) {
        if self.fault == Fault::DecidedGoesAhead {
            self.undo_all(cells);
            self.requeue();
            let decided = self.record.waiting.remove(at).filter(|_| kind == COMMIT);
            decided.map(|decided| run_alone(decided, cells, self.fault));
            return;
        }
        let ahead: VecDeque<Uncommitted> = self.record.uncommitted.drain(..at).collect();
        if kind == ABORT {
            self.undo_all(cells);
            self.record.uncommitted.pop_front();
            self.requeue();
        } else if let Some(Uncommitted { first, attempt, held: Some(outcome), .. }) =
            self.record.uncommitted.pop_front()
        {
            answers.push(Answer { number: first.number, attempt, dependence: Dependence::default(), outcome });
        }
        let behind = std::mem::replace(&mut self.record.uncommitted, ahead);
        self.record.uncommitted.extend(behind);
    }

    /// The front settles, then the singles behind it; the next multi is the new front.
    fn settle(&mut self, answers: &mut Vec<Answer>) {
        let fault = self.fault;
        let attempts: Vec<u32> = match fault {
            Fault::AttemptsNotMovedUp => self.record.attempts().collect(),
            _ => vec![],
        };
        let uncommitted = &mut self.record.uncommitted;
        uncommitted.pop_front();
        while let Some(next) = uncommitted.front_mut() {
            let is_front = next.first.is_multi();
            if let Some(outcome) = next.held.take() {
                let (number, attempt) = (next.first.number, was_held(next.attempt, fault));
                answers.push(Answer { number, attempt, dependence: Dependence::default(), outcome });
            }
            if is_front {
                break;
            }
            uncommitted.pop_front();
        }
        if fault == Fault::AttemptRaisedByACommit {
            uncommitted.iter_mut().for_each(|one| one.attempt += 1);
        }
        self.record.attempts_mut().zip(attempts).for_each(|(attempt, stays)| *attempt = stays);
    }

    /// After each commit and no other event.
    fn releases_after(&self, kind: u32) -> bool {
        match self.fault {
            Fault::ReleaseMissing => false,
            Fault::ReleaseAfterAFragment => kind == COMMIT || kind == FRAGMENT,
            _ => kind == COMMIT,
        }
    }

    /// Looks at the held answers behind the front in queue order: a multi is answered where the multis ahead of it and
    /// itself have one coordinator, whoever is behind it.
    fn release(&mut self, answers: &mut Vec<Answer>) {
        for at in 1..self.record.uncommitted.len() {
            let one = &self.record.uncommitted[at];
            let first = one.first;
            let Some(dependence) = self.released(at, &first) else { continue };
            let Some(outcome) = one.held.clone() else { continue };
            let attempt = was_held(one.attempt, self.fault);
            answers.push(Answer { number: first.number, attempt, dependence, outcome });
            if self.fault != Fault::ReleaseStaysHeld {
                self.record.uncommitted[at].held = None;
            }
        }
    }

    /// The dependence with which the one at a place is released, or nothing.
    fn released(&self, at: usize, first: &Fragment) -> Option<Dependence> {
        let front = &self.record.uncommitted[0];
        let of_front = first.is_multi() && first.coordinator == front.first.coordinator;
        let right = self.dependence(at, first);
        match self.fault {
            Fault::ReleaseAsksTheFrontAlone => of_front.then(|| self.nearest(at)).flatten(),
            Fault::ReleaseAsksThoseBehind if !self.one_coordinator(self.record.uncommitted.len(), first) => None,
            Fault::ReleaseWithoutDependence => right.map(|_| Dependence::default()),
            Fault::ReleaseDependsOnTheFront => right.map(|_| front.named()),
            Fault::ReleaseInItsOwnAttempt => {
                right.map(|named| Dependence { attempt: self.record.uncommitted[at].attempt, ..named })
            }
            _ => right,
        }
    }

    fn abort(&mut self, cells: &mut [u32], answers: &mut Vec<Answer>) {
        if self.fault == Fault::AbortUndoesTheFrontAlone {
            self.record.uncommitted.iter_mut().take(1).for_each(|front| undo(front, cells, self.fault));
            return self.settle(answers);
        }
        self.undo_all(cells);
        self.record.uncommitted.pop_front();
        self.requeue();
    }

    /// From the tail to the front.
    fn undo_all(&mut self, cells: &mut [u32]) {
        self.record.uncommitted.iter_mut().rev().for_each(|one| undo(one, cells, self.fault));
    }

    /// All uncommitted ones return to the head of the waiting queue in their old order, each for one more attempt.
    fn requeue(&mut self) {
        let fault = self.fault;
        let Record { uncommitted, waiting, .. } = &mut self.record;
        if fault == Fault::AttemptOfTheWaitingRaised {
            waiting.iter_mut().for_each(|one| one.attempt += 1);
        }
        let reversed = fault == Fault::RequeueReversed;
        while let Some(one) = if reversed { uncommitted.pop_front() } else { uncommitted.pop_back() } {
            let attempt = next_attempt(&one, uncommitted.is_empty(), fault);
            waiting.push_front(Waiting { first: one.first, attempt });
        }
    }

    fn drain(&mut self, scheme: Scheme, cells: &mut [u32], answers: &mut Vec<Answer>) {
        while self.may_run_next(scheme) {
            let Some(Waiting { first, attempt }) = self.record.waiting.pop_front() else { break };
            let attempt = attempt + u32::from(self.fault == Fault::AttemptCountsRuns);
            let alone = self.record.uncommitted.is_empty();
            let ahead = self.record.uncommitted.len();
            let dependence = if alone { Some(Dependence::default()) } else { self.dependence(ahead, &first) };
            let mut one =
                Uncommitted { first, attempt, fragments_run: 0, state: State::Running, held: None, undo: Vec::new() };
            let outcome = run(&mut one, &first, cells, self.fault);
            if let Some(dependence) = dependence {
                answers.push(Answer { number: first.number, attempt, dependence, outcome: outcome.clone() });
            }
            let repeats = self.fault == Fault::AnswerRepeated && first.is_multi() && !alone;
            if dependence.is_none() || repeats {
                one.held = Some(outcome);
            }
            // A single alone settles at once.
            if first.is_multi() || !alone {
                self.record.uncommitted.push_back(one);
            }
        }
    }

    fn may_run_next(&self, scheme: Scheme) -> bool {
        let uncommitted = &self.record.uncommitted;
        let careless = self.fault == Fault::SpeculateBehindUnfinishedFront && uncommitted.len() == 1;
        !self.blocks(scheme)
            && match uncommitted.back() {
                None => true,
                Some(tail) => uncommitted.len() < self.depth() && (tail.state != State::Running || careless),
            }
    }

    /// The schemes differ here and nowhere else.
    fn blocks(&self, scheme: Scheme) -> bool {
        let count = self.record.uncommitted.len();
        scheme == Scheme::Blocking
            && match self.fault {
                Fault::BlockingNeverBlocks => false,
                Fault::BlockingSpeculatesOnce => count > 1,
                Fault::BlockingWhenIdle => true,
                _ => count > 0,
            }
    }

    /// What the answer of one with so many uncommitted ones ahead of it depends on, or nothing if it is held.
    fn dependence(&self, ahead: usize, one: &Fragment) -> Option<Dependence> {
        if !one.is_multi() {
            return (self.fault == Fault::SingleAnsweredEarly).then(Dependence::default);
        }
        self.nearest(ahead).filter(|_| self.one_coordinator(ahead, one))
    }

    /// Whether the multis among the first so many uncommitted ones have this one's coordinator. Singles do not count.
    fn one_coordinator(&self, many: usize, one: &Fragment) -> bool {
        let singles_count = self.fault == Fault::SinglesCountAsForeign;
        let asked = self.record.uncommitted.iter().take(many).map(|other| &other.first);
        asked.filter(|first| first.is_multi() || singles_count).all(|first| first.coordinator == one.coordinator)
    }

    /// The last multi among the first so many uncommitted ones.
    fn nearest(&self, many: usize) -> Option<Dependence> {
        let ahead = self.record.uncommitted.iter().take(many);
        ahead.rev().find(|other| other.first.is_multi()).map(Uncommitted::named)
    }

    fn depth(&self) -> usize {
        DEPTH + usize::from(self.fault == Fault::Depth17)
    }

    fn least_room(&self) -> usize {
        ROOM - usize::from(self.fault == Fault::LeastRoom1023)
    }

    fn most_live(&self) -> usize {
        MOST_LIVE + usize::from(self.fault == Fault::Live65)
    }
}

/// Runs one that waits and lets it settle: the answer that it gives.
fn run_alone(Waiting { first, attempt }: Waiting, cells: &mut [u32], fault: Fault) -> Answer {
    let mut one = Uncommitted { first, attempt, fragments_run: 0, state: State::Running, held: None, undo: Vec::new() };
    let outcome = run(&mut one, &first, cells, fault);
    Answer { number: first.number, attempt, dependence: Dependence::default(), outcome }
}

/// What the attempt of an undone one becomes: one more. `first` is whether it is the first that returns.
fn next_attempt(one: &Uncommitted, first: bool, fault: Fault) -> u32 {
    match fault {
        // Its next run will count itself.
        Fault::AttemptNotRaised | Fault::AttemptCountsRuns => one.attempt,
        Fault::AttemptTwoAfterAnAbort => 2,
        Fault::AttemptOfTheFirstAlone if !first => one.attempt,
        Fault::AttemptOfMultisAlone if !one.first.is_multi() => one.attempt,
        Fault::AttemptOfTheSentAlone if one.held.is_some() => one.attempt,
        _ => one.attempt + 1,
    }
}

/// The attempt that is sent with an answer which was held: its transaction's.
fn was_held(attempt: u32, fault: Fault) -> u32 {
    match fault {
        Fault::HeldWithoutAttempt => 0,
        _ => attempt,
    }
}

/// Runs one fragment of a transaction; if it fails, everything the transaction changed is taken back at once, and what
/// is told is the content that the failing operation found, with those changes in it.
fn run(one: &mut Uncommitted, fragment: &Fragment, cells: &mut [u32], fault: Fault) -> Outcome {
    let earlier = one.undo.len();
    let mut numbers = Vec::new();
    one.fragments_run += 1;
    for (place, operation) in (1..).zip(fragment.used()) {
        let content = &mut cells[operation.cell as usize];
        let Some(after) = apply(operation, *content, fault) else {
            let found = *content;
            if fault == Fault::FailureKeepsWrites {
                one.undo.truncate(earlier);
            }
            undo(one, cells, fault);
            one.state = State::Failed;
            let put_back = cells[operation.cell as usize];
            return Outcome { place, numbers: told(operation, found, put_back, numbers, fault) };
        };
        if operation.writes() {
            one.undo.push((operation.cell, *content));
            *content = after;
        }
        numbers.push(after);
    }
    if fragment.is_last() {
        one.state = State::Finished;
    }
    Outcome { place: 0, numbers }
}

/// The number found. A wrong engine tells another one, none, or more.
fn told(operation: &Operation, found: u32, put_back: u32, mut before: Vec<u32>, fault: Fault) -> Vec<u32> {
    match (fault, operation.code) {
        (Fault::FoundNotTold, _) => vec![],
        (Fault::FoundAfterwards, ADD) => vec![found.wrapping_add(operation.amount)],
        (Fault::FoundAfterwards, TAKE) => vec![found.wrapping_sub(operation.amount)],
        (Fault::FoundAfterUndo, _) => vec![put_back],
        (Fault::FoundTheAmount, _) => vec![operation.amount],
        (Fault::FoundAmongOthers, _) => {
            before.push(found);
            before
        }
        _ => vec![found],
    }
}

fn apply(operation: &Operation, content: u32, fault: Fault) -> Option<u32> {
    match (fault, operation.code) {
        (Fault::AddWraps, ADD) => Some(content.wrapping_add(operation.amount)),
        (Fault::TakeFailsOnEquality, TAKE) if content == operation.amount => None,
        _ => operation.apply(content),
    }
}

/// Walks a transaction's entries from the newest to the oldest and drops them.
fn undo(one: &mut Uncommitted, cells: &mut [u32], fault: Fault) {
    let mut entries = std::mem::take(&mut one.undo);
    if fault == Fault::UndoOldestFirst {
        entries.reverse();
    }
    for (cell, old) in entries.into_iter().rev() {
        cells[cell as usize] = old;
    }
}
