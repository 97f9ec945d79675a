//! Wrong engines in place of the archive: each commits one error, and a soak that does not notice it is worth nothing.

use crate::arena::Areas;
use crate::clauses::{broken, Clause};
use crate::listed::listed;
use crate::subject::Subject;
use crate::view::*;
use independent::engine::{State, ANSWER_WORDS, MOST_LIVE, ROOM};
use independent::event::{Event, ABORT, COMMIT, EVENT_WORDS, FRAGMENT};
use independent::layout::{self, Words, LIVE_WORDS, RUNS, RUN_WORDS, UNDO, WORDS};
use independent::{Engine, Fault, Record, Scheme};
use std::hint::black_box;
use std::slice;

listed! {
    /// Errors at the boundary, in what is lent, and with records that no run leaves.
    Slip {
        RoomTouchedOnRefusal,
        RoomTouchedAtItsEnd,
        WordBehindAnswers,
        WordBehindRoom,
        WordBehindCells,
        WordBehindRecord,
        WordBeforeCells,
        WordFarBehindRoom,
        WordFarBehindCells,
        /// Seen by a checker of memory alone.
        ReadBehindEvent,
        CellsTouchedOnRefusal,
        RecordTouchedOnRefusal,
        RecordTidiedOnRefusal,
        EventWritten,
        OneAnswerOnRefusal,
        AnswersLeftOnRefusal,
        OneAnswerMore,
        LongEvent,
        ShortEvent,
        NoEvent,
        LengthBeforeRecord,
        LengthBeforeRoom,
        LengthBeforeCells,
        Room1023,
        Room1025,
        RoomRounded,
        RoomAfterCells,
        RoomBeforeRecord,
        MoreCellsLent,
        FewerCellsLent,
        CellsAfterForm,
        GarbageKept,
        GarbageInAnswers,
        /// Keeps the held words of answers that were sent before, where their runs stay in their places.
        SentWordsKept,
        /// Clears every unused place, also where no row came.
        AllCleared,
        LiveCleared,
        RunsCleared,
        EntriesCleared,
        /// Clears one place more than was reached.
        OneLiveMoreCleared,
        OneRunMoreCleared,
        OneEntryMoreCleared,
        /// Leaves the place of an arriving single that settles as it came.
        ArrivedPlaceKept,
        /// The same, but not where nothing is live before it.
        ArrivedPlaceKeptOverWaiting,
        /// Leaves the single's words there.
        ArrivedWordsLeft,
        /// Leaves what a commit dropped at the row's end.
        CommitLeavesLive,
        CommitLeavesRuns,
        CommitLeavesEntries,
        /// Leaves what an abort dropped.
        AbortLeavesLive,
        AbortLeavesRuns,
        AbortLeavesEntries,
        /// Leaves the entries that a failed fragment of the front dropped.
        FailureLeavesEntries,
        HeldNumbersForgotten,
        StateOfLastFlag,
        FailedOwnsNothing,
        EmptyWithWaitingUnsound,
        LargestTopUnsound,
        /// Asks that no attempt is above 64, whoever is ahead.
        AheadNotCounted,
        /// Counts the uncommitted ones ahead alone.
        AheadUncommittedAlone,
        /// Asks the attempts of uncommitted ones alone.
        WaitingAttemptsUnasked,
        /// Lets attempt plus those ahead be 63 at most.
        AttemptAndAhead63,
        /// Asks that attempts do not rise along the queue, as no run lets them.
        AttemptsRisingUnsound,
        /// Leaves every attempt 1 after an abort, though it answers right.
        AttemptsResetByAnAbort,
        /// Keeps what stands in the attempts behind the live ones.
        AttemptGarbageKept,
        /// Sends no attempt with the answer to a later fragment of the front.
        LaterAnswerWithoutAttempt,
        StartKeepsRecord,
        StartKeepsBadCount,
        StartOf4097,
        StartOfNone,
        StartNumber,
        SchemesSwapped,
        /// Blocking speculates on until nothing is speculated any longer.
        LateChangeover,
    }
}

#[derive(Clone, Copy, Debug, PartialEq, Eq)]
pub enum Wrong {
    /// Not wrong: sound by the list of clauses and not by the independent engine. The two must not be told apart.
    ByClauses,
    Fault(Fault),
    /// Goes on with a record that breaks this clause and no other.
    Unchecked(Clause),
    Slip(Slip),
}

impl Wrong {
    /// By the name of its fault, clause or slip.
    pub fn named(name: &str) -> Result<Wrong, String> {
        let all = Wrong::all().into_iter().chain([Wrong::ByClauses, Wrong::Slip(Slip::ReadBehindEvent)]);
        let called = |wrong: &Wrong| match wrong {
            Wrong::ByClauses => "ByClauses" == name,
            Wrong::Fault(fault) => format!("{fault:?}") == name,
            Wrong::Unchecked(clause) => format!("{clause:?}") == name,
            Wrong::Slip(slip) => format!("{slip:?}") == name,
        };
        all.into_iter().find(called).ok_or(format!("{name} is no wrong engine; --self-check names them"))
    }

    /// All that must be noticed.
    pub fn all() -> Vec<Wrong> {
        let faults = Fault::ALL.into_iter().map(Wrong::Fault);
        let clauses = Clause::ALL.iter().filter(|clause| !clause.implied()).map(|&clause| Wrong::Unchecked(clause));
        let slips = Slip::ALL.iter().filter(|&&slip| slip != Slip::ReadBehindEvent).map(|&slip| Wrong::Slip(slip));
        faults.chain(clauses).chain(slips).collect()
    }

    /// All that a twin must notice.
    pub fn parting() -> Vec<Wrong> {
        Fault::ALL.into_iter().filter(|fault| fault.parts_schemes()).map(Wrong::Fault).collect()
    }

    /// All that two merges must notice.
    pub fn merging() -> Vec<Wrong> {
        Fault::ALL.into_iter().filter(|fault| fault.parts_merges()).map(Wrong::Fault).collect()
    }
}

/// What a call was lent, as slices, and its scheme.
struct Call<'a> {
    scheme: Scheme,
    record: &'a mut Words,
    cells: &'a mut [u32],
    event: &'a [u32],
    room: &'a mut [u32],
}

impl Call<'_> {
    fn right(&mut self) -> (u32, u32) {
        layout::call_in_place(self.scheme, self.record, self.cells, self.event, self.room)
    }

    fn by(&mut self, scheme: Scheme) -> (u32, u32) {
        self.scheme = scheme;
        self.right()
    }

    /// By an engine of a sound record, changed or with a fault.
    fn with(&mut self, change: impl FnOnce(&mut Engine)) -> (u32, u32) {
        match layout::read(self.record).filter(Record::sound) {
            None => (1, 0),
            Some(record) => {
                let mut engine = Engine::of(record);
                change(&mut engine);
                layout::call_on(self.scheme, &mut engine, self.record, self.cells, self.event, self.room)
            }
        }
    }

    fn unchecked(&mut self, clause: Clause) -> (u32, u32) {
        self.goes_on(broken(self.record).only(clause))
    }

    /// Goes on with an unsound record.
    fn goes_on(&mut self, when: bool) -> (u32, u32) {
        match when {
            true if self.room.len() < ROOM => (2, 0),
            true => (0, 0),
            false => self.right(),
        }
    }

    /// Goes on with a record that is unsound by nothing but attempts that pass, by their row and with so many uncommitted.
    fn lets_attempts_pass(&mut self, passes: impl Fn(usize, usize, u32) -> bool) -> (u32, u32) {
        let mut passed = *self.record;
        let view = View(self.record);
        for row in (0..view.live()).filter(|&row| passes(row, view.uncommitted(), view.stored(row, ATTEMPT))) {
            passed[live_at(row, ATTEMPT)] = 1;
        }
        self.goes_on(broken(self.record).any() && !broken(&passed).any())
    }

    /// Whether the attempts of a row and of the one behind it are so.
    fn attempts_are(&self, so: impl Fn(usize, u32, u32) -> bool) -> bool {
        let view = View(self.record);
        (0..view.live()).any(|row| {
            let next = if row + 1 < view.live() { view.stored(row + 1, ATTEMPT) } else { 0 };
            so(row, view.stored(row, ATTEMPT), next)
        })
    }

    fn by_clauses(&mut self) -> (u32, u32) {
        let unsound = broken(self.record).any();
        match self.right() {
            // A number of its own where the two do not agree.
            (number, _) if unsound != (number == 1) => (99, 0),
            done => done,
        }
    }

    fn refuses(&mut self, when: bool, number: u32) -> (u32, u32) {
        if when {
            (number, 0)
        } else {
            self.right()
        }
    }

    fn sound(&self) -> bool {
        layout::read(self.record).is_some_and(|record| record.sound())
    }
}

impl Subject for Wrong {
    unsafe fn start(&mut self, record: *mut u32, cells: u32) -> u32 {
        let record: &mut Words = &mut *record.cast();
        let old = *record;
        let (number, started) = layout::start(cells);
        *record = started;
        match self {
            Wrong::Slip(Slip::StartKeepsRecord) => record[4..].copy_from_slice(&old[4..]),
            Wrong::Slip(Slip::StartKeepsBadCount) => record[CELLS] = cells,
            Wrong::Slip(Slip::StartOf4097) if cells == 4097 => return 0,
            Wrong::Slip(Slip::StartOfNone) if cells == 0 => return 0,
            Wrong::Slip(Slip::StartNumber) if number != 0 => return 2,
            _ => {}
        }
        number
    }

    unsafe fn call(&mut self, scheme: Scheme, areas: Areas) -> u32 {
        let lent = areas.lent;
        let mut call = Call {
            scheme,
            record: &mut *areas.record.cast(),
            cells: slice::from_raw_parts_mut(areas.cells, lent.cells),
            event: slice::from_raw_parts(areas.event, lent.event),
            room: slice::from_raw_parts_mut(areas.room, lent.room),
        };
        let (number, answers) = match *self {
            Wrong::ByClauses => call.by_clauses(),
            Wrong::Fault(fault) => call.with(|engine| engine.fault = fault),
            Wrong::Unchecked(clause) => call.unchecked(clause),
            Wrong::Slip(slip) => slip.call(&mut call, areas),
        };
        *areas.answers = match *self {
            Wrong::Slip(Slip::OneAnswerOnRefusal) if number != 0 => 1,
            Wrong::Slip(Slip::AnswersLeftOnRefusal) if number != 0 => return number,
            Wrong::Slip(Slip::OneAnswerMore) if number == 0 => answers + 1,
            _ => answers,
        };
        number
    }
}

impl Slip {
    /// # Safety
    /// The guards around the areas are there.
    unsafe fn call(self, call: &mut Call, areas: Areas) -> (u32, u32) {
        let before = *call.record;
        let (number, answers) = self.refuse_or_act(call);
        match self {
            _ if number == 0 => self.after_acceptance(call, areas, &before, answers),
            _ => self.after_refusal(call, areas, number),
        }
        (number, answers)
    }

    /// Errors in the numbers and the steps.
    fn refuse_or_act(self, call: &mut Call) -> (u32, u32) {
        let (cells, event, room) = (call.cells.len(), call.event.len(), call.room.len());
        let said = call.record[CELLS] as usize;
        let bad_length = event != EVENT_WORDS;
        match self {
            Slip::LongEvent if event > EVENT_WORDS => {
                let first = &call.event[..EVENT_WORDS];
                layout::call_in_place(call.scheme, call.record, call.cells, first, call.room)
            }
            Slip::ShortEvent if event == EVENT_WORDS - 1 => {
                let mut longer = [0; EVENT_WORDS];
                longer[..event].copy_from_slice(call.event);
                layout::call_in_place(call.scheme, call.record, call.cells, &longer, call.room)
            }
            Slip::NoEvent if event == 0 => {
                let (number, answers) = call.right();
                (if number == 4 { 0 } else { number }, answers)
            }
            Slip::LengthBeforeRecord => call.refuses(bad_length, 4),
            Slip::LengthBeforeRoom => call.refuses(bad_length && call.sound(), 4),
            Slip::LengthBeforeCells => call.refuses(bad_length && call.sound() && room >= ROOM, 4),
            Slip::Room1023 if room == ROOM - 1 => {
                let mut larger = [0; ROOM];
                layout::call_in_place(call.scheme, call.record, call.cells, call.event, &mut larger)
            }
            Slip::Room1025 => call.refuses(call.sound() && room == ROOM, 2),
            Slip::RoomRounded => call.refuses(call.sound() && room % ANSWER_WORDS != 0, 2),
            Slip::RoomAfterCells => call.refuses(call.sound() && (cells == 0 || cells != said), 3),
            Slip::RoomBeforeRecord => call.refuses(room < ROOM, 2),
            Slip::MoreCellsLent if cells > said && said > 0 => {
                layout::call_in_place(call.scheme, call.record, &mut call.cells[..said], call.event, call.room)
            }
            Slip::FewerCellsLent if cells > 0 && cells < said && call.sound() && room >= ROOM => (4, 0),
            Slip::CellsAfterForm => {
                let formed = !bad_length && Event::read(call.event).well_formed();
                call.refuses(call.sound() && room >= ROOM && !formed, 4)
            }
            Slip::HeldNumbersForgotten => call.with(|engine| {
                let held = engine.record.uncommitted.iter_mut().filter_map(|one| one.held.as_mut());
                held.filter(|held| held.place != 0).for_each(|held| held.numbers.clear());
            }),
            Slip::StateOfLastFlag => call.with(|engine| {
                let finished = engine.record.uncommitted.iter_mut().filter(|one| one.state == State::Running);
                finished.filter(|one| one.first.is_last()).for_each(|one| one.state = State::Finished);
            }),
            Slip::FailedOwnsNothing => call.with(|engine| {
                let failed = engine.record.uncommitted.iter_mut().filter(|one| one.state == State::Failed);
                failed.for_each(|one| one.undo.clear());
            }),
            Slip::EmptyWithWaitingUnsound => call.refuses(call.record[UNCOMMITTED] == 0 && call.record[WAITING] > 0, 1),
            Slip::LargestTopUnsound => call.refuses(call.record[1] == u32::MAX, 1),
            Slip::AheadNotCounted => call.lets_attempts_pass(|_, _, attempt| (1..=64).contains(&attempt)),
            Slip::AheadUncommittedAlone => call.lets_attempts_pass(|row, uncommitted, attempt| {
                (1..=64 - uncommitted.min(row) as u32).contains(&attempt)
            }),
            Slip::WaitingAttemptsUnasked => call.lets_attempts_pass(|row, uncommitted, _| row >= uncommitted),
            Slip::AttemptAndAhead63 => {
                call.refuses(call.attempts_are(|row, attempt, _| attempt == View::most_attempt(row)), 1)
            }
            Slip::AttemptsRisingUnsound => call.refuses(call.attempts_are(|_, attempt, next| next > attempt), 1),
            Slip::SchemesSwapped => call.by(call.scheme.other()),
            Slip::LateChangeover if call.record[UNCOMMITTED] > 1 => call.by(Scheme::Speculation),
            _ => call.right(),
        }
    }

    unsafe fn after_acceptance(self, call: &mut Call, areas: Areas, before: &Words, answers: u32) {
        let filled = ANSWER_WORDS * answers as usize;
        match self {
            Slip::WordBehindAnswers if filled < call.room.len() => call.room[filled] = 0,
            Slip::WordBehindRoom => *areas.room.add(areas.lent.room) ^= 1,
            Slip::WordBehindCells => *areas.cells.add(areas.lent.cells) = 0,
            Slip::WordBehindRecord => *areas.record.add(WORDS) = 0,
            Slip::WordBeforeCells => *areas.cells.sub(1) = 0,
            Slip::WordFarBehindRoom if areas.lent.room == ROOM => *areas.room.add(ROOM + 999) ^= 1,
            Slip::WordFarBehindCells if areas.lent.cells < 4000 => *areas.cells.add(areas.lent.cells + 99) ^= 1,
            Slip::ReadBehindEvent => drop(black_box(*areas.event.add(areas.lent.event))),
            Slip::EventWritten => *areas.event ^= 4,
            // The two last words of each run row are never used.
            Slip::GarbageKept => {
                for row in (RUNS..UNDO).step_by(RUN_WORDS) {
                    call.record[row + 14..row + 16].copy_from_slice(&before[row + 14..row + 16]);
                }
            }
            Slip::AttemptsResetByAnAbort if call.event[0] == ABORT => {
                (0..View(call.record).live()).for_each(|row| call.record[live_at(row, ATTEMPT)] = 1);
            }
            Slip::AttemptGarbageKept => {
                for row in View(call.record).live()..MOST_LIVE {
                    call.record[live_at(row, ATTEMPT)] = before[live_at(row, ATTEMPT)];
                }
            }
            Slip::LaterAnswerWithoutAttempt if before[UNCOMMITTED] > 0 && answers > 0 => {
                let of_front = before[live_at(0, NUMBER)] == call.room[0];
                call.room[ANSWER_ATTEMPT] *= u32::from(!of_front);
            }
            Slip::GarbageInAnswers if answers > 0 => call.room[filled - 1] = before[RUNS + RUN_WORDS - 1],
            // An engine that takes other lengths is wrong by that.
            _ if call.event.len() == EVENT_WORDS => self.in_unused_places(call, before),
            _ => {}
        }
    }

    /// Errors in what becomes of unused places.
    fn in_unused_places(self, call: &mut Call, before: &Words) {
        let (was, is) = (View(before), View(call.record));
        let arrives = call.event[0] == FRAGMENT && call.event[1] > was.largest();
        let settles = arrives && !is.is_live(call.event[1]);
        let [live, runs, entries] = [is.live(), is.uncommitted(), is.entries()];
        let [old_live, old_runs, old_entries] = [was.live(), was.uncommitted(), was.entries()];
        // Of each row: the words in use after the call, and those that were reached.
        let of_live = (live_at(live, 0), live_at(live.max(old_live + usize::from(arrives)), 0));
        let of_runs = (run_at(runs, 0), run_at(runs.max(old_runs), 0));
        let of_entries = (undo_at(entries, 0), undo_at(entries.max(old_entries), 0));
        let arrived = live_at(old_live, 0)..live_at(old_live + 1, 0);
        let (commits, aborts) = (call.event[0] == COMMIT, call.event[0] == ABORT);
        let mut leave = |(from, to): (usize, usize)| call.record[from..to].copy_from_slice(&before[from..to]);
        match self {
            Slip::ArrivedPlaceKept if settles => leave((arrived.start, arrived.end)),
            Slip::ArrivedPlaceKeptOverWaiting if settles && old_live > 0 => leave((arrived.start, arrived.end)),
            Slip::ArrivedWordsLeft if settles => call.record[arrived][..ATTEMPT].copy_from_slice(&call.event[1..]),
            Slip::CommitLeavesLive if commits => leave(of_live),
            Slip::CommitLeavesRuns if commits => leave(of_runs),
            Slip::CommitLeavesEntries if commits => leave(of_entries),
            Slip::AbortLeavesLive if aborts => leave(of_live),
            Slip::AbortLeavesRuns if aborts => leave(of_runs),
            Slip::AbortLeavesEntries if aborts => leave(of_entries),
            Slip::FailureLeavesEntries if !arrives && !commits && !aborts => leave(of_entries),
            Slip::SentWordsKept if !commits && !aborts => {
                let sent = |row: &usize| was.run(*row, REPLY) != HELD;
                (0..old_runs).filter(sent).for_each(|row| leave((run_at(row, PLACE), run_at(row + 1, 0))));
            }
            Slip::AllCleared => {
                for (from, to) in [(of_live.0, RUNS), (of_runs.0, UNDO), (of_entries.0, WORDS)] {
                    call.record[from..to].fill(0);
                }
            }
            Slip::LiveCleared => call.record[of_live.0..RUNS].fill(0),
            Slip::RunsCleared => call.record[of_runs.0..UNDO].fill(0),
            Slip::EntriesCleared => call.record[of_entries.0..].fill(0),
            Slip::OneLiveMoreCleared => call.record[of_live.1..RUNS.min(of_live.1 + LIVE_WORDS)].fill(0),
            Slip::OneRunMoreCleared => call.record[of_runs.1..UNDO.min(of_runs.1 + RUN_WORDS)].fill(0),
            Slip::OneEntryMoreCleared => call.record[of_entries.1..WORDS.min(of_entries.1 + 2)].fill(0),
            _ => {}
        }
    }

    unsafe fn after_refusal(self, call: &mut Call, areas: Areas, number: u32) {
        match self {
            Slip::RoomTouchedOnRefusal if !call.room.is_empty() => call.room[0] = 0,
            Slip::RoomTouchedAtItsEnd => call.room.last_mut().into_iter().for_each(|word| *word = 0),
            Slip::CellsTouchedOnRefusal if number == 8 && !call.cells.is_empty() => call.cells[0] ^= 1,
            Slip::RecordTouchedOnRefusal if number == 10 => call.record[1] = call.event[1],
            Slip::RecordTidiedOnRefusal => {
                if let Some(record) = layout::read(call.record).filter(Record::sound) {
                    *call.record = layout::lay_out(&record);
                }
            }
            Slip::EventWritten if areas.lent.event > 0 => *areas.event = 0,
            _ => {}
        }
    }
}
