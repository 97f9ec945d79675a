//! Garbage in the unused places of sound records: where it stood before an accepted call, and of which kind that was.
//! What must become of it is for the one who compares calls whole.

use crate::listed::listed;
use crate::view::*;
use independent::event::{COMMIT, FRAGMENT, MULTI};
use independent::layout::{Words, RUNS, UNDO, WORDS};
use independent::Scheme;

listed! {
    /// Accepted calls by what they do to the rows.
    Kind {
        /// Meets nothing live, and settles.
        IdleSingle,
        /// Meets nothing live, and is the front.
        IdleMulti,
        /// A new one; no more are uncommitted after it.
        Waits,
        /// A new one; more are uncommitted after it.
        Speculates,
        /// A new one where nothing is uncommitted and some wait, as no run leaves them.
        OverWaiting,
        /// The same; all of them settle.
        OverWaitingAndSettles,
        FragmentPasses,
        FragmentFails,
        Commit,
        CommitAndDrain,
        Abort,
        AbortAndDrain,
    }
}

listed! {
    /// Where garbage stood, and whether it is there after the call.
    Stood {
        BehindLiveAndStays,
        BehindRunsAndStays,
        BehindEntriesAndStays,
        BehindLiveAndGoes,
        BehindRunsAndGoes,
        BehindEntriesAndGoes,
        /// In held words of an answer that was sent, in numbers beyond a held one's count, in the two spare words.
        InARun,
    }
}

impl Kind {
    /// Of an accepted call, from the record before it and after it.
    fn of(before: View, event: &[u32], after: View) -> Kind {
        let waiting = |view: View| view.live() - view.uncommitted();
        let rises = after.uncommitted() > before.uncommitted();
        match event[0] {
            FRAGMENT if event[1] > before.largest() => match (before.uncommitted(), waiting(before)) {
                (0, 0) if event[2] & MULTI == 0 => Kind::IdleSingle,
                (0, 0) => Kind::IdleMulti,
                (0, _) if after.live() == 0 => Kind::OverWaitingAndSettles,
                (0, _) => Kind::OverWaiting,
                _ if rises => Kind::Speculates,
                _ => Kind::Waits,
            },
            FRAGMENT if after.run(0, STATE) == FAILED => Kind::FragmentFails,
            FRAGMENT => Kind::FragmentPasses,
            COMMIT if waiting(after) < waiting(before) => Kind::CommitAndDrain,
            COMMIT => Kind::Commit,
            // All but the front wait before the drain.
            _ if waiting(after) + 1 < before.live() => Kind::AbortAndDrain,
            _ => Kind::Abort,
        }
    }

    fn arrives(self) -> bool {
        matches!(
            self,
            Kind::IdleSingle
                | Kind::IdleMulti
                | Kind::Waits
                | Kind::Speculates
                | Kind::OverWaiting
                | Kind::OverWaitingAndSettles
        )
    }

    /// Whether something was uncommitted before it.
    fn meets_a_front(self) -> bool {
        matches!(self, Kind::Waits | Kind::Speculates) || !self.arrives()
    }
}

impl Stood {
    /// Whether such a call by this scheme can meet it.
    pub fn possible(self, kind: Kind, scheme: Scheme) -> bool {
        let speculates = scheme == Scheme::Speculation;
        (speculates || kind != Kind::Speculates)
            && match self {
                Stood::BehindLiveAndStays | Stood::BehindRunsAndStays | Stood::BehindEntriesAndStays => true,
                Stood::BehindLiveAndGoes => kind.arrives(),
                // More runs after it than before. By blocking there is one, where there was none.
                Stood::BehindRunsAndGoes => match kind {
                    Kind::IdleMulti | Kind::OverWaiting => true,
                    Kind::Speculates | Kind::FragmentPasses | Kind::FragmentFails => speculates,
                    Kind::CommitAndDrain | Kind::AbortAndDrain => speculates,
                    _ => false,
                },
                // More entries.
                Stood::BehindEntriesAndGoes => match kind {
                    Kind::IdleMulti | Kind::OverWaiting | Kind::FragmentPasses => true,
                    Kind::CommitAndDrain | Kind::AbortAndDrain => true,
                    Kind::Speculates | Kind::FragmentFails => speculates,
                    _ => false,
                },
                Stood::InARun => kind.meets_a_front(),
            }
    }
}

/// What an accepted call on a sound record met, in the order of `Stood::ALL`.
pub type Seen = (Kind, [bool; Stood::ALL.len()]);

pub fn seen(before: &Words, event: &[u32], after: &Words) -> Seen {
    let (was, is) = (View(before), View(after));
    let live = behind(before, after, [live_at(was.live(), 0), live_at(is.live(), 0)], RUNS);
    let runs = behind(before, after, [run_at(was.uncommitted(), 0), run_at(is.uncommitted(), 0)], UNDO);
    let entries = behind(before, after, [undo_at(was.entries(), 0), undo_at(is.entries(), 0)], WORDS);
    let stood = Stood::ALL.iter().map(|stood| match stood {
        Stood::BehindLiveAndStays => live.stays,
        Stood::BehindRunsAndStays => runs.stays,
        Stood::BehindEntriesAndStays => entries.stays,
        Stood::BehindLiveAndGoes => live.goes,
        Stood::BehindRunsAndGoes => runs.goes,
        Stood::BehindEntriesAndGoes => entries.goes,
        Stood::InARun => (0..was.uncommitted()).any(|row| before[was.unused_of_run(row)].iter().any(|&word| word != 0)),
    });
    let mut all = [false; Stood::ALL.len()];
    all.iter_mut().zip(stood).for_each(|(place, stood)| *place = stood);
    (Kind::of(was, event, is), all)
}

struct Behind {
    stays: bool,
    goes: bool,
}

/// Whether words that are not 0 stand behind what is in use of a row, and whether they do after the call. `from`: where
/// that begins before and after it.
fn behind(before: &Words, after: &Words, from: [usize; 2], to: usize) -> Behind {
    let unused = from[1].max(from[0]);
    let taken = before[from[0]..unused].iter().any(|&word| word != 0);
    let mut behind = before[unused..to].iter().zip(&after[unused..to]).filter(|(&word, _)| word != 0);
    let cleared = behind.clone().any(|(_, &word)| word == 0);
    Behind { stays: behind.any(|(was, is)| was == is), goes: taken || cleared }
}
