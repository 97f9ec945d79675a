//! What a run met, and whether that is worth something.

use crate::bench::Done;
use crate::damage::Damage;
use crate::unused::{Kind, Seen, Stood};
use independent::engine::{DEPTH, MOST_LIVE};
use independent::Scheme;
use std::fmt;

/// A run of this many calls has to reach every corner.
pub const ENOUGH: u64 = 1_000_000;

#[derive(Clone, Copy, Default)]
pub struct OfDamage {
    pub calls: u64,
    pub unsound: u64,
    pub accepted: u64,
}

/// Calls of the subject and its twin, compared.
#[derive(Clone, Copy, Default)]
pub struct OfPairs {
    pub calls: u64,
    pub singles: u64,
    /// Answers of singles that are equal but for their attempts.
    pub attempts: u64,
    pub nothing_live: u64,
}

/// Calls by one scheme.
#[derive(Clone, Copy, Default)]
pub struct OfScheme {
    pub returned: [u64; 15],
    /// Accepted ones on a record that shows that the other scheme made it.
    pub taken_over: u64,
    /// Commits by how many held answers they released behind the front: one, two, more. In lives that nothing but calls
    /// made; by blocking, of what speculation left.
    pub released: [u64; 3],
    /// Answers of attempt 2 or more, and those that depend on one. In lives that nothing but calls made; by blocking, of
    /// what speculation left.
    pub again: u64,
    pub dependent_again: u64,
    /// Answers that depend on another attempt than their own is.
    pub apart: u64,
    /// Accepted calls that met garbage in unused places, by their kind and where it stood.
    pub unused: [[u64; Stood::ALL.len()]; Kind::ALL.len()],
}

/// What is known of a call beside what it gave.
#[derive(Clone, Copy, Default)]
pub struct Met {
    /// The record shows that the other scheme made it.
    pub taken_over: bool,
    /// Answers that it released.
    pub released: usize,
    /// Answers of attempt 2 or more, answers that depend on one, and answers that depend on another attempt than theirs.
    pub again: [u64; 3],
    /// Of an accepted one: its kind, and garbage that it met in unused places.
    pub unused: Option<Seen>,
}

#[derive(Clone)]
pub struct Tally {
    pub calls: u64,
    pub starts: u64,
    pub lives: u64,
    /// In the order of `Scheme::ALL`.
    pub by: [OfScheme; 2],
    pub pairs: OfPairs,
    pub answers: u64,
    pub most_answers: u32,
    /// Accepted calls by how many uncommitted and how many live ones they left, in lives that nothing but calls made.
    pub uncommitted: [u64; DEPTH + 1],
    pub live: [u64; MOST_LIVE + 1],
    pub damages: Vec<(Damage, OfDamage)>,
    /// Calls on a damaged record after its first one.
    pub went_on: u64,
}

impl Tally {
    pub fn new() -> Tally {
        let damages = Damage::all().into_iter().map(|damage| (damage, OfDamage::default())).collect();
        Tally {
            calls: 0,
            starts: 0,
            lives: 0,
            by: Default::default(),
            pairs: OfPairs::default(),
            answers: 0,
            most_answers: 0,
            uncommitted: [0; DEPTH + 1],
            live: [0; MOST_LIVE + 1],
            damages,
            went_on: 0,
        }
    }

    pub fn note(&mut self, scheme: Scheme, met: Met, done: &Done) {
        let &Done { number, answers, pair } = done;
        self.calls += 1;
        let by = &mut self.by[scheme as usize];
        by.returned[number as usize] += 1;
        by.taken_over += u64::from(met.taken_over && number == 0);
        let [again, dependent_again, apart] = met.again;
        by.again += again;
        by.dependent_again += dependent_again;
        by.apart += apart;
        if let Some(at) = met.released.min(3).checked_sub(1) {
            by.released[at] += 1;
        }
        if let Some((kind, stood)) = met.unused {
            by.unused[kind as usize].iter_mut().zip(stood).for_each(|(count, stood)| *count += u64::from(stood));
        }
        self.answers += u64::from(answers);
        self.most_answers = self.most_answers.max(answers);
        if let Some(pair) = pair {
            self.pairs.calls += 1;
            self.pairs.singles += pair.singles as u64;
            self.pairs.attempts += pair.attempts as u64;
            self.pairs.nothing_live += u64::from(pair.nothing_live);
        }
    }

    pub fn note_damage(&mut self, at: usize, number: u32) {
        let of = &mut self.damages[at].1;
        of.calls += 1;
        of.unsound += u64::from(number == 1);
        of.accepted += u64::from(number == 0);
    }

    /// Corners that were never reached.
    pub fn missing(&self) -> Vec<String> {
        let by_scheme = Scheme::ALL.into_iter().zip(&self.by).flat_map(|(scheme, of)| {
            let by = scheme.word();
            let returned = (0..15).map(move |number| (format!("number {number} by {by}"), of.returned[number]));
            let released = [1, 2, 3].map(|many: usize| {
                let or_more = if many == 3 { " or more" } else { "" };
                (format!("a commit by {by} that releases {many}{or_more}"), of.released[many - 1])
            });
            let again = [
                (format!("an answer of attempt 2 or more by {by}"), of.again),
                (format!("a dependence on attempt 2 or more by {by}"), of.dependent_again),
                (format!("a dependence on another attempt than its own by {by}"), of.apart),
            ];
            let unused = Kind::ALL.iter().flat_map(move |&kind| {
                let possible = Stood::ALL.iter().filter(move |stood| stood.possible(kind, scheme));
                possible.map(move |&stood| {
                    (format!("garbage {stood:?} in {kind:?} by {by}"), of.unused[kind as usize][stood as usize])
                })
            });
            let taken_over = [(format!("a changeover to {by}"), of.taken_over)];
            returned.chain(taken_over).chain(released).chain(again).chain(unused)
        });
        let corners = [
            ("16 uncommitted".to_string(), self.uncommitted[DEPTH]),
            ("64 live".to_string(), self.live[MOST_LIVE]),
            ("64 answers".to_string(), u64::from(self.most_answers == MOST_LIVE as u32)),
            ("a single of a pair".to_string(), self.pairs.singles),
            ("a single of a pair in another attempt".to_string(), self.pairs.attempts),
            ("a pair with nothing live".to_string(), self.pairs.nothing_live),
        ];
        let damages = self.damages.iter().map(|(damage, of)| match damage {
            Damage::AtRandom(_) => (format!("{damage:?}"), of.calls),
            Damage::Clause(_) => (format!("{damage:?} refused by 1"), of.unsound),
            Damage::Odd(_) => (format!("{damage:?} accepted"), of.accepted),
        });
        let all = by_scheme.chain(corners).chain(damages);
        all.filter(|(_, count)| *count == 0).map(|(name, _)| name).collect()
    }
}

fn most(counts: &[u64]) -> (usize, u64) {
    let at = counts.iter().rposition(|&count| count > 0).unwrap_or(0);
    (at, counts[at])
}

impl fmt::Display for Tally {
    fn fmt(&self, f: &mut fmt::Formatter) -> fmt::Result {
        let Tally { calls, starts, lives, answers, most_answers, went_on, .. } = self;
        writeln!(f, "calls {calls} and {starts} starts, {lives} lives")?;
        writeln!(f, "answers sent {answers}, at most {most_answers} in a call")?;
        for (scheme, of) in Scheme::ALL.iter().zip(&self.by) {
            let OfScheme { returned, taken_over, released, again, dependent_again, apart, .. } = of;
            let calls: u64 = returned.iter().sum();
            write!(f, "by {} {calls} calls, returned", scheme.word())?;
            for (number, count) in returned.iter().enumerate() {
                write!(f, " {number}:{count}")?;
            }
            let share = 100.0 * returned[0] as f64 / calls.max(1) as f64;
            let [one, two, more] = released;
            writeln!(
                f,
                "; accepted {share:.1} %, {taken_over} of them on a record that the other scheme left; commits that \
                 released one {one}, two {two}, more {more}; answers of attempt 2 or more {again}, that depend on one \
                 {dependent_again}, on another attempt than their own {apart}"
            )?;
        }
        let OfPairs { calls, singles, attempts, nothing_live } = self.pairs;
        writeln!(
            f,
            "pairs, the same event by either scheme: {calls} calls with equal numbers and equal ones live, {singles} \
             answers of singles, {attempts} of them equal but for the attempt, {nothing_live} times nothing live and equal cells"
        )?;
        writeln!(f, "garbage in unused places, accepted calls by kind and by where it stood, {:?}:", Stood::ALL)?;
        for (scheme, of) in Scheme::ALL.iter().zip(&self.by) {
            for (kind, counts) in Kind::ALL.iter().zip(&of.unused) {
                let counts: Vec<_> = counts.iter().map(u64::to_string).collect();
                writeln!(f, "  {kind:?} by {}: {}", scheme.word(), counts.join(" / "))?;
            }
        }
        let ((deep, deep_times), (full, full_times)) = (most(&self.uncommitted), most(&self.live));
        writeln!(
            f,
            "most uncommitted {deep}, left by {deep_times} calls; most live {full}, left by {full_times} calls"
        )?;
        writeln!(f, "damaged records, calls / refused by 1 / accepted; and {went_on} calls that went on with one:")?;
        for (damage, OfDamage { calls, unsound, accepted }) in &self.damages {
            writeln!(f, "  {damage:?}: {calls} / {unsound} / {accepted}")?;
        }
        Ok(())
    }
}
