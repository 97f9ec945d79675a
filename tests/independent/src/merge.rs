//! Request L10: the same transactions and decisions from the same start, merged in two ways. Final cells are equal, and
//! so are the answers of singles, attempts aside, each once.
//!
//! What is asked of each number is fixed: its fragments in their order and, of a multi, its decision. A merge offers
//! the next event of one number after the other, by any scheme, and what is refused it offers again later. So the
//! partition itself says which merges there are: of a right one, new numbers rise and all else is the front's, early or
//! late. A wrong one that takes a decision before its turn settles in another order, and shows it in the end.
//!
//! A multi that fails cannot commit, and takes no more fragments. Whether it fails is heard from its answers in the
//! first merge, where decisions are made in number order as a coordinator makes them; the second is asked the same.

use crate::engine::{Scheme, ANSWER_WORDS, DEPTH};
use crate::event::*;
use crate::generate::Random;
use std::fmt;

pub type AnswerWords = [u32; ANSWER_WORDS];

/// A partition as its callers see it, and what of its queues tells what a merge met.
pub trait Partition {
    /// A fresh start with these cells.
    fn start(&mut self, cells: &[u32]);

    /// The returned number and the answers.
    fn call(&mut self, scheme: Scheme, event: &Event) -> (u32, Vec<AnswerWords>);

    fn cells(&self) -> &[u32];

    /// How many are uncommitted, and how many wait.
    fn queues(&self) -> [usize; 2];
}

/// What is asked of one number.
#[derive(Clone)]
struct Asked {
    fragments: Vec<Event>,
    /// Of a multi that can.
    commits: bool,
    /// Heard in the first merge.
    failed: bool,
}

impl Asked {
    fn first(&self) -> &Fragment {
        &self.fragments[0].fragment
    }

    fn number(&self) -> u32 {
        self.first().number
    }

    fn is_multi(&self) -> bool {
        self.first().is_multi()
    }

    /// Its fragments and its decision.
    fn events(&self) -> usize {
        self.fragments.len() + usize::from(self.is_multi())
    }

    /// Whether a commit is refused once so many fragments have run.
    fn cannot_commit(&self, run: usize) -> bool {
        self.failed || run == 0 || !self.fragments[run - 1].fragment.is_last()
    }

    fn event(&self, at: usize) -> Event {
        match self.fragments.get(at) {
            Some(fragment) => *fragment,
            None if self.commits && !self.cannot_commit(self.fragments.len()) => Event::commit(self.number()),
            None => Event::abort(self.number()),
        }
    }
}

/// Cells and what is asked of each number.
#[derive(Clone)]
struct Plan {
    cells: Vec<u32>,
    all: Vec<Asked>,
}

impl Plan {
    /// Few cells, so that transactions meet, and amounts by which some fail, settled or speculated.
    fn new(random: &mut Random) -> Plan {
        let cells: Vec<u32> = (0..random.between(1, 4))
            .map(|_| if random.percent(15) { TOP - random.below(5) as u32 } else { 5 + random.below(20) as u32 })
            .collect();
        let length = random.pick(&[3, 10, 40, 100]) + random.below(20);
        let (multis, aborts, opens) =
            (random.pick(&[15, 40, 80]), random.pick(&[5, 30, 60]), random.pick(&[5, 25, 60]));
        let coordinators = random.between(1, 3) as u32;
        let skips = random.pick(&[0, 20]);
        // Now and then the numbers come to their end.
        let mut number = if random.percent(5) { TOP - 10 * length as u32 } else { 0 };
        let all = (0..length).map(|_| {
            number += 1 + if random.percent(skips) { random.below(9) as u32 } else { 0 };
            if !random.percent(multis) {
                let fragments = vec![Event::single(number, &row(random, cells.len()))];
                return Asked { fragments, commits: false, failed: false };
            }
            let coordinator = 1 + random.below(coordinators as usize) as u32;
            let many = if random.percent(opens) { random.between(1, 5) } else { 1 };
            // Some are aborted before their last fragment comes.
            let finishes = random.percent(90);
            let fragments = (1..=many).map(|at| match at == many && finishes {
                true => Event::last(number, coordinator, &row(random, cells.len())),
                false => Event::open(number, coordinator, &row(random, cells.len())),
            });
            Asked { fragments: fragments.collect(), commits: !random.percent(aborts), failed: false }
        });
        let all = all.collect();
        Plan { cells, all }
    }

    fn is_single(&self, answer: &AnswerWords) -> bool {
        self.all.iter().any(|asked| asked.number() == answer[0] && !asked.is_multi())
    }
}

/// Operations most of which change with what ran before them.
fn row(random: &mut Random, cells: usize) -> Vec<(u32, u32, u32)> {
    let many = random.pick(&[1, 1, 2, 3, 8]);
    let operation = |_| {
        let small = random.below(5) as u32;
        let code = random.pick(&[READ, SET, SET, ADD, ADD, ADD, TAKE, TAKE, NEED, RAISE, LOWER]);
        let amount = match code {
            READ => 0,
            SET | RAISE | LOWER => 3 * small + random.below(10) as u32,
            NEED => 2 * small,
            _ => small,
        };
        (code, random.below(cells) as u32, amount)
    };
    (0..many).map(operation).collect()
}

/// How a merge chooses what comes next; each is a chance in percent.
struct Way {
    /// That it is a new number, while it builds up and while it resolves; the two take turns.
    arrivals: [u32; 2],
    longest: usize,
    left: usize,
    resolves: bool,
    /// That it is for another one than the first undecided multi. A right partition refuses it.
    early: u32,
    /// That it is something which nobody asked for and any right partition refuses.
    noise: u32,
    scheme: Scheme,
    changes: u32,
}

impl Way {
    fn new(random: &mut Random) -> Way {
        Way {
            arrivals: [random.pick(&[0, 50, 80, 97]), random.pick(&[0, 20, 50])],
            longest: random.pick(&[3, 12, 80]),
            left: 0,
            resolves: true,
            early: random.pick(&[0, 30, 80]),
            noise: random.pick(&[0, 0, 5, 20]),
            scheme: random.pick(&Scheme::ALL),
            changes: random.pick(&[0, 0, 5, 50]),
        }
    }

    fn arrives(&mut self, random: &mut Random) -> bool {
        if self.left == 0 {
            (self.resolves, self.left) = (!self.resolves, random.between(1, self.longest));
        }
        self.left -= 1;
        random.percent(self.arrivals[usize::from(self.resolves)])
    }

    fn scheme(&mut self, random: &mut Random) -> Scheme {
        if random.percent(self.changes) {
            self.scheme = self.scheme.other();
        }
        self.scheme
    }
}

/// Offers refused one after the other until a merge counts as one without an end.
const PATIENCE: usize = 3000;

/// What was found in two merges, or in one of them.
#[derive(Clone, Debug, PartialEq, Eq)]
pub enum Parted {
    /// Final cells differ.
    Cells(String),
    /// Answers of singles differ.
    Singles(String),
    /// A single has no answer, two of them, one with a dependence, or one out of turn.
    NotOnce(String),
    /// What is asked is not accepted, however often it is offered.
    NoEnd(String),
    /// All has been accepted, and something is live.
    StillLive(String),
    /// Accepted, though nobody asked for it.
    NotRefused(String),
}

impl fmt::Display for Parted {
    fn fmt(&self, f: &mut fmt::Formatter) -> fmt::Result {
        let (what, how) = match self {
            Parted::Cells(how) => ("final cells differ", how),
            Parted::Singles(how) => ("answers of singles differ", how),
            Parted::NotOnce(how) => ("a single is not answered once and in turn", how),
            Parted::NoEnd(how) => ("never accepted", how),
            Parted::StillLive(how) => ("something is live in the end", how),
            Parted::NotRefused(how) => ("accepted, though nobody asked for it", how),
        };
        write!(f, "{what}: {how}")
    }
}

/// A merge under way.
struct Merge<'a, P> {
    partition: &'a mut P,
    random: &'a mut Random,
    met: &'a mut Met,
    way: Way,
    plan: Plan,
    /// The first merge of a plan, in which it is heard who fails.
    is_first: bool,
    /// How many have arrived, and how many events of each were accepted.
    arrived: usize,
    done: Vec<usize>,
    /// Whether the last answer of each has a place of failure.
    fails: Vec<bool>,
    refused: usize,
    ended: Ended,
}

/// What is left of a merge.
#[derive(Default)]
struct Ended {
    /// The accepted events, each by its transaction.
    order: Vec<usize>,
    answers: Vec<AnswerWords>,
    cells: Vec<u32>,
}

impl<P: Partition> Merge<'_, P> {
    /// Until all has been accepted: the plan as it was asked, and what is left.
    fn all(mut self) -> Result<(Plan, Ended), Parted> {
        self.partition.start(&self.plan.cells);
        loop {
            let all = self.plan.all.iter().zip(&self.done).enumerate().take(self.arrived);
            let open: Vec<usize> = all.filter(|(_, (asked, done))| **done < asked.events()).map(|(at, _)| at).collect();
            if self.arrived == self.plan.all.len() && open.is_empty() {
                break;
            }
            self.step(&open)?;
        }
        match self.partition.queues() {
            [0, 0] => {
                self.ended.cells = self.partition.cells().to_vec();
                Ok((self.plan, self.ended))
            }
            queues => Err(Parted::StillLive(format!("uncommitted and waiting {queues:?}"))),
        }
    }

    /// One call. Open are the multis that have arrived and are not decided, by their place in the plan.
    fn step(&mut self, open: &[usize]) -> Result<(), Parted> {
        if self.random.percent(self.way.noise) {
            return self.noise(open).map_or(Ok(()), |event| self.make_noise(event));
        }
        let new = self.arrived < self.plan.all.len();
        if open.is_empty() || new && self.way.arrives(self.random) {
            return self.offer(self.arrived);
        }
        // In the first merge nobody knows yet what will be asked of the others.
        let others = &open[1..];
        if !self.is_first && !others.is_empty() && self.random.percent(self.way.early) {
            let at = self.random.pick(others);
            return self.offer(at);
        }
        let (at, asked) = (open[0], &mut self.plan.all[open[0]]);
        if self.is_first && self.fails[at] {
            asked.failed = true;
            asked.fragments.truncate(self.done[at]);
        }
        self.offer(at)
    }

    /// Offers the next event of one.
    fn offer(&mut self, at: usize) -> Result<(), Parted> {
        let asked = &self.plan.all[at];
        let event = asked.event(self.done[at]);
        let (number, before, answers) = self.call(&event);
        if number != 0 {
            self.refused += 1;
            return match self.refused {
                PATIENCE => Err(Parted::NoEnd(format!("{}, the last by {number}", shown(&event)))),
                _ => Ok(()),
            };
        }
        let asked = &self.plan.all[at];
        self.met.note(asked, self.done[at], before, self.partition.queues());
        self.refused = 0;
        self.done[at] += 1;
        self.arrived = self.arrived.max(at + 1);
        self.ended.order.push(at);
        for answer in &answers {
            self.met.most_attempt = self.met.most_attempt.max(answer[12]);
            // An answer of nobody is no single's, and so is missed there.
            if let Some(of) = self.plan.all.iter().position(|asked| asked.number() == answer[0]) {
                self.fails[of] = answer[2] != 0;
            }
        }
        self.ended.answers.extend(answers);
        Ok(())
    }

    /// The returned number, the queues before, and the answers.
    fn call(&mut self, event: &Event) -> (u32, [usize; 2], Vec<AnswerWords>) {
        let before = self.partition.queues();
        let scheme = self.way.scheme(self.random);
        let (number, answers) = self.partition.call(scheme, event);
        self.met.calls[scheme as usize] += 1;
        if let Some(count) = self.met.returned.get_mut(number as usize) {
            *count += 1;
        }
        (number, before, answers)
    }

    /// What is refused whatever the merge is, known by what was asked alone; or nothing if it cannot be had now.
    fn noise(&mut self, open: &[usize]) -> Option<Event> {
        let Merge { random, plan, arrived, done, .. } = self;
        let (here, coming) = plan.all.split_at(*arrived);
        let here: Vec<&Asked> = here.iter().collect();
        let some =
            |random: &mut Random, from: &[&Asked]| (!from.is_empty()).then(|| from[random.below(from.len())].clone());
        let decision = |random: &mut Random, number| random.pick(&[Event::commit(number), Event::abort(number)]);
        match random.below(8) {
            0 => Some(Event::default()),
            1 => Some(Event::single(coming.first()?.number(), &[(READ, plan.cells.len() as u32, 0)])),
            // Once more for one that is decided.
            2 => {
                let over: Vec<_> = (0..*arrived).filter(|at| !open.contains(at)).map(|at| here[at]).collect();
                let over = some(random, &over).filter(Asked::is_multi)?;
                Some(over.event(random.below(over.events())))
            }
            3 => {
                let single = some(random, &here).filter(|asked| !asked.is_multi())?;
                Some(decision(random, single.number()))
            }
            // Before its first fragment has come.
            4 => {
                let coming: Vec<&Asked> = coming.iter().collect();
                let early = some(random, &coming)?;
                Some(decision(random, early.number()))
            }
            // Another coordinator's, for one of any state.
            5 => {
                let mut foreign = some(random, &here).filter(Asked::is_multi)?.fragments[0];
                foreign.fragment.coordinator += 100;
                Some(foreign)
            }
            // A commit of the front before it is finished, or of one that failed.
            6 => {
                let front = here[*open.first()?];
                front.cannot_commit(done[open[0]]).then(|| Event::commit(front.number()))
            }
            // A first fragment that comes twice. For the front it might be taken for the next.
            _ => {
                let others: Vec<&Asked> = open.iter().skip(1).map(|&at| here[at]).collect();
                Some(some(random, &others)?.fragments[0])
            }
        }
    }

    fn make_noise(&mut self, event: Event) -> Result<(), Parted> {
        let (number, ..) = self.call(&event);
        self.met.noise += 1;
        match number {
            0 => Err(Parted::NotRefused(shown(&event))),
            _ => Ok(()),
        }
    }
}

fn shown(event: &Event) -> String {
    let kind = match event.kind {
        FRAGMENT => "fragment",
        COMMIT => "commit",
        ABORT => "abort",
        _ => "event of no kind",
    };
    format!("{kind} of {}", event.fragment.number)
}

/// What merges met.
#[derive(Clone, Debug, Default, PartialEq, Eq)]
pub struct Met {
    pub pairs: u64,
    /// By the schemes in the order of `Scheme::ALL`, and by their returned numbers.
    pub calls: [u64; 2],
    pub returned: [u64; 15],
    /// Of these, calls that nobody asked for.
    pub noise: u64,
    pub commits: u64,
    pub aborts: u64,
    /// Aborts of multis that failed, and of such as had not come to their last fragment.
    pub failed: u64,
    pub unfinished: u64,
    /// Aborts that undid others behind the front, and those that undid two or more.
    pub undid: u64,
    pub undid_more: u64,
    /// Commits with others uncommitted behind the front.
    pub late_commits: u64,
    /// Later fragments with others waiting behind the front.
    pub late_fragments: u64,
    /// Accepted calls that left three or more uncommitted, and as many as may be.
    pub deep: u64,
    pub deepest: u64,
    pub most_attempt: u32,
    /// Pairs whose accepted events came in two orders, and those whose multis were answered otherwise, attempts aside.
    pub orders: u64,
    pub multis: u64,
    /// Answers of singles that were compared; those with a place of failure; those in another attempt.
    pub singles: u64,
    pub failed_singles: u64,
    pub attempts: u64,
}

impl Met {
    /// An accepted event, after so many of its transaction.
    fn note(&mut self, asked: &Asked, done: usize, [uncommitted, waiting]: [usize; 2], after: [usize; 2]) {
        let kind = asked.event(done).kind;
        let behind = uncommitted.saturating_sub(1);
        self.deep += u64::from(after[0] >= 3);
        self.deepest += u64::from(after[0] >= DEPTH);
        match kind {
            COMMIT => {
                self.commits += 1;
                self.late_commits += u64::from(behind > 0);
            }
            ABORT => {
                self.aborts += 1;
                self.failed += u64::from(asked.failed);
                self.unfinished += u64::from(!asked.failed && asked.cannot_commit(done));
                self.undid += u64::from(behind > 0);
                self.undid_more += u64::from(behind > 1);
            }
            _ => self.late_fragments += u64::from(done > 0 && waiting > 0),
        }
    }

    /// What merges must have met to be worth something.
    pub fn missing(&self) -> Vec<String> {
        let [speculation, blocking] = self.calls;
        let all = [
            ("a call by speculation", speculation),
            ("a call by blocking", blocking),
            ("a call that nobody asked for", self.noise),
            ("a commit", self.commits),
            ("an abort", self.aborts),
            ("an abort of one that failed", self.failed),
            ("an abort of one that has not finished", self.unfinished),
            ("an abort that undoes one", self.undid),
            ("an abort that undoes two or more", self.undid_more),
            ("a commit with others speculated behind it", self.late_commits),
            ("a later fragment with others waiting behind it", self.late_fragments),
            ("three uncommitted", self.deep),
            ("16 uncommitted", self.deepest),
            ("an answer of attempt 3", u64::from(self.most_attempt >= 3)),
            ("two orders", self.orders),
            ("answers of multis that differ", self.multis),
            ("an answer of a single", self.singles),
            ("a failed answer of a single", self.failed_singles),
            ("answers of a single in two attempts", self.attempts),
        ];
        let all = all.into_iter().map(|(name, count)| (name.to_string(), count));
        let refused =
            [4, 5, 6, 7, 8, 9, 10, 12, 13, 14].map(|number| (format!("refusal {number}"), self.returned[number]));
        all.chain(refused).filter(|(_, count)| *count == 0).map(|(name, _)| name).collect()
    }
}

impl fmt::Display for Met {
    fn fmt(&self, f: &mut fmt::Formatter) -> fmt::Result {
        let Met { pairs, calls: [speculation, blocking], noise, commits, aborts, failed, unfinished, .. } = self;
        let Met { undid, undid_more, late_commits, late_fragments, deep, deepest, most_attempt, .. } = self;
        let Met { orders, multis, singles, failed_singles, attempts, .. } = self;
        write!(
            f,
            "pairs {pairs}, calls by speculation {speculation}, by blocking {blocking}, {noise} unasked; returned"
        )?;
        for (number, count) in self.returned.iter().enumerate().filter(|(_, &count)| count > 0) {
            write!(f, " {number}:{count}")?;
        }
        writeln!(f)?;
        writeln!(
            f,
            "commits {commits}, {late_commits} with others speculated behind; aborts {aborts}, {failed} of failed \
             ones, {unfinished} of unfinished ones, {undid} undid others, {undid_more} two or more; later fragments \
             with others waiting {late_fragments}; three or more uncommitted {deep}, 16 {deepest}; most attempts \
             {most_attempt}"
        )?;
        writeln!(
            f,
            "pairs in two orders {orders}, with other answers of multis {multis}; answers of singles {singles}, \
             {failed_singles} failed, {attempts} equal but for the attempt"
        )
    }
}

/// Merges the plan of a seed in two ways, on the same partition one after the other.
pub fn pair(seed: u64, partition: &mut impl Partition, met: &mut Met) -> Result<(), Parted> {
    let random = &mut Random(seed.wrapping_mul(0xd129_8a2e_03d1_07a5));
    let plan = Plan::new(random);
    let (plan, one) = merge(plan, true, partition, random, met)?;
    let (plan, two) = merge(plan, false, partition, random, met)?;
    compare(&plan, one, two, met)
}

fn merge(
    plan: Plan,
    is_first: bool,
    partition: &mut impl Partition,
    random: &mut Random,
    met: &mut Met,
) -> Result<(Plan, Ended), Parted> {
    let (way, count, ended) = (Way::new(random), plan.all.len(), Ended::default());
    let (done, fails) = (vec![0; count], vec![false; count]);
    Merge { partition, random, met, way, plan, is_first, arrived: 0, done, fails, refused: 0, ended }.all()
}

fn compare(plan: &Plan, one: Ended, two: Ended, met: &mut Met) -> Result<(), Parted> {
    if one.cells != two.cells {
        return Err(Parted::Cells(format!("{:?} and {:?}", one.cells, two.cells)));
    }
    let [(singles, multis), (others, other_multis)] =
        [&one, &two].map(|ended| ended.answers.iter().copied().partition::<Vec<_>, _>(|answer| plan.is_single(answer)));
    let differ = singles.iter().zip(&others).find(|(one, two)| attempts_aside(one) != attempts_aside(two));
    if let Some((one, two)) = differ {
        return Err(Parted::Singles(format!("{one:?} and {two:?}")));
    }
    for answers in [&singles, &others] {
        let asked = plan.all.iter().filter(|asked| !asked.is_multi()).map(|asked| [asked.number(), 0]);
        let told = answers.iter().map(|answer| [answer[0], answer[1]]);
        if !told.clone().eq(asked.clone()) {
            let [told, asked] = [told.collect(), asked.collect::<Vec<_>>()];
            let at = (0..).find(|&at: &usize| told.get(at) != asked.get(at)).expect("unequal");
            return Err(Parted::NotOnce(format!("asked {:?}, answered {:?}", asked.get(at), told.get(at))));
        }
    }
    met.pairs += 1;
    met.orders += u64::from(one.order != two.order);
    met.multis += u64::from(!multis.iter().map(attempts_aside).eq(other_multis.iter().map(attempts_aside)));
    met.singles += singles.len() as u64;
    met.failed_singles += singles.iter().filter(|answer| answer[2] != 0).count() as u64;
    met.attempts += singles.iter().zip(&others).filter(|(one, two)| one != two).count() as u64;
    Ok(())
}

/// An answer's words without the thirteenth and the fourteenth.
fn attempts_aside(answer: &AnswerWords) -> (&[u32], &[u32]) {
    (&answer[..12], &answer[14..])
}
