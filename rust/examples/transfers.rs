//! Two partitions, one or two coordinators and their clients in one process, and between them a network that delays,
//! reorders, doubles and loses every message. The story of `examples/c/transfers.c`, idea for idea: clients sell and
//! take in stock at one partition (singles) and move stock between shelves (multis of one to three rounds, whose
//! amounts depend on the answers of the round before). Some fail, and some are given up when their time is over.
//!
//! What a host needs is in "A partition's host" and "A coordinator": docs/INTEGRATION.md has the same rules in words.
//! The rest is the world around them, and at the end the proof of the rules: everything is decided, no stock is lost,
//! and all shelves and every answer that anybody acted on are those of a run one at a time of what committed. Anything
//! else ends the program with status 1. The same words on the command line print the same lines, in C and in Rust.
//!
//! ```text
//! cargo run --release --example transfers -- [--transactions N] [--seed S]
//!     [--scheme speculation|blocking|mixed] [--coordinators 1|2] [--old-rule]
//! ```
//!
//! With `--old-rule` the coordinators go by counts of aborts and not by attempts, as they had to before answers had
//! any. That rule rests on the order of messages: where it reads a dependence, the run fails.

use harukdalis::{Answer, Engine, Event, Op, Outcome, Refusal, Room, Scheme};
use std::collections::VecDeque;
use std::process::ExitCode;

const PARTITIONS: usize = 2;
/// At most; they are 1 and 2, as the engine has them.
const COORDINATORS: usize = 2;
/// Of a partition: few, so that the transactions meet.
const SHELVES: usize = 6;
/// Of a shelf at the start.
const STOCK: u32 = 60;
/// Of a multi, at most; each has a fragment for every partition that takes part.
const ROUNDS: u32 = 3;
/// Of a fragment, at most.
const OPS: usize = 2;
/// Transactions at once: at times a partition has more than it takes (10).
const IN_FLIGHT: u32 = 100;
const MOST_TRANSACTIONS: u64 = 1_000_000;

/// What is not as it must be.
struct Failure(String);

macro_rules! fail {
    ($($words:tt)*) => {
        return Err(Failure(format!($($words)*)))
    };
}

/// What the command line says.
struct Options {
    asked: u32,
    seed: u64,
    /// None is mixed.
    scheme: Option<Scheme>,
    coordinators: u32,
    old_rule: bool,
}

/// What the last lines tell.
#[derive(Default)]
struct Counts {
    sold: u64,
    failed_singles: u64,
    committed: u64,
    failed_multis: u64,
    given_up: u64,
    believed: u64,
    stale: u64,
    old: u64,
    late: u64,
    largest_attempt: u32,
    messages: u64,
    copies: u64,
    lost: u64,
    overtaken: u64,
    accepted: u64,
    refusals: [u64; Refusal::ALL.len()],
    put_in: u64,
    taken_out: u64,
}

// ---- Dice -----------------------------------------------------------------------------------------------------------

/// Splitmix64, so that a run is the same everywhere.
struct Dice(u64);

impl Dice {
    /// A number below n.
    fn below(&mut self, n: u32) -> u32 {
        self.0 = self.0.wrapping_add(0x9e37_79b9_7f4a_7c15);
        let z = self.0;
        let z = (z ^ (z >> 30)).wrapping_mul(0xbf58_476d_1ce4_e5b9);
        let z = (z ^ (z >> 27)).wrapping_mul(0x94d0_49bb_1331_11eb);
        let z = z ^ (z >> 31);
        (((z >> 32) * u64::from(n)) >> 32) as u32
    }

    fn one_in(&mut self, n: u32) -> bool {
        self.below(n) == 0
    }

    fn shelf(&mut self) -> u32 {
        self.below(SHELVES as u32)
    }

    fn partition(&mut self) -> usize {
        self.below(PARTITIONS as u32) as usize
    }
}

// ---- The network ----------------------------------------------------------------------------------------------------

/// Addresses: the partitions from 0, the clients, the coordinators. A fragment is from CLIENTS + its coordinator.
const CLIENTS: usize = PARTITIONS;
const ADDRESSES: usize = CLIENTS + 1 + COORDINATORS;

#[derive(Clone, Copy)]
enum Body {
    /// A fragment with what no word of an event tells: which of its transaction's fragments at that partition it is,
    /// from 1; and with a first one the number that is ahead of it in that partition's line.
    Fragment {
        event: Event,
        fragment: u32,
        after: u32,
    },
    Decision {
        event: Event,
    },
    /// An answer with what no word of it tells: which fragment it answers.
    Answer {
        answer: Answer,
        fragment: u32,
    },
    Acknowledgement,
    Alarm,
}

#[derive(Clone, Copy)]
struct Message {
    from: usize,
    to: usize,
    /// Among those on its way.
    order: u32,
    /// Of the transaction.
    number: u32,
    /// With what a partition sends, for the old rule alone: how many aborts it has accepted.
    aborts: u32,
    body: Body,
}

/// Nothing is under way for this many ticks or more.
const DAYS: usize = 4096;
const TRIES: u32 = 6;

struct Network {
    dice: Dice,
    /// The weather of this run: ticks, and one in so many.
    slowest: u32,
    doubled: u32,
    lost: u32,
    now: usize,
    days: Vec<Vec<Message>>,
    under_way: u64,
    sent: [[u32; ADDRESSES]; ADDRESSES],
    arrived: [[u32; ADDRESSES]; ADDRESSES],
    counts: Counts,
}

impl Network {
    fn new(seed: u64) -> Network {
        let mut dice = Dice(seed);
        Network {
            slowest: 2 << dice.below(7),
            doubled: 2 << dice.below(4),
            lost: 4 << dice.below(5),
            dice,
            now: 0,
            days: vec![Vec::new(); DAYS],
            under_way: 0,
            sent: [[0; ADDRESSES]; ADDRESSES],
            arrived: [[0; ADDRESSES]; ADDRESSES],
            counts: Counts::default(),
        }
    }

    fn put(&mut self, message: Message, ticks: u32) {
        self.days[(self.now + ticks as usize) % DAYS].push(message);
        self.under_way += 1;
    }

    /// A copy goes out, after some ticks. Now and then one takes much longer than the others.
    fn send_copy(&mut self, message: Message, ticks: u32) {
        let slowest = if self.dice.one_in(16) { 8 * self.slowest } else { self.slowest };
        let delay = 1 + self.dice.below(slowest);
        self.put(message, ticks + delay);
        self.counts.copies += 1;
    }

    /// All that the rules ask of a network is that each message arrives at least once, at some time. So its sender
    /// sends it again until it has a receipt: what is lost comes later, and what arrived is doubled where only its
    /// receipt was lost. Of the receipts just this is played here.
    fn post(&mut self, mut message: Message) {
        let order = &mut self.sent[message.from][message.to];
        *order += 1;
        message.order = *order;
        self.counts.messages += 1;
        for turn in 0..TRIES {
            let last = turn + 1 == TRIES;
            if self.dice.one_in(self.lost) && !last {
                self.counts.lost += 1;
                continue;
            }
            self.send_copy(message, turn * 2 * self.slowest);
            if !self.dice.one_in(self.lost) {
                break;
            }
        }
        if self.dice.one_in(self.doubled) {
            self.send_copy(message, 0);
        }
    }

    /// What arrives in this tick.
    fn today(&mut self) -> Vec<Message> {
        std::mem::take(&mut self.days[self.now % DAYS])
    }

    fn arrives(&mut self, message: &Message) {
        self.under_way -= 1;
        if !matches!(message.body, Body::Alarm) {
            let arrived = &mut self.arrived[message.from][message.to];
            self.counts.overtaken += u64::from(message.order < *arrived);
            *arrived = message.order.max(*arrived);
        }
    }
}

// ---- Transactions ---------------------------------------------------------------------------------------------------

/// What a fragment gave: a place and the number found, or a number for each operation.
#[derive(Clone, Copy, Default, PartialEq, Eq)]
struct Told {
    place: u32,
    count: usize,
    numbers: [u32; OPS],
}

impl Told {
    fn by(answer: &Answer) -> Told {
        match answer.outcome() {
            Outcome::Failed { place, found } => Told::failed(place, found),
            Outcome::Numbers(numbers) => {
                let mut told = Told { count: numbers.len(), ..Told::default() };
                told.numbers[..numbers.len()].copy_from_slice(numbers);
                told
            }
        }
    }

    fn failed(place: u32, found: u32) -> Told {
        let mut told = Told { place, count: 1, ..Told::default() };
        told.numbers[0] = found;
        told
    }
}

/// What a transaction is to one of its partitions. A round's fragment is in place round - 1.
#[derive(Default)]
struct Part {
    fragments: Vec<Vec<Op>>,
    /// What was acted on, round for round: used for an amount, for a decision, or shown to a client.
    told: Vec<Told>,
    /// The attempt of the last one of these.
    attempt: u32,
    /// The number ahead of it in this partition's line.
    after: u32,
    /// The largest attempt in an answer to this round; 0 before there is one.
    newest: u32,
    /// That answer, where it has not been judged yet.
    kept: Option<Answer>,
    /// The decision was carried out.
    acknowledged: bool,
}

impl Part {
    fn takes_part(&self) -> bool {
        !self.fragments.is_empty()
    }

    fn believe(&mut self, answer: &Answer, counts: &mut Counts) {
        self.told.push(Told::by(answer));
        self.attempt = answer.attempt();
        counts.believed += 1;
    }

    fn believed(&self) -> u32 {
        self.told.len() as u32
    }

    /// The content of a shelf, as the answer of the round before tells it.
    fn content(&self) -> u32 {
        self.told.last().map_or(0, |told| told.numbers[0])
    }
}

#[derive(Clone, Copy, PartialEq, Eq)]
enum Decision {
    Commit,
    Abort,
}

#[derive(Default)]
struct Transaction {
    /// 0 for a single.
    coordinator: u8,
    rounds: u32,
    round: u32,
    /// Partition and shelf that a transfer takes from, and those that it brings to.
    from: (usize, u32),
    to: (usize, u32),
    /// What is moved in one round, and what must be left after each of several.
    amount: u32,
    floor: u32,
    /// Ticks until it is given up; 0 for never.
    limit: u32,
    given_up: bool,
    decision: Option<Decision>,
    parts: [Part; PARTITIONS],
}

impl Transaction {
    /// One operation more in this round's fragment.
    fn ask(&mut self, partition: usize, op: Op) {
        let fragments = &mut self.parts[partition].fragments;
        fragments.resize_with(self.round as usize, Vec::new);
        fragments[self.round as usize - 1].push(op);
    }

    /// What a multi asks in its next round. In one round it moves its amount. In several it first reads, and then moves
    /// stock from the fuller shelf to the emptier one: in each round a part of the difference that the last answers
    /// tell.
    fn plan_round(&mut self) {
        let ((from, from_shelf), (to, to_shelf)) = (self.from, self.to);
        self.round += 1;
        if self.rounds == 1 {
            self.ask(from, Op::take(from_shelf, self.amount));
            self.ask(to, Op::add(to_shelf, self.amount));
        } else if self.round == 1 {
            self.ask(from, Op::read(from_shelf));
            self.ask(to, Op::read(to_shelf));
        } else {
            let (a, b) = (self.parts[from].content(), self.parts[to].content());
            let amount = a.abs_diff(b) / (self.rounds - self.round + 2);
            let (fuller, emptier) = if a > b { (self.from, self.to) } else { (self.to, self.from) };
            self.ask(fuller.0, Op::take(fuller.1, amount));
            self.ask(fuller.0, Op::need(fuller.1, self.floor));
            self.ask(emptier.0, Op::add(emptier.1, amount));
        }
    }

    /// Sends this round's fragments, from the clients or from the coordinator.
    fn send_round(&mut self, number: u32, net: &mut Network) {
        let last = self.round == self.rounds;
        for (to, part) in self.parts.iter_mut().enumerate() {
            let Some(ops) = part.fragments.last() else { continue };
            part.newest = 0;
            part.kept = None;
            let event = match self.coordinator {
                0 => Event::single(number, ops),
                coordinator => Event::multi(number, coordinator, last, ops),
            };
            let body = Body::Fragment { event, fragment: self.round, after: part.after };
            let from = CLIENTS + usize::from(self.coordinator);
            net.post(Message { from, to, order: 0, number, aborts: 0, body });
        }
    }
}

// ---- A partition's host ---------------------------------------------------------------------------------------------

/// What the host knows of a transaction until it is over.
#[derive(Clone, Copy, Default)]
struct Seat {
    /// Where its answers go.
    address: usize,
    /// How many were accepted.
    fragments: u32,
}

struct Host {
    /// Its own address.
    partition: usize,
    engine: Engine,
    cells: [u32; SHELVES],
    room: Room,
    scheme: Option<Scheme>,
    /// For the scheme of each call, where they are mixed.
    dice: Dice,
    /// The largest number accepted.
    largest: u32,
    /// By number.
    seats: Vec<Seat>,
    /// How many aborts were accepted.
    aborts: u32,
    /// First fragments that are early or were refused by 10; in number order.
    line: VecDeque<Message>,
    /// Later fragments and decisions for one that is not the front yet; in number order.
    early: VecDeque<Message>,
}

impl Host {
    fn start(partition: usize, options: &Options) -> Result<Host, Failure> {
        let Ok(engine) = Engine::start(SHELVES as u32) else { fail!("no start") };
        Ok(Host {
            partition,
            engine,
            cells: [STOCK; SHELVES],
            room: Room::new(),
            scheme: options.scheme,
            dice: Dice(options.seed.wrapping_add(1 + partition as u64)),
            largest: 0,
            seats: vec![Seat::default(); options.asked as usize + 1],
            aborts: 0,
            line: VecDeque::new(),
            early: VecDeque::new(),
        })
    }

    /// Calls the engine, and takes the answers out of the room before it is lent again.
    fn call(&mut self, event: &Event, counts: &mut Counts) -> Result<Vec<Answer>, Refusal> {
        let scheme = self.scheme.unwrap_or_else(|| match self.dice.one_in(2) {
            true => Scheme::Blocking,
            false => Scheme::Speculation,
        });
        let answers = self.engine.call_by(scheme, &mut self.cells, event, &mut self.room);
        match answers {
            Ok(_) => counts.accepted += 1,
            Err(refusal) => counts.refusals[refusal.number() as usize - 1] += 1,
        }
        answers.map(Iterator::collect)
    }

    /// Sends each answer to where its own transaction came from: it need not be the one whose message made the call.
    fn send_answers(&mut self, answers: &[Answer], net: &mut Network) {
        for &answer in answers {
            let number = answer.transaction();
            // The newest fragment is the one that is answered: a second one is only accepted of a front, and answered
            // in its own call; whatever runs again has had its first one only.
            let Seat { address: to, fragments: fragment } = self.seats[number as usize];
            let body = Body::Answer { answer, fragment };
            net.counts.largest_attempt = net.counts.largest_attempt.max(answer.attempt());
            net.post(Message { from: self.partition, to, order: 0, number, aborts: self.aborts, body });
        }
    }

    /// Hands a fragment or a decision to the engine, each fragment once. False if it is early, to be tried again.
    fn deliver(&mut self, message: &Message, net: &mut Network) -> Result<bool, Failure> {
        let number = message.number;
        let event = match message.body {
            // Doubled.
            Body::Fragment { fragment: 1, .. } if number <= self.largest => return Ok(true),
            // A smaller number is still to come, and would be skipped.
            Body::Fragment { fragment: 1, after, .. } if after != self.largest => return Ok(false),
            // Doubled: the engine would take it for the next one.
            Body::Fragment { fragment, .. } if fragment <= self.seats[number as usize].fragments => return Ok(true),
            Body::Fragment { event, .. } | Body::Decision { event } => event,
            _ => fail!("a message for another address"),
        };
        let answers = match self.call(&event, &mut net.counts) {
            Ok(answers) => {
                if let Body::Fragment { fragment, .. } = message.body {
                    self.seats[number as usize] = Seat { address: message.from, fragments: fragment };
                    self.largest = self.largest.max(number);
                } else if event == Event::abort(number) {
                    self.aborts += 1;
                }
                answers
            }
            // Over: a doubled decision, or a fragment that came behind an abort.
            Err(Refusal::NotLive) => Vec::new(),
            Err(Refusal::NotFront | Refusal::TooManyLive | Refusal::NotYetAccepted) => return Ok(false),
            // No other one can come where all keep to the rules.
            Err(refusal) => {
                let what = match message.body {
                    Body::Fragment { .. } => "fragment",
                    _ if event == Event::commit(number) => "commit",
                    _ => "abort",
                };
                fail!("the {what} of {number} was refused by {}", refusal.number())
            }
        };
        if let Body::Decision { .. } = message.body {
            let (from, to, body) = (self.partition, message.from, Body::Acknowledgement);
            net.post(Message { from, to, order: 0, number, aborts: self.aborts, body });
        }
        self.send_answers(&answers, net);
        Ok(true)
    }

    /// Takes a message, and delivers what can be: what was early may be in time after any accepted call. Only the first
    /// of a row can be accepted next: first fragments go in by number, and the front is the smallest number that is
    /// undecided here.
    fn take(&mut self, message: Message, net: &mut Network) -> Result<(), Failure> {
        let new = matches!(message.body, Body::Fragment { fragment: 1, .. });
        let row = if new { &mut self.line } else { &mut self.early };
        row.insert(row.partition_point(|kept| kept.number <= message.number), message);
        loop {
            if let Some(first) = self.line.front().copied() {
                if self.deliver(&first, net)? {
                    self.line.pop_front();
                    continue;
                }
            }
            match self.early.front().copied() {
                Some(first) if self.deliver(&first, net)? => self.early.pop_front(),
                _ => return Ok(()),
            };
        }
    }
}

// ---- A coordinator --------------------------------------------------------------------------------------------------

#[derive(Default)]
struct Coordinator {
    address: usize,
    old_rule: bool,
    /// Its undecided multis, in number order.
    undecided: VecDeque<u32>,
    /// The last multi that it committed at each partition, and the attempt in which it was answered there. A dependence
    /// that holds can be on no other: it is on the nearest multi ahead there, and those ahead are all this
    /// coordinator's and decided in number order.
    committed: [(u32, u32); PARTITIONS],
    /// For the old rule alone: the largest count of aborts acknowledged.
    aborts: [u32; PARTITIONS],
}

impl Coordinator {
    /// By what an answer is newer than another to the same fragment.
    fn newness(&self, answer: &Answer, aborts: u32) -> u32 {
        if self.old_rule {
            1 + aborts
        } else {
            answer.attempt()
        }
    }

    /// Whether the newest answer of the oldest undecided multi holds. What it depends on is decided: it does, or never
    /// will.
    fn holds(&self, partition: usize, answer: &Answer, newest: u32) -> bool {
        match answer.dependence() {
            // It was the front: nothing but its own abort can undo it.
            None => true,
            // No abort was acknowledged that came behind this answer.
            Some(dependence) if self.old_rule => {
                dependence.transaction == self.committed[partition].0 && newest > self.aborts[partition]
            }
            Some(dependence) => (dependence.transaction, dependence.attempt) == self.committed[partition],
        }
    }

    /// The time of a multi runs from when it is the oldest: before that it could not be decided.
    fn set_alarm(&self, transactions: &[Transaction], net: &mut Network) {
        let Some(&number) = self.undecided.front() else { return };
        let limit = transactions[number as usize].limit;
        if limit != 0 {
            net.put(Message { from: 0, to: self.address, order: 0, number, aborts: 0, body: Body::Alarm }, limit);
        }
    }

    /// A decision goes to all that take part, also to one that failed and to those that have not answered.
    fn decide(&mut self, number: u32, decision: Decision, transactions: &mut [Transaction], net: &mut Network) {
        let transaction = &mut transactions[number as usize];
        transaction.decision = Some(decision);
        for (to, part) in transaction.parts.iter().enumerate().filter(|(_, part)| part.takes_part()) {
            let event = match decision {
                Decision::Commit => Event::commit(number),
                Decision::Abort => Event::abort(number),
            };
            if decision == Decision::Commit {
                self.committed[to] = (number, part.attempt);
            }
            let body = Body::Decision { event };
            net.post(Message { from: self.address, to, order: 0, number, aborts: 0, body });
        }
        self.undecided.pop_front();
        self.set_alarm(transactions, net);
    }

    /// Takes the oldest undecided multi as far as its answers go. True if it is decided now.
    fn advance(&mut self, number: u32, transactions: &mut [Transaction], net: &mut Network) -> bool {
        let transaction = &mut transactions[number as usize];
        let (mut complete, mut failed) = (true, false);
        for (p, part) in transaction.parts.iter_mut().enumerate().filter(|(_, part)| part.takes_part()) {
            if let Some(answer) = part.kept.take() {
                if self.holds(p, &answer, part.newest) {
                    part.believe(&answer, &mut net.counts);
                    failed |= matches!(answer.outcome(), Outcome::Failed { .. });
                } else {
                    // Nothing to do: the partition has run it again, or will, and answers again.
                    net.counts.stale += 1;
                }
            }
            complete &= part.believed() == transaction.round;
        }
        if failed || transaction.given_up {
            *(if failed { &mut net.counts.failed_multis } else { &mut net.counts.given_up }) += 1;
            self.decide(number, Decision::Abort, transactions, net);
            return true;
        }
        if complete && transaction.round == transaction.rounds {
            net.counts.committed += 1;
            self.decide(number, Decision::Commit, transactions, net);
            return true;
        }
        if complete {
            transaction.plan_round();
            transaction.send_round(number, net);
        }
        false
    }

    /// Takes a message; gives how many multis are decided now. Of the answers the newest of each partition to this
    /// round is kept.
    fn take(&mut self, message: &Message, transactions: &mut [Transaction], net: &mut Network) -> u32 {
        let transaction = &mut transactions[message.number as usize];
        match message.body {
            Body::Answer { answer, fragment } => {
                let (newness, round) = (self.newness(&answer, message.aborts), transaction.round);
                let part = &mut transaction.parts[message.from];
                if transaction.decision.is_some() {
                    net.counts.late += 1;
                } else if fragment != round || part.believed() == round || newness <= part.newest {
                    net.counts.old += 1;
                } else {
                    part.newest = newness;
                    part.kept = Some(answer);
                }
            }
            Body::Acknowledgement => {
                transaction.parts[message.from].acknowledged = true;
                self.aborts[message.from] = self.aborts[message.from].max(message.aborts);
            }
            _ => transaction.given_up = transaction.decision.is_none(),
        }
        let mut decided = 0;
        while let Some(&number) = self.undecided.front() {
            if !self.advance(number, transactions, net) {
                break;
            }
            decided += 1;
        }
        decided
    }
}

// ---- Clients, and the front door that numbers what they ask ---------------------------------------------------------

struct Door {
    dice: Dice,
    /// The last number given: one source for all, as a partition takes rising numbers only.
    number: u32,
    /// The last one given for each partition.
    last: [u32; PARTITIONS],
    /// Of the multis of this batch.
    coordinator: u8,
}

impl Door {
    fn single(&mut self) -> Transaction {
        let mut single = Transaction { rounds: 1, round: 1, ..Transaction::default() };
        let (p, shelf, what) = (self.dice.partition(), self.dice.shelf(), self.dice.below(6));
        let op = match what {
            0 => Op::read(shelf),
            1..=3 => Op::take(shelf, 1 + self.dice.below(20)),
            _ => Op::add(shelf, 1 + self.dice.below(28)),
        };
        single.ask(p, op);
        single.ask(p, Op::read((shelf + 1) % SHELVES as u32));
        single
    }

    fn multi(&mut self, coordinators: u32, slowest: u32) -> Transaction {
        // In batches, so that speculation finds several of one coordinator in a row.
        if self.coordinator == 0 || self.dice.one_in(8) {
            self.coordinator = 1 + self.dice.below(coordinators) as u8;
        }
        let dice = &mut self.dice;
        let rounds = if dice.one_in(4) { 2 + dice.below(ROUNDS - 1) } else { 1 };
        let from = (dice.partition(), dice.shelf());
        let to_shelf = dice.shelf();
        let to = if rounds == 1 && dice.one_in(4) { from.0 } else { (from.0 + 1) % PARTITIONS };
        let mut multi = Transaction {
            coordinator: self.coordinator,
            rounds,
            from,
            to: (to, to_shelf),
            amount: 1 + dice.below(24),
            floor: dice.below(12),
            limit: if dice.one_in(4) { slowest * (1 + dice.below(24)) } else { 0 },
            ..Transaction::default()
        };
        multi.plan_round();
        multi
    }

    /// The next transaction, numbered.
    fn next(&mut self, options: &Options, slowest: u32) -> Transaction {
        self.number += 1;
        let mut next = match self.dice.one_in(3) {
            true => self.multi(options.coordinators, slowest),
            false => self.single(),
        };
        for (part, last) in next.parts.iter_mut().zip(&mut self.last).filter(|(part, _)| part.takes_part()) {
            part.after = *last;
            *last = self.number;
        }
        next
    }
}

/// A single's answer is final, and is sent once. The client that has it drops what the network doubles. True if it is
/// the first.
fn at_client(part: &mut Part, answer: &Answer, counts: &mut Counts) -> bool {
    if part.believed() != 0 {
        counts.late += 1;
        return false;
    }
    part.believe(answer, counts);
    match answer.outcome() {
        Outcome::Numbers(_) => counts.sold += 1,
        Outcome::Failed { .. } => counts.failed_singles += 1,
    }
    true
}

// ---- One tick after the other ---------------------------------------------------------------------------------------

struct World {
    options: Options,
    net: Network,
    hosts: Vec<Host>,
    /// From 1.
    coordinators: Vec<Coordinator>,
    door: Door,
    /// By number, from 1.
    transactions: Vec<Transaction>,
    in_flight: u32,
}

impl World {
    fn new(options: Options) -> Result<World, Failure> {
        let coordinator =
            |i| Coordinator { address: CLIENTS + i, old_rule: options.old_rule, ..Coordinator::default() };
        Ok(World {
            net: Network::new(options.seed),
            hosts: (0..PARTITIONS).map(|p| Host::start(p, &options)).collect::<Result<_, _>>()?,
            coordinators: (0..=COORDINATORS).map(coordinator).collect(),
            door: Door { dice: Dice(!options.seed), number: 0, last: [0; PARTITIONS], coordinator: 0 },
            transactions: vec![Transaction::default()],
            in_flight: 0,
            options,
        })
    }

    fn start_transaction(&mut self) {
        let next = self.door.next(&self.options, self.net.slowest);
        let (number, coordinator) = (self.door.number, usize::from(next.coordinator));
        self.transactions.push(next);
        self.in_flight += 1;
        if coordinator != 0 {
            let coordinator = &mut self.coordinators[coordinator];
            coordinator.undecided.push_back(number);
            if coordinator.undecided.len() == 1 {
                coordinator.set_alarm(&self.transactions, &mut self.net);
            }
        }
        self.transactions[number as usize].send_round(number, &mut self.net);
    }

    fn arrive(&mut self, message: Message) -> Result<(), Failure> {
        self.net.arrives(&message);
        if message.to < PARTITIONS {
            return self.hosts[message.to].take(message, &mut self.net);
        }
        self.in_flight -= match message.body {
            Body::Answer { answer, .. } if message.to == CLIENTS => {
                let part = &mut self.transactions[message.number as usize].parts[message.from];
                u32::from(at_client(part, &answer, &mut self.net.counts))
            }
            _ => self.coordinators[message.to - CLIENTS].take(&message, &mut self.transactions, &mut self.net),
        };
        Ok(())
    }

    fn starts_more(&self) -> bool {
        self.door.number < self.options.asked && self.in_flight < IN_FLIGHT
    }

    fn run(&mut self) -> Result<(), Failure> {
        while self.net.under_way > 0 || self.starts_more() {
            let more = self.door.dice.below(3);
            for message in self.net.today() {
                self.arrive(message)?;
            }
            for _ in 0..more {
                if self.starts_more() {
                    self.start_transaction();
                }
            }
            self.net.now += 1;
        }
        Ok(())
    }
}

// ---- The check ------------------------------------------------------------------------------------------------------

const TAKE: u32 = Op::take(0, 0).code();
const ADD: u32 = Op::add(0, 0).code();
const NEED: u32 = Op::need(0, 0).code();

fn run_fragment(cells: &mut [u32; SHELVES], ops: &[Op]) -> Told {
    let mut told = Told { count: ops.len(), ..Told::default() };
    for (i, op) in ops.iter().enumerate() {
        let cell = &mut cells[op.cell() as usize];
        if matches!(op.code(), TAKE | NEED) && *cell < op.amount() {
            return Told::failed(i as u32 + 1, *cell);
        }
        match op.code() {
            TAKE => *cell -= op.amount(),
            ADD => *cell += op.amount(),
            _ => {}
        }
        told.numbers[i] = *cell;
    }
    told
}

/// Runs what a transaction was asked at a partition; false if it fails. What was believed must be what comes out.
fn run_alone(number: usize, partition: usize, part: &Part, cells: &mut [u32; SHELVES]) -> Result<bool, Failure> {
    for (i, ops) in part.fragments.iter().enumerate() {
        let told = run_fragment(cells, ops);
        if let Some(was) = part.told.get(i).filter(|&&was| was != told) {
            fail!(
                "the answer of {number} at partition {partition} in round {} differs: it was place {} and {} {}, and \
                 one at a time it is place {} and {} {}",
                i + 1,
                was.place,
                was.numbers[0],
                was.numbers[1],
                told.place,
                told.numbers[0],
                told.numbers[1]
            );
        }
        if told.place != 0 {
            return Ok(false);
        }
    }
    Ok(true)
}

impl World {
    /// What committed, one at a time in number order. Each one that was aborted is tried too: what was believed of it
    /// before must be what it would have given there.
    fn check_partition(&mut self, partition: usize) -> Result<(), Failure> {
        let mut cells = [STOCK; SHELVES];
        let counts = &mut self.net.counts;
        for (number, transaction) in
            self.transactions.iter().enumerate().filter(|(_, t)| t.parts[partition].takes_part())
        {
            let part = &transaction.parts[partition];
            let before = cells;
            let done = run_alone(number, partition, part, &mut cells)?;
            if !done && transaction.decision == Some(Decision::Commit) {
                fail!("{number} was committed, and one at a time it fails");
            }
            if !done || transaction.decision == Some(Decision::Abort) {
                cells = before;
            } else if transaction.coordinator == 0 {
                let op = part.fragments[0][0];
                counts.put_in += if op.code() == ADD { u64::from(op.amount()) } else { 0 };
                counts.taken_out += if op.code() == TAKE { u64::from(op.amount()) } else { 0 };
            }
        }
        for (i, (has, is)) in self.hosts[partition].cells.into_iter().zip(cells).enumerate() {
            if has != is {
                fail!("shelf {i} of partition {partition} differs: it has {has}, and one at a time it is {is}");
            }
        }
        Ok(())
    }

    /// Nothing is under way any more, so whatever is not over is stuck.
    fn check_over(&self) -> Result<(), Failure> {
        for number in 1..=self.options.asked as usize {
            let over = |t: &Transaction| {
                t.parts.iter().filter(|part| part.takes_part()).all(|part| match t.coordinator {
                    0 => part.believed() == 1,
                    _ => part.acknowledged,
                })
            };
            if !self.transactions.get(number).is_some_and(over) {
                fail!("nothing is under way, and {number} is not over: it is stuck");
            }
        }
        Ok(())
    }

    fn stock(&self) -> u64 {
        self.hosts.iter().flat_map(|host| &host.cells).map(|&cell| u64::from(cell)).sum()
    }

    fn check(&mut self) -> Result<(), Failure> {
        self.check_over()?;
        for partition in 0..PARTITIONS {
            self.check_partition(partition)?;
        }
        let counts = &self.net.counts;
        if self.stock() + counts.taken_out != first_stock() + counts.put_in {
            fail!("stock was lost or found");
        }
        Ok(())
    }

    fn print_summary(&self) {
        let (options, net, counts) = (&self.options, &self.net, &self.net.counts);
        let by = SCHEMES.iter().find(|(_, scheme)| *scheme == options.scheme).map_or("", |(name, _)| name);
        println!(
            "{} transactions from seed {} by {by}, coordinators: {}",
            options.asked, options.seed, options.coordinators
        );
        println!(
            "network: up to {} ticks and at times eightfold, one in {} doubled, one in {} lost",
            net.slowest, net.doubled, net.lost
        );
        println!("singles: {} done, {} failed", counts.sold, counts.failed_singles);
        println!(
            "multis: {} committed, {} aborted since one failed, {} given up",
            counts.committed, counts.failed_multis, counts.given_up
        );
        println!(
            "answers: {} acted on, {} stale, {} old, {} late; largest attempt {}",
            counts.believed, counts.stale, counts.old, counts.late, counts.largest_attempt
        );
        println!(
            "messages: {}, in {} copies, {} lost, {} overtaken",
            counts.messages, counts.copies, counts.lost, counts.overtaken
        );
        print!("calls: {} accepted", counts.accepted);
        for (refusal, count) in Refusal::ALL.iter().zip(counts.refusals).filter(|(_, count)| *count != 0) {
            print!(", {count} refused by {}", refusal.number());
        }
        println!(
            "\nstock: {}, put in {}, taken out {}, left {}",
            first_stock(),
            counts.put_in,
            counts.taken_out,
            self.stock()
        );
        println!("every shelf and every answer that was acted on is as one at a time");
    }
}

fn first_stock() -> u64 {
    (PARTITIONS * SHELVES) as u64 * u64::from(STOCK)
}

// ---- The program ----------------------------------------------------------------------------------------------------

const SCHEMES: [(&str, Option<Scheme>); 3] =
    [("speculation", Some(Scheme::Speculation)), ("blocking", Some(Scheme::Blocking)), ("mixed", None)];

fn read_words(mut words: impl Iterator<Item = String>) -> Option<Options> {
    let mut options =
        Options { asked: 2000, seed: 1, scheme: Some(Scheme::Speculation), coordinators: 1, old_rule: false };
    while let Some(word) = words.next() {
        if word == "--old-rule" {
            options.old_rule = true;
            continue;
        }
        let value = words.next()?;
        let number = |least: u64, most: u64| value.parse().ok().filter(|n| (least..=most).contains(n));
        match word.as_str() {
            "--transactions" => options.asked = number(0, MOST_TRANSACTIONS)? as u32,
            "--seed" => options.seed = number(0, u64::MAX)?,
            "--coordinators" => options.coordinators = number(1, COORDINATORS as u64)? as u32,
            "--scheme" => options.scheme = SCHEMES.iter().find(|(name, _)| *name == value)?.1,
            _ => return None,
        }
    }
    Some(options)
}

fn run(options: Options) -> Result<(), Failure> {
    let mut world = World::new(options)?;
    world.run()?;
    world.check()?;
    world.print_summary();
    Ok(())
}

fn main() -> ExitCode {
    let Some(options) = read_words(std::env::args().skip(1)) else {
        eprintln!(
            "transfers [--transactions N] [--seed S] [--scheme speculation|blocking|mixed] [--coordinators 1|2] \
             [--old-rule]"
        );
        return ExitCode::from(2);
    };
    match run(options) {
        Ok(()) => ExitCode::SUCCESS,
        Err(Failure(words)) => {
            eprintln!("transfers: {words}");
            ExitCode::FAILURE
        }
    }
}
