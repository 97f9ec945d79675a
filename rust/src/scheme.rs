//! The schemes.

/// When a waiting transaction may run. The schemes have the same record, limits and refusals, and differ in nothing else.
///
/// A record keeps no scheme: each call names its own ([`crate::Engine::call_by`]), and calls by both may follow each
/// other on one engine. Whichever they are, the same events are accepted and refused, the same transactions settle in
/// the same order, singles get the same answers in the same calls, attempts aside, and the cells are the same whenever
/// nothing is live.
#[derive(Clone, Copy, Debug, PartialEq, Eq, Hash)]
pub enum Scheme {
    /// Runs what arrives behind an undecided multi on the guess that it commits, up to [`crate::DEPTH`] deep. An abort
    /// undoes what was speculated and runs it again, in its next attempt. [`crate::Engine::call`] does this.
    Speculation,
    /// Runs nothing while a multi is undecided. Where all calls since the start were by blocking, nothing is undone but
    /// the multi that is aborted, a multi is answered only once it is the front, and every answer is sent without a
    /// dependence. What speculation has left stays: an abort undoes it, and a commit settles it and releases its held
    /// answers, with their dependences.
    Blocking,
}

impl Scheme {
    /// Both of them.
    pub const ALL: [Scheme; 2] = [Scheme::Speculation, Scheme::Blocking];
}
