//! Calls of the driver compared with what is expected, and how many went well.

use outside_checks::driver::{begin_call, build_call, check_call, match_call, propose_call, read_back_call, step_call};
use outside_checks::driver::{Answer, Driver, Judged, Lent, Proposed, Reply, Watched};
use outside_checks::independent::{begin, build, check, match_ends, propose, read_back, step, Proposal, Watch};
use outside_checks::watches::lent;

pub use outside_checks::independent::LONGEST_IMAGE as LONGEST;

/// What a begin is lent: so many words and a place, all in the driver's pattern.
pub fn fresh(words: usize) -> Watch {
    lent(words, &u64::before)
}

pub struct Checks {
    pub driver: Driver,
    passed: usize,
    failed: usize,
}

impl Checks {
    pub fn start(driver: &str) -> Checks {
        Checks { driver: Driver::start(driver), passed: 0, failed: 0 }
    }

    pub fn note(&mut self, what: &str, difference: Option<String>) {
        let Some(difference) = difference else {
            self.passed += 1;
            return;
        };
        self.failed += 1;
        if self.failed <= 10 {
            println!("library: FAILED: {what}: {difference}");
        }
    }

    pub fn same<T: PartialEq + std::fmt::Debug>(&mut self, what: &str, got: T, expected: T) {
        let difference = (got != expected).then(|| format!("{got:?}, expected {expected:?}"));
        self.note(what, difference);
    }

    /// One call, compared whole; what it gave. Where it differs the call is printed, as the driver takes it.
    fn compare<R: Reply>(&mut self, what: &str, call: &str, expected: &R) -> Option<R> {
        let got = self.driver.call(call);
        let difference = got.as_ref().map_or_else(|why| Some(why.clone()), |answer: &R| answer.difference(expected));
        self.note(what, difference.map(|d| format!("{d}; the call: {call}")));
        got.ok()
    }

    pub fn build(&mut self, what: &str, rule: &[u8], expected: &Answer<u64>) -> Option<Answer<u64>> {
        let call = build_call(rule, expected.lent.len());
        self.compare(&format!("{what}, rule {}", rule.escape_ascii()), &call, expected)
    }

    pub fn read_back(&mut self, what: &str, image: &[u64], expected: &Answer<u8>) -> Option<Answer<u8>> {
        self.compare(what, &read_back_call(image, expected.lent.len()), expected)
    }

    pub fn match_ends(&mut self, what: &str, image: &[u64], text: &[u8], expected: &Answer<u32>) -> Option<Answer<u32>> {
        self.compare(what, &match_call(image, text, expected.lent.len()), expected)
    }

    pub fn begin(&mut self, what: &str, image: &[u64], lent: &Watch, expected: &Watched) -> Option<Watched> {
        self.compare(what, &begin_call(image, lent, expected.found.lent.len()), expected)
    }

    pub fn step(&mut self, what: &str, image: &[u64], lent: &Watch, stretch: &[u8], expected: &Watched) -> Option<Watched> {
        self.compare(what, &step_call(image, lent, stretch, expected.found.lent.len()), expected)
    }

    pub fn check(&mut self, what: &str, image: &[u64], text: &[u8], proposal: &Proposal, expected: &Judged) -> Option<Judged> {
        self.compare(what, &check_call(image, text, proposal), expected)
    }

    pub fn propose(&mut self, what: &str, image: &[u64], text: &[u8], end: u64, expected: &Proposed) -> Option<Proposed> {
        self.compare(what, &propose_call(image, text, end, expected.0.lent.len()), expected)
    }

    /// One build beside the independent program; the words afterwards.
    pub fn build_beside(&mut self, what: &str, rule: &[u8], room: usize) -> Vec<u64> {
        self.build(what, rule, &Answer::built(&build(rule, room), room)).map_or(Vec::new(), |answer| answer.lent)
    }

    /// One read back beside the independent program; what it gave.
    pub fn read_back_beside(&mut self, what: &str, image: &[u64], room: usize) -> Option<Answer<u8>> {
        let (number, written) = read_back(image, room);
        self.read_back(what, image, &Answer::of(number, &written, room))
    }

    /// One match beside the independent program; what it gave.
    pub fn match_beside(&mut self, what: &str, image: &[u64], text: &[u8], room: usize) -> Option<Answer<u32>> {
        let (number, ends) = match_ends(image, text);
        self.match_ends(what, image, text, &Answer::of(number, &ends, room))
    }

    /// One begin beside the independent program; what it gave.
    pub fn begin_beside(&mut self, what: &str, image: &[u64], lent: &Watch, room: usize) -> Option<Watched> {
        let (number, ends, after) = begin(image, lent);
        self.begin(what, image, lent, &Watched::of(number, &ends, room, after))
    }

    /// One step beside the independent program; what it gave.
    pub fn step_beside(&mut self, what: &str, image: &[u64], lent: &Watch, stretch: &[u8], room: usize) -> Option<Watched> {
        let (number, ends, after) = step(image, lent, stretch);
        self.step(what, image, lent, stretch, &Watched::of(number, &ends, room, after))
    }

    /// A begin and a step beside the independent program, with so many words lent.
    pub fn watch_beside(&mut self, what: &str, image: &[u64], width: usize, stretch: &[u8]) {
        self.begin_beside(what, image, &fresh(width), 1);
        self.step_beside(what, image, &Watch { mask: vec![1; width], place: 3 }, stretch, 4);
    }

    /// One check beside the independent program; what it gave.
    pub fn check_beside(&mut self, what: &str, image: &[u64], text: &[u8], proposal: &Proposal) -> Option<Judged> {
        self.check(what, image, text, proposal, &Judged::of(check(image, text, proposal)))
    }

    /// One call of the proposer beside the independent program; what it gave.
    pub fn propose_beside(&mut self, what: &str, image: &[u64], text: &[u8], end: u64, room: usize) -> Option<Proposed> {
        let proposed = self.propose(what, image, text, end, &Proposed::of(propose(image, text, end, room), room));
        self.proposal_beside(what, image, text, end, proposed.as_ref());
        proposed
    }

    /// What was proposed, if anything was, gets yes from the independent checker and from the library's.
    pub fn proposal_beside(&mut self, what: &str, image: &[u64], text: &[u8], end: u64, proposed: Option<&Proposed>) {
        if let Some(proposal) = proposed.and_then(|p| p.proposal(end)) {
            self.same(&format!("{what}: what was proposed"), check(image, text, &proposal), (0, true));
            self.check(&format!("{what}: what was proposed"), image, text, &proposal, &Judged { number: 0, yes: 1 });
        }
    }

    /// A check and a call of the proposer beside the independent program.
    pub fn spelling_beside(&mut self, what: &str, image: &[u64], text: &[u8]) {
        self.check_beside(what, image, text, &Proposal { start: 0, end: 1, states: vec![1] });
        self.propose_beside(what, image, text, text.len() as u64, text.len());
    }

    /// What the proved build gives for a rule that it must accept.
    pub fn built(&mut self, what: &str, rule: &[u8]) -> Option<Vec<u64>> {
        let answer = self.driver.call::<Answer<u64>>(&build_call(rule, LONGEST));
        let image = answer.and_then(|a| if a.number == 0 { Ok(a.written().to_vec()) } else { Err(format!("refused with {}", a.number)) });
        image.map_err(|why| self.note(&format!("{what}, rule {}", rule.escape_ascii()), Some(why))).ok()
    }

    /// The stack that calls take, against what include/lavumbishe.h asks of a caller.
    pub fn stack(&mut self, name: &str, provided: usize, calls: &[String]) {
        let mut most = 0;
        for call in calls {
            let taken = self.driver.stack(call).unwrap_or(usize::MAX);
            let more = (taken > provided).then(|| format!("{taken} bytes"));
            self.note(&format!("stack for the call {call}"), more);
            most = most.max(taken);
        }
        println!("library: the most stack that a {name} took: {most} bytes");
    }

    /// A part of the checks, and how it went.
    pub fn part(&mut self, name: &str, run: impl FnOnce(&mut Checks)) {
        let (passed, failed) = (self.passed, self.failed);
        run(self);
        println!("library: {name}: {} passed, {} failed", self.passed - passed, self.failed - failed);
    }

    /// Tells how all went; whether all went well.
    pub fn tell(&self) -> bool {
        println!("library: {} passed, {} failed", self.passed, self.failed);
        self.failed == 0
    }
}
