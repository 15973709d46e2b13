//! A watch fed in stretches: for any cutting of a text the ends joined and the last mask are those of the whole text, and the ends are match's.

use crate::checks::{fresh, Checks};
use crate::match_ends::{seeded, EXAMPLES, LONGEST_TEXT};
use crate::seen::Seen;
use outside_checks::driver::{Reply, Watched};
use outside_checks::generate::{sized, small, Random};
use outside_checks::independent::{ends, parse, states, Edges, Sequence, Watch};
use outside_checks::texts::{cut, text};

pub fn all(checks: &mut Checks) {
    checks.part("watch: document 01's examples in every cutting", examples);
    checks.part("watch: rules, texts and cuttings from seeds", seeds);
    checks.part("watch: cycles cut in their middle", cycles);
    checks.part("watch: long stretches", long_stretches);
}

/// What is fed: a rule's tree and edges, and the image that the proved build gave.
struct Fed<'a> {
    checks: &'a mut Checks,
    seen: &'a mut Seen,
    name: String,
    tree: &'a Sequence,
    edges: Edges<'a>,
    image: Vec<u64>,
}

impl Fed<'_> {
    fn of<'a>(checks: &'a mut Checks, seen: &'a mut Seen, rule: &[u8], tree: &'a Sequence) -> Option<Fed<'a>> {
        let name = format!("rule {}", rule.escape_ascii());
        let image = checks.built(&name, rule)?;
        Some(Fed { checks, seen, name, tree, edges: Edges::of(tree), image })
    }

    /// The independent program's step; none from a mask of other states.
    fn step(&self, from: &Watch, stretch: &[u8]) -> Option<(Vec<u32>, Watch)> {
        Some(self.edges.step(self.edges.live(&from.mask)?, from.place, stretch))
    }

    /// A watch begun and fed these stretches, each call beside the independent program: the ends joined, and the watch afterwards.
    fn fed(&mut self, what: &str, stretches: &[&[u8]]) -> Option<Watched> {
        let (ends, begun) = self.edges.begin();
        let lent = fresh(begun.mask.len());
        let got = self.checks.begin(what, &self.image, &lent, &Watched::of(0, &ends, ends.len() + 1, begun.clone()))?;
        let (mut joined, mut watch) = (got.found.written().to_vec(), got.watch);
        for stretch in stretches {
            let (ends, after) = self.step(&watch, stretch)?;
            let (anew, _) = self.step(&Watch { place: watch.place, ..begun.clone() }, stretch)?;
            self.seen.note("stretches of no bytes", stretch.is_empty());
            self.seen.note("of one byte", stretch.len() == 1);
            self.seen.note("with ends", !ends.is_empty());
            self.seen.note("with ends that a watch begun there would miss", ends != anew);
            let got = self.checks.step(what, &self.image, &watch, stretch, &Watched::of(0, &ends, ends.len() + stretch.len() % 3, after))?;
            joined.extend(got.found.written());
            watch = got.watch;
        }
        Some(Watched::of(0, &joined, joined.len(), watch))
    }

    /// What the independent program gives for a whole text: its ends by backtracking, and the last watch.
    fn whole(&self, text: &[u8]) -> Watched {
        let (_, watch) = self.step(&self.edges.begin().1, text).expect("a mask");
        let ends = ends(self.tree, text);
        Watched::of(0, &ends, ends.len(), watch)
    }

    /// Every cutting gives what the whole text gives, and match finds the ends joined.
    fn cuttings(&mut self, text: &[u8], cuttings: &[Vec<&[u8]>]) {
        let whole = self.whole(text);
        let mut last: Option<Watched> = None;
        for cutting in cuttings {
            let lengths: Vec<usize> = cutting.iter().map(|s| s.len()).collect();
            let what = format!("{}, {} bytes cut as {lengths:?}", self.name, text.len());
            let Some(watched) = self.fed(&what, cutting) else { continue };
            self.checks.note(&format!("{what}: the whole text"), watched.difference(&whole));
            if let Some(last) = last {
                self.checks.note(&format!("{what}: another cutting"), watched.difference(&last));
            }
            last = Some(watched);
        }
        if let Some(watched) = last.filter(|_| text.len() <= LONGEST_TEXT) {
            self.checks.match_ends(&format!("{}: match's ends", self.name), &self.image, text, &watched.found);
        }
    }
}

/// Every cutting into stretches of some bytes, and each again with empty ones before, between and after them.
fn every_cutting(text: &[u8]) -> Vec<Vec<&[u8]>> {
    let mut all = Vec::new();
    for cuts in 0..1 << text.len().saturating_sub(1) {
        let ends = (1..=text.len()).filter(|at| *at == text.len() || cuts >> (at - 1) & 1 == 1);
        let mut start = 0;
        let stretches: Vec<&[u8]> = ends.map(|end| &text[std::mem::replace(&mut start, end)..end]).collect();
        all.push(stretches.iter().flat_map(|s| [&[][..], s]).chain([&[][..]]).collect());
        all.push(stretches);
    }
    all
}

fn examples(checks: &mut Checks) {
    let mut seen = Seen::default();
    for (rule, text, ends) in EXAMPLES {
        let tree = parse(rule.as_bytes()).expect("a rule");
        let Some(mut fed) = Fed::of(checks, &mut seen, rule.as_bytes(), &tree) else { continue };
        let whole = fed.whole(text.as_bytes());
        fed.checks.same(&format!("the ends of {rule} on {text}"), whole.found.written(), ends);
        fed.cuttings(text.as_bytes(), &every_cutting(text.as_bytes()));
    }
    seen.tell(checks, "document 01's examples cut", 20);
}

fn seeds(checks: &mut Checks) {
    let mut seen = Seen::default();
    for seed in (0..1700).step_by(15).chain((1700..2100).step_by(4)).chain((2100..2300).step_by(2)) {
        let Some((mut r, rule, tree)) = seeded(seed) else { continue };
        seen.tree(&tree);
        let Some(mut fed) = Fed::of(checks, &mut seen, &rule, &tree) else { continue };
        for most in [0, 12, 30, 3 * states(&tree)] {
            let length = r.below(most + 1);
            let text = text(&mut r, &tree, length);
            let bytes = if length <= 12 { text.chunks(1).collect() } else { cut(&mut r, &text, length / 4) };
            fed.cuttings(&text, &[vec![&text[..]], bytes, cut(&mut r, &text, length / 2 + 2)]);
        }
    }
    seen.tell(checks, "watched from seeds", 20);
}

/// Many rounds, whole and broken off, in stretches of every small length, of about a word's bits, and of any.
fn cycles(checks: &mut Checks) {
    let mut seen = Seen::default();
    let rules = ["x(abc)*y", "x((ab)*c)*y", "x(a?b?c)*y", "(x(abc)+y)*z", "x(a|bc)*y", "x(((ab)+c)+x?)*y", "x(a{70}b)*y", "x((a{63}b)*c)*y"];
    for (seed, rule) in (0..).zip(rules) {
        let (mut r, tree) = (Random::new(seed), parse(rule.as_bytes()).expect("a rule"));
        let Some(mut fed) = Fed::of(checks, &mut seen, rule.as_bytes(), &tree) else { continue };
        let round: Vec<u8> = if states(&tree) > 64 { [&[b'a'; 70][..], b"b"].concat() } else { b"abc".to_vec() };
        let rounds = |count: usize| [&b"x"[..], &round.repeat(count), b"y"].concat();
        let text = [rounds(5), rounds(3)[..round.len()].to_vec(), rounds(2), text(&mut r, &tree, 60)].concat();
        let even = (1..8).chain([63, 64, 65]).map(|length| text.chunks(length).collect());
        fed.cuttings(&text, &even.chain([cut(&mut r, &text, 9), cut(&mut r, &text, 90)]).collect::<Vec<_>>());
    }
    seen.tell(checks, "cycles cut", 20);
}

fn long_stretches(checks: &mut Checks) {
    let mut seen = Seen::default();
    even_stretches(checks, &mut seen);
    longest_stretches(checks, &mut seen);
    seen.tell(checks, "long stretches", 1);
}

/// Of one length, about as long as a word has bits and as there are bytes, for rules of more than a word.
fn even_stretches(checks: &mut Checks, seen: &mut Seen) {
    for (seed, wanted) in (0..).zip([66, 200, 450, 512]) {
        let mut r = Random::new(seed);
        let rule = sized(&mut r, wanted, seed as usize);
        let tree = parse(&rule).expect("a rule");
        let Some(mut fed) = Fed::of(checks, seen, &rule, &tree) else { continue };
        let text = text(&mut r, &tree, 1100);
        fed.cuttings(&text, &[63, 64, 65, 255, 256, 257, 512].map(|length| text.chunks(length).collect()));
    }
}

/// As long as can be, or of any length, of texts that are longer.
fn longest_stretches(checks: &mut Checks, seen: &mut Seen) {
    for seed in 0..8 {
        let mut r = Random::new(seed);
        let rule = if seed % 4 == 3 { sized(&mut r, 100, 2) } else { small(&mut r) };
        let tree = parse(&rule).expect("a rule");
        let Some(mut fed) = Fed::of(checks, seen, &rule, &tree) else { continue };
        let length = [LONGEST_TEXT, LONGEST_TEXT + 1, 2 * LONGEST_TEXT, r.between(LONGEST_TEXT, 200_000)][seed as usize % 4];
        let text = text(&mut r, &tree, length);
        fed.cuttings(&text, &[text.chunks(LONGEST_TEXT).collect(), cut(&mut r, &text, LONGEST_TEXT)]);
        seen.note("texts over 65,535 bytes", length > LONGEST_TEXT);
    }
}
