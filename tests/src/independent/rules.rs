//! Reading a rule.

use super::states::{can_be_empty, states};
use super::{is_plain, Class, Item, Mark, Repeat, Sequence, MOST_STATES, SIGNS};

struct Parser<'a> {
    rule: &'a [u8],
    at: usize,
    dot: Class,
}

/// The tree of a rule, if the bytes are one. A tree of more than 512 states may lack some that `+` asks for, but is left with more than 512.
pub fn parse(rule: &[u8]) -> Option<Sequence> {
    parse_with(Class::dot(), rule)
}

/// The same with this class for `.`.
pub fn parse_with(dot: Class, rule: &[u8]) -> Option<Sequence> {
    let mut parser = Parser { rule, at: 0, dot };
    let alternatives = parser.alternatives()?;
    (parser.at == rule.len()).then(|| bracketed(alternatives))
}

/// What bracketed alternatives add to the sequence outside: brackets round one vanish.
fn bracketed(mut alternatives: Vec<Sequence>) -> Sequence {
    if alternatives.len() == 1 {
        alternatives.pop().unwrap()
    } else {
        vec![Item::Union(Mark::Unmarked, alternatives)]
    }
}

/// A `?` on a group that can already be empty is dropped.
fn optional(alternatives: Vec<Sequence>) -> Sequence {
    if alternatives.iter().any(|a| can_be_empty(a)) {
        bracketed(alternatives)
    } else {
        vec![Item::Union(Mark::Optional, alternatives)]
    }
}

fn cycle(body: Sequence) -> Item {
    Item::Union(Mark::Repeated, vec![body])
}

/// The group, and then a cycle of it. Each `+` round another doubles the states, so a group that alone has too many is not copied.
fn at_least_once(mut group: Sequence) -> Sequence {
    if states(&group) <= MOST_STATES {
        group.push(cycle(group.clone()));
    }
    group
}

impl Parser<'_> {
    fn peek(&self) -> Option<u8> {
        self.rule.get(self.at).copied()
    }

    fn next(&mut self) -> Option<u8> {
        let byte = self.peek()?;
        self.at += 1;
        Some(byte)
    }

    fn take(&mut self, byte: u8) -> bool {
        let found = self.peek() == Some(byte);
        self.at += usize::from(found);
        found
    }

    fn alternatives(&mut self) -> Option<Vec<Sequence>> {
        let mut all = vec![self.sequence()?];
        while self.take(b'|') {
            all.push(self.sequence()?);
        }
        Some(all)
    }

    fn sequence(&mut self) -> Option<Sequence> {
        let mut items = Sequence::new();
        loop {
            if self.take(b'(') {
                let inner = self.alternatives()?;
                if !self.take(b')') {
                    return None;
                }
                items.extend(self.group(inner));
            } else {
                let class = self.letter()?;
                self.repeated(class, &mut items)?;
            }
            if matches!(self.peek(), None | Some(b'|' | b')')) {
                return Some(items);
            }
        }
    }

    /// A group's alternatives, with the sign that comes after them.
    fn group(&mut self, alternatives: Vec<Sequence>) -> Sequence {
        if self.take(b'?') {
            optional(alternatives)
        } else if self.take(b'*') {
            vec![cycle(bracketed(alternatives))]
        } else if self.take(b'+') {
            at_least_once(bracketed(alternatives))
        } else {
            bracketed(alternatives)
        }
    }

    fn letter(&mut self) -> Option<Class> {
        match self.peek()? {
            b'.' => {
                self.at += 1;
                Some(self.dot.clone())
            }
            b'[' => {
                self.at += 1;
                self.class()
            }
            b'\\' => self.escape().map(Class::one),
            byte if is_plain(byte) => {
                self.at += 1;
                Some(Class::one(byte))
            }
            _ => None,
        }
    }

    fn escape(&mut self) -> Option<u8> {
        self.at += 1;
        let byte = self.next()?;
        if byte == b'-' || SIGNS.contains(&byte) {
            return Some(byte);
        }
        if byte != b'x' {
            return None;
        }
        let mut value = 0;
        for _ in 0..2 {
            value = value * 16 + char::from(self.next()?).to_digit(16)?;
        }
        Some(value as u8)
    }

    fn single(&mut self) -> Option<u8> {
        match self.peek()? {
            b'\\' => self.escape(),
            byte if is_plain(byte) && byte != b'-' => self.next(),
            _ => None,
        }
    }

    fn class(&mut self) -> Option<Class> {
        let mut class = Class::none();
        loop {
            let low = self.single()?;
            let high = if self.take(b'-') { self.single()? } else { low };
            if high < low {
                return None;
            }
            for byte in low..=high {
                class.0[byte as usize] = true;
            }
            if self.take(b']') {
                return Some(class);
            }
        }
    }

    fn number(&mut self) -> Option<usize> {
        let start = self.at;
        while self.peek().is_some_and(|b| b.is_ascii_digit()) {
            self.at += 1;
        }
        let digits = &self.rule[start..self.at];
        if digits.is_empty() || digits.len() > 3 || (digits.len() > 1 && digits[0] == b'0') {
            return None;
        }
        Some(digits.iter().fold(0, |n, d| n * 10 + usize::from(d - b'0')))
    }

    fn repeated(&mut self, class: Class, items: &mut Sequence) -> Option<()> {
        let sign = match self.peek() {
            Some(b'?') => Repeat::Option,
            Some(b'*') => Repeat::Star,
            Some(b'+') => Repeat::Plus,
            Some(b'{') => {
                self.at += 1;
                let (low, high) = self.bounds()?;
                items.extend((low..high).map(|_| Item::Letter(class.clone(), Repeat::Option)));
                items.extend((0..low).map(|_| Item::Letter(class.clone(), Repeat::Once)));
                return Some(());
            }
            _ => {
                items.push(Item::Letter(class, Repeat::Once));
                return Some(());
            }
        };
        self.at += 1;
        items.push(Item::Letter(class, sign));
        Some(())
    }

    fn bounds(&mut self) -> Option<(usize, usize)> {
        let (low, high);
        if self.take(b',') {
            low = 0;
            high = self.number()?;
        } else {
            low = self.number()?;
            high = if self.take(b',') { self.number()? } else { low };
        }
        (self.take(b'}') && low <= high && high >= 1).then_some((low, high))
    }
}
