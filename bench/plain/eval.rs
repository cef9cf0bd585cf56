// Values of formulas over a record, three-valued while it runs and two-valued once it is finished.
use crate::rules::{Node, Window};

#[derive(Clone, Copy, PartialEq, Eq, PartialOrd, Ord)]
pub enum Three {
    False,
    Undecided,
    True,
}

use Three::{False, True, Undecided};

pub trait Truth: Copy {
    fn yes() -> Self;
    fn no() -> Self;
    fn not(self) -> Self;
    fn and(self, other: Self) -> Self;
    fn or(self, other: Self) -> Self;
}

impl Truth for bool {
    fn yes() -> bool {
        true
    }
    fn no() -> bool {
        false
    }
    fn not(self) -> bool {
        !self
    }
    fn and(self, other: bool) -> bool {
        self && other
    }
    fn or(self, other: bool) -> bool {
        self || other
    }
}

impl Truth for Three {
    fn yes() -> Three {
        True
    }
    fn no() -> Three {
        False
    }
    fn not(self) -> Three {
        match self {
            False => True,
            Undecided => Undecided,
            True => False,
        }
    }
    fn and(self, other: Three) -> Three {
        self.min(other)
    }
    fn or(self, other: Three) -> Three {
        self.max(other)
    }
}

struct Record<'a, K> {
    stamps: &'a [u64],
    rows: &'a [u64],
    pending: K,
    nodes: usize,
}

impl Window {
    fn holds(self, distance: u64) -> bool {
        self.low <= distance && self.high.is_none_or(|high| distance <= high)
    }
}

impl<K: Truth> Record<'_, K> {
    fn distance(&self, i: usize, j: usize) -> u64 {
        self.stamps[j] - self.stamps[i]
    }

    fn open(&self, w: Window, i: usize) -> K {
        let reached = self.distance(i, self.stamps.len() - 1);
        if w.high.is_some_and(|high| reached >= high) { K::no() } else { self.pending }
    }

    fn until(&self, w: Window, first: impl Fn(usize) -> K, second: impl Fn(usize) -> K, i: usize) -> K {
        let mut kept = K::yes();
        let mut found = K::no();
        for j in i..self.stamps.len() {
            if w.holds(self.distance(i, j)) {
                found = found.or(kept.and(second(j)));
            }
            kept = kept.and(first(j));
        }
        found.or(kept.and(self.open(w, i)))
    }

    fn since(&self, w: Window, first: impl Fn(usize) -> K, second: impl Fn(usize) -> K, i: usize) -> K {
        let mut kept = K::yes();
        let mut found = K::no();
        for j in (0..=i).rev() {
            if w.holds(self.distance(j, i)) {
                found = found.or(kept.and(second(j)));
            }
            kept = kept.and(first(j));
        }
        found
    }

    fn sometime(&self, w: Window, operand: impl Fn(usize) -> K, i: usize) -> K {
        let mut found = K::no();
        for j in i..self.stamps.len() {
            let distance = self.distance(i, j);
            if w.high.is_some_and(|high| distance > high) {
                break;
            }
            if w.holds(distance) {
                found = found.or(operand(j));
            }
        }
        found.or(self.open(w, i))
    }

    fn once(&self, w: Window, operand: impl Fn(usize) -> K, i: usize) -> K {
        let mut found = K::no();
        for j in (0..=i).rev() {
            let distance = self.distance(j, i);
            if w.high.is_some_and(|high| distance > high) {
                break;
            }
            if w.holds(distance) {
                found = found.or(operand(j));
            }
        }
        found
    }

    fn next(&self, w: Window, operand: impl Fn(usize) -> K, i: usize) -> K {
        if i + 1 == self.stamps.len() {
            self.open(w, i)
        } else if w.holds(self.distance(i, i + 1)) {
            operand(i + 1)
        } else {
            K::no()
        }
    }

    fn value(&self, values: &[K], node: Node, m: usize, i: usize) -> K {
        let at = |a: usize| move |j: usize| values[j * self.nodes + a];
        let not_at = |a: usize| move |j: usize| values[j * self.nodes + a].not();
        match node {
            Node::True => K::yes(),
            Node::Not(a) => at(a)(i).not(),
            Node::And(a, b) => at(a)(i).and(at(b)(i)),
            Node::Or(a, b) => at(a)(i).or(at(b)(i)),
            Node::Implies(a, b) => at(a)(i).not().or(at(b)(i)),
            Node::Next(w, a) => self.next(w, at(a), i),
            Node::AllNext(w, a) => self.next(w, not_at(a), i).not(),
            Node::Sometime(w, a) => self.sometime(w, at(a), i),
            Node::Always(w, a) => self.sometime(w, not_at(a), i).not(),
            Node::Until(w, a, b) => self.until(w, at(a), at(b), i),
            Node::Previous(w, a) => {
                if i > 0 && w.holds(self.distance(i - 1, i)) { at(a)(i - 1) } else { K::no() }
            }
            Node::Once(w, a) => self.once(w, at(a), i),
            Node::SoFar(w, a) => self.once(w, not_at(a), i).not(),
            Node::Since(w, a, b) => self.since(w, at(a), at(b), i),
            _ => {
                if self.rows[i] >> m & 1 == 1 { K::yes() } else { K::no() }
            }
        }
    }
}

// The value of every node at every state, state by state.
pub fn evaluate<K: Truth>(nodes: &[Node], stamps: &[u64], rows: &[u64], pending: K, values: &mut Vec<K>) {
    let record = Record { stamps, rows, pending, nodes: nodes.len() };
    values.clear();
    values.resize(nodes.len() * stamps.len(), K::no());
    for (m, node) in nodes.iter().enumerate() {
        for i in 0..stamps.len() {
            values[i * nodes.len() + m] = record.value(values, *node, m, i);
        }
    }
}
