// A session over a list of facts: every commit evaluates the table anew.
use crate::eval::{self, Three};
use crate::rules::{Node, Table};
use crate::stores::{Fact, List, Store};

pub struct Session<'t> {
    pub store: List,
    table: &'t Table,
    stamps: Vec<u64>,
    rows: Vec<u64>,
    values: Vec<Three>,
}

fn of(facts: &[Fact], relation: u8) -> impl Iterator<Item = &Fact> {
    facts.iter().filter(move |fact| fact.relation == relation)
}

fn answer(facts: &[Fact], node: Node) -> bool {
    match node {
        Node::Some(r, low, high) => of(facts, r).any(|f| low <= f.value && f.value <= high),
        Node::Every(r, low, high) => of(facts, r).all(|f| low <= f.value && f.value <= high),
        Node::Fact(relation, key, value) => facts.binary_search(&Fact { relation, key, value }).is_ok(),
        Node::Number(r, least, most) => {
            let count = of(facts, r).count() as u32;
            least <= count && count <= most
        }
        Node::Refer(r, s) => of(facts, r).all(|f| of(facts, s).any(|g| g.key == f.key)),
        Node::Level(r, s) => of(facts, r).all(|f| of(facts, s).all(|g| g.key != f.key || f.value <= g.value)),
        _ => false,
    }
}

impl Session<'_> {
    pub fn open(store: List, table: &Table) -> Session<'_> {
        Session { store, table, stamps: Vec::new(), rows: Vec::new(), values: Vec::new() }
    }

    pub fn put(&mut self, fact: Fact) -> bool {
        self.store.put(fact).unwrap_or(false)
    }

    pub fn drop_fact(&mut self, fact: Fact) -> bool {
        self.store.drop_fact(fact)
    }

    pub fn commit(&mut self, stamp: u64) {
        let mut row = 0;
        for (m, node) in self.table.nodes.iter().enumerate() {
            if answer(self.store.facts(), *node) {
                row |= 1 << m;
            }
        }
        self.stamps.push(stamp);
        self.rows.push(row);
        eval::evaluate(&self.table.nodes, &self.stamps, &self.rows, Three::Undecided, &mut self.values);
    }

    pub fn verdict(&self, rule: u8, state: usize) -> Option<Three> {
        let (_, root) = self.table.rules.iter().find(|(number, _)| *number == rule)?;
        self.values.get(state * self.table.nodes.len() + root).copied()
    }
}
