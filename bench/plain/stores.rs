// Both stores, written plainly.
use crate::random::Generator;

#[derive(Clone, Copy, PartialEq, Eq, PartialOrd, Ord)]
pub struct Fact {
    pub relation: u8,
    pub key: u32,
    pub value: i32,
}

pub enum Fault {
    NotTaken,
    Full,
}

pub trait Store {
    fn count(&self) -> usize;
    fn put(&mut self, fact: Fact) -> Result<bool, Fault>;
    fn drop_fact(&mut self, fact: Fact) -> bool;
}

pub struct List {
    facts: Vec<Fact>,
    places: usize,
}

impl List {
    pub fn new(places: usize) -> List {
        List { facts: Vec::with_capacity(places), places }
    }

    pub fn facts(&self) -> &[Fact] {
        &self.facts
    }
}

impl Store for List {
    fn count(&self) -> usize {
        self.facts.len()
    }

    fn put(&mut self, fact: Fact) -> Result<bool, Fault> {
        let range = -1_000_000_000..=1_000_000_000;
        if fact.relation > 15 || fact.key > 65_535 || !range.contains(&fact.value) {
            return Err(Fault::NotTaken);
        }
        match self.facts.binary_search(&fact) {
            Ok(_) => Ok(false),
            Err(_) if self.facts.len() == self.places => Err(Fault::Full),
            Err(at) => {
                self.facts.insert(at, fact);
                Ok(true)
            }
        }
    }

    fn drop_fact(&mut self, fact: Fact) -> bool {
        match self.facts.binary_search(&fact) {
            Ok(at) => {
                self.facts.remove(at);
                true
            }
            Err(_) => false,
        }
    }
}

pub struct Grid {
    words: [u64; 1024],
}

impl Grid {
    pub fn new() -> Grid {
        Grid { words: [0; 1024] }
    }

    fn takes(fact: Fact) -> bool {
        fact.relation <= 15 && fact.key <= 63 && (0..=63).contains(&fact.value)
    }

    fn place(fact: Fact) -> (usize, u64) {
        (fact.relation as usize * 64 + fact.key as usize, 1 << fact.value)
    }
}

impl Store for Grid {
    fn count(&self) -> usize {
        self.words.iter().map(|word| word.count_ones() as usize).sum()
    }

    fn put(&mut self, fact: Fact) -> Result<bool, Fault> {
        if !Grid::takes(fact) {
            return Err(Fault::NotTaken);
        }
        let (word, bit) = Grid::place(fact);
        let new = self.words[word] & bit == 0;
        self.words[word] |= bit;
        Ok(new)
    }

    fn drop_fact(&mut self, fact: Fact) -> bool {
        if !Grid::takes(fact) {
            return false;
        }
        let (word, bit) = Grid::place(fact);
        let present = self.words[word] & bit != 0;
        self.words[word] &= !bit;
        present
    }
}

pub struct Work {
    pub changes: u32,
    pub count: usize,
}

pub fn random_fact(generator: &mut Generator, keys: usize, values: usize) -> Fact {
    let relation = (generator.below(16) & 0xff) as u8;
    let key = (generator.below(keys) & 0xffff) as u32;
    let value = (generator.below(values) & 0xffff) as i32;
    Fact { relation, key, value }
}

pub fn puts_and_drops<S: Store>(store: &mut S, steps: u32, keys: usize, values: usize) -> Work {
    let mut generator = Generator::new(1);
    let mut changes: u32 = 0;
    for _ in 0..steps {
        let fact = random_fact(&mut generator, keys, values);
        let changed = if generator.below(3) == 0 {
            store.drop_fact(fact)
        } else {
            store.put(fact).unwrap_or(false)
        };
        if changed {
            changes = changes.wrapping_add(1);
        }
    }
    Work { changes, count: store.count() }
}
