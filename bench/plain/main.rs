// The work of the crate `bench`, done the straightforward way in plain Rust: the same input, the same lines on
// standard output, times in microseconds on standard error.
mod eval;
mod random;
mod rules;
mod session;
mod stores;

use eval::Three;
use random::Generator;
use rules::Table;
use session::Session;
use std::time::Instant;
use stores::{Fact, Grid, List, Store};

fn time_store<S: Store>(name: &str, store: &mut S, steps: u32, keys: usize) {
    let start = Instant::now();
    let work = stores::puts_and_drops(store, steps, keys, 64);
    let micros = start.elapsed().as_micros();
    println!("{name}: {} changes, {} facts at the end", work.changes, work.count);
    eprintln!("{name}: {micros}");
}

fn time_reader(text: &[u8]) {
    let start = Instant::now();
    let mut nodes = 0;
    for _ in 0..1_000 {
        if let Ok(table) = rules::read(text) {
            nodes += table.nodes.len();
        }
    }
    let micros = start.elapsed().as_micros();
    println!("reader: {nodes} nodes");
    eprintln!("reader: {micros}");
}

// The verdicts that were given, and the time that the first 256 commits, all commits and the questions took.
struct Flight {
    verdicts: [u32; 3],
    first_half: u128,
    commits: u128,
    questions: u128,
}

fn fly(table: &Table) -> Flight {
    let mut session = Session::open(List::new(256), table);
    let mut generator = Generator::new(2);
    let mut verdicts = [0u32; 3];
    let (mut first_half, mut commits, mut questions) = (0, 0, 0);
    let mut stamp = 0;
    for state in 0..512 {
        let start = Instant::now();
        for step in 0..8 {
            let fact = stores::random_fact(&mut generator, 4, 5);
            let fact = Fact { value: fact.value * 200, ..fact };
            if step % 2 == 0 {
                session.put(fact);
            } else {
                session.drop_fact(fact);
            }
        }
        stamp += 1 + generator.below(7) as u64;
        session.commit(stamp);
        commits += start.elapsed().as_nanos();
        if state == 255 {
            first_half = commits;
        }
        let start = Instant::now();
        for rule in 1..=16 {
            for i in 0..=state {
                match session.verdict(rule, i) {
                    Some(Three::False) => verdicts[0] += 1,
                    Some(Three::Undecided) => verdicts[1] += 1,
                    Some(Three::True) => verdicts[2] += 1,
                    None => (),
                }
            }
        }
        questions += start.elapsed().as_nanos();
    }
    Flight { verdicts, first_half, commits, questions }
}

fn time_session(table: &Table) {
    let flight = fly(table);
    let [no, open, yes] = flight.verdicts;
    println!("session: {no} false, {open} undecided, {yes} true");
    eprintln!("commits: {}", flight.commits / 1_000);
    eprintln!("verdicts: {}", flight.questions / 1_000);
}

fn time_windows(windows: &str, table: &Table) {
    let flight = fly(table);
    eprintln!("256 commits, {windows}: {}", flight.first_half / 1_000);
    eprintln!("512 commits, {windows}: {}", flight.commits / 1_000);
    eprintln!("verdicts, {windows}: {}", flight.questions / 1_000);
}

fn time_judge(table: &Table) {
    let mut generator = Generator::new(4);
    let (mut stamps, mut rows) = (Vec::new(), Vec::new());
    let mut stamp = 0;
    for _ in 0..512 {
        stamp += 1 + generator.below(7) as u64;
        stamps.push(stamp);
        rows.push((generator.below(1 << 31) as u64) << 33 | generator.below(1 << 31) as u64);
    }
    let start = Instant::now();
    let mut yes = 0;
    let mut values = Vec::new();
    for _ in 0..20 {
        eval::evaluate(&table.nodes, &stamps, &rows, false, &mut values);
        for (_, root) in &table.rules {
            for i in 0..512 {
                if values[i * table.nodes.len() + root] {
                    yes += 1;
                }
            }
        }
    }
    let micros = start.elapsed().as_micros();
    println!("judge: {yes} true");
    eprintln!("judge: {micros}");
    // The same record once, which the other program also takes state by state.
    println!("growing record: {} true", yes / 20);
}

fn table_of(file: &str) -> Table {
    let text = std::fs::read(file).expect(file);
    rules::read(&text).unwrap_or_else(|_| panic!("{file} is refused"))
}

fn main() {
    let text = std::fs::read("rules.txt").expect("rules.txt");
    time_store("list of 256", &mut List::new(256), 300_000, 4);
    time_store("list of 65536", &mut List::new(65_536), 100_000, 1_024);
    time_store("grid", &mut Grid::new(), 1_000_000, 64);
    time_reader(&text);
    let Ok(table) = rules::read(&text) else {
        return;
    };
    time_session(&table);
    time_judge(&table);
    time_windows("30 ticks", &table_of("bounded.txt"));
    time_windows("no bound", &table_of("unbounded.txt"));
}
