//! Calls the static library and the second program with the same arguments,
//! chosen by chance, and compares all that each leaves behind.

mod accept;
mod back;
mod bundles;
mod calls;
mod cases;
mod desk;
mod index;
mod joined;
mod library;
mod memory;
mod met;
mod reference;
mod replay;
mod running;
mod stock;
mod streams;
mod watch;

use std::env;
use std::process::exit;

use calls::{Answer, Buffer, Call, Case, Signature, SIGNATURES};
use library::Grounds;
use memory::{Ground, Stand, CANARY, SHIFTS, VAST, VAST_BYTES};
use second::chance::Chance;
use second::numbers::STREAM_LIMIT;
use second::text::value;
use stock::{Stock, SERVES};

const USAGE: &str = "\
differ [SEED [CALLS]]      calls by chance, the library beside the second program
differ replay SEED INDEX   one of them again, with its arguments";

const SEED: u64 = 1;
const COUNT: u64 = 200_000;

/// Differing calls that are printed; the others are only counted.
const PRINTED: u64 = 3;

fn main() {
    let words: Vec<String> = env::args().skip(1).collect();
    let words: Vec<&str> = words.iter().map(String::as_str).collect();
    let number = |word: &str| {
        word.parse().unwrap_or_else(|_| {
            eprintln!("{} is no number\n{}", word, USAGE);
            exit(2)
        })
    };
    let holds = match words[..] {
        [] => differ(SEED, COUNT),
        ["replay", seed, index] => again(number(seed), number(index)),
        [seed] => differ(number(seed), COUNT),
        [seed, count] => differ(number(seed), number(count)),
        _ => {
            eprintln!("{}", USAGE);
            exit(2)
        }
    };
    exit(if holds { 0 } else { 1 });
}

/// Both sides' memory, and the stock last used.
pub struct Bench {
    seed: u64,
    grounds: Grounds,
    stock: (u64, Stock),
}

impl Bench {
    fn new(seed: u64) -> Bench {
        let most = SIGNATURES
            .iter()
            .map(|signature| signature.buffers.len())
            .max();
        let room = 2 * STREAM_LIMIT + 2 * CANARY + SHIFTS;
        Bench {
            seed,
            grounds: Grounds {
                each: (0..most.unwrap_or(0)).map(|_| Ground::new(room)).collect(),
                vast: Ground::new(VAST + VAST_BYTES),
            },
            stock: (0, Stock::of(seed, 0)),
        }
    }

    fn case(&mut self, index: u64) -> Case {
        let number = index / SERVES;
        if self.stock.0 != number {
            self.stock = (number, Stock::of(self.seed, number));
        }
        cases::case(&mut Chance::of(self.seed, index), &self.stock.1)
    }

    /// What the library and what the second program make of a case.
    fn answers(&mut self, case: &Case) -> (Answer, Answer) {
        let library = library::answer(case, &mut self.grounds);
        (library, reference::answer(case, &mut self.grounds.vast))
    }
}

fn differ(seed: u64, count: u64) -> bool {
    let mut bench = Bench::new(seed);
    watch::start(seed);
    let mut tally = Tally::new();
    let mut differing = 0;
    for index in 0..count {
        let case = bench.case(index);
        watch::over(index);
        let (library, reference) = bench.answers(&case);
        if library != reference {
            differing += 1;
            if differing <= PRINTED {
                print(seed, index, &case, &library, &reference);
            }
        }
        tally.count(index, case.call, &reference.outcome(&case));
    }
    let complete = tally.print();
    let fed = running::differ(seed, count / running::SERVES);
    let back = back::differ(seed, count / back::SERVES);
    let accepted = accept::differ(seed, count / accept::SERVES);
    let joined = joined::differ(&mut bench, seed, count / joined::SERVES);
    let indexed = index::differ(seed, count / index::SERVES);
    let replayed = replay::differ(seed, count / replay::SERVES);
    let copied = desk::differ(seed, count / desk::SERVES);
    println!("differ: {} calls, {} differ", count, differing);
    differing == 0 && complete && fed && back && accepted && joined && indexed && replayed && copied
}

/// How often each answer of each call was met.
struct Tally(Vec<(&'static Signature, &'static str, u64)>);

impl Tally {
    fn new() -> Tally {
        let mut met = Vec::new();
        for signature in &SIGNATURES {
            met.extend(signature.outcomes.iter().map(|&name| (signature, name, 0)));
        }
        Tally(met)
    }

    fn count(&mut self, index: u64, call: Call, outcome: &str) {
        let met = self
            .0
            .iter_mut()
            .find(|(signature, name, _)| signature.call == call && *name == outcome);
        match met {
            Some((_, _, times)) => *times += 1,
            None => panic!("call {}: {} is no outcome of its call", index, outcome),
        }
    }

    /// Prints the table, then what was never met; says whether that is nothing.
    fn print(&self) -> bool {
        for (signature, outcome, times) in &self.0 {
            println!("{:24}{:8}{:9}", signature.name, outcome, times);
        }
        let never: Vec<_> = self.0.iter().filter(|(_, _, times)| *times == 0).collect();
        for (signature, outcome, _) in &never {
            println!("differ: {} never gave {}", signature.name, outcome);
        }
        never.is_empty()
    }
}

fn again(seed: u64, index: u64) -> bool {
    let mut bench = Bench::new(seed);
    watch::start(seed);
    let case = bench.case(index);
    print_case(seed, index, &case);
    watch::over(index);
    let (library, reference) = bench.answers(&case);
    print_answers(&case, &library, &reference);
    library == reference
}

fn print(seed: u64, index: u64, case: &Case, library: &Answer, reference: &Answer) {
    print_case(seed, index, case);
    print_answers(case, library, reference);
    println!("again: differ replay {} {}", seed, index);
    println!();
}

fn print_case(seed: u64, index: u64, case: &Case) {
    let signature = case.call.signature();
    println!("call {} of seed {}: {}", index, seed, signature.name);
    if let Some(name) = signature.number {
        println!("  {} {}", name, case.number);
    }
    if case.call.knows_layouts() {
        println!("  layout {}", case.layout.0);
    }
    if case.call == Call::Read {
        println!("  {:?}", case.asked);
    }
    for (name, buffer) in signature.buffers.iter().zip(&case.buffers) {
        println!("  {} {}: {}", name, described(buffer), value(&buffer.bytes));
    }
}

fn described(buffer: &Buffer) -> String {
    let bytes = buffer.length();
    match buffer.stand {
        _ if buffer.more > 0 => {
            format!("{} bytes, {} of them zeros at the end", bytes, buffer.more)
        }
        Stand::Between(_) => format!("{} bytes", bytes),
        Stand::AtStart => format!("{} bytes, at the start of a page", bytes),
        Stand::AtEnd => format!("{} bytes, at the end of a page", bytes),
        Stand::Nowhere(address) => format!("0 bytes at address {:#x}", address),
        Stand::Within(other, from) => {
            format!("{} bytes, from byte {} of argument {}", bytes, from, other)
        }
    }
}

/// Both answers in full, and every buffer that is not the same in both.
fn print_answers(case: &Case, library: &Answer, reference: &Answer) {
    let signature = case.call.signature();
    for (who, answer) in [("library", library), ("second program", reference)] {
        print!("{}: {}", who, answer.number);
        for (name, out) in signature.outs.iter().zip(&answer.outs) {
            print!(", {} {}", name, out);
        }
        println!();
    }
    for name in &library.strayed {
        println!("the library wrote beside {}", name);
    }
    for (index, name) in signature.buffers.iter().enumerate() {
        if library.after[index] != reference.after[index] {
            println!(
                "{} after the library:        {}",
                name,
                value(&library.after[index])
            );
            println!(
                "{} after the second program: {}",
                name,
                value(&reference.after[index])
            );
        }
    }
    let same = library == reference;
    println!("{}", if same { "the same" } else { "they differ" });
}
