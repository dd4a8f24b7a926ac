//! The command line of the second program: one word says what is wanted.

use std::env;
use std::fs;
use std::io::{self, Read, Write};
use std::path::Path;
use std::process::exit;

use second::numbers::{DIGEST, DONE, MESSAGE_LIMIT, STREAM_LIMIT};
use second::text::value;
use second::{answers, compose, diffusion, digest, drawing, inputs, kat, lines, rows, trial};

const USAGE: &str = "\
second rows OUTDIR                expected outputs of the product's test programs
second kat hash I                 known-answer entries of hash instance I
second kat aead I                 known-answer entries of cipher instance I
second readings                   first known answers under every reading
second diffusion                  full diffusion and pair-matching period
second compose KEYFILE FONTFILE   orders on standard input, frames out
second lines KEYFILE FONTFILE     stream on standard input, listing out
second press KEYFILE FONTFILE     the same of a stream of any length
second sum I                      digest of standard input by hash instance I
second permutation [back] SIZE ROUNDS STATE
                                  a state in hex after so many rounds, or before
second bundle show                a bundle on standard input, its drawing out
second bundle make                a drawing on standard input, its bundle out
second bundle digest              the digest of the bundle on standard input
second inputs OUTDIR              inputs of the product's program bundle";

/// What ends the program: a line for standard error and the exit status.
struct Stop(String, i32);

fn main() {
    let words: Vec<String> = env::args().skip(1).collect();
    let words: Vec<&str> = words.iter().map(String::as_str).collect();
    if let Err(Stop(why, status)) = run(&words) {
        eprintln!("{}", why);
        exit(status);
    }
}

fn run(words: &[&str]) -> Result<(), Stop> {
    match *words {
        ["rows", directory] => {
            rows::write_all(Path::new(directory)).map_err(|why| failed(directory, &why))
        }
        ["kat", "hash", instance] => entries(kat::hash, instance),
        ["kat", "aead", instance] => entries(kat::aead, instance),
        ["readings"] => print(answers::page().as_bytes()),
        ["diffusion"] => print(diffusion::table().as_bytes()),
        ["compose", key, font] => {
            let orders = standard_input(u64::MAX)?;
            let composed = compose::compose(file(key), file(font), &orders)
                .map_err(|refusal| Stop(refusal.to_string(), 1))?;
            for report in &composed.reports {
                eprintln!("{}", report);
            }
            print(&composed.frames)
        }
        ["lines", key, font] => {
            // One byte more than the limit tells a longer stream.
            let stream = standard_input(STREAM_LIMIT as u64 + 1)?;
            print(lines::listing(file(key), file(font), &stream).as_bytes())
        }
        ["press", key, font] => {
            let stream = standard_input(u64::MAX)?;
            print(lines::pressed(file(key), file(font), &stream).as_bytes())
        }
        ["sum", instance] => sum(instance),
        ["permutation", ref asked @ ..] => match trial::tried(asked) {
            Ok(row) => print(row.as_bytes()),
            Err(why) => Err(Stop(why, 1)),
        },
        ["bundle", ref asked @ ..] => bundle(asked),
        ["inputs", directory] => {
            inputs::write_all(Path::new(directory)).map_err(|why| failed(directory, &why))
        }
        _ => Err(Stop(USAGE.to_string(), 2)),
    }
}

fn entries(of: fn(usize) -> Option<String>, instance: &str) -> Result<(), Stop> {
    let entries = instance.parse().ok().and_then(of);
    match entries {
        None => Err(Stop(format!("no instance {}", instance), 1)),
        Some(entries) => print(entries.as_bytes()),
    }
}

/// The digest of standard input, of which one byte more than the limit is read.
fn sum(instance: &str) -> Result<(), Stop> {
    let message = standard_input(MESSAGE_LIMIT as u64 + 1)?;
    let mut out = [0; DIGEST];
    let number = digest::digest(instance.parse().unwrap_or(0), &message, &mut out).number;
    match number {
        DONE => print(format!("{}\n", value(&out)).as_bytes()),
        _ => Err(Stop(format!("refused {}", number), 1)),
    }
}

/// As the program `bundle` does it: with status 0, whatever is refused.
fn bundle(words: &[&str]) -> Result<(), Stop> {
    let told = |why: &str| Stop(why.to_string(), 0);
    let work = drawing::asked(words).ok_or_else(|| told(drawing::USAGE))?;
    let input = standard_input(MESSAGE_LIMIT as u64 + 1)
        .map_err(|_| told("bundle: input can't be read"))?;
    let output = work(&input).map_err(|why| told(&why))?;
    print(&output).map_err(|_| told("bundle: not written whole"))
}

fn file(path: &str) -> Option<Vec<u8>> {
    fs::read(path).ok()
}

fn standard_input(most: u64) -> Result<Vec<u8>, Stop> {
    let mut bytes = Vec::new();
    io::stdin()
        .take(most)
        .read_to_end(&mut bytes)
        .map_err(|why| failed("standard input", &why))?;
    Ok(bytes)
}

fn print(bytes: &[u8]) -> Result<(), Stop> {
    let mut out = io::stdout();
    out.write_all(bytes)
        .and_then(|()| out.flush())
        .map_err(|why| failed("standard output", &why))
}

fn failed(what: &str, why: &io::Error) -> Stop {
    Stop(format!("{}: {}", what, why), 1)
}
