//! Whole jobs: orders by chance through the built programs `compose` and
//! `lines`, held to what this program's own say. Between the two the stream is
//! damaged in some of the jobs.
//!
//! `jobs SEED COUNT FOLDER`: COUNT jobs of SEED with the programs of FOLDER.

mod job;

use std::path::{Path, PathBuf};
use std::process::ExitCode;
use std::{env, fs, process};

use job::Job;
use second::chance::Chance;

fn main() -> ExitCode {
    let words: Vec<String> = env::args().skip(1).collect();
    let (seed, count, programs) = match asked(&words) {
        Some(asked) => asked,
        None => {
            eprintln!("usage: jobs SEED COUNT FOLDER");
            return ExitCode::FAILURE;
        }
    };
    let folder = env::temp_dir().join(format!("jobs-{}", process::id()));
    fs::create_dir(&folder).expect("a folder for the jobs");
    let differing = differing(seed, count, &programs, &folder);
    fs::remove_dir_all(&folder).expect("the folder is ours");
    println!("jobs: {} jobs, {} differ", count, differing);
    if differing == 0 {
        ExitCode::SUCCESS
    } else {
        ExitCode::FAILURE
    }
}

fn asked(words: &[String]) -> Option<(u64, u64, PathBuf)> {
    match words {
        [seed, count, folder] => Some((
            seed.parse().ok()?,
            count.parse().ok()?,
            fs::canonicalize(folder).ok()?,
        )),
        _ => None,
    }
}

/// How many jobs differ, each told in a row.
fn differing(seed: u64, count: u64, programs: &Path, folder: &Path) -> usize {
    let mut differing = 0;
    for index in 0..count {
        let chance = &mut Chance::of(seed, index);
        if let Err(program) = Job::by(chance).run(chance, programs, folder) {
            println!("jobs: job {} of seed {}: {} differs", index, seed, program);
            differing += 1;
        }
    }
    differing
}
