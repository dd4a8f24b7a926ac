//! The expected outputs of the product's test programs, one file of rows each.
//! Where a test program reads cases, its standard input is made here too.

mod accept;
mod beat;
mod bundle;
mod call;
mod damage;
mod desk;
mod digest;
mod edition;
mod frame;
mod index;
mod layout;
mod limit;
pub mod permute;
mod replay;
mod running;
mod seal;
mod sound;
pub mod stream;
mod stretch;
mod told;
mod trade;

use std::fs;
use std::io;
use std::path::Path;

/// One test program: its name, what it reads and what it must print.
pub struct Rows {
    pub name: &'static str,
    pub stdin: Option<Vec<u8>>,
    pub stdout: String,
}

impl Rows {
    fn printed(name: &'static str, stdout: String) -> Rows {
        Rows {
            name,
            stdin: None,
            stdout,
        }
    }

    fn of_cases(name: &'static str, stdin: Vec<u8>, stdout: String) -> Rows {
        Rows {
            name,
            stdin: Some(stdin),
            stdout,
        }
    }
}

pub fn all() -> Vec<Rows> {
    let (acceptances, accept_rows) = accept::stdin_and_rows();
    let (bundles, bundle_rows) = bundle::stdin_and_rows();
    let (reworks, desk_rows) = desk::stdin_and_rows();
    let (digests, digest_rows) = digest::stdin_and_rows();
    let (indexes, index_rows) = index::stdin_and_rows();
    let (replays, replay_rows) = replay::stdin_and_rows();
    let (runnings, running_rows) = running::stdin_and_rows();
    let (sealings, seal_rows) = call::stdin_and_rows();
    let (readings, stream_rows) = stream::stdin_and_rows();
    vec![
        Rows::of_cases("rows_accept", acceptances, accept_rows),
        Rows::of_cases("rows_bundle", bundles, bundle_rows),
        Rows::of_cases("rows_desk", reworks, desk_rows),
        Rows::of_cases("rows_digest", digests, digest_rows),
        Rows::of_cases("rows_index", indexes, index_rows),
        Rows::printed("rows_permute", permute::rows()),
        Rows::of_cases("rows_replay", replays, replay_rows),
        Rows::of_cases("rows_running", runnings, running_rows),
        Rows::of_cases("rows_seal", sealings, seal_rows),
        Rows::of_cases("rows_stream", readings, stream_rows),
    ]
}

/// Writes NAME.stdout, and NAME.stdin where there is one, into the directory.
pub fn write_all(directory: &Path) -> io::Result<()> {
    fs::create_dir_all(directory)?;
    for rows in all() {
        let path = |ending: &str| directory.join(format!("{}.{}", rows.name, ending));
        fs::write(path("stdout"), &rows.stdout)?;
        if let Some(stdin) = &rows.stdin {
            fs::write(path("stdin"), stdin)?;
        }
    }
    Ok(())
}

/// The bytes of the cases, one behind the other, and their rows.
fn gathered<C>(
    cases: impl IntoIterator<Item = C>,
    mut each: impl FnMut(C) -> (Vec<u8>, String),
) -> (Vec<u8>, String) {
    let mut stdin = Vec::new();
    let mut rows = String::new();
    for case in cases {
        let (bytes, row) = each(case);
        stdin.extend(bytes);
        rows.push_str(&row);
        rows.push('\n');
    }
    (stdin, rows)
}

/// Byte i of the result is what the rule gives for i, mod 256.
pub(crate) fn by_rule<F: Fn(usize) -> usize>(length: usize, rule: F) -> Vec<u8> {
    (0..length).map(|i| (rule(i) % 256) as u8).collect()
}

/// A number as the case files hold it: four bytes, high byte first.
pub(crate) fn in_bytes(value: usize) -> [u8; 4] {
    let value = u32::try_from(value).expect("the case file holds the value");
    value.to_be_bytes()
}
