//! A real link: `press` reads a pseudo-terminal in raw mode at whose other end
//! frames are sent at a pace, with bytes dropped, flipped and doubled by seed.
//! Each row whose closing mark has arrived is there before the next frame is
//! sent, and the listing is this program's of the bytes that were sent.

use std::env;
use std::fs::{self, File, OpenOptions};
use std::io::Write;
use std::os::unix::fs::OpenOptionsExt;
use std::os::unix::io::AsRawFd;
use std::path::{Path, PathBuf};
use std::process::{exit, Child, Command, Stdio};
use std::thread::sleep;
use std::time::Duration;

use second::chance::Chance;
use second::frame::write;
use second::lines::{font_digest, pressed};
use second::numbers::{FRAME_ROOM, KEY, NONCE};
use second::told::Told;

extern "C" {
    fn ioctl(fd: i32, request: usize, number: *mut i32) -> i32;
}

// Linux's, on x86-64 and Arm alike.
const UNLOCK: usize = 0x4004_5431;
const NUMBER: usize = 0x8004_5430;
const NO_CONTROLLING_TERMINAL: i32 = 0o400;

/// How long a row may take, in tenths of a second.
const PATIENCE: usize = 300;

fn main() {
    let words: Vec<String> = env::args().skip(1).collect();
    let (seed, frames, folder) = match &words[..] {
        [seed, frames, folder] => (seed.parse(), frames.parse(), folder),
        _ => stop("link SEED FRAMES FOLDER"),
    };
    let (seed, frames) = match (seed, frames) {
        (Ok(seed), Ok(frames)) => (seed, frames),
        _ => stop("link SEED FRAMES FOLDER"),
    };
    let work = env::temp_dir().join(format!("link-{}", std::process::id()));
    fs::create_dir_all(&work).expect("a folder to work in");
    let told = run(seed, frames, &Path::new(folder).join("press"), &work);
    fs::remove_dir_all(&work).expect("the folder again");
    match told {
        Ok(bytes) => println!("link: {} frames, {} bytes as they came", frames, bytes),
        Err(why) => stop(&why),
    }
}

fn stop(why: &str) -> ! {
    eprintln!("link: {}", why);
    exit(1)
}

/// The two ends of a pseudo-terminal, in raw mode.
fn terminal() -> (File, File) {
    let near = open("/dev/ptmx".into());
    let mut number = 0;
    let unlocked = unsafe { ioctl(near.as_raw_fd(), UNLOCK, &mut number) };
    let numbered = unsafe { ioctl(near.as_raw_fd(), NUMBER, &mut number) };
    assert_eq!((unlocked, numbered), (0, 0), "a pseudo-terminal");
    let path = PathBuf::from(format!("/dev/pts/{}", number));
    let far = open(path.clone());
    let mut raw = Command::new("stty");
    raw.arg("-F").arg(path).args(["raw", "-echo"]);
    assert!(raw.status().expect("stty").success(), "raw mode");
    (near, far)
}

fn open(path: PathBuf) -> File {
    let mut options = OpenOptions::new();
    let both = options.read(true).write(true);
    both.custom_flags(NO_CONTROLLING_TERMINAL)
        .open(path)
        .expect("a terminal")
}

/// How many bytes were sent, or what differs.
fn run(seed: u64, frames: usize, press: &Path, work: &Path) -> Result<usize, String> {
    let chance = &mut Chance::of(seed, 0);
    let (key, font) = (chance.bytes(KEY), chance.bytes(200));
    fs::write(work.join("key.bin"), &key).expect("a key");
    fs::write(work.join("font.bin"), &font).expect("a font");
    let digest = font_digest(Some(font.clone())).expect("a digest");
    let listing = |sent: &[u8]| pressed(Some(key.clone()), Some(font.clone()), sent);
    let (mut near, far) = terminal();
    let rows = work.join("rows");
    let child = Command::new(press)
        .current_dir(work)
        .stdin(Stdio::from(far))
        .stdout(File::create(&rows).expect("a file for the rows"))
        .stderr(Stdio::piped())
        .spawn()
        .map_err(|why| format!("{}: {}", press.display(), why))?;
    let mut sent = Vec::new();
    for frame in 0..frames {
        let bytes = damaged(chance, Told::of(&key, &digest));
        // In two writes, so that one ends within a frame.
        let cut = chance.below(bytes.len() + 1);
        for part in [&bytes[..cut], &bytes[cut..]] {
            near.write_all(part).expect("the link");
            sleep(Duration::from_millis(5));
        }
        sent.extend(bytes);
        let all = listing(&sent);
        let so_far = &all[..all.rfind("lines ").expect("a last row")];
        if !comes(&rows, so_far) {
            return Err(format!("the rows of frame {} did not come", frame));
        }
    }
    drop(near);
    ended(child, &rows, &listing(&sent)).map(|()| sent.len())
}

/// A frame with now and then a byte dropped, flipped or doubled.
fn damaged(chance: &mut Chance, told: Told) -> Vec<u8> {
    let line = chance.one_of(&[&b"7"[..], b"A123456789A", b"0123456789 BCD"]);
    let mut frame = [0; FRAME_ROOM];
    let length = write(told, &chance.bytes(NONCE), line, &mut frame).length;
    let mut bytes = frame[..length].to_vec();
    let at = chance.below(bytes.len());
    match chance.below(6) {
        0 => drop(bytes.remove(at)),
        1 => chance.flip(&mut bytes),
        2 => bytes.insert(at, bytes[at]),
        _ => (),
    }
    bytes
}

/// Whether the rows come to be these.
fn comes(rows: &Path, wanted: &str) -> bool {
    for _ in 0..PATIENCE {
        if fs::read(rows).map_or(false, |found| found == wanted.as_bytes()) {
            return true;
        }
        sleep(Duration::from_millis(100));
    }
    false
}

/// The last row is there, and at most that reading failed is said: the end of a
/// pseudo-terminal is an error or an end, by when it comes.
fn ended(child: Child, rows: &Path, wanted: &str) -> Result<(), String> {
    let output = child.wait_with_output().expect("the end of press");
    let said = String::from_utf8_lossy(&output.stderr).to_string();
    if !said.is_empty() && said != "standard input can't be read on\n" {
        return Err(format!("press says {}", said));
    }
    match fs::read(rows) {
        Ok(found) if found == wanted.as_bytes() => Ok(()),
        _ => Err("the listing differs".to_string()),
    }
}
