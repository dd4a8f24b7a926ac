//! `rows_running`: the running digest (order W4), one call and one row for each
//! case of the case file, on the record that the call before it left: messages
//! cut around the blocks of every instance, refusals each alone and several at
//! once, and records as no feeding leaves them.

use std::collections::BTreeSet;

use super::{by_rule, gathered, in_bytes};
use crate::digest::{instances, sizes};
use crate::numbers::{Counted, DIGEST, MESSAGE_LIMIT};
use crate::running::{feed, finish, start, Record, BLOCK, STATE};
use crate::text::value;

/// What a room holds before the call, and the state and block of a record that
/// is set.
const BEFORE: u8 = 0xa5;

/// Instances whose feeds go up to the limit: of the smallest and of the largest
/// rate.
const LONG: [usize; 2] = [1, 8];

#[derive(Clone, Copy)]
enum Call {
    /// The instance.
    Start,
    /// The length, and the first byte.
    Feed,
    /// The room.
    Finish,
    /// Total, instance and what `finished` holds.
    Set,
}

/// The row's name, the call and its numbers, 0 where it has fewer.
struct Case {
    name: String,
    call: Call,
    numbers: [usize; 3],
}

impl Case {
    fn stored(&self) -> Vec<u8> {
        let mut head = vec![self.name.len(), self.call as usize];
        head.extend(self.numbers);
        let head: Vec<[u8; 4]> = head.into_iter().map(in_bytes).collect();
        [&head.concat(), self.name.as_bytes()].concat()
    }

    /// What the call answers: number, count and room; of a record that is set
    /// none.
    fn answered(&self, record: &mut Record) -> String {
        let [one, two, three] = self.numbers;
        let mut out = Vec::new();
        let answer = match self.call {
            Call::Start => plain(start(record, one)),
            Call::Feed => plain(feed(record, &by_rule(one, |i| 7 * i + two))),
            Call::Finish => {
                out.resize(one, BEFORE);
                finish(record, &mut out)
            }
            Call::Set => {
                *record = set(one, two, three);
                return "- - -".to_string();
            }
        };
        format!("{} {} {}", answer.number, answer.count, value(&out))
    }
}

/// The number of a call that counts nothing.
fn plain(number: u8) -> Counted {
    Counted { number, count: 0 }
}

fn set(total: usize, instance: usize, finished: usize) -> Record {
    Record {
        total,
        instance: instance as u32,
        finished: finished as u32,
        state: [BEFORE; STATE],
        block: [BEFORE; BLOCK],
    }
}

/// Calls on one record, all under one name.
struct Run {
    name: String,
    cases: Vec<Case>,
    /// Bytes of the feeds since the start, refused ones too.
    place: usize,
}

impl Run {
    fn new(name: String) -> Run {
        Run {
            name,
            cases: Vec::new(),
            place: 0,
        }
    }

    fn call(mut self, call: Call, what: &str, numbers: [usize; 3]) -> Run {
        let name = format!("{} {}", self.name, what);
        self.cases.push(Case {
            name,
            call,
            numbers,
        });
        self
    }

    fn start(mut self, instance: usize) -> Run {
        self.place = 0;
        self.call(
            Call::Start,
            &format!("start-{}", instance),
            [instance, 0, 0],
        )
    }

    /// Byte i of all that is fed since the start is 7*i: whatever the cutting,
    /// it is one message.
    fn feed(mut self, length: usize) -> Run {
        let first = 7 * self.place % 256;
        self.place += length;
        self.call(Call::Feed, &format!("feed-{}", length), [length, first, 0])
    }

    fn finish(self, room: usize) -> Run {
        self.call(Call::Finish, &format!("finish-{}", room), [room, 0, 0])
    }

    fn set(self, total: usize, instance: usize, finished: usize) -> Run {
        self.call(Call::Set, "set", [total, instance, finished])
    }
}

fn rate_of(instance: usize) -> usize {
    sizes(instance).expect("a known instance").1
}

fn named(instance: usize, what: &str) -> Run {
    Run::new(format!("{} {}", instance, what))
}

/// A message of two blocks and a byte in two feeds, cut at each place around the
/// blocks' edges.
fn cut(instance: usize) -> Vec<Run> {
    let rate = rate_of(instance);
    let whole = 2 * rate + 1;
    let places: BTreeSet<usize> = [
        0,
        1,
        rate - 1,
        rate,
        rate + 1,
        2 * rate - 1,
        2 * rate,
        whole,
    ]
    .into_iter()
    .collect();
    let run = |at: usize| {
        named(instance, &format!("cut-{}", at))
            .start(instance)
            .feed(at)
            .feed(whole - at)
            .finish(DIGEST)
    };
    places.into_iter().map(run).collect()
}

/// The same message byte by byte; and with feeds of nothing wherever one can be.
fn in_bytes_and_with_nothing(instance: usize) -> Vec<Run> {
    let rate = rate_of(instance);
    let bytes = named(instance, "bytes").start(instance);
    let bytes = (0..2 * rate + 1).fold(bytes, |run, _| run.feed(1));
    let nothing = named(instance, "nothing").start(instance).feed(0).feed(1);
    let nothing = nothing.feed(0).feed(rate).feed(0).feed(rate).feed(0);
    vec![
        named(instance, "empty").start(instance).finish(DIGEST),
        bytes.finish(DIGEST),
        nothing.finish(DIGEST),
    ]
}

/// Whole blocks in one feed, behind a block begun; and records that are set in
/// the middle of a block, where a call that is done keeps of state and block
/// what the instance has and no more.
fn many_and_stale(instance: usize) -> Vec<Run> {
    let rate = rate_of(instance);
    let many = named(instance, "many").start(instance).feed(1).feed(1000);
    let stale = |what: &str, total| named(instance, what).set(total, instance, 0);
    vec![
        many.finish(DIGEST),
        stale("stale-edge", rate).feed(0).finish(DIGEST),
        stale("stale-begun", 2 * rate - 1)
            .feed(0)
            .feed(1)
            .finish(DIGEST),
        stale("stale-finish", 3 * rate + rate / 2).finish(DIGEST + 8),
    ]
}

/// Totals up to the limit and past it, by one feed and by many.
fn long(instance: usize) -> Vec<Run> {
    let by_one = named(instance, "past-by-one").start(instance);
    let by_many = named(instance, "past-by-many").start(instance);
    let set = named(instance, "past-set").set(MESSAGE_LIMIT, instance, 0);
    vec![
        by_one
            .feed(MESSAGE_LIMIT + 1)
            .feed(MESSAGE_LIMIT)
            .feed(1)
            .feed(0)
            .finish(DIGEST),
        by_many
            .feed(30_000)
            .feed(30_001)
            .feed(5_536)
            .feed(5_535)
            .feed(MESSAGE_LIMIT + 1)
            .feed(1)
            .finish(DIGEST),
        set.feed(1).feed(0).finish(DIGEST),
    ]
}

/// Calls after a finish, and a start after it.
fn after_finish() -> Vec<Run> {
    let run = Run::new("after-finish".to_string()).start(3).feed(5);
    vec![run
        .finish(DIGEST)
        .feed(1)
        .feed(0)
        .feed(MESSAGE_LIMIT + 1)
        .finish(DIGEST)
        .finish(DIGEST - 1)
        .start(11)
        .start(7)
        .feed(9)
        .finish(DIGEST)]
}

/// Instances that are none, at the start and in a record.
fn unknown() -> Vec<Run> {
    let mut run = Run::new("unknown-start".to_string()).start(4).feed(3);
    for instance in [0, 11, 255, 256, 257, 65_537, 0xffff_ffff] {
        run = run.start(instance);
    }
    let mut runs = vec![run.feed(3).finish(DIGEST)];
    for instance in [0, 11, 257, 0xffff_ffff] {
        let run = Run::new(format!("unknown-{}", instance)).set(7, instance, 0);
        let run = run.feed(0).feed(MESSAGE_LIMIT + 1).finish(DIGEST);
        runs.push(run.finish(0).start(instance));
    }
    runs
}

/// Rooms too small, after which a finish is done; and one that is longer.
fn rooms() -> Vec<Run> {
    let run = Run::new("room".to_string()).start(6).feed(10);
    let run = run.finish(0).finish(DIGEST - 1).feed(1).finish(1);
    vec![run.finish(DIGEST + 8).finish(0)]
}

/// Fields that no call writes there, each alone and several at once: 14 before
/// 1, and 1 before 3 and 4.
fn fields() -> Vec<Run> {
    let over = MESSAGE_LIMIT + 1;
    let sets = [
        ("finished-2", [9, 2, 2]),
        ("finished-most", [9, 2, 0xffff_ffff]),
        ("total-over", [over, 2, 0]),
        ("total-most", [0xffff_ffff, 2, 0]),
        ("finished-2-and-total-over", [over, 2, 2]),
        ("finished-2-and-unknown", [9, 11, 2]),
        ("unknown-and-total-over", [over, 0, 0]),
        ("finished-2-unknown-and-total-over", [over, 0, 2]),
    ];
    let run = |(what, [total, instance, finished]): (&str, [usize; 3])| {
        let run = Run::new(what.to_string()).set(total, instance, finished);
        let run = run.feed(0).feed(1).feed(over).finish(DIGEST);
        run.finish(DIGEST - 1).start(1).finish(DIGEST)
    };
    sets.into_iter().map(run).collect()
}

fn runs() -> Vec<Run> {
    let each: [fn(usize) -> Vec<Run>; 3] = [cut, in_bytes_and_with_nothing, many_and_stale];
    let mut runs = Vec::new();
    for of in each {
        runs.extend(instances().flat_map(of));
    }
    runs.extend(LONG.into_iter().flat_map(long));
    for some in [after_finish, unknown, rooms, fields] {
        runs.extend(some());
    }
    runs
}

fn row(case: &Case, record: &mut Record) -> String {
    let answer = case.answered(record);
    format!(
        "{} {} {} {} {} {} {}",
        case.name,
        answer,
        record.total,
        record.instance,
        record.finished,
        value(&record.state),
        value(&record.block)
    )
}

/// The case file, and what must be printed for it.
pub fn stdin_and_rows() -> (Vec<u8>, String) {
    let mut record = set(0, 0, 0);
    let cases = runs().into_iter().flat_map(|run| run.cases);
    gathered(cases, |case| (case.stored(), row(&case, &mut record)))
}
