//! Random sessions, calls and events through the archive: `random SEED COUNT [FIRST]`.
//!
//! A case draws a session, three in four with any bytes, and makes eight calls and events on it, each with its own buffer; on a
//! fresh session sixty. What must hold of every step is in `outcome_faults` and `session_faults`. The first fault ends the program
//! with 1; so does an outcome that a run of 20,000 cases or more never met.

#[path = "../draw.rs"]
mod draw;

use draw::Draw;
use rcs956::raw::{self, Arguments, CALLERS, Numbers, Outcome, RawSession, event, kind};

/// The bytes on each side of the buffer.
const GUARD: usize = 64;

/// The call or event of a step.
enum Entry {
    Call { arguments: [u64; 6], bytes: [Box<[u8]>; 4] },
    Event { number: u8, packet: Box<[u8]> },
}

/// Bitrate texts, and none.
const BITRATES: [&[u8]; 9] = [b"106A", b"106B", b"212F", b"424F", b"212F/424F", b"848B", b"106A/", b"\xFF", b""];

/// The arguments of some calls, most of them such as the call takes.
fn fit(draw: &mut Draw, number: u64, x: &mut u64, bytes: &mut [Box<[u8]>; 4]) {
    match number {
        13 if !draw.once(3) => {
            *x = draw.pick(&[0, 2]);
            for (argument, len) in bytes.iter_mut().zip([6, 18, 10]) {
                *argument = draw.bytes(len);
            }
        }
        22 if draw.once(2) => {
            let len = 16 + draw.below(49) as usize;
            bytes[1] = draw.bytes(len);
        }
        23 => {
            bytes[1] = draw.pick::<&[u8]>(&[b"", b"\x00", b"\x20", b"\x60"]).into();
            let first = draw.pick(&[0x00, 0x01, 0x1A, 0x53, 0x72, 0x78]);
            bytes[2].iter_mut().take(1).for_each(|byte| *byte = first);
        }
        24 if !draw.once(4) => {
            let len = 2 * draw.below(18) as usize;
            bytes[1] = draw.bytes(len);
        }
        26 | 27 => {
            bytes[0] = if draw.once(4) { draw.bytes(8) } else { draw::IDM.into() };
            let blocks = 1 + draw.below(4) as usize;
            bytes[1] = draw.bytes(blocks);
            bytes[2] = draw.bytes(16 * blocks);
        }
        _ => {}
    }
}

/// A call with any number and any arguments.
fn drawn_call(draw: &mut Draw) -> Entry {
    let number = if draw.once(24) { draw.byte() as u64 } else { draw.below(29) };
    let bitrate = draw.pick(&BITRATES);
    let mut bytes = [(); 4].map(|()| {
        let len = draw.length();
        draw.bytes(len)
    });
    let mut x = draw.pick(&[0, 0, 1, 2, 0xFF]);
    if number >= 19 && !draw.once(8) {
        bytes[0] = bitrate.into();
    }
    fit(draw, number, &mut x, &mut bytes);
    let ms = draw.pick(&[0, 1, 100, 65535, u32::MAX as u64]);
    let caller = if draw.once(24) { draw.byte() as u64 } else { draw.below(8) };
    Entry::Call { arguments: [number, ms, draw.number(), x, draw.below(4), caller], bytes }
}

impl Entry {
    fn drawn(draw: &mut Draw, session: &RawSession) -> Entry {
        let core = &session.core;
        if core.call.kind == 0 && !draw.once(8) || draw.once(16) {
            return drawn_call(draw);
        }
        let number = draw.event(session);
        let packet = if number == event::PACKET || draw.once(4) { draw.packet(core.exchange.code) } else { [].into() };
        Entry::Event { number, packet }
    }

    fn made(&self, session: &mut RawSession, buffer: &mut [u8]) -> Outcome {
        match self {
            Entry::Event { number, packet } => raw::event(session, *number, packet, buffer),
            Entry::Call { arguments: [number, ms, word, x, y, caller], bytes: [first, second, third, fourth] } => {
                let (number, ms, word) = (*number as u8, *ms as u32, *word as u16);
                let numbers = Numbers { ms, word, x: *x as u8, y: *y as u8, caller: *caller as u8 };
                raw::call(session, &Arguments { number, numbers, first, second, third, fourth }, buffer)
            }
        }
    }

    fn is_opening(&self) -> bool {
        matches!(self, Entry::Call { arguments: [0, ..], .. })
    }
}

fn core_in_range(session: &RawSession) -> bool {
    let core = &session.core;
    let call = &core.call;
    let lengths = core.command <= 512 && core.found <= 1024;
    lengths && core.exchange.phase <= 6 && call.kind <= 24 && call.stage <= 9 && call.phase <= 5
}

fn books_in_range(session: &RawSession) -> bool {
    let books = &session.books;
    books.opened <= 1 && books.mode <= 1 && books.caller <= 7
}

fn in_range(session: &RawSession) -> bool {
    core_in_range(session) && books_in_range(session)
}

/// Whether a step must be refused with 1, where the session's fields say it; of an event during a call they do not.
fn out_of_turn(entry: &Entry, before: &RawSession) -> Option<bool> {
    let runs = before.core.call.kind != 0;
    match entry {
        _ if !in_range(before) => Some(true),
        Entry::Call { .. } => Some(runs || !entry.is_opening() && before.books.opened == 0),
        Entry::Event { .. } => (!runs).then_some(true),
    }
}

/// The caller of a call; of an event that of the call that runs.
fn caller_due(entry: &Entry, before: &RawSession, outcome: Outcome) -> u8 {
    match entry {
        Entry::Call { arguments: [.., caller], .. } if outcome.kind == kind::WRITE => *caller as u8,
        _ => before.books.caller,
    }
}

/// The frame counts that must be behind a step: a command counts for its caller.
fn frames_due(entry: &Entry, before: &RawSession, outcome: Outcome) -> [u32; CALLERS] {
    let mut frames = before.frames;
    match outcome.kind {
        kind::WRITE if entry.is_opening() => frames = [0; CALLERS],
        kind::WRITE if outcome.len > 6 => {
            let count = &mut frames[usize::from(caller_due(entry, before, outcome))];
            *count = count.saturating_add(1);
        }
        _ => {}
    }
    frames
}

/// Whether a call names no caller.
fn no_caller(entry: &Entry) -> bool {
    matches!(entry, Entry::Call { arguments: [.., caller], .. } if *caller > 7)
}

/// What `opened` must be behind a step that is not refused at once: 0 once an opening has begun, and 1 once it is done.
fn opened_due(entry: &Entry, before: &RawSession, outcome: Outcome) -> u8 {
    let opening_runs = before.core.call.kind == 1;
    match outcome.kind {
        kind::WRITE if entry.is_opening() => 0,
        kind::DONE if opening_runs => 1,
        kind::DONE_TYPE1 | kind::NONE | kind::REFUSED | kind::LIST_REFUSED | kind::UID_AND_ATS if opening_runs => 0,
        _ => before.books.opened,
    }
}

/// What the mode must be behind a step: the opening's once one has begun.
fn mode_due(entry: &Entry, before: &RawSession, outcome: Outcome) -> u8 {
    match entry {
        Entry::Call { arguments: [0, _, _, x, _, _], .. } if outcome.kind == kind::WRITE => *x as u8,
        _ => before.books.mode,
    }
}

/// Whether an opening names no mode.
fn no_mode(entry: &Entry) -> bool {
    matches!(entry, Entry::Call { arguments: [0, _, _, x, _, _], .. } if *x > 1)
}

/// What the session must be behind a step.
fn session_faults(entry: &Entry, before: &RawSession, after: &RawSession, outcome: Outcome) -> Vec<&'static str> {
    let (at_once, ends) = (outcome.kind == kind::REFUSED_AT_ONCE, outcome.kind >= kind::DONE);
    let (running, books) = (after.core.call.kind != 0, &after.books);
    let turn = out_of_turn(entry, before);
    let checks = [
        (!in_range(before) && outcome.refusal != 1, "a session out of range is not refused with 1"),
        (turn.is_some_and(|due| due != (outcome.refusal == 1)), "a refusal 1 that is not due, or none where it is"),
        (at_once && before != after, "a refusal at once has changed the session"),
        (ends && !at_once && running, "a call has ended and still runs"),
        (!ends && !running, "an order, and no call runs"),
        (!at_once && after.frames != frames_due(entry, before, outcome), "the frame counts are wrong"),
        (books.caller != caller_due(entry, before, outcome), "the caller is wrong"),
        (no_caller(entry) && !(at_once && [1, 2, 4].contains(&outcome.refusal)), "a call of no caller is not refused"),
        (!at_once && books.opened != opened_due(entry, before, outcome), "`opened` is wrong"),
        (books.mode != mode_due(entry, before, outcome), "the mode is wrong"),
        (no_mode(entry) && !(at_once && [1, 2, 4].contains(&outcome.refusal)), "an opening in no mode is not refused"),
    ];
    checks.iter().filter(|(fault, _)| *fault).map(|(_, text)| *text).collect()
}

/// What the outcome and the buffer must be.
fn outcome_faults(outcome: Outcome, before: &[u8], after: &[u8]) -> Vec<&'static str> {
    let Outcome { kind, refusal, status, status2, finished, uid, ats, time, len } = outcome;
    let size = before.len() - 2 * GUARD;
    let parted = kind == kind::UID_AND_ATS;
    let has_bytes = parted || matches!(kind, kind::WRITE | kind::DONE | kind::DONE_TYPE1);
    let written = if has_bytes { len.min(size) } else { 0 };
    let start = &after[GUARD..GUARD + written];
    let (at_once, listed) = (kind == kind::REFUSED_AT_ONCE, kind == kind::LIST_REFUSED);
    let numbers = match kind {
        kind::REFUSED | kind::LIST_REFUSED => 7..=22,
        kind::REFUSED_AT_ONCE => 1..=6,
        _ => 0..=0,
    };
    let checks = [
        (kind > 10, "a kind above 10"),
        (!parted && (uid, ats) != (0, 0), "lengths of a UID and an ATS, and no such answer"),
        (!listed && finished != 0, "codes finished, and no list"),
        (len > size.min(1024), "more bytes than the buffer has"),
        (!numbers.contains(&refusal), "a refusal's number"),
        (refusal != 15 && refusal != 20 && status != 0, "a status without 15 or 20"),
        (refusal == 20 && status == 0, "20 with the first flag 0"),
        (refusal != 20 && status2 != 0, "a second flag without 20"),
        (!matches!(kind, kind::READ | kind::PAUSE) && time != 0, "a time with no read and no pause"),
        (!has_bytes && len != 0, "a length with no bytes"),
        (kind == kind::WRITE && !start.starts_with(&[0, 0, 0xFF]), "a write order of no frame"),
        (kind == kind::WRITE && len < 9 && start != [0, 0, 0xFF, 0, 0xFF, 0], "a short write order, and no ACK"),
        (size < 1024 && !(at_once && refusal <= 2), "a short buffer is not refused with 1 or 2"),
        (before[..GUARD] != after[..GUARD], "bytes before the buffer have changed"),
        (before[GUARD + written..] != after[GUARD + written..], "bytes behind the output have changed"),
    ];
    checks.iter().filter(|(fault, _)| *fault).map(|(_, text)| *text).collect()
}

/// The outcomes met: kinds 0 to 6, refusals 1 to 22, and answers with two lengths. Last, the steps in which the books alone were out of
/// range.
#[derive(Default)]
struct Tally {
    steps: u64,
    counts: [u64; 31],
}

impl Tally {
    fn add(&mut self, before: &RawSession, outcome: Outcome) {
        self.steps += 1;
        let k = match outcome.kind {
            kind::UID_AND_ATS => 29,
            kind => kind.min(7) + outcome.refusal.saturating_sub(1),
        };
        self.counts[k as usize] += 1;
        self.counts[30] += (core_in_range(before) && !books_in_range(before)) as u64;
    }

    fn print(&self) {
        let words = ["write", "read", "drain", "pause", "done", "done type1", "none"];
        for (k, count) in self.counts.iter().enumerate() {
            match (words.get(k), k) {
                (Some(word), _) => println!("  {word}: {count}"),
                (None, 29) => println!("  done with two lengths: {count}"),
                (None, 30) => println!("  refused 1 for the books alone: {count}"),
                (None, _) => println!("  refused {}: {count}", k - 6),
            }
        }
    }
}

/// One case: false where a step has a fault.
fn case(seed: u64, number: u64, tally: &mut Tally) -> bool {
    let mut draw = Draw::new(seed, number);
    let fresh = draw.once(4);
    let mut session = if fresh { draw.fresh() } else { draw.session() };
    for step in 0..if fresh { 60 } else { 8 } {
        let entry = Entry::drawn(&mut draw, &session);
        let size = draw.buffer_len();
        let mut memory = draw.bytes(size + 2 * GUARD);
        let (before, lent) = (session.clone(), memory.clone());
        let outcome = entry.made(&mut session, &mut memory[GUARD..GUARD + size]);
        let mut faults = outcome_faults(outcome, &lent, &memory);
        faults.extend(session_faults(&entry, &before, &session, outcome));
        if fresh && !in_range(&session) {
            faults.push("a session that began fresh is out of range");
        }
        if !faults.is_empty() {
            println!(
                "case {number} of seed {seed}, step {step}: {faults:?}\n{outcome:?}\n{:?}\n{:?}",
                (&before.core, &before.books),
                (&session.core, &session.books)
            );
            return false;
        }
        tally.add(&before, outcome);
    }
    true
}

fn main() {
    let words: Vec<u64> = std::env::args().skip(1).map(|word| word.parse().expect("a number")).collect();
    let &[seed, count, ref first @ ..] = &words[..] else { panic!("usage: random SEED COUNT [FIRST]") };
    let first = first.first().copied().unwrap_or(0);
    let mut tally = Tally::default();
    if !(first..first + count).all(|number| case(seed, number, &mut tally)) {
        std::process::exit(1);
    }
    tally.print();
    let missed = tally.counts.contains(&0) && count >= 20000;
    println!(
        "random: {count} cases, {} steps: {}",
        tally.steps,
        if missed { "an outcome never met" } else { "no fault" }
    );
    std::process::exit(missed as i32);
}
