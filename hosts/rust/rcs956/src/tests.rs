use crate::raw::{self, Arguments, Books, CALLERS, Core, ExchangeState, Numbers, Outcome, RawSession};
use crate::*;
use std::mem::{offset_of, size_of};

const ACK: [u8; 6] = [0, 0, 0xFF, 0, 0xFF, 0];

/// A transport that answers reads and drains by these in turn, each packet with the same bytes. Keeps which of them shared their
/// time, and the step's lines.
struct Scripted<'a> {
    received: std::slice::Iter<'a, Received>,
    bytes: [u8; 6],
    shared: Vec<bool>,
    lines: Vec<String>,
}

impl Scripted<'_> {
    fn new(received: &[Received], bytes: [u8; 6]) -> Scripted<'_> {
        Scripted { received: received.iter(), bytes, shared: Vec::new(), lines: Vec::new() }
    }
}

impl Transport for Scripted<'_> {
    fn write(&mut self, _: &[u8]) -> bool {
        true
    }
    fn read(&mut self, _: u32, shared: bool, packet: &mut [u8; BUFFER_SIZE]) -> Received {
        self.shared.push(shared);
        packet[..6].copy_from_slice(&self.bytes);
        *self.received.next().expect("a read too many")
    }
    fn drain(&mut self, shared: bool, packet: &mut [u8; BUFFER_SIZE]) -> Received {
        self.read(50, shared, packet)
    }
    fn sleep(&mut self, _: u32) {}
    fn seen(&mut self, step: &Step<'_>) {
        self.lines.push(step.to_string());
    }
}

#[test]
fn layout() {
    assert_eq!(size_of::<RawSession>(), 1608);
    assert_eq!(offset_of!(RawSession, found), 512);
    assert_eq!(offset_of!(RawSession, frames), 1536);
    assert_eq!(offset_of!(RawSession, books), 1568);
    assert_eq!(offset_of!(RawSession, core), 1576);
    assert_eq!(offset_of!(Core, found), 8);
    assert_eq!(offset_of!(Core, exchange), 16);
    assert_eq!(offset_of!(Core, call), 24);
    assert_eq!(offset_of!(ExchangeState, clock), 4);
    assert_eq!(offset_of!(Books, opened), 0);
    assert_eq!(offset_of!(Books, mode), 1);
    assert_eq!(offset_of!(Books, caller), 2);
    assert_eq!(size_of::<Numbers>(), 12);
    assert_eq!(offset_of!(Numbers, caller), 8);
    assert_eq!(size_of::<Outcome>(), 24);
    assert_eq!(offset_of!(Outcome, status2), 3);
    assert_eq!(offset_of!(Outcome, finished), 4);
    assert_eq!(offset_of!(Outcome, uid), 5);
    assert_eq!(offset_of!(Outcome, ats), 6);
    assert_eq!(offset_of!(Outcome, time), 8);
    assert_eq!(offset_of!(Outcome, len), 16);
}

#[test]
fn fresh_is_zeroed() {
    assert_eq!(
        raw::fresh(),
        RawSession {
            command: [0; 512],
            found: [0; 1024],
            frames: [0; CALLERS],
            books: Books::default(),
            core: Core::default()
        }
    );
}

#[test]
fn whole_case() {
    let mut reader = Reader::new();
    let step = reader.call(0, Call::Open { padded: false });
    assert_eq!(step.to_string(), "write 0000FF00FF00");
    let Step::Write(order) = step else { panic!() };
    assert_eq!(order.failed().to_string(), "refused 7");
    assert_eq!(reader.call(0, Call::Version).to_string(), "refused 1");
    assert!(!reader.is_open());
}

/// Drives a fresh reader to the first read of the opening.
fn opening_read(reader: &mut Reader) -> Read<'_> {
    let Step::Write(order) = reader.call(0, Call::Open { padded: false }) else { panic!() };
    let Step::Read(order) = order.ok() else { panic!() };
    order
}

#[test]
fn refused_event_leaves_the_order_due() {
    let mut reader = Reader::new();
    assert!(matches!(opening_read(&mut reader).late(), Step::RefusedAtOnce(Refusal::OutOfTurn)));
    let Some(Step::Read(order)) = reader.due() else { panic!() };
    assert!(matches!(order.packet(&[0; 1025]), Step::RefusedAtOnce(Refusal::OverLong)));
    let Some(Step::Read(order)) = reader.due() else { panic!() };
    assert_eq!(order.ms(), 10);
    assert!(matches!(order.packet(&[0; 1024]), Step::Read(_)));
}

#[test]
fn dropped_order_is_due() {
    let mut reader = Reader::new();
    assert!(reader.due().is_none());
    let _ = opening_read(&mut reader);
    assert!(matches!(reader.call(0, Call::Open { padded: false }), Step::RefusedAtOnce(Refusal::OutOfTurn)));
    let Some(Step::Read(order)) = reader.due() else { panic!() };
    let Step::Write(order) = order.timed_out() else { panic!() };
    assert_eq!(order.bytes(), [0, 0, 0xFF, 3, 0xFD, 0xD4, 0x18, 1, 0x13, 0]);
    assert_eq!(reader.frames(), [1, 0, 0, 0, 0, 0, 0, 0]);
}

#[test]
fn reads_share_the_clock() {
    use Received::{Late, Packet, TimedOut};
    let mut reader = Reader::new();
    // The opening's reads, then those of the reset and of the version: an ACK, two more, the deadline.
    let received = [Packet(6), Packet(6), TimedOut, Packet(6), Packet(6), Packet(6), Late, Packet(6), Packet(6), Late];
    let mut scripted = Scripted::new(&received, ACK);
    assert_eq!(run(reader.call(0, Call::Open { padded: false }), &mut scripted).to_string(), "refused 8");
    assert_eq!(scripted.shared, [false, false, false, false, false, true, true, false, false, true]);
    assert_eq!(reader.frames(), [2, 0, 0, 0, 0, 0, 0, 0]);
}

#[test]
fn drains_share_their_time() {
    use Received::{Failed, Late, Packet, TimedOut};
    let mut reader = Reader::new();
    // No packet in the opening's reads and for the reset; the version's answer does not start as a frame.
    let mut scripted = Scripted::new(&[TimedOut, TimedOut, Packet(6), Packet(6), Failed, Late], [1; 6]);
    assert_eq!(run(reader.call(0, Call::Open { padded: false }), &mut scripted).to_string(), "refused 9");
    assert_eq!(scripted.shared, [false, false, false, false, true, true]);
    let end = ["write 0000FF02FED4022A00", "read 100", "write 0000FF00FF00", "drain", "drain", "drain", "refused 9"];
    assert!(scripted.lines.ends_with(&end.map(String::from)));
}

#[test]
fn refusals_by_number() {
    let at_once = (0..=255).filter_map(|number| Some((number, Refusal::numbered(number)?)));
    assert!(at_once.map(|(number, refusal)| (number, refusal.number())).eq((1..=6).map(|number| (number, number))));
    for number in 7..=22 {
        let fault = Fault::numbered(number, 7, 9).unwrap();
        assert_eq!((fault.number(), fault.status()), (number, if number == 15 || number == 20 { 7 } else { 0 }));
        assert_eq!(fault.status2(), if number == 20 { 9 } else { 0 });
    }
    assert_eq!((Fault::numbered(6, 0, 0), Fault::numbered(23, 0, 0)), (None, None));
    assert_eq!(Step::RefusedAtOnce(Refusal::NotSendable).to_string(), "refused 6");
    assert_eq!(Step::Refused(Fault::CardStatus(0xFF, 0xA1)).to_string(), "refused 20 FFA1");
    assert_eq!(Step::Refused(Fault::Status(0xFE)).to_string(), "refused 15 FE");
    assert_eq!(Step::ListRefused { refusal: Fault::TimeOut, finished: 0 }.to_string(), "refused 8 finished 0");
    assert_eq!(
        Step::ListRefused { refusal: Fault::Status(0xFE), finished: 16 }.to_string(),
        "refused 15 FE finished 16"
    );
}

#[test]
fn lines_of_ends() {
    let line = |bytes, type1| Step::Done(Answer { bytes, type1, lengths: None }).to_string();
    assert_eq!(line(&[], false), "done");
    assert_eq!(line(&[0x0A, 0xFF], false), "done 0AFF");
    assert_eq!(line(&[0x0A, 0xFF], true), "done 0AFF type1");
    let lengths = Some(Lengths { uid: 4, ats: 0 });
    assert_eq!(Step::Done(Answer { bytes: &[1, 2], type1: false, lengths }).to_string(), "done 0102 uid 4 ats 0");
    assert_eq!(Step::None.to_string(), "none");
}

/// A session in which no call runs, with these books.
fn session_with(opened: u8, frames: u32) -> RawSession {
    let mut session = raw::fresh();
    session.frames = [frames; CALLERS];
    session.books = Books { opened, ..Books::default() };
    session
}

fn refused(number: u8) -> Outcome {
    Outcome {
        kind: raw::kind::REFUSED_AT_ONCE,
        refusal: number,
        status: 0,
        status2: 0,
        finished: 0,
        uid: 0,
        ats: 0,
        time: 0,
        len: 0,
    }
}

#[test]
fn opening_begins_the_books_anew() {
    for opened in [0, 1] {
        let mut session = session_with(opened, 77);
        let outcome = raw::call(&mut session, &Call::Open { padded: false }.arguments(), &mut [0; 1024]);
        assert_eq!((outcome.kind, session.books), (raw::kind::WRITE, Books::default()));
    }
}

#[test]
fn opened_out_of_range() {
    for opened in 2..=255 {
        let mut session = session_with(opened, 77);
        assert_eq!(raw::call(&mut session, &Call::Open { padded: false }.arguments(), &mut [0; 1024]), refused(1));
        assert_eq!(raw::call(&mut session, &Call::Version.arguments(), &mut [0; 1024]), refused(1));
        assert_eq!(session, session_with(opened, 77));
        // The opening waits for its ACK to be written.
        let mut session = raw::fresh();
        assert_eq!(
            raw::call(&mut session, &Call::Open { padded: false }.arguments(), &mut [0; 1024]).kind,
            raw::kind::WRITE
        );
        session.books.opened = opened;
        let before = session.clone();
        assert_eq!(raw::event(&mut session, raw::event::OK, &[], &mut [0; 1024]), refused(1));
        assert_eq!(session, before);
    }
}

#[test]
fn opening_chooses_the_mode() {
    for padded in [false, true] {
        let mut session = session_with(1, 77);
        session.books.mode = !padded as u8;
        let outcome = raw::call(&mut session, &Call::Open { padded }.arguments(), &mut [0; 1024]);
        let books = Books { mode: padded as u8, ..Books::default() };
        assert_eq!((outcome.kind, session.books), (raw::kind::WRITE, books));
    }
}

#[test]
fn no_such_mode() {
    for mode in 2..=255 {
        let mut session = session_with(1, 77);
        let opening = Arguments {
            numbers: Numbers { x: mode, ..Numbers::default() },
            ..Call::Open { padded: false }.arguments()
        };
        assert_eq!(raw::call(&mut session, &opening, &mut [0; 1024]), refused(4));
        assert_eq!(session, session_with(1, 77));
        session.books.mode = mode;
        let before = session.clone();
        assert_eq!(raw::call(&mut session, &Call::Open { padded: false }.arguments(), &mut [0; 1024]), refused(1));
        assert_eq!(session, before);
    }
}

#[test]
fn no_such_call_and_short_buffer() {
    let mut session = session_with(1, 0);
    let before = session.clone();
    let unknown = Arguments { number: 28, ..Arguments::default() };
    assert_eq!(raw::call(&mut session, &unknown, &mut [0; 1024]), refused(4));
    assert_eq!(raw::call(&mut session, &unknown, &mut [0; 1023]), refused(2));
    assert_eq!(raw::call(&mut session, &Call::Version.arguments(), &mut []), refused(2));
    assert_eq!(raw::event(&mut session, 7, &[], &mut [0; 1024]), refused(1));
    assert_eq!(session, before);
}

#[test]
fn no_such_caller() {
    for caller in 8..=255 {
        let mut session = session_with(1, 77);
        assert_eq!(raw::call(&mut session, &Call::Version.arguments().by(caller), &mut [0; 1024]), refused(4));
        assert_eq!(
            raw::call(&mut session, &Call::Open { padded: false }.arguments().by(caller), &mut [0; 1024]),
            refused(4)
        );
        assert_eq!(session, session_with(1, 77));
        session.books.caller = caller;
        let before = session.clone();
        assert_eq!(raw::call(&mut session, &Call::Version.arguments(), &mut [0; 1024]), refused(1));
        assert_eq!(session, before);
    }
}

#[test]
fn frames_by_caller() {
    let mut session = session_with(1, 0);
    let mut due = [0; CALLERS];
    for caller in [3, 7, 3] {
        assert_eq!(
            raw::call(&mut session, &Call::Version.arguments().by(caller), &mut [0; 1024]).kind,
            raw::kind::WRITE
        );
        due[usize::from(caller)] += 1;
        assert_eq!((session.books.caller, session.frames), (caller, due));
        session.core.call = Default::default();
    }
    assert_eq!(
        raw::call(&mut session, &Call::Open { padded: true }.arguments().by(5), &mut [0; 1024]).kind,
        raw::kind::WRITE
    );
    assert_eq!((&session.books, session.frames), (&Books { mode: 1, caller: 5, ..Books::default() }, [0; CALLERS]));
}
