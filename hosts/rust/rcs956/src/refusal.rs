//! Refusals, by document 01's words and numbers: at once, and those that end a call.

/// Why a call or an event was refused at once. Nothing has changed.
#[derive(Clone, Copy, Debug, PartialEq, Eq)]
pub enum Refusal {
    OutOfTurn = 1,
    ShortBuffer = 2,
    OverLong = 3,
    BadArgument = 4,
    Bitrate = 5,
    NotSendable = 6,
}

/// Why a call that ran has ended without an answer.
#[derive(Clone, Copy, Debug, PartialEq, Eq)]
pub enum Fault {
    Transport,
    TimeOut,
    FalseStart,
    BrokenFrame,
    Length,
    FrameKind,
    Identifier,
    Code,
    Status(u8),
    ShortResponse,
    NoCard,
    CrcA,
    Rate,
    /// Both status flags of the card.
    CardStatus(u8, u8),
    OtherCard,
    UidLayout,
}

const REFUSALS: [Refusal; 6] = [
    Refusal::OutOfTurn,
    Refusal::ShortBuffer,
    Refusal::OverLong,
    Refusal::BadArgument,
    Refusal::Bitrate,
    Refusal::NotSendable,
];

/// Each fault with its number; 15 with this status byte, 20 with these status flags.
fn faults(status: u8, status2: u8) -> [(u8, Fault); 16] {
    [
        (7, Fault::Transport),
        (8, Fault::TimeOut),
        (9, Fault::FalseStart),
        (10, Fault::BrokenFrame),
        (11, Fault::Length),
        (12, Fault::FrameKind),
        (13, Fault::Identifier),
        (14, Fault::Code),
        (15, Fault::Status(status)),
        (16, Fault::ShortResponse),
        (17, Fault::NoCard),
        (18, Fault::CrcA),
        (19, Fault::Rate),
        (20, Fault::CardStatus(status, status2)),
        (21, Fault::OtherCard),
        (22, Fault::UidLayout),
    ]
}

impl Refusal {
    pub fn numbered(number: u8) -> Option<Refusal> {
        REFUSALS.into_iter().find(|refusal| refusal.number() == number)
    }

    pub fn number(self) -> u8 {
        self as u8
    }
}

impl Fault {
    /// With the status byte of 15 or both status flags of 20.
    pub fn numbered(number: u8, status: u8, status2: u8) -> Option<Fault> {
        faults(status, status2).into_iter().find_map(|(n, fault)| (n == number).then_some(fault))
    }

    pub fn number(self) -> u8 {
        faults(self.status(), self.status2()).iter().find(|(_, fault)| *fault == self).map_or(0, |(number, _)| *number)
    }

    /// The status byte of 15 or the first status flag of 20, else 0.
    pub fn status(self) -> u8 {
        match self {
            Fault::Status(status) | Fault::CardStatus(status, _) => status,
            _ => 0,
        }
    }

    /// The second status flag of 20, else 0.
    pub fn status2(self) -> u8 {
        if let Fault::CardStatus(_, status2) = self { status2 } else { 0 }
    }
}
