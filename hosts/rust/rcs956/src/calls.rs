//! The calls, by their names in include/rcs956.h, which has what each takes and answers.

use crate::raw::{Arguments, Numbers};

/// A call and its arguments. Bitrates are texts such as `b"106A"`; an argument of no bytes is absent where it may be. An opening that is
/// `padded` is for a board that puts up to 16 more zeros before the start of a packet; with `split` the answer's UID and ATS are told
/// apart.
#[derive(Clone, Copy, Debug, PartialEq, Eq)]
pub enum Call<'a> {
    Open { padded: bool },
    Version,
    ResetMode,
    SetParameters { flags: u8 },
    RfConfiguration { item: u8, data: &'a [u8] },
    ReadRegister { addresses: &'a [u8] },
    WriteRegister { registers: &'a [u8] },
    ReadSingleRegister { address: u16 },
    WriteSingleRegister { address: u16, value: u8 },
    InListPassiveTarget { max_tg: u8, bitrate: u8, initiator: &'a [u8] },
    InDataExchange { data: &'a [u8], ms: u32 },
    InCommunicateThru { data: &'a [u8], ms: u32 },
    InJumpForDep { active: bool, br: u8, passive: &'a [u8], nfcid3: &'a [u8], gi: &'a [u8] },
    TgInitTarget { mode: u8, mifare: &'a [u8], felica: &'a [u8], nfcid3t: &'a [u8], gt: &'a [u8], ms: u32 },
    TgSetGeneralBytes { data: &'a [u8] },
    TgGetInitiatorCommand { ms: u32 },
    TgResponseToInitiator { data: &'a [u8] },
    TgGetTargetStatus,
    RfFieldOff,
    DetectTypeA { bitrate: &'a [u8], uid: &'a [u8], split: bool },
    DetectTypeB { bitrate: &'a [u8], sensb_req: &'a [u8] },
    DetectTypeF { bitrate: &'a [u8], system_code: u16, request_code: u8, time_slots: u8 },
    DetectDep { bitrate: &'a [u8], atr_req: &'a [u8] },
    Transceive { bitrate: &'a [u8], sel_res: &'a [u8], rid_res: bool, data: &'a [u8], ms: Option<u16> },
    PollTypeF { bitrate: &'a [u8], codes: &'a [u8] },
    ReadWithoutEncryption { idm: &'a [u8], service: u16, blocks: &'a [u8], ms: Option<u16> },
    WriteWithoutEncryption { idm: &'a [u8], service: u16, blocks: &'a [u8], data: &'a [u8], ms: Option<u16> },
}

impl<'a> Arguments<'a> {
    fn ms(self, ms: u32) -> Self {
        Arguments { numbers: Numbers { ms, ..self.numbers }, ..self }
    }

    fn word(self, word: u16) -> Self {
        Arguments { numbers: Numbers { word, ..self.numbers }, ..self }
    }

    fn x(self, x: u8) -> Self {
        Arguments { numbers: Numbers { x, ..self.numbers }, ..self }
    }

    fn y(self, y: u8) -> Self {
        Arguments { numbers: Numbers { y, ..self.numbers }, ..self }
    }

    fn first(self, first: &'a [u8]) -> Self {
        Arguments { first, ..self }
    }

    fn second(self, second: &'a [u8]) -> Self {
        Arguments { second, ..self }
    }

    fn third(self, third: &'a [u8]) -> Self {
        Arguments { third, ..self }
    }

    fn fourth(self, fourth: &'a [u8]) -> Self {
        Arguments { fourth, ..self }
    }

    /// The ms of `transceive`, where they are given.
    fn timeout(self, ms: Option<u16>) -> Self {
        ms.map_or(self, |ms| self.word(ms).y(1))
    }

    /// The ms of a FeliCa call, where they are given.
    fn waiting(self, ms: Option<u16>) -> Self {
        ms.map_or(self, |ms| self.ms(ms.into()).y(1))
    }

    /// The same as a call of this caller.
    pub fn by(self, caller: u8) -> Self {
        Arguments { numbers: Numbers { caller, ..self.numbers }, ..self }
    }
}

impl<'a> Call<'a> {
    fn number(self) -> u8 {
        match self {
            Call::Open { .. } => 0,
            Call::Version => 1,
            Call::ResetMode => 2,
            Call::SetParameters { .. } => 3,
            Call::RfConfiguration { .. } => 4,
            Call::ReadRegister { .. } => 5,
            Call::WriteRegister { .. } => 6,
            Call::ReadSingleRegister { .. } => 7,
            Call::WriteSingleRegister { .. } => 8,
            Call::InListPassiveTarget { .. } => 9,
            Call::InDataExchange { .. } => 10,
            Call::InCommunicateThru { .. } => 11,
            Call::InJumpForDep { .. } => 12,
            Call::TgInitTarget { .. } => 13,
            Call::TgSetGeneralBytes { .. } => 14,
            Call::TgGetInitiatorCommand { .. } => 15,
            Call::TgResponseToInitiator { .. } => 16,
            Call::TgGetTargetStatus => 17,
            Call::RfFieldOff => 18,
            Call::DetectTypeA { split: false, .. } => 19,
            Call::DetectTypeB { .. } => 20,
            Call::DetectTypeF { .. } => 21,
            Call::DetectDep { .. } => 22,
            Call::Transceive { .. } => 23,
            Call::PollTypeF { .. } => 24,
            Call::DetectTypeA { split: true, .. } => 25,
            Call::ReadWithoutEncryption { .. } => 26,
            Call::WriteWithoutEncryption { .. } => 27,
        }
    }

    /// The call's number and arguments.
    pub fn arguments(self) -> Arguments<'a> {
        let call = Arguments { number: self.number(), ..Arguments::default() };
        match self {
            Call::Version | Call::ResetMode | Call::TgGetTargetStatus | Call::RfFieldOff => call,
            Call::Open { padded } => call.x(padded as u8),
            Call::SetParameters { flags } => call.x(flags),
            Call::RfConfiguration { item, data } => call.first(data).x(item),
            Call::ReadRegister { addresses } => call.first(addresses),
            Call::WriteRegister { registers } => call.first(registers),
            Call::ReadSingleRegister { address } => call.word(address),
            Call::WriteSingleRegister { address, value } => call.word(address).x(value),
            Call::InListPassiveTarget { max_tg, bitrate, initiator } => call.first(initiator).x(max_tg).y(bitrate),
            Call::InDataExchange { data, ms } | Call::InCommunicateThru { data, ms } => call.first(data).ms(ms),
            Call::InJumpForDep { active, br, passive, nfcid3, gi } => {
                call.first(passive).second(nfcid3).third(gi).x(active as u8).y(br)
            }
            Call::TgInitTarget { mode, mifare, felica, nfcid3t, gt, ms } => {
                call.first(mifare).second(felica).third(nfcid3t).fourth(gt).x(mode).ms(ms)
            }
            Call::TgSetGeneralBytes { data } | Call::TgResponseToInitiator { data } => call.first(data),
            Call::TgGetInitiatorCommand { ms } => call.ms(ms),
            Call::DetectTypeA { bitrate, uid, .. } => call.first(bitrate).second(uid),
            Call::DetectTypeB { bitrate, sensb_req } => call.first(bitrate).second(sensb_req),
            Call::DetectTypeF { bitrate, system_code, request_code, time_slots } => {
                call.first(bitrate).word(system_code).x(request_code).y(time_slots)
            }
            Call::DetectDep { bitrate, atr_req } => call.first(bitrate).second(atr_req),
            Call::Transceive { bitrate, sel_res, rid_res, data, ms } => {
                call.first(bitrate).second(sel_res).third(data).x(rid_res as u8).timeout(ms)
            }
            Call::PollTypeF { bitrate, codes } => call.first(bitrate).second(codes),
            Call::ReadWithoutEncryption { idm, service, blocks, ms } => {
                call.first(idm).second(blocks).word(service).waiting(ms)
            }
            Call::WriteWithoutEncryption { idm, service, blocks, data, ms } => {
                call.first(idm).second(blocks).third(data).word(service).waiting(ms)
            }
        }
    }
}
