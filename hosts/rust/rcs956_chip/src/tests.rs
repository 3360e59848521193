use crate::*;

fn frame(payload: &[u8]) -> Vec<u8> {
    let sum = |bytes: &[u8]| bytes.iter().fold(0u8, |s, b| s.wrapping_sub(*b));
    let n = payload.len();
    let mut f = vec![0, 0, 0xFF];
    if n < 256 {
        f.extend([n as u8, sum(&[n as u8])]);
    } else {
        let len = [(n >> 8) as u8, n as u8];
        f.extend([0xFF, 0xFF, len[0], len[1], sum(&len)]);
    }
    f.extend(payload);
    f.extend([sum(payload), 0]);
    f
}

fn answer(chip: &mut Chip, code: u8, data: &[u8]) -> Vec<u8> {
    let response = chip.step(&frame(&[&[0xD4, code], data].concat())).unwrap().to_vec();
    let start = if response[3..5] == [0xFF, 0xFF] { 8 } else { 5 };
    assert_eq!(response, frame(&response[start..response.len() - 2]));
    response[start..response.len() - 2].to_vec()
}

#[test]
fn layout() {
    assert_eq!((size_of::<ffi::Chip>(), size_of::<ffi::Outcome>()), (59035, 16));
}

#[test]
fn commands() {
    let mut chip = Chip::new();
    assert_eq!(answer(&mut chip, 0x02, &[]), [0xD5, 0x03, 0x33, 0x01, 0x30, 0x07]);
    assert_eq!(answer(&mut chip, 0x06, &[0x63, 0x39, 0x63, 0x04, 0x12, 0x34]), [0xD5, 0x07, 0x26, 0x80, 0x00]);
    assert_eq!(answer(&mut chip, 0x32, &[0x01, 0x01]), [0xD5, 0x33]);
    assert_eq!(answer(&mut chip, 0x06, &[0x63, 0x04]), [0xD5, 0x07, 0x83]);
    assert_eq!(answer(&mut chip, 0x4A, &[1, 0]), [0xD5, 0x4B, 0x00]);
    assert_eq!(answer(&mut chip, 0x56, &[0, 1, 0]), [0xD5, 0x57, 0x01]);
    assert_eq!(answer(&mut chip, 0x99, &[]), [0x7F]);
    assert_eq!(chip.step(&[]), None);
    assert_eq!(chip.step(&frame(&[0xD4])), None);
    assert_eq!(chip.step(&frame(&[0xD5, 0x02])), None);
    assert_eq!(chip.step(&[frame(&[0xD4, 0x02]), vec![0]].concat()), None);
}

#[test]
fn the_first_card_at_its_bitrate() {
    let mut chip = Chip::new();
    let (a, b): (Vec<u8>, Vec<u8>) = ((0..1010).map(|i| i as u8).collect(), [&[0; 10][..], &[0x81]].concat());
    assert_eq!(chip.add_card(Kind::A, Bitrate::B106A, &a[..3], &[]), Err(Refusal::BadArgument));
    assert_eq!(chip.add_card(Kind::A, Bitrate::B106A, &[&a[..], &[0]].concat(), &[]), Err(Refusal::OverLong));
    assert_eq!(chip.add_reply(&[1], &[2]), Err(Refusal::BadArgument));
    chip.add_card(Kind::A, Bitrate::B212F, &[9, 9, 0x20, 9], &[]).unwrap();
    chip.add_card(Kind::A, Bitrate::B106A, &a, &[]).unwrap();
    chip.add_reply(&[0x30, 0], &[1, 2]).unwrap();
    assert_eq!(chip.add_reply(&[0x30, 0], &[1]), Err(Refusal::BadArgument));
    assert_eq!(chip.add_reply(&[0x30, 1], &[1, 2, 3]), Err(Refusal::BadArgument));
    chip.add_card(Kind::A, Bitrate::B106A, &[8; 4], &[]).unwrap();
    assert_eq!(chip.add_card(Kind::B, Bitrate::B106B, &[0; 11], &[]), Err(Refusal::BadArgument));
    assert_eq!(chip.add_card(Kind::B, Bitrate::B106B, &b, &[7; 1012]), Err(Refusal::OverLong));
    chip.add_card(Kind::B, Bitrate::B106B, &b, &[7; 1011]).unwrap();
    for i in 0..8 {
        chip.add_reply(&[i], &[i; 1011]).unwrap();
    }
    assert_eq!(chip.add_reply(&[8], &[]), Err(Refusal::OverLong));
    assert_eq!(chip.add_card(Kind::Dep, Bitrate::B106A, &[], &[]), Err(Refusal::BadArgument));
    assert_eq!(chip.cards(), 4);
    assert_eq!(answer(&mut chip, 0x42, &[0x30, 0]), [0xD5, 0x43, 0x01]);
    assert_eq!(answer(&mut chip, 0x4A, &[1, 0]), [&[0xD5, 0x4B, 1, 1], &a[..]].concat());
    assert_eq!(answer(&mut chip, 0x42, &[0x30, 0]), [0xD5, 0x43, 0, 1, 2]);
    assert_eq!(answer(&mut chip, 0x40, &[1, 0x30, 0]), [0xD5, 0x41, 0, 1, 2]);
    assert_eq!(answer(&mut chip, 0x4A, &[1, 1]), [0xD5, 0x4B, 1, 1, 9, 9, 0x20, 9]);
    assert_eq!(answer(&mut chip, 0x4A, &[1, 3, 0]), [&[0xD5, 0x4B, 1, 1], &b[..]].concat());
    assert_eq!(answer(&mut chip, 0x42, &[5, 0, 8]), [&[0xD5, 0x43, 0], &[7; 1011][..]].concat());
    assert_eq!(answer(&mut chip, 0x42, &[7]), [&[0xD5, 0x43, 0], &[7; 1011][..]].concat());
    assert_eq!(answer(&mut chip, 0x18, &[1]), [0xD5, 0x19]);
    assert_eq!(answer(&mut chip, 0x42, &[7]), [0xD5, 0x43, 0x01]);
}
