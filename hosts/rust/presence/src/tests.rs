use crate::*;

fn a(identifier: &[u8]) -> Card {
    Card::new(Kind::A, identifier, Bitrate::B106A)
}

#[test]
fn layout() {
    assert_eq!((size_of::<Card>(), size_of::<ffi::List>(), size_of::<ffi::Outcome>()), (20, 3848, 24));
}

#[test]
fn order_and_latest_record() {
    let mut list = List::new();
    let dep = Card::new(Kind::Dep, &[], Bitrate::B848B);
    let found = [dep, a(&[1, 2]), Card::new(Kind::A, &[1], Bitrate::B212F), a(&[1])];
    let report = list.round(0, &found).unwrap();
    assert_eq!((report.arrived, report.departed), ([a(&[1]), a(&[1, 2]), dep].as_slice(), [].as_slice()));
    assert_eq!(list.present(), [a(&[1]), a(&[1, 2]), dep]);
}

#[test]
fn gone_after_two() {
    let mut list = List::new();
    list.round(4294967290, &[a(&[7])]).unwrap();
    assert_eq!(list.round(4294967291, &[]).unwrap().departed, []);
    assert!(list.present()[0].missed());
    assert_eq!(list.round(4294967295, &[]).unwrap().departed[0].identifier(), [7]);
    assert_eq!(list.round(4294967295, &[]), Err(Refusal::StaleRound));
}

#[test]
fn refusals_change_nothing() {
    let mut list = List::new();
    let many: Vec<Card> = (0..65).map(|i| a(&[i])).collect();
    assert_eq!(list.round(1, &many), Err(Refusal::ListFull));
    assert_eq!(list.round(1, &[a(&[0; 17])]), Err(Refusal::OverLong));
    assert!(list.present().is_empty());
    assert_eq!(list.round(0, &many[..64]).unwrap().arrived.len(), 64);
    assert_eq!(list.round(1, &many[64..]), Err(Refusal::ListFull));
    assert_eq!(list.present(), &many[..64]);
}
