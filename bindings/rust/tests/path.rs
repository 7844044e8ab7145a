//! The builder's bytes, and the segments that it refuses.
use aspa_filter::{
    sequence, AsNumber, Cause, Ground, Ledger, PathBuilder, Refusal, Register, Role, RouteNumber,
    Verdict, MOST_SEGMENT,
};

#[test]
fn bytes() {
    assert_eq!(PathBuilder::new().bytes(), []);
    let path = PathBuilder::new()
        .sequence(&[0x0102_0304, u32::MAX].map(AsNumber))
        .unwrap();
    let first = [2, 2, 1, 2, 3, 4, 255, 255, 255, 255];
    assert_eq!(path.bytes(), first);
    let path = path.set(&[AsNumber(7)]).unwrap();
    let second = [1, 1, 0, 0, 0, 7];
    assert_eq!(path.bytes(), [&first[..], &second].concat());
    let path = path.sequence(&[AsNumber(0)]).unwrap();
    let third = [2, 1, 0, 0, 0, 0];
    assert_eq!(path.bytes(), [&first[..], &second, &third].concat());
    assert_eq!(Vec::from(path.clone()), path.bytes());
}

#[test]
fn shortcut() {
    let numbers = [30, 20, 20, 10].map(AsNumber);
    let built = PathBuilder::new().sequence(&numbers).unwrap();
    assert_eq!(sequence(&numbers).unwrap(), built.bytes());
    assert_eq!(sequence(&numbers).unwrap()[..6], [2, 4, 0, 0, 0, 30]);
}

/// The bytes of segments of one type.
fn segments(kind: u8, parts: &[&[AsNumber]]) -> Vec<u8> {
    let mut bytes = vec![];
    for part in parts {
        bytes.extend([kind, part.len() as u8]);
        bytes.extend(part.iter().flat_map(|number| number.0.to_be_bytes()));
    }
    bytes
}

#[test]
fn lengths() {
    assert_eq!(MOST_SEGMENT, 255);
    let numbers: Vec<AsNumber> = (1..=513).map(AsNumber).collect();
    let start = || PathBuilder::new().sequence(&[AsNumber(9)]).unwrap();
    for length in [1, 254, 255] {
        let numbers = &numbers[..length];
        assert_eq!(sequence(numbers).unwrap(), segments(2, &[numbers]));
        let set = PathBuilder::new().set(numbers).unwrap();
        assert_eq!(set.bytes(), segments(1, &[numbers]));
    }
    // A path that is too long for one segment goes on in the next.
    for counts in [
        &[255, 1][..],
        &[255, 254],
        &[255, 255],
        &[255, 255, 1],
        &[255, 255, 2],
        &[255, 255, 3],
    ] {
        let numbers = &numbers[..counts.iter().sum()];
        let mut rest = numbers;
        let parts = counts.iter().map(|count| rest.split_off(..*count).unwrap());
        let parts: Vec<&[AsNumber]> = parts.collect();
        assert_eq!(sequence(numbers).unwrap(), segments(2, &parts));
        let later = start().sequence(numbers).unwrap();
        assert_eq!(later.bytes()[6..], segments(2, &parts));
    }
    let length_error =
        |length| format!("a segment of {length} numbers: its count byte says 1 to 255");
    let refused = sequence(&[]).unwrap_err();
    assert_eq!(refused.to_string(), length_error(0));
    assert_eq!(start().sequence(&[]), Err(refused));
    assert_eq!(start().set(&[]), Err(refused));
    for length in [256, 510, 513] {
        let refused = start().set(&numbers[..length]).unwrap_err();
        assert_eq!(refused.to_string(), length_error(length));
    }
}

/// However long it is, a path is read as it was built.
#[test]
fn kept() {
    let (register, none, role) = (Register::new(), Register::new(), Role::Customer);
    let path: Vec<AsNumber> = (1..=513).map(AsNumber).collect();
    for length in [1, 254, 255, 256, 509, 510, 511, 512] {
        let mut ledger = Ledger::new();
        let attribute = sequence(&path[..length]).unwrap();
        let (number, neighbour) = (RouteNumber(1), path[0]);
        ledger
            .keep(&register, &none, number, role, neighbour, &attribute)
            .unwrap();
        assert_eq!(ledger.routes().next().unwrap().path, &path[..length]);
    }
    let refused = register.judge(&none, role, path[0], &sequence(&path).unwrap());
    assert_eq!(refused, Err(Refusal::PathLength));
}

/// What is built is read as it was meant.
#[test]
fn judged() {
    let (mut register, none) = (Register::new(), Register::new());
    register.file(0, AsNumber(10), &[AsNumber(20)]).unwrap();
    register.file(0, AsNumber(20), &[AsNumber(30)]).unwrap();
    let judge = |path: &PathBuilder| {
        let answer = register.judge(&none, Role::Customer, AsNumber(30), path.bytes());
        answer.unwrap().verdict
    };
    let top = PathBuilder::new().sequence(&[AsNumber(30)]).unwrap();
    let whole = top.clone().sequence(&[20, 20, 10].map(AsNumber)).unwrap();
    assert_eq!(judge(&whole), Verdict::Valid);
    let prepended = top.clone().sequence(&[30, 20].map(AsNumber)).unwrap();
    let prepended = prepended.sequence(&[20, 10].map(AsNumber)).unwrap();
    assert_eq!(judge(&prepended), Verdict::Valid);
    let with_set = top.set(&[20, 10].map(AsNumber)).unwrap();
    assert_eq!(
        judge(&with_set),
        Verdict::Invalid(Cause::Ground(Ground::AsSet))
    );
    assert_eq!(
        judge(&PathBuilder::new()),
        Verdict::Invalid(Cause::Ground(Ground::Empty))
    );
}
