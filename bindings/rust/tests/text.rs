//! What is written, what is read back, and what is not read.
use aspa_filter::{
    Answer, AsNumber, Cause, Ground, Hop, KeptCause, KeptVerdict, Ledger, NamedHop, Origin,
    Refusal, Register, Role, RouteNumber, Verdict,
};
use std::error::Error;

#[test]
fn as_numbers() {
    for (number, text) in [
        (0, "AS0"),
        (1, "AS1"),
        (64496, "AS64496"),
        (u32::MAX, "AS4294967295"),
    ] {
        let number = AsNumber(number);
        assert_eq!(number.to_string(), text);
        for text in [
            text,
            &text.to_lowercase(),
            &text[2..],
            &text.replace('A', "a"),
        ] {
            assert_eq!(text.parse(), Ok(number), "{text}");
        }
        assert_eq!(AsNumber::from(u32::from(number)), number);
    }
    for text in [
        "",
        "AS",
        "A",
        "as ",
        "S1",
        "AS-1",
        "AS+1",
        "-1",
        "+1",
        "01",
        "00",
        "AS01",
        "AS00",
        " 1",
        "1 ",
        "AS 1",
        "ASAS1",
        "ASN1",
        "1.0",
        "0x10",
        "1_000",
        "4294967296",
        "AS4294967296",
        "99999999999999999999",
        "AS١",
        "٣",
        "é1",
        "Aé",
    ] {
        assert!(text.parse::<AsNumber>().is_err(), "{text:?}");
    }
    let error = "AS01".parse::<AsNumber>().unwrap_err();
    assert_eq!(
        error.to_string(),
        "no AS number: it is a decimal number below 2^32 without sign or leading zeros, after `AS` or alone"
    );
}

#[test]
fn route_numbers() {
    assert_eq!(RouteNumber(0).to_string(), "0");
    assert_eq!(RouteNumber(u32::MAX).to_string(), "4294967295");
    assert_eq!(format!("{:>5}", RouteNumber(42)), "   42");
    assert_eq!(u32::from(RouteNumber::from(7)), 7);
}

#[test]
fn roles() {
    let names = [
        "customer",
        "peer",
        "provider",
        "route-server",
        "route-server-client",
        "mutual-transit",
    ];
    assert_eq!(Role::ALL.map(|role| role.to_string()), names);
    for (role, number) in Role::ALL.into_iter().zip(1..) {
        assert_eq!(role.to_string().parse(), Ok(role));
        assert_eq!((role.number(), u32::from(role)), (number, number));
        assert_eq!(Role::try_from(number), Ok(role));
    }
    assert_eq!(format!("{:<6}|", Role::Peer), "peer  |");
    for text in [
        "",
        "Customer",
        "PEER",
        " peer",
        "peer ",
        "route server",
        "route_server",
        "route-server-",
        "1",
    ] {
        assert!(text.parse::<Role>().is_err(), "{text:?}");
    }
    assert_eq!(
        "1".parse::<Role>().unwrap_err().to_string(),
        "no role: the roles are customer, peer, provider, route-server, route-server-client, mutual-transit"
    );
    for number in [0, 7, 256 + 1, u32::MAX] {
        let error = Role::try_from(number).unwrap_err();
        assert_eq!(
            error.to_string(),
            format!("the role is {number}, not 1 to 6")
        );
        assert_eq!(Refusal::from(error), Refusal::Role);
    }
}

#[test]
fn grounds() {
    for (ground, number, text) in [
        (Ground::Empty, 1, "the path is empty"),
        (
            Ground::NotNeighbour,
            2,
            "the first number is not the neighbour",
        ),
        (Ground::AsSet, 3, "a segment is a set"),
    ] {
        assert_eq!((ground.number(), ground.to_string()), (number, text.into()));
    }
}

fn hops(place: u32, origin: Origin, b: Option<(u32, Origin)>) -> Verdict {
    let b = b.map(|(place, origin)| NamedHop { place, origin });
    let a = NamedHop { place, origin };
    Verdict::Invalid(Cause::Hops { a, b })
}

#[test]
fn verdicts() {
    let top = u32::MAX;
    for (verdict, text) in [
        (Verdict::Valid, "Valid"),
        (
            Verdict::Invalid(Cause::Ground(Ground::Empty)),
            "Invalid ground 1",
        ),
        (
            Verdict::Invalid(Cause::Ground(Ground::NotNeighbour)),
            "Invalid ground 2",
        ),
        (
            Verdict::Invalid(Cause::Ground(Ground::AsSet)),
            "Invalid ground 3",
        ),
        (hops(3, Origin::Public, None), "Invalid 3 0 public -"),
        (hops(3, Origin::Overrides, None), "Invalid 3 0 drawer -"),
        (
            hops(2, Origin::Public, Some((5, Origin::Public))),
            "Invalid 2 5 public public",
        ),
        (
            hops(2, Origin::Public, Some((2, Origin::Overrides))),
            "Invalid 2 2 public drawer",
        ),
        (
            hops(2, Origin::Overrides, Some((5, Origin::Public))),
            "Invalid 2 5 drawer public",
        ),
        (
            hops(top, Origin::Overrides, Some((top, Origin::Overrides))),
            "Invalid 4294967295 4294967295 drawer drawer",
        ),
        (Verdict::Unknown { a: 1, b: 3 }, "Unknown 1 3"),
        (Verdict::Unknown { a: top, b: 0 }, "Unknown 4294967295 0"),
    ] {
        assert_eq!(verdict.to_string(), text);
        assert_eq!(text.parse(), Ok(verdict));
        // Kept, it is the same without the origins.
        let kept = KeptVerdict::from(verdict);
        let words: Vec<&str> = text.split(' ').take(3).collect();
        assert_eq!(kept.to_string(), words.join(" "));
        assert_eq!(words.join(" ").parse(), Ok(kept));
        let (plain, with_gap) = (
            Answer { verdict, gap: None },
            Answer {
                verdict,
                gap: Some(-1),
            },
        );
        assert_eq!(plain.to_string(), text);
        assert_eq!(with_gap.to_string(), format!("{text} gap -1"));
    }
    let none = Answer {
        verdict: Verdict::Valid,
        gap: Some(0),
    };
    assert_eq!(none.to_string(), "Valid gap 0", "0 is a gap");
    for text in [
        "",
        "valid",
        "VALID",
        " Valid",
        "Valid ",
        "Valid 0 0",
        "Valid gap 0",
        "Invalid",
        "Invalid ground",
        "Invalid ground 0",
        "Invalid ground 4",
        "Invalid ground 01",
        "Invalid ground 1 0",
        "Invalid 3",
        "Invalid 3 0 0",
        "Invalid  3 0",
        "Invalid 3  0",
        "Invalid 3 -1",
        "Invalid +3 0",
        "Invalid 03 0",
        "Invalid 3 4294967296",
        "Invalid 3 0 public",
        "Invalid 3 0 - -",
        "Invalid 3 0 - public",
        "Invalid 3 0 public public",
        "Invalid 3 5 public -",
        "Invalid 3 5 - drawer",
        "Invalid 0 0 - -",
        "Invalid 0 0 public -",
        "Invalid 3 0 overrides -",
        "Invalid 3 0 Public -",
        "Invalid 3 0 public  -",
        "Invalid 3 0 public - ",
        "Invalid 3 0 public - gap 1",
        "Invalid +3 0 public -",
        "Invalid ground 1 public -",
        "Invalid ground 1 - -",
        "Unknown 3 0 public -",
        "Valid public -",
        "Unknown",
        "Unknown 1",
        "Unknown ground 1",
        "Unknown 1\t3",
        "Unknown 1 3\n",
    ] {
        assert!(text.parse::<Verdict>().is_err(), "{text:?}");
        assert!(text.parse::<KeptVerdict>().is_err(), "{text:?}");
    }
    // Of an answer the origins are told, and of a kept verdict not.
    assert!("Invalid 3 0".parse::<Verdict>().is_err());
    assert!("Invalid 2 5".parse::<Verdict>().is_err());
    assert!("Invalid 3 0 public -".parse::<KeptVerdict>().is_err());
    // Places of a kept verdict may be any.
    let nowhere = KeptVerdict::Invalid(KeptCause::Hops { a: 0, b: 9 });
    assert_eq!("Invalid 0 9".parse(), Ok(nowhere));
    assert_eq!(
        "valid".parse::<Verdict>().unwrap_err().to_string(),
        "no verdict: it is `Valid`, `Invalid ground G`, `Invalid A B` (of an answer with two origins behind it) or `Unknown A B`"
    );
}

/// An answer's text is the one in README.md's table of the console.
#[test]
fn answers_of_judgings() {
    let (mut public, mut overrides) = (Register::new(), Register::new());
    let path = aspa_filter::sequence(&[80, 70].map(AsNumber)).unwrap();
    let judged = |public: &Register, overrides: &Register, role| {
        let answer = public.judge(overrides, role, AsNumber(80), &path).unwrap();
        answer.to_string()
    };
    assert_eq!(judged(&public, &overrides, Role::Peer), "Unknown 2 0");
    assert_eq!(judged(&public, &overrides, Role::Provider), "Valid gap 1");
    public.file(0, AsNumber(70), &[AsNumber(80)]).unwrap();
    public.file(0, AsNumber(80), &[AsNumber(70)]).unwrap();
    let both_ways = judged(&public, &overrides, Role::MutualTransit);
    assert_eq!(both_ways, "Valid gap -1");
    public.file(0, AsNumber(70), &[AsNumber(0)]).unwrap();
    let invalid = judged(&public, &overrides, Role::Customer);
    assert_eq!(invalid, "Invalid 2 0 public -");
    overrides.file(0, AsNumber(70), &[AsNumber(90)]).unwrap();
    let invalid = judged(&public, &overrides, Role::Customer);
    assert_eq!(invalid, "Invalid 2 0 drawer -");
}

/// So is a hop's.
#[test]
fn hops_of_registers() {
    let (mut public, mut overrides) = (Register::new(), Register::new());
    let told = |public: &Register, overrides: &Register| {
        let hop: Hop = public.hop(overrides, AsNumber(70), AsNumber(80)).unwrap();
        hop.to_string()
    };
    assert_eq!(told(&public, &overrides), "none");
    public.file(3, AsNumber(70), &[AsNumber(80)]).unwrap();
    assert_eq!(told(&public, &overrides), "provider public 3");
    overrides.file(7, AsNumber(70), &[AsNumber(0)]).unwrap();
    assert_eq!(told(&public, &overrides), "other drawer");
    overrides.file(5, AsNumber(70), &[AsNumber(80)]).unwrap();
    assert_eq!(told(&public, &overrides), "provider drawer 5");
    public.file(3, AsNumber(70), &[AsNumber(0)]).unwrap();
    overrides = Register::new();
    assert_eq!(told(&public, &overrides), "other public");
}

#[test]
fn errors_are_errors() {
    let refusal = Ledger::new().drop_route(RouteNumber(1)).unwrap_err();
    let errors: [Box<dyn Error + Send + Sync>; 6] = [
        Box::new("x".parse::<AsNumber>().unwrap_err()),
        Box::new("x".parse::<Role>().unwrap_err()),
        Box::new("x".parse::<Verdict>().unwrap_err()),
        Box::new(Role::try_from(0).unwrap_err()),
        Box::new(aspa_filter::sequence(&[]).unwrap_err()),
        Box::new(refusal),
    ];
    assert!(errors.iter().all(|error| !error.to_string().is_empty()));
    assert_eq!(
        errors[5].to_string(),
        "refused by 19: there is no such route"
    );
}
