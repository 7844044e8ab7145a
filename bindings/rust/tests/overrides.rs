//! Two registers: which of them counts for a customer, in verdicts, hops and lists, and which one an answer names.
use aspa_filter::{
    sequence, Answer, AsNumber, Cause, Filed, Hop, KeptVerdict, Ledger, NamedHop, Origin, Refusal,
    Register, Role, RouteNumber, Verdict, GREATEST_SOURCE, MOST_PROVIDERS, MOST_PROVIDER_WORDS,
    MOST_RECORDS,
};
use std::collections::BTreeMap;

/// A public register and overrides.
#[derive(Clone, Default)]
struct Pair {
    public: Register,
    overrides: Register,
}

impl Pair {
    fn of(&mut self, origin: Origin) -> &mut Register {
        match origin {
            Origin::Public => &mut self.public,
            Origin::Overrides => &mut self.overrides,
        }
    }

    fn file(&mut self, origin: Origin, source: u32, customer: u32, list: &[u32]) {
        let filed = self
            .of(origin)
            .file(source, AsNumber(customer), &numbers(list));
        assert!(filed.is_ok());
    }

    fn withdraw(&mut self, origin: Origin, source: u32, customer: u32) {
        let gone = self.of(origin).withdraw(source, AsNumber(customer));
        assert_eq!(gone, Ok(()));
    }

    /// Judged, and kept and judged again alike.
    fn judge(&self, role: Role, path: &[u32]) -> Answer {
        let Pair { public, overrides } = self;
        let (neighbour, bytes) = (AsNumber(path[0]), sequence(&numbers(path)).unwrap());
        let answer = public.judge(overrides, role, neighbour, &bytes).unwrap();
        let (mut ledger, number) = (Ledger::new(), RouteNumber(1));
        let kept = ledger.keep(public, overrides, number, role, neighbour, &bytes);
        assert_eq!(kept, Ok(answer));
        assert_eq!(ledger.rejudge(public, overrides), Ok(0));
        let route = ledger.routes().next().unwrap();
        assert_eq!(route.verdict, KeptVerdict::from(answer.verdict));
        answer
    }

    fn hop(&self, customer: u32, other: u32) -> Hop {
        let (customer, other) = (AsNumber(customer), AsNumber(other));
        self.public.hop(&self.overrides, customer, other).unwrap()
    }

    fn lookup(&self, source: u32, customer: u32) -> &[AsNumber] {
        self.public
            .lookup(&self.overrides, source, AsNumber(customer))
    }
}

fn numbers(list: &[u32]) -> Vec<AsNumber> {
    list.iter().copied().map(AsNumber).collect()
}

const ORIGINS: [Origin; 2] = [Origin::Public, Origin::Overrides];

fn invalid(a: (u32, Origin), b: Option<(u32, Origin)>) -> Verdict {
    let named = |(place, origin)| NamedHop { place, origin };
    Verdict::Invalid(Cause::Hops {
        a: named(a),
        b: b.map(named),
    })
}

/// Each hop that is named has the register that counts for its own customer.
#[test]
fn origins() {
    for first in ORIGINS {
        for second in ORIGINS {
            // 10 has 20, and 20 has nobody: the hop to place 3 is of the register of 20.
            let mut pair = Pair::default();
            pair.file(first, 1, 10, &[20]);
            pair.file(second, 2, 20, &[0]);
            let answer = pair.judge(Role::Customer, &[40, 20, 10]);
            assert_eq!(answer.verdict, invalid((3, second), None));
            assert_eq!(answer.gap, None);
            pair.withdraw(second, 2, 20);
            let answer = pair.judge(Role::Customer, &[40, 20, 10]);
            assert_eq!(answer.verdict, Verdict::Unknown { a: 3, b: 0 });
            let answer = pair.judge(Role::Customer, &[20, 10]);
            assert_eq!(answer.verdict, Verdict::Valid);

            // Both ends have nobody: place 2 is of the register of 10, place 3 of that of 40.
            let mut pair = Pair::default();
            pair.file(first, 0, 10, &[0]);
            pair.file(second, 0, 40, &[0]);
            let down = invalid((2, first), Some((3, second)));
            for role in [Role::Provider, Role::MutualTransit] {
                let answer = pair.judge(role, &[40, 30, 20, 10]);
                assert_eq!((answer.verdict, answer.gap), (down, Some(3)));
            }
            // Who stands between them is not named.
            pair.file(Origin::Public, 0, 20, &[30]);
            pair.file(Origin::Overrides, 0, 30, &[20]);
            let answer = pair.judge(Role::Provider, &[40, 30, 20, 10]);
            assert_eq!(answer.verdict, down);

            // Two hops to one place: from 40 and from 20.
            let mut pair = Pair::default();
            pair.file(first, 0, 40, &[0]);
            pair.file(second, 0, 20, &[0]);
            let answer = pair.judge(Role::Provider, &[20, 10, 40]);
            assert_eq!(answer.verdict, invalid((2, first), Some((2, second))));
        }
    }
}

/// An override takes the place of every public record of its customer, whichever their sources are, and gives it back.
#[test]
fn override_and_back() {
    let path = [20, 10];
    let mut pair = Pair::default();
    for source in 0..=GREATEST_SOURCE {
        pair.file(Origin::Public, source, 10, &[20, 30]);
    }
    let (mut ledger, bytes) = (Ledger::new(), sequence(&numbers(&path)).unwrap());
    let Pair { public, overrides } = &pair;
    ledger
        .keep(
            public,
            overrides,
            RouteNumber(7),
            Role::Peer,
            AsNumber(20),
            &bytes,
        )
        .unwrap();
    for source in 0..=GREATEST_SOURCE {
        assert_eq!(pair.judge(Role::Peer, &path).verdict, Verdict::Valid);
        pair.file(Origin::Overrides, source, 10, &[0]);
        let by_overrides = invalid((2, Origin::Overrides), None);
        assert_eq!(pair.judge(Role::Peer, &path).verdict, by_overrides);
        assert_eq!(ledger.rejudge(&pair.public, &pair.overrides), Ok(1));
        pair.withdraw(Origin::Overrides, source, 10);
        assert_eq!(ledger.rejudge(&pair.public, &pair.overrides), Ok(1));
    }
    // The public records are wrong, and the override right.
    for source in 0..=GREATEST_SOURCE {
        pair.file(Origin::Public, source, 10, &[0]);
    }
    let by_public = invalid((2, Origin::Public), None);
    assert_eq!(pair.judge(Role::Peer, &path).verdict, by_public);
    pair.file(Origin::Overrides, 6, 10, &[20]);
    assert_eq!(pair.judge(Role::Peer, &path).verdict, Verdict::Valid);
    // Of other customers they leave this one to the public register.
    assert_eq!(pair.overrides.clear(6), Ok(1));
    pair.file(Origin::Overrides, 6, 9, &[20]);
    pair.file(Origin::Overrides, 6, 11, &[20]);
    assert_eq!(pair.judge(Role::Peer, &path).verdict, by_public);
    // A ledger does not hold the register: where nothing else changes, nothing does.
    assert_eq!(ledger.rejudge(&pair.public, &pair.overrides), Ok(1));
    pair.file(Origin::Overrides, 6, 10, &[0]);
    let by_overrides = invalid((2, Origin::Overrides), None);
    assert_eq!(pair.judge(Role::Peer, &path).verdict, by_overrides);
    let before = ledger.clone();
    assert_eq!(ledger.rejudge(&pair.public, &pair.overrides), Ok(0));
    assert_eq!(ledger, before);
}

/// One register as both: it is the overrides that count.
#[test]
fn one_as_both() {
    let mut register = Register::new();
    register.file(4, AsNumber(10), &[AsNumber(30)]).unwrap();
    let bytes = sequence(&numbers(&[20, 10])).unwrap();
    let answer = register.judge(&register, Role::Peer, AsNumber(20), &bytes);
    assert_eq!(
        answer.unwrap().verdict,
        invalid((2, Origin::Overrides), None)
    );
    let (origin, source) = (Origin::Overrides, 4);
    let hop = register.hop(&register, AsNumber(10), AsNumber(30));
    assert_eq!(hop, Ok(Hop::ProviderPlus { origin, source }));
    let list = register.lookup(&register, 4, AsNumber(10));
    assert_eq!(list, [AsNumber(30)]);
}

/// Of the sources that list a provider the lowest is named, and only of the register that counts.
#[test]
fn lowest_sources() {
    for low in 0..=GREATEST_SOURCE {
        for high in low..=GREATEST_SOURCE {
            for origin in ORIGINS {
                let mut pair = Pair::default();
                for source in 0..=GREATEST_SOURCE {
                    pair.file(origin, source, 10, &[40]);
                }
                pair.file(origin, low, 10, &[20]);
                pair.file(origin, high, 10, &[20, 30]);
                let provider = |source| Hop::ProviderPlus { origin, source };
                assert_eq!(pair.hop(10, 20), provider(low));
                assert_eq!(pair.hop(10, 30), provider(high));
                for other in [50, 10, 0, u32::MAX] {
                    assert_eq!(pair.hop(10, other), Hop::NotProviderPlus { origin });
                }
                for customer in [9, 11, 0, u32::MAX] {
                    assert_eq!(pair.hop(customer, 20), Hop::NoAttestation);
                }
                if origin == Origin::Public {
                    pair.file(Origin::Overrides, high, 10, &[30]);
                    let (origin, source) = (Origin::Overrides, high);
                    assert_eq!(pair.hop(10, 30), Hop::ProviderPlus { origin, source });
                    assert_eq!(pair.hop(10, 20), Hop::NotProviderPlus { origin });
                }
            }
        }
    }
}

/// Lists as they were filed, in either register or in both, and none where there is none.
#[test]
fn lookups() {
    let customers = [1, 2, 3, 700, 701, u32::MAX - 1, u32::MAX];
    let mut random = 1u32;
    for _ in 0..50 {
        let mut pair = Pair::default();
        let mut filed: BTreeMap<(Origin, u32, u32), Vec<u32>> = BTreeMap::new();
        for customer in customers {
            for source in 0..=GREATEST_SOURCE {
                random = random.wrapping_mul(1_664_525).wrapping_add(1_013_904_223);
                let length = [1, 2, 3, 255, MOST_PROVIDERS][(random >> 20) as usize % 5];
                let list: Vec<u32> = (1000 * source + 1000..).take(length).collect();
                for (origin, chosen) in [(Origin::Public, 0..4), (Origin::Overrides, 3..5)] {
                    let room = pair.of(origin).words()[1] as usize + length;
                    if chosen.contains(&(random >> 28)) && room <= MOST_PROVIDER_WORDS {
                        pair.file(origin, source, customer, &list);
                        filed.insert((origin, customer, source), list.clone());
                    }
                }
            }
        }
        for customer in customers.into_iter().chain([0, 4, 699, 702]) {
            let key = |source| (Origin::Overrides, customer, source);
            let overridden = filed.range(key(0)..=key(GREATEST_SOURCE)).next().is_some();
            let origin = ORIGINS[usize::from(overridden)];
            for source in (0..=GREATEST_SOURCE + 1).chain([u32::MAX]) {
                let list = filed
                    .get(&(origin, customer, source))
                    .map_or(&[][..], |l| l);
                assert_eq!(pair.lookup(source, customer), numbers(list));
            }
        }
    }
}

/// What only the public register has of a source is hidden by an override of another; a refused table hides every list.
#[test]
fn hidden_lists() {
    let mut pair = Pair::default();
    pair.file(Origin::Public, 0, 10, &[20, 30]);
    assert_eq!(pair.lookup(0, 10), numbers(&[20, 30]));
    pair.file(Origin::Overrides, 1, 10, &[40]);
    assert_eq!(pair.lookup(0, 10), []);
    assert_eq!(pair.lookup(1, 10), numbers(&[40]));
    // The list is a part of the register.
    let words = pair.overrides.words().as_ptr_range();
    assert!(words.contains(&pair.lookup(1, 10).as_ptr().cast()));

    pair.file(Origin::Public, 0, 11, &[20]);
    for (origin, index) in [(Origin::Public, 1), (Origin::Overrides, 1)] {
        let mut damaged = pair.clone();
        let mut words = damaged.of(origin).words().to_vec();
        words[index] += 1;
        *damaged.of(origin) = Register::from_words(words.clone());
        for (source, customer) in [(1, 10), (0, 11)] {
            assert_eq!(damaged.lookup(source, customer), []);
        }
        let (customer, other) = (AsNumber(10), AsNumber(40));
        let hop = damaged.public.hop(&damaged.overrides, customer, other);
        assert_eq!(hop, Err(Refusal::RegisterMalformed));
        words.pop();
        *damaged.of(origin) = Register::from_words(words);
        for (source, customer) in [(1, 10), (0, 11)] {
            assert_eq!(damaged.lookup(source, customer), []);
        }
        let hop = damaged.public.hop(&damaged.overrides, customer, other);
        assert_eq!(hop, Err(Refusal::TableLength));
    }
}

/// Each register has room of its own.
#[test]
fn room() {
    let mut pair = Pair::default();
    for i in 0..MOST_RECORDS as u32 {
        let list: Vec<u32> = (90_000 + 8 * i..).take(8).collect();
        pair.file(Origin::Public, i % 8, 1000 + i / 8, &list);
    }
    assert_eq!(pair.public.words()[1] as usize, MOST_PROVIDER_WORDS);
    let one = [AsNumber(80_000)];
    let full = pair.public.file(0, AsNumber(1), &one);
    assert_eq!(full, Err(Refusal::RegisterFull));
    for i in 0..MOST_RECORDS as u32 {
        assert_eq!(
            pair.overrides.file(0, AsNumber(1 + i), &one),
            Ok(Filed::New)
        );
    }
    let full = pair.overrides.file(1, AsNumber(1), &one);
    assert_eq!(full, Err(Refusal::RegisterFull));
    // The first and the last, of the customers that are in both and of those that are in one.
    let (origin, source) = (Origin::Overrides, 0);
    for customer in [1, 1000, 1024] {
        assert_eq!(
            pair.hop(customer, 80_000),
            Hop::ProviderPlus { origin, source }
        );
        assert_eq!(pair.lookup(0, customer), one);
    }
    let origin = Origin::Public;
    assert_eq!(
        pair.hop(1025, 90_000 + 8 * 200 + 7),
        Hop::ProviderPlus { origin, source }
    );
    assert_eq!(pair.hop(1127, 90_000), Hop::NotProviderPlus { origin });
    assert_eq!(pair.lookup(7, 1127).len(), 8);
    assert_eq!(pair.hop(1128, 90_000), Hop::NoAttestation);
}

/// Several threads read the same two registers.
#[test]
fn threads() {
    let mut pair = Pair::default();
    pair.file(Origin::Public, 0, 10, &[20]);
    pair.file(Origin::Overrides, 0, 20, &[30]);
    let told = std::thread::scope(|scope| {
        let threads = [10, 20, 30].map(|customer| {
            let pair = &pair;
            scope.spawn(move || (pair.hop(customer, 30), pair.lookup(0, customer)))
        });
        threads.map(|thread| thread.join().unwrap())
    });
    let (public, overrides) = (Origin::Public, Origin::Overrides);
    assert_eq!(
        told,
        [
            (Hop::NotProviderPlus { origin: public }, &[AsNumber(20)][..]),
            (
                Hop::ProviderPlus {
                    origin: overrides,
                    source: 0
                },
                &[AsNumber(30)]
            ),
            (Hop::NoAttestation, &[]),
        ]
    );
}
