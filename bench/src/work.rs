//! The tables that are measured, made from the same random numbers in every run.
use crate::library;
use aspa_filter::{
    AsNumber, Ledger, Register, Role, RouteNumber, MOST_PATH, MOST_PATH_WORDS, MOST_ROUTES,
};

/// xorshift64*.
#[derive(Clone)]
pub struct Random(pub u64);

impl Random {
    pub fn next(&mut self) -> u32 {
        self.0 ^= self.0 >> 12;
        self.0 ^= self.0 << 25;
        self.0 ^= self.0 >> 27;
        (self.0.wrapping_mul(0x2545_F491_4F6C_DD1D) >> 32) as u32
    }

    pub fn below(&mut self, n: usize) -> usize {
        self.next() as usize % n
    }

    fn shuffle<T>(&mut self, items: &mut [T]) {
        for i in (1..items.len()).rev() {
            items.swap(i, self.below(i + 1));
        }
    }
}

/// Where AS numbers are drawn from: ranges, first and last number included.
pub struct Numbers {
    pub name: &'static str,
    ranges: &'static [(u32, u32)],
    consecutive: bool,
}

/// The registries' blocks: 16-bit numbers, APNIC, RIPE NCC, LACNIC, AFRINIC, ARIN.
const BLOCKS: [(u32, u32); 6] = [
    (1, 64495),
    (131072, 153913),
    (196608, 216475),
    (262144, 275452),
    (327680, 329727),
    (393216, 402332),
];

pub const ALL: Numbers = Numbers {
    name: "all below 2^31",
    ranges: &[(2, (1 << 31) + 1)],
    consecutive: false,
};

pub const OTHERS: [Numbers; 8] = [
    Numbers {
        name: "the registries' blocks",
        ranges: &BLOCKS,
        consecutive: false,
    },
    Numbers {
        name: "16 bits and one registry's block",
        ranges: &[BLOCKS[0], BLOCKS[2]],
        consecutive: false,
    },
    Numbers {
        name: "16 bits",
        ranges: &[BLOCKS[0]],
        consecutive: false,
    },
    Numbers {
        name: "consecutive",
        ranges: &[(200_000, 203_071)],
        consecutive: true,
    },
    Numbers {
        name: "the private 32-bit range",
        ranges: &[(4_200_000_000, 4_294_967_294)],
        consecutive: false,
    },
    Numbers {
        name: "one million private numbers",
        ranges: &[(4_200_000_000, 4_200_999_999)],
        consecutive: false,
    },
    Numbers {
        name: "half in blocks, half in that million",
        ranges: &[BLOCKS[0], BLOCKS[2], (4_200_000_000, 4_200_084_362)],
        consecutive: false,
    },
    Numbers {
        name: "65 thousand, far below one more",
        ranges: &[(1_000_000, 1_065_535), (4_294_967_294, 4_294_967_294)],
        consecutive: false,
    },
];

impl Numbers {
    fn draw(&self, random: &mut Random) -> u32 {
        let size = |&(first, last): &(u32, u32)| (last - first) as usize + 1;
        let mut i = random.below(self.ranges.iter().map(size).sum());
        for range in self.ranges {
            if i < size(range) {
                return range.0 + i as u32;
            }
            i -= size(range);
        }
        unreachable!("below the sum of the sizes")
    }

    /// So many customers, ascending: the last number of the last range among them, so that it is surely there.
    fn customers(&self, random: &mut Random, records: usize) -> Vec<u32> {
        let (first, last) = (self.ranges[0].0, self.ranges[self.ranges.len() - 1].1);
        if self.consecutive {
            return (first + records as u32..).take(records).collect();
        }
        let mut customers = vec![last];
        while customers.len() < records {
            customers.extend((customers.len()..records).map(|_| self.draw(random)));
            customers.sort_unstable();
            customers.dedup();
        }
        customers
    }
}

pub const ROUTES: usize = MOST_ROUTES;
pub const PATH: usize = 16;

pub struct Work {
    pub customers: Vec<u32>,
    pub lists: Vec<Vec<u32>>,
    pub paths: Vec<Vec<u32>>,
}

/// Half of the numbers on each path have a record. A customer's list holds, 15 times in 16, the neighbour on the path that it climbs to:
/// on an upstream route the one on its left, on a downstream route the one towards the middle. A list that is full leaves some out.
pub fn make(random: &mut Random, numbers: &Numbers, records: usize, providers: usize) -> Work {
    let customers = numbers.customers(random, records);
    let mut found: Vec<usize> = (0..ROUTES * PATH / 2).map(|i| i % records).collect();
    random.shuffle(&mut found);
    let mut lists = vec![Vec::new(); records];
    let mut paths = Vec::new();
    for (route, used) in found.chunks_exact(PATH / 2).enumerate() {
        let mut picks: Vec<Option<usize>> = used.iter().map(|&i| Some(i)).collect();
        picks.resize(PATH, None);
        random.shuffle(&mut picks);
        let mut path: Vec<u32> = Vec::new();
        for pick in &picks {
            path.push(match pick {
                Some(i) => customers[*i],
                None => loop {
                    let x = numbers.draw(random);
                    if customers.binary_search(&x).is_err() {
                        break x;
                    }
                },
            });
        }
        // Two equal neighbours would be merged, and the path shorter.
        for j in 1..PATH {
            while path[j] == path[j - 1] {
                path[j] = customers[random.below(records)];
            }
        }
        for (j, pick) in picks.iter().enumerate() {
            let climbs_right = role_of(route) == Role::Provider && j < PATH / 2;
            let next = if climbs_right {
                path.get(j + 1)
            } else {
                j.checked_sub(1).map(|j| &path[j])
            };
            if let (Some(i), Some(&y)) = (pick, next) {
                let list = &mut lists[*i];
                let may_hold = y != customers[*i] && !list.contains(&y);
                if random.below(16) != 0 && list.len() < providers && may_hold {
                    list.push(y);
                }
            }
        }
        paths.push(path);
    }
    for (customer, list) in customers.iter().zip(&mut lists) {
        while list.len() < providers {
            let y = random.next();
            if y != *customer && !list.contains(&y) {
                list.push(y);
            }
        }
        list.sort_unstable();
    }
    Work {
        customers,
        lists,
        paths,
    }
}

/// The same customers with other lists, as long as they were or of 1 to `most` numbers each. Their numbers are drawn like the customers,
/// so that a customer's place among them can be any.
pub fn with_other_lists(register: &Register, random: &mut Random, most: Option<usize>) -> Register {
    let (mut slots, mut bodies): (Vec<u32>, Vec<u32>) = (Vec::new(), Vec::new());
    for record in register.records() {
        let customer = record.customer.0;
        let count = most.map_or(record.providers.len(), |most| 1 + random.below(most));
        let mut list = vec![0; count];
        loop {
            list.fill_with(|| ALL.draw(random));
            list.sort_unstable();
            if list.is_sorted_by(|a, b| a < b) && !list.contains(&customer) {
                break;
            }
        }
        slots.extend([customer, record.source, bodies.len() as u32, count as u32]);
        bodies.append(&mut list);
    }
    let mut words = vec![(slots.len() / 4) as u32, bodies.len() as u32];
    words.append(&mut slots);
    words.append(&mut bodies);
    words.resize(register.words().len(), 0);
    Register::from_words(words)
}

fn role_of(route: usize) -> Role {
    if route.is_multiple_of(2) {
        Role::Customer
    } else {
        Role::Provider
    }
}

pub fn numbers(words: &[u32]) -> Vec<AsNumber> {
    words.iter().copied().map(AsNumber).collect()
}

/// One AS_SEQUENCE, or as few as a longer path needs.
pub fn attribute(path: &[u32]) -> Vec<u8> {
    aspa_filter::sequence(&numbers(path)).expect("a path")
}

/// Routes that were kept before any record was filed. The refusal's number where the library does not take one.
fn ledger(paths: &[Vec<u32>]) -> Result<Ledger, u32> {
    let mut ledger = Ledger::new();
    for (route, path) in paths.iter().enumerate() {
        let number = RouteNumber(route as u32);
        library::keep(
            &mut ledger,
            number,
            role_of(route),
            path[0],
            &attribute(path),
        )?;
    }
    Ok(ledger)
}

/// Every `step`th record of a register, with its list, in a register of its own.
#[cfg(feature = "overrides")]
pub fn every(register: &Register, step: usize) -> Register {
    let mut own = Register::new();
    for record in register.records().step_by(step) {
        own.file(record.source, record.customer, record.providers)
            .expect("filed");
    }
    own
}

impl Work {
    /// The register, and a ledger of the routes.
    pub fn tables(&self) -> (Register, Ledger) {
        let (mut register, ledger) = (Register::new(), ledger(&self.paths).expect("kept"));
        for (customer, list) in self.customers.iter().zip(&self.lists) {
            register
                .file(0, AsNumber(*customer), &numbers(list))
                .expect("filed");
        }
        let (records, providers) = (self.customers.len(), self.lists[0].len());
        assert_eq!(
            register.words()[..2],
            [records as u32, (records * providers) as u32]
        );
        assert_eq!(ledger.words()[..2], [ROUTES as u32, (ROUTES * PATH) as u32]);
        (register, ledger)
    }

    /// A path of so many numbers: a route's, and where they end the next ones'. As in these, no two neighbours are equal.
    pub fn joined(&self, first: usize, length: usize) -> Vec<u32> {
        let mut path = Vec::new();
        for &number in self.paths.iter().cycle().skip(first).flatten() {
            if path.len() == length {
                break;
            }
            if path.last() != Some(&number) {
                path.push(number);
            }
        }
        path
    }

    /// A ledger that the longest paths fill. Nothing if the library takes no attributes of that length.
    pub fn longest_paths(&self) -> Option<Ledger> {
        let firsts = (0..MOST_PATH_WORDS / MOST_PATH).map(|route| route * MOST_PATH / PATH);
        let paths: Vec<Vec<u32>> = firsts.map(|first| self.joined(first, MOST_PATH)).collect();
        match ledger(&paths) {
            // The attribute has too many bytes.
            Err(11) => None,
            ledger => Some(ledger.expect("kept")),
        }
    }
}
