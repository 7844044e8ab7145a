//! AS numbers, route numbers and roles.
use std::error::Error;
use std::fmt;
use std::str::FromStr;

/// The number of an autonomous system. Its text is `AS64496`; without `AS`, and with `as` in either case, it is read too.
///
/// ```
/// use aspa_filter::AsNumber;
///
/// assert_eq!(AsNumber(64496).to_string(), "AS64496");
/// assert_eq!("as64496".parse(), Ok(AsNumber(64496)));
/// assert_eq!([20, 10].map(AsNumber), [AsNumber(20), AsNumber(10)]);
/// ```
#[repr(transparent)]
#[derive(Clone, Copy, Debug, PartialEq, Eq, PartialOrd, Ord, Hash)]
pub struct AsNumber(pub u32);

impl AsNumber {
    /// The same numbers as words.
    pub(crate) fn words(numbers: &[AsNumber]) -> &[u32] {
        #[allow(unsafe_code)]
        // SAFETY: AsNumber is a transparent u32: both have one layout, and each value of one is a value of the other. The pointer and the
        // length are those of a slice that stays borrowed.
        unsafe {
            std::slice::from_raw_parts(numbers.as_ptr().cast(), numbers.len())
        }
    }

    /// The same words as numbers.
    pub(crate) fn numbers(words: &[u32]) -> &[AsNumber] {
        #[allow(unsafe_code)]
        // SAFETY: as in `words`, in the other direction.
        unsafe {
            std::slice::from_raw_parts(words.as_ptr().cast(), words.len())
        }
    }
}

impl From<u32> for AsNumber {
    fn from(number: u32) -> AsNumber {
        AsNumber(number)
    }
}

impl From<AsNumber> for u32 {
    fn from(number: AsNumber) -> u32 {
        number.0
    }
}

impl fmt::Display for AsNumber {
    fn fmt(&self, f: &mut fmt::Formatter<'_>) -> fmt::Result {
        write!(f, "AS{}", self.0)
    }
}

impl FromStr for AsNumber {
    type Err = ParseAsNumberError;

    fn from_str(text: &str) -> Result<AsNumber, ParseAsNumberError> {
        let digits = match text.split_at_checked(2) {
            Some((prefix, digits)) if prefix.eq_ignore_ascii_case("AS") => digits,
            _ => text,
        };
        decimal(digits).map(AsNumber).ok_or(ParseAsNumberError(()))
    }
}

/// A decimal number below 2^32, without sign or leading zeros.
pub(crate) fn decimal(text: &str) -> Option<u32> {
    let plain = text.bytes().all(|byte| byte.is_ascii_digit());
    let padded = text.len() > 1 && text.starts_with('0');
    if plain && !padded {
        text.parse().ok()
    } else {
        None
    }
}

/// A text that is no AS number.
#[derive(Clone, Copy, Debug, PartialEq, Eq, Hash)]
pub struct ParseAsNumberError(());

impl fmt::Display for ParseAsNumberError {
    fn fmt(&self, f: &mut fmt::Formatter<'_>) -> fmt::Result {
        f.write_str(
            "no AS number: it is a decimal number below 2^32 \
             without sign or leading zeros, after `AS` or alone",
        )
    }
}

impl Error for ParseAsNumberError {}

/// The caller's number of a kept route. Its text is the number alone.
#[derive(Clone, Copy, Debug, PartialEq, Eq, PartialOrd, Ord, Hash)]
pub struct RouteNumber(pub u32);

impl From<u32> for RouteNumber {
    fn from(number: u32) -> RouteNumber {
        RouteNumber(number)
    }
}

impl From<RouteNumber> for u32 {
    fn from(number: RouteNumber) -> u32 {
        number.0
    }
}

impl fmt::Display for RouteNumber {
    fn fmt(&self, f: &mut fmt::Formatter<'_>) -> fmt::Result {
        self.0.fmt(f)
    }
}

/// What the neighbour that sent a route is to the network that judges it.
///
/// Routes of a provider and of a mutual transit are judged downstream, those of the other roles upstream.
///
/// ```
/// use aspa_filter::Role;
///
/// assert_eq!("route-server".parse(), Ok(Role::RouteServer));
/// assert_eq!(Role::RouteServer.to_string(), "route-server");
/// assert_eq!(Role::try_from(4), Ok(Role::RouteServer));
/// assert_eq!(Role::try_from(7).unwrap_err().to_string(), "the role is 7, not 1 to 6");
/// ```
#[derive(Clone, Copy, Debug, PartialEq, Eq, PartialOrd, Ord, Hash)]
#[repr(u32)]
pub enum Role {
    /// The neighbour is a customer: `customer`.
    Customer = 1,
    /// The neighbour is a lateral peer: `peer`.
    Peer = 2,
    /// The neighbour is a provider: `provider`.
    Provider = 3,
    /// The neighbour is a route server: `route-server`. The path's first number need not be its own.
    RouteServer = 4,
    /// The neighbour is a client of the judging route server: `route-server-client`.
    RouteServerClient = 5,
    /// Each of the two is a provider of the other: `mutual-transit`.
    MutualTransit = 6,
}

impl Role {
    /// Every role, by its number.
    pub const ALL: [Role; 6] = [
        Role::Customer,
        Role::Peer,
        Role::Provider,
        Role::RouteServer,
        Role::RouteServerClient,
        Role::MutualTransit,
    ];

    /// The role's number, 1 to 6.
    pub const fn number(self) -> u32 {
        self as u32
    }

    const fn name(self) -> &'static str {
        match self {
            Role::Customer => "customer",
            Role::Peer => "peer",
            Role::Provider => "provider",
            Role::RouteServer => "route-server",
            Role::RouteServerClient => "route-server-client",
            Role::MutualTransit => "mutual-transit",
        }
    }
}

impl TryFrom<u32> for Role {
    type Error = RoleNumberError;

    fn try_from(number: u32) -> Result<Role, RoleNumberError> {
        let found = Role::ALL.into_iter().find(|role| role.number() == number);
        found.ok_or(RoleNumberError(number))
    }
}

impl From<Role> for u32 {
    fn from(role: Role) -> u32 {
        role.number()
    }
}

impl fmt::Display for Role {
    fn fmt(&self, f: &mut fmt::Formatter<'_>) -> fmt::Result {
        f.pad(self.name())
    }
}

impl FromStr for Role {
    type Err = ParseRoleError;

    fn from_str(text: &str) -> Result<Role, ParseRoleError> {
        let found = Role::ALL.into_iter().find(|role| role.name() == text);
        found.ok_or(ParseRoleError(()))
    }
}

/// A number that is no role's. It becomes [`Refusal::Role`](crate::Refusal::Role), as the filter would refuse it.
#[derive(Clone, Copy, Debug, PartialEq, Eq, Hash)]
pub struct RoleNumberError(u32);

impl fmt::Display for RoleNumberError {
    fn fmt(&self, f: &mut fmt::Formatter<'_>) -> fmt::Result {
        let last = Role::ALL.len();
        write!(f, "the role is {}, not 1 to {last}", self.0)
    }
}

impl Error for RoleNumberError {}

/// A text that is no role's.
#[derive(Clone, Copy, Debug, PartialEq, Eq, Hash)]
pub struct ParseRoleError(());

impl fmt::Display for ParseRoleError {
    fn fmt(&self, f: &mut fmt::Formatter<'_>) -> fmt::Result {
        let names = Role::ALL.map(Role::name).join(", ");
        write!(f, "no role: the roles are {names}")
    }
}

impl Error for ParseRoleError {}
