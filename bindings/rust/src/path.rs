//! From AS numbers to the bytes of an AS_PATH attribute.
use crate::AsNumber;
use std::error::Error;
use std::fmt;

/// The types of a segment.
const SET: u8 = 1;
const SEQUENCE: u8 = 2;

/// The most numbers of a segment: it begins with a type byte and a count byte.
pub const MOST_SEGMENT: usize = u8::MAX as usize;

/// The value of an AS_PATH attribute with four-byte numbers, made segment by segment from the left.
///
/// The left end is the neighbour's side, the right end the origin. Without a segment the attribute is empty. The builder tests nothing
/// but that a segment has numbers, and a set no more than fit; what else is wrong with a path is for a judging to tell.
///
/// ```
/// use aspa_filter::{AsNumber, PathBuilder};
///
/// let path = PathBuilder::new()
///     .sequence(&[30, 20].map(AsNumber))?
///     .set(&[10, 11].map(AsNumber))?;
/// assert_eq!(
///     path.bytes(),
///     [2, 2, 0, 0, 0, 30, 0, 0, 0, 20, 1, 2, 0, 0, 0, 10, 0, 0, 0, 11]
/// );
/// # Ok::<(), aspa_filter::SegmentLengthError>(())
/// ```
#[derive(Clone, Debug, Default, PartialEq, Eq)]
pub struct PathBuilder {
    bytes: Vec<u8>,
}

impl PathBuilder {
    /// The empty attribute.
    pub fn new() -> PathBuilder {
        PathBuilder::default()
    }

    /// Adds an AS_SEQUENCE on the right. More than [`MOST_SEGMENT`] numbers become several, all but the last of that many: merged, they
    /// are the same path.
    ///
    /// # Errors
    ///
    /// [`SegmentLengthError`] if there are no numbers.
    pub fn sequence(self, numbers: &[AsNumber]) -> Result<PathBuilder, SegmentLengthError> {
        if numbers.is_empty() {
            return Err(SegmentLengthError(0));
        }
        let mut parts = numbers.chunks(MOST_SEGMENT);
        parts.try_fold(self, |path, part| path.segment(SEQUENCE, part))
    }

    /// Adds an AS_SET on the right. A route with a set is Invalid, by [`Ground::AsSet`](crate::Ground::AsSet) if by no earlier one.
    ///
    /// # Errors
    ///
    /// [`SegmentLengthError`] if there are no numbers or more than [`MOST_SEGMENT`].
    pub fn set(self, numbers: &[AsNumber]) -> Result<PathBuilder, SegmentLengthError> {
        self.segment(SET, numbers)
    }

    /// The attribute's bytes so far.
    pub fn bytes(&self) -> &[u8] {
        &self.bytes
    }

    fn segment(
        mut self,
        kind: u8,
        numbers: &[AsNumber],
    ) -> Result<PathBuilder, SegmentLengthError> {
        let count = match u8::try_from(numbers.len()) {
            Ok(count) if count > 0 => count,
            _ => return Err(SegmentLengthError(numbers.len())),
        };
        self.bytes.extend([kind, count]);
        for number in numbers {
            self.bytes.extend(number.0.to_be_bytes());
        }
        Ok(self)
    }
}

impl From<PathBuilder> for Vec<u8> {
    fn from(path: PathBuilder) -> Vec<u8> {
        path.bytes
    }
}

/// The attribute's bytes for one AS_SEQUENCE, which is what most paths are, or for a path too long for one; left end first.
///
/// ```
/// use aspa_filter::{sequence, AsNumber};
///
/// assert_eq!(sequence(&[20, 10].map(AsNumber))?, [2, 2, 0, 0, 0, 20, 0, 0, 0, 10]);
/// # Ok::<(), aspa_filter::SegmentLengthError>(())
/// ```
///
/// # Errors
///
/// [`SegmentLengthError`] if there are no numbers.
pub fn sequence(numbers: &[AsNumber]) -> Result<Vec<u8>, SegmentLengthError> {
    Ok(PathBuilder::new().sequence(numbers)?.into())
}

/// A segment without numbers, or with more than its count byte can say.
#[derive(Clone, Copy, Debug, PartialEq, Eq, Hash)]
pub struct SegmentLengthError(usize);

impl fmt::Display for SegmentLengthError {
    fn fmt(&self, f: &mut fmt::Formatter<'_>) -> fmt::Result {
        write!(
            f,
            "a segment of {} numbers: its count byte says 1 to {MOST_SEGMENT}",
            self.0
        )
    }
}

impl Error for SegmentLengthError {}
