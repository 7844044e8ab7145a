// Bytes as text, and AS_PATH attributes put together.

/// The most numbers that a segment's count byte can tell of.
pub const LONGEST_SEGMENT: usize = 255;

/// Lowercase hex, `-` for none.
pub fn hex(bytes: &[u8]) -> String {
    if bytes.is_empty() {
        return "-".to_string();
    }
    bytes.iter().map(|b| format!("{b:02x}")).collect()
}

/// With its true count, of 255 numbers at most.
pub fn segment(kind: u8, numbers: &[u32]) -> Vec<u8> {
    let count = u8::try_from(numbers.len()).expect("a count fits one byte");
    let mut bytes = vec![kind, count];
    for number in numbers {
        bytes.extend(number.to_be_bytes());
    }
    bytes
}

/// A sequence for each part.
pub fn sequences(parts: &[&[u32]]) -> Vec<u8> {
    parts.iter().flat_map(|numbers| segment(2, numbers)).collect()
}

/// As few sequences as hold the numbers: for none, none.
pub fn sequence(numbers: &[u32]) -> Vec<u8> {
    sequences(&numbers.chunks(LONGEST_SEGMENT).collect::<Vec<_>>())
}

/// Parts of these sizes, one after the other, and one of the rest.
pub fn cut<'a>(numbers: &'a [u32], sizes: &[usize]) -> Vec<&'a [u32]> {
    let mut parts = Vec::new();
    let mut rest = numbers;
    for size in sizes {
        let (part, after) = rest.split_at(*size);
        parts.push(part);
        rest = after;
    }
    if !rest.is_empty() {
        parts.push(rest);
    }
    parts
}

/// The numbers 1 to `last` in sequences of one more than `step`, each from the number on
/// that the one before ends with.
pub fn overlapping(last: u32, step: u32) -> Vec<u8> {
    let parts = (1..last).step_by(step as usize).map(|first| first..=last.min(first + step));
    parts.flat_map(|part| segment(2, &part.collect::<Vec<u32>>())).collect()
}
