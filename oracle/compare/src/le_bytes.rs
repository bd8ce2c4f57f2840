//! Numbers as bytes, low byte first.

pub fn of_indices(numbers: &[u32]) -> Vec<u8> {
    numbers
        .iter()
        .flat_map(|index| index.to_le_bytes())
        .collect()
}

pub fn of_doubles(numbers: &[f64]) -> Vec<u8> {
    numbers
        .iter()
        .flat_map(|double| double.to_le_bytes())
        .collect()
}

/// The indices that the bytes hold; an incomplete last one is left out.
pub fn to_indices(bytes: &[u8]) -> Vec<u32> {
    let index = |four: &[u8]| u32::from_le_bytes(four.try_into().expect("four bytes"));
    bytes.chunks_exact(4).map(index).collect()
}

/// The doubles that the bytes hold, likewise.
pub fn to_doubles(bytes: &[u8]) -> Vec<f64> {
    let double = |eight: &[u8]| f64::from_le_bytes(eight.try_into().expect("eight bytes"));
    bytes.chunks_exact(8).map(double).collect()
}
