//! Connections for the library.

/// The table of connections: a code is its bytes, the first lowest.
pub fn of(pairs: &[(usize, Vec<u8>, u64)]) -> Vec<u64> {
    let mut wires = vec![0; 258];
    for (entry, code, index) in pairs {
        wires[2 * entry] = code.iter().rev().fold(0, |number, byte| number << 8 | u64::from(*byte));
        wires[2 * entry + 1] = *index;
    }
    wires
}
