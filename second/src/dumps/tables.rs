//! Connection tables: most are good, and some have one bad pair.

use super::generate::{self, Dump, Wire};
use super::reader::TABLE_WORDS;
use crate::generate::Random;

pub fn number_of(code: &[u8]) -> u64 {
    let mut bytes = [0; 8];
    bytes[..code.len()].copy_from_slice(code);
    u64::from_le_bytes(bytes)
}

fn put(table: &mut [u64], entry: usize, wire: &Wire, index: u64) {
    table[2 * entry] = number_of(&wire.code);
    table[2 * entry + 1] = index;
}

/// A table with good pairs alone.
pub fn good(random: &mut Random, dump: &Dump) -> Vec<u64> {
    let mut table = vec![0; TABLE_WORDS];
    let bits: Vec<&Wire> = dump.wires.iter().filter(|wire| !wire.is_real).collect();
    let density = random.pick(&[0, 20, 60, 60, 200, 500, 1024]);
    // The index of a wire that is not connected means nothing.
    let has_unused = random.chance(400);
    for entry in 1..TABLE_WORDS / 2 {
        if random.chance(density) {
            let wire = random.pick(&bits);
            put(&mut table, entry, wire, wire.index(random));
        } else if has_unused {
            table[2 * entry + 1] = random.next() >> random.below(64);
        }
    }
    put(&mut table, 0, &dump.wires[dump.clock.wire], dump.clock.index);
    if random.chance(200) {
        let entry = 1 + random.below(128);
        put(&mut table, entry, &dump.wires[dump.clock.wire], dump.clock.index);
    }
    table
}

/// A code that is most likely not declared.
fn strange_code(random: &mut Random, code: u64) -> u64 {
    let any = number_of(&generate::code(random));
    random.pick(&[
        any,
        any,
        code << 8,
        code | 1 << 63,
        code | 0x21 << 56,
        code.swap_bytes(),
        number_of(b"$end"),
        code & !0xff,
    ])
}

/// An index outside the range: next to one of its ends, or far.
fn outside(random: &mut Random, wire: &Wire) -> u64 {
    let (left, right) = wire.ends();
    let (low, high) = (left.min(right), left.max(right));
    let (below, above) = (low.wrapping_sub(1), high.wrapping_add(1));
    random.pick(&[below, below, above, above, low.wrapping_add(1 << 32), wire.width as u64, u64::MAX])
}

/// Makes one pair bad, or tries to: a strange code may be declared.
pub fn spoil(random: &mut Random, dump: &Dump, table: &mut [u64]) {
    let wire = 1 + random.below(128);
    let entry = random.pick(&[0, wire, wire]);
    let reals: Vec<&Wire> = dump.wires.iter().filter(|wire| wire.is_real).collect();
    let bits: Vec<&Wire> = dump.wires.iter().filter(|wire| !wire.is_real).collect();
    match random.below(5) {
        0 => table[0] = 0,
        1 => table[2 * entry] = strange_code(random, table[2 * entry]),
        2 | 3 if !reals.is_empty() => put(table, entry, random.pick(&reals), 0),
        _ => {
            let wire = random.pick(&bits);
            put(table, entry, wire, outside(random, wire));
        }
    }
}

/// A table of another length.
pub fn resize(random: &mut Random, table: &mut Vec<u64>) {
    let len =
        random.pick(&[0, 1, TABLE_WORDS / 2, TABLE_WORDS - 2, TABLE_WORDS - 1, TABLE_WORDS + 1, TABLE_WORDS + 2, 1000]);
    table.resize(len, 0);
}
