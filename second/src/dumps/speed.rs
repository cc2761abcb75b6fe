//! Large dumps for a measurement of speed. It stands by itself, so that other programs can take this file in.

/// A dump, how to connect it, and how many samples it has.
pub struct Large {
    pub dump: Vec<u8>,
    /// The pairs of a table: entry, code and index.
    pub pairs: Vec<(usize, Vec<u8>, u64)>,
    pub edges: usize,
}

/// splitmix64, with a fixed seed: a measurement has the same text every time.
struct Numbers(u64);

impl Numbers {
    fn below(&mut self, limit: usize) -> usize {
        self.0 = self.0.wrapping_add(0x9e37_79b9_7f4a_7c15);
        let z = (self.0 ^ (self.0 >> 30)).wrapping_mul(0xbf58_476d_1ce4_e5b9);
        let z = (z ^ (z >> 27)).wrapping_mul(0x94d0_49bb_1331_11eb);
        ((z ^ (z >> 31)) % limit as u64) as usize
    }
}

/// The codes that simulators give: the printable bytes, counted up, the first byte fastest.
fn code(mut number: usize) -> Vec<u8> {
    let mut code = vec![b'!' + (number % 94) as u8];
    while number >= 94 {
        number = number / 94 - 1;
        code.push(b'!' + (number % 94) as u8);
    }
    code
}

/// Wire 0 is the clock. The others have the width; the first 96 bits of them are the frame's P, Q and R.
fn declarations(wires: usize, width: usize) -> Large {
    let mut dump = b"$timescale 1ns $end\n$scope module top $end\n".to_vec();
    for wire in 0..wires {
        let width = if wire == 0 { 1 } else { width };
        dump.extend(format!("$var wire {width} ").bytes().chain(code(wire)).chain(format!(" w{wire}").bytes()));
        dump.extend(if width == 1 { " $end\n".into() } else { format!(" [{}:0] $end\n", width - 1) }.bytes());
    }
    dump.extend(b"$upscope $end\n$enddefinitions $end\n");
    let bits = (1..wires).flat_map(|wire| (0..width as u64).map(move |index| (wire, index)));
    let connected = bits.take(96).enumerate().map(|(i, (wire, index))| (33 + i, code(wire), index));
    Large { dump, pairs: std::iter::once((0, code(0), 0)).chain(connected).collect(), edges: 0 }
}

fn change(numbers: &mut Numbers, dump: &mut Vec<u8>, wire: usize, width: usize) {
    if width > 1 {
        dump.push(b'b');
    }
    // A simulator leaves out zeros in front.
    let len = if width == 1 { 1 } else { 1 + numbers.below(width) };
    dump.extend((0..len).map(|i| if i == 0 && len > 1 { b'1' } else { b'0' + numbers.below(2) as u8 }));
    if width > 1 {
        dump.push(b' ');
    }
    dump.extend(code(wire));
    dump.push(b'\n');
}

/// How the wires change.
struct Pace {
    /// So many of 1,000 wires change at a stamp.
    of_1000: usize,
    /// The clock changes at one of so many stamps: 65,536 frames are to be enough for 10 MB.
    clock: usize,
}

/// At least so many bytes: all wires at first, then stamps.
fn fill(large: &mut Large, bytes: usize, wires: usize, width: usize, pace: Pace) {
    let mut numbers = Numbers(20_260);
    large.dump.extend(b"#0\n$dumpvars\n0!\n");
    (1..wires).for_each(|wire| change(&mut numbers, &mut large.dump, wire, width));
    large.dump.extend(b"$end\n");
    let mut stamp = 0;
    while large.dump.len() < bytes {
        stamp += 1;
        large.dump.extend(format!("#{}\n", 5 * stamp).bytes());
        if stamp % pace.clock == 0 {
            let level = stamp / pace.clock % 2;
            large.dump.extend(format!("{level}!\n").bytes());
            large.edges += level;
        }
        for wire in 1..wires {
            if numbers.below(1000) < pace.of_1000 {
                change(&mut numbers, &mut large.dump, wire, width);
            }
        }
    }
    large.dump.extend(format!("#{}\n", 5 * stamp + 5).bytes());
}

/// 200 wires of one bit, of which one in a hundred changes at a stamp.
pub fn scalars(bytes: usize) -> Large {
    let mut large = declarations(200, 1);
    fill(&mut large, bytes, 200, 1, Pace { of_1000: 10, clock: 6 });
    large
}

/// The same with half of the wires changing at each stamp: fewer stamps and samples in as many bytes.
pub fn busy_scalars(bytes: usize) -> Large {
    let mut large = declarations(200, 1);
    fill(&mut large, bytes, 200, 1, Pace { of_1000: 500, clock: 1 });
    large
}

/// A clock and 20 vectors of 64 bits, of which one in ten changes at a stamp.
pub fn vectors(bytes: usize) -> Large {
    let mut large = declarations(21, 64);
    fill(&mut large, bytes, 21, 64, Pace { of_1000: 100, clock: 1 });
    large
}
