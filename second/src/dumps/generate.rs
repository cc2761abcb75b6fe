//! Valid dumps from a seed: declarations of all sorts, then stamps with changes.

use super::tokens::{Role, Token};
use crate::generate::Random;

pub struct Wire {
    pub code: Vec<u8>,
    pub width: usize,
    pub is_real: bool,
    /// The first range that was given.
    pub range: Option<(u64, u64)>,
}

impl Wire {
    pub fn ends(&self) -> (u64, u64) {
        self.range.unwrap_or((self.width as u64 - 1, 0))
    }

    /// An index of the range; the ends come often.
    pub fn index(&self, random: &mut Random) -> u64 {
        let (left, right) = self.ends();
        let any = left.min(right) + random.below(self.width) as u64;
        random.pick(&[left, right, any, any, any])
    }
}

/// The wire and the index of the clock.
#[derive(Clone, Copy)]
pub struct Clock {
    pub wire: usize,
    pub index: u64,
}

pub struct Dump {
    pub tokens: Vec<Token>,
    pub wires: Vec<Wire>,
    pub clock: Clock,
    pub stamps: usize,
    /// Scopes that are open where the generator is.
    scopes: usize,
    vars: usize,
    clock_is_one: bool,
}

const SCOPE_TYPES: [&str; 5] = ["begin", "fork", "function", "module", "task"];
const BIT_TYPES: [&str; 16] = [
    "event",
    "integer",
    "parameter",
    "reg",
    "supply0",
    "supply1",
    "time",
    "tri",
    "triand",
    "trior",
    "trireg",
    "tri0",
    "tri1",
    "wand",
    "wire",
    "wor",
];
const NAMES: [&str; 12] = ["clk", "data", "q", "\\odd", "$var", "top.u1", "#1", "[", "]", "a\\", "mem[0]", "\u{e9}t\u{e9}"];
/// Names with brackets that declare no range, whatever the width is.
const NO_RANGES: [&str; 12] =
    ["[0:3]", "[0]", "\\[0:3]", "\\[1]", "\\a[1]", "\\a[7:0]", "a[-1:0]", "a[]", "a[1:2:3]", "a[:]", "a[7:0]b", "a[0x1]"];
/// Codes that look like something else.
const STRANGE_CODES: [&str; 16] = [
    "$comment", "$var", "$scope", "$date", "$dumpon", "$dumpall", "#1", "#", "0", "b1", "x", "$", "[0:3]", "$end1", "$END",
    "$ends",
];

pub fn code(random: &mut Random) -> Vec<u8> {
    if random.chance(60) {
        return random.pick(&STRANGE_CODES).into();
    }
    let any = 1 + random.below(8);
    let len = random.pick(&[1, 1, 1, 2, 2, 3, 4, 8, any]);
    (0..len).map(|_| 33 + random.below(94) as u8).collect()
}

/// A decimal number, sometimes with zeros in front.
fn decimal(random: &mut Random, number: u64) -> String {
    let zeros = match random.below(32) {
        0 => 1 + random.below(3),
        1 => random.pick(&[0, 20, 30, 70]),
        _ => 0,
    };
    format!("{}{number}", "0".repeat(zeros))
}

fn long_word(random: &mut Random, front: &str) -> String {
    let len = random.pick(&[300, 320, 1000, 5000]);
    format!("{front}{}", "7".repeat(len))
}

fn name(random: &mut Random) -> String {
    if random.chance(6) {
        return long_word(random, "n");
    }
    random.pick(&NAMES).into()
}

fn digits(random: &mut Random, len: usize) -> Vec<u8> {
    let from = random.pick(&[&b"01"[..], b"01", b"01", b"01xz", b"0001xzXZ", b"xz", b"0", b"1"]);
    (0..len).map(|_| random.pick(from)).collect()
}

/// The ends of a range of this width.
fn range(random: &mut Random, width: usize) -> (u64, u64) {
    let any = random.next();
    let (small, span) = (any % 40, width as u64 - 1);
    let low = random.pick(&[0, 0, 0, 0, 1, small, small, 1 << 32, 1 << 63, any.min(u64::MAX - span), u64::MAX - span]);
    if random.chance(512) {
        (low + span, low)
    } else {
        (low, low + span)
    }
}

impl Dump {
    pub fn new(random: &mut Random) -> Dump {
        let clock = Clock { wire: 0, index: 0 };
        let mut dump =
            Dump { tokens: Vec::new(), wires: Vec::new(), clock, stamps: 0, scopes: 0, vars: 0, clock_is_one: false };
        dump.declarations(random);
        dump.choose_clock(random);
        dump.changes(random);
        dump
    }

    fn put(&mut self, role: Role, bytes: impl Into<Vec<u8>>) {
        self.tokens.push(Token::new(role, bytes));
    }

    fn end(&mut self) {
        self.put(Role::End, "$end");
    }

    fn words(&mut self, random: &mut Random) {
        for _ in 0..random.pick(&[0, 1, 2, 4]) {
            let long = if random.chance(8) { long_word(random, "c") } else { "text".into() };
            let word = random.pick(&["a", "$var", "#5", "1!", "$dumpvars", "\u{df}", "$enddefinitions", "[1]", &long]);
            self.put(Role::Text, word);
        }
        self.end();
    }

    fn header(&mut self, random: &mut Random) {
        match random.below(6) {
            0 | 1 => {
                self.put(Role::Keyword, "$timescale");
                let number = random.pick(&["1", "10", "100"]);
                let unit = random.pick(&["s", "ms", "us", "ns", "ps", "fs"]);
                if random.chance(512) {
                    self.put(Role::Timescale, format!("{number}{unit}"));
                } else {
                    self.put(Role::Timescale, number);
                    self.put(Role::Timescale, unit);
                }
                self.end();
            }
            kind => {
                self.put(Role::Keyword, ["", "", "$comment", "$comment", "$date", "$version"][kind]);
                self.words(random);
            }
        }
    }

    fn scope(&mut self, random: &mut Random) {
        self.put(Role::Keyword, "$scope");
        self.put(Role::ScopeType, random.pick(&SCOPE_TYPES));
        let name = name(random);
        self.put(Role::ScopeName, name);
        self.end();
        self.scopes += 1;
    }

    fn upscope(&mut self) {
        self.put(Role::Keyword, "$upscope");
        self.end();
        self.scopes -= 1;
    }

    fn declarations(&mut self, random: &mut Random) {
        (0..random.below(4)).for_each(|_| self.header(random));
        if random.chance(16) {
            (0..32).for_each(|_| self.scope(random));
        }
        let vars = random.pick(&[1, 2, 3, 4, 5, 6, 8, 12, 20]);
        while self.vars < vars {
            match random.below(16) {
                0..=2 if self.scopes < 32 => self.scope(random),
                3 if self.scopes > 0 => self.upscope(),
                4 => self.header(random),
                5 | 6 if !self.wires.is_empty() => self.alias(random),
                _ => self.new_wire(random),
            }
        }
        if random.chance(4) {
            self.fill_vars(random, 1024);
        }
        while self.scopes > 0 {
            self.upscope();
            if random.chance(40) {
                self.header(random);
            }
        }
        // Many scopes one after the other are not deep.
        for _ in 0..if random.chance(20) { 40 } else { 0 } {
            self.scope(random);
            self.upscope();
        }
        self.put(Role::Keyword, "$enddefinitions");
        self.end();
    }

    /// Declares wires, and now and then one of them again, until there are so many `$var`.
    pub fn fill_vars(&mut self, random: &mut Random, vars: usize) {
        let again = random.pick(&[0, 0, 2, 4]);
        while self.vars < vars {
            if again > 0 && random.below(8) < again {
                self.alias(random);
            } else {
                self.new_wire(random);
            }
        }
    }

    /// A code that is not declared yet. Of many wires, most have their number for a code.
    fn new_code(&self, random: &mut Random) -> Vec<u8> {
        let number = format!("{}~", self.wires.len()).into_bytes();
        let is_new = |code: &[u8]| code != b"$end" && self.wires.iter().all(|wire| wire.code != code);
        if self.wires.len() > 40 && is_new(&number) {
            return number;
        }
        loop {
            let code = code(random);
            if is_new(&code) {
                return code;
            }
        }
    }

    fn new_wire(&mut self, random: &mut Random) {
        let code = self.new_code(random);
        let any = 1 + random.below(80);
        let widest = if random.chance(100) { 4096 - random.below(2) } else { 64 };
        let width = random.pick(&[1, 1, 1, 1, 1, 1, 2, 3, 4, 8, 8, 16, 32, 33, 64, any, any, widest]);
        // The first wire is not a real: there has to be one for the clock.
        let is_real = !self.wires.is_empty() && random.chance(200);
        self.wires.push(Wire { code, width, is_real, range: None });
        self.declare(random, self.wires.len() - 1);
    }

    fn alias(&mut self, random: &mut Random) {
        let wire = random.below(self.wires.len());
        self.declare(random, wire);
    }

    fn declare(&mut self, random: &mut Random, wire: usize) {
        self.vars += 1;
        let Wire { width, is_real, .. } = self.wires[wire];
        self.put(Role::Keyword, "$var");
        let sort = if is_real { random.pick(&["real", "realtime"]) } else { random.pick(&BIT_TYPES) };
        self.put(Role::Type, sort);
        let width_word = decimal(random, width as u64);
        self.put(Role::Width, width_word);
        self.put(Role::Code, self.wires[wire].code.clone());
        let range = range(random, width);
        let given = match random.below(10) {
            0..=2 => self.range_word(random, range, width),
            3..=5 if !is_real => self.range_in_name(random, range, width),
            6 | 7 => self.no_range(random, width, is_real),
            _ => {
                let name = name(random);
                // One of the names ends with an index: that of a wire of width 1 declares it.
                let is_index = name == "mem[0]" && width == 1 && !is_real;
                self.put(Role::Name, name);
                is_index.then_some((0, 0))
            }
        };
        self.end();
        self.wires[wire].range = self.wires[wire].range.or(given);
    }

    fn range_word(&mut self, random: &mut Random, (left, right): (u64, u64), width: usize) -> Option<(u64, u64)> {
        let name = if random.chance(200) { random.pick(&["mem[0]", "a[1:0]", "\\a\\[3]"]).into() } else { name(random) };
        self.put(Role::Name, name);
        let (l, r) = (decimal(random, left), decimal(random, right));
        let word = if width == 1 && random.chance(700) { format!("[{l}]") } else { format!("[{l}:{r}]") };
        self.put(Role::Range, word);
        Some((left, right))
    }

    fn range_in_name(&mut self, random: &mut Random, (left, right): (u64, u64), width: usize) -> Option<(u64, u64)> {
        let front = random.pick(&["d", "data", "a.b", "mem[0]", "a\\", "\\odd\\", "\\\\", "\\a[1]\\", "]"]);
        let (l, r) = (decimal(random, left), decimal(random, right));
        let brackets = if width == 1 && random.chance(700) { format!("[{l}]") } else { format!("[{l}:{r}]") };
        self.put(Role::Name, format!("{front}{brackets}"));
        Some((left, right))
    }

    /// A name with brackets that are part of it.
    fn no_range(&mut self, random: &mut Random, width: usize, is_real: bool) -> Option<(u64, u64)> {
        let any = random.below(width + 2);
        let name = match random.below(4) {
            0 if width > 1 || is_real => format!("mem[{any}]"),
            1 if width > 1 || is_real => format!("mem[{}]", "98765432109876543210123"),
            2 if is_real => format!("levels[{any}:0]"),
            _ => random.pick(&NO_RANGES).into(),
        };
        self.put(Role::Name, name);
        None
    }

    /// One bit, most often a wire of its own.
    fn choose_clock(&mut self, random: &mut Random) {
        let bits: Vec<usize> = (0..self.wires.len()).filter(|i| !self.wires[*i].is_real).collect();
        let single: Vec<usize> = bits.iter().copied().filter(|i| self.wires[*i].width == 1).collect();
        let wire = if single.is_empty() || random.chance(200) { random.pick(&bits) } else { random.pick(&single) };
        self.clock = Clock { wire, index: self.wires[wire].index(random) };
    }

    /// The clock's place in the digits, from the left.
    fn clock_place(&self) -> usize {
        let wire = &self.wires[self.clock.wire];
        wire.width - 1 - self.clock.index.abs_diff(wire.ends().1) as usize
    }

    fn set_clock(&mut self, random: &mut Random, digit: u8) {
        let width = self.wires[self.clock.wire].width;
        let mut digits = digits(random, width);
        digits[self.clock_place()] = digit;
        self.clock_is_one = digit == b'1';
        self.put_digits(random, self.clock.wire, digits);
    }

    fn put_digits(&mut self, random: &mut Random, wire: usize, digits: Vec<u8>) {
        let code = self.wires[wire].code.clone();
        if self.wires[wire].width == 1 && random.chance(900) {
            self.put(Role::Scalar, [digits, code].concat());
            return;
        }
        let front = random.pick(&[b"b", b"b", b"b", b"B"]);
        self.put(Role::Vector, [&front[..], &digits].concat());
        self.put(Role::VectorCode, code);
    }

    fn change(&mut self, random: &mut Random, wire: usize) {
        let Wire { width, is_real, .. } = self.wires[wire];
        if is_real {
            let long = if random.chance(20) { long_word(random, "") } else { "1e300".into() };
            let number = random.pick(&["1.5", "-0.25e-3", "0", "nan", "abc", "$end", "\u{b1}1", &long]);
            let front = random.pick(&["r", "r", "R"]);
            self.put(Role::Real, format!("{front}{number}"));
            self.put(Role::RealCode, self.wires[wire].code.clone());
            return;
        }
        let any = 1 + random.below(width);
        let len = random.pick(&[width, width, any, any, 1, any.min(3)]);
        let digits = digits(random, len);
        self.put_digits(random, wire, digits);
    }

    /// A change of any wire, but seldom of the clock's: its edges are made on purpose.
    fn any_change(&mut self, random: &mut Random) {
        let wire = random.below(self.wires.len());
        if wire != self.clock.wire || random.chance(50) {
            self.change(random, wire);
        }
    }

    fn block(&mut self, random: &mut Random, changes: usize) {
        self.put(Role::Block, random.pick(&["$dumpall", "$dumpoff", "$dumpon", "$dumpvars"]));
        (0..changes).for_each(|_| self.any_change(random));
        if changes > 0 && random.chance(300) {
            self.clock_change(random);
        }
        self.end();
    }

    fn clock_change(&mut self, random: &mut Random) {
        let (old, new) = if self.clock_is_one { (b'1', b'0') } else { (b'0', b'1') };
        let pattern = match random.below(32) {
            0..=23 => vec![new],
            24 => vec![new, old],
            25 => vec![new, old, new],
            26 => vec![random.pick(b"xXzZ")],
            27 => vec![random.pick(b"xz"), b'1'],
            _ => vec![],
        };
        for digit in pattern {
            self.set_clock(random, digit);
        }
    }

    fn stamp(&mut self, random: &mut Random, number: u64) {
        let text = decimal(random, number);
        self.put(Role::Stamp, format!("#{text}"));
        self.stamps += 1;
    }

    /// What stands before the first stamp.
    fn first_changes(&mut self, random: &mut Random) {
        if random.chance(700) {
            self.set_clock(random, b'0');
        }
        if random.chance(60) {
            self.clock_change(random);
        }
        let changes = random.pick(&[0, 0, 1, 3]);
        if random.chance(500) {
            self.block(random, changes);
        } else {
            (0..changes).for_each(|_| self.any_change(random));
        }
    }

    fn comment(&mut self, random: &mut Random) {
        self.put(Role::LateComment, "$comment");
        self.words(random);
    }

    fn stamp_changes(&mut self, random: &mut Random, number: u64) {
        let changes = random.pick(&[0, 1, 1, 2, 3, 5]);
        let clock_at = random.below(changes + 1);
        for i in 0..=changes {
            if i == clock_at {
                self.clock_change(random);
            }
            if i < changes {
                self.any_change(random);
            }
            match random.below(64) {
                0 => self.comment(random),
                1 | 2 => {
                    let changes = random.pick(&[0, 1, 2]);
                    self.block(random, changes);
                }
                3..=6 => self.stamp(random, number),
                _ => {}
            }
        }
    }

    fn changes(&mut self, random: &mut Random) {
        if random.chance(20) {
            return;
        }
        if random.chance(800) {
            self.first_changes(random);
        }
        let stamps = random.pick(&[0, 1, 2, 4, 7, 11, 16, 25, 40]);
        let any = random.next();
        let mut number = random.pick(&[0, 0, 0, 1, any % 100, any >> 1, 1 << 63, u64::MAX - 60, u64::MAX - 5]);
        for _ in 0..stamps {
            self.stamp(random, number);
            self.stamp_changes(random, number);
            let ahead = random.pick(&[1, 1, 1, 5, 10, any % 1000]);
            match number.checked_add(ahead) {
                Some(next) => number = next,
                None if number != u64::MAX => number = u64::MAX,
                None => break,
            }
        }
    }
}
