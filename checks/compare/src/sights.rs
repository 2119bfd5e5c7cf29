//! What was seen of what is lent, of joins, of plans, of audits and of blob files, and what has to be.

use crate::Checked;

/// What may be seen, and how often it is due with 100,000 inputs or more.
type Sight = (&'static str, u64);

/// Every sight of readers and writers that are begun and lent by their address.
pub const LENT: &[Sight] = &[
    ("readers lent", 100_000),
    ("calls of step", 1_000_000),
    ("calls of read", 2_500_000),
    ("records by steps", 80_000),
    ("records by rows", 250_000),
    ("begun in another piece", 200_000),
    ("no row", 800_000),
    ("no row, bytes carried", 700_000),
    ("no row at the end", 25_000),
    ("no row, refused", 100_000),
    ("a full table", 25_000),
    ("rows to spare", 1_500_000),
    ("refused with rows", 120_000),
    ("rows enough", 700_000),
    ("bytes in the carry", 2_500_000),
    ("of a footer", 150_000),
    ("zeros behind them", 2_000_000),
    ("zeros after a record", 100_000),
    ("zeros after a refusal", 250_000),
    ("15 for a record", 40_000),
    ("records written again", 300_000),
];

/// Every sight of readers and writers of other making: of the state, of what a reader does with it, of what a writer does.
pub const STATES: &[Sight] = &[
    ("readers of other making", 50_000),
    ("writers of other making", 50_000),
    ("a struct of zeros", 800),
    ("an unknown code", 20_000),
    ("code 0", 4_000),
    ("code 8", 3_000),
    ("refused with 0", 2_500),
    ("refused with a number", 4_000),
    ("at the end", 1_400),
    ("a record due", 12_000),
    ("steps refused 255", 12_000),
    ("pieces refused 255", 25_000),
    ("255 without a row", 12_000),
    ("offers refused 255", 12_000),
    ("another refusal told", 2_000),
    ("no row, none refused", 6_000),
    ("more in the carry", 6_000),
    ("records found", 700),
    ("records refused", 4_000),
    ("records written", 200),
    ("offers refused", 6_000),
    ("offers of any record", 50_000),
];

/// Every sight of joins. Down to the longest result they are of accepted pairs, then of refused ones.
pub const JOINS: &[Sight] = &[
    ("pairs", 5_000),
    ("pairs accepted", 1_500),
    ("files in both", 1_000),
    ("files in the first only", 100),
    ("files in the second only", 100),
    ("files in neither", 100),
    ("144 bytes first", 100),
    ("144 bytes second", 100),
    ("a shard with itself", 50),
    ("exact room", 1_000),
    ("room to spare", 500),
    ("the longest result", 3),
    ("refused by the first", 400),
    ("refused by the second", 250),
    ("30 by the first", 200),
    ("30 by the second", 200),
    ("30 by both", 100),
    ("refused 9", 200),
    ("refused 6", 5),
    ("refused 15", 800),
    ("more than one ground", 800),
    ("triples", 1_000),
    ("triples accepted", 400),
    ("triples refused", 400),
    ("with two refusals", 100),
    ("lists", 1_000),
    ("lists of none", 250),
    ("lists of one accepted", 100),
    ("lists of one refused", 80),
    ("lists of one refused 30", 25),
    ("longer lists accepted", 100),
    ("longer lists refused", 100),
];

/// Every sight of plans. Down to what was fetched they are of accepted ones; an edge is where a segment begins or ends.
pub const PLANS: &[Sight] = &[
    ("plans", 10_000),
    ("plans accepted", 2_000),
    ("the whole file", 250),
    ("one byte", 600),
    ("one row", 1_000),
    ("several rows", 1_000),
    ("exact room", 1_200),
    ("room to spare", 800),
    ("begins at an edge", 1_000),
    ("begins in a segment", 1_000),
    ("ends at an edge", 1_000),
    ("ends in a segment", 1_000),
    ("0 bytes between two rows", 250),
    ("0 bytes beside the range", 500),
    ("a piece once more", 250),
    ("the chunks after it", 150),
    ("more than 2^32 bytes", 450),
    ("begins beyond 2^32", 100),
    ("not the first file", 1_000),
    ("a file beyond 2^16", 1),
    ("with verifications", 1_000),
    ("with metadata", 1_000),
    ("with a footer", 1_000),
    ("fetched from the store", 1_200),
    ("refused by the shard", 400),
    ("refused 17", 600),
    ("17 by the first too many", 200),
    ("18 by a = b", 900),
    ("18 by a > b", 350),
    ("18 past the end", 1_200),
    ("18 by one byte", 600),
    ("18 in an empty file", 400),
    ("18 without segments", 200),
    ("u64::MAX as a", 300),
    ("u64::MAX as b", 300),
    ("refused 15", 800),
    ("more than one ground", 900),
    ("the longest shard", 9),
];

/// Every sight of audits. Down to the footer they are of counted ones, then of those with a false segment; what is false of it
/// stands behind a comma.
pub const AUDITS: &[Sight] = &[
    ("audits", 10_000),
    ("audits counted", 1_800),
    ("no segment", 50),
    ("listed only", 75),
    ("unlisted only", 75),
    ("listed and unlisted", 1_300),
    ("true of some chunks", 1_300),
    ("true, ends at the count", 1_000),
    ("true of 0 bytes", 350),
    ("true of the first only", 400),
    ("true of u32::MAX bytes", 300),
    ("one number of the hash", 800),
    ("a file's hash", 800),
    ("a chunk's hash", 800),
    ("any other hash", 800),
    ("a hash of all ones", 150),
    ("with verifications", 800),
    ("with metadata", 1_300),
    ("a file without segments", 450),
    ("with a footer", 800),
    ("refused 22", 2_500),
    ("22, an end one past", 350),
    ("22, an end farther past", 175),
    ("22, a start past", 175),
    ("22, one byte more", 175),
    ("22, one byte less", 175),
    ("22, no first chunk", 175),
    ("22, no last chunk", 175),
    ("22, the next chunk too", 175),
    ("22, from the start", 175),
    ("22, the whole xorb", 175),
    ("22, u32::MAX bytes", 175),
    ("22, any other bytes", 175),
    ("22, true of a later one", 350),
    ("22 at the first segment", 600),
    ("22 at a later segment", 2_000),
    ("22 in a later file", 1_300),
    ("22 behind a true one", 1_800),
    ("more than one false", 900),
    ("22 of no chunks", 75),
    ("22, an end of u32::MAX", 50),
    ("refused by the shard", 350),
    ("false all the same", 150),
    ("the longest shard", 5),
];

/// Every sight of blob files. Down to what was longer they are of scans, good ones and refused ones, then of positions where an
/// entry was found, and of those where none was; at the end, of every value of every byte of one entry.
pub const BLOBS: &[Sight] = &[
    ("blob files", 10_000),
    ("scans known beforehand", 9_000),
    ("files good", 1_500),
    ("no byte at all", 250),
    ("one entry", 300),
    ("several entries", 600),
    ("a larger file", 3),
    ("another length that fits", 300),
    ("files written again", 1_500),
    ("scan refused 24", 900),
    ("scan refused 25", 600),
    ("scan refused 26", 400),
    ("scan refused 27", 700),
    ("scan refused 28", 400),
    ("scan refused 29", 1_000),
    ("at the first entry", 2_500),
    ("at a later entry", 2_500),
    ("two faults in an entry", 1_000),
    ("faults in two entries", 500),
    ("cut and refused", 400),
    ("longer and refused", 500),
    ("positions", 150_000),
    ("answers known beforehand", 145_000),
    ("entries found", 35_000),
    ("of lower case", 6_000),
    ("of upper case", 6_000),
    ("of both cases", 12_000),
    ("no data", 3_000),
    ("256 bytes or more", 1_500),
    ("up to the end", 3_000),
    ("110 bytes left", 1_000),
    ("an entry in data", 3_500),
    ("entries written again", 60_000),
    ("entry refused 24", 80_000),
    ("entry refused 25", 15_000),
    ("entry refused 26", 500),
    ("entry refused 27", 800),
    ("entry refused 28", 500),
    ("entry refused 29", 1_200),
    ("24, 109 bytes left", 6_000),
    ("24 at the end", 10_000),
    ("24 just past the end", 10_000),
    ("24 at u64::MAX", 10_000),
    ("24, 110 more wrap", 15_000),
    ("24 but for 32 bits", 6_000),
    ("25 inside of an entry", 15_000),
    ("27 beside the digits", 200),
    ("27, a digit but for 128", 200),
    ("29 by one byte", 75),
    ("29, about 2^63", 75),
    ("29, about 2^64", 200),
    ("29, u64::MAX", 25),
    ("29, the end wraps", 175),
    ("29 but for 32 bits", 175),
    ("bytes of 110 damaged", 110),
    ("values of a byte", 28_050),
    ("values refused", 26_000),
];

/// Every sight of entries to be written; at the end, of every character in every place of the digits.
pub const PUTS: &[Sight] = &[
    ("entries to be written", 10_000),
    ("entries written", 1_800),
    ("no data", 400),
    ("exact room", 1_000),
    ("room to spare", 400),
    ("refused 27", 3_000),
    ("27, no digits", 50),
    ("27, 63 digits", 300),
    ("27, 65 digits", 300),
    ("27, 128 digits", 50),
    ("27 by a character", 1_000),
    ("27 without room", 1_400),
    ("refused 15", 2_500),
    ("15 by one byte", 600),
    ("no room", 1_000),
    ("109 bytes of room", 1_000),
    ("110 bytes of room", 1_000),
    ("places of 64 spoilt", 64),
    ("characters in a place", 16_384),
    ("characters refused", 14_976),
];

/// So many inputs bring all of that, fewer the same part of it.
const USUAL: u64 = 100_000;

/// So many inputs bring each at least once; with fewer nothing is due.
pub const SOME: u64 = 4_000;

/// How often each sight of a list was seen.
pub struct Sights {
    of: &'static str,
    list: &'static [Sight],
    times: Vec<u64>,
}

impl Sights {
    /// None of the list yet.
    pub fn new(of: &'static str, list: &'static [Sight]) -> Self {
        let times = vec![0; list.len()];
        Sights { of, list, times }
    }

    fn place(&self, name: &str) -> usize {
        let place = self.list.iter().position(|one| one.0 == name);
        place.expect("a name of the list")
    }

    pub fn saw(&mut self, name: &str) {
        let place = self.place(name);
        self.times[place] += 1;
    }

    pub fn saw_if(&mut self, holds: bool, name: &str) {
        if holds {
            self.saw(name);
        }
    }

    pub fn saw_times(&mut self, times: u64, name: &str) {
        let place = self.place(name);
        self.times[place] += times;
    }

    pub fn times(&self, name: &str) -> u64 {
        self.times[self.place(name)]
    }

    pub fn report(&self) {
        println!("{:>24} {:>9}", "", self.of);
        for ((name, _), times) in self.list.iter().zip(&self.times) {
            println!("{name:>24} {times:>9}");
        }
    }

    /// An error that names what was seen too seldom.
    pub fn enough(&self, inputs: u64) -> Checked {
        for (&(name, usual), &times) in self.list.iter().zip(&self.times) {
            let least = least(usual, inputs);
            if times < least {
                return Err(format!("\"{name}\" was seen {times} times, not {least}"));
            }
        }
        Ok(())
    }
}

fn least(usual: u64, inputs: u64) -> u64 {
    match inputs {
        0..SOME => 0,
        SOME..USUAL => (usual * inputs / USUAL).max(1),
        USUAL.. => usual,
    }
}
