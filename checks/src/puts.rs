//! Entries to be written, drawn so that every answer is frequent.

use crate::blobfiles::{lay, no_digit, some_data, some_digits, HEX};
use crate::blobs::{DIGITS, HEAD};
use crate::draw::ROOMS;
use crate::generate::Rng;
use crate::reader::Refusal;

/// What is given for the digits.
#[derive(Clone, Copy)]
enum Given {
    /// The digits of a hash.
    Hash,
    /// More digits, or fewer.
    Count,
    /// One of them is none.
    Character,
    /// Both of these.
    Both,
}

/// That in its order, a turn each.
const TURNS: [Given; 8] = [
    Given::Hash,
    Given::Hash,
    Given::Character,
    Given::Hash,
    Given::Count,
    Given::Hash,
    Given::Hash,
    Given::Both,
];

/// How many digits are given where they are not a hash's; more than once what
/// is near.
const COUNTS: [usize; 8] = [0, 1, 32, 63, 63, 65, 65, 128];

/// An entry to be written, and the buffer that is lent.
#[derive(Clone, Debug)]
pub struct Put {
    /// What is given for the digits.
    pub digits: Vec<u8>,
    /// The data.
    pub data: Vec<u8>,
    /// The buffer.
    pub buffer: Vec<u8>,
    /// Whether the digits are a hash's.
    good: bool,
}

impl Put {
    /// The entry of this number.
    pub fn random(rng: &mut Rng, number: u64) -> Self {
        let given = TURNS[number as usize % TURNS.len()];
        let data = some_data(rng);
        let room = room(rng, number, HEAD + data.len());
        Put {
            digits: given.digits(rng),
            data,
            buffer: rng.bytes(room),
            good: matches!(given, Given::Hash),
        }
    }

    /// The digits of a hash but for this character in this place.
    pub fn with_character(rng: &mut Rng, place: usize, character: u8) -> Self {
        let mut digits = some_digits(rng);
        digits[place] = character;
        let room = HEAD + rng.place(3);
        Put {
            digits,
            data: Vec::new(),
            buffer: rng.bytes(room),
            good: HEX.contains(&character),
        }
    }

    /// What writing it must answer.
    pub fn answer(&self) -> Result<usize, Refusal> {
        let size = HEAD + self.data.len();
        match self.good {
            false => Err(Refusal::new(27, 0)),
            true if size > self.buffer.len() => Err(Refusal::new(15, 0)),
            true => Ok(size),
        }
    }

    /// What the buffer must hold after it.
    pub fn after(&self) -> Vec<u8> {
        let mut after = Vec::new();
        if self.answer().is_ok() {
            after = lay(&self.digits, &self.data);
        }
        after.extend(&self.buffer[after.len()..]);
        after
    }
}

impl Given {
    fn digits(self, rng: &mut Rng) -> Vec<u8> {
        let mut digits = [some_digits(rng), some_digits(rng)].concat();
        let count = match self {
            Given::Hash | Given::Character => DIGITS,
            Given::Count | Given::Both => rng.pick(&COUNTS),
        };
        digits.truncate(count);
        if matches!(self, Given::Character | Given::Both) && count > 0 {
            digits[rng.place(count)] = no_digit(rng);
        }
        digits
    }
}

/// How much room is lent for an entry of this size.
fn room(rng: &mut Rng, number: u64, size: usize) -> usize {
    match number % 9 {
        6 => HEAD - 1,
        7 => HEAD,
        8 => 0,
        _ => rng.pick(&ROOMS).around(rng, size),
    }
}
