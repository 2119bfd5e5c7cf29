//! Readers and writers of other making: structs of random numbers, many with a code that no call gives out. Each call answers, only a
//! state at the end is told as accepted, and nothing changes but what is lent.

use crate::interface::{Lent, Offer, Reader, Record, Room, State, Verdict, ROW};
use crate::sights::Sights;
use crate::{alike, Checked};
use checks::generate::Rng;

/// The number of a state that no call gave out.
const STATE: u32 = 255;

/// What the code of a state comes to, by the header.
#[derive(Clone, Copy, Debug, PartialEq)]
enum Stand {
    Due,
    End,
    Refused(u32),
}

impl Stand {
    fn of(state: &State) -> Self {
        match (state.code, state.left) {
            (1..=7 | 9, _) => Stand::Due,
            (10, _) => Stand::End,
            (11, 1..) => Stand::Refused(state.left),
            _ => Stand::Refused(STATE),
        }
    }

    /// The number of the verdict.
    fn number(self) -> u32 {
        match self {
            Stand::Due => 1,
            Stand::End => 0,
            Stand::Refused(number) => number,
        }
    }
}

/// A part of the count of inputs, of readers, of writers and of records that are offered.
pub fn compare(inputs: u64, seed: u64, seen: &mut Sights) -> Checked {
    let mut rng = Rng::new(seed);
    for number in 0..inputs / 2 {
        let row = [(); ROW].map(|()| any_wide(&mut rng));
        Record::from_row(&row).offer()?;
        seen.saw("offers of any record");
        let reader = any_reader(&mut rng);
        let checked = read(reader, &mut rng, seen);
        checked
            .map_err(|fault| format!("reader {number} of seed {seed}: {fault}\n  {reader:?}"))?;
        let writer = any_state(&mut rng);
        let checked = write(writer, &mut rng, seen);
        checked
            .map_err(|fault| format!("writer {number} of seed {seed}: {fault}\n  {writer:?}"))?;
    }
    Ok(())
}

/// A small number or any.
fn any_number(rng: &mut Rng) -> u32 {
    let small = rng.below(4) as u32;
    let any = rng.number();
    rng.pick(&[0, small, small, any])
}

/// A state of any bytes.
fn any_bytes(rng: &mut Rng) -> State {
    let [code, left, flags, entries, footer, have] = [(); 6].map(|()| rng.word() as u32);
    State {
        tag: [(); 4].map(|()| rng.word()),
        at: rng.word(),
        offset: rng.word(),
        totals: [(); 5].map(|()| rng.word()),
        sum: rng.word(),
        total: rng.word(),
        code,
        left,
        flags,
        entries,
        footer,
        have,
    }
}

fn any_wide(rng: &mut Rng) -> u64 {
    let small = u64::from(any_number(rng));
    let any = rng.wide();
    rng.pick(&[small, small, any])
}

/// A code that is unknown, that of a refusal, or any known one.
fn any_code(rng: &mut Rng) -> u32 {
    let any = rng.word() as u32;
    let known = rng.below(12) as u32;
    let unknown = rng.pick(&[0, 8, 12, 255, u32::MAX, any]);
    rng.pick(&[unknown, unknown, 11, known, known, known])
}

fn any_state(rng: &mut Rng) -> State {
    match rng.below(50) {
        0 => return zeros(),
        1..8 => return any_bytes(rng),
        _ => (),
    }
    let have = rng.pick(&[0, 0, 1, 47, 48, 199, 200, 201]);
    State {
        tag: rng.hash(),
        at: any_wide(rng),
        offset: any_wide(rng),
        totals: [(); 5].map(|()| any_wide(rng)),
        sum: any_wide(rng),
        total: any_wide(rng),
        code: any_code(rng),
        left: any_number(rng),
        flags: rng.number(),
        entries: any_number(rng),
        footer: any_number(rng),
        have: if rng.once_in(8) { rng.number() } else { have },
    }
}

fn zeros() -> State {
    State {
        tag: [0; 4],
        at: 0,
        offset: 0,
        totals: [0; 5],
        sum: 0,
        total: 0,
        code: 0,
        left: 0,
        flags: 0,
        entries: 0,
        footer: 0,
        have: 0,
    }
}

fn any_reader(rng: &mut Rng) -> Reader {
    let state = any_state(rng);
    let mut carry = [0; 200];
    if state != zeros() && rng.once_in(2) {
        carry.copy_from_slice(&rng.bytes(200));
    }
    Reader { state, carry }
}

/// Up to six records, good ones for some states, cut anywhere.
fn any_piece(rng: &mut Rng) -> Vec<u8> {
    let mut piece = Vec::new();
    for _ in 0..rng.place(7) {
        piece.extend(rng.hash().map(u64::to_le_bytes).concat());
        let numbers = [(); 4].map(|()| any_number(rng));
        piece.extend(numbers.map(u32::to_le_bytes).concat());
    }
    piece.truncate(rng.place(piece.len() + 1));
    piece
}

fn any_offer(rng: &mut Rng) -> Offer {
    let any = rng.number();
    let kind = rng.below(10) as u32;
    let [a, b, c, d] = [(); 4].map(|()| any_number(rng));
    Offer {
        hash: rng.hash(),
        x: any_wide(rng),
        y: any_wide(rng),
        kind: rng.pick(&[kind, kind, kind, any]),
        a,
        b,
        c,
        d,
    }
}

/// The verdict on a state: accepted only at the end, and of other states what the code says, where the state stands.
fn judged(verdict: Verdict, state: &State) -> Checked {
    let stand = Stand::of(state);
    let at = if stand == Stand::End { 0 } else { state.at };
    alike(
        "a verdict",
        (verdict.number, verdict.at),
        (stand.number(), at),
    )
}

fn note(state: &State, seen: &mut Sights) {
    seen.saw_if(*state == zeros(), "a struct of zeros");
    seen.saw_if(state.code == 0, "code 0");
    seen.saw_if(state.code == 8, "code 8");
    seen.saw(match (state.code, Stand::of(state)) {
        (_, Stand::Due) => "a record due",
        (_, Stand::End) => "at the end",
        (11, Stand::Refused(STATE)) => "refused with 0",
        (11, _) => "refused with a number",
        _ => "an unknown code",
    });
}

/// Each call of a reader, each on a fresh copy.
fn read(reader: Reader, rng: &mut Rng, seen: &mut Sights) -> Checked {
    seen.saw("readers of other making");
    note(&reader.state, seen);
    seen.saw_if(reader.state.have > 200, "more in the carry");
    judged(Lent::new(reader).verdict()?, &reader.state)?;
    let piece = any_piece(rng);
    step(reader, &piece, seen)?;
    for numbers in [rng.place(ROW), ROW + rng.place(8 * ROW)] {
        table(reader, &piece, numbers, seen)?;
    }
    Ok(())
}

/// What a call on a state said, took and refused, where the call was told to have stopped.
struct Told {
    said: u32,
    number: u32,
    at: u64,
    taken: u64,
}

/// What any call of a reader keeps to: a state that has refused repeats it and takes nothing, and no other than one at the end is told
/// as accepted afterwards.
fn kept(told: &Told, before: &State, lent: &mut Lent<Reader>, length: usize) -> Checked {
    let &Told {
        said,
        number,
        at,
        taken,
    } = told;
    alike("no more is taken than lent", taken <= length as u64, true)?;
    alike("a refusal has a number", said == 2, number != 0)?;
    alike("what is said", said <= 2, true)?;
    if let Stand::Refused(wanted) = Stand::of(before) {
        alike(
            "a refusal",
            (said, number, at, taken),
            (2, wanted, before.at, 0),
        )?;
        alike("where it stands", lent.state.state.at, before.at)?;
        let verdict = lent.verdict()?;
        alike("its verdict", (verdict.number, verdict.at), (wanted, at))?;
    }
    let after = lent.state.state;
    judged(lent.verdict()?, &after)
}

fn step(reader: Reader, piece: &[u8], seen: &mut Sights) -> Checked {
    let mut lent = Lent::new(reader);
    let copy = piece.to_vec();
    let step = lent.step(piece)?;
    alike("the piece", piece, &copy)?;
    let told = Told {
        said: step.said,
        number: step.number,
        at: step.at,
        taken: step.taken,
    };
    kept(&told, &reader.state, &mut lent, piece.len())?;
    if step.said != 1 {
        alike("no record", step.found, Record::default())?;
    }
    match Stand::of(&reader.state) {
        Stand::Refused(STATE) => seen.saw("steps refused 255"),
        Stand::Refused(_) => seen.saw("another refusal told"),
        _ => {
            seen.saw_if(step.said == 1, "records found");
            seen.saw_if(step.said == 2, "records refused");
        }
    }
    Ok(())
}

fn table(reader: Reader, piece: &[u8], numbers: usize, seen: &mut Sights) -> Checked {
    let mut lent = Lent::new(reader);
    let mut table = Room::new(numbers, 0x1234_5678_9ABC_DEF0);
    let copy = piece.to_vec();
    let read = lent.read(piece, &mut table)?;
    alike("the piece", piece, &copy)?;
    table.changed(ROW * read.count as usize)?;
    let told = Told {
        said: read.said,
        number: read.number,
        at: read.at,
        taken: read.taken,
    };
    kept(&told, &reader.state, &mut lent, piece.len())?;
    let refused = matches!(Stand::of(&reader.state), Stand::Refused(_));
    if refused {
        alike("the rows of a refusal", read.count, 0)?;
    } else if numbers < ROW {
        let said = (read.said, read.number, read.at, read.taken);
        alike("without a row", said, (1, 0, 0, 0))?;
        seen.saw("no row, none refused");
    }
    if Stand::of(&reader.state) == Stand::Refused(STATE) {
        seen.saw("pieces refused 255");
        seen.saw_if(numbers < ROW, "255 without a row");
    }
    Ok(())
}

/// Each call of a writer, and any offer.
fn write(writer: State, rng: &mut Rng, seen: &mut Sights) -> Checked {
    seen.saw("writers of other making");
    note(&writer, seen);
    let mut lent = Lent::new(writer);
    judged(lent.verdict()?, &writer)?;
    let offer = any_offer(rng);
    let mut buffer = Room::new(rng.pick(&[0, 47, 48, 100, 199, 200, 250]), 0xA5);
    let written = lent.put(offer, &mut buffer)?;
    let (number, at) = (written.number, written.at);
    buffer.changed(written.wrote as usize)?;
    alike("a size", [0, 48, 200].contains(&written.wrote), true)?;
    alike("a refusal writes nothing", written.wrote == 0, number != 0)?;
    if number != 0 {
        alike("where a writer refuses", at, writer.at)?;
        alike("where it stands", lent.state.at, writer.at)?;
    }
    match Stand::of(&writer) {
        Stand::Refused(wanted) => {
            alike("the refusal of an offer", number, wanted)?;
            seen.saw_if(wanted == STATE, "offers refused 255");
        }
        _ => seen.saw(match number {
            0 => "records written",
            _ => "offers refused",
        }),
    }
    let after = lent.state;
    judged(lent.verdict()?, &after)
}
