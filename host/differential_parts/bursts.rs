//! Bursts: frames and acknowledgements side by side, whole, cut and damaged. Both readers read them at once; and the
//! call is given the same bytes one by one, and an idle mark behind them.

use crate::bench::Bench;
use crate::plain::{Burst, Ending};
use crate::random::Random;
use crate::{frames, seen};

/// The most bytes of a burst, and the fewest places.
pub const MOST: usize = 2048;

pub fn lists() -> Vec<(&'static str, Vec<&'static str>)> {
    vec![("bursts, by what happened to them", HAPPENED.to_vec()), ("bursts, byte by byte", BYTE_BY_BYTE.to_vec())]
}

const HAPPENED: [&str; 10] = [
    "nothing",
    "cut",
    "a byte changed",
    "a byte lost",
    "a byte added",
    "several bytes changed",
    "the first byte of a frame changed to E5",
    "a frame of L = 0 behind",
    "bytes behind",
    "any bytes",
];

const BYTE_BY_BYTE: [&str; 9] = [
    "clean",
    "damaged",
    "unfinished",
    "nothing found, the line is as it was",
    "something outstanding before",
    "nothing outstanding before",
    "expected and send bit differ",
    "an answer sent within",
    "an acknowledgement that clears within",
];

// ----------------------------------------------------------------------------------------------------------- at random

/// Whole frames and acknowledgements, up to `most` bytes or somewhat more; of one kind, or mixed.
fn pieces(random: &mut Random, most: usize) -> Vec<u8> {
    let mut bytes = Vec::new();
    let kind = random.below(8);
    while bytes.len() < most {
        match if kind < 4 { kind } else { random.below(4) } {
            0 => bytes.push(0xE5),
            1 => bytes.extend(frames::fixed(if random.coin() { frames::RESET } else { random.byte() })),
            _ => bytes.extend(frames::any_data(random)),
        }
    }
    bytes
}

/// What a frame without control and data would be; its first L is damage.
const EMPTY: [u8; 6] = [0x68, 0, 0, 0x68, 0, 0x16];

/// A place of the bytes, often one of the last.
fn some_place(random: &mut Random, bytes: &[u8]) -> usize {
    if random.coin() {
        random.below(bytes.len())
    } else {
        bytes.len() - 1 - random.below(bytes.len().min(12))
    }
}

/// Pieces that something happened to, up to `most` bytes or somewhat more; and what it was.
fn some_burst(random: &mut Random, most: usize) -> (Vec<u8>, &'static str) {
    let mut bytes = pieces(random, most);
    let happened = random.pick(&HAPPENED);
    if bytes.is_empty() {
        return (bytes, "nothing");
    }
    let at = some_place(random, &bytes);
    match happened {
        "nothing" => {}
        "cut" => bytes.truncate(at),
        "a byte changed" => bytes[at] = random.byte_but(bytes[at]),
        "a byte lost" => drop(bytes.remove(at)),
        "a byte added" => bytes.insert(at, random.byte_like(&[0xE5, 0x68, 0x10, 0x16, 0x00])),
        "several bytes changed" => {
            for _ in 0..random.between(2, 4) {
                let at = some_place(random, &bytes);
                bytes[at] = random.byte();
            }
        }
        "the first byte of a frame changed to E5" => {
            let frame = frames::any_data(random);
            bytes.push(0xE5);
            bytes.extend(&frame[1..]);
        }
        "a frame of L = 0 behind" => {
            let at = random.between(2, EMPTY.len());
            bytes.extend(&EMPTY[..at]);
        }
        "bytes behind" => {
            let count = random.between(1, 8);
            bytes.extend(frames::some_bytes(random, count));
        }
        _ => bytes = frames::some_bytes(random, most),
    }
    (bytes, happened)
}

/// Some bursts of any size; one of them, a short one, also byte by byte.
pub fn some(bench: &mut Bench) {
    for _ in 0..4 {
        let most = match bench.random.below(6) {
            0 | 1 => bench.random.between(0, 40),
            2 | 3 => bench.random.between(40, 600),
            _ => bench.random.between(1700, 2100),
        };
        let (mut bytes, happened) = some_burst(&mut bench.random, most);
        if bytes.len() > MOST && !bench.random.one_in(4) {
            bytes.truncate(MOST);
        }
        bench.counts.hit("bursts, by what happened to them", happened);
        let place_count = match bench.random.below(12) {
            0 => MOST - 1,
            1 => bench.random.below(MOST),
            2 => MOST + 1,
            3 => 3000,
            _ => MOST,
        };
        let _ = bench.burst(&bytes, place_count);
    }
    let most = bench.random.edgy(0, 40);
    let (bytes, _) = some_burst(&mut bench.random, most);
    byte_by_byte(bench, &bytes);
}

/// "it finds the same frames, acknowledgements and damage as the byte-wise receiver given those bytes and then an idle
/// mark, from a receiver at a frame start" (02, item 8), seen on the link record: a byte that leaves the receiver at a
/// frame start is the last one of a frame or an acknowledgement, whose other bytes were gathered before it.
fn byte_by_byte(bench: &mut Bench, bytes: &[u8]) {
    if bench.server.link.received != 0 || bench.server.link.dropping != 0 {
        bench.idle_mark();
    }
    let before = bench.server.link.clone();
    let found = bench.burst(bytes, MOST);
    let mut watched = (Burst { frames: 0, acknowledgements: 0, ending: Ending::Clean }, Vec::new());
    let (mut is_answered, mut is_cleared) = (false, false);
    for (at, byte) in bytes.iter().enumerate() {
        let (start, held) = (at - usize::from(bench.server.link.received), bench.server.link.held);
        is_answered |= bench.byte(*byte).len() > 1;
        if bench.server.link.received == 0 && bench.server.link.dropping == 0 {
            watched.1.push(start as u16);
            if bytes[start] == 0xE5 {
                watched.0.acknowledgements += 1;
                is_cleared |= held != 0;
            } else {
                watched.0.frames += 1;
            }
        }
    }
    if bench.server.link.dropping != 0 {
        watched.0.ending = Ending::Damaged;
    } else if bench.server.link.received != 0 {
        watched.0.ending = Ending::Unfinished;
    }
    bench.idle_mark();
    if found.as_ref() != Ok(&watched) {
        bench.misfound("what the receiver finds byte by byte", &found);
    }
    let (Burst { ending, .. }, starts) = watched;
    if starts.is_empty() && bench.server.link != before {
        bench.misfound("a burst in which nothing is found leaves the line as it was", &found);
    }
    seen::hit_of(
        &mut bench.counts,
        "bursts, byte by byte",
        &[
            ("clean", ending == Ending::Clean),
            ("damaged", ending == Ending::Damaged),
            ("unfinished", ending == Ending::Unfinished),
            ("nothing found, the line is as it was", starts.is_empty() && !bytes.is_empty()),
            ("something outstanding before", before.held != 0),
            ("nothing outstanding before", before.held == 0),
            ("expected and send bit differ", before.expected != before.send),
            ("an answer sent within", is_answered),
            ("an acknowledgement that clears within", is_cleared),
        ],
    );
}

// ----------------------------------------------------------------------------------------------------------- every one

/// What stands before or behind a frame: its bytes, and how many frames and acknowledgements they are.
const AROUND: [(&[u8], u16, u16); 3] = [(&[], 0, 0), (&[0xE5], 0, 1), (&[0x10, 0x40, 0x40, 0x16], 1, 0)];

/// The burst is read, and holds so many frames and acknowledgements; and so it ends.
fn expect(bench: &mut Bench, bytes: &[u8], frames: u16, acknowledgements: u16, ending: Ending) {
    let found = bench.burst(bytes, MOST);
    let wanted = Burst { frames, acknowledgements, ending };
    if !matches!(&found, Ok((burst, _)) if *burst == wanted) {
        bench.misfound(&format!("{wanted:?}"), &found);
    }
}

/// The same with something before the bytes.
fn expect_behind(bench: &mut Bench, bytes: &[u8], frames: u16, acknowledgements: u16, ending: Ending) {
    let before = bench.random.pick(&AROUND);
    expect(bench, &[before.0, bytes].concat(), before.1 + frames, before.2 + acknowledgements, ending);
}

/// A sound data frame of this L, with any bytes in it.
fn data_frame(random: &mut Random, length: usize) -> Vec<u8> {
    let control = random.pick(&[0x73, 0x53, 0xF3, 0x00, 0xE5]);
    let message = frames::some_bytes(random, length - 1);
    frames::data(control, &message)
}

pub fn cut_frames(bench: &mut Bench) {
    for length in 1..=255 {
        let frame = data_frame(&mut bench.random, length);
        for cut in 0..=frame.len() {
            let (frames, ending) = match cut {
                0 => (0, Ending::Clean),
                _ if cut == frame.len() => (1, Ending::Clean),
                _ => (0, Ending::Unfinished),
            };
            expect_behind(bench, &frame[..cut], frames, 0, ending);
            for (behind, _, _) in &AROUND[1..] {
                let _ = bench.burst(&[&frame[..cut], behind].concat(), MOST);
            }
        }
    }
    for cut in 2..=EMPTY.len() {
        expect_behind(bench, &EMPTY[..cut], 0, 0, Ending::Damaged);
    }
}

/// Behind the first byte every change is damage.
fn change(bench: &mut Bench, frame: &[u8], place: usize, other: u8) {
    let behind = bench.random.pick(&AROUND).0;
    let mut bytes = frame.to_vec();
    bytes[place] = other;
    bytes.extend(behind);
    if place > 0 && other != frame[place] {
        expect_behind(bench, &bytes, 0, 0, Ending::Damaged);
    } else {
        let _ = bench.burst(&bytes, MOST);
    }
}

pub fn changed_frames(bench: &mut Bench) {
    for length in 1..=255 {
        let frame = data_frame(&mut bench.random, length);
        for place in 0..frame.len() {
            let one_bit = frame[place] ^ 1 << bench.random.below(8);
            let of_the_forms = bench.random.pick(&[0xE5, 0x68, 0x10, 0x16, 0x00, 0xFF]);
            for other in [one_bit, of_the_forms, bench.random.byte()] {
                change(bench, &frame, place, other);
            }
        }
    }
}

pub fn lost_bytes(bench: &mut Bench) {
    for length in 1..=255 {
        let frame = data_frame(&mut bench.random, length);
        for place in 0..frame.len() {
            let mut bytes = frame.clone();
            bytes.remove(place);
            for (behind, _, _) in AROUND {
                let _ = bench.burst(&[&bytes, behind].concat(), MOST);
            }
        }
    }
}

/// As many frames as a burst takes, and acknowledgements up to its end.
pub fn full_bursts(bench: &mut Bench) {
    for length in 1..=255 {
        let mut bytes = Vec::new();
        while bytes.len() + length + 6 <= MOST {
            bytes.extend(data_frame(&mut bench.random, length));
        }
        let (frames, left) = (bytes.len() / (length + 6), MOST - bytes.len());
        bytes.resize(MOST, 0xE5);
        expect(bench, &bytes, frames as u16, left as u16, Ending::Clean);
    }
}

pub fn acknowledgements(bench: &mut Bench) {
    for count in 0..=MOST {
        expect(bench, &vec![0xE5; count], 0, count as u16, Ending::Clean);
    }
}

pub fn fixed_frames(bench: &mut Bench) {
    for c in 0..=255 {
        let frame = frames::fixed(c);
        expect_behind(bench, &frame, 1, 0, Ending::Clean);
        for cut in 1..4 {
            expect_behind(bench, &frame[..cut], 0, 0, Ending::Unfinished);
        }
        for place in 0..4 {
            for other in [frame[place] ^ 1, 0xE5, 0x68, 0x10, bench.random.byte()] {
                change(bench, &frame, place, other);
            }
            let mut bytes = frame.clone();
            bytes.remove(place);
            for (behind, _, _) in AROUND {
                let _ = bench.burst(&[&bytes, behind].concat(), MOST);
            }
        }
    }
}

/// Each byte behind a beginning of each form: that it breaks off there, goes on, or is whole with it.
pub fn last_bytes(bench: &mut Bench) {
    let beginnings: [(&[u8], fn(u8) -> bool); 7] = [
        (&[0x68], |byte| byte != 0),
        (&[0x68, 7], |byte| byte == 7),
        (&[0x68, 7, 7], |byte| byte == 0x68),
        (&[0x68, 7, 7, 0x68], |_| true),
        (&[0x68, 1, 1, 0x68, 0x73], |byte| byte == 0x73),
        (&[0x10], |_| true),
        (&[0x10, 7], |byte| byte == 7),
    ];
    for byte in 0..=255 {
        let (acknowledgements, ending) = match byte {
            0xE5 => (1, Ending::Clean),
            0x10 | 0x68 => (0, Ending::Unfinished),
            _ => (0, Ending::Damaged),
        };
        expect_behind(bench, &[byte], 0, acknowledgements, ending);
        for (beginning, goes_on) in beginnings {
            let ending = if goes_on(byte) { Ending::Unfinished } else { Ending::Damaged };
            expect_behind(bench, &[beginning, &[byte]].concat(), 0, 0, ending);
        }
        for beginning in [&[0x68, 1, 1, 0x68, 0x73, 0x73][..], &[0x10, 7, 7]] {
            let (frames, ending) = if byte == 0x16 { (1, Ending::Clean) } else { (0, Ending::Damaged) };
            expect_behind(bench, &[beginning, &[byte]].concat(), frames, 0, ending);
        }
    }
}

pub fn sizes(bench: &mut Bench) {
    for byte_count in (0..4).chain(2040..=2060).chain([3000, 4096]) {
        for place_count in [0, 1, 2, 1000, 2046, 2047, 2048, 2049, 2050, 3000] {
            let mut bytes = pieces(&mut bench.random, byte_count);
            bytes.truncate(byte_count);
            let found = bench.burst(&bytes, place_count);
            let is_refused = byte_count > MOST || place_count < MOST;
            if found.as_ref().err() != is_refused.then_some(&-8) {
                bench.misfound("8 for more than 2048 bytes or less than 2048 places, and for nothing else", &found);
            }
        }
    }
}

/// A frame of each L; and a request, with a frame or an acknowledgement behind it, cut, changed and without each of its
/// bytes.
pub fn one_by_one(bench: &mut Bench) {
    for length in 1..=255 {
        let frame = data_frame(&mut bench.random, length);
        byte_by_byte(bench, &[&frame, &[0xE5][..]].concat());
    }
    for place in 0..13 {
        for (behind, _, _) in AROUND {
            let control = frames::host_control(bench.server.link.expected);
            let request = frames::data(control, &[0xF0, 1, 0, 7, 0, 1]);
            let mut changed = request.clone();
            changed[place] = bench.random.byte_but(changed[place]);
            let mut shorter = request.clone();
            shorter.remove(place);
            for bytes in [&request, &request[..place], &changed, &shorter] {
                byte_by_byte(bench, &[bytes, behind].concat());
            }
        }
    }
}
