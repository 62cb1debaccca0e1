//! Random tables, well formed.

use crate::plain::{Datapoint, Item, Server};
use crate::random::Random;
use std::collections::BTreeMap;

/// Bytes of each type code.
pub const SIZES: [usize; 15] = [1, 1, 1, 1, 1, 1, 1, 1, 2, 3, 4, 6, 8, 10, 14];

/// The bits that the type uses in its first byte.
pub fn used_bits(typecode: u8) -> u8 {
    if typecode < 7 {
        (2u8 << typecode) - 1
    } else {
        0xFF
    }
}

/// A value of this type, as many bytes as it has.
pub fn value(random: &mut Random, typecode: u8) -> Vec<u8> {
    let size = SIZES[usize::from(typecode)];
    let mut value = match random.below(6) {
        0 => vec![0; size],
        1 => vec![0xFF; size],
        _ => random.bytes(size),
    };
    value[0] &= used_bits(typecode);
    // of two and of four bytes, now and then one that is special as a number
    if (typecode == 8 || typecode == 10) && random.one_in(4) {
        special_number(random, &mut value);
    }
    value
}

/// In two octets the ends of what can be read, 7FFF and exponents without a mantissa; in four each kind that a number of
/// 32-bit floating point can be of, by its exponent's and its mantissa's bits.
fn special_number(random: &mut Random, value: &mut [u8]) {
    if value.len() == 2 {
        let octets: u16 = random.pick(&[0x7FFF, 0x7FFE, 0x8000, 0xF800, 0xFFFF, 0x7800, 0x0800]);
        value.copy_from_slice(&octets.to_be_bytes());
    } else {
        let (sign, exponent) = (u32::from(random.bit()), random.pick(&[0, 0, 1, 127, 254, 255, 255]));
        let mantissa = random.pick(&[0, 0, 1, 0x40_0000, 0x7F_FFFF, 0x12_3456]);
        value.copy_from_slice(&(sign << 31 | exponent << 23 | mantissa).to_be_bytes());
    }
}

/// Config flags: bits 2 and 6 in each of their four ways, or any byte.
pub fn flags(random: &mut Random) -> u8 {
    random.byte_like(&[0x00, 0x04, 0x40, 0x44])
}

/// A datapoint type: mostly the one that makes the type code readable, where there is one; or any, often one of those.
pub fn dpt(random: &mut Random, typecode: u8) -> u8 {
    let fitting = match typecode {
        0 => 1,
        7 => 5,
        8 => 9,
        10 => 14,
        _ => return random.byte_like(&[1, 5, 9, 14]),
    };
    random.byte_like(&[fitting, fitting, fitting, 1, 5, 9, 14])
}

/// Whether a datapoint with these config flags takes the command.
pub fn takes(flags: u8, command: u8) -> bool {
    let needed = match command {
        0 | 1 => 0x00,
        2 | 3 => 0x44,
        4 => 0x04,
        _ => return false,
    };
    flags & needed == needed
}

/// IDs that rise, 1 to 65535.
pub fn ids(random: &mut Random, count: usize) -> Vec<u16> {
    if count == 0 {
        return Vec::new();
    }
    let widest = (65535 / count).min(match random.below(4) {
        0 => 1,
        1 => 3,
        2 => 40,
        _ => 65535,
    });
    let gaps: Vec<usize> = (0..count).map(|_| random.between(1, widest)).collect();
    let total: usize = gaps.iter().sum();
    let spare = 65535 - total;
    let mut id = match random.below(6) {
        0 | 1 => 0,
        2 => spare,
        3 => random.below(spare.min(300) + 1),
        _ => random.below(spare + 1),
    };
    gaps.iter()
        .map(|gap| {
            id += gap;
            id as u16
        })
        .collect()
}

pub fn datapoints(random: &mut Random, count: usize) -> Vec<Datapoint> {
    // all types alike; one type; types of one byte; short ones; long ones
    let types: Vec<u8> = match random.below(7) {
        0 | 1 | 2 => (0..15).collect(),
        3 => vec![random.below(15) as u8],
        4 => (0..8).collect(),
        5 => (0..11).collect(),
        _ => (9..15).collect(),
    };
    let marks = random.pick(&[0, 2, 2, 4, 10, 10]);
    ids(random, count)
        .into_iter()
        .map(|id| {
            let typecode = random.pick(&types);
            let mut all = [0; 14];
            let value = value(random, typecode);
            all[..value.len()].copy_from_slice(&value);
            Datapoint {
                id,
                typecode,
                flags: flags(random),
                dpt: dpt(random, typecode),
                state: random.byte() & 0x1F,
                value: all,
                mark: u8::from(random.below(10) < marks),
            }
        })
        .collect()
}

pub fn items(random: &mut Random, count: usize) -> Vec<Item> {
    let longest = random.pick(&[1, 4, 16, 16]);
    let writable = random.pick(&[1, 2, 3, 4]);
    ids(random, count)
        .into_iter()
        .map(|id| {
            let size = random.between(1, longest);
            let mut bytes = [0; 16];
            random.fill(&mut bytes[..size]);
            Item { id, size: size as u8, writable: u8::from(random.below(4) < writable), bytes }
        })
        .collect()
}

/// The bytes of a list of texts.
pub fn text_list<T: AsRef<[u8]>>(entries: &[(u16, T)]) -> Vec<u8> {
    let mut list = Vec::new();
    for (id, text) in entries {
        list.extend_from_slice(&id.to_be_bytes());
        list.push(text.as_ref().len() as u8);
        list.extend_from_slice(text.as_ref());
    }
    list
}

/// Where each entry of a list that is in order begins.
pub fn text_places(list: &[u8]) -> Vec<usize> {
    let mut places = Vec::new();
    let mut at = 0;
    while at < list.len() {
        places.push(at);
        at += 3 + usize::from(list[at + 2]);
    }
    places
}

/// The texts of a list that is in order, by their IDs.
pub fn texts_by_id(list: &[u8]) -> BTreeMap<u16, Vec<u8>> {
    let entry = |at: usize| {
        let length = usize::from(list[at + 2]);
        (u16::from_be_bytes([list[at], list[at + 1]]), list[at + 3..at + 3 + length].to_vec())
    };
    text_places(list).into_iter().map(entry).collect()
}

/// A list of texts in order: none; for each datapoint; for some of them and for IDs beside; or for any IDs.
pub fn texts(random: &mut Random, datapoints: &[Datapoint]) -> Vec<u8> {
    let mut entries: Vec<u16> = datapoints.iter().map(|datapoint| datapoint.id).collect();
    match random.below(10) {
        0 | 1 => return Vec::new(),
        2 | 3 => {}
        4 => {
            let count = random.between(1, 40);
            entries = ids(random, count);
        }
        _ => {
            let kept = random.pick(&[2, 5, 8]);
            entries.retain(|_| random.below(10) < kept);
            for _ in 0..random.below(6) {
                let near = if entries.is_empty() { random.number() } else { random.pick(&entries) };
                entries.push(near.wrapping_add(random.pick(&[1, 2, 0xFFFF, 0x0100])));
            }
        }
    }
    if random.one_in(4) {
        entries.push(0);
    }
    entries.sort();
    entries.dedup();
    // all of one length; the ends; short ones; any
    let lengths: Vec<usize> = match random.below(8) {
        0 => vec![0],
        1 => vec![30],
        2 => vec![0, 30],
        3 => vec![random.between(1, 29)],
        4 => vec![0, 0, 1, 2, 3],
        5 => vec![0, 0, 0, 0, 0, 12],
        _ => (0..=30).collect(),
    };
    let entries: Vec<(u16, Vec<u8>)> = entries
        .into_iter()
        .map(|id| {
            let length = random.pick(&lengths);
            (id, random.bytes(length))
        })
        .collect();
    text_list(&entries)
}

/// Both lists: none at all, each by itself, or twice the same.
pub fn both_texts(random: &mut Random, datapoints: &[Datapoint]) -> (Vec<u8>, Vec<u8>) {
    if random.one_in(8) {
        return (Vec::new(), Vec::new());
    }
    let site = texts(random, datapoints);
    let default = if random.one_in(10) { site.clone() } else { texts(random, datapoints) };
    (site, default)
}

/// Tables of a random size, mostly small; the link record is as given.
pub fn server(random: &mut Random, link: crate::plain::Link) -> Server {
    let datapoint_count = match random.below(100) {
        0..=5 => 0,
        6..=9 => 1,
        10..=59 => random.between(2, 14),
        60..=84 => random.between(15, 60),
        85..=93 => random.between(61, 150),
        94..=97 => random.between(120, 150),
        98 => random.between(151, 999),
        _ => 1000,
    };
    let item_count = match random.below(20) {
        0 => 0,
        1 => 1,
        2..=12 => random.between(2, 10),
        13..=18 => random.between(11, 63),
        _ => 64,
    };
    let parameter_count = match random.below(20) {
        0 => 0,
        1 => 1,
        2..=10 => random.between(2, 30),
        11..=14 => random.between(31, 247),
        15 => 248,
        16 => 249,
        17 => random.between(250, 254),
        _ => 255,
    };
    let datapoints = datapoints(random, datapoint_count);
    let (site_texts, default_texts) = both_texts(random, &datapoints);
    Server {
        datapoints,
        items: items(random, item_count),
        parameters: random.bytes(parameter_count),
        site_texts,
        default_texts,
        link,
    }
}

/// The datapoint of this ID, if it is there.
pub fn found(datapoints: &[Datapoint], id: u16) -> Option<&Datapoint> {
    datapoints.binary_search_by_key(&id, |datapoint| datapoint.id).ok().map(|at| &datapoints[at])
}

/// The type code of a datapoint that is there.
pub fn type_of(datapoints: &[Datapoint], id: u16) -> Option<u8> {
    found(datapoints, id).map(|datapoint| datapoint.typecode)
}

/// An ID that no datapoint has, 1 or more. Often next to one that is there.
pub fn absent_datapoint(random: &mut Random, datapoints: &[Datapoint]) -> Option<u16> {
    absent(random, |at| datapoints.get(at).map(|datapoint| datapoint.id), datapoints.len())
}

pub fn absent_item(random: &mut Random, items: &[Item]) -> Option<u16> {
    absent(random, |at| items.get(at).map(|item| item.id), items.len())
}

fn absent(random: &mut Random, id_at: impl Fn(usize) -> Option<u16>, count: usize) -> Option<u16> {
    for _ in 0..8 {
        let id = match id_at(random.below(count + 1)) {
            Some(near) if random.coin() => near.wrapping_add(random.pick(&[1, 0xFFFF, 0x0100, 0xFF00])),
            _ => random.number(),
        };
        if id != 0 && !(0..count).any(|at| id_at(at) == Some(id)) {
            return Some(id);
        }
    }
    None
}
