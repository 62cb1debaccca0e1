//! Link records and tables of any bytes, and of nearly the right ones.

use crate::bench::Bench;
use crate::frames;
use crate::lent::Call;
use crate::plain::{Datapoint, Item, Link};
use crate::random::Random;

pub fn lists() -> Vec<(&'static str, Vec<&'static str>)> {
    vec![("garbage", LABELS.to_vec())]
}

const LABELS: [&str; 11] = [
    "link record of any bytes",
    "link record of any bytes, lengths within",
    "link record of few bytes",
    "link record in range but for some bytes",
    "tables of any bytes",
    "tables well formed but for some bytes",
    "both",
    "refused 1",
    "refused 2",
    "refused 3 or 4",
    "accepted",
];

/// Some calls on garbage. Tables and link record are afterwards as they were.
pub fn some(bench: &mut Bench) {
    let before = bench.server.clone();
    for _ in 0..4 {
        let kind = bench.random.pick(&LABELS[..7]);
        bench.counts.hit("garbage", kind);
        match kind {
            "tables of any bytes" => any_tables(bench),
            "tables well formed but for some bytes" => nearly_tables(bench),
            "both" => {
                nearly_tables(bench);
                bench.server.link = link(&mut bench.random, "link record in range but for some bytes");
            }
            _ => bench.server.link = link(&mut bench.random, kind),
        }
        bench.lend();
        for _ in 0..bench.random.between(1, 4) {
            let call = any_call(bench);
            let label = match bench.call(&call) {
                Ok(_) => "accepted",
                Err(-1) => "refused 1",
                Err(-2) => "refused 2",
                Err(_) => "refused 3 or 4",
            };
            bench.counts.hit("garbage", label);
        }
        bench.server = before.clone();
    }
    bench.lend();
}

fn any_call(bench: &mut Bench) -> Call {
    let random = &mut bench.random;
    let datapoints = &bench.server.datapoints;
    let id = if datapoints.is_empty() || random.one_in(4) {
        random.number()
    } else {
        datapoints[random.below(datapoints.len())].id
    };
    let length = random.pick(&[0, 1, 1, 1, 2, 3, 4, 6, 8, 10, 14, 20]);
    let mut value = random.bytes(length);
    if random.coin() {
        value.iter_mut().for_each(|byte| *byte &= 1);
    }
    let byte = random.byte_like(&[0xE5, 0x68, 0x10, 0x16, 0x00]);
    let room = if random.one_in(20) { random.below(300) } else { 262 };
    Call { event: random.between(1, 6) as u8, byte, id, outcome: random.below(3) as u8, value, room }
}

fn link(random: &mut Random, kind: &str) -> Link {
    let mut link = frames::link(random);
    match kind {
        "link record of any bytes" => {
            link = any_link(random);
        }
        "link record of any bytes, lengths within" => {
            link = any_link(random);
            link.received %= 261;
            link.held %= 262;
            link.resends &= 3;
        }
        "link record of few bytes" => {
            // bytes of the forms, their count about right
            link = frames::fresh();
            let counts = (random.below(8), random.below(12));
            frames::set_receiver(&mut link, &few(random, counts.0));
            frames::set_outstanding(&mut link, &few(random, counts.1));
            link.dropping = u8::from(random.one_in(4));
            link.send = random.bit();
            link.resends = random.below(5) as u8;
        }
        _ => {
            for _ in 0..random.between(1, 3) {
                spoil_link(random, &mut link);
            }
        }
    }
    link
}

pub fn any_link(random: &mut Random) -> Link {
    let mut link = frames::fresh();
    random.fill(&mut link.receiver);
    random.fill(&mut link.outstanding);
    link.received = random.number();
    link.held = random.number();
    link.resends = random.byte();
    link.dropping = random.byte_like(&[0, 1, 1]);
    link.expected = random.byte_like(&[0, 1, 1]);
    link.send = random.byte_like(&[0, 1, 1]);
    link
}

fn few(random: &mut Random, count: usize) -> Vec<u8> {
    (0..count).map(|_| random.pick(&[0x68, 0x68, 0x10, 0xE5, 0x16, 0x01, 0x01, 0x02, 0x00, 0xF3, 0xD3, 0x73])).collect()
}

fn near(random: &mut Random, number: u16) -> u16 {
    match random.below(4) {
        0 => number.wrapping_add(1),
        1 => number.wrapping_sub(1),
        2 => random.below(262) as u16,
        _ => random.number(),
    }
}

fn spoil_link(random: &mut Random, link: &mut Link) {
    match random.below(10) {
        0 => link.receiver[random.below(260)] = random.byte(),
        1 => link.receiver[random.below(8)] = random.byte(),
        9 => link.outstanding[random.below(8)] = random.byte(),
        2 => link.received = near(random, link.received),
        3 => link.dropping = random.byte_like(&[0, 1]),
        4 => link.expected = random.byte_like(&[0, 1]),
        5 => link.send = random.byte_like(&[0, 1]),
        6 => link.outstanding[random.below(261)] = random.byte(),
        7 => link.held = near(random, link.held),
        _ => link.resends = random.byte_like(&[0, 1, 3, 4]),
    }
}

fn any_tables(bench: &mut Bench) {
    let random = &mut bench.random;
    let (datapoints, items) = (random.pick(&[0, 1, 1, 2, 5]), random.pick(&[0, 1, 1, 2, 5]));
    bench.server.datapoints = (0..datapoints)
        .map(|_| {
            let mut value = [0; 14];
            random.fill(&mut value);
            Datapoint {
                id: random.number(),
                typecode: random.byte(),
                flags: random.byte(),
                dpt: random.byte(),
                state: random.byte(),
                value,
                mark: random.byte_like(&[0, 1, 1]),
            }
        })
        .collect();
    let sizes = (random.pick(&[0, 0, 1, 3, 20]), random.pick(&[0, 0, 1, 3, 20]));
    bench.server.site_texts = random.bytes(sizes.0);
    bench.server.default_texts = random.bytes(sizes.1);
    bench.server.items = (0..items)
        .map(|_| {
            let mut bytes = [0; 16];
            random.fill(&mut bytes);
            Item { id: random.number(), size: random.byte() % 20, writable: random.byte_like(&[0, 1, 1]), bytes }
        })
        .collect();
}

fn nearly_tables(bench: &mut Bench) {
    let random = &mut bench.random;
    let server = &mut bench.server;
    for _ in 0..random.between(1, 2) {
        if random.one_in(4) {
            let site = random.coin();
            nearly_texts(random, if site { &mut server.site_texts } else { &mut server.default_texts });
        } else if !server.datapoints.is_empty() && random.coin() {
            let at = random.below(server.datapoints.len());
            let datapoint = &mut server.datapoints[at];
            match random.below(6) {
                0 => datapoint.id = near(random, datapoint.id),
                1 => datapoint.typecode = random.below(18) as u8,
                2 => datapoint.state ^= 1 << random.below(8),
                3 => datapoint.value[random.below(14)] = random.byte(),
                4 => datapoint.value[0] ^= 1 << random.below(8),
                _ => datapoint.mark = random.byte_like(&[0, 1]),
            }
        } else if !server.items.is_empty() {
            let at = random.below(server.items.len());
            let item = &mut server.items[at];
            match random.below(4) {
                0 => item.id = near(random, item.id),
                1 => item.size = random.below(20) as u8,
                2 => item.bytes[random.below(16)] = random.byte(),
                _ => item.writable = random.byte_like(&[0, 1]),
            }
        }
    }
}

/// A list of texts but for some byte: altered, lost or added.
fn nearly_texts(random: &mut Random, list: &mut Vec<u8>) {
    let at = random.below(list.len() + 1);
    match random.below(4) {
        0 => list.truncate(at),
        1 => list.insert(at, random.byte_like(&[0, 1, 30, 31])),
        2 if at < list.len() => drop(list.remove(at)),
        _ if at < list.len() => list[at] = random.byte_like(&[0, 1, 30, 31]),
        _ => list.push(0),
    }
}
