//! The first episode: one thing at a time goes through all its values.

use crate::bench::{Bench, Read, NO_EVENT};
use crate::lent::Call;
use crate::plain::{Datapoint, Item, Reading, Server};
use crate::tables::{self, SIZES};
use crate::{bursts, cutting, frames};

const NAME: &str = "every value, one thing at a time, by calls";

pub fn lists() -> Vec<(&'static str, Vec<&'static str>)> {
    vec![(NAME, EVERY.iter().map(|(label, _)| *label).collect())]
}

const EVERY: [(&str, fn(&mut Bench)); 48] = [
    ("room 0 to 263, each event", rooms),
    ("event 0 to 255, outcome 0 to 255", events),
    ("host byte at each place of a frame", bytes_in_frames),
    ("control byte", controls),
    ("C", fixed_frames),
    ("L", lengths),
    ("each byte of a frame lost, doubled, or the last before an idle mark", faults),
    ("sub, each size up to 14", subs),
    ("first byte of a message", first_bytes),
    ("filter", filters),
    ("command, each type, each length up to 16", commands),
    ("value of 1 to 7 bits, each command", narrow_values),
    ("bus value of 1 to 7 bits; each length up to 16", bus_values),
    ("state byte, each event and command", states),
    ("config flags, each event and command", config_flags),
    ("start and number around the IDs of a table", ranges),
    ("start and number around 65535", ranges_at_the_end),
    ("parameter bytes set: start, number and size around the ends of a table", parameter_sets),
    ("description strings: each kind of entry in either list, each length, each byte", strings),
    ("description strings, how many of them: empty ones, texts of 30 bytes, the last of each length", string_counts),
    ("lists of texts: cut at each byte, each bit, each length, pairs of IDs; each event", text_lists),
    ("number of entries", entry_counts),
    ("each bit of a datapoint", datapoint_bits),
    ("each bit of an item", item_bits),
    ("each bit and count of a link record", link_bits),
    ("each byte that has to be 0 or 1, each event", zeros_and_ones),
    ("readings: each of the 65,536 two octets", two_octets),
    ("readings: singles of each sign and exponent", singles),
    ("readings: each DPT with each type, valid and not", dpts_and_types),
    ("readings: each ID of a table and those beside it; 0 to 40 and 999 to 1001 datapoints", ids_read),
    ("readings: each bit of a datapoint, each type code, state and mark", bits_read),
    ("bursts: a frame of each L, 0 too, cut at each byte", bursts::cut_frames),
    ("bursts: a frame of each L, each byte changed", bursts::changed_frames),
    ("bursts: a frame of each L, each byte lost", bursts::lost_bytes),
    ("bursts: as many frames of each L as there is room for", bursts::full_bursts),
    ("bursts: E5 0 to 2048 times", bursts::acknowledgements),
    ("bursts: a fixed frame of each C, cut, changed and with a byte lost", bursts::fixed_frames),
    ("bursts: each byte behind a beginning of each form", bursts::last_bytes),
    ("bursts: around 2048 bytes and 2048 places", bursts::sizes),
    ("bursts: the same bytes through the call, one by one", bursts::one_by_one),
    ("requests cut: each two entries of a datapoint, or of two; each two items", cutting::two_entries),
    ("requests cut: 2 to 62 entries at every boundary", cutting::entry_counts),
    ("requests cut: bad entries of each way at each place, one or two", cutting::bad_entries),
    ("requests cut: at each byte, by several numbers", cutting::every_byte),
    ("requests cut: each size of 255 to 502 bytes in two parts; up to 1000 entries", cutting::long_ones),
    ("both orders: each two entries of a datapoint, or of two; each two items", cutting::two_requests),
    ("both orders: each entry of a datapoint, with an item of the same ID or another", cutting::both_services),
    ("both orders: requests of 254 bytes", cutting::full_requests),
];

/// All of them, each on small tables of its own.
pub fn episode(bench: &mut Bench) {
    for (label, every) in EVERY {
        bench.server = small(bench);
        bench.lend_anew();
        let calls = bench.calls;
        every(bench);
        bench.counts.add(NAME, label, bench.calls - calls);
    }
}

/// A datapoint of each type, which takes each command, an item of each length, twenty parameter bytes, texts for every
/// other datapoint in the site's list and for every third in the default one.
fn small(bench: &mut Bench) -> Server {
    let random = &mut bench.random;
    let datapoints = (0..15)
        .map(|typecode| {
            let mut value = [0; 14];
            value[..SIZES[usize::from(typecode)]].copy_from_slice(&tables::value(random, typecode));
            let (flags, dpt, state) = (random.byte() | 0x44, tables::dpt(random, typecode), random.byte() & 0x1F);
            Datapoint { id: 10 + u16::from(typecode) * 3, typecode, flags, dpt, state, value, mark: random.bit() }
        })
        .collect();
    let items = (1..=16)
        .map(|size| {
            let mut bytes = [0; 16];
            random.fill(&mut bytes[..size]);
            Item { id: 5 + 2 * size as u16, size: size as u8, writable: u8::from(size % 3 != 0), bytes }
        })
        .collect();
    let site: Vec<(u16, Vec<u8>)> = (0..8).map(|at| (10 + at * 6, random.bytes(usize::from(at)))).collect();
    let default: Vec<(u16, Vec<u8>)> = (0..5).map(|at| (10 + at * 9, random.bytes(20))).collect();
    Server {
        datapoints,
        items,
        parameters: random.bytes(20),
        site_texts: tables::text_list(&site),
        default_texts: tables::text_list(&default),
        link: frames::fresh(),
    }
}

/// A call with tables and link record as they were before the last.
fn once(bench: &mut Bench, before: &Server, call: Call) -> Result<Vec<u8>, i32> {
    bench.server = before.clone();
    bench.lend();
    bench.call(&call)
}

fn byte(byte: u8) -> Call {
    Call { event: 1, byte, id: 0, outcome: 0, value: Vec::new(), room: 262 }
}

/// The message arrives with the expected bit, nothing outstanding, on tables as they were before.
fn ask(bench: &mut Bench, before: &Server, message: &[u8]) -> Result<Vec<u8>, i32> {
    let mut server = before.clone();
    server.link = frames::fresh();
    server.link.expected = bench.random.bit();
    server.link.send = bench.random.bit();
    let frame = frames::data(frames::host_control(server.link.expected), message);
    frames::set_receiver(&mut server.link, &frame[..frame.len() - 1]);
    once(bench, &server, byte(0x16))
}

/// Something outstanding.
fn hold(bench: &mut Bench, server: &mut Server) {
    let frame = frames::server_frame(&mut bench.random, server.link.send);
    frames::set_outstanding(&mut server.link, &frame);
    server.link.resends = bench.random.below(4) as u8;
}

fn rooms(bench: &mut Bench) {
    let before = bench.server.clone();
    // all but the last byte of a request that sets parameter bytes
    let mut asked = before.clone();
    let frame = frames::data(0x73, &[0xF0, 8, 0, 10, 0, 3, 1, 2, 3]);
    frames::set_receiver(&mut asked.link, &frame[..frame.len() - 1]);
    for room in 0..=263 {
        let answer = once(bench, &asked, Call { room, ..byte(0x16) });
        if answer.as_ref().err().copied() != (room < 262).then_some(-3) {
            bench.missed("3 for a room below 262", &answer);
        }
        for event in 1..=6 {
            let value = tables::value(&mut bench.random, 14);
            let call = Call { event, byte: 0xE5, id: 52, outcome: 1, value, room };
            let answer = once(bench, &before, call);
            if answer.as_ref().err().copied() != (room < 262).then_some(-3) {
                bench.missed("3 for a room below 262", &answer);
            }
        }
    }
}

fn events(bench: &mut Bench) {
    let before = bench.server.clone();
    for event in 0..=255 {
        for outcome in 0..=255 {
            if event == 6 || outcome < 4 {
                let call = Call { event, byte: 0x68, id: 10, outcome, value: vec![1], room: 262 };
                let answer = once(bench, &before, call);
                let is_event = (1..=5).contains(&event) || (event == 6 && outcome < 3);
                if answer.as_ref().err().copied() != (!is_event).then_some(NO_EVENT) {
                    bench.missed("-100 where there is no event", &answer);
                }
            }
        }
    }
}

fn bytes_in_frames(bench: &mut Bench) {
    let mut before = bench.server.clone();
    let longest = bench.random.bytes(254);
    let sound = [
        frames::data(0x73, &[0xF0, 1, 0, 7, 0, 1]),
        frames::data(0x53, &[]),
        frames::data(0x73, &longest),
        frames::fixed(frames::RESET),
        frames::fixed(0x16),
    ];
    for frame in sound {
        for place in (0..frame.len()).filter(|place| *place < 8 || *place + 3 > frame.len()) {
            for held in [false, true] {
                before.link = frames::fresh();
                if held {
                    hold(bench, &mut before);
                }
                frames::set_receiver(&mut before.link, &frame[..place]);
                for given in 0..=255 {
                    let _ = once(bench, &before, byte(given));
                }
            }
        }
    }
    before.link = frames::fresh();
    before.link.dropping = 1;
    hold(bench, &mut before);
    for given in 0..=255 {
        let _ = once(bench, &before, byte(given));
    }
}

fn controls(bench: &mut Bench) {
    let mut before = bench.server.clone();
    for control in 0..=255 {
        for kind in 0..8 {
            before.link = frames::fresh();
            before.link.expected = kind & 1;
            before.link.send = kind >> 1 & 1;
            if kind & 4 != 0 {
                hold(bench, &mut before);
            }
            let frame = frames::data(control, &[0xF0, 5, 0, 10, 0, 5, 0]);
            frames::set_receiver(&mut before.link, &frame[..frame.len() - 1]);
            let _ = once(bench, &before, byte(0x16));
        }
    }
}

fn fixed_frames(bench: &mut Bench) {
    let mut before = bench.server.clone();
    for c in 0..=255 {
        for kind in 0..8 {
            before.link = frames::fresh();
            before.link.expected = kind & 1;
            before.link.send = kind >> 1 & 1;
            if kind & 4 != 0 {
                hold(bench, &mut before);
            }
            frames::set_receiver(&mut before.link, &frames::fixed(c)[..3]);
            let _ = once(bench, &before, byte(0x16));
        }
    }
}

fn lengths(bench: &mut Bench) {
    let before = bench.server.clone();
    for length in 0..=254 {
        for first in [0xF0, 0xF1] {
            let mut message = bench.random.bytes(length);
            if length > 1 {
                message[0] = first;
                message[1] = 0x7E;
            }
            let _ = ask(bench, &before, &message);
            // byte by byte
            bench.server.link = frames::fresh();
            bench.lend_link();
            if first == 0xF0 && (length < 9 || length > 250) {
                for given in frames::data(0x73, &message) {
                    bench.byte(given);
                }
            }
        }
    }
}

fn faults(bench: &mut Bench) {
    let mut before = bench.server.clone();
    let sound = [
        frames::data(0x73, &[0xF0, 6, 0, 10, 0, 1, 0, 10, 3, 1, 1]),
        frames::data(0x73, &[0xF0, 8, 0, 10, 0, 3, 1, 2, 3]),
        frames::fixed(frames::RESET),
    ];
    for frame in sound {
        for held in [false, true] {
            before.link = frames::fresh();
            if held {
                hold(bench, &mut before);
            }
            for place in 0..frame.len() {
                for fault in 0..3 {
                    bench.server = before.clone();
                    bench.lend();
                    for (at, given) in frame.iter().enumerate() {
                        if !(fault == 0 && at == place) {
                            bench.byte(*given);
                        }
                        if fault == 1 && at == place {
                            bench.byte(*given);
                        }
                        if fault == 2 && at == place {
                            bench.idle_mark();
                        }
                    }
                    bench.idle_mark();
                    for given in &frame {
                        bench.byte(*given);
                    }
                }
            }
        }
    }
}

fn subs(bench: &mut Bench) {
    let before = bench.server.clone();
    for sub in 0..=255 {
        for size in 2..=14 {
            for number in [0, 1, 2] {
                let mut message = vec![0xF0, sub, 0, 10, 0, number, 0, 10, 1, 1, 0, 13, 1, 1];
                message.truncate(size);
                let _ = ask(bench, &before, &message);
            }
        }
    }
}

fn first_bytes(bench: &mut Bench) {
    let before = bench.server.clone();
    for first in 0..=255 {
        let _ = ask(bench, &before, &[first, 1, 0, 7, 0, 1]);
    }
}

fn filters(bench: &mut Bench) {
    let before = bench.server.clone();
    for filter in 0..=255 {
        let _ = ask(bench, &before, &[0xF0, 5, 0, 10, 0, 100, filter]);
    }
}

fn commands(bench: &mut Bench) {
    let before = bench.server.clone();
    for command in 0..=255 {
        for datapoint in &before.datapoints {
            for length in 0..=16 {
                let mut message = vec![0xF0, 6, 0, 1, 0, 1, 0, datapoint.id as u8, command, length as u8];
                message.extend(vec![1; length]);
                let _ = ask(bench, &before, &message);
            }
        }
    }
}

fn narrow_values(bench: &mut Bench) {
    let before = bench.server.clone();
    for datapoint in &before.datapoints[..8] {
        for value in 0..=255 {
            for command in 0..=5 {
                let _ = ask(bench, &before, &[0xF0, 6, 0, 1, 0, 1, 0, datapoint.id as u8, command, 1, value]);
            }
        }
    }
}

fn bus_values(bench: &mut Bench) {
    let before = bench.server.clone();
    for datapoint in &before.datapoints {
        let call = |value: Vec<u8>| Call { event: 5, byte: 0, id: datapoint.id, outcome: 0, value, room: 262 };
        for length in 0..=16 {
            let _ = once(bench, &before, call(vec![1; length]));
        }
        for value in 0..=255 {
            let mut bytes = vec![0xFF; SIZES[usize::from(datapoint.typecode)]];
            bytes[0] = value;
            let _ = once(bench, &before, call(bytes));
        }
    }
    for id in (0..=65).chain(65530..=65535) {
        let _ = once(bench, &before, Call { event: 5, byte: 0, id, outcome: 0, value: vec![1], room: 262 });
        let _ = once(bench, &before, Call { event: 6, byte: 0, id, outcome: 2, value: Vec::new(), room: 262 });
    }
}

fn states(bench: &mut Bench) {
    let mut before = bench.server.clone();
    before.datapoints.truncate(8);
    for kind in 0..64 {
        for datapoint in &mut before.datapoints {
            datapoint.state = kind & 0x1F;
            datapoint.mark = kind >> 5;
        }
        before.link = frames::fresh();
        for command in 0..=5 {
            let _ = ask(bench, &before, &[0xF0, 6, 0, 31, 0, 1, 0, 31, command, 0]);
            let _ = ask(bench, &before, &[0xF0, 6, 0, 31, 0, 1, 0, 31, command, 1, 0xA5]);
            for next in 0..=5 {
                let _ = ask(bench, &before, &[0xF0, 6, 0, 31, 0, 2, 0, 31, command, 1, 0xA5, 0, 31, next, 1, 0x5A]);
            }
        }
        for outcome in 0..=2 {
            let _ = once(bench, &before, Call { event: 6, byte: 0, id: 31, outcome, value: Vec::new(), room: 262 });
        }
        let _ = once(bench, &before, Call { event: 5, byte: 0, id: 31, outcome: 0, value: vec![7], room: 262 });
        let _ = once(bench, &before, Call { event: 4, byte: 0, id: 0, outcome: 0, value: Vec::new(), room: 262 });
        for filter in 0..=2 {
            let _ = ask(bench, &before, &[0xF0, 5, 0, 31, 0, 1, filter]);
        }
    }
}

fn config_flags(bench: &mut Bench) {
    let mut before = bench.server.clone();
    for flags in 0..=255 {
        for datapoint in &mut before.datapoints {
            datapoint.flags = flags;
            datapoint.mark = 1;
        }
        before.link = frames::fresh();
        // of one bit, one byte, two bytes
        for (id, size) in [(10, 1), (31, 1), (34, 2)] {
            for command in (0..=6).chain([0x12, 0x82, 0xFF]) {
                for length in 0..=3 {
                    let mut message = vec![0xF0, 6, 0, 1, 0, 1, 0, id, command, length];
                    message.extend(vec![1; usize::from(length)]);
                    let answer = ask(bench, &before, &message);
                    let fits = length == size || (length == 0 && command != 1 && command != 3);
                    let code = match (tables::takes(flags, command), fits) {
                        (false, _) => 8,
                        (true, false) => 9,
                        (true, true) => 0,
                    };
                    if !answer.as_ref().is_ok_and(|sent| sent.len() == 15 && sent[12] == code) {
                        bench.missed("commands 2 and 3 need bits 2 and 6, command 4 needs bit 2", &answer);
                    }
                }
            }
            let call = |event: u8, outcome: u8| Call {
                event,
                byte: 0,
                id: u16::from(id),
                outcome,
                value: vec![1; usize::from(size)],
                room: 262,
            };
            for (event, outcome) in [(4, 0), (5, 0), (6, 0), (6, 1), (6, 2)] {
                let answer = once(bench, &before, call(event, outcome));
                if answer.is_err() {
                    bench.missed("bus events and polls do not look at config flags", &answer);
                }
            }
            for message in [&[0xF0, 3, 0, id, 0, 1][..], &[0xF0, 4, 0, id, 0, 1], &[0xF0, 5, 0, id, 0, 1, 0]] {
                let _ = ask(bench, &before, message);
            }
        }
    }
}

fn get(sub: u8, start: u16, number: u16, filter: u8) -> Vec<u8> {
    let (start, number) = (start.to_be_bytes(), number.to_be_bytes());
    let mut message = vec![0xF0, sub, start[0], start[1], number[0], number[1]];
    if sub == 5 {
        message.push(filter);
    }
    message
}

fn ranges(bench: &mut Bench) {
    let before = bench.server.clone();
    for start in 0..=60 {
        for number in 0..=24 {
            for sub in [1, 3, 4, 5, 7] {
                let filter = bench.random.below(3) as u8;
                let _ = ask(bench, &before, &get(sub, start, number, filter));
            }
        }
    }
}

fn ranges_at_the_end(bench: &mut Bench) {
    let mut before = bench.server.clone();
    for with_last in [false, true] {
        before.datapoints.truncate(5);
        before.items.truncate(5);
        for (at, id) in [1, 65530, 65532, 65533, if with_last { 65535 } else { 65534 }].into_iter().enumerate() {
            before.datapoints[at].id = id;
            before.items[at].id = id;
        }
        before.site_texts = tables::text_list(&[(0, "zero"), (1, "one"), (65533, ""), (65534, "last but one")]);
        before.default_texts = tables::text_list(&[(65530, "a"), (65533, "b"), (65534, "c"), (65535, "last")]);
        for start in (0..=2).chain(65528..=65535) {
            for number in (0..=9).chain(65525..=65535) {
                for sub in [1, 3, 4, 5, 7] {
                    let _ = ask(bench, &before, &get(sub, start, number, 0));
                }
            }
        }
    }
}

fn parameter_sets(bench: &mut Bench) {
    let mut before = bench.server.clone();
    for count in [0, 1, 2, 20, 246, 247, 248, 249, 254, 255] {
        before.parameters = bench.random.bytes(count);
        let around = count.saturating_sub(2)..=count + 2;
        for start in (0..=3).chain(around).chain([255, 256, 257, count + 256, 65535]) {
            let left = (count + 1).saturating_sub(start);
            for number in (0..=3).chain(left.saturating_sub(1)..=left + 2).chain([247, 248, 249, 256, 257, 65535]) {
                // as many bytes, and where a message can hold them one less, one more, as the number's low byte says
                let sizes = [number, number.wrapping_sub(1), number + 1, number % 256];
                for bytes in sizes.into_iter().filter(|bytes| *bytes <= 248) {
                    let bytes = bench.random.bytes(bytes);
                    set_parameters(bench, &before, start, number, &bytes);
                }
            }
        }
    }
    for byte in 0..=255 {
        set_parameters(bench, &before, 2, 1, &[byte]);
    }
}

fn set_parameters(bench: &mut Bench, before: &Server, start: usize, number: usize, bytes: &[u8]) {
    let count = before.parameters.len();
    let mut wanted = before.parameters.clone();
    let (code, index) = if bytes.len() != number {
        (10, start)
    } else if number == 0 {
        (6, start)
    } else if start == 0 || start > count {
        (7, start)
    } else if start + number > count + 1 {
        (7, count + 1)
    } else {
        wanted[start - 1..start - 1 + number].copy_from_slice(bytes);
        (0, start)
    };
    let mut message = get(8, start as u16, number as u16, 0);
    message.extend(bytes);
    let answer = ask(bench, before, &message);
    let coded = [0xF0, 0x88, (index >> 8) as u8, index as u8, 0, 0, code];
    if !answer.as_ref().is_ok_and(|sent| sent.len() == 15 && sent[6..13] == coded) {
        bench.missed("10, 6, and 7 with the first index not in the table", &answer);
    }
    if bench.server.parameters != wanted {
        bench.missed("the bytes of the range are set, and no other", &answer);
    }
}

fn list_of(server: &mut Server, site: bool) -> &mut Vec<u8> {
    if site {
        &mut server.site_texts
    } else {
        &mut server.default_texts
    }
}

/// The texts of these datapoints come, in this order, as a get of them all is answered.
fn expect_strings(bench: &mut Bench, before: &Server, start: u16, number: u16, texts: &[&[u8]]) {
    let mut wanted = get(4, start, texts.len() as u16, 0);
    wanted[1] = 0x84;
    for text in texts {
        wanted.extend_from_slice(&[0, text.len() as u8]);
        wanted.extend_from_slice(text);
    }
    let answer = ask(bench, before, &get(4, start, number, 0));
    if !answer.as_ref().is_ok_and(|sent| sent[6..sent.len() - 2] == wanted) {
        bench.missed("the site's text, where it has one, else the default one, else an empty one", &answer);
    }
}

fn strings(bench: &mut Bench) {
    let mut before = bench.server.clone();
    // of three datapoints, IDs 10, 13 and 16, the middle one; with and without entries beside it
    before.datapoints.truncate(3);
    let kinds: Vec<Option<Vec<u8>>> =
        vec![None, Some(Vec::new()), Some(vec![0x53]), Some(bench.random.bytes(17)), Some(bench.random.bytes(30))];
    for site in &kinds {
        for default in &kinds {
            for beside in 0..4 {
                let list = |entry: &Option<Vec<u8>>, with: bool| {
                    let mut all: Vec<(u16, Vec<u8>)> = Vec::new();
                    if with {
                        all.extend([(0, vec![7; 2]), (12, vec![8; 3])]);
                    }
                    all.extend(entry.iter().map(|text| (13, text.clone())));
                    if with {
                        all.extend([(14, vec![9; 4]), (269, vec![10; 5]), (65535, Vec::new())]);
                    }
                    tables::text_list(&all)
                };
                before.site_texts = list(site, beside & 1 == 1);
                before.default_texts = list(default, beside & 2 == 2);
                let text: &[u8] = match (site, default) {
                    (Some(text), _) if !text.is_empty() => text,
                    (_, Some(text)) => text,
                    _ => &[],
                };
                expect_strings(bench, &before, 13, 1, &[text]);
                expect_strings(bench, &before, 11, 4, &[text]);
                expect_strings(bench, &before, 10, 7, &[&[], text, &[]]);
                expect_strings(bench, &before, 0, 65535, &[&[], text, &[]]);
            }
        }
    }
    for site in [false, true] {
        before.site_texts.clear();
        before.default_texts.clear();
        for length in 0..=30 {
            let text = bench.random.bytes(length);
            *list_of(&mut before, site) = tables::text_list(&[(10, &[1][..]), (13, &text), (16, &[2])]);
            expect_strings(bench, &before, 10, 7, &[&[1], &text, &[2]]);
        }
        for byte in 0..=255 {
            *list_of(&mut before, site) = tables::text_list(&[(13, &[byte, 0, byte])]);
            expect_strings(bench, &before, 13, 1, &[&[byte, 0, byte]]);
        }
    }
}

fn string_counts(bench: &mut Bench) {
    let mut before = bench.server.clone();
    let texts: Vec<Vec<u8>> = (0..9).map(|_| bench.random.bytes(30)).collect();
    let with_datapoints = |bench: &mut Bench, before: &mut Server, count: u16| {
        before.datapoints = tables::datapoints(&mut bench.random, usize::from(count));
        for (at, datapoint) in before.datapoints.iter_mut().enumerate() {
            datapoint.id = 5 + 3 * at as u16;
        }
    };
    let too_long = |bench: &mut Bench, before: &Server, number: u16, at: u16| {
        let answer = ask(bench, before, &get(4, 5, number, 0));
        let id = (5 + 3 * at).to_be_bytes();
        if !answer.as_ref().is_ok_and(|sent| sent[6..13] == [0xF0, 0x84, id[0], id[1], 0, 0, 3]) {
            bench.missed("3, with the ID of the datapoint whose string goes over 254 bytes", &answer);
        }
    };
    // empty ones: without a list, or with entries that are empty, or that are not for these datapoints
    for list in [Vec::new(), tables::text_list(&[(0, "zero"), (5, ""), (6, "six"), (8, ""), (9, "nine")])] {
        for count in [1, 2, 123, 124, 125, 126, 250, 1000] {
            with_datapoints(bench, &mut before, count);
            before.site_texts = list.clone();
            before.default_texts = if bench.random.coin() { Vec::new() } else { list.clone() };
            if count <= 124 {
                expect_strings(bench, &before, 5, 3 * count, &vec![&[][..]; usize::from(count)]);
            } else {
                expect_strings(bench, &before, 5, 3 * 124, &[&[][..]; 124]);
                too_long(bench, &before, 3 * count, 124);
                too_long(bench, &before, 65535, 124);
            }
        }
    }
    // of 30 bytes: in the site's list, in the default one, in both, in turns
    for count in [6, 7, 8, 9] {
        with_datapoints(bench, &mut before, count as u16);
        for kind in 0..4 {
            let list = |wanted: &dyn Fn(usize) -> bool| {
                let all: Vec<(u16, &Vec<u8>)> =
                    (0..count).filter(|at| wanted(*at)).map(|at| (5 + 3 * at as u16, &texts[at])).collect();
                tables::text_list(&all)
            };
            before.site_texts = list(&|at| kind != 1 && (kind != 3 || at % 2 == 0));
            before.default_texts = list(&|at| kind != 0 && (kind != 3 || at % 2 == 1));
            let wanted: Vec<&[u8]> = texts[..count.min(7)].iter().map(|text| &text[..]).collect();
            expect_strings(bench, &before, 5, 3 * wanted.len() as u16, &wanted);
            if count > 7 {
                too_long(bench, &before, 65535, 7);
            }
            // the last one of each length, and a datapoint without a text behind it
            for length in 0..=30 {
                let mut all: Vec<(u16, &[u8])> = (0..7).map(|at| (5 + 3 * at as u16, &texts[at][..])).collect();
                all.push((26, &texts[7][..length]));
                let mut before = before.clone();
                with_datapoints(bench, &mut before, 9);
                before.site_texts = if kind % 2 == 0 { tables::text_list(&all) } else { Vec::new() };
                before.default_texts = if kind % 2 == 1 { tables::text_list(&all) } else { Vec::new() };
                let wanted: Vec<&[u8]> = all.iter().map(|(_, text)| *text).collect();
                if length <= 22 {
                    expect_strings(bench, &before, 5, 22, &wanted);
                } else {
                    too_long(bench, &before, 22, 7);
                }
                if length <= 20 {
                    expect_strings(bench, &before, 5, 65535, &[&wanted[..], &[&[]]].concat());
                } else {
                    too_long(bench, &before, 65535, if length <= 22 { 8 } else { 7 });
                }
            }
        }
    }
}

/// Each event with this list in the place of one of the two: refused with 1, or accepted.
fn judged(bench: &mut Bench, before: &Server, site: bool, list: Vec<u8>, in_order: bool) {
    let mut server = before.clone();
    *list_of(&mut server, site) = list;
    for event in 1..=6 {
        let call = Call { event, byte: 0xE5, id: 10, outcome: 1, value: vec![1], room: 262 };
        let answer = once(bench, &server, call);
        if answer.as_ref().err().copied() != (!in_order).then_some(-1) {
            bench.missed("1 for a list out of order or not made of whole entries, and for no other", &answer);
        }
    }
}

fn text_lists(bench: &mut Bench) {
    let before = bench.server.clone();
    let thirty = bench.random.bytes(30);
    let list = tables::text_list(&[
        (0, &b"zero"[..]),
        (1, b""),
        (16, &thirty),
        (256, &[0, 0, 0]),
        (300, b""),
        (600, &[2, 88, 0]),
        (65535, b"end"),
    ]);
    let mut ends = tables::text_places(&list);
    ends.push(list.len());
    for site in [false, true] {
        for cut in 0..=list.len() {
            judged(bench, &before, site, list[..cut].to_vec(), ends.contains(&cut));
        }
        for more in 1..=2 {
            judged(bench, &before, site, [&list[..], &vec![0xFF; more]].concat(), false);
        }
        for at in 0..list.len() {
            for bit in 0..8 {
                let mut server = before.clone();
                let mut bytes = list.clone();
                bytes[at] ^= 1 << bit;
                *list_of(&mut server, site) = bytes;
                let _ = once(bench, &server, IDLE);
            }
        }
        // each length: with its bytes there, alone and between others; and over the bytes that there are
        for length in 0..=255 {
            let text = bench.random.bytes(length);
            let fits = length <= 30;
            judged(bench, &before, site, tables::text_list(&[(9, &text)]), fits);
            judged(bench, &before, site, tables::text_list(&[(3, &b"three"[..]), (9, &text), (10, b"")]), fits);
            for at in &ends[..ends.len() - 1] {
                let mut server = before.clone();
                let mut bytes = list.clone();
                bytes[at + 2] = length as u8;
                *list_of(&mut server, site) = bytes;
                let _ = once(bench, &server, IDLE);
            }
        }
        let ids = [0, 1, 2, 0xFE, 0xFF, 0x100, 0x101, 0x1FF, 0x200, 0x7FFF, 0x8000, 0xFF00, 0xFFFE, 0xFFFF];
        for first in ids {
            judged(bench, &before, site, tables::text_list(&[(first, "a")]), true);
            for second in ids {
                let rises = first < second;
                judged(bench, &before, site, tables::text_list(&[(first, ""), (second, "")]), rises);
                judged(bench, &before, site, tables::text_list(&[(first, "any"), (second, "other")]), rises);
                let three = tables::text_list(&[(first, ""), (second, "b"), (0xFFFF, "c")]);
                judged(bench, &before, site, three, rises && second < 0xFFFF);
            }
        }
    }
}

fn entry_counts(bench: &mut Bench) {
    let mut before = bench.server.clone();
    for count in 0..=257 {
        let (datapoints, items) = (count.min(70), count.min(66));
        before.parameters = bench.random.bytes(count);
        before.items = tables::items(&mut bench.random, items);
        before.datapoints = tables::datapoints(&mut bench.random, datapoints);
        for at in 0..datapoints {
            before.datapoints[at].typecode = 7;
            before.datapoints[at].value = [0; 14];
            before.datapoints[at].mark = 1;
        }
        for sub in [1, 3, 4, 5, 7] {
            for start in [0, 1] {
                let _ = ask(bench, &before, &get(sub, start, 65535, 0));
            }
        }
        before.link = frames::fresh();
        let _ = once(bench, &before, Call { event: 4, byte: 0, id: 0, outcome: 0, value: Vec::new(), room: 262 });
    }
    for count in [999, 1000, 1001] {
        before.parameters.clear();
        before.items.clear();
        before.datapoints = tables::datapoints(&mut bench.random, count);
        before.link = frames::fresh();
        for event in 1..=4 {
            let _ = once(bench, &before, Call { event, byte: 0x68, id: 0, outcome: 0, value: Vec::new(), room: 262 });
        }
    }
}

/// Any call that looks at nothing more.
const IDLE: Call = Call { event: 2, byte: 0, id: 0, outcome: 0, value: Vec::new(), room: 262 };

fn datapoint_bits(bench: &mut Bench) {
    let before = bench.server.clone();
    for at in 0..before.datapoints.len() {
        for bit in 0..8 {
            for place in 0..14 {
                let mut server = before.clone();
                server.datapoints[at].value[place] ^= 1 << bit;
                let _ = once(bench, &server, IDLE);
            }
            for field in 0..6 {
                let mut server = before.clone();
                let datapoint = &mut server.datapoints[at];
                match field {
                    0 => datapoint.state ^= 1 << bit,
                    1 => datapoint.typecode ^= 1 << bit,
                    2 => datapoint.flags ^= 1 << bit,
                    3 => datapoint.dpt ^= 1 << bit,
                    4 => datapoint.id ^= 1 << bit,
                    _ => datapoint.id ^= 0x100 << bit,
                }
                let _ = once(bench, &server, IDLE);
            }
        }
        for number in 0..=255 {
            for zero in [false, true] {
                let mut server = before.clone();
                if zero {
                    server.datapoints[at].value = [0; 14];
                }
                server.datapoints[at].typecode = number;
                let _ = once(bench, &server, IDLE);
            }
            let mut server = before.clone();
            server.datapoints[at].state = number;
            let _ = once(bench, &server, IDLE);
        }
    }
}

fn item_bits(bench: &mut Bench) {
    let before = bench.server.clone();
    for at in 0..before.items.len() {
        for bit in 0..8 {
            for place in 0..16 {
                let mut server = before.clone();
                server.items[at].bytes[place] ^= 1 << bit;
                let _ = once(bench, &server, IDLE);
            }
            for shift in [0, 8] {
                let mut server = before.clone();
                server.items[at].id ^= 1 << (bit + shift);
                let _ = once(bench, &server, IDLE);
            }
        }
        for size in 0..=255 {
            let mut server = before.clone();
            server.items[at].size = size;
            let _ = once(bench, &server, IDLE);
        }
    }
}

fn link_bits(bench: &mut Bench) {
    let mut before = bench.server.clone();
    let longest = bench.random.bytes(254);
    for (message, held) in [(&[0xF0, 1, 0, 1, 0, 1][..], true), (&longest[..], true), (&longest[..200], false)] {
        before.link = frames::fresh();
        let frame = frames::data(0x73, message);
        frames::set_receiver(&mut before.link, &frame[..frame.len() - 1]);
        if held {
            frames::set_outstanding(&mut before.link, &frames::data(0xF3, message));
        }
        for bit in 0..8 {
            for place in 0..260 {
                let mut server = before.clone();
                server.link.receiver[place] ^= 1 << bit;
                let _ = once(bench, &server, IDLE);
            }
            for place in 0..261 {
                let mut server = before.clone();
                server.link.outstanding[place] ^= 1 << bit;
                let _ = once(bench, &server, IDLE);
            }
        }
        for number in 0..=600 {
            let mut server = before.clone();
            server.link.received = number;
            let _ = once(bench, &server, IDLE);
            let mut server = before.clone();
            server.link.held = number;
            let _ = once(bench, &server, IDLE);
            let mut server = before.clone();
            server.link.resends = number as u8;
            let _ = once(bench, &server, IDLE);
        }
        // zeros behind a beginning, counted
        for number in 0..=261 {
            let mut server = before.clone();
            frames::set_receiver(&mut server.link, &frame[..frame.len().min(5)]);
            server.link.received = number;
            let _ = once(bench, &server, IDLE);
        }
    }
}

/// Mark and writable of each record, dropping, expected and send, nothing outstanding and something.
fn zeros_and_ones(bench: &mut Bench) {
    type Field = fn(&mut Server, usize) -> &mut u8;
    let mut before = bench.server.clone();
    let fields: [(i32, usize, Field); 5] = [
        (-1, before.datapoints.len(), |server, at| &mut server.datapoints[at].mark),
        (-1, before.items.len(), |server, at| &mut server.items[at].writable),
        (-2, 1, |server, _| &mut server.link.dropping),
        (-2, 1, |server, _| &mut server.link.expected),
        (-2, 1, |server, _| &mut server.link.send),
    ];
    for held in [false, true] {
        if held {
            hold(bench, &mut before);
        }
        for (number, count, field) in fields {
            for at in 0..count {
                for given in 0..=255 {
                    let mut server = before.clone();
                    *field(&mut server, at) = given;
                    for event in 1..=6 {
                        let call = Call { event, byte: 0xE5, id: 10, outcome: 1, value: vec![1], room: 262 };
                        let answer = once(bench, &server, call);
                        if given > 1 && answer != Err(number) {
                            bench.missed("a byte that is neither 0 nor 1 is refused", &answer);
                        }
                    }
                }
            }
        }
    }
}

/// The table's middle datapoint, ID 13, with this DPT, type code and value, valid or not, is read by both.
fn read_as(bench: &mut Bench, dpt: u8, typecode: u8, valid: bool, value: &[u8]) -> Read {
    let state = bench.random.byte() & 0x0F | u8::from(valid) << 4;
    let datapoint = &mut bench.server.datapoints[1];
    datapoint.dpt = dpt;
    datapoint.typecode = typecode;
    datapoint.state = state;
    datapoint.value = [0; 14];
    datapoint.value[..value.len()].copy_from_slice(value);
    bench.lend();
    bench.read(13)
}

/// The number with these bits in 2 to the 48th parts of one, where it is a whole number of them, and not a large one.
/// The bits' exponent is 150 where their mantissa is the number.
fn parts(bits: u32) -> Option<i128> {
    let (exponent, mantissa) = (bits >> 23 & 0xFF, i128::from(bits & 0x7F_FFFF | 0x80_0000));
    let size = (102..=150).contains(&exponent).then(|| mantissa << (exponent - 102))?;
    Some(if bits >> 31 == 1 { -size } else { size })
}

/// As many such parts are one.
const ONE: i128 = 1 << 48;

/// Whether the bits are those of the hundredths divided by 100, rounded once: 100 times the number is nearer to the
/// hundredths than 100 times its neighbour on either side, or as near and even. And whether it is within their size
/// divided by 2 to the 24.
fn is_rounded_once(bits: u32, hundredths: i128) -> (bool, bool) {
    if hundredths == 0 {
        return (bits == 0, bits == 0);
    }
    let distance = |bits: u32| parts(bits).map(|parts| (100 * parts - hundredths * ONE).abs());
    let neighbours = (distance(bits.wrapping_sub(1)), distance(bits.wrapping_add(1)));
    let (Some(own), (Some(below), Some(above))) = (distance(bits), neighbours) else {
        return (false, false);
    };
    let nearest = [below, above].iter().all(|other| own < *other || (own == *other && bits % 2 == 0));
    (nearest, own << 24 <= hundredths.abs() * ONE)
}

fn two_octets(bench: &mut Bench) {
    bench.server.datapoints.truncate(3);
    for octets in 0..=0xFFFF_u16 {
        let read = read_as(bench, 9, 8, true, &octets.to_be_bytes());
        // from the highest bit on: the sign, which counts -2048, four bits of exponent, eleven bits
        let mantissa = i128::from(octets & 0x07FF) - i128::from(octets >> 15) * 2048;
        let hundredths = mantissa << (octets >> 11 & 0x0F);
        match read {
            Ok(Reading::Unreadable) if octets == 0x7FFF => {}
            Ok(Reading::TwoOctet(bits)) if octets != 0x7FFF => match is_rounded_once(bits, hundredths) {
                (true, true) => {}
                (false, _) => bench.misread(&format!("the nearest to {hundredths} hundredths"), &read),
                _ => bench.misread(&format!("{hundredths} hundredths, but for a 2 to the 24th of them"), &read),
            },
            _ => bench.misread("each two octets but 7FFF are read", &read),
        }
    }
}

fn singles(bench: &mut Bench) {
    bench.server.datapoints.truncate(3);
    for sign_and_exponent in 0..512_u32 {
        let mut mantissas = vec![0, 1, 2, 0x3F_FFFF, 0x40_0000, 0x40_0001, 0x7F_FFFE, 0x7F_FFFF];
        mantissas.extend((0..4).map(|_| bench.random.next() as u32 & 0x7F_FFFF));
        for mantissa in mantissas {
            let bits = sign_and_exponent << 23 | mantissa;
            let read = read_as(bench, 14, 10, true, &bits.to_be_bytes());
            let is_number = sign_and_exponent % 256 != 255;
            if read != Ok(if is_number { Reading::Single(bits) } else { Reading::Unreadable }) {
                bench.misread("the number with these bits, if it is one and finite", &read);
            }
        }
    }
    // each bit alone, and all but that
    for bit in 0..32 {
        for bits in [1_u32 << bit, !(1 << bit)] {
            let _ = read_as(bench, 14, 10, true, &bits.to_be_bytes());
        }
    }
}

fn dpts_and_types(bench: &mut Bench) {
    bench.server.datapoints.truncate(3);
    for dpt in 0..=255 {
        for typecode in 0..15 {
            for valid in [false, true] {
                let mut value = vec![0; SIZES[usize::from(typecode)]];
                value[0] = 1;
                let read = read_as(bench, dpt, typecode, valid, &value);
                let wanted = match (valid, dpt, typecode) {
                    (true, 1, 0) => Reading::Switch(true),
                    (true, 5, 7) => Reading::Count(1),
                    (true, 9, 8) => Reading::TwoOctet(2.56_f32.to_bits()),
                    (true, 14, 10) => Reading::Single(0x0100_0000),
                    _ => Reading::Unreadable,
                };
                if read != Ok(wanted) {
                    bench.misread("one of the four, by DPT and type, where it is valid; else unreadable", &read);
                }
                // and a value of any bytes
                let value = tables::value(&mut bench.random, typecode);
                let _ = read_as(bench, dpt, typecode, valid, &value);
            }
        }
    }
    for byte in 0..=255 {
        let read = read_as(bench, 5, 7, true, &[byte]);
        if read != Ok(Reading::Count(byte)) {
            bench.misread("a count is the byte", &read);
        }
    }
    for on in [false, true] {
        let read = read_as(bench, 1, 0, true, &[u8::from(on)]);
        if read != Ok(Reading::Switch(on)) {
            bench.misread("a switch is on where its bit is 1", &read);
        }
    }
}

fn ids_read(bench: &mut Bench) {
    for count in (0..=40).chain([999, 1000, 1001]) {
        bench.server.datapoints = tables::datapoints(&mut bench.random, count);
        bench.lend();
        let ids: Vec<u16> = bench.server.datapoints.iter().map(|datapoint| datapoint.id).collect();
        let around = ids.iter().flat_map(|id| [id.wrapping_sub(1), *id, id.wrapping_add(1)]);
        for id in around.chain([0, 1, 2, 0x7FFF, 0x8000, 0xFFFE, 0xFFFF]).collect::<Vec<u16>>() {
            let read = bench.read(id);
            let refused = match count {
                1001 => Some(-1),
                _ => (!ids.contains(&id)).then_some(-4),
            };
            if read.as_ref().err().copied() != refused {
                bench.misread("4 for an ID that is absent, and for no other", &read);
            }
        }
    }
}

/// A reading on these tables, in order but for their datapoints perhaps, is refused with 1 where a call is.
fn read_as_called(bench: &mut Bench, server: &Server) {
    let answer = once(bench, server, IDLE);
    let id = bench.some_id();
    let read = bench.read(id);
    if (read == Err(-1)) != (answer == Err(-1)) {
        bench.misread("1 as in a call", &read);
    }
}

fn bits_read(bench: &mut Bench) {
    let before = bench.server.clone();
    for at in 0..before.datapoints.len() {
        let alter = |bench: &mut Bench, change: &dyn Fn(&mut Datapoint)| {
            let mut server = before.clone();
            change(&mut server.datapoints[at]);
            read_as_called(bench, &server);
        };
        for bit in 0..8 {
            for place in 0..14 {
                alter(bench, &|datapoint| datapoint.value[place] ^= 1 << bit);
            }
            alter(bench, &|datapoint| datapoint.flags ^= 1 << bit);
            alter(bench, &|datapoint| datapoint.dpt ^= 1 << bit);
            alter(bench, &|datapoint| datapoint.id ^= 1 << bit);
            alter(bench, &|datapoint| datapoint.id ^= 0x100 << bit);
        }
        for byte in 0..=255 {
            alter(bench, &|datapoint| datapoint.typecode = byte);
            alter(bench, &|datapoint| datapoint.state = byte);
            alter(bench, &|datapoint| datapoint.mark = byte);
        }
    }
}
