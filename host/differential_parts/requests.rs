//! Request messages. Most are made for one row of the error table, or for one edge, and say which answer they aim at.

use crate::plain::{Datapoint, Server};
use crate::random::Random;
use crate::tables::{absent_datapoint, absent_item, found, takes, texts_by_id, used_bits, value, SIZES};

/// A message and what is to come of it: an answer of this code and ID (code 0: a positive one), none, or anything.
pub struct Request {
    pub message: Vec<u8>,
    pub aim: &'static str,
    pub wants: Wants,
}

#[derive(Clone, Copy, PartialEq)]
pub enum Wants {
    Code(u8, u16),
    Silence,
    Anything,
}

pub const AIMS: &[&str] = &[
    "shorter than 6 bytes",
    "first byte not F0",
    "sub 80 and above",
    "5: sub 00",
    "5: sub 09 to 7F",
    "5 before 10 and 6",
    "get: answered",
    "get: answered, the whole table",
    "get: answered, exactly 254 bytes",
    "get: answered, exactly 49, 124 or 248 entries of one size",
    "get: start FFFF, number FFFF",
    "get: range beyond 65535",
    "get: 10, one byte too many",
    "get: 10, many bytes too many",
    "get value: 10, no filter",
    "get: 10 before 6",
    "get: 6, number 0",
    "get: 6 before 2",
    "get value: 6, filter 3",
    "get value: 6, filter above 3",
    "get: 2, a gap",
    "get: 2, behind the last",
    "get: 2, start 0, number 1",
    "get value: 2, nothing passes the filter",
    "get parameters: 2, start 0",
    "get strings: answered, 124 empty ones",
    "get strings: 3, the 125th of empty ones",
    "get strings: answered, 7 texts of 30 bytes",
    "get strings: 3, the 8th text of 30 bytes",
    "get strings: 2, an ID that a list has and no datapoint",
    "get strings: answered, from an ID on that a list has and no datapoint",
    "get strings: answered, one that only the site's list has",
    "get strings: answered, one that only the default list has",
    "get strings: answered, one that both lists have",
    "get strings: answered, an empty site's entry over a default text",
    "get strings: answered, one that neither list has",
    "get: 3, exactly 255 bytes",
    "get: 3, more",
    "set: answered, one entry",
    "set: answered, several entries",
    "set: answered, an ID twice",
    "set: answered, 254 bytes",
    "set: 10, a byte too many",
    "set: 10, a byte missing",
    "set: 10, number one too high",
    "set: 10, number one too low",
    "set: 10, number FFFF",
    "set: 10, no entry, number 1 or more",
    "set: 10, the last length too high",
    "set: 10 before 6",
    "set: 10 before 7 and on",
    "set: 6, number 0",
    "set: 7, the first entry",
    "set: 7, a later entry",
    "set: 7, ID 0",
    "set item: 4, the first entry",
    "set item: 4, a later entry",
    "set item: 4 before 9",
    "set item: 9, length below",
    "set item: 9, length above",
    "set item: 9, length 0",
    "set value: 8, command 5 first",
    "set value: 8, command 5 last",
    "set value: 7, command 5 behind an absent ID",
    "set value: 8, command 5 with a bad length",
    "set value: 8, bits off, the first entry",
    "set value: 8, bits off, a later entry",
    "set value: 8, bits off, a bad length",
    "set value: 8, bits off, no value with command 3",
    "set value: 8, bits off, an absent ID behind it",
    "set value: 8, bits off, the same ID taken before",
    "set value: 7, bits off behind an absent ID",
    "set value: 7, a command that needs bits",
    "set value: 9, bits off behind a bad length",
    "set value: answered, commands 0 and 1 at closed ones",
    "set value: 8, command 6 to 15",
    "set value: 8, reserved bits",
    "set value: 8 (command) before 9",
    "set value: 9, length below",
    "set value: 9, length above",
    "set value: 9, no value with command 1",
    "set value: 9, no value with command 3",
    "set value: 9 before 8 (unused bits)",
    "set value: 8, unused bits, the first entry",
    "set value: 8, unused bits, a later entry",
    "set: an ID twice, the second one bad",
    "set: two bad entries, the first decides",
    "set parameters: answered, one byte",
    "set parameters: answered, several bytes",
    "set parameters: answered, the first index",
    "set parameters: answered, the last index",
    "set parameters: answered, up to the end",
    "set parameters: answered, the whole table",
    "set parameters: answered, 254 bytes",
    "set parameters: 10, one byte too many",
    "set parameters: 10, one byte missing",
    "set parameters: 10, some bytes too many",
    "set parameters: 10, no byte, number 1 or more",
    "set parameters: 10, number 256 too high",
    "set parameters: 10, start FFFF, number FFFF",
    "set parameters: 10 before 6",
    "set parameters: 10 before 7",
    "set parameters: 6, number 0",
    "set parameters: 6, start 0 and number 0",
    "set parameters: 6 before 7",
    "set parameters: 7, start 0, one byte",
    "set parameters: 7, start 0, several bytes",
    "set parameters: 7, start right behind the table",
    "set parameters: 7, start further behind it",
    "set parameters: 7, start 256 too high",
    "set parameters: 7, start FFFF",
    "set parameters: 7, one byte behind the end",
    "set parameters: 7, several bytes behind the end",
    "set parameters: 7, 254 bytes, the last one behind the end",
];

pub fn head(sub: u8, start: u16, number: u16) -> Vec<u8> {
    let (start, number) = (start.to_be_bytes(), number.to_be_bytes());
    vec![0xF0, sub, start[0], start[1], number[0], number[1]]
}

/// Any request. What it aims at depends on the tables.
pub fn request(random: &mut Random, server: &Server) -> Request {
    if random.one_in(16) {
        anything(random, server)
    } else {
        aimed(random, server)
    }
}

fn aimed(random: &mut Random, server: &Server) -> Request {
    for _ in 0..20 {
        let made = match random.below(39) {
            0 | 1 => Some(unanswered(random)),
            2 => Some(unknown(random)),
            3..=16 => get(random, server),
            17..=20 => get_strings(random, server),
            21..=25 => set_items(random, server),
            26..=32 => set_values(random, server),
            _ => set_parameters(random, server),
        };
        if let Some(request) = made {
            return request;
        }
    }
    unknown(random)
}

/// A good request, carried out and answered, if the tables have one.
pub fn good(random: &mut Random, server: &Server) -> Request {
    for _ in 0..20 {
        let request = aimed(random, server);
        if matches!(request.wants, Wants::Code(0, _)) {
            return request;
        }
    }
    unknown(random)
}

fn made(aim: &'static str, code: u8, id: u16, message: Vec<u8>) -> Option<Request> {
    Some(Request { message, aim, wants: Wants::Code(code, id) })
}

fn unanswered(random: &mut Random) -> Request {
    let mut message = head(random.pick(&[1, 2, 3, 4, 5, 6, 7, 8, 9]), random.number(), random.number());
    let more = random.below(10);
    message.extend(random.bytes(more));
    let aim = match random.below(3) {
        0 => {
            message.truncate(random.below(6));
            "shorter than 6 bytes"
        }
        1 => {
            message[0] = random.byte_but(0xF0);
            "first byte not F0"
        }
        _ => {
            message[1] = 0x80 | random.byte_like(&[0x80, 0x81, 0x83, 0x84, 0x86, 0x88, 0xC1, 0xFF]);
            "sub 80 and above"
        }
    };
    Request { message, aim, wants: Wants::Silence }
}

fn unknown(random: &mut Random) -> Request {
    let (sub, aim) = match random.below(3) {
        0 => (0, "5: sub 00"),
        1 => (random.edgy(9, 0x7F) as u8, "5: sub 09 to 7F"),
        _ => (random.pick(&[0, 9, 0x7F]), "5 before 10 and 6"),
    };
    let before = aim == "5 before 10 and 6";
    let start = random.number();
    let mut message = head(sub, start, if before { 0 } else { random.between(1, 9) as u16 });
    let more = if before { random.between(2, 248) } else { random.below(2) };
    message.extend(random.bytes(more));
    Request { message, aim, wants: Wants::Code(5, start) }
}

/// Messages without an aim: a good one with a byte altered, lost or added; or any bytes behind F0 and a sub.
fn anything(random: &mut Random, server: &Server) -> Request {
    let mut message = if random.coin() {
        good(random, server).message
    } else {
        let mut message = head(random.below(10) as u8, random.below(40) as u16, random.below(5) as u16);
        let more = random.pick(&[0, 1, 4, 5, 8, 40, 248]);
        let span = random.pick(&[4, 16, 256]);
        message.extend((0..more).map(|_| random.below(span) as u8));
        message
    };
    if !message.is_empty() {
        let at = random.below(message.len());
        match random.below(4) {
            0 => message[at] = random.byte(),
            1 => message[at] ^= 1 << random.below(8),
            2 => drop(message.remove(at)),
            _ if message.len() < 254 => message.insert(at, random.byte()),
            _ => {}
        }
    }
    Request { message, aim: "", wants: Wants::Anything }
}

// ------------------------------------------------------------------------------------------------------------ the gets

/// What a get of this sub and filter can return: ID or index, and its size in the answer.
fn present(server: &Server, sub: u8, filter: u8) -> Vec<(u16, usize)> {
    let datapoints = server.datapoints.iter();
    match sub {
        1 => server.items.iter().map(|item| (item.id, 3 + usize::from(item.size))).collect(),
        3 => datapoints.map(|datapoint| (datapoint.id, 5)).collect(),
        4 => texts(server).iter().map(|text| (text.id, 2 + text.size())).collect(),
        5 => datapoints
            .filter(|datapoint| match filter {
                1 => datapoint.state & 0x10 != 0,
                2 => datapoint.state & 0x08 != 0,
                _ => true,
            })
            .map(|datapoint| (datapoint.id, 4 + SIZES[usize::from(datapoint.typecode)]))
            .collect(),
        _ => (1..=server.parameters.len()).map(|index| (index as u16, 1)).collect(),
    }
}

/// What the lists have for a datapoint: the lengths of its texts, where there is an entry.
pub struct Texts {
    pub id: u16,
    pub site: Option<usize>,
    pub default: Option<usize>,
}

impl Texts {
    /// The length of the text that is handed out.
    pub fn size(&self) -> usize {
        match self.site {
            Some(size) if size > 0 => size,
            _ => self.default.unwrap_or(0),
        }
    }
}

/// That of each datapoint.
pub fn texts(server: &Server) -> Vec<Texts> {
    let (site, default) = (texts_by_id(&server.site_texts), texts_by_id(&server.default_texts));
    let of = |id: u16| Texts { id, site: site.get(&id).map(Vec::len), default: default.get(&id).map(Vec::len) };
    server.datapoints.iter().map(|datapoint| of(datapoint.id)).collect()
}

/// The size of all that a get returns from start to last.
pub fn size_of_range(server: &Server, message: &[u8], start: u16, last: u16) -> usize {
    let filter = message.get(6).copied().unwrap_or(0);
    let entries = present(server, message[1], filter).into_iter();
    entries.filter(|(id, _)| (start..=last).contains(id)).map(|(_, size)| size).sum()
}

/// Entries first to last of `entries`, as start and number: their own IDs, or somewhat into the gaps around them.
fn range(random: &mut Random, entries: &[(u16, usize)], first: usize, last: usize, lowest: u16) -> Option<(u16, u16)> {
    let low = if first == 0 { lowest } else { entries[first - 1].0 + 1 };
    let high = entries.get(last + 1).map_or(65535 + 200, |next| usize::from(next.0) - 1);
    let id_first = entries[first].0;
    let id_last = usize::from(entries[last].0);
    let start = if random.coin() { id_first } else { random.between(usize::from(low), usize::from(id_first)) as u16 };
    let end = if random.coin() { id_last } else { random.between(id_last, high) };
    u16::try_from(end - usize::from(start) + 1).ok().map(|number| (start, number))
}

/// A run of entries whose sizes sum up to one that is wanted; begun at a random place.
fn run_of(random: &mut Random, entries: &[(u16, usize)], wanted: impl Fn(usize) -> bool) -> Option<(usize, usize)> {
    let from = random.below(entries.len());
    for step in 0..entries.len().min(64) {
        let first = (from + step) % entries.len();
        let mut sum = 0;
        for (last, entry) in entries.iter().enumerate().skip(first) {
            sum += entry.1;
            if wanted(sum) {
                return Some((first, last));
            }
            if sum > 270 {
                break;
            }
        }
    }
    None
}

fn get(random: &mut Random, server: &Server) -> Option<Request> {
    let sub = random.pick(&[1, 3, 4, 5, 5, 7]);
    let filter = if sub == 5 { random.below(3) as u8 } else { 0 };
    let message = |start: u16, number: u16, filter: u8| {
        let mut message = head(sub, start, number);
        if sub == 5 {
            message.push(filter);
        }
        message
    };
    let lowest = if sub == 7 { 1 } else { 0 };
    let entries = present(server, sub, filter);
    let some_start = random.between(1, 300) as u16;
    let some_number = random.between(1, 300) as u16;
    match random.below(30) {
        0 => {
            let mut long = message(some_start, some_number, filter);
            long.push(random.byte());
            made("get: 10, one byte too many", 10, some_start, long)
        }
        1 => {
            let mut long = message(some_start, some_number, filter);
            let more = random.between(2, 247);
            long.extend(random.bytes(more));
            made("get: 10, many bytes too many", 10, some_start, long)
        }
        2 if sub == 5 => {
            let short = head(sub, some_start, random.pick(&[0, some_number, some_number]));
            made("get value: 10, no filter", 10, some_start, short)
        }
        3 => {
            let mut long = message(some_start, 0, filter);
            let more = random.between(1, 4);
            long.extend(random.bytes(more));
            made("get: 10 before 6", 10, some_start, long)
        }
        4 => {
            let start = entries.first().map_or(1, |entry| entry.0);
            made("get: 6, number 0", 6, start, message(start, 0, filter))
        }
        5 => made("get: 6 before 2", 6, 0, message(0, 0, filter)),
        6 if sub == 5 => made("get value: 6, filter 3", 6, some_start, message(some_start, some_number, 3)),
        7 if sub == 5 => {
            let filter = random.between(4, 255) as u8;
            made("get value: 6, filter above 3", 6, some_start, message(some_start, some_number, filter))
        }
        8 | 9 => {
            // between two entries, or before the first
            let all = present(server, sub, 0);
            let gaps: Vec<(u16, u16)> = (0..all.len())
                .map(|at| (if at == 0 { 1 } else { all[at - 1].0 + 1 }, all[at].0))
                .filter(|(low, next)| low < next)
                .collect();
            if gaps.is_empty() || sub == 7 {
                return None;
            }
            let (low, next) = random.pick(&gaps);
            let start = random.between(usize::from(low), usize::from(next) - 1) as u16;
            let number = if random.coin() { next - start } else { random.between(1, usize::from(next - start)) as u16 };
            made("get: 2, a gap", 2, start, message(start, number, filter))
        }
        10 => {
            let last = entries.last().map_or(0, |entry| entry.0);
            let start = if random.coin() {
                last.checked_add(1)?
            } else {
                random.between(usize::from(last) + 1, 65536).try_into().ok()?
            };
            let number = random.pick(&[1, some_number, 0xFFFF]);
            made("get: 2, behind the last", 2, start, message(start, number, filter))
        }
        11 if sub != 7 => made("get: 2, start 0, number 1", 2, 0, message(0, 1, filter)),
        12 | 13 if sub == 5 && filter != 0 => {
            let hidden = |id: u16| !entries.iter().any(|entry| entry.0 == id);
            let all = present(server, sub, 0);
            let first =
                (0..all.len()).map(|at| (at + random.below(all.len())) % all.len()).find(|at| hidden(all[*at].0))?;
            let mut last = first;
            while last + 1 < all.len() && hidden(all[last + 1].0) && !random.one_in(3) {
                last += 1;
            }
            let (start, number) = range(random, &all, first, last, 0)?;
            made("get value: 2, nothing passes the filter", 2, start, message(start, number, filter))
        }
        14 | 25 if sub == 7 => {
            made("get parameters: 2, start 0", 2, 0, message(0, random.pick(&[1, 255, some_number, 0xFFFF]), filter))
        }
        15 => {
            let code = match entries.last() {
                Some((65535, _)) => 0,
                _ => 2,
            };
            made("get: start FFFF, number FFFF", code, 65535, message(65535, 65535, filter))
        }
        _ if entries.is_empty() => None,
        16 => {
            let first = random.below(entries.len());
            let fits = entries[first..].iter().map(|entry| entry.1).sum::<usize>() <= 248;
            let start = entries[first].0;
            let number =
                random.between(65536 - usize::from(start), 65535).max(65537 - usize::from(start)).try_into().ok()?;
            if fits {
                made("get: range beyond 65535", 0, start, message(start, number, filter))
            } else {
                None
            }
        }
        17 | 22 => {
            let (first, last) = run_of(random, &entries, |sum| sum == 248)?;
            let (start, number) = range(random, &entries, first, last, lowest)?;
            made("get: answered, exactly 254 bytes", 0, start, message(start, number, filter))
        }
        18 | 23 => {
            let (first, last) = run_of(random, &entries, |sum| sum == 249)?;
            let (start, number) = range(random, &entries, first, last, lowest)?;
            made("get: 3, exactly 255 bytes", 3, entries[last].0, message(start, number, filter))
        }
        19 | 24 => {
            let (first, over) = run_of(random, &entries, |sum| sum > 248)?;
            let last = if random.coin() { over } else { random.between(over, entries.len() - 1) };
            let (start, number) = range(random, &entries, first, last, lowest)?;
            made("get: 3, more", 3, entries[over].0, message(start, number, filter))
        }
        20 => {
            // as many entries of one size as fit: 49 of 5 bytes, 124 of 2 bytes, 248 of 1 byte
            let size = entries[0].1;
            let count = 248 / size;
            if entries.len() < count || entries.iter().any(|entry| entry.1 != size) || ![5, 2, 1].contains(&size) {
                return None;
            }
            let first = random.between(0, entries.len() - count);
            let (start, number) = range(random, &entries, first, first + count - 1, lowest)?;
            made("get: answered, exactly 49, 124 or 248 entries of one size", 0, start, message(start, number, filter))
        }
        21 => {
            let all: usize = entries.iter().map(|entry| entry.1).sum();
            if all > 248 {
                return None;
            }
            made("get: answered, the whole table", 0, lowest, message(lowest, 65535, filter))
                .filter(|_| lowest == 1 || entries[entries.len() - 1].0 < 65535)
        }
        _ => {
            let first = random.below(entries.len());
            let mut last = first;
            let mut sum = entries[first].1;
            let most = random.below(30);
            while last + 1 < entries.len() && last - first < most && sum + entries[last + 1].1 <= 248 {
                last += 1;
                sum += entries[last].1;
            }
            let (start, number) = range(random, &entries, first, last, lowest)?;
            made("get: answered", 0, start, message(start, number, filter))
        }
    }
}

/// Description strings by what the lists have; by their number where all are empty, or of 30 bytes.
fn get_strings(random: &mut Random, server: &Server) -> Option<Request> {
    let texts = texts(server);
    let message = |start: u16, number: u16| head(4, start, number);
    let run = |random: &mut Random, size: usize, count: usize| {
        let from: Vec<usize> = (0..(texts.len() + 1).saturating_sub(count))
            .filter(|at| texts[*at..*at + count].iter().all(|text| text.size() == size))
            .collect();
        let first = *from.get(random.below(from.len().max(1)))?;
        let entries: Vec<(u16, usize)> = texts.iter().map(|text| (text.id, 2 + text.size())).collect();
        Some((range(random, &entries, first, first + count - 1, 0)?, entries[first + count - 1].0))
    };
    let one = |random: &mut Random, aim: &'static str, fits: fn(&Texts) -> bool| {
        let all: Vec<u16> = texts.iter().filter(|text| fits(text)).map(|text| text.id).collect();
        let start = *all.get(random.below(all.len().max(1)))?;
        made(aim, 0, start, message(start, 1))
    };
    // an ID of a list that no datapoint has
    let beside = |random: &mut Random| {
        let list = if random.coin() { &server.site_texts } else { &server.default_texts };
        let ids: Vec<u16> =
            texts_by_id(list).into_keys().filter(|id| found(&server.datapoints, *id).is_none()).collect();
        ids.get(random.below(ids.len().max(1))).copied()
    };
    match random.below(16) {
        0 | 14 => {
            let ((start, number), _) = run(random, 0, 124)?;
            made("get strings: answered, 124 empty ones", 0, start, message(start, number))
        }
        1 | 15 => {
            let ((start, number), last) = run(random, 0, 125)?;
            made("get strings: 3, the 125th of empty ones", 3, last, message(start, number))
        }
        2 => {
            let ((start, number), _) = run(random, 30, 7)?;
            made("get strings: answered, 7 texts of 30 bytes", 0, start, message(start, number))
        }
        3 => {
            let ((start, number), last) = run(random, 30, 8)?;
            made("get strings: 3, the 8th text of 30 bytes", 3, last, message(start, number))
        }
        4 => {
            let start = beside(random)?;
            made("get strings: 2, an ID that a list has and no datapoint", 2, start, message(start, 1))
        }
        5 => {
            let start = beside(random)?;
            let next = texts.iter().find(|text| text.id > start)?.id;
            let number = (next - start).checked_add(1)?;
            let aim = "get strings: answered, from an ID on that a list has and no datapoint";
            made(aim, 0, start, message(start, number))
        }
        6 => one(random, "get strings: answered, one that only the site's list has", |text| {
            text.site.is_some_and(|size| size > 0) && text.default.is_none()
        }),
        7 => one(random, "get strings: answered, one that only the default list has", |text| {
            text.site.is_none() && text.default.is_some_and(|size| size > 0)
        }),
        8 | 9 => one(random, "get strings: answered, one that both lists have", |text| {
            text.site.is_some_and(|size| size > 0) && text.default.is_some_and(|size| size > 0)
        }),
        10 | 11 => one(random, "get strings: answered, an empty site's entry over a default text", |text| {
            text.site == Some(0) && text.default.is_some_and(|size| size > 0)
        }),
        _ => one(random, "get strings: answered, one that neither list has", |text| {
            text.site.is_none() && text.default.is_none()
        }),
    }
}

// ------------------------------------------------------------------------------------------------------------ the sets

/// A set request of items (sub 02) or datapoints (06) in the making. An item's entry has no command.
pub struct Set {
    pub sub: u8,
    pub start: u16,
    pub entries: Vec<Entry>,
}

#[derive(Clone)]
pub struct Entry {
    pub id: u16,
    pub command: u8,
    pub value: Vec<u8>,
}

impl Set {
    pub fn size_of(&self, entry: &Entry) -> usize {
        entry.value.len() + if self.sub == 6 { 4 } else { 3 }
    }

    pub fn size(&self) -> usize {
        6 + self.entries.iter().map(|entry| self.size_of(entry)).sum::<usize>()
    }

    pub fn message(&self) -> Vec<u8> {
        let mut message = head(self.sub, self.start, self.entries.len() as u16);
        for entry in &self.entries {
            message.extend_from_slice(&entry.id.to_be_bytes());
            if self.sub == 6 {
                message.push(entry.command);
            }
            message.push(entry.value.len() as u8);
            message.extend_from_slice(&entry.value);
        }
        message
    }

    fn with_number(&self, number: u16) -> Vec<u8> {
        let mut message = self.message();
        message[4..6].copy_from_slice(&number.to_be_bytes());
        message
    }

    /// The whole request, if it is no longer than a message can be.
    fn made(self, aim: &'static str, code: u8, id: u16) -> Option<Request> {
        if self.size() > 254 {
            return None;
        }
        made(aim, code, id, self.message())
    }

    /// The request in which one good entry is made bad: the first, or a later one.
    fn spoiled(
        mut self,
        random: &mut Random,
        aims: (&'static str, &'static str),
        code: u8,
        bad: Entry,
    ) -> Option<Request> {
        let at = random.below(self.entries.len());
        let id = bad.id;
        self.entries[at] = bad;
        self.made(if at == 0 { aims.0 } else { aims.1 }, code, id)
    }

    /// Good entries up to exactly 254 bytes.
    fn filled(self, random: &mut Random, good: impl Fn(&mut Random) -> Option<Entry>) -> Option<Request> {
        let start = self.start;
        self.grown(random, 254, good)?.made("set: answered, 254 bytes", 0, start)
    }

    /// The request with such entries behind its own, up to exactly so many bytes.
    pub fn grown(
        mut self,
        random: &mut Random,
        bytes: usize,
        good: impl Fn(&mut Random) -> Option<Entry>,
    ) -> Option<Set> {
        for _ in 0..2 * bytes {
            let room = bytes.checked_sub(self.size())?;
            if room == 0 {
                return Some(self);
            }
            let entry = good(random)?;
            if self.size_of(&entry) <= room {
                self.entries.push(entry);
            } else if random.one_in(20) {
                self.entries.pop();
            }
        }
        None
    }

    /// Sizes and numbers that do not meet.
    fn sized_wrong(mut self, random: &mut Random) -> Option<Request> {
        let (start, count) = (self.start, self.entries.len() as u16);
        if self.size() > 253 {
            return None;
        }
        match random.below(9) {
            0 => {
                let mut message = self.message();
                let more = random.edgy(1, 254 - message.len());
                message.extend(random.bytes(more));
                made("set: 10, a byte too many", 10, start, message)
            }
            1 => {
                let mut message = self.message();
                message.truncate(random.between(7, message.len() - 1));
                made("set: 10, a byte missing", 10, start, message)
            }
            2 => made("set: 10, number one too high", 10, start, self.with_number(count + 1)),
            3 => made("set: 10, number one too low", 10, start, self.with_number(count - 1)).filter(|_| count > 1),
            4 => made("set: 10, number FFFF", 10, start, self.with_number(0xFFFF)),
            5 => {
                self.entries.clear();
                made("set: 10, no entry, number 1 or more", 10, start, self.with_number(random.pick(&[1, 2, 0xFFFF])))
            }
            6 => {
                let mut message = self.message();
                let last = self.entries[self.entries.len() - 1].value.len();
                let at = message.len() - 1 - last;
                message[at] = random.between(last + 1, 255) as u8;
                made("set: 10, the last length too high", 10, start, message)
            }
            7 => made("set: 10 before 6", 10, start, self.with_number(0)),
            _ => {
                // any of the entries would be bad
                for entry in &mut self.entries {
                    entry.command = 0xFF;
                    entry.id = 0;
                }
                made("set: 10 before 7 and on", 10, start, self.with_number(count + 1))
            }
        }
    }
}

/// Some good entries, with room for one more.
fn some_good(random: &mut Random, sub: u8, good: impl Fn(&mut Random) -> Option<Entry>) -> Option<Set> {
    let mut set = Set { sub, start: if random.coin() { 1 } else { random.number() }, entries: Vec::new() };
    let most = random.pick(&[1, 2, 4, 12]);
    let count = random.between(1, most);
    while set.entries.len() < count && set.size() < 200 {
        set.entries.push(good(random)?);
    }
    Some(set)
}

fn set_items(random: &mut Random, server: &Server) -> Option<Request> {
    let writable: Vec<usize> = (0..server.items.len()).filter(|at| server.items[*at].writable == 1).collect();
    let fixed: Vec<usize> = (0..server.items.len()).filter(|at| server.items[*at].writable == 0).collect();
    if random.one_in(12) {
        let start = random.number();
        return made("set: 6, number 0", 6, start, head(2, start, 0));
    }
    let one_of = |random: &mut Random, among: &[usize]| {
        let item = &server.items[random.pick(among)];
        Entry { id: item.id, command: 0, value: random.bytes(usize::from(item.size)) }
    };
    let good = |random: &mut Random| if writable.is_empty() { None } else { Some(one_of(random, &writable)) };
    let set = some_good(random, 2, good)?;
    let start = set.start;
    let mut bad = good(random)?;
    let aimed = random.below(20);
    match aimed {
        0..=3 => return set.sized_wrong(random),
        4 => return Set { sub: 2, start, entries: Vec::new() }.filled(random, good),
        5 => {
            let mut set = set;
            let again = Entry { value: random.bytes(set.entries[0].value.len()), ..set.entries[0].clone() };
            set.entries.push(again);
            return set.made("set: answered, an ID twice", 0, start);
        }
        6 | 7 => {
            bad.id = absent_item(random, &server.items)?;
            let length = random.below(17);
            bad.value = random.bytes(length);
            return set.spoiled(random, ("set: 7, the first entry", "set: 7, a later entry"), 7, bad);
        }
        8 => {
            bad.id = 0;
            return set.spoiled(random, ("set: 7, ID 0", "set: 7, ID 0"), 7, bad);
        }
        9 | 10 if !fixed.is_empty() => {
            bad = one_of(random, &fixed);
            return set.spoiled(random, ("set item: 4, the first entry", "set item: 4, a later entry"), 4, bad);
        }
        11 if !fixed.is_empty() => {
            bad = one_of(random, &fixed);
            bad.value.push(random.byte());
            return set.spoiled(random, ("set item: 4 before 9", "set item: 4 before 9"), 4, bad);
        }
        12 if bad.value.len() > 1 => {
            bad.value.truncate(random.between(1, bad.value.len() - 1));
            return set.spoiled(random, ("set item: 9, length below", "set item: 9, length below"), 9, bad);
        }
        13 => {
            let more = random.pick(&[1, 1, 2, 16]);
            bad.value.extend(random.bytes(more));
            return set.spoiled(random, ("set item: 9, length above", "set item: 9, length above"), 9, bad);
        }
        14 => {
            bad.value.clear();
            return set.spoiled(random, ("set item: 9, length 0", "set item: 9, length 0"), 9, bad);
        }
        15 => {
            // the second one is longer
            let mut set = set;
            bad = set.entries[0].clone();
            bad.value.push(random.byte());
            let id = bad.id;
            set.entries.push(bad);
            return set.made("set: an ID twice, the second one bad", 9, id);
        }
        16 => {
            let mut set = set;
            bad.value.clear();
            let id = bad.id;
            set.entries.push(bad);
            set.entries.push(Entry { id: 0, command: 0, value: Vec::new() });
            return set.made("set: two bad entries, the first decides", 9, id);
        }
        _ => {}
    }
    let aim = if set.entries.len() == 1 { "set: answered, one entry" } else { "set: answered, several entries" };
    set.made(aim, 0, start)
}

fn set_values(random: &mut Random, server: &Server) -> Option<Request> {
    let datapoints = &server.datapoints;
    if random.one_in(20) {
        let start = random.number();
        return made("set: 6, number 0", 6, start, head(6, start, 0));
    }
    if datapoints.is_empty() {
        let id = random.number();
        let set = Set { sub: 6, start: id, entries: vec![Entry { id, command: random.byte(), value: Vec::new() }] };
        return set.made("set: 7, the first entry", 7, id);
    }
    // by command, the datapoints that take it
    let takers: Vec<Vec<&Datapoint>> =
        (0..5).map(|command| datapoints.iter().filter(|datapoint| takes(datapoint.flags, command)).collect()).collect();
    let taken = |random: &mut Random| {
        let any = random.below(5);
        let command = if takers[any].is_empty() { random.below(2) } else { any };
        (random.pick(&takers[command]), command as u8)
    };
    let good = |random: &mut Random| {
        let (datapoint, command) = taken(random);
        let empty = command != 1 && command != 3 && random.coin();
        let value = if empty { Vec::new() } else { value(random, datapoint.typecode) };
        Some(Entry { id: datapoint.id, command, value })
    };
    let mut set = some_good(random, 6, good)?;
    let start = set.start;
    let (datapoint, command) = taken(random);
    let size = SIZES[usize::from(datapoint.typecode)];
    let unused = !used_bits(datapoint.typecode);
    let mut bad = Entry { id: datapoint.id, command, value: value(random, datapoint.typecode) };
    match random.below(36) {
        0..=3 => return set.sized_wrong(random),
        4 => return Set { sub: 6, start, entries: Vec::new() }.filled(random, good),
        5 | 6 => {
            let first = found(datapoints, set.entries[0].id)?;
            let commands: Vec<u8> = (0..5).filter(|command| takes(first.flags, *command)).collect();
            let command = random.pick(&commands);
            set.entries.push(Entry { id: first.id, command, value: value(random, first.typecode) });
            return set.made("set: answered, an ID twice", 0, start);
        }
        7 | 8 => {
            bad.id = absent_datapoint(random, datapoints)?;
            bad.command = random.byte();
            return set.spoiled(random, ("set: 7, the first entry", "set: 7, a later entry"), 7, bad);
        }
        9 => {
            bad.id = 0;
            return set.spoiled(random, ("set: 7, ID 0", "set: 7, ID 0"), 7, bad);
        }
        10 => {
            bad.command = random.between(6, 15) as u8;
            return set.spoiled(random, ("set value: 8, command 6 to 15", "set value: 8, command 6 to 15"), 8, bad);
        }
        11 => {
            bad.command |= (random.between(1, 15) << 4) as u8;
            return set.spoiled(random, ("set value: 8, reserved bits", "set value: 8, reserved bits"), 8, bad);
        }
        12 => {
            bad.command = random.between(6, 255) as u8;
            bad.value.push(random.byte());
            return set.spoiled(random, ("set value: 8 (command) before 9", "set value: 8 (command) before 9"), 8, bad);
        }
        13 if size > 1 => {
            bad.value.truncate(random.between(1, size - 1));
            return set.spoiled(random, ("set value: 9, length below", "set value: 9, length below"), 9, bad);
        }
        14 | 15 => {
            let more = random.pick(&[1, 1, 2, 14]);
            bad.value.extend(random.bytes(more));
            return set.spoiled(random, ("set value: 9, length above", "set value: 9, length above"), 9, bad);
        }
        16 => {
            bad.value.clear();
            bad.command = if takes(datapoint.flags, 3) && random.coin() { 3 } else { 1 };
            let aim = if bad.command == 1 {
                "set value: 9, no value with command 1"
            } else {
                "set value: 9, no value with command 3"
            };
            return set.spoiled(random, (aim, aim), 9, bad);
        }
        17 if unused != 0 => {
            bad.value = vec![0xFF, random.byte()];
            return set.spoiled(
                random,
                ("set value: 9 before 8 (unused bits)", "set value: 9 before 8 (unused bits)"),
                9,
                bad,
            );
        }
        18 | 19 if unused != 0 => {
            let bits = random.byte() & unused;
            bad.value[0] |= if bits == 0 || random.coin() { unused & unused.wrapping_neg() } else { bits };
            return set.spoiled(
                random,
                ("set value: 8, unused bits, the first entry", "set value: 8, unused bits, a later entry"),
                8,
                bad,
            );
        }
        20 => {
            bad = set.entries[0].clone();
            bad.command = 6;
            let id = bad.id;
            set.entries.push(bad);
            return set.made("set: an ID twice, the second one bad", 8, id);
        }
        21 => {
            bad.command = random.between(6, 255) as u8;
            let id = bad.id;
            set.entries.push(bad);
            set.entries.push(Entry { id: 0, command: 1, value: Vec::new() });
            return set.made("set: two bad entries, the first decides", 8, id);
        }
        22..=25 => return retired(random, datapoints, set, bad),
        26..=31 => return bits_off(random, datapoints, set),
        _ => {}
    }
    let aim = if set.entries.len() == 1 { "set: answered, one entry" } else { "set: answered, several entries" };
    set.made(aim, 0, start)
}

/// Command 5 among other entries, with a value or without.
fn retired(random: &mut Random, datapoints: &[Datapoint], mut set: Set, mut bad: Entry) -> Option<Request> {
    let (id, size) = (bad.id, bad.value.len());
    bad.command = 5;
    if random.coin() {
        bad.value.clear();
    }
    match random.below(4) {
        0 => {
            set.entries.insert(0, bad);
            set.made("set value: 8, command 5 first", 8, id)
        }
        1 => {
            set.entries.push(bad);
            set.made("set value: 8, command 5 last", 8, id)
        }
        2 => {
            let absent = absent_datapoint(random, datapoints)?;
            let command = random.below(6) as u8;
            set.entries.push(Entry { id: absent, command, value: Vec::new() });
            set.entries.push(bad);
            set.made("set value: 7, command 5 behind an absent ID", 7, absent)
        }
        _ => {
            let length = random.between(1, 16);
            bad.value = random.bytes(if length == size { 17 } else { length });
            let aim = "set value: 8, command 5 with a bad length";
            set.spoiled(random, (aim, aim), 8, bad)
        }
    }
}

/// A command whose needed config flags are off, among other entries; and those that need none.
fn bits_off(random: &mut Random, datapoints: &[Datapoint], mut set: Set) -> Option<Request> {
    let command = random.between(2, 4) as u8;
    let off: Vec<&Datapoint> = datapoints.iter().filter(|datapoint| !takes(datapoint.flags, command)).collect();
    if off.is_empty() {
        return None;
    }
    let Datapoint { id, typecode, .. } = *random.pick(&off);
    let with = |command: u8, value: Vec<u8>| Entry { id, command, value };
    let some = value(random, typecode);
    let mut bad = with(command, some.clone());
    if command != 3 && random.coin() {
        bad.value.clear();
    }
    match random.below(9) {
        0 | 1 => {
            let aims = ("set value: 8, bits off, the first entry", "set value: 8, bits off, a later entry");
            set.spoiled(random, aims, 8, bad)
        }
        2 => {
            let length = random.between(1, 16);
            bad.value = random.bytes(if length == some.len() { 17 } else { length });
            let aim = "set value: 8, bits off, a bad length";
            set.spoiled(random, (aim, aim), 8, bad)
        }
        3 => {
            let aim = "set value: 8, bits off, no value with command 3";
            set.spoiled(random, (aim, aim), 8, with(3, Vec::new()))
        }
        4 => {
            set.entries.push(bad);
            set.entries.push(Entry { id: absent_datapoint(random, datapoints)?, command, value: Vec::new() });
            set.made("set value: 8, bits off, an absent ID behind it", 8, id)
        }
        5 => {
            set.entries.insert(0, with(1, some));
            set.entries.push(bad);
            set.made("set value: 8, bits off, the same ID taken before", 8, id)
        }
        6 => {
            let absent = absent_datapoint(random, datapoints)?;
            let behind = random.coin();
            set.entries.push(Entry { id: absent, command, value: some });
            if behind {
                set.entries.push(bad);
            }
            let aim = if behind {
                "set value: 7, bits off behind an absent ID"
            } else {
                "set value: 7, a command that needs bits"
            };
            set.made(aim, 7, absent)
        }
        7 => {
            set.entries.push(with(1, vec![0; some.len() + 1]));
            set.entries.push(bad);
            set.made("set value: 9, bits off behind a bad length", 9, id)
        }
        _ => {
            let closed: Vec<&Datapoint> = datapoints.iter().filter(|datapoint| datapoint.flags & 0x04 == 0).collect();
            if closed.is_empty() {
                return None;
            }
            let start = set.start;
            set.entries = (0..random.between(1, 5))
                .map(|_| {
                    let datapoint = random.pick(&closed);
                    Entry { id: datapoint.id, command: random.bit(), value: value(random, datapoint.typecode) }
                })
                .collect();
            set.made("set value: answered, commands 0 and 1 at closed ones", 0, start)
        }
    }
}

/// A range of parameter bytes, of the table or not wholly; with as many bytes as its number says, or not.
fn set_parameters(random: &mut Random, server: &Server) -> Option<Request> {
    let count = server.parameters.len();
    // a range of the table, where that is not empty, with room for a byte more
    let start = random.edgy(1, count.max(1));
    let left = (count + 1).saturating_sub(start);
    let number = random.edgy(1, left.clamp(1, 247));
    let behind = random.between(count + 2, 65535);
    let any = random.edgy(1, 248);
    let (aim, code, id, (start, number, bytes)) = match random.below(33) {
        0 => ("set parameters: 10, one byte too many", 10, start, (start, number, number + 1)),
        1 => ("set parameters: 10, one byte missing", 10, start, (start, number, number - 1)),
        2 => {
            let bytes = random.between(number + 1, 248);
            ("set parameters: 10, some bytes too many", 10, start, (start, number, bytes))
        }
        3 => ("set parameters: 10, no byte, number 1 or more", 10, start, (start, any, 0)),
        4 => ("set parameters: 10, number 256 too high", 10, start, (start, number + 256, number)),
        5 => ("set parameters: 10, start FFFF, number FFFF", 10, 65535, (65535, 65535, any)),
        6 => ("set parameters: 10 before 6", 10, start, (start, 0, any)),
        7 => {
            let outside = random.pick(&[0, count + 1, behind, 65535]);
            ("set parameters: 10 before 7", 10, outside, (outside, number, number + 1))
        }
        8 => ("set parameters: 6, number 0", 6, start, (start, 0, 0)),
        9 => ("set parameters: 6, start 0 and number 0", 6, 0, (0, 0, 0)),
        10 => ("set parameters: 6 before 7", 6, behind, (behind, 0, 0)),
        11 => ("set parameters: 7, start 0, one byte", 7, 0, (0, 1, 1)),
        12 => {
            let several = random.edgy(2, 248);
            ("set parameters: 7, start 0, several bytes", 7, 0, (0, several, several))
        }
        13 => ("set parameters: 7, start right behind the table", 7, count + 1, (count + 1, any, any)),
        14 => ("set parameters: 7, start further behind it", 7, behind, (behind, any, any)),
        15 => ("set parameters: 7, start 256 too high", 7, start + 256, (start + 256, number, number)),
        16 => ("set parameters: 7, start FFFF", 7, 65535, (65535, any, any)),
        _ if left == 0 => return None,
        17 | 18 if left < 248 => {
            ("set parameters: 7, one byte behind the end", 7, count + 1, (start, left + 1, left + 1))
        }
        19 if left < 247 => {
            let over = random.edgy(left + 2, 248);
            ("set parameters: 7, several bytes behind the end", 7, count + 1, (start, over, over))
        }
        20 | 21 if count > 246 => {
            let aim = "set parameters: 7, 254 bytes, the last one behind the end";
            (aim, 7, count + 1, (count - 246, 248, 248))
        }
        22 => ("set parameters: answered, the first index", 0, 1, (1, 1, 1)),
        23 => ("set parameters: answered, the last index", 0, count, (count, 1, 1)),
        24 | 25 if left < 249 => ("set parameters: answered, up to the end", 0, start, (start, left, left)),
        26 if count < 249 => ("set parameters: answered, the whole table", 0, 1, (1, count, count)),
        27 | 28 if count > 247 => {
            let start = random.edgy(1, count - 247);
            ("set parameters: answered, 254 bytes", 0, start, (start, 248, 248))
        }
        29 => ("set parameters: answered, one byte", 0, start, (start, 1, 1)),
        _ if left > 1 => {
            let several = random.between(2, left.min(248));
            ("set parameters: answered, several bytes", 0, start, (start, several, several))
        }
        _ => return None,
    };
    let mut message = head(8, start as u16, number as u16);
    message.extend(random.bytes(bytes));
    made(aim, code, id as u16, message)
}
