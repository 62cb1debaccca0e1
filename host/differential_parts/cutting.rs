//! Set requests of items and datapoints: cut between two entries, longer than a frame, and two in both orders. Each
//! goes through the call as a frame, and its answer is acknowledged; before each try the tables are put back. Which
//! entries are good is judged here too: requests with a bad one are cut as well, and good ones at other places.

use crate::bench::Bench;
use crate::plain::{carry_out, Datapoint, Server};
use crate::random::Random;
use crate::requests::{head, Entry, Set};
use crate::tables::{absent_datapoint, absent_item, found, takes, used_bits, value, SIZES};
use crate::{frames, seen};
use std::collections::{BTreeMap, BTreeSet};

pub fn lists() -> Vec<(&'static str, Vec<&'static str>)> {
    vec![
        ("requests cut", CUT.to_vec()),
        ("requests cut, by what the parts do", PARTS.to_vec()),
        ("requests cut, refused ones", REFUSED.to_vec()),
        ("requests cut elsewhere", ELSEWHERE.to_vec()),
        ("requests longer than a frame", LONG.to_vec()),
        ("requests in both orders", PAIRS.to_vec()),
    ]
}

const CUT: [&str; 16] = [
    "items",
    "datapoints",
    "2 entries",
    "3 to 9 entries",
    "10 entries or more",
    "254 bytes",
    "no ID twice",
    "an ID twice",
    "an ID three times or more",
    "one ID alone",
    "a closed datapoint, command 0",
    "a closed datapoint, command 1",
    "an open datapoint that does not transmit, command 4",
    "start is the first entry's",
    "start is another",
    "the tables are left as they were",
];

const PARTS: [&str; 9] = [
    "no ID in both",
    "an ID in both",
    "both change the tables",
    "the first alone changes the tables",
    "the second alone changes the tables",
    "neither changes the tables",
    "the other way round they would leave other tables",
    "the second by itself would leave the same tables",
    "an idle mark between them",
];

const REFUSED: [&str; 10] = [
    "items: 7",
    "items: 4",
    "items: 9",
    "datapoints: 7",
    "datapoints: 8",
    "datapoints: 9",
    "the first part is accepted and changes the tables",
    "the second part is accepted and changes the tables",
    "both parts are refused, alike",
    "both parts are refused, with two codes",
];

const ELSEWHERE: [&str; 14] = [
    "within an ID: 10",
    "behind an ID: 10",
    "behind a command: 10",
    "behind a length: 10",
    "within a value: 10",
    "within a value, the second part is accepted and sets another record",
    "before the first entry, number 0: 6",
    "before the first entry, number 1 or more: 10",
    "behind the last entry, number 0: 6",
    "behind the last entry, number 1 or more: 10",
    "between two entries, number 0: 10",
    "between two entries, number of the whole: 10",
    "between two entries, number one too low: 10",
    "between two entries, number one too high: 10",
];

const LONG: [&str; 14] = [
    "items, in two parts",
    "items, in more parts",
    "datapoints, in two parts",
    "datapoints, in more parts",
    "255 bytes",
    "502 bytes",
    "above 1000 bytes",
    "256 entries or more",
    "as few parts as can be",
    "each entry a part",
    "an ID in two parts",
    "an ID in three parts or more",
    "a bad entry in the first part",
    "a bad entry in a later part, behind parts that change the tables",
];

const PAIRS: [&str; 16] = [
    "items, no ID in common",
    "datapoints, no ID in common",
    "items and datapoints",
    "items and datapoints, the same ID in both",
    "no ID in common, both change the tables",
    "no ID in common, several entries in both",
    "no ID in common, an ID twice in one of them",
    "no ID in common, 254 bytes",
    "items, an ID in common, the order is seen",
    "items, an ID in common, the order is not seen",
    "datapoints, an ID in common, the order is seen",
    "datapoints, an ID in common, the order is not seen",
    "the same request twice",
    "one is refused, no ID in common",
    "one is refused, an ID in common",
    "both are refused",
];

// -------------------------------------------------------------------------------------------------------- the requests

/// The kinds of good entries that a datapoint can take: the command, and whether a value comes with it.
pub const KINDS: [(u8, bool); 8] =
    [(0, false), (0, true), (1, true), (2, false), (2, true), (3, true), (4, false), (4, true)];

/// The IDs that a request of this sub can set: of the items that are writable, or of the datapoints.
fn ids(server: &Server, sub: u8) -> Vec<u16> {
    if sub == 2 {
        server.items.iter().filter(|item| item.writable == 1).map(|item| item.id).collect()
    } else {
        server.datapoints.iter().map(|datapoint| datapoint.id).collect()
    }
}

fn kinds_of(datapoint: &Datapoint) -> Vec<(u8, bool)> {
    KINDS.into_iter().filter(|(command, _)| takes(datapoint.flags, *command)).collect()
}

fn entry_of_kind(random: &mut Random, datapoint: &Datapoint, kind: (u8, bool)) -> Entry {
    let (command, has_value) = kind;
    let value = if has_value { value(random, datapoint.typecode) } else { Vec::new() };
    Entry { id: datapoint.id, command, value }
}

/// A good entry for this ID.
fn good_entry(random: &mut Random, server: &Server, sub: u8, id: u16) -> Option<Entry> {
    if sub == 2 {
        let item = server.items.iter().find(|item| item.id == id)?;
        return Some(Entry { id, command: 0, value: random.bytes(usize::from(item.size)) });
    }
    let datapoint = found(&server.datapoints, id)?;
    let kind = random.pick(&kinds_of(datapoint));
    Some(entry_of_kind(random, datapoint, kind))
}

/// So many ways there are in which an entry is bad.
const WAYS: usize = 8;

/// An entry that is bad in this way, if the tables and the service have it.
fn bad_entry(random: &mut Random, server: &Server, sub: u8, way: usize) -> Option<Entry> {
    let ids = ids(server, sub);
    let id = *ids.get(random.below(ids.len().max(1)))?;
    let mut bad = good_entry(random, server, sub, id)?;
    match (way, sub) {
        (0, 2) => bad.id = absent_item(random, &server.items)?,
        (0, _) => bad.id = absent_datapoint(random, &server.datapoints)?,
        (1, _) => bad.id = 0,
        (2, _) => bad.value.extend(random.bytes(17)),
        (3, 2) => bad.value.truncate(random.below(bad.value.len())),
        (3, _) => bad = Entry { id, command: 1, value: Vec::new() },
        (4, 2) => {
            let item = server.items.iter().find(|item| item.writable == 0)?;
            bad = Entry { id: item.id, command: 0, value: random.bytes(usize::from(item.size)) };
        }
        (4, _) => bad.command = 5,
        (5, 6) => bad.command = random.between(6, 255) as u8,
        (6, 6) => {
            let off = |command: u8| server.datapoints.iter().find(|datapoint| !takes(datapoint.flags, command));
            let command = random.between(2, 4) as u8;
            bad = entry_of_kind(random, off(command)?, (command, true));
        }
        (7, 6) => {
            let unused = !used_bits(found(&server.datapoints, id)?.typecode);
            bad.value = vec![if unused == 0 { return None } else { random.byte() | unused }];
        }
        _ => return None,
    }
    Some(bad)
}

/// Whether the tables take the entry.
fn is_taken(server: &Server, sub: u8, entry: &Entry) -> bool {
    let length = entry.value.len();
    if sub == 2 {
        let item = server.items.iter().find(|item| item.id == entry.id);
        return item.is_some_and(|item| item.writable == 1 && usize::from(item.size) == length);
    }
    found(&server.datapoints, entry.id).is_some_and(|datapoint| {
        let unused = !used_bits(datapoint.typecode);
        let is_whole = length == SIZES[usize::from(datapoint.typecode)];
        let is_left_out = length == 0 && entry.command != 1 && entry.command != 3;
        takes(datapoint.flags, entry.command)
            && (is_whole || is_left_out)
            && !entry.value.first().is_some_and(|byte| byte & unused != 0)
    })
}

/// Where the first entry stands that is not taken.
fn first_bad(server: &Server, set: &Set) -> Option<usize> {
    set.entries.iter().position(|entry| !is_taken(server, set.sub, entry))
}

/// A start for these entries: it is echoed, and need not be the first one's.
fn some_start(random: &mut Random, entries: &[Entry]) -> u16 {
    match (random.below(4), entries.first()) {
        (0, Some(first)) => first.id,
        (1, _) => random.pick(&[0, 1, 0xFFFF]),
        _ => random.number(),
    }
}

fn set_of(random: &mut Random, sub: u8, entries: Vec<Entry>) -> Set {
    Set { sub, start: some_start(random, &entries), entries }
}

/// A good request for these IDs: so many entries, or as many of them as a frame has room for.
fn some_set(random: &mut Random, server: &Server, sub: u8, ids: &[u16], count: usize) -> Option<Set> {
    let mut set = Set { sub, start: 0, entries: Vec::new() };
    while set.entries.len() < count {
        let id = random.pick(ids);
        let entry = good_entry(random, server, sub, id)?;
        if set.size() + set.size_of(&entry) > MOST {
            break;
        }
        set.entries.push(entry);
    }
    Some(set_of(random, sub, set.entries))
}

/// A good request for these IDs, of exactly so many bytes; also of more than a frame has room for.
fn sized_set(random: &mut Random, server: &Server, sub: u8, ids: &[u16], bytes: usize) -> Option<Set> {
    let good = |random: &mut Random| {
        let id = random.pick(ids);
        good_entry(random, server, sub, id)
    };
    let set = Set { sub, start: 0, entries: Vec::new() }.grown(random, bytes, good)?;
    Some(set_of(random, sub, set.entries))
}

/// The most bytes of a message in a frame.
const MOST: usize = 254;

/// One of these IDs, a few of them, or all.
fn some_of(random: &mut Random, ids: &[u16]) -> Vec<u16> {
    match random.below(4) {
        0 => vec![random.pick(ids)],
        1 => (0..random.between(2, 4)).map(|_| random.pick(ids)).collect(),
        _ => ids.to_vec(),
    }
}

/// Puts a bad entry in the place of one, if there is such a one.
fn spoil(random: &mut Random, server: &Server, set: &mut Set) {
    let (at, way) = (random.below(set.entries.len()), random.below(WAYS));
    if let Some(bad) = bad_entry(random, server, set.sub, way) {
        set.entries[at] = bad;
    }
}

/// These entries of the request, as a request of their own.
fn part(set: &Set, entries: &[Entry], start: u16) -> Vec<u8> {
    Set { sub: set.sub, start, entries: entries.to_vec() }.message()
}

/// Whether these entries fit in a frame.
fn fits(set: &Set, entries: &[Entry]) -> bool {
    6 + entries.iter().map(|entry| set.size_of(entry)).sum::<usize>() <= MOST
}

fn has_id(entries: &[Entry], id: u16) -> bool {
    entries.iter().any(|entry| entry.id == id)
}

fn share_an_id(one: &[Entry], other: &[Entry]) -> bool {
    one.iter().any(|entry| has_id(other, entry.id))
}

/// How often the ID stands there that does so most often.
fn most_often(entries: &[Entry]) -> usize {
    let often = |id: u16| entries.iter().filter(|entry| entry.id == id).count();
    entries.iter().map(|entry| often(entry.id)).max().unwrap_or(0)
}

// --------------------------------------------------------------------------------------------------------- carried out

/// Code and ID of an answer. Code 0 is the positive one, with the start for its ID.
type Coded = (u8, u16);

/// The line falls silent, and what is outstanding is acknowledged.
fn at_rest(bench: &mut Bench) -> Server {
    if bench.server.link.received != 0 || bench.server.link.dropping != 0 {
        bench.idle_mark();
    }
    if bench.server.link.held != 0 {
        bench.byte(0xE5);
    }
    bench.server.clone()
}

/// The tables as they were before, and a link at a frame start with nothing outstanding, under any bits.
fn put_back(bench: &mut Bench, before: &Server) {
    bench.server = before.clone();
    bench.server.link = frames::fresh();
    bench.server.link.expected = bench.random.bit();
    bench.server.link.send = bench.random.bit();
    bench.lend();
}

/// The message comes in a frame with the expected bit, mostly all but its last byte at once. The answer is
/// acknowledged.
fn ask(bench: &mut Bench, message: &[u8]) -> Coded {
    let send = bench.server.link.send;
    let frame = frames::data(frames::host_control(bench.server.link.expected), message);
    let at = if bench.random.one_in(100) { 0 } else { frame.len() - bench.random.pick(&[1, 1, 1, 1, 1, 1, 1, 2]) };
    frames::set_receiver(&mut bench.server.link, &frame[..at]);
    bench.lend_link();
    let mut sent = Vec::new();
    for byte in &frame[at..] {
        sent = bench.byte(*byte);
    }
    let coded = match sent[..] {
        [_, _, _, _, _, _, _, _, high, low, _, _, code, _, _] => (code, u16::from_be_bytes([high, low])),
        _ => bench.missed("a set request has an answer of seven bytes", &Ok(sent)),
    };
    let answer = frames::data(frames::server_control(send), &answer_of(message[1], coded));
    if sent != [&[0xE5], &answer[..]].concat() {
        bench.missed("E5, and F0, sub + 80, an ID, 00 00 and a code in a frame", &Ok(sent));
    }
    bench.byte(0xE5);
    coded
}

/// F0, sub + 80, an ID, 00 00, code.
fn answer_of(sub: u8, coded: Coded) -> Vec<u8> {
    let (code, id) = coded;
    let mut answer = head(sub + 0x80, id, 0);
    answer.push(code);
    answer
}

/// What the plain server leaves that these messages are handed to, of any length; and what it answers the last.
fn plainly(before: &Server, messages: &[&[u8]]) -> (Server, Option<Vec<u8>>) {
    let mut server = before.clone();
    let mut answer = None;
    for message in messages {
        answer = carry_out(&mut server, message);
    }
    (server, answer)
}

fn same_tables(one: &Server, other: &Server) -> bool {
    one.datapoints == other.datapoints
        && one.items == other.items
        && one.parameters == other.parameters
        && one.site_texts == other.site_texts
        && one.default_texts == other.default_texts
}

/// Each request with its answer, and the records that are not as they should be.
fn told(requests: &[(&[u8], Coded)], wanted: &Server, left: &Server) -> Vec<String> {
    let asked = |(message, (code, id)): &(&[u8], Coded)| format!("code {code}, ID {id} for {message:02X?}");
    let mut lines: Vec<String> = requests.iter().map(asked).collect();
    for (wanted, left) in wanted.datapoints.iter().zip(&left.datapoints).filter(|(wanted, left)| wanted != left) {
        lines.push(format!("{left:02X?}, and not {wanted:02X?}"));
    }
    for (wanted, left) in wanted.items.iter().zip(&left.items).filter(|(wanted, left)| wanted != left) {
        lines.push(format!("{left:02X?}, and not {wanted:02X?}"));
    }
    lines
}

// ------------------------------------------------------------------------------------------------------------ the cuts

/// A request, and what came of it when it was sent as a whole.
struct Whole<'a> {
    before: &'a Server,
    set: &'a Set,
    message: Vec<u8>,
    /// Where its first bad entry stands.
    bad: Option<usize>,
    answer: Coded,
    left: Server,
}

/// The request as a whole. It is accepted where each entry is taken, and else sets nothing.
fn whole<'a>(bench: &mut Bench, before: &'a Server, set: &'a Set) -> Whole<'a> {
    let (message, bad) = (set.message(), first_bad(before, set));
    put_back(bench, before);
    let answer = ask(bench, &message);
    let left = bench.server.clone();
    let (aim, holds) = match bad {
        None => ("good entries alone: accepted", answer == (0, set.start)),
        Some(at) => {
            let is_refused = answer.0 != 0 && answer.1 == set.entries[at].id;
            ("the first bad entry decides, and nothing is set", is_refused && same_tables(before, &left))
        }
    };
    if !holds {
        bench.misleft(aim, &told(&[(&message, answer)], before, &left));
    }
    Whole { before, set, message, bad, answer, left }
}

/// The request as a whole, and then cut at every boundary.
fn cut(bench: &mut Bench, before: &Server, set: &Set) {
    let whole = whole(bench, before, set);
    for at in 1..set.entries.len() {
        cut_before(bench, &whole, at);
    }
    bench.cuts += 1;
    count_cut(bench, &whole);
}

/// "if a request is accepted, then its two non-empty parts, each with its own start and number, are accepted one after
/// the other with nothing between, and leave the same tables" (02, item 11). And if both parts are accepted the request
/// is: one that is refused has a bad entry, and the part that holds its first one is answered as the whole.
fn cut_before(bench: &mut Bench, whole: &Whole, at: usize) {
    let Whole { before, set, .. } = *whole;
    let (head, tail) = set.entries.split_at(at);
    let starts = (some_start(&mut bench.random, head), some_start(&mut bench.random, tail));
    let parts = (part(set, head, starts.0), part(set, tail, starts.1));
    put_back(bench, before);
    let first = ask(bench, &parts.0);
    let between = bench.server.clone();
    let is_silent = bench.random.one_in(8);
    if is_silent {
        bench.idle_mark();
    }
    let second = ask(bench, &parts.1);
    let is_accepted = (first == (0, starts.0), second == (0, starts.1));
    let (aim, holds) = match whole.bad {
        None => {
            let is_same = same_tables(&bench.server, &whole.left);
            ("both parts are accepted and leave the same tables", is_accepted == (true, true) && is_same)
        }
        Some(bad) if bad < at => {
            let is_good = tail.iter().all(|entry| is_taken(before, set.sub, entry));
            let is_so = first == whole.answer && same_tables(&between, before) && is_accepted.1 == is_good;
            ("the first part is answered as the whole and sets nothing", is_so)
        }
        Some(_) => {
            let is_so = is_accepted.0 && second == whole.answer && same_tables(&bench.server, &between);
            ("the first part is accepted, the second is answered as the whole and sets nothing", is_so)
        }
    };
    if !holds {
        let requests = [(&whole.message[..], whole.answer), (&parts.0[..], first), (&parts.1[..], second)];
        bench.misleft(&format!("cut before entry {at}: {aim}"), &told(&requests, &whole.left, &bench.server));
    }
    let changes = (!same_tables(before, &between), !same_tables(&between, &bench.server));
    if whole.bad.is_some() {
        let are_refused = !is_accepted.0 && !is_accepted.1;
        seen::hit_of(
            &mut bench.counts,
            "requests cut, refused ones",
            &[
                ("the first part is accepted and changes the tables", changes.0),
                ("the second part is accepted and changes the tables", changes.1),
                ("both parts are refused, alike", are_refused && first.0 == second.0),
                ("both parts are refused, with two codes", are_refused && first.0 != second.0),
            ],
        );
        return;
    }
    let (turned, _) = plainly(before, &[&parts.1, &parts.0]);
    let (alone, _) = plainly(before, &[&parts.1]);
    seen::hit_of(
        &mut bench.counts,
        "requests cut, by what the parts do",
        &[
            ("no ID in both", !share_an_id(head, tail)),
            ("an ID in both", share_an_id(head, tail)),
            ("both change the tables", changes == (true, true)),
            ("the first alone changes the tables", changes == (true, false)),
            ("the second alone changes the tables", changes == (false, true)),
            ("neither changes the tables", changes == (false, false)),
            ("the other way round they would leave other tables", !same_tables(&turned, &whole.left)),
            ("the second by itself would leave the same tables", same_tables(&alone, &whole.left)),
            ("an idle mark between them", is_silent),
        ],
    );
}

fn count_cut(bench: &mut Bench, whole: &Whole) {
    let Whole { before, set, .. } = *whole;
    if whole.bad.is_some() {
        let label = match (set.sub, whole.answer.0) {
            (2, 7) => "items: 7",
            (2, 4) => "items: 4",
            (2, _) => "items: 9",
            (_, 7) => "datapoints: 7",
            (_, 8) => "datapoints: 8",
            _ => "datapoints: 9",
        };
        return bench.counts.hit("requests cut, refused ones", label);
    }
    let (count, often) = (set.entries.len(), most_often(&set.entries));
    let has = |command: u8, wanted: u8| {
        set.sub == 6
            && set.entries.iter().filter(|entry| entry.command == command).any(|entry| {
                found(&before.datapoints, entry.id).is_some_and(|datapoint| datapoint.flags & 0x44 == wanted)
            })
    };
    let is_closed = |command: u8| has(command, 0x00) || has(command, 0x40);
    seen::hit_of(
        &mut bench.counts,
        "requests cut",
        &[
            ("items", set.sub == 2),
            ("datapoints", set.sub == 6),
            ("2 entries", count == 2),
            ("3 to 9 entries", (3..10).contains(&count)),
            ("10 entries or more", count >= 10),
            ("254 bytes", set.size() == MOST),
            ("no ID twice", often == 1),
            ("an ID twice", often == 2),
            ("an ID three times or more", often > 2),
            ("one ID alone", often == count),
            ("a closed datapoint, command 0", is_closed(0)),
            ("a closed datapoint, command 1", is_closed(1)),
            ("an open datapoint that does not transmit, command 4", has(4, 0x04)),
            ("start is the first entry's", set.start == set.entries[0].id),
            ("start is another", set.start != set.entries[0].id),
            ("the tables are left as they were", same_tables(before, &whole.left)),
        ],
    );
    if set.sub == 6 {
        seen::cut_entries(&mut bench.counts, before, &set.entries);
    }
}

// ------------------------------------------------------------------------------------------------- cut at other places

/// Whether the entries that the message states fill it.
fn fills(message: &[u8]) -> bool {
    let head = if message[1] == 6 { 4 } else { 3 };
    let mut at = 6;
    for _ in 0..u16::from_be_bytes([message[4], message[5]]) {
        match message.get(at + head - 1) {
            Some(length) => at += head + usize::from(*length),
            None => return false,
        }
    }
    at == message.len()
}

/// A good request cut at this byte, its parts under these numbers: "the stated number of entries does not fill the
/// message exactly" is 10, "number 0" is 6, and neither sets anything. A part that ends within an entry is not filled
/// by any number; so both parts are never accepted there.
fn cut_elsewhere(bench: &mut Bench, before: &Server, set: &Set, at: usize, numbers: (u16, u16)) {
    let message = set.message();
    let mut bounds = vec![6];
    for entry in &set.entries {
        bounds.push(bounds[bounds.len() - 1] + set.size_of(entry));
    }
    // so many whole entries stand before the cut, and so many bytes of the next
    let entries = bounds.iter().filter(|bound| **bound <= at).count() - 1;
    let within = at - bounds[entries];
    let to_length = if set.sub == 6 { 4 } else { 3 };
    put_back(bench, before);
    for (is_first, bytes, number) in [(true, &message[6..at], numbers.0), (false, &message[at..], numbers.1)] {
        let start = bench.random.number();
        let part = [&head(set.sub, start, number)[..], bytes].concat();
        let stood = bench.server.clone();
        let answer = ask(bench, &part);
        let is_within = is_first && within > 0;
        let holds = match (fills(&part), number) {
            (false, _) => answer == (10, start),
            (true, 0) => answer == (6, start) && !is_within,
            (true, _) => answer.0 != 10 && answer.0 != 6 && !is_within,
        };
        let is_changed = !same_tables(&stood, &bench.server);
        if !holds || (answer.0 != 0 && is_changed) {
            let aim = "10 where the number of entries does not fill a part, else 6 for number 0; and nothing is set";
            bench.misleft(&format!("cut at byte {at}: {aim}"), &told(&[(&part, answer)], &stood, &bench.server));
        }
        if !is_first && within > to_length && is_changed {
            let label = "within a value, the second part is accepted and sets another record";
            bench.counts.hit("requests cut elsewhere", label);
        }
    }
    let last = set.entries.len();
    let (whole, own) = (last as u16, entries as u16);
    let is_between = within == 0 && entries > 0 && entries < last;
    let is_before = within == 0 && entries == 0;
    let is_behind = within == 0 && entries == last;
    seen::hit_of(
        &mut bench.counts,
        "requests cut elsewhere",
        &[
            ("within an ID: 10", within == 1),
            ("behind an ID: 10", within == 2),
            ("behind a command: 10", within == 3 && set.sub == 6),
            ("behind a length: 10", within == to_length),
            ("within a value: 10", within > to_length),
            ("before the first entry, number 0: 6", is_before && numbers.0 == 0),
            ("before the first entry, number 1 or more: 10", is_before && numbers.0 > 0),
            ("behind the last entry, number 0: 6", is_behind && numbers.1 == 0),
            ("behind the last entry, number 1 or more: 10", is_behind && numbers.1 > 0),
            ("between two entries, number 0: 10", is_between && numbers.0 == 0),
            ("between two entries, number of the whole: 10", is_between && numbers.0 == whole),
            ("between two entries, number one too low: 10", is_between && numbers.0 == own - 1),
            ("between two entries, number one too high: 10", is_between && numbers.0 == own + 1),
        ],
    );
}

// ------------------------------------------------------------------------------------------------- longer than a frame

/// Where the parts of a request end that has to be cut: each as long as a frame allows, or also shorter.
fn some_ends(random: &mut Random, set: &Set) -> Vec<usize> {
    let (fullest, shortest) = (random.one_in(4), random.one_in(8));
    let mut ends = Vec::new();
    let mut from = 0;
    while from < set.entries.len() {
        let mut upto = from + 1;
        while upto < set.entries.len() && fits(set, &set.entries[from..upto + 1]) {
            upto += 1;
        }
        from = match (shortest, fullest) {
            (true, _) => from + 1,
            (_, true) => upto,
            _ => random.edgy(from + 1, upto),
        };
        ends.push(from);
    }
    ends
}

/// No frame holds the request: the plain server carries it out as a message, and both are sent its parts, which end
/// behind these entries. What the last part leaves is what the message left. One with a bad entry is refused as the
/// message is, by the part that holds that entry; then the parts before it are set.
fn cut_long(bench: &mut Bench, before: &Server, set: &Set, ends: &[usize]) {
    let (message, bad) = (set.message(), first_bad(before, set));
    let (left, answer) = plainly(before, &[&message]);
    put_back(bench, before);
    let mut from = 0;
    for upto in ends {
        let entries = &set.entries[from..*upto];
        let start = some_start(&mut bench.random, entries);
        let part = part(set, entries, start);
        let stood = bench.server.clone();
        let coded = ask(bench, &part);
        let is_bad = bad.is_some_and(|bad| bad < *upto);
        let (aim, holds) = if is_bad {
            let is_refused = coded.0 != 0 && answer == Some(answer_of(set.sub, coded));
            ("refused as the whole, and nothing is set", is_refused && same_tables(&stood, &bench.server))
        } else {
            ("accepted", coded == (0, start))
        };
        if !holds {
            let what = format!("entries {from} to {} of {message:02X?}: {aim}", upto - 1);
            bench.misleft(&what, &told(&[(&part, coded)], &stood, &bench.server));
        }
        if is_bad {
            break;
        }
        from = *upto;
    }
    let wanted = match bad {
        None => left,
        Some(_) if from == 0 => before.clone(),
        Some(_) => plainly(before, &[&part(set, &set.entries[..from], 0)]).0,
    };
    let is_accepted = answer == Some(answer_of(set.sub, (0, set.start)));
    if is_accepted != bad.is_none() || !same_tables(&bench.server, &wanted) {
        let what = format!("the parts that end behind {ends:?} leave what {message:02X?} does, answered {answer:02X?}");
        bench.misleft(&what, &told(&[], &wanted, &bench.server));
    }
    bench.cuts += 1;
    count_long(bench, before, set, ends, bad);
}

fn count_long(bench: &mut Bench, before: &Server, set: &Set, ends: &[usize], bad: Option<usize>) {
    let label = "requests longer than a frame";
    if let Some(bad) = bad {
        let is_first = bad < ends[0];
        let is_changed = !same_tables(before, &bench.server);
        let labels = [
            ("a bad entry in the first part", is_first),
            ("a bad entry in a later part, behind parts that change the tables", !is_first && is_changed),
        ];
        return seen::hit_of(&mut bench.counts, label, &labels);
    }
    // by its ID, in which of the parts an entry stands
    let mut places: BTreeMap<u16, BTreeSet<usize>> = BTreeMap::new();
    for (at, entry) in set.entries.iter().enumerate() {
        places.entry(entry.id).or_default().insert(ends.iter().filter(|end| **end <= at).count());
    }
    let (count, parts) = (set.entries.len(), ends.len());
    let most = places.values().map(BTreeSet::len).max().unwrap_or(0);
    let (bytes, is_in_two) = (set.size(), parts == 2);
    let cannot_be_joined = |at: usize| {
        let from = if at == 0 { 0 } else { ends[at - 1] };
        !fits(set, &set.entries[from..ends[at] + 1])
    };
    seen::hit_of(
        &mut bench.counts,
        label,
        &[
            ("items, in two parts", set.sub == 2 && is_in_two),
            ("items, in more parts", set.sub == 2 && !is_in_two),
            ("datapoints, in two parts", set.sub == 6 && is_in_two),
            ("datapoints, in more parts", set.sub == 6 && !is_in_two),
            ("255 bytes", bytes == 255),
            ("502 bytes", bytes == 502),
            ("above 1000 bytes", bytes > 1000),
            ("256 entries or more", count > 255),
            ("as few parts as can be", (0..parts - 1).all(cannot_be_joined)),
            ("each entry a part", parts == count),
            ("an ID in two parts", most == 2),
            ("an ID in three parts or more", most > 2),
        ],
    );
}

// --------------------------------------------------------------------------------------------------------- both orders

/// The value that the request leaves at this ID, if it writes one.
fn written(set: &Set, id: u16) -> Option<&[u8]> {
    let writes = |entry: &&Entry| entry.id == id && (set.sub == 2 || entry.command == 1 || entry.command == 3);
    set.entries.iter().rev().find(writes).map(|entry| &entry.value[..])
}

/// "two accepted set requests with no ID in common leave the same tables in either order" (02, item 11). With an ID in
/// common the order is seen exactly where both write a value, and not the same: all else that commands do is to set
/// bits. And a request is answered in one way, whatever the other did before it: so one that is refused sets nothing in
/// either order.
fn pair(bench: &mut Bench, before: &Server, one: &Set, other: &Set) {
    let messages = (one.message(), other.message());
    put_back(bench, before);
    let in_order = (ask(bench, &messages.0), ask(bench, &messages.1));
    let left = bench.server.clone();
    put_back(bench, before);
    let (second, first) = (ask(bench, &messages.1), ask(bench, &messages.0));
    let are_good = (first_bad(before, one).is_none(), first_bad(before, other).is_none());
    let are_accepted = (in_order.0 == (0, one.start), in_order.1 == (0, other.start));
    let is_same = same_tables(&left, &bench.server);
    let share = one.sub == other.sub && share_an_id(&one.entries, &other.entries);
    let is_written_twice = |entry: &Entry| {
        let (value, next) = (written(one, entry.id), written(other, entry.id));
        value.is_some() && next.is_some() && value != next
    };
    let is_seen = are_good == (true, true) && share && one.entries.iter().any(is_written_twice);
    let aims = [
        ("each is answered before the other as behind it", in_order == (first, second)),
        ("accepted where each entry is good, and nowhere else", are_accepted == are_good),
        ("the same tables in either order", is_same || (share && are_good == (true, true))),
        ("other tables in the other order exactly where both write a value, and not the same", is_same != is_seen),
    ];
    for (aim, holds) in aims {
        if !holds {
            let requests = [&messages.0, &messages.1, &messages.1, &messages.0].map(|message| &message[..]);
            let answers = [in_order.0, in_order.1, second, first];
            let requests: Vec<(&[u8], Coded)> = requests.into_iter().zip(answers).collect();
            bench.misleft(aim, &told(&requests, &left, &bench.server));
        }
    }
    bench.pairs += 1;
    count_pair(bench, before, (one, other), are_good, is_seen);
}

fn count_pair(bench: &mut Bench, before: &Server, sets: (&Set, &Set), are_good: (bool, bool), is_seen: bool) {
    let (one, other) = sets;
    let (is_good, is_one_bad) = (are_good == (true, true), are_good.0 != are_good.1);
    let subs = (one.sub, other.sub);
    let is_mixed = one.sub != other.sub;
    let (same_id, sizes) = (share_an_id(&one.entries, &other.entries), (one.entries.len(), other.entries.len()));
    let (share, apart) = (is_good && same_id && !is_mixed, is_good && (is_mixed || !same_id));
    let often = most_often(&one.entries).max(most_often(&other.entries));
    let changes = |set: &Set| !same_tables(before, &plainly(before, &[&set.message()]).0);
    seen::hit_of(
        &mut bench.counts,
        "requests in both orders",
        &[
            ("items, no ID in common", apart && subs == (2, 2)),
            ("datapoints, no ID in common", apart && subs == (6, 6)),
            ("items and datapoints", apart && is_mixed),
            ("items and datapoints, the same ID in both", apart && is_mixed && same_id),
            ("no ID in common, both change the tables", apart && changes(one) && changes(other)),
            ("no ID in common, several entries in both", apart && sizes.0 > 1 && sizes.1 > 1),
            ("no ID in common, an ID twice in one of them", apart && often > 1),
            ("no ID in common, 254 bytes", apart && (one.size() == MOST || other.size() == MOST)),
            ("items, an ID in common, the order is seen", share && subs.0 == 2 && is_seen),
            ("items, an ID in common, the order is not seen", share && subs.0 == 2 && !is_seen),
            ("datapoints, an ID in common, the order is seen", share && subs.0 == 6 && is_seen),
            ("datapoints, an ID in common, the order is not seen", share && subs.0 == 6 && !is_seen),
            ("the same request twice", is_good && one.message() == other.message()),
            ("one is refused, no ID in common", is_one_bad && (is_mixed || !same_id)),
            ("one is refused, an ID in common", is_one_bad && !is_mixed && same_id),
            ("both are refused", are_good == (false, false)),
        ],
    );
}

// ----------------------------------------------------------------------------------------------------------- at random

/// One request cut at every boundary, or elsewhere, or because it has to be; or two in both orders.
pub fn some(bench: &mut Bench) {
    let before = at_rest(bench);
    let subs: Vec<u8> = [2, 6].into_iter().filter(|sub| !ids(&before, *sub).is_empty()).collect();
    if subs.is_empty() {
        return;
    }
    let sub = bench.random.pick(&subs);
    let _ = match bench.random.below(12) {
        0..=5 => some_cut(bench, &before, sub),
        6 => some_cut_elsewhere(bench, &before, sub),
        7 | 8 => some_long(bench, &before, sub),
        _ => some_pair(bench, &before, sub),
    };
}

fn some_cut(bench: &mut Bench, before: &Server, sub: u8) -> Option<()> {
    let random = &mut bench.random;
    let ids = some_of(random, &ids(before, sub));
    let count = match random.below(8) {
        0..=2 => 2,
        3..=5 => random.between(3, 6),
        6 => random.between(5, 15),
        _ => 62,
    };
    let full = if count == 62 { sized_set(random, before, sub, &ids, MOST) } else { None };
    let mut set = full.or_else(|| some_set(random, before, sub, &ids, count))?;
    for _ in 0..random.pick(&[0, 0, 0, 1, 2]) {
        spoil(random, before, &mut set);
    }
    if set.size() <= MOST {
        cut(bench, before, &set);
    }
    Some(())
}

fn some_cut_elsewhere(bench: &mut Bench, before: &Server, sub: u8) -> Option<()> {
    let random = &mut bench.random;
    let ids = some_of(random, &ids(before, sub));
    let count = random.between(1, 12);
    let set = some_set(random, before, sub, &ids, count)?;
    for _ in 0..6 {
        let random = &mut bench.random;
        let at = random.between(6, set.size());
        let most = set.entries.len() + 1;
        let numbers = (random.between(0, most) as u16, random.between(0, most) as u16);
        cut_elsewhere(bench, before, &set, at, numbers);
    }
    Some(())
}

fn some_long(bench: &mut Bench, before: &Server, sub: u8) -> Option<()> {
    let random = &mut bench.random;
    let ids = some_of(random, &ids(before, sub));
    let mut set = some_set(random, before, sub, &ids, 62)?;
    if random.coin() {
        // in two parts, of which the first has hardly any room left
        let count = random.between(1, 62);
        set.entries.extend(some_set(random, before, sub, &ids, count)?.entries);
        if set.size() <= MOST {
            return None;
        }
        let count = set.entries.len();
        let fit = |at: &usize| fits(&set, &set.entries[..*at]) && fits(&set, &set.entries[*at..]);
        let places: Vec<usize> = (1..count).filter(fit).collect();
        for _ in 0..2 {
            let at = bench.random.pick(&places);
            cut_long(bench, before, &set, &[at, count]);
        }
        return Some(());
    }
    let bytes = random.edgy(255, 3000);
    while set.size() < bytes {
        set.entries.extend(some_set(random, before, sub, &ids, 30)?.entries);
    }
    if random.one_in(3) {
        spoil(random, before, &mut set);
    }
    let ends = some_ends(random, &set);
    cut_long(bench, before, &set, &ends);
    Some(())
}

fn some_pair(bench: &mut Bench, before: &Server, sub: u8) -> Option<()> {
    let random = &mut bench.random;
    let (own, others) = (ids(before, sub), ids(before, 8 - sub));
    let mut subs = (sub, sub);
    let (one, other): (Vec<u16>, Vec<u16>) = match random.below(8) {
        // apart from each other
        0..=3 => own.iter().copied().partition(|_| random.coin()),
        // one of each service; of the same numbers, where there are such
        4 | 5 => {
            subs.1 = 8 - sub;
            let both: Vec<u16> = own.iter().copied().filter(|id| others.contains(id)).collect();
            if both.is_empty() || random.coin() {
                (own, others)
            } else {
                (both.clone(), both)
            }
        }
        _ => {
            let few = some_of(random, &own);
            (few.clone(), few)
        }
    };
    if one.is_empty() || other.is_empty() {
        return None;
    }
    let mut draw = |sub: u8, ids: &[u16]| {
        let most = random.pick(&[1, 3, 12, 62]);
        let (few, count) = (some_of(random, ids), random.between(1, most));
        let mut set = some_set(random, before, sub, &few, count)?;
        if random.one_in(5) {
            spoil(random, before, &mut set);
        }
        Some(set).filter(|set| set.size() <= MOST)
    };
    let (one, other) = (draw(subs.0, &one)?, draw(subs.1, &other)?);
    pair(bench, before, &one, &other);
    if bench.random.one_in(20) {
        pair(bench, before, &one, &one);
    }
    Some(())
}

// ----------------------------------------------------------------------------------------------------------- every one

/// What is tried with two good entries of one service.
type TryTwo = fn(&mut Bench, &Server, u8, Entry, Entry);

/// Each kind of entry at each datapoint, with each kind at the same one and at the next, by config flags; and each item
/// with itself and with the next.
fn each_two(bench: &mut Bench, try_two: TryTwo) {
    let mut before = bench.server.clone();
    for flags in [0x44, 0x00, 0x04, 0x40] {
        for datapoint in &mut before.datapoints {
            datapoint.flags = flags;
        }
        let datapoints = &before.datapoints;
        for (at, datapoint) in datapoints.iter().enumerate() {
            for next in [datapoint, &datapoints[(at + 1) % datapoints.len()]] {
                for kind in kinds_of(datapoint) {
                    for next_kind in kinds_of(next) {
                        let one = entry_of_kind(&mut bench.random, datapoint, kind);
                        let other = entry_of_kind(&mut bench.random, next, next_kind);
                        try_two(bench, &before, 6, one, other);
                    }
                }
            }
        }
    }
    let items = ids(&before, 2);
    for (at, id) in items.iter().enumerate() {
        for next in [*id, items[(at + 1) % items.len()]] {
            for _ in 0..4 {
                let random = &mut bench.random;
                let two = (good_entry(random, &before, 2, *id), good_entry(random, &before, 2, next));
                if let (Some(one), Some(other)) = two {
                    try_two(bench, &before, 2, one, other);
                }
            }
        }
    }
}

pub fn two_entries(bench: &mut Bench) {
    each_two(bench, |bench, before, sub, one, other| {
        let set = set_of(&mut bench.random, sub, vec![one, other]);
        cut(bench, before, &set);
    });
}

pub fn two_requests(bench: &mut Bench) {
    each_two(bench, |bench, before, sub, one, other| {
        let random = &mut bench.random;
        let (one, other) = (set_of(random, sub, vec![one]), set_of(random, sub, vec![other]));
        pair(bench, before, &one, &other);
    });
}

/// Each kind of entry at each datapoint with an item: that of the same ID, where there is one, or any.
pub fn both_services(bench: &mut Bench) {
    let before = bench.server.clone();
    let items = ids(&before, 2);
    for datapoint in &before.datapoints {
        for kind in KINDS {
            let random = &mut bench.random;
            let id = if items.contains(&datapoint.id) { datapoint.id } else { random.pick(&items) };
            let one = vec![entry_of_kind(random, datapoint, kind)];
            let other: Vec<Entry> = good_entry(random, &before, 2, id).into_iter().collect();
            let (one, other) = (set_of(random, 6, one), set_of(random, 2, other));
            pair(bench, &before, &one, &other);
        }
    }
}

/// Two requests of as many bytes as a frame has room for, with no ID in common; and with all in common.
pub fn full_requests(bench: &mut Bench) {
    let before = bench.server.clone();
    for sub in [2, 6] {
        let ids = ids(&before, sub);
        for at in 1..ids.len() {
            for (one, other) in [ids.split_at(at), (&ids[..], &ids[..])] {
                let random = &mut bench.random;
                let sets = (sized_set(random, &before, sub, one, MOST), some_set(random, &before, sub, other, 62));
                if let (Some(one), Some(other)) = sets {
                    pair(bench, &before, &one, &other);
                    pair(bench, &before, &one, &one);
                }
            }
        }
    }
}

/// Up to 62 entries of four bytes, which are 254, at every boundary.
pub fn entry_counts(bench: &mut Bench) {
    let mut before = bench.server.clone();
    for item in &mut before.items {
        item.size = 1;
        item.bytes = [0; 16];
    }
    for sub in [2, 6] {
        let ids = ids(&before, sub);
        for count in (2..=20).chain([30, 40, 50, 61, 62]) {
            let random = &mut bench.random;
            let entry = |random: &mut Random| {
                let (id, command) = (random.pick(&ids), random.pick(&[0, 2, 4]));
                let (command, size) = if sub == 6 { (command, 0) } else { (0, 1) };
                Entry { id, command, value: random.bytes(size) }
            };
            let entries = (0..count).map(|_| entry(random)).collect();
            let set = set_of(random, sub, entries);
            cut(bench, &before, &set);
        }
    }
}

/// An entry that is bad in each way at each place among four, at every boundary; and two such entries.
pub fn bad_entries(bench: &mut Bench) {
    let mut before = bench.server.clone();
    before.datapoints[3].flags = 0;
    for sub in [2, 6] {
        let ids = ids(&before, sub);
        for way in 0..WAYS {
            for other_way in 0..WAYS {
                for at in 0..4 {
                    let random = &mut bench.random;
                    let bad = (bad_entry(random, &before, sub, way), bad_entry(random, &before, sub, other_way));
                    let good = some_set(random, &before, sub, &ids, 4);
                    let (Some(mut set), (Some(one), Some(other))) = (good, bad) else { continue };
                    if way != other_way {
                        set.entries[random.below(4)] = other;
                    }
                    set.entries[at] = one;
                    cut(bench, &before, &set);
                }
            }
        }
    }
}

/// The value of the last entry ends with another whole entry.
fn spelling(random: &mut Random, before: &Server, sub: u8) -> Option<Set> {
    let (long, short) = if sub == 2 { (37, 7) } else { (52, 31) };
    let now = if sub == 2 { before.items[0].bytes[0] } else { found(&before.datapoints, short)?.value[0] };
    let command = if sub == 2 { 0 } else { 1 };
    let inner = Entry { id: short, command, value: vec![!now] };
    let inner = part(&set_of(random, sub, Vec::new()), &[inner], 0).split_off(6);
    let mut value = random.bytes(if sub == 2 { 16 } else { 14 });
    let at = value.len() - inner.len();
    value[at..].copy_from_slice(&inner);
    let ids = ids(before, sub);
    let mut entries = some_set(random, before, sub, &ids, 8)?.entries;
    entries.push(Entry { id: long, command, value });
    Some(set_of(random, sub, entries))
}

pub fn every_byte(bench: &mut Bench) {
    let before = bench.server.clone();
    for sub in [2, 6] {
        let Some(set) = spelling(&mut bench.random, &before, sub) else { continue };
        let count = set.entries.len() as u16;
        // so many whole entries stand before the cut
        let (mut entries, mut next) = (0, 6 + set.size_of(&set.entries[0]));
        for at in 6..=set.size() {
            if at == next {
                entries += 1;
                next += set.entries.get(usize::from(entries)).map_or(1, |entry| set.size_of(entry));
            }
            let left = count - entries;
            let low = entries.saturating_sub(1);
            for numbers in [(0, 0), (low, left), (entries, 1), (entries + 1, left), (count, count), (0xFFFF, left)] {
                cut_elsewhere(bench, &before, &set, at, numbers);
            }
        }
    }
}

/// Each size from 255 bytes up to that of two full frames, in two parts: where they were joined, and as early and as
/// late as can be. Then up to 1000 entries, in parts of one, in full ones and in any; some with a bad entry.
pub fn long_ones(bench: &mut Bench) {
    let mut before = bench.server.clone();
    for sub in [2, 6] {
        let ids = ids(&before, sub);
        for bytes in 255..=2 * MOST - 6 {
            let random = &mut bench.random;
            let joined = (0..20).find_map(|_| {
                let first = random.between((bytes + 6 - MOST).max(10), (bytes - 4).min(MOST));
                let mut set = sized_set(random, &before, sub, &ids, first)?;
                let at = set.entries.len();
                set.entries.extend(sized_set(random, &before, sub, &ids, bytes + 6 - first)?.entries);
                Some((set, at))
            });
            let Some((set, at)) = joined else { continue };
            let count = set.entries.len();
            let fit = |at: &usize| fits(&set, &set.entries[..*at]) && fits(&set, &set.entries[*at..]);
            let earliest = (1..count).find(fit).unwrap_or(at);
            let latest = (1..count).rev().find(fit).unwrap_or(at);
            for at in BTreeSet::from([earliest, at, latest]) {
                cut_long(bench, &before, &set, &[at, count]);
            }
        }
    }
    for count in [255, 256, 257, 511, 512, 1000] {
        before.datapoints = crate::tables::datapoints(&mut bench.random, count.min(300));
        for sub in [2, 6] {
            let ids = ids(&before, sub);
            let random = &mut bench.random;
            let entry = |random: &mut Random| {
                let id = random.pick(&ids);
                good_entry(random, &before, sub, id)
            };
            let entries = (0..count).filter_map(|_| entry(random)).collect();
            let mut set = set_of(random, sub, entries);
            if count < 258 {
                cut_long(bench, &before, &set, &(1..=count).collect::<Vec<usize>>());
            }
            for is_spoiled in [false, false, true, true] {
                if is_spoiled {
                    spoil(&mut bench.random, &before, &mut set);
                }
                let ends = some_ends(&mut bench.random, &set);
                cut_long(bench, &before, &set, &ends);
            }
        }
    }
}
