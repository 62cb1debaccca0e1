//! What a call did, told from the link record before it, the call, and its answer. It only counts.

use crate::bench::{Answer, Found, Read};
use crate::counts::{Counts, Matrix};
use crate::lent::Call;
use crate::plain::{Burst, Datapoint, Ending, Link, Reading, Server};
use crate::requests::{self, Entry, Texts};
use crate::tables::{found, takes, texts_by_id, type_of, used_bits, SIZES};
use crate::{bursts, cutting};

// The matrices, and their rows.
pub const ERRORS: usize = 0;
pub const TYPES: usize = 1;
pub const COMMANDS: usize = 2;
const FLAGS: usize = 3;
const PARAMETERS: usize = 4;
const STRINGS: usize = 5;
const TEXT_SIZES: usize = 6;
const READINGS: usize = 7;
const CUT_ENTRIES: usize = 8;

pub const BUS_TAKEN: usize = 0;
pub const BUS_LENGTH: usize = 1;
pub const BUS_BITS: usize = 2;
pub const TABLE_BITS: usize = 3;
pub const TABLE_BYTES: usize = 4;
const SET_TAKEN: usize = 5;
const SET_LENGTH: usize = 6;
const SET_BITS: usize = 7;
const ANSWERED: usize = 8;
const INDICATED: usize = 9;

// commands 0 to 4 carried out are rows 0 to 4
const FLAGS_OFF: usize = 5;
const FLAGS_LENGTH: usize = 10;
const FLAGS_BUS_VALUE: usize = 11;
const FLAGS_OUTCOME: usize = 12;
const FLAGS_ANSWERED: usize = 13;
const FLAGS_INDICATED: usize = 14;
const FLAGS_DESCRIBED: usize = 15;

const SERVICES: [&str; 9] = ["other", "01", "02", "03", "04", "05", "06", "07", "08"];

pub fn matrices() -> Vec<Matrix> {
    let gets = &[1, 3, 4, 5, 7];
    let sets = &[2, 6, 8];
    let eight = &[1, 2, 3, 4, 5, 6, 7, 8];
    let all_types: Vec<usize> = (0..15).collect();
    // by bits 2 and 6 alone, then with other bits set too
    let flags = ["00", "04", "40", "44", "00+", "04+", "40+", "44+"];
    let all_flags = &[0, 1, 2, 3, 4, 5, 6, 7];
    let (both_on, not_both_on) = (&[3, 7], &[0, 1, 2, 4, 5, 6]);
    let (open, closed) = (&[1, 3, 5, 7], &[0, 2, 4, 6]);
    let (any_count, some, several) = (&[0, 1, 2, 3], &[1, 2, 3], &[2, 3]);
    let type_names = ["0", "1", "2", "3", "4", "5", "6", "7", "8", "9", "10", "11", "12", "13", "14"];
    vec![
        Matrix::new(
            "Answers, by sub",
            &SERVICES,
            &[
                ("5: sub", &[0]),
                ("10: size", eight),
                ("6: number 0", eight),
                ("6: filter", &[5]),
                ("7: ID absent", sets),
                ("4: not writable", &[2]),
                ("8: command", &[6]),
                ("8: config flags", &[6]),
                ("9: length", &[2, 6]),
                ("8: unused bits", &[6]),
                ("2: nothing to return", gets),
                ("3: too long", gets),
                ("3: 255 bytes", &[1, 4, 5, 7]),
                ("answered", eight),
                ("answered, 254 bytes", &[1, 4, 5, 7]),
                ("range beyond 65535", gets),
            ],
        ),
        Matrix::new(
            "Values, by type code",
            &type_names,
            &[
                ("bus value taken", &all_types),
                ("bus value, other length: refusal 4", &all_types),
                ("bus value, unused bits: refusal 4", &all_types[..7]),
                ("table, unused bits: refusal 1", &all_types[..7]),
                ("table, bytes behind: refusal 1", &all_types[..14]),
                ("set, value taken", &all_types),
                ("set, other length: 9", &all_types),
                ("set, unused bits: 8", &all_types[..7]),
                ("in an answer", &all_types),
                ("in an indication", &all_types),
            ],
        ),
        Matrix::new(
            "Entries of a datapoint set, by command",
            &["0", "1", "2", "3", "4"],
            &[
                ("carried out, with a value", &[0, 1, 2, 3, 4]),
                ("carried out, without", &[0, 2, 4]),
                ("other length: 9", &[0, 1, 2, 3, 4]),
                ("no value: 9", &[1, 3]),
                ("unused bits: 8", &[0, 1, 2, 3, 4]),
            ],
        ),
        Matrix::new(
            "Datapoints, by config flags",
            &flags,
            &[
                ("command 0 carried out", all_flags),
                ("command 1 carried out", all_flags),
                ("command 2 carried out", both_on),
                ("command 3 carried out", both_on),
                ("command 4 carried out", open),
                ("command 2: 8", not_both_on),
                ("command 3: 8", not_both_on),
                ("command 4: 8", closed),
                ("command 5: 8", all_flags),
                ("command above 5: 8", all_flags),
                ("command 2 to 4 and another length: 8", not_both_on),
                ("bus value taken", all_flags),
                ("outcome taken", all_flags),
                ("value in an answer", all_flags),
                ("value in an indication", all_flags),
                ("description in an answer", all_flags),
            ],
        ),
        Matrix::new(
            "Sets of parameter bytes, by how many the table has",
            &["0", "1", "2 to 254", "255"],
            &[
                ("10: one byte too many", any_count),
                ("10: one byte missing", any_count),
                ("10: other sizes", any_count),
                ("6: start 0", any_count),
                ("6: start 1 or more", any_count),
                ("7: start 0", any_count),
                ("7: start right behind the table", any_count),
                ("7: start further behind it", any_count),
                ("7: start FFFF", any_count),
                ("7: one byte behind the end", some),
                ("7: several bytes behind the end", some),
                ("answered, from index 1 on", some),
                ("answered, from a later index on", several),
                ("answered, one byte", some),
                ("answered, up to the end", some),
                ("answered, not up to the end", several),
                ("answered, 254 bytes", several),
            ],
        ),
        Matrix::new(
            "Description strings in answers, by what the site's list has",
            &["no entry", "an empty one", "a text"],
            &[
                ("the default list has no entry", &[0, 1, 2]),
                ("the default list has an empty one", &[0, 1, 2]),
                ("the default list has a text", &[0, 1, 2]),
            ],
        ),
        Matrix::new(
            "Description strings in answers, by their length",
            &["0", "1", "2 to 29", "30"],
            &[("from the site's list", &[1, 2, 3]), ("from the default list", &[1, 2, 3]), ("empty", &[0])],
        ),
        Matrix::new(
            "Readings, by DPT and type code",
            &["1, 0", "5, 7", "9, 8", "14, 10", "one of these DPTs", "one of these types", "others"],
            &[
                ("valid, read", &[0, 1, 2, 3]),
                ("valid, unreadable", &[2, 3, 4, 5, 6]),
                ("not valid, unreadable", &[0, 1, 2, 3, 4, 5, 6]),
            ],
        ),
        // in the order of cutting::KINDS
        Matrix::new(
            "Entries of requests that were cut, by type code",
            &type_names,
            &[
                ("command 0, no value", &all_types),
                ("command 0", &all_types),
                ("command 1", &all_types),
                ("command 2, no value", &all_types),
                ("command 2", &all_types),
                ("command 3", &all_types),
                ("command 4, no value", &all_types),
                ("command 4", &all_types),
            ],
        ),
    ]
}

pub fn lists() -> Vec<(&'static str, Vec<&'static str>)> {
    let mut lists = vec![
        ("host bytes", HOST_BYTES.to_vec()),
        ("damage is found at", FOUND_AT.to_vec()),
        ("other events", EVENTS.to_vec()),
        ("requests carried out", REQUESTS.to_vec()),
        ("readings", READ.to_vec()),
        ("bursts", BURSTS.to_vec()),
        ("bursts, damage is found at", FOUND_AT.to_vec()),
        ("bursts, unfinished behind", BROKEN_OFF.to_vec()),
        ("fresh link", vec!["made where another record stood"]),
        ("requests, by aim", requests::AIMS.to_vec()),
    ];
    lists.extend(crate::walk::lists());
    lists.extend(bursts::lists());
    lists.extend(cutting::lists());
    lists.extend(crate::broken::lists());
    lists.extend(crate::garbage::lists());
    lists.extend(crate::every::lists());
    lists
}

const HOST_BYTES: [&str; 34] = [
    "E5 while dropping",
    "10 while dropping",
    "68 while dropping",
    "other byte while dropping",
    "E5, something outstanding, send bit odd",
    "E5, something outstanding, send bit even",
    "E5, nothing outstanding",
    "reset, nothing outstanding, bits odd odd",
    "reset, nothing outstanding, expected even",
    "reset, nothing outstanding, send even",
    "reset, something outstanding, send bit odd",
    "reset, something outstanding, send bit even",
    "reset, something outstanding and sent again",
    "fixed frame with another C",
    "data frame with a server's control byte",
    "data frame with another control byte",
    "expected bit, carried out and answered, odd odd",
    "expected bit, carried out and answered, odd even",
    "expected bit, carried out and answered, even odd",
    "expected bit, carried out and answered, even even",
    "expected bit, no answer: no message (L = 1)",
    "expected bit, no answer: 1 to 5 bytes",
    "expected bit, no answer: first byte not F0",
    "expected bit, no answer: sub 80 and above",
    "expected bit, something outstanding: dropped",
    "other bit, nothing outstanding",
    "other bit, something outstanding",
    "a data frame of 261 bytes",
    "a data frame whose L is 10",
    "a data frame whose L is 68",
    "a data frame whose L is E5",
    "E5 in mid-frame, something outstanding",
    "E5 in mid-frame, nothing outstanding",
    "byte gathered",
];

const FOUND_AT: [&str; 8] = [
    "the first byte",
    "L, which is 0",
    "the second L",
    "the fourth byte",
    "the checksum",
    "the last byte of a data frame",
    "the second C",
    "the last byte of a fixed frame",
];

const EVENTS: [&str; 28] = [
    "idle mark at a frame start",
    "idle mark in a data frame",
    "idle mark in a fixed frame",
    "idle mark while dropping",
    "idle mark, something outstanding",
    "ack wait, nothing outstanding",
    "ack wait, first resend",
    "ack wait, second resend",
    "ack wait, third resend",
    "ack wait, dropped, send bit odd",
    "ack wait, dropped, send bit even",
    "ack wait in mid-frame",
    "poll, something outstanding, marks",
    "poll, something outstanding, no mark",
    "poll, no mark",
    "poll, all marked are carried",
    "poll, some are left over",
    "poll, 254 bytes",
    "poll, the next one would make 255 bytes",
    "poll, a later one that is left over would fit",
    "poll in mid-frame, indication sent",
    "bus value taken",
    "bus value taken in mid-frame",
    "bus value taken, something outstanding",
    "outcome sent",
    "outcome failed",
    "outcome in progress",
    "accepted with room above 262",
];

const REQUESTS: [&str; 22] = [
    "set of items, an ID twice",
    "set of datapoints, an ID twice",
    "set of items, start is not the first entry's",
    "set of datapoints, start is not the first entry's",
    "set of 254 bytes answered",
    "filter 0 answered",
    "filter 1 answered",
    "filter 2 answered",
    "49 descriptions answered",
    "an answer that skips absent IDs",
    "124 empty strings answered",
    "125 empty strings: 3",
    "7 texts of 30 bytes answered",
    "8 texts of 30 bytes: 3",
    "strings answered, neither list has an entry",
    "strings answered, only the site's list has entries",
    "strings answered, only the default list has entries",
    "strings answered, a list begins with ID 0",
    "strings answered, a list has entries before the range",
    "strings answered, a list has entries behind the range",
    "strings answered, a list has an ID in the range that no datapoint has",
    "strings answered, a list has 100 entries or more",
];

const READ: [&str; 36] = [
    "refused 1",
    "refused 1, the ID is absent too",
    "refused 1, 1001 datapoints",
    "refused 4, ID 0",
    "refused 4, no datapoint",
    "refused 4, below the first ID",
    "refused 4, above the last ID",
    "refused 4, between two IDs",
    "given, the only datapoint",
    "given, the first of several",
    "given, the last of several",
    "given, one between",
    "given, of 1000 datapoints",
    "given, a closed datapoint",
    "given, an open datapoint",
    "given, updated and marked",
    "given, in mid-frame",
    "given, something outstanding",
    "a switch that is on",
    "a switch that is off",
    "a count of 0",
    "a count of 255",
    "a count between",
    "a two-octet value of 0",
    "a two-octet value above 0",
    "a two-octet value below 0",
    "the least two-octet value",
    "the greatest two-octet value",
    "7FFF",
    "a single of 0",
    "a single of minus 0",
    "a single below the normal ones",
    "a normal single",
    "the largest single, or minus that",
    "an infinite single",
    "a single that is not a number",
];

const BURSTS: [&str; 32] = [
    "refused, 2049 bytes",
    "refused, more bytes",
    "refused, 2047 places",
    "refused, fewer places",
    "refused, for both",
    "no byte",
    "2048 bytes",
    "2049 places",
    "more places",
    "clean, frames alone",
    "clean, acknowledgements alone",
    "clean, both",
    "damaged, nothing found before",
    "damaged behind a frame",
    "damaged behind an acknowledgement",
    "damaged, with a reset at the end",
    "damaged, with E5 at the end",
    "unfinished, nothing found before",
    "unfinished behind a frame",
    "unfinished behind an acknowledgement",
    "one frame",
    "100 frames or more",
    "512 frames",
    "2048 acknowledgements",
    "the reset",
    "a fixed frame with another C",
    "a data frame with a host's control byte",
    "a data frame with a server's control byte",
    "a data frame with another control byte",
    "a data frame of L = 1",
    "a data frame of 261 bytes",
    "a data frame with E5 within",
];

const BROKEN_OFF: [&str; 10] = [
    "68",
    "L",
    "the second L",
    "the head",
    "a part of control and data",
    "all of control and data",
    "the checksum",
    "10",
    "C",
    "the second C",
];

/// Counts a burst, by its refusal or by what it holds.
pub fn burst(counts: &mut Counts, bytes: &[u8], place_count: usize, found: &Found) {
    let (is_long, is_short) = (bytes.len() > bursts::MOST, place_count < bursts::MOST);
    let Ok((burst, starts)) = found else {
        let label = match (bytes.len(), place_count) {
            _ if is_long && is_short => "refused, for both",
            (2049, _) => "refused, 2049 bytes",
            (_, 2047) => "refused, 2047 places",
            _ if is_long => "refused, more bytes",
            _ => "refused, fewer places",
        };
        return counts.hit("bursts", label);
    };
    let Burst { frames, acknowledgements, ending } = burst;
    let pieces: Vec<&[u8]> = starts.iter().map(|start| piece_at(bytes, usize::from(*start))).collect();
    let rest = &bytes[pieces.iter().map(|piece| piece.len()).sum()..];
    let (is_clean, is_damaged) = (*ending == Ending::Clean, *ending == Ending::Damaged);
    let is_unfinished = *ending == Ending::Unfinished;
    let (is_behind_ack, is_behind_frame) =
        pieces.last().map_or((false, false), |last| (last[0] == 0xE5, last[0] != 0xE5));
    hit_of(
        counts,
        "bursts",
        &[
            ("no byte", bytes.is_empty()),
            ("2048 bytes", bytes.len() == bursts::MOST),
            ("2049 places", place_count == 2049),
            ("more places", place_count > 2049),
            ("clean, frames alone", is_clean && *frames > 0 && *acknowledgements == 0),
            ("clean, acknowledgements alone", is_clean && *frames == 0 && *acknowledgements > 0),
            ("clean, both", is_clean && *frames > 0 && *acknowledgements > 0),
            ("damaged, nothing found before", is_damaged && pieces.is_empty()),
            ("damaged behind a frame", is_damaged && is_behind_frame),
            ("damaged behind an acknowledgement", is_damaged && is_behind_ack),
            ("damaged, with a reset at the end", is_damaged && rest.ends_with(&[0x10, 0x40, 0x40, 0x16])),
            ("damaged, with E5 at the end", is_damaged && rest.len() > 1 && rest.ends_with(&[0xE5])),
            ("unfinished, nothing found before", is_unfinished && pieces.is_empty()),
            ("unfinished behind a frame", is_unfinished && is_behind_frame),
            ("unfinished behind an acknowledgement", is_unfinished && is_behind_ack),
            ("one frame", *frames == 1),
            ("100 frames or more", *frames >= 100),
            ("512 frames", *frames == 512),
            ("2048 acknowledgements", *acknowledgements == 2048),
        ],
    );
    if let Some(frame) = pieces.iter().rfind(|piece| piece[0] != 0xE5) {
        frame_found(counts, frame);
    }
    if is_damaged {
        counts.hit("bursts, damage is found at", damaged_at(rest));
    }
    if is_unfinished {
        counts.hit("bursts, unfinished behind", broken_off_behind(rest));
    }
}

/// What starts at this place of a burst, where something sound does.
fn piece_at(bytes: &[u8], start: usize) -> &[u8] {
    let size = match bytes[start] {
        0xE5 => 1,
        0x10 => 4,
        _ => 6 + usize::from(bytes[start + 1]),
    };
    &bytes[start..start + size]
}

/// Counts the last frame of a burst.
fn frame_found(counts: &mut Counts, frame: &[u8]) {
    let label = match (frame[0], frame[1], frame.get(4)) {
        (0x10, 0x40, _) => "the reset",
        (0x10, _, _) => "a fixed frame with another C",
        (_, _, Some(0x73 | 0x53)) => "a data frame with a host's control byte",
        (_, _, Some(0xF3 | 0xD3)) => "a data frame with a server's control byte",
        _ => "a data frame with another control byte",
    };
    let is_data = frame[0] == 0x68;
    hit_of(
        counts,
        "bursts",
        &[
            (label, true),
            ("a data frame of L = 1", is_data && frame.len() == 7),
            ("a data frame of 261 bytes", is_data && frame.len() == 261),
            ("a data frame with E5 within", is_data && frame.contains(&0xE5)),
        ],
    );
}

/// Where these bytes break the forms, from a frame start on.
fn damaged_at(rest: &[u8]) -> &'static str {
    match rest[0] {
        0x10 if rest[2] != rest[1] => "the second C",
        0x10 => "the last byte of a fixed frame",
        0x68 if rest[1] == 0 => "L, which is 0",
        0x68 if rest[2] != rest[1] => "the second L",
        0x68 if rest[3] != 0x68 => "the fourth byte",
        0x68 => {
            let (content, behind) = rest[4..].split_at(usize::from(rest[1]));
            let sum = content.iter().fold(0_u8, |sum, byte| sum.wrapping_add(*byte));
            if behind[0] != sum {
                "the checksum"
            } else {
                "the last byte of a data frame"
            }
        }
        _ => "the first byte",
    }
}

/// How far a frame came that these bytes are the beginning of.
fn broken_off_behind(rest: &[u8]) -> &'static str {
    let length = rest.get(1).map_or(0, |length| usize::from(*length));
    match (rest[0], rest.len()) {
        (0x10, count) => ["10", "C", "the second C"][count - 1],
        (_, count @ 1..=4) => ["68", "L", "the second L", "the head"][count - 1],
        (_, count) if count < 4 + length => "a part of control and data",
        (_, count) if count == 4 + length => "all of control and data",
        _ => "the checksum",
    }
}

/// Counts a reading, by its refusal or by what was read.
pub fn read(counts: &mut Counts, server: &Server, id: u16, read: &Read) {
    let datapoints = &server.datapoints;
    let place = datapoints.iter().position(|datapoint| datapoint.id == id);
    match (read, place) {
        (Err(-1), place) => {
            let count = datapoints.len();
            hit_of(
                counts,
                "readings",
                &[
                    ("refused 1", true),
                    ("refused 1, the ID is absent too", place.is_none()),
                    ("refused 1, 1001 datapoints", count == 1001),
                ],
            );
        }
        (_, Some(at)) => given(counts, server, at, read),
        _ => {
            let lower = datapoints.iter().filter(|datapoint| datapoint.id < id).count();
            let label = match (id, datapoints.len()) {
                (0, _) => "refused 4, ID 0",
                (_, 0) => "refused 4, no datapoint",
                _ if lower == 0 => "refused 4, below the first ID",
                (_, count) if lower == count => "refused 4, above the last ID",
                _ => "refused 4, between two IDs",
            };
            counts.hit("readings", label);
        }
    }
}

/// Counts in this list what is so.
pub fn hit_of(counts: &mut Counts, list: &'static str, labels: &[(&'static str, bool)]) {
    for (label, is_so) in labels {
        if *is_so {
            counts.hit(list, label);
        }
    }
}

/// The reading of the datapoint at this place.
fn given(counts: &mut Counts, server: &Server, at: usize, read: &Read) {
    let (datapoint, count) = (&server.datapoints[at], server.datapoints.len());
    let (is_first, is_last) = (at == 0, at + 1 == count);
    hit_of(
        counts,
        "readings",
        &[
            ("given, the only datapoint", is_first && is_last),
            ("given, the first of several", is_first && !is_last),
            ("given, the last of several", is_last && !is_first),
            ("given, one between", !is_first && !is_last),
            ("given, of 1000 datapoints", count == 1000),
            ("given, a closed datapoint", datapoint.flags & 0x04 == 0),
            ("given, an open datapoint", datapoint.flags & 0x04 != 0),
            ("given, updated and marked", datapoint.state & 0x08 != 0 && datapoint.mark == 1),
            ("given, in mid-frame", server.link.received != 0),
            ("given, something outstanding", server.link.held != 0),
        ],
    );
    let row = match (datapoint.state & 0x10 != 0, read) {
        (true, Ok(Reading::Unreadable)) => 1,
        (true, _) => 0,
        (false, _) => 2,
    };
    let column = match (datapoint.dpt, datapoint.typecode) {
        (1, 0) => 0,
        (5, 7) => 1,
        (9, 8) => 2,
        (14, 10) => 3,
        (1 | 5 | 9 | 14, _) => 4,
        (_, 0 | 7 | 8 | 10) => 5,
        _ => 6,
    };
    counts.cell(READINGS, row, column);
    if row < 2 && column < 4 {
        counts.hit("readings", what_was_read(datapoint, read));
    }
}

/// The value of a datapoint that is valid and of one of the four kinds.
fn what_was_read(datapoint: &Datapoint, read: &Read) -> &'static str {
    let octets = number_at(&datapoint.value, 0);
    let bits = u32::from(octets) << 16 | u32::from(number_at(&datapoint.value, 2));
    match (datapoint.dpt, datapoint.value[0], octets, bits & 0x7FFF_FFFF) {
        (1, _, _, _) if *read == Ok(Reading::Switch(true)) => "a switch that is on",
        (1, _, _, _) => "a switch that is off",
        (5, 0, _, _) => "a count of 0",
        (5, 255, _, _) => "a count of 255",
        (5, _, _, _) => "a count between",
        (9, _, 0x7FFF, _) => "7FFF",
        (9, _, 0x7FFE, _) => "the greatest two-octet value",
        (9, _, 0xF800, _) => "the least two-octet value",
        (9, _, 0x8000.., _) => "a two-octet value below 0",
        (9, _, octets, _) if octets % 2048 == 0 => "a two-octet value of 0",
        (9, _, _, _) => "a two-octet value above 0",
        (_, _, 0x8000.., 0) => "a single of minus 0",
        (_, _, _, 0) => "a single of 0",
        (_, _, _, 1..=0x7F_FFFF) => "a single below the normal ones",
        (_, _, _, 0x7F7F_FFFF) => "the largest single, or minus that",
        (_, _, _, 0x7F80_0000) => "an infinite single",
        (_, _, _, 0x7F80_0001..) => "a single that is not a number",
        _ => "a normal single",
    }
}

/// The sizes that the marked datapoints have in an indication.
pub fn marked_sizes(server: &Server) -> Vec<usize> {
    let marked = server.datapoints.iter().filter(|datapoint| datapoint.mark == 1 && datapoint.typecode < 15);
    marked.map(|datapoint| 4 + SIZES[usize::from(datapoint.typecode)]).collect()
}

pub fn seen(counts: &mut Counts, before: &Link, marks: &[usize], call: &Call, answer: &Answer, after: &Server) {
    let Ok(sent) = answer else {
        return;
    };
    if call.room > 262 {
        counts.hit("other events", "accepted with room above 262");
    }
    match call.event {
        1 => host_byte(counts, before, call.byte, sent, after),
        2 => {
            counts.hit("other events", idle_mark(before));
            if before.held != 0 {
                counts.hit("other events", "idle mark, something outstanding");
            }
        }
        3 => {
            counts.hit("other events", ack_wait(before));
            if before.received != 0 && before.held != 0 {
                counts.hit("other events", "ack wait in mid-frame");
            }
        }
        4 => poll(counts, before, marks, sent, after),
        5 => bus_value(counts, before, call, after),
        _ => {
            let labels = ["outcome sent", "outcome failed", "outcome in progress"];
            counts.hit("other events", labels[usize::from(call.outcome)]);
            count_flags(counts, FLAGS_OUTCOME, call.id, after);
        }
    }
}

/// Counts a datapoint by its config flags.
fn count_flags(counts: &mut Counts, row: usize, id: u16, after: &Server) {
    if let Some(datapoint) = found(&after.datapoints, id) {
        let flags = usize::from(datapoint.flags);
        let others = usize::from(flags & !0x44 != 0);
        counts.cell(FLAGS, row, (flags >> 2 & 1) + (flags >> 6 & 1) * 2 + others * 4);
    }
}

fn idle_mark(before: &Link) -> &'static str {
    match (before.dropping, before.received, before.receiver[0]) {
        (1, _, _) => "idle mark while dropping",
        (_, 0, _) => "idle mark at a frame start",
        (_, _, 0x10) => "idle mark in a fixed frame",
        (_, _, _) => "idle mark in a data frame",
    }
}

fn ack_wait(before: &Link) -> &'static str {
    match (before.held, before.resends, before.send) {
        (0, _, _) => "ack wait, nothing outstanding",
        (_, 0, _) => "ack wait, first resend",
        (_, 1, _) => "ack wait, second resend",
        (_, 2, _) => "ack wait, third resend",
        (_, _, 1) => "ack wait, dropped, send bit odd",
        (_, _, _) => "ack wait, dropped, send bit even",
    }
}

fn poll(counts: &mut Counts, before: &Link, marks: &[usize], sent: &[u8], after: &Server) {
    if before.held != 0 {
        counts.hit(
            "other events",
            if marks.is_empty() {
                "poll, something outstanding, no mark"
            } else {
                "poll, something outstanding, marks"
            },
        );
        return;
    }
    if marks.is_empty() {
        counts.hit("other events", "poll, no mark");
        return;
    }
    if before.received != 0 {
        counts.hit("other events", "poll in mid-frame, indication sent");
    }
    let message = &sent[5..sent.len() - 2];
    if message.len() == 254 {
        counts.hit("other events", "poll, 254 bytes");
    }
    let carried = usize::from(message[4]) * 256 + usize::from(message[5]);
    if carried == marks.len() {
        counts.hit("other events", "poll, all marked are carried");
    } else {
        counts.hit("other events", "poll, some are left over");
        if message.len() + marks[carried] == 255 {
            counts.hit("other events", "poll, the next one would make 255 bytes");
        }
        if marks[carried..].iter().any(|size| message.len() + size <= 254) {
            counts.hit("other events", "poll, a later one that is left over would fit");
        }
    }
    count_values(counts, (INDICATED, FLAGS_INDICATED), message, after);
}

fn bus_value(counts: &mut Counts, before: &Link, call: &Call, after: &Server) {
    counts.hit("other events", "bus value taken");
    if let Some(typecode) = type_of(&after.datapoints, call.id) {
        counts.cell(TYPES, BUS_TAKEN, usize::from(typecode));
    }
    count_flags(counts, FLAGS_BUS_VALUE, call.id, after);
    if before.received != 0 {
        counts.hit("other events", "bus value taken in mid-frame");
    }
    if before.held != 0 {
        counts.hit("other events", "bus value taken, something outstanding");
    }
}

fn host_byte(counts: &mut Counts, before: &Link, byte: u8, sent: &[u8], after: &Server) {
    let hit = |counts: &mut Counts, label| counts.hit("host bytes", label);
    if before.dropping == 1 {
        let label = match byte {
            0xE5 => "E5 while dropping",
            0x10 => "10 while dropping",
            0x68 => "68 while dropping",
            _ => "other byte while dropping",
        };
        return hit(counts, label);
    }
    let gathered = usize::from(before.received);
    let first = if gathered == 0 { byte } else { before.receiver[0] };
    let length = usize::from(before.receiver[1]);
    if after.link.dropping == 1 {
        let place = match (first, gathered) {
            (_, 0) => "the first byte",
            (0x10, 2) => "the second C",
            (0x10, _) => "the last byte of a fixed frame",
            (_, 1) => "L, which is 0",
            (_, 2) => "the second L",
            (_, 3) => "the fourth byte",
            _ if gathered == 4 + length => "the checksum",
            _ => "the last byte of a data frame",
        };
        return counts.hit("damage is found at", place);
    }
    if gathered == 0 && byte == 0xE5 {
        let label = match (before.held, before.send) {
            (0, _) => "E5, nothing outstanding",
            (_, 1) => "E5, something outstanding, send bit odd",
            (_, _) => "E5, something outstanding, send bit even",
        };
        return hit(counts, label);
    }
    if first == 0x10 && gathered == 3 {
        return fixed_frame(counts, before);
    }
    if first == 0x68 && gathered >= 6 && gathered == 5 + length {
        return data_frame(counts, before, &before.receiver[4..4 + length], sent, after);
    }
    if byte == 0xE5 {
        hit(
            counts,
            if before.held == 0 {
                "E5 in mid-frame, nothing outstanding"
            } else {
                "E5 in mid-frame, something outstanding"
            },
        );
    }
    hit(counts, "byte gathered");
}

fn fixed_frame(counts: &mut Counts, before: &Link) {
    let hit = |counts: &mut Counts, label| counts.hit("host bytes", label);
    if before.receiver[1] != 0x40 {
        return hit(counts, "fixed frame with another C");
    }
    if before.held == 0 {
        if before.expected == 0 {
            hit(counts, "reset, nothing outstanding, expected even");
        }
        if before.send == 0 {
            hit(counts, "reset, nothing outstanding, send even");
        }
        if before.expected == 1 && before.send == 1 {
            hit(counts, "reset, nothing outstanding, bits odd odd");
        }
    } else {
        hit(
            counts,
            if before.send == 1 {
                "reset, something outstanding, send bit odd"
            } else {
                "reset, something outstanding, send bit even"
            },
        );
        if before.resends > 0 {
            hit(counts, "reset, something outstanding and sent again");
        }
    }
}

fn data_frame(counts: &mut Counts, before: &Link, control_and_data: &[u8], sent: &[u8], after: &Server) {
    let hit = |counts: &mut Counts, label| counts.hit("host bytes", label);
    match control_and_data.len() {
        0x10 => hit(counts, "a data frame whose L is 10"),
        0x68 => hit(counts, "a data frame whose L is 68"),
        0xE5 => hit(counts, "a data frame whose L is E5"),
        0xFF => hit(counts, "a data frame of 261 bytes"),
        _ => {}
    }
    let message = &control_and_data[1..];
    let odd = match control_and_data[0] {
        0x73 => 1,
        0x53 => 0,
        0xF3 | 0xD3 => return hit(counts, "data frame with a server's control byte"),
        _ => return hit(counts, "data frame with another control byte"),
    };
    let label = match (odd == before.expected, before.held) {
        (true, 0) if sent.len() > 1 => match (before.expected, before.send) {
            (1, 1) => "expected bit, carried out and answered, odd odd",
            (1, _) => "expected bit, carried out and answered, odd even",
            (_, 1) => "expected bit, carried out and answered, even odd",
            (_, _) => "expected bit, carried out and answered, even even",
        },
        (true, 0) if message.is_empty() => "expected bit, no answer: no message (L = 1)",
        (true, 0) if message.len() < 6 => "expected bit, no answer: 1 to 5 bytes",
        (true, 0) if message[0] != 0xF0 => "expected bit, no answer: first byte not F0",
        (true, 0) => "expected bit, no answer: sub 80 and above",
        (true, _) => "expected bit, something outstanding: dropped",
        (false, 0) => "other bit, nothing outstanding",
        (false, _) => "other bit, something outstanding",
    };
    hit(counts, label);
    if sent.len() > 1 {
        answered(counts, message, &sent[6..sent.len() - 2], after);
    }
}

fn number_at(message: &[u8], at: usize) -> u16 {
    u16::from_be_bytes([message[at], message[at + 1]])
}

fn answered(counts: &mut Counts, message: &[u8], answer: &[u8], after: &Server) {
    let sub = message[1];
    let column = if sub <= 8 { usize::from(sub) } else { 0 };
    let (start, number, id) = (number_at(message, 2), number_at(message, 4), number_at(answer, 2));
    let positive = number_at(answer, 4) != 0 || answer[6] == 0;
    let code = if positive { 0 } else { answer[6] };
    let set = sub == 2 || sub == 6 || sub == 8;
    let row = match code {
        5 => 0,
        10 => 1,
        6 if number == 0 => 2,
        6 => 3,
        7 => 4,
        4 => 5,
        8 => row_of_8(message, id, after),
        9 => 8,
        2 => 10,
        3 => 11,
        _ => 13,
    };
    counts.cell(ERRORS, row, column);
    if code == 3 && 6 + requests::size_of_range(after, message, start, id) == 255 {
        counts.cell(ERRORS, 12, column);
    }
    if positive && answer.len() == 254 {
        counts.cell(ERRORS, 14, column);
    }
    if !set && (positive || code == 2 || code == 3) && usize::from(start) + usize::from(number) > 65536 {
        counts.cell(ERRORS, 15, column);
    }
    if sub == 4 && code == 3 {
        strings_too_long(counts, start, id, after);
    }
    if sub == 8 {
        parameter_set(counts, message, code, after.parameters.len());
    } else if set && positive {
        set_carried_out(counts, message, start, after);
    }
    if sub == 6 && (row == 6 || row == 7) {
        bad_command(counts, message, id, after);
    }
    if sub == 6 && (row == 8 || row == 9) {
        bad_entry(counts, message, id, row == 9, after);
    }
    if !positive {
        return;
    }
    match sub {
        3 => {
            if answer.len() == 251 {
                counts.hit("requests carried out", "49 descriptions answered");
            }
            for entry in answer[6..].chunks(5) {
                count_flags(counts, FLAGS_DESCRIBED, number_at(entry, 0), after);
            }
        }
        4 => strings(counts, start, number, answer, after),
        5 => {
            counts.hit(
                "requests carried out",
                ["filter 0 answered", "filter 1 answered", "filter 2 answered"][usize::from(message[6])],
            );
            count_values(counts, (ANSWERED, FLAGS_ANSWERED), answer, after);
        }
        _ => {}
    }
    if !set && number_at(answer, 4) < number {
        counts.hit("requests carried out", "an answer that skips absent IDs");
    }
}

/// What the lists have for the datapoints from start to last.
fn texts_of_range(start: u16, last: u16, after: &Server) -> Vec<Texts> {
    requests::texts(after).into_iter().filter(|text| (start..=last).contains(&text.id)).collect()
}

fn strings_too_long(counts: &mut Counts, start: u16, id: u16, after: &Server) {
    let texts = texts_of_range(start, id, after);
    if texts.len() == 125 && texts.iter().all(|text| text.size() == 0) {
        counts.hit("requests carried out", "125 empty strings: 3");
    }
    if texts.len() == 8 && texts.iter().all(|text| text.size() == 30) {
        counts.hit("requests carried out", "8 texts of 30 bytes: 3");
    }
}

/// Counts the strings of an answer, each by what the lists have for its datapoint; and how the lists lie to the range.
fn strings(counts: &mut Counts, start: u16, number: u16, answer: &[u8], after: &Server) {
    let hit = |counts: &mut Counts, label| counts.hit("requests carried out", label);
    let last = start.saturating_add(number - 1);
    let texts = texts_of_range(start, last, after);
    for text in &texts {
        let kind = |size: Option<usize>| size.map_or(0, |size| 1 + usize::from(size > 0));
        counts.cell(STRINGS, kind(text.default), kind(text.site));
        let from = match (kind(text.site), kind(text.default)) {
            (2, _) => 0,
            (_, 2) => 1,
            _ => 2,
        };
        let column = match text.size() {
            size @ (0 | 1) => size,
            30 => 3,
            _ => 2,
        };
        counts.cell(TEXT_SIZES, from, column);
    }
    if texts.len() == 124 && answer.len() == 254 {
        hit(counts, "124 empty strings answered");
    }
    if texts.len() == 7 && answer.len() == 230 && texts.iter().all(|text| text.size() == 30) {
        hit(counts, "7 texts of 30 bytes answered");
    }
    match (after.site_texts.is_empty(), after.default_texts.is_empty()) {
        (true, true) => hit(counts, "strings answered, neither list has an entry"),
        (false, true) => hit(counts, "strings answered, only the site's list has entries"),
        (true, false) => hit(counts, "strings answered, only the default list has entries"),
        (false, false) => {}
    }
    for list in [&after.site_texts, &after.default_texts] {
        let ids: Vec<u16> = texts_by_id(list).into_keys().collect();
        if ids.first() == Some(&0) {
            hit(counts, "strings answered, a list begins with ID 0");
        }
        if ids.first().is_some_and(|id| *id < start) {
            hit(counts, "strings answered, a list has entries before the range");
        }
        if ids.last().is_some_and(|id| *id > last) {
            hit(counts, "strings answered, a list has entries behind the range");
        }
        if ids.iter().any(|id| (start..=last).contains(id) && found(&after.datapoints, *id).is_none()) {
            hit(counts, "strings answered, a list has an ID in the range that no datapoint has");
        }
        if ids.len() >= 100 {
            hit(counts, "strings answered, a list has 100 entries or more");
        }
    }
}

/// Counts the values in an answer or indication, by their types and by their config flags.
fn count_values(counts: &mut Counts, rows: (usize, usize), message: &[u8], after: &Server) {
    let mut at = 6;
    while at < message.len() {
        let id = number_at(message, at);
        if let Some(typecode) = type_of(&after.datapoints, id) {
            counts.cell(TYPES, rows.0, usize::from(typecode));
        }
        count_flags(counts, rows.1, id, after);
        at += 4 + usize::from(message[at + 3]);
    }
}

/// The entries of a set request that is made of whole ones: ID, command (0 for an item), value.
fn entries(message: &[u8]) -> Vec<(u16, u8, &[u8])> {
    let mut entries = Vec::new();
    let head = if message[1] == 6 { 4 } else { 3 };
    let mut at = 6;
    while at < message.len() {
        let length = usize::from(message[at + head - 1]);
        let command = if head == 4 { message[at + 2] } else { 0 };
        entries.push((number_at(message, at), command, &message[at + head..at + head + length]));
        at += head + length;
    }
    entries
}

/// Which of the rows 8 it was: those before the first bad entry are good, so the first of this ID with a command that
/// is not taken, or with unused bits set, is the bad one.
fn row_of_8(message: &[u8], id: u16, after: &Server) -> usize {
    match (first_bad_value(message, id, after), found(&after.datapoints, id)) {
        (Some((command, _)), Some(datapoint)) if command < 5 && takes(datapoint.flags, command) => 9,
        (Some((command, _)), _) if command < 5 => 7,
        _ => 6,
    }
}

fn first_bad_value<'a>(message: &'a [u8], id: u16, after: &Server) -> Option<(u8, &'a [u8])> {
    let datapoint = found(&after.datapoints, id)?;
    let unused = |value: &[u8]| value.first().is_some_and(|byte| byte & !used_bits(datapoint.typecode) != 0);
    let bad =
        |(at, command, value): &(u16, u8, &[u8])| *at == id && (!takes(datapoint.flags, *command) || unused(value));
    entries(message).into_iter().find(bad).map(|(_, command, value)| (command, value))
}

/// Counts the bad entry of a datapoint set whose command is not taken.
fn bad_command(counts: &mut Counts, message: &[u8], id: u16, after: &Server) {
    let (Some((command, value)), Some(typecode)) =
        (first_bad_value(message, id, after), type_of(&after.datapoints, id))
    else {
        return;
    };
    count_flags(counts, FLAGS_OFF + usize::from(command.min(6)) - 2, id, after);
    if command < 5 && !value.is_empty() && value.len() != SIZES[usize::from(typecode)] {
        count_flags(counts, FLAGS_LENGTH, id, after);
    }
}

/// Counts the bad entry of a datapoint set: unused bits, or its length.
fn bad_entry(counts: &mut Counts, message: &[u8], id: u16, bits: bool, after: &Server) {
    let Some(typecode) = type_of(&after.datapoints, id) else {
        return;
    };
    let column = usize::from(typecode);
    if bits {
        counts.cell(TYPES, SET_BITS, column);
        if let Some((command, _)) = first_bad_value(message, id, after) {
            counts.cell(COMMANDS, 4, usize::from(command));
        }
        return;
    }
    let wrong = |command: u8, length: usize| {
        (length != 0 && length != SIZES[column]) || (length == 0 && (command == 1 || command == 3))
    };
    let found = entries(message).into_iter().find(|(at, command, value)| *at == id && wrong(*command, value.len()));
    if let Some((_, command, value)) = found {
        if value.is_empty() {
            counts.cell(COMMANDS, 3, usize::from(command));
        } else {
            counts.cell(TYPES, SET_LENGTH, column);
            counts.cell(COMMANDS, 2, usize::from(command));
        }
    }
}

fn set_carried_out(counts: &mut Counts, message: &[u8], start: u16, after: &Server) {
    let items = message[1] == 2;
    let entries = entries(message);
    if message.len() == 254 {
        counts.hit("requests carried out", "set of 254 bytes answered");
    }
    if start != entries[0].0 {
        let label = if items {
            "set of items, start is not the first entry's"
        } else {
            "set of datapoints, start is not the first entry's"
        };
        counts.hit("requests carried out", label);
    }
    if entries.iter().enumerate().any(|(at, entry)| entries[..at].iter().any(|before| before.0 == entry.0)) {
        counts.hit(
            "requests carried out",
            if items { "set of items, an ID twice" } else { "set of datapoints, an ID twice" },
        );
    }
    if items {
        return;
    }
    for (id, command, value) in entries {
        counts.cell(COMMANDS, usize::from(value.is_empty()), usize::from(command));
        count_flags(counts, usize::from(command), id, after);
        if command == 1 || command == 3 {
            if let Some(typecode) = type_of(&after.datapoints, id) {
                counts.cell(TYPES, SET_TAKEN, usize::from(typecode));
            }
        }
    }
}

/// Counts the entries of a set of datapoints that was cut.
pub fn cut_entries(counts: &mut Counts, server: &Server, entries: &[Entry]) {
    for entry in entries {
        let kind = cutting::KINDS.iter().position(|kind| *kind == (entry.command, !entry.value.is_empty()));
        if let (Some(row), Some(typecode)) = (kind, type_of(&server.datapoints, entry.id)) {
            counts.cell(CUT_ENTRIES, row, usize::from(typecode));
        }
    }
}

/// Counts a set of parameter bytes, by its code and by how its range lies to a table of so many.
fn parameter_set(counts: &mut Counts, message: &[u8], code: u8, count: usize) {
    let column = match count {
        0 | 1 => count,
        255 => 3,
        _ => 2,
    };
    let (start, number, bytes) =
        (usize::from(number_at(message, 2)), usize::from(number_at(message, 4)), message.len() - 6);
    let mut cell = |row: usize| counts.cell(PARAMETERS, row, column);
    match code {
        10 if bytes == number + 1 => cell(0),
        10 if bytes + 1 == number => cell(1),
        10 => cell(2),
        6 => cell(if start == 0 { 3 } else { 4 }),
        7 if start == 0 => cell(5),
        7 if start == count + 1 => cell(6),
        7 if start == 65535 => cell(8),
        7 if start > count => cell(7),
        7 => cell(if start + number == count + 2 { 9 } else { 10 }),
        _ => {
            cell(if start == 1 { 11 } else { 12 });
            if number == 1 {
                cell(13);
            }
            cell(if start + number == count + 1 { 14 } else { 15 });
            if message.len() == 254 {
                cell(16);
            }
        }
    }
}
