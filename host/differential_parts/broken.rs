//! One broken thing at a time for each clause of a refusal, two and more for their order, and the last things that are
//! still in order.

use crate::bench::{Bench, NO_EVENT};
use crate::frames;
use crate::lent::Call;
use crate::plain::{Link, Server};
use crate::random::Random;
use crate::seen::{BUS_BITS, BUS_LENGTH, TABLE_BITS, TABLE_BYTES, TYPES};
use crate::tables::{self, used_bits, SIZES};

/// What a call is lent and told.
struct Case {
    server: Server,
    call: Call,
    /// Row and column of the matrix of types, where a break is counted there.
    cell: Option<(usize, usize)>,
}

/// Breaks one thing, or says that this case does not have it.
type Breaks = fn(&mut Case, &mut Random) -> Option<()>;

struct Clause {
    label: &'static str,
    number: i32,
    breaks: Breaks,
}

const fn clause(number: i32, label: &'static str, breaks: Breaks) -> Clause {
    Clause { label, number, breaks }
}

const CLAUSES: &[Clause] = &[
    clause(NO_EVENT, "no event: 0, or 7 and above", no_event),
    clause(NO_EVENT, "no event: an outcome above 2", no_outcome),
    clause(-1, "1: 1001 datapoints", datapoints_1001),
    clause(-1, "1: 65 items", items_65),
    clause(-1, "1: 256 parameter bytes", parameters_256),
    clause(-1, "1: datapoint ID 0", datapoint_id_0),
    clause(-1, "1: datapoint IDs equal", datapoint_ids_equal),
    clause(-1, "1: datapoint IDs fall", datapoint_ids_fall),
    clause(-1, "1: type code 15", type_15),
    clause(-1, "1: type code above 15", type_above),
    clause(-1, "1: state bit 5", |case, random| state_bit(case, random, 5)),
    clause(-1, "1: state bit 6", |case, random| state_bit(case, random, 6)),
    clause(-1, "1: state bit 7", |case, random| state_bit(case, random, 7)),
    clause(-1, "1: unused bits of a value", value_bits),
    clause(-1, "1: bytes behind a value", value_bytes),
    clause(-1, "1: a mark that is neither 0 nor 1", mark),
    clause(-1, "1: item ID 0", item_id_0),
    clause(-1, "1: item IDs equal", item_ids_equal),
    clause(-1, "1: item IDs fall", item_ids_fall),
    clause(-1, "1: item length 0", |case, random| item_size(case, random, 0)),
    clause(-1, "1: item length 17", |case, random| item_size(case, random, 17)),
    clause(-1, "1: item length above 17", item_size_above),
    clause(-1, "1: bytes behind an item", item_bytes),
    clause(-1, "1: a writable that is neither 0 nor 1", writable),
    clause(-1, "1: site's texts: a cut entry", |case, random| cut_text(&mut case.server.site_texts, random)),
    clause(-1, "1: site's texts: a length of 31", |case, random| text_size(&mut case.server.site_texts, random, 31)),
    clause(-1, "1: site's texts: a length above 31", |case, random| text_above(&mut case.server.site_texts, random)),
    clause(-1, "1: site's texts: IDs equal", |case, random| text_ids_equal(&mut case.server.site_texts, random)),
    clause(-1, "1: site's texts: IDs fall", |case, random| text_ids_fall(&mut case.server.site_texts, random)),
    clause(-1, "1: site's texts: a byte or two behind", |case, random| {
        behind_texts(&mut case.server.site_texts, random)
    }),
    clause(-1, "1: default texts: a cut entry", |case, random| cut_text(&mut case.server.default_texts, random)),
    clause(-1, "1: default texts: a length of 31", |case, random| {
        text_size(&mut case.server.default_texts, random, 31)
    }),
    clause(-1, "1: default texts: a length above 31", |case, random| {
        text_above(&mut case.server.default_texts, random)
    }),
    clause(-1, "1: default texts: IDs equal", |case, random| text_ids_equal(&mut case.server.default_texts, random)),
    clause(-1, "1: default texts: IDs fall", |case, random| text_ids_fall(&mut case.server.default_texts, random)),
    clause(-1, "1: default texts: a byte or two behind", |case, random| {
        behind_texts(&mut case.server.default_texts, random)
    }),
    clause(-2, "2: received is 261", received_261),
    clause(-2, "2: received above 261", received_above),
    clause(-2, "2: received: first byte", |case, random| received(case, random, "first")),
    clause(-2, "2: received: E5", |case, random| received(case, random, "E5")),
    clause(-2, "2: received: L is 0", |case, random| received(case, random, "L")),
    clause(-2, "2: received: second L", |case, random| received(case, random, "second L")),
    clause(-2, "2: received: fourth byte", |case, random| received(case, random, "fourth")),
    clause(-2, "2: received: checksum", |case, random| received(case, random, "checksum")),
    clause(-2, "2: received: second C", |case, random| received(case, random, "second C")),
    clause(-2, "2: received: a whole data frame", |case, random| received(case, random, "whole data")),
    clause(-2, "2: received: a whole fixed frame", |case, random| received(case, random, "whole fixed")),
    clause(-2, "2: received: a whole data frame but for its 16", |case, random| received(case, random, "last of data")),
    clause(-2, "2: received: a whole fixed frame but for its 16", |case, random| {
        received(case, random, "last of fixed")
    }),
    clause(-2, "2: received: more than a whole frame", |case, random| received(case, random, "more")),
    clause(-2, "2: received is less than the bytes there", received_less),
    clause(-2, "2: received is more than the bytes there", received_more),
    clause(-2, "2: bytes behind the received", receiver_bytes),
    clause(-2, "2: dropping with bytes", dropping_with_bytes),
    clause(-2, "2: dropping, bytes behind", dropping_bytes_behind),
    clause(-2, "2: dropping is neither 0 nor 1", |case, random| link_bit(case, random, |link| &mut link.dropping)),
    clause(-2, "2: expected is neither 0 nor 1", |case, random| link_bit(case, random, |link| &mut link.expected)),
    clause(-2, "2: send is neither 0 nor 1", |case, random| link_bit(case, random, |link| &mut link.send)),
    clause(-2, "2: held is 262", held_262),
    clause(-2, "2: held above 262", held_above),
    clause(-2, "2: outstanding: first byte", |case, random| outstanding(case, random, "first")),
    clause(-2, "2: outstanding: L is 0", |case, random| outstanding(case, random, "L")),
    clause(-2, "2: outstanding: second L", |case, random| outstanding(case, random, "second L")),
    clause(-2, "2: outstanding: fourth byte", |case, random| outstanding(case, random, "fourth")),
    clause(-2, "2: outstanding: checksum", |case, random| outstanding(case, random, "checksum")),
    clause(-2, "2: outstanding: last byte", |case, random| outstanding(case, random, "last")),
    clause(-2, "2: outstanding: not whole", |case, random| outstanding(case, random, "cut")),
    clause(-2, "2: outstanding: more than whole", |case, random| outstanding(case, random, "more")),
    clause(-2, "2: outstanding: a fixed frame", |case, random| outstanding(case, random, "fixed")),
    clause(-2, "2: outstanding: E5", |case, random| outstanding(case, random, "E5")),
    clause(-2, "2: outstanding: a host's control byte", |case, random| outstanding(case, random, "host")),
    clause(-2, "2: outstanding: another control byte", |case, random| outstanding(case, random, "control")),
    clause(-2, "2: outstanding: not under the send bit", |case, random| outstanding(case, random, "send")),
    clause(-2, "2: bytes behind the outstanding", outstanding_bytes),
    clause(-2, "2: nothing outstanding, bytes behind", none_outstanding_bytes),
    clause(-2, "2: resends 4", |case, random| resends(case, random, 4)),
    clause(-2, "2: resends above 4", resends_above),
    clause(-2, "2: nothing outstanding, resends 1 to 3", none_outstanding_resends),
    clause(-2, "2: nothing outstanding, resends above 3", none_outstanding_resends_above),
    clause(-3, "3: room 0", |case, _| room(case, 0)),
    clause(-3, "3: room 1 to 260", |case, random| {
        let count = random.between(1, 260);
        room(case, count)
    }),
    clause(-3, "3: room 261", |case, _| room(case, 261)),
    clause(-4, "4: bus value: ID 0", |case, random| bus_absent(case, random, true)),
    clause(-4, "4: bus value: ID absent", |case, random| bus_absent(case, random, false)),
    clause(-4, "4: bus value: no byte", |case, random| bus_length(case, random, "none")),
    clause(-4, "4: bus value: too short", |case, random| bus_length(case, random, "short")),
    clause(-4, "4: bus value: one byte too long", |case, random| bus_length(case, random, "long")),
    clause(-4, "4: bus value: much too long", |case, random| bus_length(case, random, "longer")),
    clause(-4, "4: bus value: unused bits", bus_bits),
    clause(-4, "4: outcome: ID 0", |case, random| outcome_absent(case, random, true)),
    clause(-4, "4: outcome: ID absent", |case, random| outcome_absent(case, random, false)),
];

const ORDERS: [(&str, &[i32]); 12] = [
    ("no event and 1", &[NO_EVENT, -1]),
    ("no event and 2", &[NO_EVENT, -2]),
    ("no event and 3", &[NO_EVENT, -3]),
    ("no event and 4", &[NO_EVENT, -4]),
    ("1 and 2", &[-1, -2]),
    ("1 and 3", &[-1, -3]),
    ("1 and 4", &[-1, -4]),
    ("2 and 3", &[-2, -3]),
    ("2 and 4", &[-2, -4]),
    ("3 and 4", &[-3, -4]),
    ("2, 3 and 4", &[-2, -3, -4]),
    ("1, 2, 3 and 4", &[-1, -2, -3, -4]),
];

/// The last that is in order: the call is accepted.
const EDGES: &[(&str, Breaks)] = &[
    ("1000 datapoints", |case, random| {
        case.server.datapoints = tables::datapoints(random, 1000);
        Some(())
    }),
    ("64 items", |case, random| {
        case.server.items = tables::items(random, 64);
        Some(())
    }),
    ("255 parameter bytes", |case, random| {
        case.server.parameters = random.bytes(255);
        Some(())
    }),
    ("IDs 1 and 65535", |case, random| {
        case.server.datapoints = tables::datapoints(random, 2);
        case.server.datapoints[0].id = 1;
        case.server.datapoints[1].id = 65535;
        Some(())
    }),
    ("every bit of a value and of state bits 4 to 0", |case, random| {
        let at = any(random, case.server.datapoints.len())?;
        let datapoint = &mut case.server.datapoints[at];
        datapoint.state = 0x1F;
        datapoint.value[..SIZES[usize::from(datapoint.typecode)]].fill(0xFF);
        datapoint.value[0] &= used_bits(datapoint.typecode);
        Some(())
    }),
    ("type code 14", |case, random| {
        let at = any(random, case.server.datapoints.len())?;
        case.server.datapoints[at].typecode = 14;
        Some(())
    }),
    ("item lengths 1 and 16", |case, random| {
        case.server.items = tables::items(random, 2);
        case.server.items[0].size = 1;
        case.server.items[0].bytes = [0; 16];
        case.server.items[1].size = 16;
        case.server.items[1].bytes = [0xFF; 16];
        Some(())
    }),
    ("texts of 0 and 30 bytes, IDs 0 and 65535", |case, random| {
        let list = tables::text_list(&[(0, random.bytes(30)), (1, Vec::new()), (65535, random.bytes(30))]);
        *one_list(&mut case.server, random.coin()) = list;
        Some(())
    }),
    ("a list of 1000 texts", |case, random| {
        let list: Vec<(u16, Vec<u8>)> = tables::ids(random, 1000).into_iter().map(|id| (id, random.bytes(9))).collect();
        *one_list(&mut case.server, random.coin()) = tables::text_list(&list);
        Some(())
    }),
    ("texts without a datapoint", |case, random| {
        case.server.datapoints.clear();
        let list: Vec<(u16, Vec<u8>)> = tables::ids(random, 5).into_iter().map(|id| (id, random.bytes(5))).collect();
        *one_list(&mut case.server, random.coin()) = tables::text_list(&list);
        Some(())
    }),
    ("the same list twice", |case, _| {
        case.server.default_texts = case.server.site_texts.clone();
        Some(())
    }),
    ("no list", |case, _| {
        case.server.site_texts.clear();
        case.server.default_texts.clear();
        Some(())
    }),
    ("received 260", |case, random| {
        let message = random.bytes(254);
        let frame = frames::data(random.byte(), &message);
        case.server.link.dropping = 0;
        frames::set_receiver(&mut case.server.link, &frame[..260]);
        Some(())
    }),
    ("held 261", |case, random| {
        let message = random.bytes(254);
        let frame = frames::data(frames::server_control(case.server.link.send), &message);
        frames::set_outstanding(&mut case.server.link, &frame);
        Some(())
    }),
    ("held 7, no message", |case, _| {
        let frame = frames::data(frames::server_control(case.server.link.send), &[]);
        frames::set_outstanding(&mut case.server.link, &frame);
        Some(())
    }),
    ("resends 3", |case, random| {
        hold(case, random);
        case.server.link.resends = 3;
        Some(())
    }),
    ("dropping, something outstanding", |case, random| {
        hold(case, random);
        frames::set_receiver(&mut case.server.link, &[]);
        case.server.link.dropping = 1;
        Some(())
    }),
    ("room 262", |case, _| room(case, 262)),
];

pub fn lists() -> Vec<(&'static str, Vec<&'static str>)> {
    vec![
        ("refusals, one broken thing", CLAUSES.iter().map(|clause| clause.label).collect()),
        ("readings, one broken thing", CLAUSES.iter().map(|clause| clause.label).collect()),
        ("refusals, several at once: the first named", ORDERS.iter().map(|(label, _)| *label).collect()),
        ("in order, the last that is", EDGES.iter().map(|(label, _)| *label).collect()),
    ]
}

/// Some such calls. Tables and link record are afterwards as they were.
pub fn some(bench: &mut Bench) {
    let before = bench.server.clone();
    for _ in 0..8 {
        let case = base(bench);
        match bench.random.below(10) {
            0..=5 => one(bench, case),
            6 | 7 => several(bench, case),
            8 => edge(bench, case),
            _ => repeated(bench, case),
        }
        bench.server = before.clone();
    }
    bench.lend();
}

/// A case in order: the walk's own tables if they are small, or others.
fn base(bench: &mut Bench) -> Case {
    let random = &mut bench.random;
    let mut server = if bench.server.datapoints.len() < 100 && random.coin() {
        bench.server.clone()
    } else {
        let (datapoints, items, parameters) = (random.below(8), random.below(8), random.below(8));
        let datapoints = tables::datapoints(random, datapoints);
        let (site_texts, default_texts) = tables::both_texts(random, &datapoints);
        Server {
            datapoints,
            items: tables::items(random, items),
            parameters: random.bytes(parameters),
            site_texts,
            default_texts,
            link: bench.server.link.clone(),
        }
    };
    if random.coin() {
        server.link = frames::link(random);
    }
    let event = random.between(1, 6) as u8;
    let mut call = Call {
        event,
        byte: random.byte_like(&[0xE5, 0x68, 0x10, 0x16]),
        id: 0,
        outcome: random.below(3) as u8,
        value: Vec::new(),
        room: 262,
    };
    if event >= 5 {
        match any(random, server.datapoints.len()) {
            None => call.event = 4,
            Some(at) => {
                call.id = server.datapoints[at].id;
                call.value = tables::value(random, server.datapoints[at].typecode);
            }
        }
    }
    let call = bench.filled(call);
    Case { server, call, cell: None }
}

/// Lends the case and calls: the answer is the one expected.
fn expect(bench: &mut Bench, case: &Case, label: &'static str, number: Option<i32>) {
    bench.server = case.server.clone();
    bench.lend();
    let answer = bench.call(&case.call);
    if answer.as_ref().err().copied() != number {
        bench.missed(label, &answer);
    }
}

fn break_by(case: &mut Case, random: &mut Random, clause: &Clause) -> bool {
    // the large tables are rarer
    let large = clause.breaks as usize == datapoints_1001 as *const () as usize;
    !(large && !random.one_in(4)) && (clause.breaks)(case, random).is_some()
}

fn one(bench: &mut Bench, mut case: Case) {
    let clause = &CLAUSES[bench.random.below(CLAUSES.len())];
    let datapoints = case.server.datapoints.clone();
    if break_by(&mut case, &mut bench.random, clause) {
        expect(bench, &case, clause.label, Some(clause.number));
        bench.counts.hit("refusals, one broken thing", clause.label);
        if let Some((row, column)) = case.cell {
            bench.counts.cell(TYPES, row, column);
        }
        read_beside(bench, clause, datapoints != case.server.datapoints);
    }
}

/// The call was refused, so that the broken thing stands. A reading is refused for it with 1 where it stands among the
/// datapoints, also where the ID is absent; and nothing else is looked at for a reading.
fn read_beside(bench: &mut Bench, clause: &Clause, among_datapoints: bool) {
    let id = bench.some_id();
    let read = bench.read(id);
    if (read == Err(-1)) != among_datapoints {
        bench.misread("1 for a table of datapoints that is not well formed, and for nothing else", &read);
    }
    bench.counts.hit("readings, one broken thing", clause.label);
}

fn several(bench: &mut Bench, mut case: Case) {
    let (label, numbers) = bench.random.pick(&ORDERS);
    // the highest first: what breaks a bus event looks at the tables
    for number in [-4, -3, -2, -1, NO_EVENT] {
        if numbers.contains(&number) {
            let with_four = number == NO_EVENT && numbers.contains(&-4);
            let clauses: Vec<&Clause> = CLAUSES.iter().filter(|clause| clause.number == number).collect();
            let clause = if with_four { clauses[1] } else { bench.random.pick(&clauses) };
            let ready = !with_four || case.call.event == 6;
            if !ready || !break_by(&mut case, &mut bench.random, clause) {
                return;
            }
        }
    }
    expect(bench, &case, label, Some(numbers[0]));
    bench.counts.hit("refusals, several at once: the first named", label);
}

fn edge(bench: &mut Bench, mut case: Case) {
    let (label, changes) = bench.random.pick(EDGES);
    if label == "1000 datapoints" && !bench.random.one_in(4) {
        return;
    }
    if case.call.event >= 5 {
        case.call.event = bench.random.between(1, 4) as u8;
    }
    if changes(&mut case, &mut bench.random).is_some() {
        expect(bench, &case, label, None);
        bench.counts.hit("in order, the last that is", label);
    }
}

/// Broken, and called with several events one after the other: the refusal is the same and leaves all as it was.
fn repeated(bench: &mut Bench, mut case: Case) {
    let clause = &CLAUSES[bench.random.below(CLAUSES.len())];
    if (clause.number != -1 && clause.number != -2) || !break_by(&mut case, &mut bench.random, clause) {
        return;
    }
    expect(bench, &case, clause.label, Some(clause.number));
    for event in 1..=6 {
        let call = bench.filled(Call { event, outcome: 0, room: 262, ..case.call.clone() });
        let answer = bench.call(&call);
        if answer != Err(clause.number) {
            bench.missed(clause.label, &answer);
        }
    }
}

fn any(random: &mut Random, count: usize) -> Option<usize> {
    (count > 0).then(|| if random.one_in(3) { count - 1 } else { random.below(count) })
}

// -------------------------------------------------------------------------------------------------------------- tables

fn no_event(case: &mut Case, random: &mut Random) -> Option<()> {
    case.call.event = if random.one_in(4) { 0 } else { random.edgy(7, 255) as u8 };
    Some(())
}

fn no_outcome(case: &mut Case, random: &mut Random) -> Option<()> {
    case.call.event = 6;
    case.call.outcome = random.edgy(3, 255) as u8;
    Some(())
}

fn datapoints_1001(case: &mut Case, random: &mut Random) -> Option<()> {
    let count = 1001 + random.pick(&[0, 0, 0, 23, 40]);
    case.server.datapoints = tables::datapoints(random, count);
    Some(())
}

fn items_65(case: &mut Case, random: &mut Random) -> Option<()> {
    let count = 65 + random.pick(&[0, 0, 0, 1, 5]);
    case.server.items = tables::items(random, count);
    Some(())
}

fn parameters_256(case: &mut Case, random: &mut Random) -> Option<()> {
    let count = 256 + random.pick(&[0, 0, 0, 1, 44, 256]);
    case.server.parameters = random.bytes(count);
    Some(())
}

fn datapoint_id_0(case: &mut Case, _: &mut Random) -> Option<()> {
    case.server.datapoints.first_mut()?.id = 0;
    Some(())
}

fn item_id_0(case: &mut Case, _: &mut Random) -> Option<()> {
    case.server.items.first_mut()?.id = 0;
    Some(())
}

fn datapoint_ids_equal(case: &mut Case, random: &mut Random) -> Option<()> {
    let at = any(random, case.server.datapoints.len().checked_sub(1)?)?;
    case.server.datapoints[at + 1].id = case.server.datapoints[at].id;
    Some(())
}

fn item_ids_equal(case: &mut Case, random: &mut Random) -> Option<()> {
    let at = any(random, case.server.items.len().checked_sub(1)?)?;
    case.server.items[at + 1].id = case.server.items[at].id;
    Some(())
}

/// An ID below this one, 1 or more.
fn lower(random: &mut Random, id: u16) -> Option<u16> {
    (id > 1).then(|| if random.coin() { id - 1 } else { random.between(1, usize::from(id) - 1) as u16 })
}

fn datapoint_ids_fall(case: &mut Case, random: &mut Random) -> Option<()> {
    let at = any(random, case.server.datapoints.len().checked_sub(1)?)?;
    case.server.datapoints[at + 1].id = lower(random, case.server.datapoints[at].id)?;
    Some(())
}

fn item_ids_fall(case: &mut Case, random: &mut Random) -> Option<()> {
    let at = any(random, case.server.items.len().checked_sub(1)?)?;
    case.server.items[at + 1].id = lower(random, case.server.items[at].id)?;
    Some(())
}

fn type_15(case: &mut Case, random: &mut Random) -> Option<()> {
    let at = any(random, case.server.datapoints.len())?;
    case.server.datapoints[at].typecode = 15;
    Some(())
}

fn type_above(case: &mut Case, random: &mut Random) -> Option<()> {
    let at = any(random, case.server.datapoints.len())?;
    case.server.datapoints[at].typecode = random.between(16, 255) as u8;
    if random.coin() {
        case.server.datapoints[at].value = [0; 14];
    }
    Some(())
}

fn state_bit(case: &mut Case, random: &mut Random, bit: u8) -> Option<()> {
    let at = any(random, case.server.datapoints.len())?;
    case.server.datapoints[at].state |= 1 << bit;
    Some(())
}

/// One of the bits that are set here.
fn one_bit(random: &mut Random, bits: u8) -> u8 {
    loop {
        let bit = 1 << random.below(8);
        if bits & bit != 0 {
            return bit;
        }
    }
}

fn value_bits(case: &mut Case, random: &mut Random) -> Option<()> {
    let at = any(random, case.server.datapoints.len())?;
    let typecode = random.below(7) as u8;
    let used = used_bits(typecode);
    let datapoint = &mut case.server.datapoints[at];
    datapoint.typecode = typecode;
    datapoint.value = [0; 14];
    datapoint.value[0] = random.byte() & used | one_bit(random, !used);
    case.cell = Some((TABLE_BITS, usize::from(typecode)));
    Some(())
}

fn value_bytes(case: &mut Case, random: &mut Random) -> Option<()> {
    let at = any(random, case.server.datapoints.len())?;
    let typecode = random.below(14) as u8;
    let size = SIZES[usize::from(typecode)];
    let value = tables::value(random, typecode);
    let datapoint = &mut case.server.datapoints[at];
    datapoint.typecode = typecode;
    datapoint.value = [0; 14];
    datapoint.value[..size].copy_from_slice(&value);
    datapoint.value[random.edgy(size, 13)] = random.some_byte();
    case.cell = Some((TABLE_BYTES, usize::from(typecode)));
    Some(())
}

fn item_size(case: &mut Case, random: &mut Random, size: u8) -> Option<()> {
    let at = any(random, case.server.items.len())?;
    case.server.items[at].size = size;
    if size == 0 {
        case.server.items[at].bytes = [0; 16];
    }
    Some(())
}

fn item_size_above(case: &mut Case, random: &mut Random) -> Option<()> {
    let size = random.between(18, 255) as u8;
    item_size(case, random, size)
}

fn item_bytes(case: &mut Case, random: &mut Random) -> Option<()> {
    let at = any(random, case.server.items.len())?;
    let item = &mut case.server.items[at];
    if item.size == 16 {
        item.size = 15;
        item.bytes[15] = 0;
    }
    let size = usize::from(item.size);
    item.bytes[random.edgy(size, 15)] = random.some_byte();
    Some(())
}

fn mark(case: &mut Case, random: &mut Random) -> Option<()> {
    let at = any(random, case.server.datapoints.len())?;
    case.server.datapoints[at].mark = random.no_bit();
    Some(())
}

fn writable(case: &mut Case, random: &mut Random) -> Option<()> {
    let at = any(random, case.server.items.len())?;
    case.server.items[at].writable = random.no_bit();
    Some(())
}

fn one_list(server: &mut Server, site: bool) -> &mut Vec<u8> {
    if site {
        &mut server.site_texts
    } else {
        &mut server.default_texts
    }
}

/// The place of an entry of a list that is in order.
fn text_place(list: &[u8], random: &mut Random) -> Option<usize> {
    let places = tables::text_places(list);
    Some(places[any(random, places.len())?])
}

/// The list ends in mid-entry.
fn cut_text(list: &mut Vec<u8>, random: &mut Random) -> Option<()> {
    let at = text_place(list, random)?;
    let size = 3 + usize::from(list[at + 2]);
    list.truncate(at + random.edgy(1, size - 1));
    Some(())
}

/// A text of this many bytes, which are there, and the entries behind it.
fn text_size(list: &mut Vec<u8>, random: &mut Random, size: u8) -> Option<()> {
    let at = text_place(list, random)?;
    let text = random.bytes(usize::from(size));
    let end = at + 3 + usize::from(list[at + 2]);
    list.splice(at + 3..end, text);
    list[at + 2] = size;
    Some(())
}

fn text_above(list: &mut Vec<u8>, random: &mut Random) -> Option<()> {
    let size = random.edgy(32, 255) as u8;
    text_size(list, random, size)
}

/// Two entries, one behind the other: where they begin.
fn two_texts(list: &[u8], random: &mut Random) -> Option<(usize, usize)> {
    let places = tables::text_places(list);
    let at = any(random, places.len().checked_sub(1)?)?;
    Some((places[at], places[at + 1]))
}

fn text_ids_equal(list: &mut [u8], random: &mut Random) -> Option<()> {
    let (first, second) = two_texts(list, random)?;
    list.copy_within(first..first + 2, second);
    Some(())
}

/// An ID below the one before it, 0 too.
fn text_ids_fall(list: &mut [u8], random: &mut Random) -> Option<()> {
    let (first, second) = two_texts(list, random)?;
    let id = u16::from_be_bytes([list[first], list[first + 1]]);
    let lower = if random.coin() { id.checked_sub(1)? } else { random.edgy(0, usize::from(id.checked_sub(1)?)) as u16 };
    list[second..second + 2].copy_from_slice(&lower.to_be_bytes());
    Some(())
}

/// What is behind the last entry is too short for an entry, an ID that would rise or not.
fn behind_texts(list: &mut Vec<u8>, random: &mut Random) -> Option<()> {
    let count = random.between(1, 2);
    list.extend(if random.coin() { vec![0xFF; count] } else { random.bytes(count) });
    Some(())
}

// --------------------------------------------------------------------------------------------------------- link record

fn link_bit(case: &mut Case, random: &mut Random, field: fn(&mut Link) -> &mut u8) -> Option<()> {
    *field(&mut case.server.link) = random.no_bit();
    Some(())
}

/// Bytes as the receiver has them, whatever they are.
fn receive(case: &mut Case, bytes: &[u8]) -> Option<()> {
    case.server.link.dropping = 0;
    frames::set_receiver(&mut case.server.link, bytes);
    Some(())
}

/// A data frame of at most 260 bytes.
fn some_frame(random: &mut Random) -> Vec<u8> {
    let mut frame = frames::any_data(random);
    while frame.len() > 260 {
        frame = frames::any_data(random);
    }
    frame
}

/// The receiver's bytes break the forms, or are more than a beginning.
fn received(case: &mut Case, random: &mut Random, what: &str) -> Option<()> {
    let mut bytes =
        if what.ends_with("fixed") || what == "second C" { frames::fixed(random.byte()) } else { some_frame(random) };
    let length = bytes.len();
    let (place, keep) = match what {
        "first" => (Some(0), random.between(1, length - 1)),
        "E5" => return receive(case, &[0xE5]),
        "L" => {
            bytes[1..3].fill(0);
            (None, random.between(2, length - 1))
        }
        "second L" => (Some(2), random.between(3, length - 1)),
        "fourth" => (Some(3), random.between(4, length - 1)),
        "checksum" => (Some(length - 2), length - 1),
        "second C" => (Some(2), 3),
        "whole data" | "whole fixed" => (None, length),
        "last of data" | "last of fixed" => (Some(length - 1), length),
        _ => {
            let mut more = if random.coin() { frames::fixed(random.byte()) } else { some_frame(random) };
            let behind = random.between(1, 20);
            more.extend(random.bytes(behind));
            more.truncate(260);
            return receive(case, &more);
        }
    };
    if let Some(place) = place {
        bytes[place] = match place {
            0 => loop {
                let first = random.byte();
                if ![0xE5, 0x10, 0x68].contains(&first) {
                    break first;
                }
            },
            _ => random.byte_but(bytes[place]),
        };
    }
    receive(case, &bytes[..keep])
}

fn received_261(case: &mut Case, random: &mut Random) -> Option<()> {
    let message = random.bytes(254);
    receive(case, &frames::data(0x73, &message)[..260]);
    case.server.link.received = 261;
    Some(())
}

fn received_above(case: &mut Case, random: &mut Random) -> Option<()> {
    if random.coin() {
        received_261(case, random);
    }
    case.server.link.received = if random.one_in(5) { 0x0100 + 260 } else { random.edgy(262, 65535) as u16 };
    Some(())
}

/// The length byte says less than there is: bytes behind are not 0.
fn received_less(case: &mut Case, random: &mut Random) -> Option<()> {
    let frame = some_frame(random);
    receive(case, &frame[..frame.len() - 1]);
    // the last byte counted is not 0, so that it is a byte behind when it is no longer counted
    let last = (1..frame.len() - 1).rev().find(|at| frame[*at] != 0)?;
    case.server.link.received = random.between(1, last) as u16;
    Some(())
}

/// The length byte says more than there is: zeros are counted that break the form.
fn received_more(case: &mut Case, random: &mut Random) -> Option<()> {
    receive(case, &[random.pick(&[0x68, 0x10])]);
    let count = random.between(4, 260);
    case.server.link.received = count as u16;
    Some(())
}

fn receiver_bytes(case: &mut Case, random: &mut Random) -> Option<()> {
    let bytes = frames::beginning(random);
    let count = bytes.len();
    if count == 260 {
        return None;
    }
    receive(case, &bytes);
    case.server.link.receiver[random.edgy(count, 259)] = random.some_byte();
    Some(())
}

fn dropping_with_bytes(case: &mut Case, random: &mut Random) -> Option<()> {
    let bytes = frames::beginning(random);
    if bytes.is_empty() {
        return None;
    }
    receive(case, &bytes);
    case.server.link.dropping = 1;
    Some(())
}

fn dropping_bytes_behind(case: &mut Case, random: &mut Random) -> Option<()> {
    receive(case, &[]);
    case.server.link.dropping = 1;
    case.server.link.receiver[random.edgy(0, 259)] = random.some_byte();
    Some(())
}

/// Something outstanding, in order.
fn hold(case: &mut Case, random: &mut Random) {
    let frame = frames::server_frame(random, case.server.link.send);
    frames::set_outstanding(&mut case.server.link, &frame);
    case.server.link.resends = random.below(4) as u8;
}

fn hold_nothing(link: &mut Link) {
    frames::set_outstanding(link, &[]);
    link.resends = 0;
}

fn held_262(case: &mut Case, random: &mut Random) -> Option<()> {
    let message = random.bytes(254);
    let frame = frames::data(frames::server_control(case.server.link.send), &message);
    frames::set_outstanding(&mut case.server.link, &frame);
    case.server.link.held = 262;
    Some(())
}

fn held_above(case: &mut Case, random: &mut Random) -> Option<()> {
    if random.coin() {
        held_262(case, random);
    }
    case.server.link.held = if random.one_in(5) { 0x0100 + 261 } else { random.edgy(263, 65535) as u16 };
    Some(())
}

/// What is outstanding is no whole server data frame under the send bit.
fn outstanding(case: &mut Case, random: &mut Random, what: &str) -> Option<()> {
    hold(case, random);
    let link = &mut case.server.link;
    let held = usize::from(link.held);
    let mut bytes = link.outstanding[..held].to_vec();
    match what {
        "first" => bytes[0] = random.byte_but(0x68),
        "L" => bytes[1..3].fill(0),
        "second L" => bytes[2] = random.byte_but(bytes[2]),
        "fourth" => bytes[3] = random.byte_but(0x68),
        "checksum" => bytes[held - 2] = random.byte_but(bytes[held - 2]),
        "last" => bytes[held - 1] = random.byte_but(0x16),
        "cut" => bytes.truncate(if random.coin() { held - 1 } else { random.between(1, held - 1) }),
        "more" => {
            let more = random.pick(&[1, 1, 2, 7]);
            bytes.extend(if random.coin() { vec![0; more] } else { random.bytes(more) });
            if bytes.len() > 261 {
                return None;
            }
        }
        "fixed" => bytes = frames::fixed(random.byte_like(&[0x40, 0xC0])),
        "E5" => bytes = vec![0xE5],
        _ => {
            let control = match what {
                "host" => frames::host_control(random.bit()),
                "send" => frames::server_control(1 - link.send),
                _ => loop {
                    let control = random.byte();
                    if ![0x73, 0x53, 0xF3, 0xD3].contains(&control) {
                        break control;
                    }
                },
            };
            bytes = frames::data(control, &bytes[5..held - 2]);
        }
    }
    frames::set_outstanding(link, &bytes);
    Some(())
}

fn outstanding_bytes(case: &mut Case, random: &mut Random) -> Option<()> {
    hold(case, random);
    let held = usize::from(case.server.link.held);
    if held == 261 {
        return None;
    }
    case.server.link.outstanding[random.edgy(held, 260)] = random.some_byte();
    Some(())
}

fn none_outstanding_bytes(case: &mut Case, random: &mut Random) -> Option<()> {
    if random.coin() {
        hold(case, random);
        case.server.link.resends = 0;
        case.server.link.held = 0;
    } else {
        hold_nothing(&mut case.server.link);
        case.server.link.outstanding[random.edgy(0, 260)] = random.some_byte();
    }
    Some(())
}

fn resends(case: &mut Case, random: &mut Random, count: u8) -> Option<()> {
    hold(case, random);
    case.server.link.resends = count;
    Some(())
}

fn resends_above(case: &mut Case, random: &mut Random) -> Option<()> {
    let count = random.between(5, 255) as u8;
    resends(case, random, count)
}

fn none_outstanding_resends(case: &mut Case, random: &mut Random) -> Option<()> {
    hold_nothing(&mut case.server.link);
    case.server.link.resends = random.between(1, 3) as u8;
    Some(())
}

fn none_outstanding_resends_above(case: &mut Case, random: &mut Random) -> Option<()> {
    hold_nothing(&mut case.server.link);
    case.server.link.resends = random.between(4, 255) as u8;
    Some(())
}

// ---------------------------------------------------------------------------------------------------- room, bus events

fn room(case: &mut Case, count: usize) -> Option<()> {
    case.call.room = count;
    Some(())
}

fn bus_absent(case: &mut Case, random: &mut Random, zero: bool) -> Option<()> {
    case.call.event = 5;
    case.call.id = if zero { 0 } else { tables::absent_datapoint(random, &case.server.datapoints)? };
    let length = random.below(15);
    case.call.value = random.bytes(length);
    Some(())
}

fn bus_length(case: &mut Case, random: &mut Random, what: &str) -> Option<()> {
    let at = any(random, case.server.datapoints.len())?;
    let datapoint = &case.server.datapoints[at];
    let size = SIZES[usize::from(datapoint.typecode)];
    let length = match what {
        "none" => 0,
        "short" if size == 1 => return None,
        "short" => random.edgy(1, size - 1),
        "long" => size + 1,
        _ => random.pick(&[size + 2, size + 16, 256, 256 + size]),
    };
    case.call.event = 5;
    case.call.id = datapoint.id;
    case.call.value = if random.coin() { vec![0; length] } else { random.bytes(length) };
    case.cell = Some((BUS_LENGTH, usize::from(datapoint.typecode)));
    Some(())
}

fn bus_bits(case: &mut Case, random: &mut Random) -> Option<()> {
    let narrow: Vec<usize> =
        (0..case.server.datapoints.len()).filter(|at| case.server.datapoints[*at].typecode < 7).collect();
    let at = narrow[any(random, narrow.len())?];
    let datapoint = &case.server.datapoints[at];
    let used = used_bits(datapoint.typecode);
    case.call.event = 5;
    case.call.id = datapoint.id;
    case.call.value = vec![random.byte() & used | one_bit(random, !used)];
    case.cell = Some((BUS_BITS, usize::from(datapoint.typecode)));
    Some(())
}

fn outcome_absent(case: &mut Case, random: &mut Random, zero: bool) -> Option<()> {
    case.call.event = 6;
    case.call.id = if zero { 0 } else { tables::absent_datapoint(random, &case.server.datapoints)? };
    case.call.outcome = random.below(3) as u8;
    Some(())
}
