//! An episode: random tables, and events as a host, a bus and a line with faults bring them, one after the other.

use crate::bench::Bench;
use crate::plain::Reading;
use crate::requests::{self, Request, Wants};
use crate::{broken, bursts, cutting, frames, garbage, tables};

pub fn lists() -> Vec<(&'static str, Vec<&'static str>)> {
    vec![("damage, by what happened to the frame", DAMAGE.to_vec()), ("on the way", ON_THE_WAY.to_vec())]
}

const DAMAGE: [&str; 16] = [
    "a byte changed",
    "L changed to 0",
    "a byte lost",
    "a byte added",
    "several bytes changed",
    "cut, then an idle mark",
    "cut, then another frame",
    "idle mark at a byte's place",
    "a whole frame spelled inside a damaged one",
    "any bytes",
    "E5 for the first byte, something outstanding",
    "E5 for the first byte, nothing outstanding",
    "first byte lost before L = E5, something outstanding",
    "first byte lost before L = E5, nothing outstanding",
    "E5-led, message begins F0",
    "E5-led, a whole frame spelled inside",
];

const ON_THE_WAY: [&str; 15] = [
    "the same frame again",
    "the same frame again, its answer still outstanding",
    "sound frame behind damage, without an idle mark",
    "sound frame behind damage and an idle mark",
    "two frames without a gap",
    "another event in mid-frame",
    "link record replaced by another in range",
    "tables altered by their owner",
    "bus value equal to the one there",
    "bus value, mark set already",
    "a bus value, and its reading at once",
    "1000 datapoints, 64 items or 255 parameter bytes, a request carried out",
    "no datapoint, item or parameter byte, a request carried out",
    "parameter bytes set, and got at once",
    "parameter bytes set, and got behind other events",
];

pub fn episode(bench: &mut Bench) {
    let link = if bench.random.coin() { frames::fresh() } else { frames::link(&mut bench.random) };
    bench.server = tables::server(&mut bench.random, link);
    bench.lend_anew();
    if bench.random.coin() {
        // whatever stood there
        bench.server.link = garbage::any_link(&mut bench.random);
        bench.lend_link();
        bench.fresh_link();
    }
    let most = if bench.server.datapoints.len() > 150 { 150 } else { 900 };
    let until = bench.calls + bench.random.between(50, most) as u64;
    while bench.calls < until {
        step(bench);
    }
}

fn step(bench: &mut Bench) {
    match bench.random.below(106) {
        0..=43 => ask(bench),
        44..=53 => damage(bench),
        54..=56 => led_by_e5(bench),
        57..=59 => fixed_frame(bench),
        60..=61 => ignored_frame(bench),
        62..=65 => ack_waits(bench),
        66..=71 => polls(bench),
        72..=77 => bus_values(bench),
        78..=79 => outcome(bench),
        80..=81 => acknowledge(bench),
        82..=83 => bench.idle_mark(),
        84..=86 => replace_link(bench),
        87..=88 => alter_tables(bench),
        89..=97 => broken::some(bench),
        98..=99 => garbage::some(bench),
        100..=101 => readings(bench),
        102..=103 => bursts::some(bench),
        _ => cutting::some(bench),
    }
}

// ---------------------------------------------------------------------------------------------------------- deliveries

fn at_start(bench: &Bench) -> bool {
    bench.server.link.received == 0 && bench.server.link.dropping == 0
}

/// Mostly lets the line fall silent before a frame, where it has to.
fn maybe_to_start(bench: &mut Bench) {
    if !at_start(bench) && !bench.random.one_in(5) {
        bench.idle_mark();
    }
}

/// Brings the bytes, of which the first `sound` are a beginning: one by one, or those at once in the link record. Gives
/// what is sent for the last, and whether all came and no other event came between.
fn deliver(bench: &mut Bench, bytes: &[u8], sound: usize) -> (Vec<u8>, bool) {
    let mut at = 0;
    let mode = bench.random.below(8);
    if sound > 6 && at_start(bench) && mode > 0 {
        at = if mode == 1 { bench.random.between(1, sound) } else { sound - bench.random.below(3) };
        frames::set_receiver(&mut bench.server.link, &bytes[..at]);
        bench.lend_link();
    }
    let asides = bench.random.one_in(5);
    let mut quiet = true;
    let mut sent = Vec::new();
    let mut dropped = 0;
    while at < bytes.len() {
        // mostly, a few of the bytes that are dropped are enough
        dropped += usize::from(bench.server.link.dropping);
        if dropped > 9 && mode > 0 {
            return (Vec::new(), false);
        }
        if asides && at > 0 && bench.random.one_in(20) {
            aside(bench);
            quiet = false;
        }
        sent = bench.byte(bytes[at]);
        at += 1;
    }
    (sent, quiet)
}

/// An event that does not look at the receiver.
fn aside(bench: &mut Bench) {
    bench.counts.hit("on the way", "another event in mid-frame");
    match bench.random.below(4) {
        0 => bench.poll(),
        1 => bench.ack_wait_over(),
        2 => bus_values(bench),
        _ => outcome(bench),
    }
}

fn acknowledge(bench: &mut Bench) {
    maybe_to_start(bench);
    bench.byte(0xE5);
}

fn frame_of(bench: &mut Bench, message: &[u8]) -> Vec<u8> {
    let other = bench.random.one_in(16);
    frames::data(frames::host_control(bench.server.link.expected ^ u8::from(other)), message)
}

fn ask(bench: &mut Bench) {
    if bench.server.link.held != 0 && !bench.random.one_in(8) {
        acknowledge(bench);
    }
    let request = requests::request(&mut bench.random, &bench.server);
    let frame = frame_of(bench, &request.message);
    maybe_to_start(bench);
    let link = &bench.server.link;
    let carried = at_start(bench) && link.held == 0 && frame[4] == frames::host_control(link.expected);
    let (sent, quiet) = deliver(bench, &frame, frame.len() - 1);
    if carried && quiet {
        check(bench, &request, sent);
        edges(bench);
        if request.aim.starts_with("set parameters: answered") && bench.random.coin() {
            return get_back(bench, &request.message);
        }
    }
    match bench.random.below(10) {
        0 | 1 => {
            let label = if bench.server.link.held == 0 {
                "the same frame again"
            } else {
                "the same frame again, its answer still outstanding"
            };
            bench.counts.hit("on the way", label);
            deliver(bench, &frame, frame.len() - 1);
        }
        2 => {
            let next = requests::good(&mut bench.random, &bench.server);
            let frame = frame_of(bench, &next.message);
            bench.counts.hit("on the way", "two frames without a gap");
            deliver(bench, &frame, frame.len() - 1);
        }
        _ => {}
    }
}

/// The answer is the one that was aimed at.
fn check(bench: &mut Bench, request: &Request, sent: Vec<u8>) {
    let came = match request.wants {
        Wants::Anything => return,
        Wants::Silence => sent == [0xE5],
        Wants::Code(code, id) => {
            sent.len() > 14 && {
                let (message, id) = (&sent[6..sent.len() - 2], id.to_be_bytes());
                let positive = message[4] != 0 || message[5] != 0 || message[6] == 0;
                message[2..4] == id && if code == 0 { positive } else { !positive && message[6] == code }
            }
        }
    };
    if !came {
        bench.missed(request.aim, &Ok(sent));
    }
    bench.counts.hit("requests, by aim", request.aim);
}

/// Parameter bytes were set by this message: a get of the same range gives them back, also behind events that leave them.
fn get_back(bench: &mut Bench, set: &[u8]) {
    let at_once = bench.random.coin();
    if !at_once {
        bus_values(bench);
        outcome(bench);
        bench.ack_wait_over();
        acknowledge(bench);
        bench.poll();
        bench.idle_mark();
        fixed_frame(bench);
    }
    if !at_start(bench) {
        bench.idle_mark();
    }
    if bench.server.link.held != 0 {
        bench.byte(0xE5);
    }
    let mut message = set[..6].to_vec();
    message[1] = 7;
    let frame = frames::data(frames::host_control(bench.server.link.expected), &message);
    let (sent, quiet) = deliver(bench, &frame, frame.len() - 1);
    if quiet {
        if sent.get(12..sent.len().saturating_sub(2)) != Some(&set[6..]) {
            bench.missed("a get of the parameter bytes that were set", &Ok(sent));
        }
        let label = if at_once {
            "parameter bytes set, and got at once"
        } else {
            "parameter bytes set, and got behind other events"
        };
        bench.counts.hit("on the way", label);
    }
}

fn edges(bench: &mut Bench) {
    let (datapoints, items, parameters) =
        (bench.server.datapoints.len(), bench.server.items.len(), bench.server.parameters.len());
    if datapoints == 1000 || items == 64 || parameters == 255 {
        bench.counts.hit("on the way", "1000 datapoints, 64 items or 255 parameter bytes, a request carried out");
    }
    if datapoints == 0 || items == 0 || parameters == 0 {
        bench.counts.hit("on the way", "no datapoint, item or parameter byte, a request carried out");
    }
}

// -------------------------------------------------------------------------------------------------------------- damage

/// A frame that something happens to; often the next thing that would be carried out.
fn frame_to_damage(bench: &mut Bench) -> Vec<u8> {
    match bench.random.below(6) {
        0 => frames::any_data(&mut bench.random),
        1 => frames::fixed(if bench.random.coin() { frames::RESET } else { bench.random.byte() }),
        _ => {
            let request = requests::good(&mut bench.random, &bench.server);
            frames::data(frames::host_control(bench.server.link.expected), &request.message)
        }
    }
}

fn damage(bench: &mut Bench) {
    if bench.server.link.held != 0 && bench.random.coin() {
        acknowledge(bench);
    }
    maybe_to_start(bench);
    let frame = frame_to_damage(bench);
    let mut bytes = frame.clone();
    let at = match bench.random.below(3) {
        0 => bench.random.below(bytes.len().min(6)),
        1 => bytes.len() - 1 - bench.random.below(2),
        _ => bench.random.below(bytes.len()),
    };
    let kind = bench.random.pick(&DAMAGE[..10]);
    bench.counts.hit("damage, by what happened to the frame", kind);
    let sound = at.min(frame.len() - 1);
    match kind {
        "a byte changed" => {
            bytes[at] = if bench.random.coin() {
                bytes[at] ^ (1 << bench.random.below(8))
            } else {
                bench.random.byte_but(bytes[at])
            };
            deliver(bench, &bytes, sound);
        }
        "L changed to 0" => {
            bytes[1] = 0;
            if bench.random.coin() {
                bytes[2] = 0;
            }
            deliver(bench, &bytes, 1);
        }
        "a byte lost" => {
            bytes.remove(at);
            deliver(bench, &bytes, sound);
        }
        "a byte added" => {
            let added =
                if bench.random.coin() { bytes[at] } else { bench.random.pick(&[0xE5, 0x68, 0x10, 0x16, 0x00, 0xFF]) };
            bytes.insert(at, added);
            deliver(bench, &bytes, sound);
        }
        "several bytes changed" => {
            for _ in 0..bench.random.between(2, 4) {
                let at = bench.random.below(bytes.len());
                bytes[at] = bench.random.byte();
            }
            deliver(bench, &bytes, 0);
        }
        "cut, then an idle mark" => {
            deliver(bench, &bytes[..at], sound);
            bench.idle_mark();
        }
        "cut, then another frame" => {
            deliver(bench, &bytes[..at], sound);
            let next = requests::good(&mut bench.random, &bench.server);
            let next = frame_of(bench, &next.message);
            deliver(bench, &next, 0);
        }
        "idle mark at a byte's place" => {
            deliver(bench, &bytes[..at], sound);
            bench.idle_mark();
            deliver(bench, &bytes[at..], 0);
        }
        "a whole frame spelled inside a damaged one" => {
            let mut message = requests::good(&mut bench.random, &bench.server).message;
            message.truncate(240);
            let inner = frames::data(frames::host_control(bench.server.link.expected), &message);
            let inner = if bench.random.one_in(4) { frames::fixed(frames::RESET) } else { inner };
            bytes = frames::data(frames::host_control(bench.server.link.expected), &inner[..inner.len().min(254)]);
            let at = bench.random.between(1, 3);
            bytes[at] = bench.random.byte_but(bytes[at]);
            deliver(bench, &bytes, 0);
        }
        _ => {
            let count = bench.random.between(1, 30);
            bytes = frames::some_bytes(&mut bench.random, count);
            deliver(bench, &bytes, 0);
        }
    }
    afterwards(bench, &frame);
}

/// The host brings the frame again, with or without a gap.
fn afterwards(bench: &mut Bench, frame: &[u8]) {
    match bench.random.below(4) {
        0 => {
            bench.counts.hit("on the way", "sound frame behind damage, without an idle mark");
            deliver(bench, frame, 0);
        }
        1 | 2 => {
            bench.counts.hit("on the way", "sound frame behind damage and an idle mark");
            bench.idle_mark();
            deliver(bench, frame, frame.len() - 1);
        }
        _ => {}
    }
}

/// A damaged frame that begins with E5: its first byte turned into E5, or was lost before a length of E5.
fn led_by_e5(bench: &mut Bench) {
    if !at_start(bench) {
        bench.idle_mark();
    }
    if bench.server.link.held == 0 && bench.random.coin() {
        let frame = frames::server_frame(&mut bench.random, bench.server.link.send);
        frames::set_outstanding(&mut bench.server.link, &frame);
        bench.server.link.resends = bench.random.below(4) as u8;
        bench.lend_link();
    }
    let held = bench.server.link.held != 0;
    let lost = bench.random.coin();
    let spelled = bench.random.one_in(3);
    let length = if lost || spelled { 228 } else { bench.random.pick(&[5, 6, 7, 0x0F, 0x67, 0xE4, 254, 30]) };
    let mut message = frames::some_bytes(&mut bench.random, length);
    let control = frames::host_control(bench.server.link.expected);
    if spelled {
        // behind the lengths stand 68, the control byte as L, and then L again, 68, and the rest of a frame
        let control = frames::host_control(bench.server.link.expected);
        let mut inner = requests::good(&mut bench.random, &bench.server).message;
        inner.resize(usize::from(control) - 1, 0);
        let inner = frames::data(control, &inner);
        message[..inner.len() - 2].copy_from_slice(&inner[2..]);
    } else if bench.random.coin() {
        message[0] = 0xF0;
    }
    let mut bytes = frames::data(control, &message);
    if lost {
        bytes.remove(0);
    } else {
        bytes[0] = 0xE5;
    }
    let label = match (lost, held) {
        (false, true) => "E5 for the first byte, something outstanding",
        (false, false) => "E5 for the first byte, nothing outstanding",
        (true, true) => "first byte lost before L = E5, something outstanding",
        (true, false) => "first byte lost before L = E5, nothing outstanding",
    };
    bench.counts.hit("damage, by what happened to the frame", label);
    if spelled {
        bench.counts.hit("damage, by what happened to the frame", "E5-led, a whole frame spelled inside");
    } else if message[0] == 0xF0 {
        bench.counts.hit("damage, by what happened to the frame", "E5-led, message begins F0");
    }
    deliver(bench, &bytes, 0);
    let frame = frames::data(control, &message);
    afterwards(bench, &frame);
}

// -------------------------------------------------------------------------------------------------------- other events

fn fixed_frame(bench: &mut Bench) {
    maybe_to_start(bench);
    let c = if bench.random.one_in(3) { bench.random.byte() } else { frames::RESET };
    deliver(bench, &frames::fixed(c), 0);
}

fn ignored_frame(bench: &mut Bench) {
    maybe_to_start(bench);
    let control = frames::other_control(&mut bench.random);
    let request = requests::good(&mut bench.random, &bench.server);
    let frame = frames::data(control, &request.message);
    deliver(bench, &frame, frame.len() - 1);
}

fn ack_waits(bench: &mut Bench) {
    for _ in 0..bench.random.between(1, 6) {
        bench.ack_wait_over();
        if bench.random.one_in(6) {
            acknowledge(bench);
        }
    }
}

fn polls(bench: &mut Bench) {
    if bench.random.coin() {
        let marks = bench.random.pick(&[1, 5, 9, 10]);
        for datapoint in &mut bench.server.datapoints {
            if bench.random.below(10) < marks {
                datapoint.mark = 1;
            }
        }
        bench.lend();
    }
    for _ in 0..bench.random.between(1, 8) {
        bench.poll();
        match bench.random.below(6) {
            0..=2 => acknowledge(bench),
            3 => bench.ack_wait_over(),
            4 => bus_values(bench),
            _ => {}
        }
    }
}

fn bus_values(bench: &mut Bench) {
    for _ in 0..bench.random.between(1, 3) {
        if bench.server.datapoints.is_empty() {
            return;
        }
        let at = bench.random.below(bench.server.datapoints.len());
        let datapoint = bench.server.datapoints[at].clone();
        let equal = bench.random.one_in(5);
        let value = if equal {
            datapoint.value[..tables::SIZES[usize::from(datapoint.typecode)]].to_vec()
        } else {
            tables::value(&mut bench.random, datapoint.typecode)
        };
        if equal {
            bench.counts.hit("on the way", "bus value equal to the one there");
        }
        if datapoint.mark == 1 {
            bench.counts.hit("on the way", "bus value, mark set already");
        }
        bench.bus_value(datapoint.id, value);
    }
}

fn outcome(bench: &mut Bench) {
    if bench.server.datapoints.is_empty() {
        return;
    }
    let at = bench.random.below(bench.server.datapoints.len());
    let outcome = bench.random.below(3) as u8;
    bench.outcome(bench.server.datapoints[at].id, outcome);
}

/// Some readings. The value that the bus gives is the next reading, valid whatever it was before.
fn readings(bench: &mut Bench) {
    for _ in 0..bench.random.between(1, 6) {
        let id = bench.some_id();
        let _ = bench.read(id);
    }
    if bench.server.datapoints.is_empty() {
        return;
    }
    let at = bench.random.below(bench.server.datapoints.len());
    let (id, typecode) = (bench.server.datapoints[at].id, bench.server.datapoints[at].typecode);
    let value = tables::value(&mut bench.random, typecode);
    bench.bus_value(id, value.clone());
    let read = bench.read(id);
    let dpt = bench.server.datapoints[at].dpt;
    let is_read = match (&read, dpt, typecode) {
        (Ok(Reading::Switch(on)), 1, 0) => u8::from(*on) == value[0],
        (Ok(Reading::Count(count)), 5, 7) => *count == value[0],
        (Ok(Reading::TwoOctet(_)), 9, 8) => value != [0x7F, 0xFF],
        (Ok(Reading::Single(bits)), 14, 10) => bits.to_be_bytes()[..] == value,
        (Ok(Reading::Unreadable), 9, 8) => value == [0x7F, 0xFF],
        (Ok(Reading::Unreadable), 14, 10) => value[0] & 0x7F == 0x7F && value[1] & 0x80 == 0x80,
        (Ok(Reading::Unreadable), _, _) => (dpt, typecode) != (1, 0) && (dpt, typecode) != (5, 7),
        _ => false,
    };
    if !is_read {
        bench.misread("the value that the bus gave", &read);
    }
    bench.counts.hit("on the way", "a bus value, and its reading at once");
}

fn replace_link(bench: &mut Bench) {
    bench.counts.hit("on the way", "link record replaced by another in range");
    bench.server.link = frames::link(&mut bench.random);
    bench.lend_link();
    // the frame that it is in goes on, or the line falls silent
    match bench.random.below(4) {
        0 => bench.idle_mark(),
        1 => bench.ack_wait_over(),
        2 => {
            let bytes = frames::some_bytes(&mut bench.random, 3);
            deliver(bench, &bytes, 0);
        }
        _ => {}
    }
}

fn alter_tables(bench: &mut Bench) {
    bench.counts.hit("on the way", "tables altered by their owner");
    let marks = bench.random.below(11);
    for datapoint in &mut bench.server.datapoints {
        datapoint.flags = tables::flags(&mut bench.random);
        datapoint.state = bench.random.byte() & 0x1F;
        datapoint.mark = u8::from(bench.random.below(10) < marks);
    }
    for item in &mut bench.server.items {
        item.writable = bench.random.bit();
    }
    bench.random.fill(&mut bench.server.parameters);
    let (site, default) = tables::both_texts(&mut bench.random, &bench.server.datapoints);
    bench.server.site_texts = site;
    bench.server.default_texts = default;
    bench.lend();
}
