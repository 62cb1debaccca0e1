//! Runs plain.rs against the eleven examples of 01-scope.md, the worked exchange of 000 section 4.1, and checks derived from
//! the sentences of the papers. Build: rustc -O --edition 2021 -D warnings examples.rs
//! A check that fails panics with its name. Every call goes through `step`, which also checks what holds after any call.

mod plain;

use plain::{burst, call, carry_out, nearest_single, reading};
use plain::{Burst, Datapoint, Ending, Event, Item, Link, Outcome, Reading, Server};
use std::sync::atomic::{AtomicUsize, Ordering};

// ------------------------------------------------------------------------------------------------------------- helpers

static CHECKS: AtomicUsize = AtomicUsize::new(0);
static CALLS: AtomicUsize = AtomicUsize::new(0);

fn same<T: PartialEq + std::fmt::Debug>(what: &str, got: T, want: T) {
    CHECKS.fetch_add(1, Ordering::Relaxed);
    if got != want {
        panic!("{what}:\n got  {got:02X?}\n want {want:02X?}");
    }
}

fn truth(what: &str, holds: bool) {
    same(what, holds, true);
}

/// "68 07" to bytes.
fn hex(text: &str) -> Vec<u8> {
    text.split_whitespace().map(|pair| u8::from_str_radix(pair, 16).expect("hex")).collect()
}

fn join(parts: &[&[u8]]) -> Vec<u8> {
    parts.concat()
}

fn empty_link() -> Link {
    Link {
        receiver: [0; 260],
        received: 0,
        dropping: 0,
        expected: 1,
        send: 1,
        outstanding: [0; 261],
        held: 0,
        resends: 0,
    }
}

fn empty_server() -> Server {
    Server {
        datapoints: Vec::new(),
        items: Vec::new(),
        parameters: Vec::new(),
        site_texts: Vec::new(),
        default_texts: Vec::new(),
        link: empty_link(),
    }
}

fn datapoint(id: u16, typecode: u8, state: u8, value: &[u8]) -> Datapoint {
    let mut all = [0; 14];
    all[..value.len()].copy_from_slice(value);
    Datapoint { id, typecode, flags: 0x57, dpt: 0x01, state, value: all, mark: 0 }
}

/// The same with these config flags.
fn flagged(flags: u8, record: Datapoint) -> Datapoint {
    Datapoint { flags, ..record }
}

fn item(id: u16, writable: bool, data: &[u8]) -> Item {
    let mut all = [0; 16];
    all[..data.len()].copy_from_slice(data);
    Item { id, size: data.len() as u8, writable: u8::from(writable), bytes: all }
}

/// A list of texts, (02) item 1: "A list entry is an ID of two bytes, a length byte of 0 to 30 and the text."
fn text_list(entries: &[(u16, &[u8])]) -> Vec<u8> {
    let mut list = Vec::new();
    for (id, text) in entries {
        list.extend_from_slice(&id.to_be_bytes());
        list.push(text.len() as u8);
        list.extend_from_slice(text);
    }
    list
}

/// What holds after every call: a refused call alters nothing; an accepted one leaves tables and link that 1 and 2 do not
/// refuse, and what it sends has one of the five possible shapes.
fn step(server: &mut Server, event: &Event, value: &[u8], room: usize) -> Result<Vec<u8>, u8> {
    CALLS.fetch_add(1, Ordering::Relaxed);
    let before = server.clone();
    let result = call(server, event, value, room);
    match &result {
        Err(number) => {
            truth("a refusal number is 1 to 4", (1..=4).contains(number));
            truth("a refused call alters nothing", *server == before);
        }
        Ok(sent) => {
            let mut again = server.clone();
            truth("after an accepted call 1 and 2 do not refuse", call(&mut again, &Event::IdleMark, &[], 262).is_ok());
            let held = server.link.outstanding[..usize::from(server.link.held)].to_vec();
            truth(
                "an accepted call sends nothing, E5, the held frame, E5 and the held frame, or the reset indication",
                sent.is_empty()
                    || *sent == [0xE5]
                    || (*sent == held)
                    || (*sent == join(&[&[0xE5], &held]))
                    || *sent == [0x10, 0xC0, 0xC0, 0x16],
            );
            truth("the parts that no rule alters", unaltered_parts(&before, server));
            truth("the lists of texts are only read", texts_stand(&before, server));
            truth("a status stands, or is requested, or had its outcome", status_stands(event, &before, server));
            truth("a value is asked for at an open datapoint alone", asks_stand(&before, server));
            truth("parameter bytes are altered by sub 08 alone", parameters_stand(&before, server, sent));
        }
    }
    result
}

/// IDs, types, flags, DPTs, lengths, writability and the entry counts are altered by no event.
fn unaltered_parts(before: &Server, after: &Server) -> bool {
    before.parameters.len() == after.parameters.len()
        && before.items.len() == after.items.len()
        && before.datapoints.len() == after.datapoints.len()
        && (0..before.items.len()).all(|at| {
            let (a, b) = (&before.items[at], &after.items[at]);
            a.id == b.id && a.size == b.size && a.writable == b.writable
        })
        && (0..before.datapoints.len()).all(|at| {
            let (a, b) = (&before.datapoints[at], &after.datapoints[at]);
            a.id == b.id && a.typecode == b.typecode && a.flags == b.flags && a.dpt == b.dpt
        })
}

/// (02) item 1: lists "are only read".
fn texts_stand(before: &Server, after: &Server) -> bool {
    before.site_texts == after.site_texts && before.default_texts == after.default_texts
}

/// (02) item 9: "a failed status 01 stands until the next send command or outcome"; so does every other.
/// (02) item 2: "commands 2 and 3 need config bits 2 and 6".
fn status_stands(event: &Event, before: &Server, after: &Server) -> bool {
    before.datapoints.iter().zip(&after.datapoints).all(|(was, is)| {
        let outcome = matches!(event, Event::TransmissionOutcome(id, _) if *id == was.id);
        let sends = is.flags & 0x04 != 0 && is.flags & 0x40 != 0;
        let requested = matches!(event, Event::HostByte(_)) && is.state % 4 == 3 && sends;
        is.state % 4 == was.state % 4 || requested || outcome
    })
}

/// (02) item 2: "command 4 needs bit 2".
fn asks_stand(before: &Server, after: &Server) -> bool {
    before.datapoints.iter().zip(&after.datapoints).all(|(was, is)| is.state & 4 <= was.state & 4 || is.flags & 4 != 0)
}

/// (02) item 5: "only that service writes it". A positive answer of sub 08 comes with the last byte of its request, of which
/// all but that byte was gathered: the bytes of its range are those of its message then, and every other is as it was.
fn parameters_stand(before: &Server, after: &Server, sent: &[u8]) -> bool {
    let set = sent.len() == 15 && sent[6..8] == [0xF0, 0x88] && sent[12] == 0;
    if !set {
        return after.parameters == before.parameters;
    }
    let message = &before.link.receiver[5..];
    let start = usize::from(message[2]) * 256 + usize::from(message[3]);
    let number = usize::from(message[4]) * 256 + usize::from(message[5]);
    (1..=before.parameters.len()).all(|index| {
        let named = index >= start && index < start + number;
        after.parameters[index - 1] == if named { message[6 + index - start] } else { before.parameters[index - 1] }
    })
}

fn tables_stand(before: &Server, after: &Server) -> bool {
    before.datapoints == after.datapoints && before.items == after.items && before.parameters == after.parameters
}

fn event(server: &mut Server, event: Event) -> Vec<u8> {
    step(server, &event, &[], 262).expect("accepted")
}

fn bus(server: &mut Server, id: u16, value: &[u8]) {
    same("a bus value sends nothing", step(server, &Event::BusValue(id), value, 262), Ok(Vec::new()));
}

/// Host bytes one by one; all that is sent.
fn feed(server: &mut Server, bytes: &[u8]) -> Vec<u8> {
    let mut sent = Vec::new();
    for byte in bytes {
        sent.extend(event(server, Event::HostByte(*byte)));
    }
    sent
}

/// Host bytes; nothing may be sent before the last one.
fn feed_whole(server: &mut Server, bytes: &[u8]) -> Vec<u8> {
    let last = bytes.len() - 1;
    same("nothing is sent before the last byte", feed(server, &bytes[..last]), Vec::new());
    feed(server, &bytes[last..])
}

fn framed(control: u8, message: &[u8]) -> Vec<u8> {
    let l = (message.len() + 1) as u8;
    let sum = message.iter().fold(control, |sum, byte| sum.wrapping_add(*byte));
    join(&[&[0x68, l, l, 0x68, control], message, &[sum, 0x16]])
}

/// A request with the expected bit, nothing outstanding. Gives the answer message, if any, and acknowledges it.
fn ask(server: &mut Server, message: &[u8]) -> Option<Vec<u8>> {
    let odd = server.link.expected;
    let send = server.link.send;
    let sent = feed_whole(server, &framed(if odd == 1 { 0x73 } else { 0x53 }, message));
    same("the expected bit flips", server.link.expected, 1 - odd);
    same("the E5 comes first", sent[0], 0xE5);
    if sent.len() == 1 {
        same("no answer: nothing outstanding", server.link.held, 0);
        return None;
    }
    let answer = sent[6..sent.len() - 2].to_vec();
    same("the answer's frame", sent[1..].to_vec(), framed(if send == 1 { 0xF3 } else { 0xD3 }, &answer));
    same("the answer is held", &server.link.outstanding[..usize::from(server.link.held)], &sent[1..]);
    same("with count 0", server.link.resends, 0);
    same("an acknowledgement sends nothing", feed(server, &[0xE5]), Vec::new());
    same("and clears", server.link.held, 0);
    same("and flips the send bit", server.link.send, 1 - send);
    Some(answer)
}

fn error(sub: u8, id: u16, code: u8) -> Vec<u8> {
    let id = id.to_be_bytes();
    vec![0xF0, sub + 0x80, id[0], id[1], 0, 0, code]
}

/// The request's answer is this error, and the tables stay as they were.
fn is_error(what: &str, server: &mut Server, message: &[u8], id: u16, code: u8) {
    let before = server.clone();
    same(what, ask(server, message), Some(error(message[1], id, code)));
    truth(what, tables_stand(&before, server));
}

fn get(sub: u8, start: u16, number: u16) -> Vec<u8> {
    let (start, number) = (start.to_be_bytes(), number.to_be_bytes());
    vec![0xF0, sub, start[0], start[1], number[0], number[1]]
}

fn get_values(start: u16, number: u16, filter: u8) -> Vec<u8> {
    join(&[&get(0x05, start, number), &[filter]])
}

fn set_values(start: u16, entries: &[(u16, u8, &[u8])]) -> Vec<u8> {
    let mut message = get(0x06, start, entries.len() as u16);
    for (id, command, value) in entries {
        message.extend_from_slice(&id.to_be_bytes());
        message.push(*command);
        message.push(value.len() as u8);
        message.extend_from_slice(value);
    }
    message
}

fn set_items(start: u16, entries: &[(u16, &[u8])]) -> Vec<u8> {
    let mut message = get(0x02, start, entries.len() as u16);
    for (id, data) in entries {
        message.extend_from_slice(&id.to_be_bytes());
        message.push(data.len() as u8);
        message.extend_from_slice(data);
    }
    message
}

fn set_parameters(start: u16, bytes: &[u8]) -> Vec<u8> {
    join(&[&get(0x08, start, bytes.len() as u16), bytes])
}

const SIZES: [usize; 15] = [1, 1, 1, 1, 1, 1, 1, 1, 2, 3, 4, 6, 8, 10, 14];

/// Some numbers without order (xorshift), the same in each run.
struct Numbers(u64);

impl Numbers {
    fn next(&mut self) -> u64 {
        self.0 ^= self.0 << 13;
        self.0 ^= self.0 >> 7;
        self.0 ^= self.0 << 17;
        self.0 >> 11
    }
    fn below(&mut self, limit: u64) -> u64 {
        self.next() % limit
    }
    fn byte(&mut self) -> u8 {
        self.below(256) as u8
    }
}

// ---------------------------------------------------------------------------------------------- the examples of 01, 1-11

fn item_1() -> Server {
    let mut server = empty_server();
    server.items.push(item(1, false, &hex("00 00 C5 07 00 02")));
    server
}

const ASK_ITEM_1: &str = "68 07 07 68 73 F0 01 00 01 00 01 66 16";
const ITEM_1_ANSWER: &str = "68 10 10 68 F3 F0 81 00 01 00 01 00 01 06 00 00 C5 07 00 02 3B 16";

fn examples_of_01() {
    // 1
    let mut server = item_1();
    let sent = feed_whole(&mut server, &hex(ASK_ITEM_1));
    same("example 1", sent, join(&[&[0xE5], &hex(ITEM_1_ANSWER)]));
    // 2: "same frame again: E5 alone."
    same("example 2, again", feed_whole(&mut server, &hex(ASK_ITEM_1)), vec![0xE5]);
    // "With 53 and 46 in place of 73 and 66, when even is expected and nothing outstanding: carried out."
    feed(&mut server, &[0xE5]);
    truth("example 2, even is expected", server.link.expected == 0);
    let sent = feed_whole(&mut server, &hex("68 07 07 68 53 F0 01 00 01 00 01 46 16"));
    same("example 2, even", sent, join(&[&[0xE5], &framed(0xD3, &hex("F0 81 00 01 00 01 00 01 06 00 00 C5 07 00 02"))]));
    let mut server = item_1();
    server.link.expected = 0;
    let sent = feed_whole(&mut server, &hex("68 07 07 68 53 F0 01 00 01 00 01 46 16"));
    same("example 2, even, send bit odd", sent, join(&[&[0xE5], &hex(ITEM_1_ANSWER)]));
    // 3; (02) item 2: "Case 3 of document 01 has both bits set from now on."
    let mut server = empty_server();
    server.datapoints.push(flagged(0x44, datapoint(5, 0, 0x00, &[0])));
    let sent = feed_whole(&mut server, &framed(0x73, &hex("F0 06 00 05 00 01 00 05 03 01 01")));
    same("example 3, answer", sent, hex("E5 68 08 08 68 F3 F0 86 00 05 00 00 00 6E 16"));
    same("example 3, table", server.datapoints, vec![flagged(0x44, datapoint(5, 0, 0x13, &[1]))]);
    // 4, "the same with value 02"
    let mut server = empty_server();
    server.datapoints.push(flagged(0x44, datapoint(5, 0, 0x00, &[0])));
    is_error("example 4", &mut server, &hex("F0 06 00 05 00 01 00 05 03 01 02"), 5, 8);
    same("example 4, unaltered", server.datapoints, vec![flagged(0x44, datapoint(5, 0, 0x00, &[0]))]);
    // 5
    let mut server = empty_server();
    for id in 1..=50 {
        server.datapoints.push(datapoint(id + 100, 7, 0x10, &[id as u8]));
    }
    let answer = ask(&mut server, &get_values(101, 49, 0)).expect("answer");
    same("example 5, 251 bytes", answer.len(), 251);
    let mut want = hex("F0 85 00 65 00 31");
    for id in 1..=49 {
        want.extend_from_slice(&[0, id + 100, 0x10, 1, id]);
    }
    same("example 5", answer, want);
    is_error("example 5, 50", &mut server, &get_values(101, 50, 0), 150, 3);
    // 6
    let mut server = empty_server();
    server.parameters = (0..255).map(|at| 255 - at as u8).collect();
    for start in 1..=7_u16 {
        let answer = ask(&mut server, &get(0x07, start, 248)).expect("answer");
        let from = usize::from(start) - 1;
        let want = join(&[&[0xF0, 0x87, 0, start as u8, 0, 248], &server.parameters[from..from + 248]]);
        same("example 6", answer, want);
        is_error("example 6, 249", &mut server, &get(0x07, start, 249), start + 248, 3);
    }
    // start 8: 248 bytes are present, 249 asked: answered with the 248.
    let answer = ask(&mut server, &get(0x07, 8, 249)).expect("answer");
    same("249 asked, 248 present", answer, join(&[&hex("F0 87 00 08 00 F8"), &server.parameters[7..]]));
    // 7
    let mut server = empty_server();
    for id in [1, 2, 65533, 65534] {
        server.datapoints.push(datapoint(id, 7, 0x10, &[9]));
        server.items.push(item(id, true, &[7]));
    }
    is_error("example 7, values, absent", &mut server, &get_values(0xFFFF, 0xFFFF, 0), 0xFFFF, 2);
    is_error("example 7, items, absent", &mut server, &get(0x01, 0xFFFF, 0xFFFF), 0xFFFF, 2);
    is_error("example 7, descriptions, absent", &mut server, &get(0x03, 0xFFFF, 0xFFFF), 0xFFFF, 2);
    server.default_texts = text_list(&[(1, b"one"), (65534, b"last but one"), (65535, b"last")]);
    is_error("example 7, strings, absent", &mut server, &get(0x04, 0xFFFF, 0xFFFF), 0xFFFF, 2);
    server.datapoints.push(datapoint(65535, 7, 0x10, &[8]));
    server.items.push(item(65535, true, &[6]));
    same("example 7, values", ask(&mut server, &get_values(0xFFFF, 0xFFFF, 0)), Some(hex("F0 85 FF FF 00 01 FF FF 10 01 08")));
    same("example 7, items", ask(&mut server, &get(0x01, 0xFFFF, 0xFFFF)), Some(hex("F0 81 FF FF 00 01 FF FF 01 06")));
    let answer = ask(&mut server, &get(0x03, 0xFFFF, 0xFFFF));
    same("example 7, descriptions", answer, Some(hex("F0 83 FF FF 00 01 FF FF 07 57 01")));
    let answer = ask(&mut server, &get(0x04, 0xFFFF, 0xFFFF));
    same("example 7, strings", answer, Some(join(&[&hex("F0 84 FF FF 00 01 00 04"), b"last"])));
    server.parameters = vec![3; 255];
    is_error("example 7, parameters", &mut server, &get(0x07, 0xFFFF, 0xFFFF), 0xFFFF, 2);
    // 8
    let mut server = empty_server();
    for filter in 0..=2 {
        is_error("example 8, values", &mut server, &get_values(1, 1, filter), 1, 2);
        is_error("example 8, values", &mut server, &get_values(0, 0xFFFF, filter), 0, 2);
    }
    is_error("example 8, descriptions", &mut server, &get(0x03, 7, 9), 7, 2);
    server.site_texts = text_list(&[(7, b"seven")]);
    is_error("example 8, strings", &mut server, &get(0x04, 7, 9), 7, 2);
    is_error("example 8, set", &mut server, &set_values(9, &[(4, 0xFF, &[1, 2, 3])]), 4, 7);
    is_error("example 8, set of two", &mut server, &set_values(9, &[(6, 1, &[]), (5, 1, &[1])]), 6, 7);
    // 9
    let mut server = empty_server();
    same("example 9, L = 0", feed(&mut server, &hex("68 00")), Vec::new());
    truth("example 9, L = 0 is damage at that byte", server.link.dropping == 1 && server.link.received == 0);
    let mut server = empty_server();
    same("example 9, L = 1", feed_whole(&mut server, &hex("68 01 01 68 73 73 16")), vec![0xE5]);
    truth("example 9, no answer", server.link.held == 0 && server.link.expected == 0);
    // 10: the answer is lost under an even send bit, so that the F3 shows.
    let mut server = item_1();
    server.link.send = 0;
    let lost = feed_whole(&mut server, &hex(ASK_ITEM_1));
    same("example 10, the lost answer has D3", lost[5], 0xD3);
    truth("example 10, outstanding", server.link.held != 0 && server.link.expected == 0);
    same("example 10, reset", feed_whole(&mut server, &hex("10 40 40 16")), vec![0xE5]);
    same("example 10, link", server.link.clone(), empty_link());
    same("example 10, next", feed_whole(&mut server, &hex(ASK_ITEM_1)), join(&[&[0xE5], &hex(ITEM_1_ANSWER)]));
    // 11
    let mut server = item_1();
    server.link.expected = 0;
    server.link.send = 0;
    same("example 11", feed(&mut server, &hex("10 40")), Vec::new());
    truth("example 11, not yet", server.link.dropping == 0 && server.link.received == 2);
    same("example 11", feed(&mut server, &hex("41")), Vec::new());
    truth("example 11, damage at that byte", server.link.dropping == 1 && server.link.received == 0);
    same("example 11, the rest", feed(&mut server, &hex("16 10 40 40 16 E5 68 01 01 68 53 53 16")), Vec::new());
    truth("example 11, dropped", server.link.dropping == 1 && server.link.expected == 0 && server.link.send == 0);
    same("example 11, idle mark", event(&mut server, Event::IdleMark), Vec::new());
    same("example 11, reset after the mark", feed_whole(&mut server, &hex("10 40 40 16")), vec![0xE5]);
}

// ----------------------------------------------------------------------------------- the worked exchange of 000 section 4.1

fn exchange_of_000() {
    let mut server = empty_server();
    server.items.push(item(3, false, &[0x10]));
    server.items.push(item(8, false, &hex("00 C5 08 02 00 00")));
    server.link.expected = 0;
    server.link.send = 0;
    same("000 4.1, reset", feed_whole(&mut server, &hex("10 40 40 16")), hex("E5"));
    same(
        "000 4.1, firmware version",
        feed_whole(&mut server, &hex("68 07 07 68 73 F0 01 00 03 00 01 68 16")),
        hex("E5 68 0B 0B 68 F3 F0 81 00 03 00 01 00 03 01 10 7C 16"),
    );
    same("000 4.1, acknowledgement", feed(&mut server, &hex("E5")), Vec::new());
    same(
        "000 4.1, serial number (erratum: L is 10)",
        feed_whole(&mut server, &hex("68 07 07 68 53 F0 01 00 08 00 01 4D 16")),
        hex("E5 68 10 10 68 D3 F0 81 00 08 00 01 00 08 06 00 C5 08 02 00 00 2A 16"),
    );
    same("000 4.1, acknowledgement", feed(&mut server, &hex("E5")), Vec::new());
    same("000 4.1, at the end", server.link, empty_link());
    // 000 6.5.1 and appendix F hold two more item answers.
    let mut server = empty_server();
    server.items.push(item(1, false, &hex("00 00 C5 07 00 14")));
    let answer = ask(&mut server, &hex("F0 01 00 01 00 01"));
    same("000 6.5.1", answer, Some(hex("F0 81 00 01 00 01 00 01 06 00 00 C5 07 00 14")));
}

// ------------------------------------------------------------------------------------------------- the rows of the table

/// Items 1 (not writable), 2 and 4; datapoints 10 to 24 of types 0 to 14, all closed, and 30; six parameter bytes; texts
/// of the site for 17 and, empty, for 18, default ones for 10, 17 and 18, and some for IDs that no datapoint has.
fn small_server() -> Server {
    let mut server = empty_server();
    server.items = vec![item(1, false, &[1, 2, 3]), item(2, true, &[4]), item(4, true, &[9; 16])];
    for typecode in 0..=14_u8 {
        let mut value = [0; 14];
        for place in 0..SIZES[usize::from(typecode)] {
            value[place] = 1;
        }
        server.datapoints.push(flagged(0, datapoint(10 + u16::from(typecode), typecode, typecode, &value)));
    }
    server.datapoints.push(datapoint(30, 7, 0x1F, &[0xAB]));
    server.parameters = vec![11, 12, 13, 14, 15, 16];
    server.site_texts = text_list(&[(0, b"none"), (17, b"Kitchen"), (18, b""), (25, b"none")]);
    server.default_texts = text_list(&[(10, b"Lamp"), (11, b""), (17, b"Hall"), (18, b"Blind"), (65535, b"none")]);
    server
}

/// The same, but that each datapoint takes each command.
fn small_open_server() -> Server {
    let mut server = small_server();
    for record in &mut server.datapoints {
        record.flags |= 0x44;
    }
    server
}

fn messages_without_answer() {
    for message in ["", "F0", "F0 01", "F0 01 00 01 00", "F1 01 00 01 00 01", "00 01 00 01 00 01", "70 06 00 01 00 00"] {
        let mut server = small_server();
        let before = server.clone();
        same("no answer", ask(&mut server, &hex(message)), None);
        let mut want = before.link.clone();
        want.expected = 0;
        same("no answer: only the expected bit is altered", &server.link, &want);
        truth("no answer: tables", tables_stand(&before, &server));
    }
    for sub in 0x80..=0xFF_u8 {
        for tail in ["00 01 00 01", "00 00 00 00", "00 0A 00 01 00", "00 0A 00 01 00 0A 03 01 01", "00 01 00 01 77"] {
            let mut server = small_server();
            let message = join(&[&[0xF0, sub], &hex(tail)]);
            same("sub 80 and above: no answer", ask(&mut server, &message), None);
        }
    }
    // Every first byte but F0.
    for first in 0..=0xFF_u8 {
        let mut server = small_server();
        let answer = ask(&mut server, &join(&[&[first], &hex("01 00 01 00 01")]));
        same("first byte", answer.is_some(), first == 0xF0);
    }
}

fn rows_5_10_6() {
    let mut server = small_server();
    // 5: "sub not one of the six"; before 10 and 6. (02) item 5: "code 5 no longer for sub 08"; item 1: nor for sub 04.
    for sub in 0..0x80_u8 {
        if [1, 2, 3, 4, 5, 6, 7, 8].contains(&sub) {
            continue;
        }
        is_error("5", &mut server, &get(sub, 0x1234, 1), 0x1234, 5);
        is_error("5 before 6", &mut server, &get(sub, 0x1234, 0), 0x1234, 5);
        is_error("5 before 10", &mut server, &join(&[&get(sub, 0x1234, 0), &[9; 40]]), 0x1234, 5);
    }
    // 10: gets.
    for sub in [1, 3, 4, 7] {
        for more in 1..=248 {
            let message = join(&[&get(sub, 1, 1), &vec![0; more]]);
            is_error("10, get", &mut server, &message, 1, 10);
        }
        is_error("10 before 6, get", &mut server, &join(&[&get(sub, 1, 0), &[0]]), 1, 10);
        is_error("6, get", &mut server, &get(sub, 1, 0), 1, 6);
        is_error("6 before 2, get", &mut server, &get(sub, 0x9999, 0), 0x9999, 6);
        is_error("6, get, start 0", &mut server, &get(sub, 0, 0), 0, 6);
    }
    is_error("10, sub 05 of 6 bytes", &mut server, &get(5, 10, 1), 10, 10);
    is_error("10 before 6, sub 05 of 6 bytes", &mut server, &get(5, 10, 0), 10, 10);
    for more in 1..=247 {
        is_error("10, sub 05", &mut server, &join(&[&get_values(10, 1, 0), &vec![0; more]]), 10, 10);
    }
    is_error("10 before 6 (filter)", &mut server, &join(&[&get_values(10, 1, 3), &[0]]), 10, 10);
    // 6: number and filter.
    for filter in 0..=0xFF_u8 {
        is_error("6, sub 05, number 0", &mut server, &get_values(10, 0, filter), 10, 6);
        if filter > 2 {
            is_error("6, filter", &mut server, &get_values(10, 1, filter), 10, 6);
            is_error("6, filter, before 2", &mut server, &get_values(0x7777, 1, filter), 0x7777, 6);
        }
    }
    // 10 and 6: sets.
    for sub in [2, 6, 8] {
        is_error("6, set of no entry", &mut server, &get(sub, 7, 0), 7, 6);
        for more in 1..=248 {
            is_error("10, set, number 0 and bytes left", &mut server, &join(&[&get(sub, 7, 0), &vec![0; more]]), 7, 10);
        }
        for number in [1, 2, 255, 256, 0xFFFF] {
            is_error("10, set without entries", &mut server, &get(sub, 7, number), 7, 10);
        }
    }
    let good_items = set_items(2, &[(2, &[7]), (4, &[8; 16])]);
    let good_values = set_values(10, &[(17, 1, &[7]), (24, 1, &[8; 14]), (17, 0, &[])]);
    for (good, entries) in [(&good_items, 2_u16), (&good_values, 3)] {
        // Every beginning of it, with every number near the right one, is 10 (or 6 for an empty one with number 0).
        for end in 6..=good.len() {
            for number in 0..=entries + 2 {
                let mut message = good[..end].to_vec();
                message[4..6].copy_from_slice(&number.to_be_bytes());
                if fills(&message, number) {
                    continue;
                }
                let start = u16::from_be_bytes([message[2], message[3]]);
                is_error("10, a beginning or another number", &mut small_server(), &message, start, 10);
            }
        }
        let mut message = good.clone();
        message.push(0);
        let start = u16::from_be_bytes([message[2], message[3]]);
        is_error("10, one byte more", &mut small_server(), &message, start, 10);
        let mut message = good.clone();
        message[4] = 1; // the number's high byte counts
        is_error("10, number by 256 more", &mut small_server(), &message, start, 10);
    }
    // 10 before 7: an absent ID whose length runs over the end.
    is_error("10 before 7", &mut server, &hex("F0 02 00 02 00 01 77 77 02 01"), 2, 10);
    is_error("10 before 7", &mut server, &hex("F0 06 00 02 00 01 77 77 01 02 01"), 2, 10);
    // The first entry is bad (7), the second one does not fill: 10.
    is_error("10 before 7 of an earlier entry", &mut server, &hex("F0 02 00 02 00 02 77 77 01 01 00 02 01"), 2, 10);
}

/// Whether the stated number of entries fills the set message, said once more: the places where an entry may end are walked.
fn fills(message: &[u8], number: u16) -> bool {
    let header = if message[1] == 2 { 3 } else { 4 };
    let mut left = &message[6..];
    for _ in 0..number {
        if left.len() < header || left.len() < header + usize::from(left[header - 1]) {
            return false;
        }
        left = &left[header + usize::from(left[header - 1])..];
    }
    left.is_empty()
}

fn rows_7_to_8() {
    // Items: 7, 4, 9.
    let mut server = small_server();
    is_error("7, item", &mut server, &set_items(2, &[(3, &[1])]), 3, 7);
    is_error("7, item 0", &mut server, &set_items(2, &[(0, &[1])]), 0, 7);
    is_error("7, item, any length", &mut server, &set_items(2, &[(5, &[])]), 5, 7);
    is_error("4", &mut server, &set_items(2, &[(1, &[1, 2, 3])]), 1, 4);
    is_error("4 before 9", &mut server, &set_items(2, &[(1, &[1, 2])]), 1, 4);
    for length in 0..=245_usize {
        if length != 1 {
            is_error("9, item", &mut server, &set_items(2, &[(2, &vec![0xFF; length])]), 2, 9);
        }
        if length != 16 {
            is_error("9, item of 16", &mut server, &set_items(2, &[(4, &vec![0xFF; length])]), 4, 9);
        }
    }
    // "the first bad one decides. Nothing is set then."
    is_error("entry 3 is bad", &mut server, &set_items(2, &[(2, &[5]), (4, &[6; 16]), (3, &[1])]), 3, 7);
    is_error("first bad one: 9", &mut server, &set_items(2, &[(2, &[5]), (4, &[6; 15]), (3, &[1]), (1, &[1])]), 4, 9);
    is_error("first bad one: 4", &mut server, &set_items(2, &[(1, &[5, 5, 5]), (3, &[1])]), 1, 4);
    // Positive; "StartItem [...] is echoed and not compared with the first entry"; "an ID given twice takes both in turn".
    let answer = ask(&mut server, &set_items(0xABCD, &[(2, &[5]), (4, &[6; 16]), (2, &[0xFE])]));
    same("item set", answer, Some(hex("F0 82 AB CD 00 00 00")));
    same("item set", server.items, vec![item(1, false, &[1, 2, 3]), item(2, true, &[0xFE]), item(4, true, &[6; 16])]);

    // Datapoints: 7, 8 (command), 9, 8 (value).
    let mut server = small_open_server();
    is_error("7, datapoint", &mut server, &set_values(9, &[(9, 1, &[1])]), 9, 7);
    is_error("7, datapoint 0", &mut server, &set_values(9, &[(0, 1, &[1])]), 0, 7);
    is_error("7 before 8 and 9", &mut server, &set_values(9, &[(25, 0xFF, &[1; 9])]), 25, 7);
    for command in 5..=0xFF_u8 {
        is_error("8, command", &mut server, &set_values(9, &[(17, command, &[1])]), 17, 8);
        is_error("8, command, no value", &mut server, &set_values(9, &[(17, command, &[])]), 17, 8);
        is_error("8, command, before 9", &mut server, &set_values(9, &[(17, command, &[1, 1])]), 17, 8);
    }
    for typecode in 0..=14_u16 {
        let id = 10 + typecode;
        let size = SIZES[usize::from(typecode)];
        for command in 0..=4_u8 {
            for length in 0..=20_usize {
                // 9 before 8 (value): all bits are set in a value of a wrong length.
                if length != 0 && length != size {
                    is_error("9, datapoint", &mut server, &set_values(9, &[(id, command, &vec![0xFF; length])]), id, 9);
                }
            }
            if command == 1 || command == 3 {
                is_error("9, no value", &mut server, &set_values(9, &[(id, command, &[])]), id, 9);
            }
            // 8 (value), every byte: bits 7 to type + 1 are unused for types 0 to 6.
            for byte in 0..=0xFF_u8 {
                let mut value = vec![0x5A; size];
                value[0] = byte;
                let message = set_values(9, &[(id, command, &value)]);
                if typecode < 7 && u16::from(byte) >= 2 << typecode {
                    is_error("8, value", &mut server, &message, id, 8);
                } else {
                    same("a value is taken", ask(&mut server.clone(), &message), Some(hex("F0 86 00 09 00 00 00")));
                }
            }
        }
    }
    let three = set_values(9, &[(17, 1, &[5]), (18, 3, &[6, 6]), (10, 0, &[2]), (99, 1, &[1])]);
    is_error("entry 3 is bad, 8", &mut server, &three, 10, 8);
    let three = set_values(9, &[(17, 1, &[5]), (18, 3, &[6]), (10, 0, &[2]), (99, 1, &[1])]);
    is_error("entry 2 is bad, 9", &mut server, &three, 18, 9);
    let three = set_values(9, &[(17, 1, &[5]), (99, 3, &[6]), (10, 9, &[2])]);
    is_error("entry 2 is bad, 7", &mut server, &three, 99, 7);
    let three = set_values(9, &[(17, 6, &[5]), (99, 3, &[6]), (10, 9, &[2])]);
    is_error("entry 1 is bad, 8", &mut server, &three, 17, 8);
}

fn commands() {
    // "Commands: 0 nothing; 1 value, bit 4 set; 2 status 11; 3 both; 4 bit 2 set; [...].", from every state.
    for state in 0..32_u8 {
        for command in 0..=4_u8 {
            for with_value in [false, true] {
                if !with_value && (command == 1 || command == 3) {
                    continue;
                }
                for mark in [0, 1] {
                    let mut server = empty_server();
                    server.datapoints = vec![datapoint(1, 8, state, &[1, 2]), datapoint(2, 8, state, &[1, 2])];
                    server.datapoints[0].mark = mark;
                    server.datapoints[0].flags = state.wrapping_mul(37) | 0x44;
                    let before = server.datapoints.clone();
                    let value: &[u8] = if with_value { &[0xA5, 0x5A] } else { &[] };
                    let answer = ask(&mut server, &set_values(77, &[(1, command, value)]));
                    same("set", answer, Some(hex("F0 86 00 4D 00 00 00")));
                    let mut want = before;
                    want[0].state = match command {
                        1 => state | 16,
                        2 => state - state % 4 + 3,
                        3 => (state | 16) - state % 4 + 3,
                        4 => state | 4,
                        _ => state,
                    };
                    if command == 1 || command == 3 {
                        want[0].value[0] = 0xA5;
                        want[0].value[1] = 0x5A;
                    }
                    same("command", server.datapoints, want);
                }
            }
        }
    }
    // "Otherwise entries apply in order; an ID given twice takes both in turn."
    let order: [(&[(u16, u8, &[u8])], u8, u8); 5] = [
        (&[(1, 2, &[]), (1, 4, &[])], 0x0F, 7),
        (&[(1, 4, &[]), (1, 2, &[])], 0x0F, 7),
        (&[(1, 1, &[1]), (1, 1, &[2])], 0x18, 2),
        (&[(1, 3, &[2]), (1, 0, &[3]), (1, 1, &[1]), (1, 4, &[9])], 0x1F, 1),
        (&[(1, 4, &[]), (1, 3, &[5]), (1, 0, &[6])], 0x1F, 5),
    ];
    for (entries, state, value) in order {
        let mut server = empty_server();
        server.datapoints = vec![datapoint(1, 7, 0x08, &[7])];
        same("set", ask(&mut server, &set_values(1, entries)), Some(hex("F0 86 00 01 00 00 00")));
        same("an ID given twice", server.datapoints, vec![datapoint(1, 7, state, &[value])]);
    }
}

/// (02) item 9. "command 5 gives code 8, at the command check"; "A stored request that still holds command 5 is refused
/// whole": `is_error` sees that nothing is set.
fn retired_command() {
    for state in 0..32_u8 {
        let mut server = empty_server();
        server.datapoints = vec![datapoint(1, 7, state, &[7]), datapoint(2, 8, state, &[1, 2]), datapoint(3, 0, state, &[1])];
        is_error("5, no value", &mut server, &set_values(1, &[(2, 5, &[])]), 2, 8);
        is_error("5, a value", &mut server, &set_values(1, &[(2, 5, &[1, 2])]), 2, 8);
        for length in [1, 3, 14, 200] {
            is_error("5 before 9", &mut server, &set_values(1, &[(2, 5, &vec![0; length])]), 2, 8);
        }
        is_error("5, unused bits", &mut server, &set_values(1, &[(3, 5, &[0xFF])]), 3, 8);
        is_error("7 before 5", &mut server, &set_values(1, &[(4, 5, &[])]), 4, 7);
        is_error("5 first", &mut server, &set_values(1, &[(1, 5, &[]), (2, 3, &[8, 9]), (3, 2, &[])]), 1, 8);
        is_error("5 last", &mut server, &set_values(1, &[(2, 3, &[8, 9]), (3, 2, &[]), (1, 5, &[])]), 1, 8);
        is_error("5 behind an absent ID", &mut server, &set_values(1, &[(2, 1, &[8, 9]), (4, 1, &[1]), (1, 5, &[])]), 4, 7);
        is_error("5 behind a bad length", &mut server, &set_values(1, &[(2, 1, &[8]), (1, 5, &[])]), 2, 9);
        is_error("5 before an absent ID", &mut server, &set_values(1, &[(1, 5, &[]), (4, 1, &[1])]), 1, 8);
        is_error("10 before 5", &mut server, &join(&[&set_values(1, &[(1, 5, &[])]), &[0]]), 1, 10);
    }
}

/// The requests are accepted one after the other; what they leave.
fn accepted(before: &Server, messages: &[&[u8]]) -> Server {
    let mut server = before.clone();
    for message in messages {
        let start = u16::from_be_bytes([message[2], message[3]]);
        same("accepted", ask(&mut server, message), Some(error(message[1], start, 0)));
    }
    server
}

/// Entries of a set request as they stand in it.
fn entries_of(messages: &[Vec<u8>]) -> Vec<u8> {
    messages.iter().flat_map(|message| message[6..].to_vec()).collect()
}

/// (02) item 11. "if a request is accepted, then its two non-empty parts, each with its own start and number, are
/// accepted one after the other with nothing between, and leave the same tables."
fn cut_requests() {
    let before = small_open_server();
    let whole = accepted(&before, &[&hex("F0 06 00 11 00 03 00 11 03 01 05 00 12 04 00 00 11 01 01 06")]);
    let mut want = before.clone();
    want.datapoints[7] = flagged(0x44, datapoint(17, 7, 0x17, &[6]));
    want.datapoints[8] = flagged(0x44, datapoint(18, 8, 0x0C, &[1, 1]));
    truth("three entries", tables_stand(&want, &whole));
    let two = [hex("F0 06 00 11 00 01 00 11 03 01 05"), hex("F0 06 AB CD 00 02 00 12 04 00 00 11 01 01 06")];
    truth("cut behind the first", tables_stand(&want, &accepted(&before, &[&two[0], &two[1]])));
    let two = [hex("F0 06 00 00 00 02 00 11 03 01 05 00 12 04 00"), hex("F0 06 00 00 00 01 00 11 01 01 06")];
    truth("cut behind the second", tables_stand(&want, &accepted(&before, &[&two[0], &two[1]])));
    // the parts the other way round leave the other value
    want.datapoints[7].value[0] = 5;
    truth("turned round", tables_stand(&want, &accepted(&before, &[&two[1], &two[0]])));
    // cut elsewhere; a part without entries; with the whole's number
    let mut server = before.clone();
    is_error("cut behind the ID", &mut server, &hex("F0 06 00 11 00 01 00 11"), 0x11, 10);
    is_error("cut in front of the value", &mut server, &hex("F0 06 00 11 00 01 00 11 03 01"), 0x11, 10);
    is_error("no entry", &mut server, &hex("F0 06 00 11 00 00"), 0x11, 6);
    is_error("the whole's number", &mut server, &hex("F0 06 00 11 00 03 00 11 03 01 05"), 0x11, 10);

    // each three of these entries, each a request of one, at both boundaries
    let values: [(u16, u8, &[u8]); 8] = [
        (17, 0, &[]),
        (17, 1, &[5]),
        (17, 2, &[9]),
        (17, 3, &[6]),
        (17, 4, &[]),
        (18, 1, &[1, 2]),
        (18, 3, &[3, 4]),
        (18, 2, &[]),
    ];
    let items: [(u16, &[u8]); 4] = [(2, &[1]), (2, &[2]), (4, &[3; 16]), (4, &[4; 16])];
    let values: Vec<Vec<u8>> = values.iter().map(|entry| set_values(7, &[*entry])).collect();
    let items: Vec<Vec<u8>> = items.iter().map(|entry| set_items(7, &[*entry])).collect();
    for singles in [&values, &items] {
        let sub = singles[0][1];
        let joined = |entries: &[Vec<u8>]| join(&[&get(sub, 7, entries.len() as u16), &entries_of(entries)]);
        for at in 0..singles.len().pow(3) {
            let place = |power: u32| at / singles.len().pow(power) % singles.len();
            let three = [singles[place(0)].clone(), singles[place(1)].clone(), singles[place(2)].clone()];
            let whole = accepted(&before, &[&joined(&three)]);
            for boundary in [1, 2] {
                let (head, tail) = three.split_at(boundary);
                let parts = accepted(&before, &[&joined(head), &joined(tail)]);
                truth("the parts leave what the whole leaves", tables_stand(&whole, &parts));
            }
        }
        // 400 entries, which no frame holds, as a message; and in parts of ten
        let many: Vec<Vec<u8>> = (0..400).map(|at| singles[at * at % 37 % singles.len()].clone()).collect();
        let mut whole = before.clone();
        same("400 entries", carry_out(&mut whole, &joined(&many)), Some(error(sub, 7, 0)));
        let tens: Vec<Vec<u8>> = many.chunks(10).map(joined).collect();
        let tens: Vec<&[u8]> = tens.iter().map(|part| &part[..]).collect();
        truth("400 entries in parts", tables_stand(&whole, &accepted(&before, &tens)));
    }
}

/// (02) item 11. "two accepted set requests with no ID in common leave the same tables in either order."
fn both_orders() {
    let mut before = small_open_server();
    // an item and a datapoint of the same ID have nothing in common
    before.items.push(item(17, true, &[0xAA]));
    let seventeen = [set_values(1, &[(17, 3, &[5]), (17, 4, &[])]), set_values(1, &[(17, 1, &[6])])];
    let eighteen = [set_values(2, &[(18, 1, &[7, 8])]), set_values(2, &[(18, 2, &[]), (18, 0, &[1, 1])])];
    let items = [set_items(3, &[(17, &[0xBB])]), set_items(3, &[(2, &[0xCC]), (4, &[0xDD; 16])])];
    let is_seen = |one: &[u8], other: &[u8]| {
        !tables_stand(&accepted(&before, &[one, other]), &accepted(&before, &[other, one]))
    };
    for one in &seventeen {
        for other in eighteen.iter().chain(&items) {
            truth("no ID in common", !is_seen(one, other));
        }
    }
    truth("two items", !is_seen(&items[0], &items[1]));
    // with an ID in common: where both write a value, and not the same
    truth("two values", is_seen(&seventeen[0], &seventeen[1]));
    truth("a value and none", !is_seen(&eighteen[0], &eighteen[1]));
    truth("one value twice", !is_seen(&seventeen[0], &seventeen[0]));
    truth("two values of an item", is_seen(&items[0], &set_items(3, &[(17, &[0xEE])])));
}

/// (02) item 2. "commands 2 and 3 need config bits 2 and 6, command 4 needs bit 2; others as before."; "a command whose
/// needed bits are off gives code 8, placed with the command check, before code 9."
fn closed_datapoints() {
    for flags in 0..=0xFF_u8 {
        let (open, transmits) = (flags / 4 % 2 == 1, flags / 64 % 2 == 1);
        let mut server = empty_server();
        server.datapoints = vec![
            datapoint(1, 7, 0x08, &[7]),
            flagged(flags, datapoint(2, 8, 0x08, &[1, 2])),
            flagged(flags, datapoint(3, 0, 0x08, &[1])),
        ];
        for command in (0..=6).chain([0x12, 0x42, 0x83, 0xFF]) {
            let taken = match command {
                0 | 1 => true,
                2 | 3 => open && transmits,
                4 => open,
                _ => false,
            };
            let needs_value = command == 1 || command == 3;
            for length in [0, 1, 2, 3, 14, 200] {
                let message = set_values(9, &[(2, command, &vec![5; length])]);
                if !taken {
                    is_error("bits off, before 9", &mut server, &message, 2, 8);
                } else if length == 2 || (length == 0 && !needs_value) {
                    let mut after = server.clone();
                    same("taken", ask(&mut after, &message), Some(hex("F0 86 00 09 00 00 00")));
                    let state = [0x08, 0x18, 0x0B, 0x1B, 0x0C][usize::from(command)];
                    let value: &[u8] = if needs_value { &[5, 5] } else { &[1, 2] };
                    let mut want = server.datapoints.clone();
                    want[1] = flagged(flags, datapoint(2, 8, state, value));
                    same("what it leaves", after.datapoints, want);
                } else {
                    is_error("taken, 9", &mut server, &message, 2, 9);
                }
            }
            is_error("unused bits", &mut server, &set_values(9, &[(3, command, &[2])]), 3, 8);
            is_error("7 before bits", &mut server, &set_values(9, &[(4, command, &[5])]), 4, 7);
            if taken {
                continue;
            }
            let bad: (u16, u8, &[u8]) = (2, command, &[]);
            is_error("bits off first", &mut server, &set_values(9, &[bad, (1, 3, &[8]), (3, 1, &[0])]), 2, 8);
            is_error("bits off last", &mut server, &set_values(9, &[(1, 3, &[8]), (2, 1, &[5, 5]), bad]), 2, 8);
            is_error("bits off behind an absent ID", &mut server, &set_values(9, &[(4, 1, &[5]), bad]), 4, 7);
            is_error("bits off before an absent ID", &mut server, &set_values(9, &[bad, (4, 1, &[5])]), 2, 8);
            is_error("bits off behind a bad length", &mut server, &set_values(9, &[(1, 1, &[]), bad]), 1, 9);
            is_error("10 before bits", &mut server, &join(&[&set_values(9, &[bad]), &[0]]), 9, 10);
        }
    }
}

/// (02) item 2. "Gets and bus events treat the last two alike." So do polls, and commands 0 and 1.
fn closed_and_open_alike() {
    for flags in 0..=0xFF_u8 {
        let all_with = |flags: u8, server: &Server| {
            let mut server = server.clone();
            for record in &mut server.datapoints {
                record.flags = flags;
            }
            server
        };
        let alike = |what: &str, open: &Server, other: &Server| same(what, other, &all_with(flags, open));
        let mut open = all_with(0x44, &small_server());
        let mut other = all_with(flags, &small_server());
        for (event, value) in [
            (Event::BusValue(10), &[1][..]),
            (Event::BusValue(18), &[1, 2]),
            (Event::BusValue(18), &[1]),
            (Event::BusValue(11), &[4]),
            (Event::BusValue(25), &[4]),
            (Event::TransmissionOutcome(10, Outcome::Sent), &[]),
            (Event::TransmissionOutcome(17, Outcome::Failed), &[]),
            (Event::TransmissionOutcome(18, Outcome::InProgress), &[]),
            (Event::TransmissionOutcome(25, Outcome::Sent), &[]),
            (Event::Poll, &[]),
            (Event::AckWaitOver, &[]),
            (Event::HostByte(0xE5), &[]),
        ] {
            let answers = (step(&mut open, &event, value, 262), step(&mut other, &event, value, 262));
            same("the same answer", answers.0, answers.1);
            alike("an event", &open, &other);
        }
        for filter in [2, 1, 0] {
            let message = get_values(10, 14, filter);
            same("a get", ask(&mut open, &message), ask(&mut other, &message));
            alike("a get", &open, &other);
        }
        same("strings", ask(&mut open, &get(4, 10, 14)), ask(&mut other, &get(4, 10, 14)));
        alike("strings", &open, &other);
        for command in 0..=1 {
            let message = set_values(10, &[(10, command, &[0]), (18, command, &[5, 6])]);
            same("a set", ask(&mut open, &message), ask(&mut other, &message));
            alike("a set", &open, &other);
        }
        let description = ask(&mut other, &get(3, 17, 1));
        same("a description", description, Some(join(&[&hex("F0 83 00 11 00 01 00 11 07"), &[flags, 0x01]])));
    }
}

/// (02) item 9. "From now on a failed status 01 stands until the next send command or outcome."
fn failed_status() {
    let mut server = empty_server();
    server.datapoints = vec![datapoint(1, 7, 0x10, &[7]), datapoint(2, 7, 0x10, &[7])];
    let status = |server: &Server| server.datapoints[0].state % 4;
    same("sent", ask(&mut server, &set_values(1, &[(1, 3, &[8])])), Some(hex("F0 86 00 01 00 00 00")));
    same("requested", status(&server), 3);
    event(&mut server, Event::TransmissionOutcome(1, Outcome::Failed));
    let stands = |what: &str, server: &Server| same(what, status(server), 1);
    stands("failed", &server);
    for filter in 0..=2 {
        ask(&mut server, &get_values(1, 2, filter));
        stands("a get", &server);
    }
    bus(&mut server, 1, &[9]);
    stands("a bus value", &server);
    truth("the poll tells", !event(&mut server, Event::Poll).is_empty());
    stands("a poll", &server);
    event(&mut server, Event::AckWaitOver);
    stands("an ack wait", &server);
    same("a reset is acknowledged", feed(&mut server, &hex("10 40 40 16")), vec![0xE5]);
    stands("a reset", &server);
    event(&mut server, Event::IdleMark);
    for (command, value) in [(0, &[][..]), (0, &[3]), (1, &[4]), (4, &[]), (4, &[5])] {
        same("taken", ask(&mut server, &set_values(1, &[(1, command, value)])), Some(hex("F0 86 00 01 00 00 00")));
        stands("commands 0, 1 and 4", &server);
    }
    is_error("command 5", &mut server, &set_values(1, &[(1, 5, &[])]), 1, 8);
    is_error("a send command that is refused", &mut server, &set_values(1, &[(1, 2, &[]), (1, 5, &[])]), 1, 8);
    stands("what is refused", &server);
    ask(&mut server, &set_values(1, &[(2, 2, &[])]));
    event(&mut server, Event::TransmissionOutcome(2, Outcome::Sent));
    stands("another datapoint's send command and outcome", &server);
    let mut sent = server.clone();
    event(&mut sent, Event::TransmissionOutcome(1, Outcome::Sent));
    same("an outcome", status(&sent), 0);
    ask(&mut server, &set_values(1, &[(1, 2, &[])]));
    same("a send command", status(&server), 3);
}

/// (02) item 5. "Add SetParameterByte (document 000, 3.17 and 3.18)."; "All or nothing as with items."; "Refusals: code 5
/// no longer for sub 08; then 10, 6, and 7 with the first index not in the table." `is_error` sees that nothing is set.
fn parameter_sets() {
    // Six parameter bytes, 0B to 10. (000) 3.17: "set (write) one or more the parameter bytes". Three, read back by sub 07.
    let mut server = small_server();
    same("set", ask(&mut server, &hex("F0 08 00 03 00 03 A1 A2 A3")), Some(hex("F0 88 00 03 00 00 00")));
    same("is set", ask(&mut server, &hex("F0 07 00 01 00 06")), Some(hex("F0 87 00 01 00 06 0B 0C A1 A2 A3 10")));
    same("a set over a set", ask(&mut server, &hex("F0 08 00 05 00 02 B1 B2")), Some(hex("F0 88 00 05 00 00 00")));
    same("is set", &server.parameters, &hex("0B 0C A1 A2 B1 B2"));
    same("the first", ask(&mut server, &hex("F0 08 00 01 00 01 C1")), Some(hex("F0 88 00 01 00 00 00")));
    same("the last", ask(&mut server, &hex("F0 08 00 06 00 01 C6")), Some(hex("F0 88 00 06 00 00 00")));
    same("is set", &server.parameters, &hex("C1 0C A1 A2 B1 C6"));
    same("all", ask(&mut server, &hex("F0 08 00 01 00 06 00 FF 00 FF E5 68")), Some(hex("F0 88 00 01 00 00 00")));
    same("is set", &server.parameters, &hex("00 FF 00 FF E5 68"));
    for byte in 0..=0xFF_u8 {
        same("each byte", ask(&mut server, &set_parameters(2, &[byte])), Some(hex("F0 88 00 02 00 00 00")));
        same("is set", server.parameters[1], byte);
    }
    // Codes 10, 6 and 7, each with its ID.
    is_error("10, a byte too many", &mut server, &hex("F0 08 00 03 00 03 A1 A2 A3 A4"), 3, 10);
    is_error("10, a byte missing", &mut server, &hex("F0 08 00 03 00 03 A1 A2"), 3, 10);
    is_error("10, the number's high byte", &mut server, &hex("F0 08 00 03 01 03 A1 A2 A3"), 3, 10);
    is_error("10 before 6", &mut server, &hex("F0 08 00 03 00 00 A1"), 3, 10);
    is_error("10 before 7", &mut server, &hex("F0 08 00 00 00 03 A1 A2"), 0, 10);
    is_error("10 before 7", &mut server, &hex("F0 08 00 07 00 01 A1 A2"), 7, 10);
    is_error("10, start FFFF, number FFFF", &mut server, &hex("F0 08 FF FF FF FF A1"), 0xFFFF, 10);
    is_error("6", &mut server, &hex("F0 08 00 03 00 00"), 3, 6);
    is_error("6, the flush of 000", &mut server, &hex("F0 08 00 00 00 00"), 0, 6);
    is_error("6 before 7", &mut server, &hex("F0 08 00 07 00 00"), 7, 6);
    is_error("7, start 0", &mut server, &hex("F0 08 00 00 00 01 A1"), 0, 7);
    is_error("7, start 0, others in the table", &mut server, &hex("F0 08 00 00 00 03 A1 A2 A3"), 0, 7);
    is_error("7, behind the table", &mut server, &hex("F0 08 00 07 00 01 A1"), 7, 7);
    is_error("7, the start's high byte", &mut server, &hex("F0 08 01 03 00 01 A1"), 0x103, 7);
    is_error("7, over the end", &mut server, &hex("F0 08 00 05 00 03 A1 A2 A3"), 7, 7);
    is_error("7, far over the end", &mut server, &set_parameters(1, &[0xA1; 248]), 7, 7);
    is_error("7, start FFFF", &mut server, &hex("F0 08 FF FF 00 01 A1"), 0xFFFF, 7);
    is_error("7, start FFFF, without wrapping", &mut server, &set_parameters(0xFFFF, &[0xA1; 248]), 0xFFFF, 7);
    // Tables of several sizes, and ranges around their ends.
    for count in [0, 1, 2, 3, 6, 247, 248, 249, 254, 255_u16] {
        let mut server = empty_server();
        server.parameters = (0..count).map(|at| at as u8 ^ 0x5A).collect();
        let around = count.saturating_sub(12)..=count + 2;
        for start in (0..=3).chain(around).chain([255, 256, 257, count + 256, 0xFFFF]) {
            for number in (0..=12).chain([246, 247, 248_u16]) {
                let bytes: Vec<u8> = (0..number).map(|at| (at * 7) as u8).collect();
                let message = set_parameters(start, &bytes);
                let absent = (start..=0xFFFF).take(usize::from(number)).find(|index| *index == 0 || *index > count);
                if number == 0 {
                    is_error("6", &mut server, &message, start, 6);
                } else if let Some(index) = absent {
                    is_error("7", &mut server, &message, index, 7);
                } else {
                    let mut after = server.clone();
                    same("set", ask(&mut after, &message), Some(join(&[&[0xF0, 0x88], &start.to_be_bytes(), &[0; 3]])));
                    let (low, high) = (usize::from(start) - 1, usize::from(start + number) - 1);
                    same("before it", &after.parameters[..low], &server.parameters[..low]);
                    same("is set", &after.parameters[low..high], &bytes);
                    same("behind it", &after.parameters[high..], &server.parameters[high..]);
                    truth("others", after.datapoints == server.datapoints && after.items == server.items);
                    same("read back", ask(&mut after, &get(7, start, number)).expect("answer")[6..].to_vec(), bytes);
                }
                if number > 0 {
                    is_error("10, less", &mut server, &message[..message.len() - 1], start, 10);
                }
                if number < 248 {
                    is_error("10, more", &mut server, &join(&[&message, &[0]]), start, 10);
                }
            }
        }
    }
}

/// (02) item 5. "only that service writes it": what other requests and events leave, and what a request leaves that is not
/// carried out.
fn parameters_left_alone() {
    let mut server = small_open_server();
    let bytes = server.parameters.clone();
    let stand = |what: &str, server: &Server| same(what, &server.parameters, &bytes);
    for message in [
        get(1, 0, 0xFFFF),
        set_items(2, &[(2, &[7]), (4, &[8; 16])]),
        get(3, 10, 3),
        get(4, 1, 6),
        get_values(10, 3, 0),
        set_values(10, &[(10, 3, &[1]), (18, 1, &[5, 6]), (17, 4, &[])]),
        get(7, 1, 6),
        get(9, 1, 6),
        join(&[&get(9, 1, 3), &[0xA1, 0xA2, 0xA3]]),
        join(&[&get(0x88, 1, 3), &[0xA1, 0xA2, 0xA3]]),
        join(&[&get(0xC1, 1, 3), &[0xA1, 0xA2, 0xA3]]),
    ] {
        ask(&mut server, &message);
        stand("another service", &server);
    }
    bus(&mut server, 10, &[1]);
    event(&mut server, Event::TransmissionOutcome(10, Outcome::Sent));
    truth("the poll tells", !event(&mut server, Event::Poll).is_empty());
    for _ in 0..5 {
        event(&mut server, Event::AckWaitOver);
    }
    event(&mut server, Event::IdleMark);
    same("a reset is acknowledged", feed(&mut server, &hex("10 40 40 16")), vec![0xE5]);
    stand("other events", &server);
    // What is set stands over a reset.
    same("set", ask(&mut server, &hex("F0 08 00 03 00 01 A1")), Some(hex("F0 88 00 03 00 00 00")));
    same("a reset is acknowledged", feed(&mut server, &hex("10 40 40 16")), vec![0xE5]);
    same("a reset", &server.parameters, &hex("0B 0C A1 0E 0F 10"));
    // A repeated request is acknowledged alone: what the table's owner wrote meanwhile stands. Then one that comes while the
    // answer is outstanding.
    let frame = framed(0x73, &set_parameters(3, &[0xB1]));
    same("carried out", feed_whole(&mut server, &frame)[6..13].to_vec(), hex("F0 88 00 03 00 00 00"));
    server.parameters[2] = 0xB2;
    same("repeated", feed_whole(&mut server, &frame), vec![0xE5]);
    same("repeated", server.parameters[2], 0xB2);
    same("dropped", feed_whole(&mut server, &framed(0x53, &set_parameters(3, &[0xB3]))), Vec::new());
    same("dropped", server.parameters[2], 0xB2);
    feed(&mut server, &[0xE5]);
    same("repeated after the acknowledgement", feed_whole(&mut server, &frame), vec![0xE5]);
    same("repeated after the acknowledgement", server.parameters[2], 0xB2);
    // Each bit of a frame turned over, each byte lost: nothing is set.
    let frame = framed(0x53, &set_parameters(1, &[0xD1, 0xD2, 0xD3]));
    let before = server.clone();
    for at in 0..frame.len() {
        for bit in 0..=8 {
            let mut bytes = frame.clone();
            if bit == 8 {
                bytes.remove(at);
            } else {
                bytes[at] ^= 1 << bit;
            }
            let mut server = before.clone();
            same("a damaged set", feed(&mut server, &bytes), Vec::new());
            truth("sets nothing", tables_stand(&before, &server));
        }
    }
    truth("the whole one does", feed(&mut server, &frame).len() == 15 && server.parameters[..3] == [0xD1, 0xD2, 0xD3]);
}

/// (02) item 1. "Add GetDescriptionString (sub 04, document 000, 3.8 and 3.9): start, count, then per string a length of
/// two bytes and the text."
fn description_strings() {
    // The site's text, the default one, none; an empty text of the site does not hide the default one.
    let mut server = small_server();
    let before = server.clone();
    same("default", ask(&mut server, &get(4, 10, 1)), Some(join(&[&hex("F0 84 00 0A 00 01 00 04"), b"Lamp"])));
    same("an empty default", ask(&mut server, &get(4, 11, 1)), Some(hex("F0 84 00 0B 00 01 00 00")));
    same("neither", ask(&mut server, &get(4, 12, 1)), Some(hex("F0 84 00 0C 00 01 00 00")));
    same("site", ask(&mut server, &get(4, 17, 1)), Some(join(&[&hex("F0 84 00 11 00 01 00 07"), b"Kitchen"])));
    same("an empty site's", ask(&mut server, &get(4, 18, 1)), Some(join(&[&hex("F0 84 00 12 00 01 00 05"), b"Blind"])));
    let head = hex("F0 84 00 0F 00 05 00 00 00 00");
    let several = join(&[&head, &hex("00 07"), b"Kitchen", &hex("00 05"), b"Blind", &hex("00 00")]);
    same("several", ask(&mut server, &get(4, 15, 5)), Some(several));
    // IDs that no datapoint has are skipped, with a text and without; the start is echoed.
    same("one of a range", ask(&mut server, &get(4, 25, 6)), Some(hex("F0 84 00 19 00 01 00 00")));
    is_error("2, with a text", &mut server, &get(4, 25, 5), 25, 2);
    is_error("2, with a text", &mut server, &get(4, 0, 10), 0, 2);
    is_error("2, with a text", &mut server, &get(4, 0xFFFF, 1), 0xFFFF, 2);
    is_error("2, without", &mut server, &get(4, 31, 0xFFFF), 31, 2);
    is_error("6", &mut server, &get(4, 17, 0), 17, 6);
    is_error("10", &mut server, &hex("F0 04 00 11 00 01 00"), 17, 10);
    is_error("10 before 6", &mut server, &hex("F0 04 00 11 00 00 00"), 17, 10);
    // It changes no table: bit 3 of the state stays too, with and without a text.
    truth("no table is changed", tables_stand(&before, &server));
    // Each length, each byte, in either list.
    for site in [false, true] {
        for length in 0..=30 {
            let text: Vec<u8> = (0..length).map(|at| (at * 9 + length) as u8).collect();
            let list = text_list(&[(16, b"before"), (17, &text), (18, b"behind")]);
            let mut server = empty_server();
            server.datapoints.push(datapoint(17, 7, 0, &[1]));
            *(if site { &mut server.site_texts } else { &mut server.default_texts }) = list;
            let want = join(&[&hex("F0 84 00 11 00 01 00"), &[length as u8], &text]);
            same("each length", ask(&mut server, &get(4, 17, 1)), Some(want));
        }
        for byte in 0..=0xFF_u8 {
            let mut server = small_server();
            let list = text_list(&[(10, &[byte, 0, byte])]);
            *(if site { &mut server.site_texts } else { &mut server.default_texts }) = list;
            let want = join(&[&hex("F0 84 00 0A 00 01 00 03"), &[byte, 0, byte]]);
            same("each byte", ask(&mut server, &get(4, 10, 1)), Some(want));
        }
    }
    // Texts of 30 bytes: 7 answer with 230, the 8th goes over; the code has its ID, also where later ones are shorter.
    let mut server = empty_server();
    let thirty = [0x41; 30];
    let all: Vec<(u16, &[u8])> = (1..=9).map(|at| (at * 5, &thirty[..])).collect();
    server.datapoints = (1..=9).map(|at| datapoint(at * 5, 7, 0x18, &[1])).collect();
    for lists in [(&all[..], &[][..]), (&[], &all), (&all[3..], &all[..4])] {
        server.site_texts = text_list(lists.0);
        server.default_texts = text_list(lists.1);
        let answer = ask(&mut server, &get(4, 1, 38)).expect("answer");
        same("7 of 30 bytes", &answer[..6], &hex("F0 84 00 01 00 07"));
        same("7 of 30 bytes", answer[6..].to_vec(), join(&[&hex("00 1E"), &thirty]).repeat(7));
        is_error("8 of 30 bytes", &mut server, &get(4, 1, 40), 40, 3);
        is_error("9 of 30 bytes", &mut server, &get(4, 1, 0xFFFF), 40, 3);
        is_error("9 from the second on", &mut server, &get(4, 6, 0xFFFF), 45, 3);
    }
    // 254 bytes answer: 7 of 32 and one of 24; one more byte is over.
    for length in 0..=30 {
        let text = vec![0x42; length];
        server.site_texts = join(&[&text_list(&all[..7]), &text_list(&[(40, &text)])]);
        server.default_texts = Vec::new();
        if length <= 22 {
            same("up to 254", ask(&mut server, &get(4, 5, 36)).expect("answer").len(), 6 + 7 * 32 + 2 + length);
        } else {
            is_error("255 and above", &mut server, &get(4, 5, 36), 40, 3);
        }
    }
    // Lists of many entries, around the IDs of the table.
    let many: Vec<(u16, &[u8])> = (0..=65535).map(|id| (id, if id % 3 == 0 { &b"many"[..] } else { &[] })).collect();
    server.site_texts = text_list(&many);
    server.default_texts = text_list(&[(5, b"five"), (10, b"ten")]);
    let want = join(&[&hex("F0 84 00 05 00 03 00 04"), b"five", &hex("00 03"), b"ten", &hex("00 04"), b"many"]);
    // The last byte alone: a list of 65,536 entries takes its time.
    let frame = framed(0x73, &get(4, 5, 11));
    server.link = empty_link();
    server.link.receiver[..frame.len() - 1].copy_from_slice(&frame[..frame.len() - 1]);
    server.link.received = frame.len() as u16 - 1;
    same("65,536 entries", feed(&mut server, &[0x16]), join(&[&[0xE5], &framed(0xF3, &want)]));
}

/// (02) item 1: "call refusal 1 also for a list out of order or not made of whole entries". In every call, for either
/// list; `step` sees that nothing is altered.
fn text_lists() {
    let judged = |what: &str, list: &[u8], in_order: bool| {
        for site in [false, true] {
            for (happened, value) in six_events() {
                let mut server = small_server();
                *(if site { &mut server.site_texts } else { &mut server.default_texts }) = list.to_vec();
                let result = step(&mut server, &happened, &value, 262);
                same(what, result.err(), if in_order { None } else { Some(1) });
            }
        }
    };
    judged("no byte", &[], true);
    // Cut at each byte: in order where an entry ends, and nowhere else.
    let list = text_list(&[(0, b"zero"), (1, b""), (17, &[0; 30]), (256, b"\0\0\0"), (300, b""), (65535, b"end")]);
    let ends = [0, 7, 10, 43, 49, 52, 58];
    same("the whole list", list.len(), 58);
    for cut in 0..=list.len() {
        judged("cut", &list[..cut], ends.contains(&cut));
    }
    judged("a byte more", &join(&[&list, &[0]]), false);
    // Each length byte, with as many bytes behind it and with more entries behind these.
    for length in 0..=0xFF_u8 {
        let text = vec![0x55; usize::from(length)];
        judged("a length of 0 to 30", &text_list(&[(17, &text)]), length <= 30);
        judged("a length of 0 to 30", &text_list(&[(3, b"three"), (17, &text), (18, b"")]), length <= 30);
    }
    // The order of the IDs: strictly rising, from 0 on, by both bytes.
    let ids = [0, 1, 2, 0xFE, 0xFF, 0x100, 0x101, 0x1FF, 0x200, 0x7FFF, 0x8000, 0xFF00, 0xFFFE, 0xFFFF];
    for first in ids {
        judged("a first ID", &text_list(&[(first, b"any")]), true);
        for second in ids {
            judged("two IDs", &text_list(&[(first, b"a"), (second, b"b")]), first < second);
            judged("two IDs, no text", &text_list(&[(first, b""), (second, b"")]), first < second);
            let three = text_list(&[(first, b"a"), (second, b"b"), (0xFFFF, b"c")]);
            judged("three IDs", &three, first < second && second < 0xFFFF);
        }
    }
    // The lists know nothing of each other, nor of the tables: equal IDs, the same bytes, no datapoint.
    let mut server = empty_server();
    server.site_texts = list.clone();
    server.default_texts = list.clone();
    same("the same list twice", event(&mut server, Event::IdleMark), Vec::new());
    // A get is refused too, and not answered from the part of the list that is in order.
    let mut server = small_server();
    server.site_texts = text_list(&[(10, b"Lamp"), (9, b"")]);
    let frame = framed(0x73, &get(4, 10, 1));
    server.link.receiver[..frame.len() - 1].copy_from_slice(&frame[..frame.len() - 1]);
    server.link.received = frame.len() as u16 - 1;
    same("a get with a list out of order", step(&mut server, &Event::HostByte(0x16), &[], 262), Err(1));
}

/// A datapoint 7 of this DPT and type, valid.
fn typed(dpt: u8, typecode: u8, value: &[u8]) -> Datapoint {
    Datapoint { dpt, ..datapoint(7, typecode, 0x10, value) }
}

fn read_one(record: Datapoint) -> Reading {
    reading(&[record], 7).expect("given")
}

/// (02) item 3. "give the reading as one of: a switch state (DPT 1, type 0), a count (DPT 5, type 7), a two-octet value
/// (DPT 9, type 8), a single (DPT 14, type 10), or unreadable."
fn readings() {
    for (value, on) in [(0, false), (1, true)] {
        same("switch", read_one(typed(1, 0, &[value])), Reading::Switch(on));
    }
    for byte in 0..=0xFF {
        same("count", read_one(typed(5, 7, &[byte])), Reading::Count(byte));
    }
    for (octets, value) in [
        ("0C 1A", 21.0_f32),
        ("8A 24", -30.0),
        ("00 00", 0.0),
        ("78 00", 0.0),
        ("00 01", 0.01),
        ("87 FF", -0.01),
        ("01 91", 4.01),
        ("80 00", -20.48),
        ("FF FF", -327.68),
        ("7F FE", 670433.28),
        ("F8 00", -671088.64),
    ] {
        same(octets, read_one(typed(9, 8, &hex(octets))), Reading::TwoOctet(value.to_bits()));
    }
    same("7FFF", read_one(typed(9, 8, &hex("7F FF"))), Reading::Unreadable);
    // "a DPT 14 that is infinite or not a number": by all signs and exponents, minus zero and subnormals among them
    for high in 0..512_u32 {
        for mantissa in [0, 1, 0x2A_AAAA, 0x40_0000, 0x7F_FFFF] {
            let bits = high << 23 | mantissa;
            let want = if f32::from_bits(bits).is_finite() { Reading::Single(bits) } else { Reading::Unreadable };
            same("single", read_one(typed(14, 10, &bits.to_be_bytes())), want);
        }
    }
    for (bits, value) in [(0x8000_0000, -0.0_f32), (0x4366_8000, 230.5), (0xFF7F_FFFF, f32::MIN)] {
        same("a single", read_one(typed(14, 10, &u32::to_be_bytes(bits))), Reading::Single(value.to_bits()));
    }
    for bits in [f32::INFINITY.to_bits(), f32::NEG_INFINITY.to_bits(), f32::NAN.to_bits(), 0x7F80_0001, 0xFFFF_FFFF] {
        same("no number", read_one(typed(14, 10, &bits.to_be_bytes())), Reading::Unreadable);
    }
    // "any other DPT and type, and a datapoint whose valid bit is off"; other bits, flags and mark are nothing to it.
    for dpt in 0..=0xFF {
        for typecode in 0..=14 {
            let want = match (dpt, typecode) {
                (1, 0) => Reading::Switch(true),
                (5, 7) => Reading::Count(1),
                (9, 8) => Reading::TwoOctet(0.01_f32.to_bits()),
                (14, 10) => Reading::Single(1),
                _ => Reading::Unreadable,
            };
            let mut value = vec![0; SIZES[usize::from(typecode)]];
            *value.last_mut().expect("a byte") = 1;
            for state in 0..32 {
                let record = Datapoint { state, flags: dpt ^ state, mark: state % 2, ..typed(dpt, typecode, &value) };
                same("DPT and type", read_one(record), if state < 16 { Reading::Unreadable } else { want.clone() });
            }
        }
    }
}

/// (02) item 3: "7FFF aside, hundredths run from -67,108,864 to 67,043,328, are exact in 32-bit floating point, and the
/// reading is that number divided by 100, rounded once. Show over whole numbers, with the reading taken as the exact
/// binary fraction it is, that 100 times it differs from the hundredths by at most their size divided by 2 to the 24."
/// Each of the 65,535.
fn two_octet_values() {
    let (mut least, mut most) = (0, 0);
    let mut worst = (0, 1, 0); // the difference times 2 to the 24, of so much, and where
    for octets in (0..=0xFFFF_u16).filter(|octets| *octets != 0x7FFF) {
        let Reading::TwoOctet(bits) = read_one(typed(9, 8, &octets.to_be_bytes())) else {
            panic!("{octets:04X} is read");
        };
        // once more, in another way: the sign counts -2048
        let sized = i128::from(octets & 0x07FF) - if octets >= 0x8000 { 2048 } else { 0 };
        let hundredths = sized << (octets >> 11 & 15);
        (least, most) = (hundredths.min(least), hundredths.max(most));
        same("exact in 32-bit floating point", hundredths as f32 as i128, hundredths);
        // rounded once: as the number that stands in decimals, and as the quotient of two numbers that are exact
        let size = hundredths.unsigned_abs();
        let decimals = format!("{}{}.{:02}", if hundredths < 0 { "-" } else { "" }, size / 100, size % 100);
        same("as in decimals", bits, decimals.parse::<f32>().expect("a number").to_bits());
        same("as a quotient", bits, (hundredths as f32 / 100.0).to_bits());
        // as a fraction: 24 bits of mantissa over a power of 2
        if hundredths == 0 {
            same("0", bits, 0);
            continue;
        }
        let mantissa = i128::from(bits & 0x7F_FFFF | 0x80_0000) * if bits >> 31 == 1 { -1 } else { 1 };
        let over = 1_i128 << (150 - (bits >> 23 & 0xFF));
        let difference = (100 * mantissa - hundredths * over).abs() << 24;
        let of = hundredths.abs() * over;
        truth("at most their size divided by 2 to the 24", difference <= of);
        if difference * worst.1 > worst.0 * of {
            worst = (difference, of, octets);
        }
    }
    same("the least and the most", (least, most), (-67_108_864, 67_043_328));
    same("the worst", worst.2, 0x0191);
    truth("the worst is 0.958", worst.0 * 10_000 / worst.1 == 9_576);
    // Of two that are equally near the even one: it does not come about in hundredths, and is the rule of the rounding.
    for (numerator, denominator, value) in [
        (16_777_217, 1, 16_777_216.0_f32),
        (16_777_219, 1, 16_777_220.0),
        (33_554_433, 2, 16_777_216.0),
        (33_554_431, 1, 33_554_432.0),
        (33_554_435, 4, 8_388_609.0),
        (1, 3, 0.333_333_34),
    ] {
        same("the nearest", nearest_single(numerator, denominator), value.to_bits());
    }
}

/// (02) item 3: "Refusals: call 1 as before, then 4 for an ID that is absent."
fn readings_refused() {
    let server = small_server();
    for id in 0..=0xFFFF {
        let present = (10..=24).contains(&id) || id == 30;
        same("4", reading(&server.datapoints, id).err(), if present { None } else { Some(4) });
    }
    same("4, no datapoint", reading(&[], 1), Err(4));
    let count = |id: u16| Datapoint { dpt: 5, ..datapoint(id, 7, 0x1F, &[id as u8]) };
    let many: Vec<Datapoint> = (1..=1001).map(count).collect();
    for id in 1..=1000 {
        same("of 1000", reading(&many[..1000], id), Ok(Reading::Count(id as u8)));
        same("1, of 1001", reading(&many, id), Err(1));
    }
    same("4, of 1000", reading(&many[..1000], 1001), Err(4));
    // What a record has to be, as in a call; and 1 comes before 4.
    let alterations: [fn(&mut Datapoint); 8] = [
        |record| record.id = 0,
        |record| record.id = 16,
        |record| record.id = 18,
        |record| record.typecode = 15,
        |record| record.state = 0x30,
        |record| record.value[1] = 1,
        |record| record.value[13] = 0x80,
        |record| record.mark = 2,
    ];
    for alter in alterations {
        let mut server = small_server();
        alter(&mut server.datapoints[7]);
        same("1, in a call", call(&mut server.clone(), &Event::IdleMark, &[], 262), Err(1));
        for id in [0, 10, 17, 30, 31] {
            same("1", reading(&server.datapoints, id), Err(1));
        }
    }
}

/// A burst in a run of so many places: what it holds, and its starts. The places behind them stay as they were.
fn read_burst(bytes: &[u8], places: u16) -> Result<(Burst, Vec<u16>), u8> {
    let before: Vec<u16> = (0..places).map(|place| 40_000 + place).collect();
    let mut run = before.clone();
    let read = burst(bytes, &mut run);
    let needed = read.as_ref().map_or(0, |burst| usize::from(burst.frames) + usize::from(burst.acknowledgements));
    same("places not needed stay unaltered", &run[needed..], &before[needed..]);
    run.truncate(needed);
    read.map(|burst| (burst, run))
}

/// The burst holds so many frames and acknowledgements, which start there, and so it ends.
fn holds(what: &str, bytes: &[u8], frames: u16, acknowledgements: u16, ending: Ending, starts: &[u16]) {
    let want = (Burst { frames, acknowledgements, ending }, starts.to_vec());
    same(what, read_burst(bytes, 2048), Ok(want));
}

/// (02) item 8: "how many sound frames (ignored ones too) and acknowledgements it found, where each starts (first byte
/// 0), in order, [...] and whether the burst ended clean, in damage or in an unfinished frame."
fn bursts() {
    holds("no byte", &[], 0, 0, Ending::Clean, &[]);
    holds("E5", &hex("E5"), 0, 1, Ending::Clean, &[0]);
    holds("E5 three times", &hex("E5 E5 E5"), 0, 3, Ending::Clean, &[0, 1, 2]);
    holds("a reset", &hex("10 40 40 16"), 1, 0, Ending::Clean, &[0]);
    let frame = hex(ASK_ITEM_1);
    holds("a frame", &frame, 1, 0, Ending::Clean, &[0]);
    holds("a frame, then E5", &join(&[&frame, &[0xE5]]), 1, 1, Ending::Clean, &[0, 13]);
    holds("E5, then a frame", &join(&[&[0xE5], &frame]), 1, 1, Ending::Clean, &[0, 1]);
    let three = join(&[&hex("10 40 40 16"), &frame, &[0xE5], &frame]);
    holds("a reset, a frame, E5, a frame", &three, 3, 1, Ending::Clean, &[0, 4, 17, 18]);
    // (01) "L = 1 with 73 and checksum 73"; and the longest, with E5 for each of its bytes.
    holds("L = 1", &hex("68 01 01 68 73 73 16"), 1, 0, Ending::Clean, &[0]);
    let longest = framed(0x73, &[0xE5; 254]);
    holds("L = 255", &join(&[&longest, &longest]), 2, 0, Ending::Clean, &[0, 261]);
    // "ignored ones too": another C, another control byte.
    for c in 0..=0xFF {
        holds("any C", &[0x10, c, c, 0x16], 1, 0, Ending::Clean, &[0]);
        holds("any control byte", &framed(c, &hex("F0 01 00 01 00 01")), 1, 0, Ending::Clean, &[0]);
    }
    // (01) example 9, "L = 0 is damage", at its first L; and example 11, 10 40 41 16.
    for text in ["68 00", "68 00 00", "68 00 00 68", "68 00 00 68 00 16", "10 40 41", "10 40 41 16"] {
        holds(text, &hex(text), 0, 0, Ending::Damaged, &[]);
    }
    // A whole frame that stands within another is none, whether that one is sound or damaged.
    let outer = framed(0x73, &frame);
    holds("a frame in a frame", &outer, 1, 0, Ending::Clean, &[0]);
    let mut damaged = outer.clone();
    damaged[1] += 1;
    holds("a frame in a damaged frame", &damaged, 0, 0, Ending::Damaged, &[]);
    // (01) "the rest is dropped up to the next idle mark": what is found before damage stays, and nothing is behind it.
    let hidden = join(&[&[0xE5], &frame, &hex("10 40 41 16"), &frame, &[0xE5]]);
    holds("sound frames behind damage", &hidden, 1, 1, Ending::Damaged, &[0, 1]);
    // The byte at which damage is found starts nothing.
    for text in ["68 07 68", "68 07 E5", "68 07 07 10", "10 40 68", "10 40 E5", "10 40 40 E5", "68 01 01 68 73 E5", "16"] {
        holds(text, &join(&[&hex(text), &frame]), 0, 0, Ending::Damaged, &[]);
    }
    // (01) "A damaged frame may begin with E5": that byte is an acknowledgement.
    let mut led = frame.clone();
    led[0] = 0xE5;
    holds("E5-led damage", &led, 0, 1, Ending::Damaged, &[0]);
}

/// Each cut of a frame is unfinished, behind whole ones too; and each byte changed, but for the first, is damage.
fn bursts_cut_and_changed() {
    let before = join(&[&hex(ASK_ITEM_1), &[0xE5]]);
    for frame in [hex("10 40 40 16"), hex(ASK_ITEM_1), framed(0x53, &[]), framed(0x11, &[0x68; 254])] {
        for cut in 1..frame.len() {
            holds("unfinished", &frame[..cut], 0, 0, Ending::Unfinished, &[]);
            holds("unfinished", &join(&[&before, &frame[..cut]]), 1, 1, Ending::Unfinished, &[0, 13]);
        }
        for at in 1..frame.len() {
            for change in 1..=0xFF {
                let mut bytes = join(&[&before, &frame, &before]);
                bytes[14 + at] ^= change;
                holds("damaged", &bytes, 1, 1, Ending::Damaged, &[0, 13]);
            }
        }
    }
}

/// (02) item 8: "up to 2048 bytes", "a lent run of 2048 places"; "call number 8 for a longer burst or a shorter run; it
/// leaves the run unaltered."
fn bursts_refused() {
    let all: Vec<u16> = (0..2048).collect();
    holds("2048 acknowledgements in 2048 places", &[0xE5; 2048], 0, 2048, Ending::Clean, &all);
    let want = (Burst { frames: 0, acknowledgements: 2048, ending: Ending::Clean }, all);
    same("the same in 2100 places", read_burst(&[0xE5; 2048], 2100), Ok(want));
    let full = [0x10, 0x40, 0x40, 0x16].repeat(512);
    let starts: Vec<u16> = (0..512).map(|at| 4 * at).collect();
    holds("2048 bytes", &full, 512, 0, Ending::Clean, &starts);
    for (bytes, places) in [(2049, 2048), (2049, 2049), (5000, 2048), (2048, 2047), (0, 2047), (1, 0), (2049, 2047)] {
        for byte in [0xE5, 0x10, 0x00] {
            same("8", read_burst(&vec![byte; bytes], places), Err(8));
        }
    }
    for bytes in 0..=2100 {
        same("8 for a longer burst", read_burst(&vec![0xE5; bytes], 2048).is_err(), bytes > 2048);
        same("8 for a shorter run", read_burst(&[0xE5], bytes as u16).is_err(), bytes < 2048);
    }
}

fn gets() {
    let mut server = small_server();
    // Items.
    same(
        "items 1 to 3",
        ask(&mut server, &get(1, 1, 3)),
        Some(hex("F0 81 00 01 00 02 00 01 03 01 02 03 00 02 01 04")),
    );
    same("items from 0", ask(&mut server, &get(1, 0, 3)), Some(hex("F0 81 00 00 00 02 00 01 03 01 02 03 00 02 01 04")));
    same("items from 0, one", ask(&mut server, &get(1, 0, 1)), Some(error(1, 0, 2)));
    is_error("2, items", &mut server, &get(1, 3, 1), 3, 2);
    is_error("2, items", &mut server, &get(1, 5, 0xFFFF), 5, 2);
    let answer = ask(&mut server, &get(1, 3, 0xFFFF)).expect("answer");
    same("item 4", answer, join(&[&hex("F0 81 00 03 00 01 00 04 10"), &[9; 16]]));
    // Descriptions: ID, type code, config flags, DPT.
    server.datapoints[1].flags = 0xFE;
    server.datapoints[1].dpt = 0xFD;
    same(
        "descriptions",
        ask(&mut server, &get(3, 10, 2)),
        Some(hex("F0 83 00 0A 00 02 00 0A 00 00 01 00 0B 01 FE FD")),
    );
    same("description across a gap", ask(&mut server, &get(3, 25, 6)), Some(hex("F0 83 00 19 00 01 00 1E 07 57 01")));
    is_error("2, descriptions", &mut server, &get(3, 25, 5), 25, 2);
    is_error("2, descriptions", &mut server, &get(3, 0, 10), 0, 2);
    is_error("2, descriptions", &mut server, &get(3, 31, 0xFFFF), 31, 2);
    // Values and filters; "shows the state byte as it was and then clears bit 3".
    let mut want = server.datapoints.clone();
    same(
        "values 24 and 30",
        ask(&mut server, &get_values(24, 7, 0)),
        Some(join(&[&hex("F0 85 00 18 00 02 00 18 0E 0E"), &[1; 14], &hex("00 1E 1F 01 AB")])),
    );
    want[14].state = 0x06;
    want[15].state = 0x17;
    same("bit 3 of those carried", &server.datapoints, &want);
    same("again", ask(&mut server, &get_values(30, 1, 0)), Some(hex("F0 85 00 1E 00 01 00 1E 17 01 AB")));
    same("filter 1", ask(&mut server, &get_values(1, 0xFFFF, 1)), Some(hex("F0 85 00 01 00 01 00 1E 17 01 AB")));
    // State = type code: bit 3 is set for the types 8 to 13 still.
    let mut bytes = hex("F0 85 00 01 00 06");
    for typecode in 8..=13_u8 {
        bytes.extend_from_slice(&[0, 10 + typecode, typecode, SIZES[usize::from(typecode)] as u8]);
        bytes.extend_from_slice(&vec![1; SIZES[usize::from(typecode)]]);
    }
    same("filter 2", ask(&mut server, &get_values(1, 0xFFFF, 2)), Some(bytes));
    for record in &server.datapoints {
        truth("no bit 3 is left", record.state & 8 == 0);
    }
    is_error("2, filter 2 passes nothing", &mut server, &get_values(1, 0xFFFF, 2), 1, 2);
    is_error("2, filter 1 passes nothing", &mut server, &get_values(10, 15, 1), 10, 2);
    is_error("2, values absent", &mut server, &get_values(25, 5, 0), 25, 2);
    // "An answer leaves the marks."
    server.datapoints[15].mark = 1;
    server.datapoints[15].state = 0x18;
    ask(&mut server, &get_values(30, 1, 0));
    truth("the mark stays", server.datapoints[15].mark == 1 && server.datapoints[15].state == 0x10);
    // A description or an error answer carries no value: bit 3 stays.
    server.datapoints[15].state = 0x18;
    ask(&mut server, &get(3, 30, 1));
    truth("a description leaves bit 3", server.datapoints[15].state == 0x18);
    // Parameter bytes.
    same("parameters", ask(&mut server, &get(7, 2, 3)), Some(hex("F0 87 00 02 00 03 0C 0D 0E")));
    same("parameters past the end", ask(&mut server, &get(7, 5, 0xFFFF)), Some(hex("F0 87 00 05 00 02 0F 10")));
    same("last parameter", ask(&mut server, &get(7, 6, 1)), Some(hex("F0 87 00 06 00 01 10")));
    is_error("2, parameters", &mut server, &get(7, 7, 1), 7, 2);
    is_error("2, index 0", &mut server, &get(7, 0, 1), 0, 2);
    is_error("2, index 0, bytes in range", &mut server, &get(7, 0, 5), 0, 2);
    is_error("2, index 0, all", &mut server, &get(7, 0, 0xFFFF), 0, 2);
    is_error("2, index 256 is not index 0", &mut server, &get(7, 256, 1), 256, 2);
    server.parameters = vec![0x77; 255];
    is_error("2 before 3, index 0", &mut server, &get(7, 0, 0xFFFF), 0, 2);
    same("index 255", ask(&mut server, &get(7, 255, 2)), Some(hex("F0 87 00 FF 00 01 77")));
    server.parameters = Vec::new();
    is_error("2, no parameters", &mut server, &get(7, 1, 1), 1, 2);
}

fn limits_254_and_255() {
    // Items: an entry has 3 bytes and its data; 254 - 6 = 248 = 12 x 19 + 10 + 10.
    let mut server = empty_server();
    for id in 1..=12 {
        server.items.push(item(id, false, &[id as u8; 16]));
    }
    server.items.push(item(13, false, &[13; 7]));
    server.items.push(item(14, false, &[14; 7]));
    same("items, 254", ask(&mut server, &get(1, 1, 14)).expect("answer").len(), 254);
    server.items[13] = item(14, false, &[14; 8]);
    is_error("items, 255", &mut server, &get(1, 1, 14), 14, 3);
    // "a later shorter one does not save it"
    server.items[13] = item(14, false, &[14; 16]);
    server.items.push(item(15, false, &[1]));
    is_error("items, a later shorter one", &mut server, &get(1, 1, 15), 14, 3);
    same("items, one less", ask(&mut server, &get(1, 1, 13)).expect("answer").len(), 244);
    is_error("items, all of 64", &mut many_items(), &get(1, 0, 0xFFFF), 4 * 63, 3);

    // Values: 248 = 13 x 18 + 14; 249 = 13 x 18 + 10 + 5.
    let mut server = empty_server();
    for id in 1..=13 {
        server.datapoints.push(datapoint(id, 14, 0x18, &[id as u8; 14]));
    }
    server.datapoints.push(datapoint(14, 13, 0x18, &[14; 10]));
    let before = server.datapoints.clone();
    same("values, 254", ask(&mut server, &get_values(1, 14, 0)).expect("answer").len(), 254);
    server.datapoints = before;
    server.datapoints[13] = datapoint(14, 11, 0x18, &[14; 6]);
    server.datapoints.push(datapoint(15, 7, 0x18, &[15]));
    is_error("values, 255; bit 3 stays", &mut server, &get_values(1, 0xFFFF, 0), 15, 3);
    is_error("values, 255, filter 2", &mut server, &get_values(1, 0xFFFF, 2), 15, 3);
    // The filter comes before row 3: without bit 4 record 3 is left out and all else fits.
    server.datapoints[2].state = 0x08;
    same("values, filter 1", ask(&mut server, &get_values(1, 0xFFFF, 1)).expect("answer").len(), 255 - 18);
    truth("bit 3 of the one left out", server.datapoints[2].state == 0x08);
    for at in 0..server.datapoints.len() {
        truth("bit 3 of those carried", at == 2 || server.datapoints[at].state == 0x10);
    }
    // Descriptions of 5 bytes: 49 answer with 251, the 50th goes over.
    let mut server = empty_server();
    for at in 0..1000 {
        server.datapoints.push(datapoint(2 * at + 1, 14, 0, &[]));
    }
    same("descriptions, 49", ask(&mut server, &get(3, 1, 98)).expect("answer").len(), 251);
    is_error("descriptions, 50", &mut server, &get(3, 1, 99), 99, 3);
    is_error("descriptions, 1000", &mut server, &get(3, 3, 0xFFFF), 101, 3);
    // Strings without text, of 2 bytes: 124 answer with 254, the 125th goes over.
    let answer = ask(&mut server, &get(4, 1, 248)).expect("answer");
    same("strings, 124 empty", answer, join(&[&hex("F0 84 00 01 00 7C"), &[0; 248]]));
    is_error("strings, 125 empty", &mut server, &get(4, 1, 249), 249, 3);
    is_error("strings, 1000", &mut server, &get(4, 0, 0xFFFF), 249, 3);
    // A host message of 254 bytes (L = 255), and one of 255 cannot be framed.
    let value: &[u8] = &[0x3C; 14];
    let entries: Vec<(u16, u8, &[u8])> = (0..13).map(|at| (2 * at + 1, 3, value)).collect();
    let mut message = set_values(1, &entries);
    message.extend_from_slice(&hex("00 1B 02 0A"));
    message.extend_from_slice(&[0; 10]);
    message[5] = 14;
    same("a message of 254 bytes", message.len(), 254);
    is_error("L = 255 (its last entry has a wrong length)", &mut server, &message, 27, 9);
    let odd = server.link.expected;
    let frame = framed(if odd == 1 { 0x73 } else { 0x53 }, &message);
    same("a frame of 261 bytes", frame.len(), 261);
    server.datapoints[13] = datapoint(27, 13, 0x01, &[]);
    same("L = 255, 260 bytes", feed(&mut server, &frame[..260]), Vec::new());
    same("the receiver is full", server.link.received, 260);
    let sent = feed(&mut server, &frame[260..]);
    same("L = 255, positive", sent[6..13].to_vec(), hex("F0 86 00 01 00 00 00"));
    for at in 0..13 {
        same("L = 255, set", &server.datapoints[at], &datapoint(2 * at as u16 + 1, 14, 0x13, &[0x3C; 14]));
    }
    same("L = 255, the 14th", &server.datapoints[13], &datapoint(27, 13, 0x03, &[]));
}

fn many_items() -> Server {
    // 62 items of 1 byte fit in 6 + 62 x 4 = 254; the 63rd goes over.
    let mut server = empty_server();
    for at in 1..=64 {
        server.items.push(item(4 * at, true, &[at as u8]));
    }
    same("62 items fit", ask(&mut server, &get(1, 0, 4 * 62 + 1)).expect("answer").len(), 254);
    server
}

// ------------------------------------------------------------------------------------------------------------- the link

/// A server with an answer outstanding: item 1 asked for, expected bit even now, send bit odd.
fn waiting_server() -> Server {
    let mut server = item_1();
    server.datapoints.push(datapoint(5, 7, 0x00, &[0]));
    feed(&mut server, &hex(ASK_ITEM_1));
    truth("outstanding", server.link.held == 22 && server.link.expected == 0 && server.link.send == 1);
    server
}

fn acknowledgements() {
    // "with nothing outstanding it is ignored"
    for send in [0, 1] {
        let mut server = item_1();
        server.link.send = send;
        let before = server.clone();
        same("E5, nothing outstanding", feed(&mut server, &[0xE5]), Vec::new());
        same("E5 is ignored", server, before);
    }
    // "Clears the outstanding frame and flips the send bit"
    for resends in 0..=3 {
        let mut server = waiting_server();
        server.link.resends = resends;
        same("E5", feed(&mut server, &[0xE5]), Vec::new());
        let mut want = empty_link();
        want.expected = 0;
        want.send = 0;
        same("E5 clears", server.link, want);
    }
    // "E5 is an acknowledgement at a frame start only; in mid-frame it is a byte like any other"
    let mut server = waiting_server();
    same("E5 as C", feed(&mut server, &hex("10 E5 E5 16")), Vec::new());
    same("E5 in a frame", feed(&mut server, &framed(0xE5, &[0xE5; 5])), Vec::new());
    truth("still outstanding", server.link.held == 22 && server.link.send == 1);
    // "while dropping it is dropped"
    same("damage and E5", feed(&mut server, &hex("00 E5 E5")), Vec::new());
    truth("still outstanding", server.link.held == 22 && server.link.send == 1 && server.link.dropping == 1);
    event(&mut server, Event::IdleMark);
    feed(&mut server, &[0xE5]);
    truth("E5 after the mark", server.link.held == 0 && server.link.send == 0);
}

fn fixed_frames() {
    for c in 0..=0xFF_u8 {
        let mut server = waiting_server();
        server.link.resends = 2;
        let before = server.clone();
        let sent = feed_whole(&mut server, &[0x10, c, c, 0x16]);
        if c == 0x40 {
            same("reset", sent, vec![0xE5]);
            same("reset: link", server.link.clone(), empty_link());
            truth("tables stay", tables_stand(&before, &server));
        } else {
            same("another C", sent, Vec::new());
            same("another C is ignored", &server, &before);
        }
        // "After every [...] whole frame [...] the receiver is at a frame start"
        same("a reset right after", feed_whole(&mut server, &hex("10 40 40 16")), vec![0xE5]);
    }
    // A reset makes both bits odd, from every pair.
    for expected in [0, 1] {
        for send in [0, 1] {
            let mut server = item_1();
            server.link.expected = expected;
            server.link.send = send;
            same("reset", feed_whole(&mut server, &hex("10 40 40 16")), vec![0xE5]);
            same("both bits odd", server.link, empty_link());
        }
    }
}

fn controls_and_repeats() {
    for control in 0..=0xFF_u8 {
        for expected in [0, 1] {
            for outstanding in [false, true] {
                let mut server = if outstanding { waiting_server() } else { item_1() };
                server.link.expected = expected;
                let before = server.clone();
                let sent = feed_whole(&mut server, &framed(control, &hex("F0 01 00 01 00 01")));
                let odd = u8::from(control == 0x73);
                if control != 0x73 && control != 0x53 {
                    same("another control byte", sent, Vec::new());
                    same("is ignored", server, before);
                } else if odd == expected && !outstanding {
                    same("carried out", sent, join(&[&[0xE5], &hex(ITEM_1_ANSWER)]));
                    truth("bit flips", server.link.expected != expected && server.link.held == 22);
                } else if odd == expected {
                    same("expected, outstanding", sent, Vec::new());
                    same("dropped, bit kept", server, before);
                } else {
                    same("other bit", sent, vec![0xE5]);
                    same("message dropped", server, before);
                }
            }
        }
    }
    // A repeated set is not carried out again.
    let mut server = empty_server();
    server.datapoints.push(datapoint(5, 7, 0x00, &[0]));
    let frame = framed(0x73, &set_values(5, &[(5, 1, &[0x42])]));
    truth("set", feed_whole(&mut server, &frame).len() > 1);
    bus(&mut server, 5, &[0x43]);
    let before = server.clone();
    for _ in 0..5 {
        same("repeat while outstanding", feed_whole(&mut server, &frame), vec![0xE5]);
        same("no change", &server, &before);
    }
    feed(&mut server, &[0xE5]);
    let before = server.clone();
    for _ in 0..5 {
        same("repeat after the acknowledgement", feed_whole(&mut server, &frame), vec![0xE5]);
        same("no change", &server, &before);
    }
    // "one that carries out the first request after a reset and only acknowledges later ones": ten requests in turn.
    for round in 0..10_u8 {
        same("set", ask(&mut server, &set_values(5, &[(5, 1, &[round])])), Some(hex("F0 86 00 05 00 00 00")));
        same("is carried out", server.datapoints[0].value[0], round);
    }
}

fn damage() {
    // Every place of three frames, every other byte there: found at that byte, or for control and data at the checksum.
    let frames = [hex("10 40 40 16"), framed(0x53, &hex("F0 01 00 01 00 01")), framed(0x53, &[]), framed(0x11, &[0x68, 0xE5])];
    for frame in &frames {
        for at in 0..frame.len() {
            for byte in 0..=0xFF_u8 {
                if byte == frame[at] {
                    continue;
                }
                let mut bytes = frame.clone();
                bytes[at] = byte;
                // Where it has to be found; None: no damage, or another form from here on.
                let found = if at == 0 {
                    if byte == 0xE5 || byte == 0x10 || byte == 0x68 {
                        None
                    } else {
                        Some(0)
                    }
                } else if frame[0] == 0x10 {
                    Some(if at == 1 { 2 } else { at })
                } else if at == 1 {
                    Some(if byte == 0 { 1 } else { 2 })
                } else if at < 4 || at >= frame.len() - 2 {
                    Some(at)
                } else {
                    Some(frame.len() - 2)
                };
                let Some(found) = found else { continue };
                let mut server = waiting_server();
                let before = server.clone();
                for place in 0..bytes.len() {
                    same("damage sends nothing", feed(&mut server, &bytes[place..=place]), Vec::new());
                    same("damage is found at that byte", server.link.dropping, u8::from(place >= found));
                    let gathered = if place >= found { 0 } else { place + 1 };
                    same("what is gathered", usize::from(server.link.received), gathered);
                }
                // The rest is dropped, whatever it spells.
                same("dropped", feed(&mut server, &hex("10 40 40 16 E5")), Vec::new());
                let mut want = before.clone();
                want.link.dropping = 1;
                same("damage alters nothing else", &server, &want);
                same("idle mark", event(&mut server, Event::IdleMark), Vec::new());
                same("the mark ends the dropping", &server, &before);
            }
        }
    }
    // "Searching for the next 68 inside a damaged frame: data bytes may spell a whole frame."
    let mut server = item_1();
    let inner = hex(ASK_ITEM_1);
    let mut outer = framed(0x73, &inner);
    let last = outer.len() - 2;
    outer[last] ^= 1;
    same("a frame in a damaged frame", feed(&mut server, &outer), Vec::new());
    same("and after it", feed(&mut server, &inner), Vec::new());
    truth("bit kept", server.link.expected == 1 && server.link.dropping == 1);
    event(&mut server, Event::IdleMark);
    same("after the mark", feed(&mut server, &inner), join(&[&[0xE5], &hex(ITEM_1_ANSWER)]));
    // "An idle mark in mid-frame drops what was gathered."
    let frame = framed(0x53, &hex("F0 01 00 01 00 01"));
    for cut in 0..frame.len() {
        let mut server = waiting_server();
        let before = server.clone();
        feed(&mut server, &frame[..cut]);
        same("gathered", usize::from(server.link.received), cut);
        same("idle mark in mid-frame", event(&mut server, Event::IdleMark), Vec::new());
        same("drops what was gathered, alters nothing else", &server, &before);
        feed(&mut server, &[0xE5]);
        truth("frame start", server.link.held == 0);
    }
    // The byte at which damage is found starts nothing, not even 68, 10 or E5.
    for start in ["68 07 68", "68 07 E5", "68 07 07 10", "10 40 68", "10 40 E5", "10 40 40 10", "68 01 01 68 73 E5"] {
        let mut server = waiting_server();
        feed(&mut server, &hex(start));
        truth("dropped", server.link.dropping == 1 && server.link.received == 0 && server.link.held == 22);
        same("starts nothing", feed(&mut server, &hex("07 07 68 53 F0 01 00 01 00 01 46 16 40 40 16")), Vec::new());
        truth("dropped", server.link.dropping == 1 && server.link.received == 0 && server.link.held == 22);
    }
}

/// "A damaged frame may begin with E5: its first byte 68 turned into E5, or was lost before a length of E5. It can then act as
/// the acknowledgement of an outstanding frame and, if its message begins F0, does no more."
fn e5_led_damage() {
    let mut numbers = Numbers(0x1234_5678_9ABC_DEF1);
    for l in 2..=255_usize {
        for outstanding in [false, true] {
            for control in [0x73, 0x53] {
                let mut message = vec![0xF0];
                for _ in 0..l - 2 {
                    // Bytes that could start or end something are many.
                    message.push([0xE5, 0x10, 0x68, 0x40, 0x16, 0x73, 0x53, numbers.byte()][numbers.below(8) as usize]);
                }
                let mut variants = Vec::new();
                let mut turned = framed(control, &message);
                turned[0] = 0xE5;
                variants.push(turned);
                if l == 0xE5 {
                    variants.push(framed(control, &message)[1..].to_vec());
                }
                for bytes in variants {
                    let mut server = if outstanding { waiting_server() } else { item_1() };
                    server.link.expected = u8::from(control == 0x73);
                    let mut want = server.clone();
                    feed(&mut want, &[0xE5]);
                    want.link.dropping = 1;
                    same("E5-led damage sends nothing", feed(&mut server, &bytes), Vec::new());
                    same("and is at most an acknowledgement", &server, &want);
                    same("the acknowledgement", server.link.send, u8::from(!outstanding));
                }
            }
        }
    }
    // A message that does not begin with F0 can do more: with L = E5, "68 73 73 68 ..." may follow. Here L = E5 and the first
    // byte is lost; the control 73 is read as the first L of an inner frame.
    let mut inner = vec![0x73, 0x68, 0x53];
    inner.extend_from_slice(&hex("F0 01 00 01 00 01"));
    inner.extend(vec![0; 0x72 - 6]);
    let sum = inner[2..].iter().fold(0_u8, |sum, byte| sum.wrapping_add(*byte));
    inner.push(sum);
    inner.push(0x16);
    inner.resize(0xE4, 0);
    let frame = framed(0x73, &inner);
    same("L = E5", frame[1], 0xE5);
    let mut server = waiting_server();
    let sent = feed(&mut server, &frame[1..]);
    same("more than an acknowledgement", sent, join(&[&[0xE5], &framed(0xD3, &error(1, 1, 10))]));
}

fn ack_waits() {
    for send in [1, 0] {
        for expected in [1, 0] {
            let mut server = item_1();
            server.datapoints.push(datapoint(5, 7, 0x18, &[0x42]));
            server.link.send = send;
            let sent = feed_whole(&mut server, &framed(0x73, &get_values(5, 1, 0)));
            let frame = sent[1..].to_vec();
            same("state as it was", frame[4 + 1 + 8], 0x18);
            same("bit 3 cleared", server.datapoints[0].state, 0x10);
            server.link.expected = expected;
            // The tables change meanwhile; a resent answer is not built afresh. The receiver is in mid-frame.
            bus(&mut server, 5, &[0x99]);
            feed(&mut server, &hex("68 07 07"));
            for resends in 1..=3 {
                same("sent again unaltered", event(&mut server, Event::AckWaitOver), frame.clone());
                same("count", server.link.resends, resends);
                same("held", &server.link.outstanding[..usize::from(server.link.held)], &frame[..]);
                truth("bits", server.link.send == send && server.link.expected == expected);
            }
            let before = server.clone();
            same("fourth wait", event(&mut server, Event::AckWaitOver), hex("10 C0 C0 16"));
            let mut want = before;
            want.link.outstanding = [0; 261];
            want.link.held = 0;
            want.link.resends = 0;
            want.link.send = 1;
            same("fourth wait: frame, count and send bit only", &server, &want);
            same("fifth wait: nothing", event(&mut server, Event::AckWaitOver), Vec::new());
            same("fifth wait: nothing", &server, &want);
            // The E5 for the reset indication finds nothing outstanding (once the receiver is at a frame start).
            event(&mut server, Event::IdleMark);
            feed(&mut server, &[0xE5]);
            truth("E5 ignored", server.link.send == 1 && server.link.held == 0);
            // The next frame of the server starts with count 0 and F3.
            let sent = event(&mut server, Event::Poll);
            same("next frame", (sent[4], server.link.resends), (0xF3, 0));
        }
    }
    // An E5 after each number of resends, then a new frame with count 0.
    for waits in 0..=3 {
        let mut server = waiting_server();
        for _ in 0..waits {
            event(&mut server, Event::AckWaitOver);
        }
        feed(&mut server, &[0xE5]);
        same("count 0", (server.link.held, server.link.resends), (0, 0));
        let sent = feed_whole(&mut server, &framed(0x53, &hex("F0 01 00 01 00 01")));
        same("new frame", (sent[5], server.link.resends), (0xD3, 0));
    }
}

fn bus_events() {
    // "Bus value: value replaced, bits 4 and 3 set, bit 2 cleared, report mark set, also if the value is equal"
    for state in 0..32_u8 {
        for mark in [0, 1] {
            for new in [&[1, 2, 3], &[9, 8, 7]] {
                let mut server = waiting_server();
                server.datapoints.push(datapoint(6, 9, state, &[1, 2, 3]));
                server.datapoints[1].mark = mark;
                feed(&mut server, &hex("68 07"));
                let mut want = server.clone();
                bus(&mut server, 6, new);
                want.datapoints[1].value[..3].copy_from_slice(new);
                want.datapoints[1].state = (state % 4) + 0x18;
                want.datapoints[1].mark = 1;
                same("bus value", &server, &want);
            }
            for (outcome, status) in [(Outcome::Sent, 0), (Outcome::Failed, 1), (Outcome::InProgress, 2)] {
                let mut server = waiting_server();
                server.datapoints.push(datapoint(6, 9, state, &[1, 2, 3]));
                server.datapoints[1].mark = mark;
                let mut want = server.clone();
                // "other events ignore what is lent there"
                let result = step(&mut server, &Event::TransmissionOutcome(6, outcome), &[0xFF; 99], 262);
                same("an outcome sends nothing", result, Ok(Vec::new()));
                want.datapoints[1].state = state - state % 4 + status;
                same("outcome", &server, &want);
            }
        }
    }
    // Refusal 4: every type, every length to 20, every first byte.
    let mut server = small_server();
    for typecode in 0..=14_u16 {
        let id = 10 + typecode;
        for length in 0..=20_usize {
            for first in 0..=0xFF_u8 {
                let mut value = vec![0xFF; length];
                if length > 0 {
                    value[0] = first;
                }
                let fits = length == SIZES[usize::from(typecode)] && (typecode >= 7 || u16::from(first) < 2 << typecode);
                let result = step(&mut server.clone(), &Event::BusValue(id), &value, 262);
                same("refusal 4, value", result, if fits { Ok(Vec::new()) } else { Err(4) });
            }
        }
    }
    for id in 0..=0xFFFF_u16 {
        let present = (10..=24).contains(&id) || id == 30;
        if !present {
            same("refusal 4, ID", call(&mut server, &Event::BusValue(id), &[0], 262), Err(4));
            let event = Event::TransmissionOutcome(id, Outcome::Sent);
            same("refusal 4, outcome's ID", call(&mut server, &event, &[0], 262), Err(4));
        }
    }
    same("refused calls altered nothing", server, small_server());
    // ID 0 is absent in an empty table too.
    same("ID 0", step(&mut empty_server(), &Event::BusValue(0), &[], 262), Err(4));
    // Other events ignore what is lent.
    for event in [Event::HostByte(0x68), Event::IdleMark, Event::AckWaitOver, Event::Poll] {
        for mut server in [small_server(), waiting_server()] {
            let mut other = server.clone();
            same("lent value ignored", step(&mut server, &event, &[0xFF; 15], 262), step(&mut other, &event, &[], 262));
            same("lent value ignored", server, other);
        }
    }
}

fn polls() {
    // "Otherwise nothing."
    let mut server = small_server();
    same("no mark", event(&mut server, Event::Poll), Vec::new());
    same("no mark", &server, &small_server());
    same("empty table", event(&mut empty_server(), Event::Poll), Vec::new());
    let mut server = waiting_server();
    server.datapoints[0].mark = 1;
    let before = server.clone();
    same("outstanding", event(&mut server, Event::Poll), Vec::new());
    same("outstanding", &server, &before);
    // One mark; the receiver is not looked at (in mid-frame, dropping).
    for start in ["", "68 07", "00"] {
        let mut server = small_server();
        feed(&mut server, &hex(start));
        bus(&mut server, 12, &[3]);
        let link = server.link.clone();
        let sent = event(&mut server, Event::Poll);
        same("one mark", sent.clone(), framed(0xF3, &hex("F0 C1 00 0C 00 01 00 0C 1A 01 03")));
        let mut want = small_server().datapoints;
        want[2] = datapoint(12, 2, 0x12, &[3]);
        want[2].flags = 0;
        same("mark and bit 3 cleared", &server.datapoints, &want);
        let mut held = link;
        held.held = sent.len() as u16;
        held.outstanding[..sent.len()].copy_from_slice(&sent);
        same("held", &server.link, &held);
        same("second poll", event(&mut server, Event::Poll), Vec::new());
    }
    // A mark whose bit 3 a get has cleared is still carried, with the state as it is; config flags are not looked at.
    let mut server = small_server();
    server.datapoints[15].mark = 1;
    server.datapoints[15].state = 0x01;
    let sent = event(&mut server, Event::Poll);
    same("state as it is", sent, framed(0xF3, &hex("F0 C1 00 1E 00 01 00 1E 01 01 AB")));
    // More marks than fit: 120 of one byte go as 49, 49 and 22.
    let mut server = empty_server();
    for at in 0..130 {
        server.datapoints.push(datapoint(500 + 3 * at, 7, 0x08, &[at as u8]));
        server.datapoints[usize::from(at)].mark = u8::from(at >= 10);
    }
    let mut send = true;
    for (first, count) in [(10_u16, 49_u16), (59, 49), (108, 22)] {
        let mut want = join(&[&[0xF0, 0xC1], &(500 + 3 * first).to_be_bytes(), &count.to_be_bytes()]);
        for at in first..first + count {
            want.extend_from_slice(&(500 + 3 * at).to_be_bytes());
            want.extend_from_slice(&[0x08, 1, at as u8]);
        }
        let sent = event(&mut server, Event::Poll);
        same("a poll of many", sent, framed(if send { 0xF3 } else { 0xD3 }, &want));
        for at in 0..130_u16 {
            let record = &server.datapoints[usize::from(at)];
            same("marks", record.mark, u8::from(at >= first + count));
            same("bit 3", record.state, if at >= 10 && at < first + count { 0x00 } else { 0x08 });
        }
        same("wait", event(&mut server, Event::Poll), Vec::new());
        feed(&mut server, &[0xE5]);
        send = !send;
    }
    same("no mark is left", event(&mut server, Event::Poll), Vec::new());
    // 254 and 255; "A poll stops at the first marked record that does not fit; later, shorter ones wait."
    for (thirteenth, fourteenth, carried) in [(14_u8, 13_u8, 14), (14, 14, 13)] {
        let mut server = empty_server();
        for id in 1..=12 {
            server.datapoints.push(datapoint(id, 14, 0x18, &[id as u8; 14]));
        }
        server.datapoints.push(datapoint(13, thirteenth, 0x18, &[]));
        server.datapoints.push(datapoint(14, fourteenth, 0x18, &[]));
        server.datapoints.push(datapoint(15, 0, 0x18, &[1]));
        for record in &mut server.datapoints {
            record.mark = 1;
        }
        let sent = event(&mut server, Event::Poll);
        same("carried", usize::from(sent[9]) * 256 + usize::from(sent[10]), carried);
        same("size", sent.len(), if carried == 14 { 261 } else { 261 - 14 });
        for at in 0..15 {
            same("marks and bit 3", server.datapoints[at].mark, u8::from(at >= carried));
            same("marks and bit 3", server.datapoints[at].state, if at >= carried { 0x18 } else { 0x10 });
        }
        feed(&mut server, &[0xE5]);
        let sent = event(&mut server, Event::Poll);
        same("the rest", sent[7..11].to_vec(), vec![0, carried as u8 + 1, 0, 15 - carried as u8]);
    }
    // 255 would be needed: 13 x 18 + 10 + 5.
    let mut server = empty_server();
    for id in 1..=13 {
        server.datapoints.push(datapoint(id, 14, 0x18, &[id as u8; 14]));
    }
    server.datapoints.push(datapoint(14, 11, 0x18, &[]));
    server.datapoints.push(datapoint(15, 7, 0x18, &[1]));
    for record in &mut server.datapoints {
        record.mark = 1;
    }
    let sent = event(&mut server, Event::Poll);
    same("250 of 255", (sent.len(), sent[10]), (250 + 7, 14));
    truth("the 15th waits", server.datapoints[14].mark == 1 && server.datapoints[13].mark == 0);
    // "item 14 does not move the 254, item 17 does not stop the poll"
    let mut other = small_server();
    other.items = vec![item(14, true, &[0, 9]), item(17, true, &[1])];
    let answer = ask(&mut other, &set_items(14, &[(14, &[0, 10]), (17, &[0])]));
    same("items 14 and 17", answer, Some(hex("F0 82 00 0E 00 00 00")));
    same("items 14 and 17", &other.items, &vec![item(14, true, &[0, 10]), item(17, true, &[0])]);
    bus(&mut other, 17, &[0xCD]);
    let sent = event(&mut other, Event::Poll);
    same("items 14 and 17", sent, framed(0xD3, &hex("F0 C1 00 11 00 01 00 11 1B 01 CD")));
    // A request that comes while the indication is outstanding is dropped, and carried out when repeated after the E5.
    let before = server.clone();
    let frame = framed(0x73, &get_values(15, 1, 0));
    same("dropped", feed_whole(&mut server, &frame), Vec::new());
    same("dropped", &server, &before);
    feed(&mut server, &[0xE5]);
    let sent = feed_whole(&mut server, &frame);
    same("repeated", sent, join(&[&[0xE5], &framed(0xD3, &hex("F0 85 00 0F 00 01 00 0F 18 01 01"))]));
}

// --------------------------------------------------------------------------------------------------------- the refusals

/// Six events, all of which are accepted on a small server.
fn six_events() -> Vec<(Event, Vec<u8>)> {
    vec![
        (Event::HostByte(0x68), Vec::new()),
        (Event::IdleMark, Vec::new()),
        (Event::AckWaitOver, Vec::new()),
        (Event::Poll, Vec::new()),
        (Event::BusValue(17), vec![1]),
        (Event::TransmissionOutcome(17, Outcome::Failed), Vec::new()),
    ]
}

fn refusals() {
    type Change = fn(&mut Server);
    let tables: Vec<(&str, Change)> = vec![
        ("datapoint ID 0", |s| s.datapoints[0].id = 0),
        ("datapoint IDs equal", |s| s.datapoints[1].id = 10),
        ("datapoint IDs fall", |s| s.datapoints[15].id = 23),
        ("type code 15", |s| s.datapoints[7].typecode = 15),
        ("type code 255", |s| s.datapoints[14].typecode = 255),
        ("type code 15, value of zeros", |s| s.datapoints[7] = datapoint(17, 15, 0, &[])),
        ("state bit 5", |s| s.datapoints[3].state |= 0x20),
        ("state bit 6", |s| s.datapoints[3].state |= 0x40),
        ("state bit 7", |s| s.datapoints[3].state |= 0x80),
        ("1-bit value 2", |s| s.datapoints[0].value[0] = 2),
        ("7-bit value 80", |s| s.datapoints[6].value[0] = 0x80),
        ("byte after 1 bit", |s| s.datapoints[0].value[1] = 1),
        ("byte after 1 byte", |s| s.datapoints[7].value[1] = 1),
        ("last byte of 10", |s| s.datapoints[13].value[13] = 1),
        ("byte after 10", |s| s.datapoints[13].value[10] = 1),
        ("1001 datapoints", |s| s.datapoints = (1..=1001).map(|id| datapoint(id, 7, 0, &[])).collect()),
        ("item ID 0", |s| s.items[0].id = 0),
        ("item IDs equal", |s| s.items[2].id = 2),
        ("item IDs fall", |s| s.items[1].id = 5),
        ("item length 0", |s| s.items[1] = item(2, true, &[])),
        ("item length 17", |s| s.items[2].size = 17),
        ("item length 255", |s| s.items[2].size = 255),
        ("byte after the item", |s| s.items[1].bytes[1] = 1),
        ("last byte after the item", |s| s.items[1].bytes[15] = 1),
        ("65 items", |s| s.items = (1..=65).map(|id| item(id, true, &[0])).collect()),
        ("256 parameter bytes", |s| s.parameters = vec![0; 256]),
        ("a mark of 2", |s| s.datapoints[0].mark = 2),
        ("a mark of 3, type 14", |s| s.datapoints[14].mark = 3),
        ("a mark of 80", |s| s.datapoints[15].mark = 0x80),
        ("a mark of FF", |s| s.datapoints[7].mark = 0xFF),
        ("a writable of 2", |s| s.items[0].writable = 2),
        ("a writable of 3", |s| s.items[1].writable = 3),
        ("a writable of 80", |s| s.items[2].writable = 0x80),
        ("a writable of FF", |s| s.items[1].writable = 0xFF),
        ("site's texts, a cut entry", |s| s.site_texts.push(0xFF)),
        ("site's texts, a length of 31", |s| s.site_texts = text_list(&[(17, &[1; 31])])),
        ("site's texts, IDs equal", |s| s.site_texts = text_list(&[(17, b"a"), (17, b"b")])),
        ("site's texts, IDs fall", |s| s.site_texts = text_list(&[(17, b"a"), (16, b"b")])),
        ("default texts, a cut entry", |s| s.default_texts.truncate(8)),
        ("default texts, a length of 31", |s| s.default_texts[2] = 31),
        ("default texts, IDs equal", |s| s.default_texts = text_list(&[(0, b""), (0, b"")])),
        ("default texts, IDs fall", |s| s.default_texts = text_list(&[(256, b"a"), (255, b"b")])),
    ];
    let links: Vec<(&str, Change)> = vec![
        ("received 261", |s| s.link.received = 261),
        ("received 65535", |s| s.link.received = 65535),
        ("held 262", |s| s.link.held = 262),
        ("held 65535", |s| s.link.held = 65535),
        ("count without a frame", |s| s.link.resends = 1),
        ("dropping 2", |s| s.link.dropping = 2),
        ("dropping 3", |s| s.link.dropping = 3),
        ("dropping 80", |s| s.link.dropping = 0x80),
        ("dropping FF", |s| s.link.dropping = 0xFF),
        ("expected 2", |s| s.link.expected = 2),
        ("expected 3", |s| s.link.expected = 3),
        ("expected 80", |s| s.link.expected = 0x80),
        ("expected FF", |s| s.link.expected = 0xFF),
        ("send 2", |s| s.link.send = 2),
        ("send 3", |s| s.link.send = 3),
        ("send 80", |s| s.link.send = 0x80),
        ("send FF", |s| s.link.send = 0xFF),
        ("receiver's unused byte", |s| s.link.receiver[0] = 0x68),
        ("receiver's last unused byte", |s| s.link.receiver[259] = 1),
        ("outstanding's unused byte", |s| s.link.outstanding[0] = 0x68),
        ("outstanding's last unused byte", |s| s.link.outstanding[260] = 1),
        ("receiver holds E5", |s| gathered(s, "E5")),
        ("receiver holds 00", |s| gathered(s, "00")),
        ("receiver holds 68 00", |s| gathered(s, "68 00")),
        ("receiver holds 68 01 02", |s| gathered(s, "68 01 02")),
        ("receiver holds 68 01 01 67", |s| gathered(s, "68 01 01 67")),
        ("receiver holds a wrong checksum", |s| gathered(s, "68 01 01 68 73 74")),
        ("receiver holds a whole frame", |s| gathered(s, "68 01 01 68 73 73 16")),
        ("receiver holds a wrong last byte", |s| gathered(s, "68 01 01 68 73 73 17")),
        ("receiver holds more than a frame", |s| gathered(s, "68 01 01 68 73 73 16 00")),
        ("receiver holds 10 40 41", |s| gathered(s, "10 40 41")),
        ("receiver holds a whole fixed frame", |s| gathered(s, "10 40 40 16")),
        ("receiver holds 10 40 40 17", |s| gathered(s, "10 40 40 17")),
        ("receiver drops and holds", |s| {
            gathered(s, "68");
            s.link.dropping = 1
        }),
        ("receiver drops, unused byte", |s| {
            s.link.dropping = 1;
            s.link.receiver[3] = 1
        }),
        ("outstanding: wrong bit", |s| held(s, &framed(0xD3, &[1]))),
        ("outstanding: wrong bit, even", |s| {
            s.link.send = 0;
            held(s, &framed(0xF3, &[1]))
        }),
        ("outstanding: host's control", |s| held(s, &framed(0x73, &[1]))),
        ("outstanding: a beginning", |s| held(s, &framed(0xF3, &[1])[..7])),
        ("outstanding: a byte more", |s| held(s, &join(&[&framed(0xF3, &[1]), &[0]]))),
        ("outstanding: wrong checksum", |s| held(s, &hex("68 01 01 68 F3 F4 16"))),
        ("outstanding: wrong last byte", |s| held(s, &hex("68 01 01 68 F3 F3 17"))),
        ("outstanding: L = 0", |s| held(s, &hex("68 00 00 68 00 16"))),
        ("outstanding: a fixed frame", |s| held(s, &hex("10 C0 C0 16"))),
        ("outstanding: E5", |s| held(s, &hex("E5"))),
        ("outstanding: count 4", |s| {
            held(s, &framed(0xF3, &[1]));
            s.link.resends = 4
        }),
        ("outstanding: count 255", |s| {
            held(s, &framed(0xF3, &[1]));
            s.link.resends = 255
        }),
        ("outstanding: unused byte", |s| {
            held(s, &framed(0xF3, &[1]));
            s.link.outstanding[8] = 1
        }),
    ];
    for (event, value) in six_events() {
        same("accepted", step(&mut small_server(), &event, &value, 262).is_ok(), true);
        same("accepted, more room", step(&mut small_server(), &event, &value, usize::MAX).is_ok(), true);
        for room in 0..262 {
            same("refusal 3", step(&mut small_server(), &event, &value, room), Err(3));
        }
        for (name, table) in &tables {
            let mut server = small_server();
            table(&mut server);
            same(name, step(&mut server, &event, &value, 262), Err(1));
            same(name, step(&mut server, &event, &value, 261), Err(1));
            for (other, link) in &links {
                let mut server = server.clone();
                link(&mut server);
                same(other, step(&mut server, &event, &value, 262), Err(1));
            }
        }
        for (name, link) in &links {
            let mut server = small_server();
            link(&mut server);
            same(name, step(&mut server, &event, &value, 262), Err(2));
            same(name, step(&mut server, &event, &value, 0), Err(2));
        }
    }
    // 4 is the last.
    for (event, value) in [
        (Event::BusValue(9), vec![0]),
        (Event::BusValue(17), vec![]),
        (Event::BusValue(10), vec![2]),
        (Event::TransmissionOutcome(9, Outcome::Sent), vec![]),
    ] {
        same("4", step(&mut small_server(), &event, &value, 262), Err(4));
        same("3 before 4", step(&mut small_server(), &event, &value, 261), Err(3));
        for (name, link) in &links {
            let mut server = small_server();
            link(&mut server);
            same(name, step(&mut server, &event, &value, 261), Err(2));
        }
        for (name, table) in &tables {
            let mut server = small_server();
            table(&mut server);
            same(name, step(&mut server, &event, &value, 261), Err(1));
        }
    }
    // What is in range at its limit.
    let limits: Vec<(&str, Change)> = vec![
        ("1000 datapoints", |s| s.datapoints = (64536..=65535).map(|id| datapoint(id, 7, 31, &[255])).collect()),
        ("64 items", |s| s.items = (1..=64).map(|id| item(id, true, &[255; 16])).collect()),
        ("255 parameter bytes", |s| s.parameters = vec![255; 255]),
        ("DPT and flags", |s| {
            s.datapoints[0].dpt = 255;
            s.datapoints[0].flags = 255
        }),
        ("7-bit value 7F", |s| s.datapoints[6].value[0] = 0x7F),
        ("14 bytes", |s| s.datapoints[14].value = [255; 14]),
        ("dropping", |s| s.link.dropping = 1),
        ("10", |s| gathered(s, "10")),
        ("10 00", |s| gathered(s, "10 00")),
        ("10 00 00", |s| gathered(s, "10 00 00")),
        ("68", |s| gathered(s, "68")),
        ("68 FF", |s| gathered(s, "68 FF")),
        ("68 FF FF", |s| gathered(s, "68 FF FF")),
        ("68 01 01 68 F3", |s| gathered(s, "68 01 01 68 F3")),
        ("68 01 01 68 00 00", |s| gathered(s, "68 01 01 68 00 00")),
        ("L = 1 outstanding", |s| held(s, &framed(0xF3, &[]))),
        ("L = 1 outstanding, even", |s| {
            s.link.send = 0;
            held(s, &framed(0xD3, &[]))
        }),
        ("L = 255 outstanding, count 3", |s| {
            held(s, &framed(0xF3, &[0x68; 254]));
            s.link.resends = 3
        }),
    ];
    for (name, limit) in &limits {
        let mut server = small_server();
        limit(&mut server);
        truth(name, step(&mut server, &Event::IdleMark, &[], 262).is_ok());
    }
    // Every value of the link's and the records' small fields, with all else zero.
    for number in 0..=0xFFFF_u16 {
        let want = if number == 0 { Ok(Vec::new()) } else { Err(2) };
        let mut server = empty_server();
        server.link.received = number;
        same("received", call(&mut server, &Event::IdleMark, &[], 262), want.clone());
        let mut server = empty_server();
        server.link.held = number;
        same("held", call(&mut server, &Event::AckWaitOver, &[], 262), want);
    }
    for byte in 0..=0xFF_u8 {
        let mut server = empty_server();
        server.datapoints.push(datapoint(1, byte, 0, &[]));
        same("type code", step(&mut server, &Event::Poll, &[], 262).is_ok(), byte <= 14);
        let mut server = empty_server();
        server.datapoints.push(datapoint(1, 0, byte, &[]));
        same("state", step(&mut server, &Event::Poll, &[], 262).is_ok(), byte < 32);
        let mut server = empty_server();
        server.items.push(item(1, true, &[]));
        server.items[0].size = byte;
        same("item length", step(&mut server, &Event::Poll, &[], 262).is_ok(), (1..=16).contains(&byte));
        let mut server = waiting_server();
        server.link.resends = byte;
        same("count", step(&mut server, &Event::Poll, &[], 262).is_ok(), byte <= 3);
        for place in 0..22 {
            // Any other byte anywhere in the outstanding frame breaks it.
            let mut server = waiting_server();
            let sound = server.link.outstanding[place] == byte;
            server.link.outstanding[place] = byte;
            same("outstanding byte", step(&mut server, &Event::Poll, &[], 262), if sound { Ok(Vec::new()) } else { Err(2) });
        }
    }
    // A frame of 261 bytes behind an E5 takes 262 bytes.
    let mut server = empty_server();
    server.parameters = vec![0x68; 248];
    same("262 bytes", feed_whole(&mut server, &framed(0x73, &get(7, 1, 248))).len(), 262);
}

fn gathered(server: &mut Server, text: &str) {
    let bytes = hex(text);
    server.link.receiver[..bytes.len()].copy_from_slice(&bytes);
    server.link.received = bytes.len() as u16;
}

fn held(server: &mut Server, bytes: &[u8]) {
    server.link.outstanding[..bytes.len()].copy_from_slice(bytes);
    server.link.held = bytes.len() as u16;
}

// ------------------------------------------------------------------------------------------------------------ at random

/// "a beginning, not the whole, of some sound frame", by making the frame: the bytes are completed to a sound frame where that
/// can be, and compared with it.
fn begins_some_frame(bytes: &[u8]) -> bool {
    if bytes.is_empty() {
        return true;
    }
    let mut frame = Vec::new();
    if bytes[0] == 0x10 {
        let c = if bytes.len() > 1 { bytes[1] } else { 0 };
        frame = vec![0x10, c, c, 0x16];
    } else if bytes[0] == 0x68 {
        let l = if bytes.len() > 1 { bytes[1] } else { 1 };
        if l > 0 {
            let mut content = if bytes.len() > 4 { bytes[4..].to_vec() } else { Vec::new() };
            content.resize(usize::from(l), 0);
            frame = framed(content[0], &content[1..]);
        }
    }
    frame.len() > bytes.len() && frame[..bytes.len()] == *bytes
}

fn receiver_range_at_random() {
    let mut numbers = Numbers(0xFEED_F00D_0BAD_CAFE);
    let (mut yes, mut no) = (0, 0);
    for _ in 0..300_000 {
        // A sound frame, cut somewhere, perhaps one byte altered; also short lists of likely bytes.
        let mut bytes = match numbers.below(4) {
            0 => {
                let c = numbers.byte();
                vec![0x10, c, c, 0x16]
            }
            1 => {
                let length = numbers.below(6);
                (0..length).map(|_| [0xE5, 0x10, 0x68, 0x16, 0x01, 0x02][numbers.below(6) as usize]).collect()
            }
            _ => {
                let most = if numbers.below(8) == 0 { 255 } else { 6 };
                let length = numbers.below(most);
                let message: Vec<u8> = (0..length).map(|_| numbers.byte()).collect();
                framed(numbers.byte(), &message)
            }
        };
        if numbers.below(2) == 0 {
            bytes.truncate(numbers.below(bytes.len() as u64 + 1) as usize);
        }
        if numbers.below(3) == 0 && !bytes.is_empty() {
            let at = numbers.below(bytes.len() as u64) as usize;
            bytes[at] = numbers.byte();
        }
        bytes.truncate(260);
        let mut server = empty_server();
        server.link.receiver[..bytes.len()].copy_from_slice(&bytes);
        server.link.received = bytes.len() as u16;
        let want = begins_some_frame(&bytes);
        same("receiver's range", call(&mut server, &Event::AckWaitOver, &[], 262).is_ok(), want);
        // And the receiver gathers exactly such bytes.
        let mut server = empty_server();
        for byte in &bytes {
            call(&mut server, &Event::HostByte(*byte), &[], 262).expect("accepted");
        }
        if want {
            yes += 1;
            same("what is gathered", &server.link.receiver[..bytes.len()], &bytes[..]);
            same("how much is gathered", usize::from(server.link.received), bytes.len());
        } else {
            no += 1;
        }
    }
    truth("both cases are many", yes > 50_000 && no > 50_000);
}

/// A burst once more, in another way: from piece to piece. At a frame start stands an acknowledgement; or a sound frame,
/// which is the one that its own content makes; or bytes that begin one, to the end; or else damage.
fn by_pieces(bytes: &[u8]) -> (Burst, Vec<u16>) {
    let mut found = (Burst { frames: 0, acknowledgements: 0, ending: Ending::Clean }, Vec::new());
    let mut at = 0;
    while at < bytes.len() {
        let rest = &bytes[at..];
        let size = frame_size(rest);
        if rest[0] == 0xE5 {
            found.0.acknowledgements += 1;
        } else if size > 0 {
            found.0.frames += 1;
        } else {
            found.0.ending = if begins_some_frame(rest) { Ending::Unfinished } else { Ending::Damaged };
            break;
        }
        found.1.push(at as u16);
        at += size.max(1);
    }
    found
}

/// The size of the sound frame at the start of these bytes; 0: there is none.
fn frame_size(bytes: &[u8]) -> usize {
    if bytes.len() < 4 {
        return 0;
    }
    let l = usize::from(bytes[1]);
    let frame = match bytes[0] {
        0x10 => vec![0x10, bytes[1], bytes[1], 0x16],
        0x68 if l > 0 && bytes.len() >= l + 6 => framed(bytes[4], &bytes[5..4 + l]),
        _ => return 0,
    };
    if bytes.starts_with(&frame) {
        frame.len()
    } else {
        0
    }
}

/// A burst once more, byte by byte through the call, "from a receiver at a frame start".
fn by_the_receiver(server: &mut Server, bytes: &[u8]) -> (Burst, Vec<u16>) {
    let mut found = (Burst { frames: 0, acknowledgements: 0, ending: Ending::Clean }, Vec::new());
    for (at, byte) in bytes.iter().enumerate() {
        let start = at - usize::from(server.link.received);
        call(server, &Event::HostByte(*byte), &[], 262).expect("accepted");
        // "After every idle mark, whole frame or acknowledgement the receiver is at a frame start"
        if server.link.received == 0 && server.link.dropping == 0 {
            found.1.push(start as u16);
            if bytes[start] == 0xE5 {
                found.0.acknowledgements += 1;
            } else {
                found.0.frames += 1;
            }
        }
    }
    if server.link.dropping == 1 {
        found.0.ending = Ending::Damaged;
    } else if server.link.received > 0 {
        found.0.ending = Ending::Unfinished;
    }
    call(server, &Event::IdleMark, &[], 262).expect("accepted");
    found
}

/// (02) item 8: "it finds the same frames, acknowledgements and damage as the byte-wise receiver given those bytes and
/// then an idle mark, from a receiver at a frame start". And a burst in which nothing is found leaves the server as it
/// was.
fn bursts_three_ways() {
    let mut numbers = Numbers(0xB0B5_7EAD_0000_0008);
    let mut endings = [0, 0, 0];
    for round in 0..40_000 {
        let most = if round % 500 == 0 { 2048 } else { numbers.below(60) as usize };
        let mut bytes = random_burst(&mut numbers, most);
        bytes.truncate(2048);
        let found = read_burst(&bytes, 2048).expect("read");
        same("from piece to piece", by_pieces(&bytes), found.clone());
        let mut server = item_1();
        server.link.expected = numbers.below(2) as u8;
        if numbers.below(2) == 0 {
            held(&mut server, &hex(ITEM_1_ANSWER));
        }
        let before = server.clone();
        same("byte by byte", by_the_receiver(&mut server, &bytes), found.clone());
        truth("nothing found, nothing altered", !found.1.is_empty() || server == before);
        endings[found.0.ending as usize] += 1;
    }
    truth("each ending is met often", endings.iter().all(|count| *count > 3_000));
}

/// Frames and acknowledgements side by side, some bytes of them altered, lost or added.
fn random_burst(numbers: &mut Numbers, most: usize) -> Vec<u8> {
    let mut bytes = Vec::new();
    while bytes.len() < most {
        let c = numbers.byte();
        let length = if numbers.below(30) == 0 { numbers.below(255) } else { numbers.below(8) };
        match numbers.below(5) {
            0 => bytes.push(0xE5),
            1 => bytes.extend([0x10, c, c, 0x16]),
            2 => bytes.extend(hex(ASK_ITEM_1)),
            _ => {
                let message: Vec<u8> = (0..length).map(|_| numbers.byte()).collect();
                bytes.extend(framed([0x73, 0x53, c][numbers.below(3) as usize], &message));
            }
        }
    }
    for _ in 0..numbers.below(3) {
        let at = numbers.below(bytes.len() as u64 + 1) as usize;
        let byte = [0xE5, 0x10, 0x68, 0x16, 0x00, numbers.byte()][numbers.below(6) as usize];
        match numbers.below(4) {
            0 => bytes.truncate(at),
            1 => bytes.insert(at, byte),
            2 if at < bytes.len() => drop(bytes.remove(at)),
            _ if at < bytes.len() => bytes[at] = byte,
            _ => {}
        }
    }
    bytes
}

fn random_server(numbers: &mut Numbers) -> Server {
    let mut server = empty_server();
    let mut id = 0;
    for _ in 0..numbers.below(40) {
        id += 1 + numbers.below(3) as u16;
        let typecode = numbers.below(15) as u8;
        let size = SIZES[usize::from(typecode)];
        let mut value: Vec<u8> = (0..size).map(|_| numbers.byte()).collect();
        if typecode < 7 {
            value[0] %= 2 << typecode;
        }
        let flags = [0x00, 0x04, 0x40, 0x44, numbers.byte()][numbers.below(5) as usize];
        let mut record = flagged(flags, datapoint(id, typecode, numbers.below(32) as u8, &value));
        record.mark = numbers.below(2) as u8;
        server.datapoints.push(record);
    }
    id = 0;
    for _ in 0..numbers.below(10) {
        id += 1 + numbers.below(3) as u16;
        let length = 1 + numbers.below(16);
        let data: Vec<u8> = (0..length).map(|_| numbers.byte()).collect();
        server.items.push(item(id, numbers.below(2) == 0, &data));
    }
    let length = numbers.below(256);
    server.parameters = (0..length).map(|_| numbers.byte()).collect();
    server.site_texts = random_texts(numbers);
    server.default_texts = random_texts(numbers);
    server.link.expected = numbers.below(2) as u8;
    server.link.send = numbers.below(2) as u8;
    server
}

fn random_texts(numbers: &mut Numbers) -> Vec<u8> {
    let mut list = Vec::new();
    let mut id = numbers.below(3) as u16;
    for _ in 0..numbers.below(20) {
        let length = [0, 4, 30, numbers.below(31)][numbers.below(4) as usize];
        let text: Vec<u8> = (0..length).map(|_| numbers.byte()).collect();
        list.extend(text_list(&[(id, &text)]));
        id += 1 + numbers.below(3) as u16;
    }
    list
}

fn random_message(numbers: &mut Numbers, server: &Server) -> Vec<u8> {
    let start = numbers.below(12) as u16;
    let number = [0, 1, 2, 5, 20, 300, 0xFFFF][numbers.below(7) as usize];
    match numbers.below(10) {
        0 => get(1, start, number),
        1 => get(3, start, number),
        2 | 3 => get_values(start, number, numbers.below(4) as u8),
        4 => get(7, start * 20, number),
        5 => {
            let mut message = get(2, start, 0);
            let mut count = 0;
            for item in &server.items {
                if numbers.below(3) == 0 && message.len() < 200 {
                    let length = if numbers.below(9) == 0 { numbers.below(18) } else { u64::from(item.size) };
                    message.extend_from_slice(&[0, item.id as u8, length as u8]);
                    message.extend((0..length).map(|_| numbers.byte()));
                    count += 1;
                }
            }
            message[5] = count;
            message
        }
        6 => {
            let mut message = get(6, start, 0);
            let mut count = 0;
            for record in &server.datapoints {
                if numbers.below(4) == 0 && message.len() < 200 {
                    let size = SIZES[usize::from(record.typecode)] as u64;
                    let length = [size, size, size, size, 0, numbers.below(15)][numbers.below(6) as usize];
                    let mut command = if numbers.below(30) == 0 { 5 } else { numbers.below(5) as u8 };
                    // Mostly one that needs no bit, where not both are on.
                    if record.flags & 0x44 != 0x44 && numbers.below(10) > 0 {
                        command %= 2;
                    }
                    message.extend_from_slice(&[0, record.id as u8, command, length as u8]);
                    message.extend((0..length).map(|_| numbers.byte() % 4));
                    count += 1;
                }
            }
            message[5] = count;
            message
        }
        7 => {
            let bytes: Vec<u8> = (0..numbers.below(40)).map(|_| numbers.byte()).collect();
            set_parameters(start * 20 + 1, &bytes)
        }
        8 => get(4, start, number),
        _ => (0..numbers.below(20)).map(|_| numbers.byte()).collect(),
    }
}

/// Long walks: `step` checks after each call what holds always; here also what each event may alter.
fn walks_at_random() {
    let mut numbers = Numbers(0xC0FF_EE00_1234_4321);
    for _ in 0..3_000 {
        let mut server = random_server(&mut numbers);
        for _ in 0..60 {
            match numbers.below(12) {
                0 => {
                    let before = server.clone();
                    same("idle mark", event(&mut server, Event::IdleMark), Vec::new());
                    truth("frame start", server.link.received == 0 && server.link.dropping == 0);
                    let mut after = server.clone();
                    after.link.receiver = before.link.receiver;
                    after.link.received = before.link.received;
                    after.link.dropping = before.link.dropping;
                    truth("the mark alters nothing else", after == before);
                }
                1 => {
                    let before = server.clone();
                    let sent = event(&mut server, Event::AckWaitOver);
                    truth("sent or not", sent.is_empty() == (before.link.held == 0));
                    truth("tables", tables_stand(&before, &server));
                }
                2 => {
                    let before = server.clone();
                    let sent = event(&mut server, Event::Poll);
                    let marks = before.datapoints.iter().any(|record| record.mark == 1);
                    truth("sent or not", sent.is_empty() != (before.link.held == 0 && marks));
                    truth("receiver", server.link.received == before.link.received);
                }
                3 | 4 if !server.datapoints.is_empty() => {
                    let at = numbers.below(server.datapoints.len() as u64) as usize;
                    let (id, typecode) = (server.datapoints[at].id, server.datapoints[at].typecode);
                    let size = SIZES[usize::from(typecode)];
                    let value: Vec<u8> = (0..size).map(|_| numbers.byte() % 2).collect();
                    bus(&mut server, id, &value);
                    let outcome = [Outcome::Sent, Outcome::Failed, Outcome::InProgress][numbers.below(3) as usize].clone();
                    event(&mut server, Event::TransmissionOutcome(id, outcome));
                }
                5 | 6 => {
                    feed(&mut server, &[0xE5]);
                }
                7 => {
                    let bytes: Vec<u8> = (0..numbers.below(5)).map(|_| numbers.byte()).collect();
                    feed(&mut server, &bytes);
                }
                8 => {
                    feed(&mut server, &hex("10 40 40 16"));
                }
                _ => {
                    let message = random_message(&mut numbers, &server);
                    let odd = (numbers.below(5) == 0) != (server.link.expected == 1);
                    let mut frame = framed(if odd { 0x73 } else { 0x53 }, &message);
                    if numbers.below(10) == 0 {
                        let at = numbers.below(frame.len() as u64) as usize;
                        frame[at] = numbers.byte();
                    }
                    feed(&mut server, &frame);
                }
            }
        }
    }
}

/// Any field values whatever: a refusal by number or an accepted call, never a fault.
fn any_fields_at_random() {
    let mut numbers = Numbers(0x0123_4567_89AB_CDEF);
    let mut counts = [0_u32; 5];
    for _ in 0..400_000 {
        let sound = random_server(&mut numbers);
        let mut server = sound.clone();
        for _ in 0..numbers.below(3) {
            let wide = [0, 1, 4, 7, 255, 256, 259, 260, 261, 262, 300, 65535, numbers.below(65536)];
            let number = wide[numbers.below(13) as usize] as u16;
            let byte = number as u8;
            let record = numbers.below(server.datapoints.len() as u64 + 1) as usize;
            let entry = numbers.below(server.items.len() as u64 + 1) as usize;
            match numbers.below(18) {
                0 => server.link.received = number,
                1 => server.link.held = number,
                2 => server.link.resends = byte,
                3 => server.link.dropping = 1,
                4 => server.link.receiver[numbers.below(4) as usize] = [0x68, 0x10, byte][numbers.below(3) as usize],
                5 => server.link.outstanding[numbers.below(8) as usize] = byte,
                6 => {
                    let message = random_message(&mut numbers, &sound);
                    held(&mut server, &framed([0xF3, 0xD3, byte][numbers.below(3) as usize], &message));
                }
                7 => {
                    let message = random_message(&mut numbers, &sound);
                    let mut frame = framed(0x73, &message);
                    frame.truncate(numbers.below(frame.len() as u64) as usize);
                    server.link.receiver[..frame.len()].copy_from_slice(&frame);
                    server.link.received = frame.len() as u16;
                }
                8 if record < server.datapoints.len() => server.datapoints[record].typecode = byte,
                9 if record < server.datapoints.len() => server.datapoints[record].state = byte,
                10 if record < server.datapoints.len() => server.datapoints[record].value[numbers.below(14) as usize] = byte,
                11 if record < server.datapoints.len() => server.datapoints[record].id = number,
                12 if entry < server.items.len() => server.items[entry].size = byte,
                13 if entry < server.items.len() => server.items[entry].bytes[numbers.below(16) as usize] = byte,
                14 if entry < server.items.len() => server.items[entry].id = number,
                15 => server.site_texts.resize(usize::from(byte), 0),
                16 if !server.default_texts.is_empty() => {
                    let at = numbers.below(server.default_texts.len() as u64) as usize;
                    server.default_texts[at] = byte;
                }
                _ => server.parameters.resize(usize::from(number) % 400, 0),
            }
        }
        let value: Vec<u8> = (0..numbers.below(17)).map(|_| numbers.byte() % 4).collect();
        let id = numbers.below(50) as u16;
        // Refusal 1 of a reading is that of a call with these datapoints and nothing else.
        let mut alone = empty_server();
        alone.datapoints = server.datapoints.clone();
        let refused = call(&mut alone, &Event::IdleMark, &[], 262).is_err();
        same("refusal 1 of a reading", reading(&server.datapoints, id) == Err(1), refused);
        let happened = match numbers.below(6) {
            0 => Event::HostByte([0xE5, 0x10, 0x68, 0x16, numbers.byte()][numbers.below(5) as usize]),
            1 => Event::IdleMark,
            2 => Event::AckWaitOver,
            3 => Event::Poll,
            4 => Event::BusValue(id),
            _ => Event::TransmissionOutcome(id, Outcome::Sent),
        };
        let room = [0, 261, 262, 263, 4096, usize::MAX][numbers.below(6) as usize];
        match step(&mut server, &happened, &value, room) {
            Ok(_) => counts[0] += 1,
            Err(number) => counts[usize::from(number)] += 1,
        }
    }
    truth("accepted and every refusal occur often", counts.iter().all(|count| *count > 1_000));
}

fn main() {
    let parts: [(&str, fn()); 37] = [
        ("examples of 01", examples_of_01),
        ("exchange of 000", exchange_of_000),
        ("messages without answer", messages_without_answer),
        ("rows 5, 10, 6", rows_5_10_6),
        ("rows 7 to 8", rows_7_to_8),
        ("commands", commands),
        ("the retired command", retired_command),
        ("requests cut", cut_requests),
        ("requests in both orders", both_orders),
        ("closed datapoints", closed_datapoints),
        ("closed and open alike", closed_and_open_alike),
        ("a failed status", failed_status),
        ("parameter sets", parameter_sets),
        ("parameters left alone", parameters_left_alone),
        ("description strings", description_strings),
        ("lists of texts", text_lists),
        ("readings", readings),
        ("two-octet values", two_octet_values),
        ("readings refused", readings_refused),
        ("bursts", bursts),
        ("bursts cut and changed", bursts_cut_and_changed),
        ("bursts refused", bursts_refused),
        ("gets", gets),
        ("limits 254 and 255", limits_254_and_255),
        ("acknowledgements", acknowledgements),
        ("fixed frames", fixed_frames),
        ("controls and repeats", controls_and_repeats),
        ("damage", damage),
        ("E5-led damage", e5_led_damage),
        ("ack waits", ack_waits),
        ("bus events", bus_events),
        ("polls", polls),
        ("refusals", refusals),
        ("receiver's range at random", receiver_range_at_random),
        ("bursts in three ways, at random", bursts_three_ways),
        ("walks at random", walks_at_random),
        ("any fields at random", any_fields_at_random),
    ];
    for (name, part) in parts {
        part();
        println!("ok  {name}");
    }
    println!("{} checks held, {} calls through step", CHECKS.load(Ordering::Relaxed), CALLS.load(Ordering::Relaxed));
}
