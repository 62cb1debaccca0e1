//! The server, written plainly from three papers. It is meant to be compared, call by call, with another implementation.
//!
//! Where the comments quote:
//!   (01)   01-scope.md, which decides;
//!   (02)   02-change-requests.md, the requests that have landed;
//!   (000)  000_feb9994ac7e2d72b.txt, the protocol paper;
//!   (R)    docs/DECISIONS.md, how open points are read.
//!
//! Order of this file: the records; sizes; the texts; refusals 1 to 4; the link; the messages; the call; the readings;
//! the bursts. Nothing here is quick or clever: lists are searched from the front and bytes are gathered in a Vec<u8>.

use std::collections::BTreeMap;

// ------------------------------------------------------------------------------------------------------ the records

/// (01) "datapoints | 0 to 1000 | ID, type code, config flags, DPT, state byte, value of 14 bytes, report mark"
#[derive(Clone, PartialEq, Debug)]
pub struct Datapoint {
    pub id: u16,
    pub typecode: u8,
    pub flags: u8,
    pub dpt: u8,
    pub state: u8,
    pub value: [u8; 14],
    pub mark: u8, // 0 or 1
}

/// (01) "items | 0 to 64 | ID, length 1 to 16, writable or not, data"
#[derive(Clone, PartialEq, Debug)]
pub struct Item {
    pub id: u16,
    pub size: u8,     // the length
    pub writable: u8, // 0 or 1
    pub bytes: [u8; 16],
}

/// (01) "The link record [...]: receiver bytes, expected bit, send bit, outstanding frame, count of resends."
/// (R) "The link record needs a part that 01's list does not name: whether the receiver drops."
#[derive(Clone, PartialEq, Debug)]
pub struct Link {
    pub receiver: [u8; 260],
    pub received: u16,
    pub dropping: u8, // 0 or 1
    pub expected: u8, // 1 where odd, 0 where even
    pub send: u8,     // 1 where odd, 0 where even
    pub outstanding: [u8; 261],
    pub held: u16, // 0: nothing outstanding
    pub resends: u8,
}

/// (01) "a transmission outcome for an ID, itself one of sent, failed or in progress"
#[derive(Clone, PartialEq, Debug)]
pub enum Outcome {
    Sent,
    Failed,
    InProgress,
}

/// (01) "Each thing that happens is one of six events: a host byte; an idle mark (the line was silent for the standard's
/// gap); ack wait over; poll; a bus value for an ID; a transmission outcome for an ID"
#[derive(Clone, PartialEq, Debug)]
pub enum Event {
    HostByte(u8),
    IdleMark,
    AckWaitOver,
    Poll,
    BusValue(u16),
    TransmissionOutcome(u16, Outcome),
}

/// The three tables, the two lists of texts and the link record, all that is lent to a call.
/// (01) "parameter bytes | 0 to 255 | byte; the first has index 1"
/// (02) item 5: "The parameter table is lent for writing from now on, and only that service writes it."
/// (02) item 1: "We ship a list of default texts; a site may bring its own list."; "Lists are lent, strictly rising by
/// ID, and are only read." They stand here as the bytes that they are; (R) none brought is a list of 0 bytes.
#[derive(Clone, PartialEq, Debug)]
pub struct Server {
    pub datapoints: Vec<Datapoint>,
    pub items: Vec<Item>,
    pub parameters: Vec<u8>,
    pub site_texts: Vec<u8>,
    pub default_texts: Vec<u8>,
    pub link: Link,
}

// ------------------------------------------------------------------------------------------- sizes, numbers, searches

/// (01) "so a message has at most 254 bytes and a frame 261"
const MESSAGE_AT_MOST: usize = 254;

/// (01) "Numbers of two bytes are big-endian."
fn number_of(high: u8, low: u8) -> u16 {
    u16::from(high) * 256 + u16::from(low)
}

fn high_byte(number: u16) -> u8 {
    (number / 256) as u8
}

fn low_byte(number: u16) -> u8 {
    (number % 256) as u8
}

/// (01) "Type codes: 0 to 6 are 1 to 7 bits in the low bits of one byte; 7 is 1 byte; 8, 9, 10, 11, 12, 13, 14 are 2, 3, 4,
/// 6, 8, 10, 14 bytes." No other code gets past refusal 1.
fn type_bytes(typecode: u8) -> usize {
    match typecode {
        0..=6 => 1,
        7 => 1,
        8 => 2,
        9 => 3,
        10 => 4,
        11 => 6,
        12 => 8,
        13 => 10,
        14 => 14,
        _ => 0,
    }
}

/// The bits of the one byte that a type of 1 to 7 bits does not use. The other types use all bits of their bytes.
fn unused_bits(typecode: u8) -> u8 {
    match typecode {
        0 => 0b1111_1110,
        1 => 0b1111_1100,
        2 => 0b1111_1000,
        3 => 0b1111_0000,
        4 => 0b1110_0000,
        5 => 0b1100_0000,
        6 => 0b1000_0000,
        _ => 0,
    }
}

/// Whether a value of the type's length has an unused bit set.
fn has_unused_bits_set(typecode: u8, value: &[u8]) -> bool {
    !value.is_empty() && value[0] & unused_bits(typecode) != 0
}

fn all_zero(bytes: &[u8]) -> bool {
    bytes.iter().all(|byte| *byte == 0)
}

/// (02) item 2: "Looking up an ID has three findings from now on: absent, present but closed (bit 2 off), present and
/// open, and each service says which it treats alike." With its place in the table, where it is present.
enum Finding {
    Absent,
    Closed(usize),
    Open(usize),
}

fn look_up_datapoint(datapoints: &[Datapoint], id: u16) -> Finding {
    match datapoints.iter().position(|datapoint| datapoint.id == id) {
        None => Finding::Absent,
        Some(at) if datapoints[at].flags & 0b0000_0100 == 0 => Finding::Closed(at),
        Some(at) => Finding::Open(at),
    }
}

/// (02) item 2: "Gets and bus events treat the last two alike." So do a poll, and an entry once it is checked.
fn find_datapoint(datapoints: &[Datapoint], id: u16) -> Option<usize> {
    match look_up_datapoint(datapoints, id) {
        Finding::Absent => None,
        Finding::Closed(at) | Finding::Open(at) => Some(at),
    }
}

fn find_item(items: &[Item], id: u16) -> Option<usize> {
    items.iter().position(|item| item.id == id)
}

// ---------------------------------------------------------------------------------------------------------- the texts

/// The texts of a list by their IDs, or None: the list is not in order.
/// (02) item 1: "A list entry is an ID of two bytes, a length byte of 0 to 30 and the text. Lists are lent, strictly
/// rising by ID"; "call refusal 1 also for a list out of order or not made of whole entries".
/// (R) A first ID 0 is in order, a length byte above 30 is "not made of whole entries", no number of entries is too high.
fn texts_of(list: &[u8]) -> Option<BTreeMap<u16, &[u8]>> {
    let mut texts = BTreeMap::new();
    let mut rest = list;
    while !rest.is_empty() {
        // "an ID of two bytes, a length byte"
        if rest.len() < 3 {
            return None;
        }
        let id = number_of(rest[0], rest[1]);
        let length = usize::from(rest[2]);
        // "of 0 to 30 and the text"
        if length > 30 || rest.len() < 3 + length {
            return None;
        }
        // "strictly rising by ID"
        if texts.last_key_value().is_some_and(|(before, _)| *before >= id) {
            return None;
        }
        texts.insert(id, &rest[3..3 + length]);
        rest = &rest[3 + length..];
    }
    Some(texts)
}

/// (02) item 1: "the text comes from the site list, failing that the default list, where that has a non-empty entry for
/// the ID, else it is the empty start of the default list".
/// (R) An empty site entry does not count: the default's text is taken.
fn text_for<'a>(site: &BTreeMap<u16, &'a [u8]>, default: &BTreeMap<u16, &'a [u8]>, id: u16) -> &'a [u8] {
    for list in [site, default] {
        if let Some(text) = list.get(&id) {
            if !text.is_empty() {
                return text;
            }
        }
    }
    &[]
}

// ------------------------------------------------------------------------------------------------------- the refusals

/// (01) "1 | a table is not well formed"; "2 | link record is not in range"; "3 | output room below 262 bytes";
/// "4 | bus event: ID absent, value length not the type's, or unused bits set".
/// (01) "Several at once: the lowest number."
/// (R) "1, 2 and 3 are judged in every call, also for an event that would send nothing."
fn refusal(server: &Server, event: &Event, value: &[u8], room: usize) -> Option<u8> {
    if !datapoints_well_formed(&server.datapoints)
        || !items_well_formed(&server.items)
        || !parameters_well_formed(&server.parameters)
        // (02) item 1: "call refusal 1 also for a list out of order or not made of whole entries"
        || texts_of(&server.site_texts).is_none()
        || texts_of(&server.default_texts).is_none()
    {
        return Some(1);
    }
    if !link_in_range(&server.link) {
        return Some(2);
    }
    if room < 262 {
        return Some(3);
    }
    if bus_event_refused(&server.datapoints, event, value) {
        return Some(4);
    }
    None
}

/// (01) "A table is well formed when it has no more entries than above, IDs are 1 or more and strictly rise, type codes are
/// 0 to 14, state bits 7 to 5 are 0, item lengths are in range, and value bits and bytes beyond the type's size or the
/// item's length are 0."
/// (R) "DPT and config flags may hold any byte. State bits 4 to 0 may hold any combination." A mark and a writable are the byte
/// 0 or 1, as are dropping, expected and send of the link record: a record with another byte is not well formed, or not in range.
fn datapoints_well_formed(datapoints: &[Datapoint]) -> bool {
    // "no more entries than above"
    if datapoints.len() > 1000 {
        return false;
    }
    let mut before = 0;
    for datapoint in datapoints {
        // "IDs are 1 or more and strictly rise"
        if datapoint.id <= before {
            return false;
        }
        before = datapoint.id;
        // "type codes are 0 to 14"
        if datapoint.typecode > 14 {
            return false;
        }
        // "state bits 7 to 5 are 0"
        if datapoint.state & 0b1110_0000 != 0 {
            return false;
        }
        // "value bits and bytes beyond the type's size [...] are 0"
        let size = type_bytes(datapoint.typecode);
        if has_unused_bits_set(datapoint.typecode, &datapoint.value[..size]) || !all_zero(&datapoint.value[size..]) {
            return false;
        }
        if !is_0_or_1(datapoint.mark) {
            return false;
        }
    }
    true
}

fn is_0_or_1(byte: u8) -> bool {
    byte == 0 || byte == 1
}

fn items_well_formed(items: &[Item]) -> bool {
    // "no more entries than above"
    if items.len() > 64 {
        return false;
    }
    let mut before = 0;
    for item in items {
        // "IDs are 1 or more and strictly rise"
        if item.id <= before {
            return false;
        }
        before = item.id;
        // "item lengths are in range": 1 to 16
        if item.size < 1 || item.size > 16 {
            return false;
        }
        // "bytes beyond [...] the item's length are 0"
        if !all_zero(&item.bytes[usize::from(item.size)..]) {
            return false;
        }
        if !is_0_or_1(item.writable) {
            return false;
        }
    }
    true
}

fn parameters_well_formed(parameters: &[u8]) -> bool {
    // "no more entries than above"
    parameters.len() <= 255
}

/// (01) "It is in range when the receiver bytes are a beginning, not the whole, of some sound frame, or none while the
/// receiver drops; when either nothing is outstanding and the count is 0, or a whole server data frame is, under the send
/// bit, with a count of 0 to 3; and when its unused bytes are 0."
fn link_in_range(link: &Link) -> bool {
    let received = usize::from(link.received);
    let held = usize::from(link.held);
    // (R) "A length field of the link record beyond its memory is refusal 2, never a fault. The receiver's memory is 260
    // bytes, the outstanding frame's 261."
    if received > 260 || held > 261 {
        return false;
    }
    if !is_0_or_1(link.dropping) || !is_0_or_1(link.expected) || !is_0_or_1(link.send) {
        return false;
    }
    // "the receiver bytes are a beginning, not the whole, of some sound frame, or none while the receiver drops"
    let receiver_in_range =
        if link.dropping == 1 { received == 0 } else { form_of(&link.receiver[..received]) == Form::Beginning };
    // "either nothing is outstanding and the count is 0, or a whole server data frame is, under the send bit, with a count
    // of 0 to 3"
    // (R) "A whole server data frame": any sound data frame whose control is F3 or D3 as the send bit says, whatever its
    // message, L = 1 too.
    let outstanding_in_range = if held == 0 {
        link.resends == 0
    } else {
        let whole_server_frame = match form_of(&link.outstanding[..held]) {
            Form::Data(control, _message) => control == server_control(link.send),
            _ => false,
        };
        whole_server_frame && link.resends <= 3
    };
    // "its unused bytes are 0"
    let unused_zero = all_zero(&link.receiver[received..]) && all_zero(&link.outstanding[held..]);
    receiver_in_range && outstanding_in_range && unused_zero
}

/// (01) "bus event: ID absent, value length not the type's, or unused bits set"
/// (R) "An outcome is a bus event: an absent ID is refusal 4 (only the ID applies to it). ID 0 is always absent."
/// (01) "The value of a bus value event is lent beside it; other events ignore what is lent there."
fn bus_event_refused(datapoints: &[Datapoint], event: &Event, value: &[u8]) -> bool {
    match event {
        Event::BusValue(id) => match find_datapoint(datapoints, *id) {
            None => true,
            Some(at) => {
                let typecode = datapoints[at].typecode;
                value.len() != type_bytes(typecode) || has_unused_bits_set(typecode, value)
            }
        },
        Event::TransmissionOutcome(id, _outcome) => find_datapoint(datapoints, *id).is_none(),
        Event::HostByte(_) | Event::IdleMark | Event::AckWaitOver | Event::Poll => false,
    }
}

// ----------------------------------------------------------------------------------------------------------- the link
// (01) "The link rules know nothing of datapoints: the link hands up a message and takes one back"

/// What a list of bytes is when it is read from a frame start.
#[derive(PartialEq)]
enum Form {
    /// A beginning, not the whole, of some sound frame.
    Beginning,
    /// E5.
    Acknowledgement,
    /// 10 C C 16, with its C.
    Fixed(u8),
    /// A whole sound data frame, with its control byte and its message.
    Data(u8, Vec<u8>),
    /// None of these: some byte breaks the forms.
    Damage,
}

/// (01) "E5: acknowledgement."; "Fixed frame: 10 C C 16."; "Data frame: 68 L L 68, control, data, checksum, 16."
/// (R) "frames that would be ignored (another C, another control byte) are sound. No byte at all is a beginning."
fn form_of(bytes: &[u8]) -> Form {
    for at in 0..bytes.len() {
        if breaks_the_forms(bytes, at) {
            return Form::Damage;
        }
    }
    if !is_whole(bytes) {
        return Form::Beginning;
    }
    match bytes[0] {
        0xE5 => Form::Acknowledgement,
        0x10 => Form::Fixed(bytes[1]),
        _ => Form::Data(bytes[4], bytes[5..bytes.len() - 2].to_vec()),
    }
}

/// Whether bytes of which none breaks the forms are an acknowledgement or a whole frame.
fn is_whole(bytes: &[u8]) -> bool {
    match bytes.first() {
        None => false,
        Some(0xE5) => true,
        Some(0x10) => bytes.len() == 4,
        // 68: the whole has 4 bytes, L bytes of control and data, and 2 bytes.
        Some(_) => bytes.len() > 1 && bytes.len() == 4 + usize::from(bytes[1]) + 2,
    }
}

/// Whether the byte at this place breaks the forms when none before it does.
/// (R) "Damage is found at: the first byte (none of E5, 10, 68); L = 0 at the first L; the second L or C where it differs;
/// the fourth byte; the checksum; the last byte. Never earlier, never later."
fn breaks_the_forms(bytes: &[u8], at: usize) -> bool {
    let byte = bytes[at];
    if at == 0 {
        return byte != 0xE5 && byte != 0x10 && byte != 0x68;
    }
    if bytes[0] == 0x10 {
        return match at {
            1 => false,
            2 => byte != bytes[1],
            3 => byte != 0x16,
            _ => true, // more than the whole
        };
    }
    if bytes[0] == 0x68 {
        // (01) "L from 1 to 255 counts control and data": these stand at 4 to 4 + L - 1, the checksum at 4 + L.
        let checksum_at = 4 + usize::from(bytes[1]);
        return match at {
            1 => byte == 0,
            2 => byte != bytes[1],
            3 => byte != 0x68,
            _ if at < checksum_at => false,
            _ if at == checksum_at => byte != checksum(&bytes[4..checksum_at]),
            _ if at == checksum_at + 1 => byte != 0x16,
            _ => true, // more than the whole
        };
    }
    true // more than an E5
}

/// (01) "The checksum is the sum of control and data bytes, the carry beyond eight bits dropped."
fn checksum(control_and_data: &[u8]) -> u8 {
    let mut sum: u32 = 0;
    for byte in control_and_data {
        sum += u32::from(*byte);
    }
    (sum % 256) as u8
}

/// (01) "from server: F3 or D3"; (000) "0xF3 for odd frames and 0xD3 for even frames"
fn server_control(send: u8) -> u8 {
    if send == 1 {
        0xF3
    } else {
        0xD3
    }
}

/// (01) "After every idle mark, whole frame or acknowledgement the receiver is at a frame start"
fn to_frame_start(link: &mut Link) {
    link.receiver = [0; 260];
    link.received = 0;
    link.dropping = 0;
}

/// (01) "one that is cleared or dropped leaves count 0 and none of its bytes"
fn clear_outstanding(link: &mut Link) {
    link.outstanding = [0; 261];
    link.held = 0;
    link.resends = 0;
}

/// One host byte: the bytes sent for it and the message handed up, if any.
fn receive(link: &mut Link, byte: u8) -> (Vec<u8>, Option<Vec<u8>>) {
    // (01) "the rest is dropped up to the next idle mark"; (R) "while dropping [E5] is dropped"
    if link.dropping == 1 {
        return (Vec::new(), None);
    }
    let mut gathered = link.receiver[..usize::from(link.received)].to_vec();
    gathered.push(byte);
    match form_of(&gathered) {
        Form::Beginning => {
            link.receiver[usize::from(link.received)] = byte;
            link.received += 1;
            (Vec::new(), None)
        }
        // (01) "Any byte that breaks these forms is damage, found at that byte: the rest is dropped up to the next idle mark."
        // (R) "The byte at which damage is found is dropped with the rest and starts nothing, not even if it is 68 or E5."
        Form::Damage => {
            to_frame_start(link);
            link.dropping = 1;
            (Vec::new(), None)
        }
        Form::Acknowledgement => {
            to_frame_start(link);
            acknowledgement(link);
            (Vec::new(), None)
        }
        Form::Fixed(c) => {
            to_frame_start(link);
            (fixed_frame(link, c), None)
        }
        Form::Data(control, message) => {
            to_frame_start(link);
            data_frame(link, control, message)
        }
    }
}

/// (01) "E5: acknowledgement. Clears the outstanding frame and flips the send bit; with nothing outstanding it is ignored."
fn acknowledgement(link: &mut Link) {
    if link.held != 0 {
        clear_outstanding(link);
        link.send = 1 - link.send;
    }
}

/// (01) "C = 40 is the reset request: answered E5, both bits become odd, the outstanding frame is dropped, tables stay.
/// Other C: whole frame ignored, unanswered."
fn fixed_frame(link: &mut Link, c: u8) -> Vec<u8> {
    if c == 0x40 {
        link.expected = 1;
        link.send = 1;
        clear_outstanding(link);
        vec![0xE5]
    } else {
        Vec::new()
    }
}

/// A whole sound data frame from the host.
fn data_frame(link: &mut Link, control: u8, message: Vec<u8>) -> (Vec<u8>, Option<Vec<u8>>) {
    // (01) "Control from host: 73 (count bit odd) or 53 (even)"
    let odd = match control {
        0x73 => 1,
        0x53 => 0,
        // (01) "A sound frame with another control byte is ignored, unanswered."
        _ => return (Vec::new(), None),
    };
    if odd == link.expected {
        if link.held == 0 {
            // (01) "Expected count bit, nothing outstanding: E5, bit flips, message carried out, answer framed right after
            // the E5 and held as outstanding."
            link.expected = 1 - link.expected;
            (vec![0xE5], Some(message))
        } else {
            // (01) "Expected bit, something outstanding: dropped, unanswered, bit kept (build)."
            (Vec::new(), None)
        }
    } else {
        // (01) "Other bit: E5, message dropped."; (R) "Other count bit: E5, outstanding or not."
        (vec![0xE5], None)
    }
}

/// The link takes a message: it is framed under the send bit, sent (the bytes given back) and held as outstanding.
/// (01) "a new frame starts with count 0"
fn send_message(link: &mut Link, message: &[u8]) -> Vec<u8> {
    // (01) "L from 1 to 255 counts control and data"; (000) "The both fields L contain the length twice of the data in this
    // frame + 1 (for the control byte CR)."
    let mut control_and_data = vec![server_control(link.send)];
    control_and_data.extend_from_slice(message);
    let l = control_and_data.len() as u8;
    // (01) "68 L L 68, control, data, checksum, 16"
    let mut frame = vec![0x68, l, l, 0x68];
    frame.extend_from_slice(&control_and_data);
    frame.push(checksum(&control_and_data));
    frame.push(0x16);
    clear_outstanding(link);
    link.outstanding[..frame.len()].copy_from_slice(&frame);
    link.held = frame.len() as u16;
    frame
}

/// (01) "Ack wait over: outstanding frame sent again unaltered, three times at most. The fourth wait drops it, sends
/// 10 C0 C0 16 and makes the send bit odd (build). With nothing outstanding: nothing."
/// (R) "The fourth ack wait changes the outstanding frame, the count and the send bit only. 10 C0 C0 16 is not outstanding."
fn ack_wait_over(link: &mut Link) -> Vec<u8> {
    if link.held == 0 {
        return Vec::new();
    }
    if link.resends < 3 {
        link.resends += 1;
        return link.outstanding[..usize::from(link.held)].to_vec();
    }
    clear_outstanding(link);
    link.send = 1;
    vec![0x10, 0xC0, 0xC0, 0x16]
}

// ------------------------------------------------------------------------------------------------------- the messages

/// An error answer in the making: the ID and the code.
type Bad = (u16, u8);

/// One entry of a get answer or an indication: its ID (sub 07: its index) and its bytes in the answer.
struct Entry {
    id: u16,
    bytes: Vec<u8>,
}

/// The head of an answer or indication: F0, sub, start, count.
fn head(sub: u8, start: u16, count: u16) -> Vec<u8> {
    vec![0xF0, sub, high_byte(start), low_byte(start), high_byte(count), low_byte(count)]
}

/// Carries out a message; gives its answer, if any. The link hands up none above 254 bytes; here it may have more.
pub fn carry_out(server: &mut Server, message: &[u8]) -> Option<Vec<u8>> {
    // (01) "Shorter than 6 bytes, first byte not F0, or sub 80 and above: no answer."
    if message.len() < 6 || message[0] != 0xF0 || message[1] >= 0x80 {
        return None;
    }
    let sub = message[1];
    match answer_of(server, message) {
        Ok(answer) => Some(answer),
        // (01) "Else an error answer is F0, sub + 80, an ID, 00 00, code (7 bytes)."
        Err((id, code)) => {
            let mut answer = head(sub + 0x80, id, 0);
            answer.push(code);
            Some(answer)
        }
    }
}

/// (01) "Checks, in this order": 5, 10, 6, then 7 to 8 for the entries of a set, 2 and 3 for a get.
fn answer_of(server: &mut Server, message: &[u8]) -> Result<Vec<u8>, Bad> {
    let sub = message[1];
    let start = number_of(message[2], message[3]);
    let number = number_of(message[4], message[5]);
    match sub {
        0x01 => get_items(server, message, start, number),
        0x02 => set_items(server, message, start, number),
        0x03 => get_descriptions(server, message, start, number),
        // (02) item 1: "code 5 no longer for sub 04"
        0x04 => get_strings(server, message, start, number),
        0x05 => get_values(server, message, start, number),
        0x06 => set_values(server, message, start, number),
        0x07 => get_parameters(server, message, start, number),
        // (02) item 5: "code 5 no longer for sub 08"
        0x08 => set_parameters(server, message, start, number),
        // "5 | sub not one of the six | as in request"
        _ => Err((start, 5)),
    }
}

/// Rows 10 and 6 of the gets without filter.
/// "10 | get: not exactly 6 bytes [...] | as in request"; "6 | number 0 [...] | as in request"
fn check_get(message: &[u8], start: u16, number: u16) -> Result<(), Bad> {
    if message.len() != 6 {
        return Err((start, 10));
    }
    if number == 0 {
        return Err((start, 6));
    }
    Ok(())
}

/// (01) "The range is start to start + number - 1 worked out without wrapping; IDs not present are skipped."
fn in_range(id: u16, start: u16, number: u16) -> bool {
    let first = u32::from(start);
    let last = u32::from(start) + u32::from(number) - 1;
    first <= u32::from(id) && u32::from(id) <= last
}

/// Rows 2 and 3 and the positive answer of every get, from the entries that are in range and pass the filter, in rising ID.
fn get_answer(sub: u8, start: u16, entries: &[Entry]) -> Result<Vec<u8>, Bad> {
    // "2 | get: nothing in range to return [...] | as in request"
    if entries.is_empty() {
        return Err((start, 2));
    }
    // "3 | get: answer above 254 bytes | first entry that does not fit"
    let mut size = 6;
    for entry in entries {
        size += entry.bytes.len();
        if size > MESSAGE_AT_MOST {
            return Err((entry.id, 3));
        }
    }
    // "Positive get answer: start echoed, count, entries in rising ID."
    let mut answer = head(sub + 0x80, start, entries.len() as u16);
    for entry in entries {
        answer.extend_from_slice(&entry.bytes);
    }
    Ok(answer)
}

/// (000) 3.1 and 3.2. An entry: "ID of first item" (2), "Data length of first item" (1), "Data of first item".
fn get_items(server: &Server, message: &[u8], start: u16, number: u16) -> Result<Vec<u8>, Bad> {
    check_get(message, start, number)?;
    let mut entries = Vec::new();
    for item in &server.items {
        if in_range(item.id, start, number) {
            let mut bytes = vec![high_byte(item.id), low_byte(item.id), item.size];
            bytes.extend_from_slice(&item.bytes[..usize::from(item.size)]);
            entries.push(Entry { id: item.id, bytes });
        }
    }
    get_answer(0x01, start, &entries)
}

/// (000) 3.6 and 3.7. An entry: ID (2), "Value type", "Configuration flags", "Datapoint type (DPT)" (1 each).
fn get_descriptions(server: &Server, message: &[u8], start: u16, number: u16) -> Result<Vec<u8>, Bad> {
    check_get(message, start, number)?;
    let mut entries = Vec::new();
    for datapoint in &server.datapoints {
        if in_range(datapoint.id, start, number) {
            let id = datapoint.id;
            let bytes = vec![high_byte(id), low_byte(id), datapoint.typecode, datapoint.flags, datapoint.dpt];
            entries.push(Entry { id, bytes });
        }
    }
    get_answer(0x03, start, &entries)
}

/// (000) 3.8 and 3.9. An entry: "Length of first DP description string" (2), "Description string of first datapoint", and
/// no ID. "The datapoint description strings are not null terminated."
fn get_strings(server: &Server, message: &[u8], start: u16, number: u16) -> Result<Vec<u8>, Bad> {
    // (02) item 1: "code 10 if not 6 bytes, then 6, 2 and 3 as for other gets"
    check_get(message, start, number)?;
    // both are there, or the call was refused
    let site = texts_of(&server.site_texts).unwrap_or_default();
    let default = texts_of(&server.default_texts).unwrap_or_default();
    let mut entries = Vec::new();
    // (02) item 1: "For each datapoint present in the range"; (R) an empty text has an entry too.
    for datapoint in &server.datapoints {
        if in_range(datapoint.id, start, number) {
            let text = text_for(&site, &default, datapoint.id);
            let length = text.len() as u16;
            let mut bytes = vec![high_byte(length), low_byte(length)];
            bytes.extend_from_slice(text);
            entries.push(Entry { id: datapoint.id, bytes });
        }
    }
    get_answer(0x04, start, &entries)
}

/// The entry of a datapoint value in an answer or indication, (000) 3.11 and 3.12: "ID of first datapoint" (2), "State byte
/// of first datapoint" (1), "Length of first datapoint" (1), "Value of first datapoint".
fn value_entry(datapoint: &Datapoint) -> Entry {
    let size = type_bytes(datapoint.typecode);
    let mut bytes = vec![high_byte(datapoint.id), low_byte(datapoint.id), datapoint.state, size as u8];
    bytes.extend_from_slice(&datapoint.value[..size]);
    Entry { id: datapoint.id, bytes }
}

/// (01) "An answer or indication that carries a value shows the state byte as it was and then clears bit 3 (build)."
/// (R) "for the records carried only"
fn clear_updated(datapoints: &mut [Datapoint], carried: &[Entry]) {
    for entry in carried {
        if let Some(at) = find_datapoint(datapoints, entry.id) {
            datapoints[at].state &= 0b1111_0111;
        }
    }
}

/// (000) 3.10 and 3.11.
fn get_values(server: &mut Server, message: &[u8], start: u16, number: u16) -> Result<Vec<u8>, Bad> {
    // "10 | get: not exactly 6 bytes (sub 05: 7) [...] | as in request"
    if message.len() != 7 {
        return Err((start, 10));
    }
    // "6 | number 0; or filter above 2 | as in request"
    let filter = message[6];
    if number == 0 || filter > 2 {
        return Err((start, 6));
    }
    let mut entries = Vec::new();
    for datapoint in &server.datapoints {
        // (01) "Filter 0 all, 1 valid bit set, 2 updated bit set."; "State byte: bit 4 valid, bit 3 updated from bus"
        let passes = match filter {
            0 => true,
            1 => datapoint.state & 0b0001_0000 != 0,
            _ => datapoint.state & 0b0000_1000 != 0,
        };
        if in_range(datapoint.id, start, number) && passes {
            entries.push(value_entry(datapoint));
        }
    }
    let answer = get_answer(0x05, start, &entries)?;
    clear_updated(&mut server.datapoints, &entries);
    Ok(answer)
}

/// (000) 3.15 and 3.16. An entry is one byte.
fn get_parameters(server: &Server, message: &[u8], start: u16, number: u16) -> Result<Vec<u8>, Bad> {
    check_get(message, start, number)?;
    // "2 | [...] sub 07: start index 0 (build) | as in request"
    if start == 0 {
        return Err((start, 2));
    }
    let mut entries = Vec::new();
    for at in 0..server.parameters.len() {
        // (01) "the first has index 1"
        let index = (at + 1) as u16;
        if in_range(index, start, number) {
            entries.push(Entry { id: index, bytes: vec![server.parameters[at]] });
        }
    }
    get_answer(0x07, start, &entries)
}

/// (01) "Positive set answer: start echoed, 00 00, 00." and "StartItem or StartDatapoint of a set request is echoed and not
/// compared with the first entry."
fn set_answer(sub: u8, start: u16) -> Vec<u8> {
    let mut answer = head(sub + 0x80, start, 0);
    answer.push(0);
    answer
}

/// An entry of an item set, (000) 3.3: "ID of first item" (2), "Data length of first item" (1), "Data of first item".
struct ItemEntry {
    id: u16,
    data: Vec<u8>,
}

/// "10 | [...] set: the stated number of entries does not fill the message exactly": None then.
/// (R) "Row 10 of a set cuts the message by its own length bytes."
fn cut_item_entries(message: &[u8], number: u16) -> Option<Vec<ItemEntry>> {
    let mut entries = Vec::new();
    let mut at = 6;
    for _ in 0..number {
        if at + 3 > message.len() {
            return None;
        }
        let id = number_of(message[at], message[at + 1]);
        let length = usize::from(message[at + 2]);
        if at + 3 + length > message.len() {
            return None;
        }
        entries.push(ItemEntry { id, data: message[at + 3..at + 3 + length].to_vec() });
        at = at + 3 + length;
    }
    if at != message.len() {
        return None;
    }
    Some(entries)
}

/// Rows 7, 4 and 9 for one entry.
fn check_item_entry(items: &[Item], entry: &ItemEntry) -> Result<(), Bad> {
    // "7 | set entry: ID absent | that entry's"
    let Some(at) = find_item(items, entry.id) else {
        return Err((entry.id, 7));
    };
    // "4 | set entry: item not writable | that entry's"
    if items[at].writable == 0 {
        return Err((entry.id, 4));
    }
    // "9 | item length not the table's [...] | that entry's"
    if entry.data.len() != usize::from(items[at].size) {
        return Err((entry.id, 9));
    }
    Ok(())
}

/// (000) 3.3 and 3.4.
fn set_items(server: &mut Server, message: &[u8], start: u16, number: u16) -> Result<Vec<u8>, Bad> {
    let Some(entries) = cut_item_entries(message, number) else {
        return Err((start, 10));
    };
    // "6 | number 0 [...] | as in request"
    if number == 0 {
        return Err((start, 6));
    }
    // (01) "Entries are judged one after the other, each through rows 7 to 8; the first bad one decides. Nothing is set then."
    for entry in &entries {
        check_item_entry(&server.items, entry)?;
    }
    // (01) "Otherwise entries apply in order; an ID given twice takes both in turn."
    for entry in &entries {
        if let Some(at) = find_item(&server.items, entry.id) {
            server.items[at].bytes[..entry.data.len()].copy_from_slice(&entry.data);
        }
    }
    Ok(set_answer(0x02, start))
}

/// An entry of a datapoint set, (000) 3.13: "ID of first datapoint" (2), "Command byte of first datapoint" (1), "Length byte
/// of first datapoint" (1), "Value of first datapoint".
struct DatapointEntry {
    id: u16,
    command: u8,
    value: Vec<u8>,
}

/// "10 | [...] set: the stated number of entries does not fill the message exactly": None then.
fn cut_datapoint_entries(message: &[u8], number: u16) -> Option<Vec<DatapointEntry>> {
    let mut entries = Vec::new();
    let mut at = 6;
    for _ in 0..number {
        if at + 4 > message.len() {
            return None;
        }
        let id = number_of(message[at], message[at + 1]);
        let command = message[at + 2];
        let length = usize::from(message[at + 3]);
        if at + 4 + length > message.len() {
            return None;
        }
        entries.push(DatapointEntry { id, command, value: message[at + 4..at + 4 + length].to_vec() });
        at = at + 4 + length;
    }
    if at != message.len() {
        return None;
    }
    Some(entries)
}

/// Rows 7, 8, 9 and 8 for one entry.
fn check_datapoint_entry(datapoints: &[Datapoint], entry: &DatapointEntry) -> Result<(), Bad> {
    let (at, open) = match look_up_datapoint(datapoints, entry.id) {
        // "7 | set entry: ID absent | that entry's"
        Finding::Absent => return Err((entry.id, 7)),
        Finding::Closed(at) => (at, false),
        Finding::Open(at) => (at, true),
    };
    let typecode = datapoints[at].typecode;
    // "8 | datapoint entry: command above 5, reserved bits included | that entry's"
    // (02) item 9: "command 5 gives code 8, at the command check."
    // (02) item 2: "commands 2 and 3 need config bits 2 and 6, command 4 needs bit 2; others as before."; "a command
    // whose needed bits are off gives code 8, placed with the command check, before code 9."
    let transmits = datapoints[at].flags & 0b0100_0000 != 0;
    let taken = match entry.command {
        0 | 1 => true,
        2 | 3 => open && transmits,
        4 => open,
        _ => false,
    };
    if !taken {
        return Err((entry.id, 8));
    }
    // "9 | [...] datapoint length neither 0 nor the type's; or 0 with command 1 or 3 | that entry's"
    let length = entry.value.len();
    if length != 0 && length != type_bytes(typecode) {
        return Err((entry.id, 9));
    }
    if length == 0 && (entry.command == 1 || entry.command == 3) {
        return Err((entry.id, 9));
    }
    // "8 | a value whose unused bits are set | that entry's"
    // (01) "A value sent with 0, 2, 4 [...] is checked and unused."
    if has_unused_bits_set(typecode, &entry.value) {
        return Err((entry.id, 8));
    }
    Ok(())
}

/// (01) "Commands: 0 nothing; 1 value, bit 4 set; 2 status 11; 3 both; 4 bit 2 set; [...]." (02) item 2 has the config
/// flags looked at where the entry is checked.
/// (R) "Command 4 sets bit 2 and leaves the status; commands 2 and 3 set the status and leave bit 2"; "Commands 1 and 3 leave
/// bits 3 and 2 and the mark."
fn apply_datapoint_entry(datapoint: &mut Datapoint, entry: &DatapointEntry) {
    if entry.command == 1 || entry.command == 3 {
        datapoint.value[..entry.value.len()].copy_from_slice(&entry.value);
        datapoint.state |= 0b0001_0000;
    }
    if entry.command == 2 || entry.command == 3 {
        datapoint.state |= 0b0000_0011;
    }
    if entry.command == 4 {
        datapoint.state |= 0b0000_0100;
    }
}

/// (000) 3.13 and 3.14.
fn set_values(server: &mut Server, message: &[u8], start: u16, number: u16) -> Result<Vec<u8>, Bad> {
    let Some(entries) = cut_datapoint_entries(message, number) else {
        return Err((start, 10));
    };
    // "6 | number 0 [...] | as in request"
    if number == 0 {
        return Err((start, 6));
    }
    // (01) "Entries are judged one after the other, each through rows 7 to 8; the first bad one decides. Nothing is set then."
    for entry in &entries {
        check_datapoint_entry(&server.datapoints, entry)?;
    }
    // (01) "Otherwise entries apply in order; an ID given twice takes both in turn."
    for entry in &entries {
        if let Some(at) = find_datapoint(&server.datapoints, entry.id) {
            apply_datapoint_entry(&mut server.datapoints[at], entry);
        }
    }
    Ok(set_answer(0x06, start))
}

/// A byte of a parameter set and the index that it is for.
struct ParameterEntry {
    index: u32,
    byte: u8,
}

/// (000) 3.17: "Index of first byte", "Number of bytes", then from +6 on "First parameter byte" to "Last parameter byte". The
/// indices go on from the first without wrapping.
/// "10 | [...] set: the stated number of entries does not fill the message exactly": None then. An entry is one byte.
fn cut_parameter_entries(message: &[u8], start: u16, number: u16) -> Option<Vec<ParameterEntry>> {
    let bytes = &message[6..];
    if bytes.len() != usize::from(number) {
        return None;
    }
    let mut entries = Vec::new();
    let mut index = u32::from(start);
    for byte in bytes {
        entries.push(ParameterEntry { index, byte: *byte });
        index += 1;
    }
    Some(entries)
}

/// The place of an index in the table. (01) "the first has index 1"
fn find_parameter(parameters: &[u8], index: u32) -> Option<usize> {
    (0..parameters.len()).find(|at| at + 1 == index as usize)
}

/// (000) 3.17 and 3.18.
fn set_parameters(server: &mut Server, message: &[u8], start: u16, number: u16) -> Result<Vec<u8>, Bad> {
    // (02) item 5: "Refusals: code 5 no longer for sub 08; then 10, 6, and 7"
    let Some(entries) = cut_parameter_entries(message, start, number) else {
        return Err((start, 10));
    };
    // "6 | number 0 [...] | as in request". (000) 3.17 has "a request without data [...] to indicate that the written data can
    // be flushed to the non-volatile memory", of number 0 too: it is not excepted.
    if number == 0 {
        return Err((start, 6));
    }
    // (02) item 5: "7 with the first index not in the table"; (000) 3.18 "Index of the bad parameter". The first such index is
    // the start or stands right behind an index that is in the table, so that two bytes hold it.
    for entry in &entries {
        if find_parameter(&server.parameters, entry.index).is_none() {
            return Err((entry.index as u16, 7));
        }
    }
    // (02) item 5: "All or nothing as with items."
    for entry in &entries {
        if let Some(at) = find_parameter(&server.parameters, entry.index) {
            server.parameters[at] = entry.byte;
        }
    }
    Ok(set_answer(0x08, start))
}

// ----------------------------------------------------------------------------------------------------------- the call

/// value: the bytes lent beside a bus value; room: the length of the output buffer.
/// Ok(bytes sent), or Err(refusal number) with nothing changed.
pub fn call(server: &mut Server, event: &Event, value: &[u8], room: usize) -> Result<Vec<u8>, u8> {
    // (01) "number only, nothing sent, all lent memory unaltered"
    if let Some(number) = refusal(server, event, value, room) {
        return Err(number);
    }
    match event {
        Event::HostByte(byte) => Ok(host_byte(server, *byte)),
        // (01) "An idle mark in mid-frame drops what was gathered. After every idle mark, [...] the receiver is at a frame
        // start; the mark alters nothing else."
        Event::IdleMark => {
            to_frame_start(&mut server.link);
            Ok(Vec::new())
        }
        Event::AckWaitOver => Ok(ack_wait_over(&mut server.link)),
        Event::Poll => Ok(poll(server)),
        Event::BusValue(id) => {
            bus_value(server, *id, value);
            Ok(Vec::new())
        }
        Event::TransmissionOutcome(id, outcome) => {
            transmission_outcome(server, *id, outcome);
            Ok(Vec::new())
        }
    }
}

/// (01) "the link hands up a message and takes one back"; "E5, bit flips, message carried out, answer framed right after the
/// E5 and held as outstanding"
fn host_byte(server: &mut Server, byte: u8) -> Vec<u8> {
    let (mut sent, handed_up) = receive(&mut server.link, byte);
    if let Some(message) = handed_up {
        if let Some(answer) = carry_out(server, &message) {
            sent.extend_from_slice(&send_message(&mut server.link, &answer));
        }
    }
    sent
}

/// (01) "Poll: with nothing outstanding and some mark set, one indication is framed, sent and held as outstanding, with marked
/// datapoints in rising ID until the next one does not fit in 254 bytes; its StartDatapoint is the first one's ID. Marks
/// carried are cleared. Otherwise nothing."
/// (R) "A poll stops at the first marked record that does not fit; later, shorter ones wait."
fn poll(server: &mut Server) -> Vec<u8> {
    if server.link.held != 0 {
        return Vec::new();
    }
    let mut carried = Vec::new();
    let mut size = 6;
    for datapoint in &server.datapoints {
        if datapoint.mark == 1 {
            let entry = value_entry(datapoint);
            if size + entry.bytes.len() > MESSAGE_AT_MOST {
                break;
            }
            size += entry.bytes.len();
            carried.push(entry);
        }
    }
    if carried.is_empty() {
        return Vec::new();
    }
    // (000) 3.12: F0, C1, "ID of first datapoint", "Number of datapoints in this indication", the entries.
    let mut message = head(0xC1, carried[0].id, carried.len() as u16);
    for entry in &carried {
        message.extend_from_slice(&entry.bytes);
    }
    for entry in &carried {
        if let Some(at) = find_datapoint(&server.datapoints, entry.id) {
            server.datapoints[at].mark = 0;
        }
    }
    clear_updated(&mut server.datapoints, &carried);
    send_message(&mut server.link, &message)
}

/// (01) "Bus value: value replaced, bits 4 and 3 set, bit 2 cleared, report mark set, also if the value is equal (build)."
fn bus_value(server: &mut Server, id: u16, value: &[u8]) {
    if let Some(at) = find_datapoint(&server.datapoints, id) {
        let datapoint = &mut server.datapoints[at];
        datapoint.value[..value.len()].copy_from_slice(value);
        datapoint.state |= 0b0001_1000;
        datapoint.state &= 0b1111_1011;
        datapoint.mark = 1;
    }
}

/// (01) "Outcome: status becomes 00, 01 or 10."
fn transmission_outcome(server: &mut Server, id: u16, outcome: &Outcome) {
    let status = match outcome {
        Outcome::Sent => 0b00,
        Outcome::Failed => 0b01,
        Outcome::InProgress => 0b10,
    };
    if let Some(at) = find_datapoint(&server.datapoints, id) {
        let datapoint = &mut server.datapoints[at];
        datapoint.state = (datapoint.state & 0b1111_1100) | status;
    }
}

// ------------------------------------------------------------------------------------------------------- the readings

/// (02) item 3: "give the reading as one of: a switch state (DPT 1, type 0), a count (DPT 5, type 7), a two-octet value
/// (DPT 9, type 8), a single (DPT 14, type 10), or unreadable. The reading carries its floating value in the case it
/// belongs to." A number of 32-bit floating point stands here as its 32 bits.
#[derive(Clone, PartialEq, Debug)]
pub enum Reading {
    Switch(bool),
    Count(u8),
    TwoOctet(u32),
    Single(u32),
    Unreadable,
}

/// Ok(the reading), or Err(refusal number). "Readings change no table."
/// (02) item 3: "Refusals: call 1 as before, then 4 for an ID that is absent." (R) The datapoints alone are lent, so
/// refusal 1 judges no other table.
pub fn reading(datapoints: &[Datapoint], id: u16) -> Result<Reading, u8> {
    if !datapoints_well_formed(datapoints) {
        return Err(1);
    }
    match find_datapoint(datapoints, id) {
        None => Err(4),
        Some(at) => Ok(reading_of(&datapoints[at])),
    }
}

fn reading_of(datapoint: &Datapoint) -> Reading {
    // "a datapoint whose valid bit is off" is unreadable
    if datapoint.state & 0b0001_0000 == 0 {
        return Reading::Unreadable;
    }
    let value = &datapoint.value;
    match (datapoint.dpt, datapoint.typecode) {
        (1, 0) => Reading::Switch(value[0] == 1),
        // (R) the byte, on no scale
        (5, 7) => Reading::Count(value[0]),
        (9, 8) => two_octet(number_of(value[0], value[1])),
        (14, 10) => {
            single(u32::from(number_of(value[0], value[1])) * 65536 + u32::from(number_of(value[2], value[3])))
        }
        // "any other DPT and type"
        _ => Reading::Unreadable,
    }
}

/// "DPT 9 is sign, four bits of exponent E and 11 bits that with the sign make the 12-bit two's complement mantissa M;
/// the value is M times 2 to the E hundredths."
fn hundredths(octets: u16) -> i64 {
    let sign = i64::from(octets / 32768);
    let exponent = u32::from(octets / 2048 % 16);
    let eleven = i64::from(octets % 2048);
    (eleven - sign * 2048) * 2_i64.pow(exponent)
}

/// "the reading is that number divided by 100, rounded once"; "7FFF is unreadable".
fn two_octet(octets: u16) -> Reading {
    if octets == 0x7FFF {
        return Reading::Unreadable;
    }
    let hundredths = hundredths(octets);
    let sign = if hundredths < 0 { 0x8000_0000 } else { 0 };
    Reading::TwoOctet(sign + nearest_single(u128::from(hundredths.unsigned_abs()), 100))
}

/// The bits of the number of 32-bit floating point, not below 0, that is nearest to a fraction; of two that are equally
/// near, the even one. Such a number is 0, or 2 to the 23 up to 2 to the 24 less 1 times a power of 2. The fractions of
/// two octets are 0 or between 1/100 and 2 to the 20, far from the ends of the format.
pub fn nearest_single(numerator: u128, denominator: u128) -> u32 {
    if numerator == 0 {
        return 0;
    }
    // the fraction is numerator / denominator times 2 to the power, at each step
    let (mut numerator, mut denominator, mut power) = (numerator, denominator, 0);
    while numerator >= denominator << 24 {
        denominator *= 2;
        power += 1;
    }
    while numerator < denominator << 23 {
        numerator *= 2;
        power -= 1;
    }
    let below = numerator / denominator;
    let rest = numerator % denominator;
    let is_above = 2 * rest > denominator || (2 * rest == denominator && below % 2 == 1);
    let mut mantissa = below + u128::from(is_above);
    if mantissa == 1 << 24 {
        mantissa = 1 << 23;
        power += 1;
    }
    // the power is kept with 127 added, for a mantissa of 1.xx: with 150 for one of 24 bits, whose highest is not kept
    ((power + 150) as u32) * (1 << 23) + (mantissa as u32 - (1 << 23))
}

/// "also a DPT 14 that is infinite or not a number": these have all eight bits of the exponent set.
fn single(bits: u32) -> Reading {
    if bits / (1 << 23) % 256 == 255 {
        return Reading::Unreadable;
    }
    Reading::Single(bits)
}

// --------------------------------------------------------------------------------------------------------- the bursts

/// (02) item 8: "whether the burst ended clean, in damage or in an unfinished frame"
#[derive(Clone, PartialEq, Debug)]
pub enum Ending {
    Clean,
    Damaged,
    Unfinished,
}

/// (02) item 8: "how many sound frames (ignored ones too) and acknowledgements it found", and how the burst ended.
#[derive(Clone, PartialEq, Debug)]
pub struct Burst {
    pub frames: u16,
    pub acknowledgements: u16,
    pub ending: Ending,
}

/// (02) item 8: "The rack's serial driver hands us everything between two idle marks at once". It is read byte by byte,
/// by the receiver's rules, "from a receiver at a frame start".
/// Ok(what was found), with its starts in the first places of the run; or Err(refusal number) and no place changed.
pub fn burst(bytes: &[u8], run: &mut [u16]) -> Result<Burst, u8> {
    // "up to 2048 bytes"; "a lent run of 2048 places"; "call number 8 for a longer burst or a shorter run"
    if bytes.len() > 2048 || run.len() < 2048 {
        return Err(8);
    }
    let mut found = Burst { frames: 0, acknowledgements: 0, ending: Ending::Clean };
    let mut needed = 0;
    let mut gathered = Vec::new();
    for (at, byte) in bytes.iter().enumerate() {
        gathered.push(*byte);
        // (01) "Any byte that breaks these forms is damage, found at that byte: the rest is dropped up to the next idle
        // mark."
        if breaks_the_forms(&gathered, gathered.len() - 1) {
            found.ending = Ending::Damaged;
            return Ok(found);
        }
        if is_whole(&gathered) {
            if gathered == [0xE5] {
                found.acknowledgements += 1;
            } else {
                found.frames += 1;
            }
            // "where each starts (first byte 0), in order"; "Places not needed stay unaltered."
            run[needed] = (at + 1 - gathered.len()) as u16;
            needed += 1;
            // (01) "After every [...] whole frame or acknowledgement the receiver is at a frame start"
            gathered.clear();
        }
    }
    // (01) "An idle mark in mid-frame drops what was gathered."
    if !gathered.is_empty() {
        found.ending = Ending::Unfinished;
    }
    Ok(found)
}
