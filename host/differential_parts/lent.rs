//! The memory that the C function is lent, in one run of bytes: between any two of its parts, and behind the last,
//! bytes that no call may touch. Records are written by the offsets of tagobrelin.h, so that padding is seen too.

use crate::plain::{Datapoint, Item, Link, Server};
use crate::random::Random;

extern "C" {
    fn tagobrelin_call(
        event: u8,
        byte: u8,
        id: u16,
        outcome: u8,
        value: *const u8,
        value_count: usize,
        datapoints: *mut u8,
        datapoint_count: usize,
        items: *mut u8,
        item_count: usize,
        parameters: *mut u8,
        parameter_count: usize,
        site_texts: *const u8,
        site_texts_size: usize,
        default_texts: *const u8,
        default_texts_size: usize,
        link: *mut u8,
        out: *mut u8,
        room: usize,
    ) -> i32;
    fn tagobrelin_fresh_link(link: *mut u8);
    fn tagobrelin_read(id: u16, datapoints: *const u8, datapoint_count: usize) -> Returned;
    fn tagobrelin_read_burst(burst: *const u8, byte_count: usize, starts: *mut u8, place_count: usize) -> BurstNumbers;
}

/// struct tagobrelin_reading.
#[repr(C)]
struct Returned {
    number: i32,
    whole: u32,
    value: f32,
}

/// Its members, with the bits of the floating one.
#[derive(PartialEq, Debug)]
pub struct Numbers {
    pub number: i32,
    pub whole: u32,
    pub bits: u32,
}

/// struct tagobrelin_burst.
#[repr(C)]
#[derive(PartialEq, Debug)]
pub struct BurstNumbers {
    pub number: i32,
    pub frames: u16,
    pub acknowledgements: u16,
}

const DATAPOINT: usize = 22;
const ITEM: usize = 20;
const LINK: usize = 530;
const LINK_PADDING: usize = 529;

/// The most that is lent as output, and as a value.
pub const ROOM_AT_MOST: usize = 600;
pub const VALUE_AT_MOST: usize = 300;

/// One call. What the event does not have may be anything.
#[derive(Clone, Debug)]
pub struct Call {
    pub event: u8,
    pub byte: u8,
    pub id: u16,
    pub outcome: u8,
    pub value: Vec<u8>,
    pub room: usize,
}

pub struct Lent {
    memory: Vec<u8>,
    before: Vec<u8>,
    wanted: Vec<u8>,
    noise: Random,
    link: usize,
    out: usize,
    value: usize,
    parameters: usize,
    parameter_count: usize,
    site_texts: usize,
    site_texts_size: usize,
    default_texts: usize,
    default_texts_size: usize,
    items: usize,
    item_count: usize,
    datapoints: usize,
    datapoint_count: usize,
    end: usize,
}

impl Lent {
    pub fn new() -> Lent {
        let memory = vec![0; 1 << 18];
        let (before, wanted) = (memory.clone(), memory.clone());
        Lent {
            memory,
            before,
            wanted,
            noise: Random::new(0),
            link: 0,
            out: 0,
            value: 0,
            parameters: 0,
            parameter_count: 0,
            site_texts: 0,
            site_texts_size: 0,
            default_texts: 0,
            default_texts_size: 0,
            items: 0,
            item_count: 0,
            datapoints: 0,
            datapoint_count: 0,
            end: 0,
        }
    }

    /// Lays the parts out anew, at other addresses and in other bytes. Two lists of texts that are the same may lie at
    /// one place, since they are only read.
    pub fn lay_out(&mut self, server: &Server, seed: u64) {
        self.noise = Random::new(seed);
        let at_one_place = server.site_texts == server.default_texts && self.noise.coin();
        let base = self.memory.as_ptr() as usize;
        let mut end = 0;
        let noise = &mut self.noise;
        let mut part = |size: usize, even: bool| {
            let mut start = end + noise.between(16, 31);
            if even && (base + start) % 2 == 1 {
                start += 1;
            }
            end = start + size;
            start
        };
        self.link = part(LINK, true);
        self.out = part(ROOM_AT_MOST, false);
        self.value = part(VALUE_AT_MOST, false);
        self.parameter_count = server.parameters.len();
        self.parameters = part(self.parameter_count, false);
        self.site_texts_size = server.site_texts.len();
        self.site_texts = part(self.site_texts_size, false);
        self.default_texts_size = server.default_texts.len();
        self.default_texts = if at_one_place { self.site_texts } else { part(self.default_texts_size, false) };
        self.item_count = server.items.len();
        self.items = part(self.item_count * ITEM, true);
        self.datapoint_count = server.datapoints.len();
        self.datapoints = part(self.datapoint_count * DATAPOINT, true);
        self.end = part(0, false);
        self.noise.fill(&mut self.memory[..self.end]);
        self.put(server);
    }

    /// Whether the tables have the sizes that are laid out.
    pub fn fits(&self, server: &Server) -> bool {
        self.datapoint_count == server.datapoints.len()
            && self.item_count == server.items.len()
            && self.parameter_count == server.parameters.len()
            && self.site_texts_size == server.site_texts.len()
            && self.default_texts_size == server.default_texts.len()
            && (self.site_texts != self.default_texts || server.site_texts == server.default_texts)
    }

    fn places(&self) -> Places {
        Places {
            datapoints: self.datapoints,
            items: self.items,
            parameters: self.parameters,
            site_texts: self.site_texts,
            default_texts: self.default_texts,
            link: self.link,
        }
    }

    /// Writes tables, lists of texts and link record.
    pub fn put(&mut self, server: &Server) {
        let places = self.places();
        put(&mut self.memory, places, server);
    }

    pub fn put_link(&mut self, link: &Link) {
        put_link(&mut self.memory[self.link..self.link + LINK], link);
    }

    /// Calls the C function with fresh bytes in the output.
    pub fn call(&mut self, call: &Call) -> i32 {
        self.noise.fill(&mut self.memory[self.out..self.out + ROOM_AT_MOST]);
        self.noise.fill(&mut self.memory[self.value..self.value + VALUE_AT_MOST.min(call.value.len() + 8)]);
        self.memory[self.value..self.value + call.value.len()].copy_from_slice(&call.value);
        self.before[..self.end].copy_from_slice(&self.memory[..self.end]);
        let memory = self.memory.as_mut_ptr();
        // Each part lies within the memory, apart from the others but for the lists; records stand at even addresses.
        unsafe {
            tagobrelin_call(
                call.event,
                call.byte,
                call.id,
                call.outcome,
                memory.add(self.value),
                call.value.len(),
                memory.add(self.datapoints),
                self.datapoint_count,
                memory.add(self.items),
                self.item_count,
                memory.add(self.parameters),
                self.parameter_count,
                memory.add(self.site_texts),
                self.site_texts_size,
                memory.add(self.default_texts),
                self.default_texts_size,
                memory.add(self.link),
                memory.add(self.out),
                call.room,
            )
        }
    }

    /// The reading of this ID.
    pub fn read(&mut self, id: u16) -> Numbers {
        self.before[..self.end].copy_from_slice(&self.memory[..self.end]);
        let datapoints = unsafe { self.memory.as_ptr().add(self.datapoints) };
        let Returned { number, whole, value } = unsafe { tagobrelin_read(id, datapoints, self.datapoint_count) };
        Numbers { number, whole, bits: value.to_bits() }
    }

    /// Whether every byte is as before.
    pub fn is_as_before(&mut self) -> bool {
        self.wanted[..self.end].copy_from_slice(&self.before[..self.end]);
        self.memory[..self.end] == self.wanted[..self.end]
    }

    /// A fresh link record is written whole: its padding may be anything afterwards.
    pub fn fresh_link(&mut self) {
        self.before[..self.end].copy_from_slice(&self.memory[..self.end]);
        unsafe { tagobrelin_fresh_link(self.memory.as_mut_ptr().add(self.link)) }
        self.before[self.link + LINK_PADDING] = self.memory[self.link + LINK_PADDING];
    }

    /// Whether the memory is what the plain server leaves: `sent` at the start of the output where the call was
    /// accepted, its tables, lists and link record, and every other byte as before, padding too.
    pub fn is(&mut self, after: &Server, sent: Option<&[u8]>) -> bool {
        self.wanted[..self.end].copy_from_slice(&self.before[..self.end]);
        let places = self.places();
        put(&mut self.wanted, places, after);
        if let Some(sent) = sent {
            self.wanted[self.out..self.out + sent.len()].copy_from_slice(sent);
        }
        self.memory[..self.end] == self.wanted[..self.end]
    }

    /// Each byte that is not what the plain server leaves, by name.
    pub fn differences(&self) -> Vec<String> {
        (0..self.end)
            .filter(|at| self.memory[*at] != self.wanted[*at])
            .map(|at| {
                let (name, before, archive, plain) =
                    (self.name_of(at), self.before[at], self.memory[at], self.wanted[at]);
                format!("{name}: before {before:02X}, archive {archive:02X}, plain {plain:02X}")
            })
            .collect()
    }

    fn name_of(&self, at: usize) -> String {
        let within = |start: usize, size: usize| (start..start + size).contains(&at);
        if within(self.link, LINK) {
            let byte = at - self.link;
            return match byte {
                0..=259 => format!("link.receiver[{byte}]"),
                260 | 261 => format!("link.received (byte {})", byte - 260),
                262 => "link.dropping".to_string(),
                263 => "link.expected".to_string(),
                264 => "link.send".to_string(),
                265..=525 => format!("link.outstanding[{}]", byte - 265),
                526 | 527 => format!("link.held (byte {})", byte - 526),
                528 => "link.resends".to_string(),
                _ => "link, padding".to_string(),
            };
        }
        if within(self.out, ROOM_AT_MOST) {
            return format!("out[{}]", at - self.out);
        }
        if within(self.value, VALUE_AT_MOST) {
            return format!("value[{}]", at - self.value);
        }
        if within(self.parameters, self.parameter_count) {
            return format!("parameters[{}]", at - self.parameters);
        }
        if within(self.site_texts, self.site_texts_size) {
            return format!("site_texts[{}]", at - self.site_texts);
        }
        if within(self.default_texts, self.default_texts_size) {
            return format!("default_texts[{}]", at - self.default_texts);
        }
        if within(self.items, self.item_count * ITEM) {
            let (record, byte) = ((at - self.items) / ITEM, (at - self.items) % ITEM);
            let field = ["id", "id", "size", "writable"]
                .get(byte)
                .map_or(format!("bytes[{}]", byte.wrapping_sub(4)), |name| name.to_string());
            return format!("items[{record}].{field}");
        }
        if within(self.datapoints, self.datapoint_count * DATAPOINT) {
            let (record, byte) = ((at - self.datapoints) / DATAPOINT, (at - self.datapoints) % DATAPOINT);
            let field = match byte {
                0 | 1 => "id".to_string(),
                2 => "typecode".to_string(),
                3 => "flags".to_string(),
                4 => "dpt".to_string(),
                5 => "state".to_string(),
                20 => "mark".to_string(),
                21 => "padding".to_string(),
                _ => format!("value[{}]", byte - 6),
            };
            return format!("datapoints[{record}].{field}");
        }
        format!("a byte that was not lent, at {at}")
    }

    /// Tables, lists and link record before the call, as far as they are short enough to be read.
    pub fn state_before(&self) -> Vec<String> {
        let hex = |bytes: &[u8]| bytes.iter().map(|byte| format!("{byte:02X}")).collect::<Vec<_>>().join(" ");
        let link = &self.before[self.link..self.link + LINK];
        let number = |at: usize| u16::from_ne_bytes([link[at], link[at + 1]]);
        let mut lines = vec![
            format!(
                "link: received {} dropping {} expected {} send {} held {} resends {}",
                number(260),
                link[262],
                link[263],
                link[264],
                number(526),
                link[528]
            ),
            format!("receiver: {}", hex(shortened(&link[..260]))),
            format!("outstanding: {}", hex(shortened(&link[265..526]))),
            format!(
                "parameters, {}: {}",
                self.parameter_count,
                hex(&self.before[self.parameters..self.parameters + self.parameter_count])
            ),
        ];
        for (name, start, size) in [
            ("site_texts", self.site_texts, self.site_texts_size),
            ("default_texts", self.default_texts, self.default_texts_size),
        ] {
            let shown = hex(&self.before[start..start + size.min(400)]);
            lines.push(format!("{name}, {size} bytes, the first 400: {shown}"));
        }
        for (name, start, count, size) in [
            ("items", self.items, self.item_count, ITEM),
            ("datapoints", self.datapoints, self.datapoint_count, DATAPOINT),
        ] {
            lines.push(format!("{name}, {count}, the first 100 as they lie in memory:"));
            for record in 0..count.min(100) {
                lines.push(format!("  {}", hex(&self.before[start + record * size..start + (record + 1) * size])));
            }
        }
        lines
    }

    pub fn out(&self, count: usize) -> &[u8] {
        &self.memory[self.out..self.out + count.min(ROOM_AT_MOST)]
    }
}

/// What a reader of bursts is lent: the burst and the run of places, one behind the other in one run of bytes; around
/// both, bytes that no call may touch.
pub struct LentBurst {
    memory: Vec<u8>,
    before: Vec<u8>,
    burst: usize,
    burst_size: usize,
    run: usize,
    place_count: usize,
}

impl LentBurst {
    pub fn new() -> LentBurst {
        LentBurst { memory: Vec::new(), before: Vec::new(), burst: 0, burst_size: 0, run: 0, place_count: 0 }
    }

    /// Lays the two out anew, at other addresses and in other bytes; the places hold any numbers.
    pub fn lay_out(&mut self, bytes: &[u8], place_count: usize, seed: u64) {
        let mut noise = Random::new(seed);
        self.burst_size = bytes.len();
        self.place_count = place_count;
        let size = 2 * place_count;
        self.memory.resize(bytes.len() + size + 3 * 32, 0);
        let gaps = (noise.between(16, 31), noise.between(16, 31));
        (self.burst, self.run) =
            if noise.coin() { (gaps.0, gaps.0 + bytes.len() + gaps.1) } else { (gaps.0 + 1 + size + gaps.1, gaps.0) };
        // places stand at even addresses
        self.run += (self.memory.as_ptr() as usize + self.run) % 2;
        noise.fill(&mut self.memory);
        self.memory[self.burst..self.burst + bytes.len()].copy_from_slice(bytes);
        self.before.clone_from(&self.memory);
    }

    /// Reads the burst by the C function.
    pub fn read(&mut self) -> BurstNumbers {
        let memory = self.memory.as_mut_ptr();
        unsafe {
            tagobrelin_read_burst(memory.add(self.burst), self.burst_size, memory.add(self.run), self.place_count)
        }
    }

    /// The places before it was read.
    pub fn run_before(&self) -> Vec<u16> {
        let run = &self.before[self.run..self.run + 2 * self.place_count];
        run.chunks_exact(2).map(|place| u16::from_ne_bytes([place[0], place[1]])).collect()
    }

    /// Whether the places are these now, and every other byte is as before.
    pub fn is(&mut self, run: &[u16]) -> bool {
        for (at, place) in run.iter().enumerate() {
            self.before[self.run + 2 * at..][..2].copy_from_slice(&place.to_ne_bytes());
        }
        self.memory == self.before
    }

    /// Each byte that is not so, by name.
    pub fn differences(&self) -> Vec<String> {
        let name_of = |at: usize| match at {
            _ if (self.burst..self.burst + self.burst_size).contains(&at) => format!("burst[{}]", at - self.burst),
            _ if (self.run..self.run + 2 * self.place_count).contains(&at) => {
                format!("starts[{}] (byte {})", (at - self.run) / 2, (at - self.run) % 2)
            }
            _ => format!("a byte that was not lent, at {at}"),
        };
        (0..self.memory.len())
            .filter(|at| self.memory[*at] != self.before[*at])
            .map(|at| format!("{}: archive {:02X}, plain {:02X}", name_of(at), self.memory[at], self.before[at]))
            .collect()
    }
}

/// Without the zeros at the end.
fn shortened(bytes: &[u8]) -> &[u8] {
    let count = bytes.iter().rposition(|byte| *byte != 0).map_or(0, |last| last + 1);
    &bytes[..count]
}

/// Where each part lies.
struct Places {
    datapoints: usize,
    items: usize,
    parameters: usize,
    site_texts: usize,
    default_texts: usize,
    link: usize,
}

fn put(memory: &mut [u8], places: Places, server: &Server) {
    let Places { datapoints, items, parameters, site_texts, default_texts, link } = places;
    let records = &mut memory[datapoints..datapoints + server.datapoints.len() * DATAPOINT];
    for (record, datapoint) in records.chunks_exact_mut(DATAPOINT).zip(&server.datapoints) {
        put_datapoint(record, datapoint);
    }
    let records = &mut memory[items..items + server.items.len() * ITEM];
    for (record, item) in records.chunks_exact_mut(ITEM).zip(&server.items) {
        put_item(record, item);
    }
    for (start, bytes) in
        [(parameters, &server.parameters), (site_texts, &server.site_texts), (default_texts, &server.default_texts)]
    {
        memory[start..start + bytes.len()].copy_from_slice(bytes);
    }
    put_link(&mut memory[link..link + LINK], &server.link);
}

fn put_datapoint(record: &mut [u8], datapoint: &Datapoint) {
    record[0..2].copy_from_slice(&datapoint.id.to_ne_bytes());
    record[2] = datapoint.typecode;
    record[3] = datapoint.flags;
    record[4] = datapoint.dpt;
    record[5] = datapoint.state;
    record[6..20].copy_from_slice(&datapoint.value);
    record[20] = datapoint.mark;
}

fn put_item(record: &mut [u8], item: &Item) {
    record[0..2].copy_from_slice(&item.id.to_ne_bytes());
    record[2] = item.size;
    record[3] = item.writable;
    record[4..20].copy_from_slice(&item.bytes);
}

fn put_link(record: &mut [u8], link: &Link) {
    record[0..260].copy_from_slice(&link.receiver);
    record[260..262].copy_from_slice(&link.received.to_ne_bytes());
    record[262] = link.dropping;
    record[263] = link.expected;
    record[264] = link.send;
    record[265..526].copy_from_slice(&link.outstanding);
    record[526..528].copy_from_slice(&link.held.to_ne_bytes());
    record[528] = link.resends;
}
