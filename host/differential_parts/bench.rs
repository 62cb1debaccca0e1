//! One call at a time on both sides, and their comparison. The first difference ends the run.

use crate::counts::Counts;
use crate::lent::{BurstNumbers, Call, Lent, LentBurst, Numbers, ROOM_AT_MOST};
use crate::plain::{burst, call, reading, Burst, Ending, Event, Outcome, Reading, Server};
use crate::random::Random;
use crate::{seen, tables};

/// What a call answers: the bytes sent, or the number that the C function returns.
pub type Answer = Result<Vec<u8>, i32>;

/// What a reading is: the case and what it carries, or the number below 0 that the C function returns.
pub type Read = Result<Reading, i32>;

/// What a burst holds: the counts, the ending and the starts; or the number below 0 that the C function returns.
pub type Found = Result<(Burst, Vec<u16>), i32>;

pub const NO_EVENT: i32 = -100;

const NOTHING: Call = Call { event: 0, byte: 0, id: 0, outcome: 0, value: Vec::new(), room: 262 };

pub struct Bench {
    /// The plain server. Whoever alters it calls `lend` before the next call.
    pub server: Server,
    pub counts: Counts,
    pub random: Random,
    pub calls: u64,
    /// How many of the calls were readings, and how many bursts.
    pub readings: u64,
    pub bursts: u64,
    /// How many requests were cut, and how many pairs of them came in both orders.
    pub cuts: u64,
    pub pairs: u64,
    lent: Lent,
    lent_burst: LentBurst,
    seed: u64,
    episode: u64,
    calls_before: u64,
    upto: Option<u64>,
}

impl Bench {
    pub fn new(seed: u64, upto: Option<u64>) -> Bench {
        let server = Server {
            datapoints: Vec::new(),
            items: Vec::new(),
            parameters: Vec::new(),
            site_texts: Vec::new(),
            default_texts: Vec::new(),
            link: crate::frames::fresh(),
        };
        Bench {
            server,
            counts: Counts::new(),
            random: Random::new(0),
            calls: 0,
            readings: 0,
            bursts: 0,
            cuts: 0,
            pairs: 0,
            lent: Lent::new(),
            lent_burst: LentBurst::new(),
            seed,
            episode: 0,
            calls_before: 0,
            upto,
        }
    }

    /// Each episode draws from numbers of its own, so that a run can begin with any of them.
    pub fn begin(&mut self, episode: u64) {
        self.episode = episode;
        self.calls_before = self.calls;
        let start = Random::new(self.seed ^ episode.wrapping_mul(0xD6E8_FEB8_6659_FD93)).next();
        self.random = Random::new(start);
    }

    /// Lends the plain server's tables and link record as they are now, in fresh memory.
    pub fn lend_anew(&mut self) {
        let seed = self.random.next();
        self.lent.lay_out(&self.server, seed);
    }

    /// Lends them, mostly where they stood.
    pub fn lend(&mut self) {
        if self.lent.fits(&self.server) && !self.random.one_in(8) {
            self.lent.put(&self.server);
        } else {
            self.lend_anew();
        }
    }

    pub fn lend_link(&mut self) {
        self.lent.put_link(&self.server.link);
    }

    /// The record of tagobrelin_fresh_link, made where another stood.
    pub fn fresh_link(&mut self) {
        self.lent.fresh_link();
        self.server.link = crate::frames::fresh();
        if !self.lent.is(&self.server, Some(&[])) {
            let differences = self.lent.differences();
            self.fail("tagobrelin_fresh_link", &differences);
        }
        self.counts.hit("fresh link", "made where another record stood");
    }

    // The events, on tables and a link record that are in order: they are accepted.

    pub fn byte(&mut self, byte: u8) -> Vec<u8> {
        self.accepted(Call { event: 1, byte, ..NOTHING })
    }

    pub fn idle_mark(&mut self) {
        self.accepted(Call { event: 2, ..NOTHING });
    }

    pub fn ack_wait_over(&mut self) {
        self.accepted(Call { event: 3, ..NOTHING });
    }

    pub fn poll(&mut self) {
        self.accepted(Call { event: 4, ..NOTHING });
    }

    pub fn bus_value(&mut self, id: u16, value: Vec<u8>) {
        self.accepted(Call { event: 5, id, value, ..NOTHING });
    }

    pub fn outcome(&mut self, id: u16, outcome: u8) {
        self.accepted(Call { event: 6, id, outcome, ..NOTHING });
    }

    fn accepted(&mut self, call: Call) -> Vec<u8> {
        let call = self.filled(call);
        match self.call(&call) {
            Ok(sent) => sent,
            refused => self.missed("accepted", &refused),
        }
    }

    /// The same event; what it does not have is anything, and so is the room above 262.
    pub fn filled(&mut self, mut call: Call) -> Call {
        let noise = self.random.next();
        if call.event != 1 {
            call.byte = noise as u8;
        }
        if call.event != 5 && call.event != 6 {
            call.id = (noise >> 8) as u16;
        }
        if call.event != 6 {
            call.outcome = (noise >> 24) as u8;
        }
        if call.event != 5 {
            let count = match noise >> 32 & 7 {
                0..=3 => 0,
                4..=6 => (noise >> 40) as usize % 20,
                _ => (noise >> 40) as usize % 300,
            };
            call.value = self.random.bytes(count);
        }
        if call.room >= 262 {
            call.room = if noise >> 60 < 12 { 262 } else { self.random.between(262, ROOM_AT_MOST) };
        }
        call
    }

    /// Calls both and compares; and behind the call, now and then, a reading.
    pub fn call(&mut self, given: &Call) -> Answer {
        let answer = self.call_both(given);
        if self.random.one_in(40) {
            let id = self.some_id();
            let _ = self.read(id);
        }
        answer
    }

    /// An ID for a reading: mostly of a datapoint.
    pub fn some_id(&mut self) -> u16 {
        let (random, datapoints) = (&mut self.random, &self.server.datapoints);
        match random.below(12) {
            0 => 0,
            1 | 2 => tables::absent_datapoint(random, datapoints).unwrap_or(0),
            3 => random.number(),
            4 => datapoints.first().map_or(1, |datapoint| datapoint.id),
            5 => datapoints.last().map_or(65535, |datapoint| datapoint.id),
            _ if datapoints.is_empty() => random.number(),
            _ => datapoints[random.below(datapoints.len())].id,
        }
    }

    /// Reads by both and compares: the same numbers, and no byte of what is lent is changed, padding too.
    pub fn read(&mut self, id: u16) -> Read {
        self.calls += 1;
        self.readings += 1;
        let told = format!("reading of {id}");
        if self.upto == Some(self.calls) {
            println!("call {}: {told}", self.calls);
        }
        let archive = self.lent.read(id);
        let read = reading(&self.server.datapoints, id).map_err(|number| -i32::from(number));
        let plain = numbers_of(&read);
        if !self.lent.is_as_before() || archive != plain {
            let mut differences = vec![format!("returned: archive {archive:X?}, plain {plain:X?}")];
            differences.extend(self.lent.differences());
            self.fail(&told, &differences);
        }
        seen::read(&mut self.counts, &self.server, id, &read);
        if self.upto == Some(self.calls) {
            self.tell_state();
            println!("answer of both: {read:X?}");
            std::process::exit(0);
        }
        read
    }

    /// Reads a burst by both, into a run of so many places, and compares: the same numbers, the same places, and no
    /// other byte is changed.
    pub fn burst(&mut self, bytes: &[u8], place_count: usize) -> Found {
        self.calls += 1;
        self.bursts += 1;
        let told = || format!("burst of {} bytes into {place_count} places: {bytes:02X?}", bytes.len());
        if self.upto == Some(self.calls) {
            println!("call {}: {}", self.calls, told());
        }
        self.lent_burst.lay_out(bytes, place_count, self.random.next());
        let archive = self.lent_burst.read();
        let mut run = self.lent_burst.run_before();
        let read = burst(bytes, &mut run).map_err(|number| -i32::from(number));
        let plain = burst_numbers_of(&read);
        if !self.lent_burst.is(&run) || archive != plain {
            let mut differences = vec![format!("returned: archive {archive:?}, plain {plain:?}")];
            differences.extend(self.lent_burst.differences());
            self.fail(&told(), &differences);
        }
        run.truncate(usize::from(plain.frames) + usize::from(plain.acknowledgements));
        let found = read.map(|read| (read, run));
        seen::burst(&mut self.counts, bytes, place_count, &found);
        if self.upto == Some(self.calls) {
            println!("answer of both: {found:?}");
            std::process::exit(0);
        }
        found
    }

    fn call_both(&mut self, given: &Call) -> Answer {
        self.calls += 1;
        if self.upto == Some(self.calls) {
            println!("call {}: {}", self.calls, told(given));
        }
        let link = self.server.link.clone();
        let marks = if given.event == 4 { seen::marked_sizes(&self.server) } else { Vec::new() };
        let archive = self.lent.call(given);
        let answer = match event_of(given) {
            Some(event) => {
                call(&mut self.server, &event, &given.value, given.room).map_err(|number| -i32::from(number))
            }
            None => Err(NO_EVENT),
        };
        let (number, sent) = match &answer {
            Ok(sent) => (sent.len() as i32, Some(&sent[..])),
            Err(number) => (*number, None),
        };
        if !self.lent.is(&self.server, sent) || archive != number {
            let mut differences = vec![format!("returned: archive {archive}, plain {number}")];
            differences.extend(self.lent.differences());
            self.fail(&told(given), &differences);
        }
        seen::seen(&mut self.counts, &link, &marks, given, &answer, &self.server);
        if self.upto == Some(self.calls) {
            self.tell_state();
            println!("answer of both: {}", told_answer(&answer));
            std::process::exit(0);
        }
        answer
    }

    /// What was aimed at did not come about, on both sides alike.
    pub fn missed(&self, aim: &str, answer: &Answer) -> ! {
        self.fail(&format!("aimed at: {aim}"), &[format!("answer of both: {}", told_answer(answer))]);
    }

    pub fn misread(&self, aim: &str, read: &Read) -> ! {
        self.fail(&format!("aimed at: {aim}"), &[format!("reading of both: {read:X?}")]);
    }

    pub fn misfound(&self, aim: &str, found: &Found) -> ! {
        self.fail(&format!("aimed at: {aim}"), &[format!("found by both: {found:?}")]);
    }

    /// What requests leave is not what was aimed at; told are the requests, their answers and the records.
    pub fn misleft(&self, aim: &str, told: &[String]) -> ! {
        self.fail(&format!("aimed at: {aim}"), told);
    }

    fn fail(&self, what: &str, differences: &[String]) -> ! {
        println!(
            "seed {}, call {}, which is call {} of episode {}: {what}",
            self.seed,
            self.calls,
            self.calls - self.calls_before,
            self.episode
        );
        for difference in differences.iter().take(60) {
            println!("  {difference}");
        }
        if differences.len() > 60 {
            println!("  and {} more", differences.len() - 60);
        }
        self.tell_state();
        println!("archive's output: {:02X?}", self.lent.out(262));
        println!(
            "again: differential {} --episode {} --upto {}",
            self.seed,
            self.episode,
            self.calls - self.calls_before
        );
        println!("differential: FAILED");
        std::process::exit(1);
    }

    fn tell_state(&self) {
        println!("before the call:");
        for line in self.lent.state_before() {
            println!("  {line}");
        }
    }
}

/// The event that the numbers stand for, if they do.
fn event_of(call: &Call) -> Option<Event> {
    match (call.event, call.outcome) {
        (1, _) => Some(Event::HostByte(call.byte)),
        (2, _) => Some(Event::IdleMark),
        (3, _) => Some(Event::AckWaitOver),
        (4, _) => Some(Event::Poll),
        (5, _) => Some(Event::BusValue(call.id)),
        (6, 0) => Some(Event::TransmissionOutcome(call.id, Outcome::Sent)),
        (6, 1) => Some(Event::TransmissionOutcome(call.id, Outcome::Failed)),
        (6, 2) => Some(Event::TransmissionOutcome(call.id, Outcome::InProgress)),
        _ => None,
    }
}

/// The members that the C function returns for this.
fn numbers_of(read: &Read) -> Numbers {
    let (number, whole, bits) = match read {
        Err(number) => (*number, 0, 0),
        Ok(Reading::Switch(on)) => (1, u32::from(*on), 0),
        Ok(Reading::Count(count)) => (2, u32::from(*count), 0),
        Ok(Reading::TwoOctet(bits)) => (3, 0, *bits),
        Ok(Reading::Single(bits)) => (4, 0, *bits),
        Ok(Reading::Unreadable) => (5, 0, 0),
    };
    Numbers { number, whole, bits }
}

fn burst_numbers_of(read: &Result<Burst, i32>) -> BurstNumbers {
    match read {
        Err(number) => BurstNumbers { number: *number, frames: 0, acknowledgements: 0 },
        Ok(Burst { frames, acknowledgements, ending }) => {
            let number = match ending {
                Ending::Clean => 1,
                Ending::Damaged => 2,
                Ending::Unfinished => 3,
            };
            BurstNumbers { number, frames: *frames, acknowledgements: *acknowledgements }
        }
    }
}

fn told(call: &Call) -> String {
    let Call { event, byte, id, outcome, value, room } = call;
    format!("event {event} byte {byte:02X} id {id} outcome {outcome} value {value:02X?} room {room}")
}

fn told_answer(answer: &Answer) -> String {
    match answer {
        Ok(sent) => format!("{} bytes: {sent:02X?}", sent.len()),
        Err(number) => format!("{number}"),
    }
}
