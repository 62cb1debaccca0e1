//! Frames, and random link records that are in range.

use crate::plain::Link;
use crate::random::Random;

/// 68 L L 68, control, data, checksum, 16.
pub fn data(control: u8, message: &[u8]) -> Vec<u8> {
    let length = (message.len() + 1) as u8;
    let mut sum = control;
    for byte in message {
        sum = sum.wrapping_add(*byte);
    }
    let mut frame = vec![0x68, length, length, 0x68, control];
    frame.extend_from_slice(message);
    frame.extend_from_slice(&[sum, 0x16]);
    frame
}

/// 10 C C 16.
pub fn fixed(c: u8) -> Vec<u8> {
    vec![0x10, c, c, 0x16]
}

pub const RESET: u8 = 0x40;

pub fn host_control(expected: u8) -> u8 {
    if expected == 1 {
        0x73
    } else {
        0x53
    }
}

pub fn server_control(send: u8) -> u8 {
    if send == 1 {
        0xF3
    } else {
        0xD3
    }
}

/// A control byte that is neither of the host's.
pub fn other_control(random: &mut Random) -> u8 {
    match random.below(3) {
        0 => random.pick(&[0xF3, 0xD3, 0x72, 0x63, 0x33, 0x13, 0x40, 0xE5, 0x68, 0x10, 0x16, 0x00, 0xFF]),
        _ => loop {
            let control = random.byte();
            if control != 0x73 && control != 0x53 {
                return control;
            }
        },
    }
}

/// How long the message of a made-up frame is: 0 to 254, with the ends and those whose L is a byte of the forms.
pub fn some_length(random: &mut Random) -> usize {
    match random.below(8) {
        0 => random.pick(&[0, 1, 5, 6, 7, 0x0F, 0x15, 0x67, 0xE4, 0xFD, 0xFE]),
        1 | 2 => random.between(0, 254),
        _ => random.between(0, 20),
    }
}

/// Any sound data frame.
pub fn any_data(random: &mut Random) -> Vec<u8> {
    let control = if random.coin() { random.pick(&[0x73, 0x53]) } else { other_control(random) };
    let length = some_length(random);
    let message = some_bytes(random, length);
    data(control, &message)
}

/// Bytes in which those of the forms are frequent.
pub fn some_bytes(random: &mut Random, count: usize) -> Vec<u8> {
    let forms = random.one_in(3);
    (0..count)
        .map(|_| {
            if forms && random.coin() {
                random.pick(&[0xE5, 0x10, 0x68, 0x16, 0x40, 0x73, 0x53, 0x00])
            } else {
                random.byte()
            }
        })
        .collect()
}

/// The record that a reset leaves.
pub fn fresh() -> Link {
    Link {
        receiver: [0; 260],
        received: 0,
        dropping: 0,
        expected: 1,
        send: 1,
        outstanding: [0; 261],
        held: 0,
        resends: 0,
    }
}

pub fn set_receiver(link: &mut Link, bytes: &[u8]) {
    link.receiver = [0; 260];
    link.receiver[..bytes.len()].copy_from_slice(bytes);
    link.received = bytes.len() as u16;
}

pub fn set_outstanding(link: &mut Link, bytes: &[u8]) {
    link.outstanding = [0; 261];
    link.outstanding[..bytes.len()].copy_from_slice(bytes);
    link.held = bytes.len() as u16;
}

/// A beginning, not the whole, of a sound frame.
pub fn beginning(random: &mut Random) -> Vec<u8> {
    let mut frame = if random.one_in(5) { fixed(random.byte()) } else { any_data(random) };
    let keep = if random.one_in(3) { frame.len() - 1 } else { random.below(frame.len()) };
    frame.truncate(keep);
    frame
}

/// A server data frame under this bit.
pub fn server_frame(random: &mut Random, send: u8) -> Vec<u8> {
    let length = some_length(random);
    let message = some_bytes(random, length);
    data(server_control(send), &message)
}

/// Any record that is in range, also those that no run of events leaves.
pub fn link(random: &mut Random) -> Link {
    let mut link = fresh();
    link.expected = random.bit();
    link.send = random.bit();
    if random.one_in(6) {
        link.dropping = 1;
    } else if random.coin() {
        set_receiver(&mut link, &beginning(random));
    }
    if random.coin() {
        let frame = server_frame(random, link.send);
        set_outstanding(&mut link, &frame);
        link.resends = random.below(4) as u8;
    }
    link
}
