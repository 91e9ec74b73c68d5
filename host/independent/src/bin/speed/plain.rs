//! The three questions in plain Rust, straight from the rules: the twin of `host/speed/plain.c`.

use crate::implementations::Answers;

/// The byte that ends a line.
const LINE_END: u8 = 0x0a;

/// The kinds that have more fields than a caller and a callee.
const SETUP_REQUEST: u32 = 1;
const ACCEPT: u32 = 3;
const REJECT: u32 = 4;
const ANNOUNCEMENT: u32 = 8;
const GROUP_ACCEPT: u32 = 9;

/// The implementation in plain Rust.
pub struct PlainRust;

impl Answers for PlainRust {
    const NAME: &'static str = "plain Rust";

    #[inline(never)]
    fn check(line: &[u8]) -> u32 {
        read(line).err().unwrap_or(0)
    }

    #[inline(never)]
    fn choose(first: &[u8], second: &[u8]) -> u32 {
        match (read(first), read(second)) {
            (Ok(one), Ok(other)) => choice(&one, &other),
            _ => 0,
        }
    }

    #[inline(never)]
    fn answer(log: &[u8], out: &mut [u8]) -> usize {
        if fits(log, out.len()) {
            put(log, out)
        } else {
            0
        }
    }
}

/// The fields of all kinds; those that a kind does not have are 0.
#[derive(Default)]
struct Frame {
    kind: u32,
    identifier: u32,
    caller: u32,
    callee: u32,
    commencement: u32,
    call_type: u32,
    media: u32,
    pck_id: u32,
    reason: u32,
    group: u32,
    refresh: u32,
    originator: u32,
    start: u32,
    last_changer: u32,
    confirm: u32,
    sender: u32,
}

/// Reads a line, or gives the first number that applies to it.
fn read(line: &[u8]) -> Result<Frame, u32> {
    let Some((&LINE_END, digits)) = line.split_last() else {
        return Err(1);
    };
    if !digits.iter().all(|&byte| is_digit(byte)) {
        return Err(2);
    }
    let kind = match digits {
        [high, low, ..] => worth(*high) * 16 + worth(*low),
        _ => 0,
    };
    if !(1..=9).contains(&kind) {
        return Err(3);
    }
    if digits.len() != digits_of(kind) {
        return Err(4);
    }
    let frame = cut(kind, digits);
    if good(&frame) {
        Ok(frame)
    } else {
        Err(5)
    }
}

/// Tells whether a byte is one of the digits 0 to 9 and a to f.
fn is_digit(byte: u8) -> bool {
    matches!(byte, b'0'..=b'9' | b'a'..=b'f')
}

/// Gives what a digit is worth.
fn worth(digit: u8) -> u32 {
    if digit <= b'9' {
        u32::from(digit) - u32::from(b'0')
    } else {
        u32::from(digit) - u32::from(b'a') + 10
    }
}

/// Gives the number that digits stand for.
fn number(digits: &[u8]) -> u32 {
    digits.iter().fold(0, |sum, &digit| sum * 16 + worth(digit))
}

/// Gives how many digits a line of a kind has.
fn digits_of(kind: u32) -> usize {
    match kind {
        SETUP_REQUEST => 42,
        ACCEPT => 30,
        REJECT | GROUP_ACCEPT => 24,
        ANNOUNCEMENT => 62,
        _ => 22,
    }
}

/// Reads all fields of a kind from as many digits as it has.
fn cut(kind: u32, digits: &[u8]) -> Frame {
    let mut frame = Frame {
        kind,
        identifier: number(&digits[2..6]),
        ..Frame::default()
    };
    match kind {
        ANNOUNCEMENT => {
            frame.group = number(&digits[6..14]);
            frame.call_type = number(&digits[14..16]);
            frame.refresh = number(&digits[16..20]);
            frame.media = number(&digits[20..28]);
            frame.originator = number(&digits[28..36]);
            frame.start = number(&digits[36..44]);
            frame.last_changer = number(&digits[52..60]);
            frame.confirm = number(&digits[60..62]);
        }
        GROUP_ACCEPT => {
            frame.sender = number(&digits[6..14]);
            frame.call_type = number(&digits[14..16]);
            frame.group = number(&digits[16..24]);
        }
        _ => cut_private(&mut frame, digits),
    }
    frame
}

/// Reads the fields of a private call.
fn cut_private(frame: &mut Frame, digits: &[u8]) {
    frame.caller = number(&digits[6..14]);
    frame.callee = number(&digits[14..22]);
    match frame.kind {
        SETUP_REQUEST => {
            frame.commencement = number(&digits[22..24]);
            frame.call_type = number(&digits[24..26]);
            frame.media = number(&digits[26..34]);
            frame.pck_id = number(&digits[34..42]);
        }
        ACCEPT => frame.media = number(&digits[22..30]),
        REJECT => frame.reason = number(&digits[22..24]),
        _ => {}
    }
}

/// Tells whether every field is in range.
fn good(frame: &Frame) -> bool {
    let own = match frame.kind {
        ANNOUNCEMENT => {
            frame.group != 0
                && (1..=3).contains(&frame.call_type)
                && frame.refresh != 0
                && frame.media != 0
                && frame.originator != 0
                && frame.last_changer != 0
                && frame.confirm <= 1
        }
        GROUP_ACCEPT => frame.sender != 0 && (1..=3).contains(&frame.call_type) && frame.group != 0,
        _ => good_private(frame),
    };
    own && frame.identifier != 0
}

/// Tells whether the fields of a private call are in range.
fn good_private(frame: &Frame) -> bool {
    let own = match frame.kind {
        SETUP_REQUEST => {
            frame.commencement <= 1
                && frame.call_type == 4
                && frame.media != 0
                && (frame.pck_id == 0 || frame.pck_id >> 28 == 1)
        }
        ACCEPT => frame.media != 0,
        REJECT => frame.reason <= 4,
        _ => true,
    };
    own && frame.caller != 0 && frame.callee != 0
}

/// Tells which of two frames is the better call, 0 where they are not two calls of one group.
fn choice(first: &Frame, second: &Frame) -> u32 {
    let announced = first.kind == ANNOUNCEMENT && second.kind == ANNOUNCEMENT;
    if !announced || first.group != second.group || first.identifier == second.identifier {
        return 0;
    }
    let standing = |frame: &Frame| (rank(frame.call_type), frame.start, frame.identifier);
    if standing(first) < standing(second) {
        1
    } else {
        2
    }
}

/// Gives the place of a group type among the three, 0 the best.
fn rank(call_type: u32) -> u32 {
    match call_type {
        2 => 0,
        3 => 1,
        _ => 2,
    }
}

/// Tells whether so many bytes have room for the answer; three times the log's length always has.
fn fits(log: &[u8], room: usize) -> bool {
    if log.len() <= room / 3 {
        return true;
    }
    let lengths = lines(log).map(|line| if read(line).is_ok() { line.len() } else { 3 });
    lengths.sum::<usize>() <= room
}

/// Writes the answer to a log that has room, and gives its length.
fn put(log: &[u8], out: &mut [u8]) -> usize {
    let mut written = 0;
    for line in lines(log) {
        match read(line) {
            Ok(_) => {
                out[written..written + line.len()].copy_from_slice(line);
                written += line.len();
            }
            Err(number) => {
                out[written..written + 3].copy_from_slice(&[b'!', b'0' + number as u8, LINE_END]);
                written += 3;
            }
        }
    }
    written
}

/// Lists the lines of a log, each with its end.
fn lines(log: &[u8]) -> impl Iterator<Item = &[u8]> {
    log.split_inclusive(|&byte| byte == LINE_END)
}
