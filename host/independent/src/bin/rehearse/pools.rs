//! Values for the scripts, from small pools, so that equal ones and ties come up.

use independent::random::Random;

/// Draws an identifier that a call can have.
pub fn identifier(random: &mut Random) -> u32 {
    if random.chance(12) {
        return 1 + random.below(65_535) as u32;
    }
    *random.pick(&[1, 2, 3, 16, 17, 65_535])
}

/// Draws a user that there can be, among them those of the cabs.
pub fn user(random: &mut Random) -> u32 {
    *random.pick(&[1, 1, 2, 2, 3, 0x0100_0000, u32::MAX])
}

/// Draws a user other than this one.
pub fn user_beside(random: &mut Random, own: u32) -> u32 {
    let drawn = user(random);
    if drawn == own {
        return if own == 7 { 9 } else { 7 };
    }
    drawn
}

/// Draws a group that there can be.
pub fn group(random: &mut Random) -> u32 {
    *random.pick(&[1, 1, 2, u32::MAX])
}

/// Draws media that there can be.
pub fn media(random: &mut Random) -> u32 {
    *random.pick(&[1, 5, 6, 0x89ab_cdef, u32::MAX])
}

/// Draws a PCK-ID, one time like the other that of a call without security.
pub fn pck_id(random: &mut Random) -> u32 {
    if random.chance(2) {
        return 0;
    }
    *random.pick(&[0x1000_0000, 0x1000_0001, 0x1abc_def0, 0x1fff_ffff])
}

/// Draws a time, often close to others.
pub fn time(random: &mut Random) -> u32 {
    if random.chance(12) {
        return random.next() as u32;
    }
    *random.pick(&[0, 1, 999, 1000, 1000, 1001, 1002, u32::MAX - 1, u32::MAX])
}

/// Draws a time that is this one or close to it, as often as another.
pub fn time_near(random: &mut Random, time: u32) -> u32 {
    match random.below(6) {
        0 => time,
        1 => time.saturating_sub(1),
        2 => time.saturating_add(1),
        _ => self::time(random),
    }
}

/// Draws a type of group call.
pub fn call_type(random: &mut Random) -> u32 {
    1 + random.below(3) as u32
}

/// Draws a refresh that there can be.
pub fn refresh(random: &mut Random) -> u32 {
    *random.pick(&[1, 30, 256, 65_535])
}

/// Draws a field that is 0 or 1.
pub fn zero_or_one(random: &mut Random) -> u32 {
    random.below(2) as u32
}

/// Draws a value that a field of this name cannot have, but a script can.
pub fn outside(random: &mut Random, name: &str) -> u32 {
    match name {
        "commencement" | "confirm" => *random.pick(&[2, 3, 128, 255]),
        "type" => *random.pick(&[0, 4, 5, 255]),
        "pck-id" => outside_pck_id(random),
        _ => 0,
    }
}

/// Draws a PCK-ID that there cannot be, as often as not of the purpose that it had before.
pub fn outside_pck_id(random: &mut Random) -> u32 {
    if random.chance(2) {
        return *random.pick(&[0x3000_0000, 0x3000_0001, 0x3fff_ffff]);
    }
    *random.pick(&[1, 0x0fff_ffff, 0x2000_0000, 0x7000_0000, u32::MAX])
}

/// Draws the length of a buffer, mostly that of some line or close to it.
pub fn length(random: &mut Random) -> u32 {
    let line = *random.pick(&[23, 25, 31, 43, 63]);
    match random.below(8) {
        0..=3 => line - 1,
        4 => line,
        5 => line + 1,
        6 => *random.pick(&[0, 1, 128]),
        _ => random.below(129) as u32,
    }
}
