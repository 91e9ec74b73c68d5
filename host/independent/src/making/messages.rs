//! Making of messages whose fields often stand at the edges of their ranges.

use crate::kind::{Field, Kind};
use crate::message::{Message, Values, MOST_FIELDS};
use crate::random::Random;

/// Makes a message with every field in range.
pub fn message_in_range(random: &mut Random) -> Message {
    let kind = *random.pick(&Kind::ALL);
    Message::from_values(kind, &values_in_range(random, kind))
}

/// Makes a message in range but for one field, whose wrong value still fits a line.
pub fn message_outside(random: &mut Random) -> Message {
    let kind = *random.pick(&Kind::ALL);
    Message::from_values(kind, &values_outside(random, kind))
}

/// Makes, one time like the other, a message in range or one with one field outside.
pub fn message_perhaps_outside(random: &mut Random) -> Message {
    if random.chance(2) {
        message_outside(random)
    } else {
        message_in_range(random)
    }
}

/// Makes a message perhaps outside and adds, to one value, bits that are too high for its field.
pub fn message_wide(random: &mut Random) -> Message {
    let message = message_perhaps_outside(random);
    let fields = message.kind().fields();
    let narrow: Vec<usize> = (0..fields.len())
        .filter(|&place| fields[place].bytes < 4)
        .collect();
    let place = *random.pick(&narrow);
    let largest = fields[place].largest();
    let mut values = message.values();
    values[place] |= largest + 1;
    if random.chance(2) {
        values[place] |= random.next() as u32 & !largest;
    }
    Message::from_values(message.kind(), &values)
}

/// Makes a message each of whose fields stands at some edge that fits a line, in range or not.
pub fn message_of_edges(random: &mut Random) -> Message {
    let kind = *random.pick(&Kind::ALL);
    let values = each_field(kind, |field| edge(random, field, |value| field.fits(value)));
    Message::from_values(kind, &values)
}

/// Makes values for all fields of a kind, each in range.
pub fn values_in_range(random: &mut Random, kind: Kind) -> Values {
    each_field(kind, |field| {
        if random.chance(2) {
            return edge(random, field, |value| field.allows(value));
        }
        let &(lowest, highest) = random.pick(field.allowed);
        lowest + random.below(u64::from(highest - lowest) + 1) as u32
    })
}

/// Makes values for all fields of a kind that fit a line, just one of them out of range.
pub fn values_outside(random: &mut Random, kind: Kind) -> Values {
    let mut values = values_in_range(random, kind);
    let drawn = random.below(kind.fields().len() as u64) as usize;
    // A time has no wrong value, so the identifier takes its turn.
    let place = if has_outside(&kind.fields()[drawn]) {
        drawn
    } else {
        0
    };
    values[place] = value_outside(random, &kind.fields()[place]);
    values
}

/// Asks for a value for each field of a kind in turn.
fn each_field(kind: Kind, mut value: impl FnMut(&'static Field) -> u32) -> Values {
    let mut values = [0; MOST_FIELDS];
    for (field, place) in kind.fields().iter().zip(&mut values) {
        *place = value(field);
    }
    values
}

/// Tells whether a line can carry a wrong value in a field at all.
fn has_outside(field: &Field) -> bool {
    field.allowed != [(0, field.largest())]
}

/// Draws a wrong value that fits the field, which must have one.
fn value_outside(random: &mut Random, field: &Field) -> u32 {
    let any = random.next() as u32 & field.largest();
    if random.chance(2) && !field.allows(any) {
        return any;
    }
    edge(random, field, |value| {
        field.fits(value) && !field.allows(value)
    })
}

/// Draws one of the field's edges that are wanted, of which there must be one.
fn edge(random: &mut Random, field: &Field, wanted: impl Fn(u32) -> bool) -> u32 {
    let mut edges = edges(field);
    edges.retain(|&value| wanted(value));
    *random.pick(&edges)
}

/// Lists values worth trying: small ones, close ones, one digit alone at each place, and each side of
/// every end of the range; for a PCK-ID also the ends of the range that it had before.
fn edges(field: &Field) -> Vec<u32> {
    let largest = field.largest();
    let mut edges = vec![0, 1, 2, 0xff, 0x100, 1000, 1001, largest - 1, largest];
    edges.extend((0..2 * field.bytes).map(|place| 1_u32 << (4 * place)));
    for &(lowest, highest) in field.allowed {
        edges.extend([lowest, highest]);
        edges.extend(lowest.checked_sub(1));
        edges.extend(highest.checked_add(1));
    }
    if field.name == "pck_id" {
        edges.extend([0x3000_0000, 0x3fff_ffff]);
    }
    edges
}

#[cfg(test)]
mod tests {
    use super::*;
    use crate::line::{line_of, read};

    /// Tells whether all values of a message can be put on a line.
    fn fits(message: &Message) -> bool {
        let mut fields = message.kind().fields().iter().zip(message.values());
        fields.all(|(field, value)| field.fits(value))
    }

    /// Gives a message with each value cut to the width of its field.
    fn cut(message: &Message) -> Message {
        let mut values = message.values();
        for (value, field) in values.iter_mut().zip(message.kind().fields()) {
            *value &= field.largest();
        }
        Message::from_values(message.kind(), &values)
    }

    /// Messages are in range, outside or too wide just as their makers promise.
    #[test]
    fn promises_of_the_makers() {
        let mut random = Random::new(3);
        let mut met = [0; 10];
        let (mut perhaps, mut cut_good, mut of_edges) = (0, 0, 0);
        for _ in 0..5_000 {
            let good = message_in_range(&mut random);
            met[good.kind().code() as usize] += 1;
            assert!(good.in_range() && fits(&good));
            let bad = message_outside(&mut random);
            assert!(!bad.in_range() && fits(&bad));
            assert_eq!(read(&line_of(&bad)), Err(5));
            let edged = message_of_edges(&mut random);
            assert!(fits(&edged));
            of_edges += u32::from(edged.in_range());
            perhaps += u32::from(message_perhaps_outside(&mut random).in_range());
            let wide = message_wide(&mut random);
            assert!(!wide.in_range() && !fits(&wide));
            cut_good += u32::from(cut(&wide).in_range());
        }
        assert!(met[1..].iter().all(|&count| count > 400));
        assert!((2_000..3_000).contains(&perhaps));
        assert!((2_000..3_000).contains(&cut_good));
        assert!((50..2_500).contains(&of_edges), "{of_edges}");
    }

    /// The PCK-ID meets both ends of its range and both neighbours, and both ends of the range that it had.
    #[test]
    fn pck_id_edges_are_met() {
        let mut random = Random::new(4);
        let mut missing = vec![0, 1, 0x0fff_ffff, 0x1000_0000, 0x1fff_ffff, 0x2000_0000];
        missing.extend([0x3000_0000, 0x3fff_ffff]);
        for _ in 0..20_000 {
            let message = message_perhaps_outside(&mut random);
            if let Message::PrivateCallSetupRequest(made) = message {
                missing.retain(|&value| value != made.pck_id);
            }
        }
        assert_eq!(missing, []);
    }

    /// A user meets a digit alone at each of its eight places.
    #[test]
    fn lone_digits_are_met() {
        let mut random = Random::new(5);
        let mut missing: Vec<u32> = (0..8).map(|place| 1 << (4 * place)).collect();
        for _ in 0..20_000 {
            if let Message::Ringing(made) = message_in_range(&mut random) {
                missing.retain(|&value| value != made.caller);
            }
        }
        assert_eq!(missing, []);
    }
}
