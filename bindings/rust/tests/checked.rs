//! Checked reading: 13 and its place, after all that ordinary reading refuses; and that it answers what
//! ordinary reading and a walk of the frame say, on HOPSICKLE_CASES frames (20,000 where it isn't
//! given) generated from HOPSICKLE_SEED (1), most of them written by the library and then altered.

mod arrays;
mod environment;
mod made;
mod tally;
mod walk;

use arrays::Arrays;
use hopsickle::sys::{read_checked, ASDU_NUMBERS, HEAD_NUMBERS, MAX_ASDUS, MAX_CHANNELS};
use made::{damage, framed, written};
use oracle::frame::length_octets;
use oracle::generate::Random;
use oracle::hex::hex;
use tally::{lent_for, Frames, Tally};
use walk::{walk, Length};

/// The number and the arrays that checked reading answers.
fn checked(frame: &[u8], channels: usize, before: &Arrays) -> (usize, Arrays) {
    let mut after = before.clone();
    let Arrays { numbers, octets, counts, qualities, place } = &mut after;
    (read_checked(frame, channels, numbers, octets, counts, qualities, place), after)
}

/// Those that ordinary reading answers, or strict reading, shortest or fixed.
fn read(strict: Option<bool>, frame: &[u8], channels: usize, before: &Arrays) -> (usize, Arrays) {
    let mut after = before.clone();
    (after.read(strict, frame, channels), after)
}

/// A refusal, which leaves the arrays.
fn refusal(number: usize, place: usize, before: &Arrays) -> (usize, Arrays) {
    (number, Arrays { place, ..before.clone() })
}

// ---- frames of few ASDUs

/// A frame with an ASDU for each of these length octets after 87, and samples of so many channels.
fn made(channels: usize, lengths: &[&[u8]]) -> Vec<u8> {
    let asdus: Vec<(u32, &[u8])> = lengths.iter().map(|length| (1, *length)).collect();
    framed(channels, &asdus)
}

/// The length octets after 87 of ASDUs of one channel, and the place of 13 where one of them isn't 8.
const LENGTHS: [(&[&[u8]], Option<usize>); 13] = [
    (&[&[0x08], &[0x08]], None),
    (&[&[0x08], &[0x10]], Some(69)),
    (&[&[0x10], &[0x08]], Some(45)),
    (&[&[0x10], &[0x00]], Some(45)),
    (&[&[0x08], &[0x07], &[0x09]], Some(69)),
    (&[&[0x08], &[0x08], &[0x09]], Some(93)),
    (&[&[0x81, 0x08]], None),
    (&[&[0x82, 0x00, 0x08], &[0x83, 0x00, 0x00, 0x08]], None),
    (&[&[0x81, 0x08], &[0x81, 0x81]], Some(71)),
    (&[&[0x08], &[0x82, 0x01, 0x08]], Some(71)),
    (&[&[0x82, 0x08, 0x00]], Some(47)),
    (&[&[0x83, 0x01, 0x00, 0x08]], Some(48)),
    (&[], None),
];

#[test]
fn lengths_that_differ() {
    for (lengths, place) in LENGTHS {
        let frame = made(1, lengths);
        for before in [Arrays::large(), Arrays::enough(lengths.len(), 1)] {
            let ordinary = read(None, &frame, 1, &before);
            assert_eq!(ordinary.0, 0, "{lengths:x?}");
            let owed = place.map_or(ordinary, |place| refusal(13, place, &before));
            assert_eq!(checked(&frame, 1, &before), owed, "{lengths:x?}");
        }
    }
}

#[test]
fn room_before_lengths() {
    for (lengths, _) in LENGTHS {
        let frame = made(1, lengths);
        let shorter = Arrays::enough(lengths.len(), 1).shorter();
        assert_eq!(shorter.len(), if lengths.is_empty() { 2 } else { 4 });
        for before in shorter {
            assert_eq!(checked(&frame, 1, &before), refusal(7, 0, &before), "{lengths:x?}");
        }
    }
}

#[test]
fn other_refusals_before_lengths() {
    // The length of the first ASDU differs. The second stands from 53 on.
    let whole = made(1, &[&[0x10], &[0x08]]);
    assert_eq!((whole[53], whole.len()), (0x30, 77));
    let with = |at: usize, octet: u8| {
        let mut frame = whole.clone();
        frame[at] = octet;
        frame
    };
    let long_identity = [&whole[..], &[0x89, 9], &[0; 9]].concat();
    let refusals = [
        (whole[..76].to_vec(), 1, 69),
        (with(56, 0x84), 2, 55),
        (with(59, 0x04), 3, 60),
        (with(26, MAX_ASDUS as u8 + 1), 4, 26),
        (long_identity, 5, 79),
    ];
    for before in [Arrays::large(), Arrays::of(0, 0, 0, 0)] {
        for (frame, number, place) in &refusals {
            assert_eq!(checked(frame, 1, &before), refusal(*number, *place, &before));
        }
        for cut in 0..whole.len() {
            let ordinary = read(None, &whole[..cut], 1, &before);
            assert_eq!(ordinary.0, 1, "{cut}");
            assert_eq!(checked(&whole[..cut], 1, &before), ordinary, "{cut}");
        }
        for frame in [&whole[..], &whole[..50], &[]] {
            for channels in [MAX_CHANNELS + 1, MAX_CHANNELS + 2, 1 << 61, usize::MAX] {
                assert_eq!(checked(frame, channels, &before), refusal(8, 0, &before));
            }
        }
    }
}

/// Every number of channels, with numbers around its length, in each form that they have.
#[test]
fn every_number_of_channels() {
    let before = Arrays::large();
    for channels in 0..=MAX_CHANNELS {
        for (number, form) in (0..600).flat_map(|number| [0, 1, 2, 3].map(|form| (number, form))) {
            let frame = made(channels, &[&length_octets(number, form)]);
            let owed = if number == 8 * channels {
                read(None, &frame, channels, &before)
            } else {
                refusal(13, frame.len() - 8 * channels, &before)
            };
            assert_eq!(owed.0 == 0, number == 8 * channels, "{channels} {number} {form}");
            assert_eq!(checked(&frame, channels, &before), owed, "{channels} {number} {form}");
        }
        let none = made(channels, &[]);
        let ordinary = read(None, &none, channels, &before);
        assert_eq!(ordinary.0, 0, "{channels}");
        assert_eq!(checked(&none, channels, &before), ordinary, "{channels}");
    }
}

// ---- generated frames

/// A number for a length: that of so many channels, near to it or with the same last octet, that of any
/// number of channels, or any.
fn other_length(random: &mut Random, channels: usize) -> usize {
    let right = 8 * channels;
    match random.below(8) {
        0 => right,
        1 => right + 8,
        2 => right.saturating_sub(8),
        3 => right + 1,
        4 => right + (random.among(1, 0xff) << 8),
        5 => right + (random.among(1, 0xff) << 16),
        6 => 8 * random.among(0, MAX_CHANNELS),
        _ => random.below(1 << 24),
    }
}

/// Gives one or several ASDUs another length after 87 in as many octets, the same in another number of
/// octets, or both.
fn alter_lengths(random: &mut Random, channels: usize, frame: &mut Vec<u8>, lengths: &[Length]) {
    let one = random.below(lengths.len());
    let share = random.pick(&[0, 0, 30, 100]);
    let (other_number, other_form) = random.pick(&[(true, false), (false, true), (true, true)]);
    // From the last on, so that the places before it stay.
    for (i, (length, places)) in lengths.iter().enumerate().rev() {
        if i != one && !random.percent(share) {
            continue;
        }
        let number = if other_number { other_length(random, channels) } else { *length };
        let octets = if other_form {
            length_octets(number, random.below(4))
        } else {
            let form = places.len() - 1;
            length_octets(number % [1 << 7, 1 << 8, 1 << 16, 1 << 24][form], form)
        };
        frame.splice(places.clone(), octets);
    }
}

struct Case {
    frame: Vec<u8>,
    /// The number of channels that it was made for.
    made_for: usize,
    /// That which it is read with.
    channels: usize,
}

/// A frame that the library writes or the generator makes, with its lengths after 87 altered, cut or
/// with an octet replaced, or none of these.
fn case(random: &mut Random, generated: &mut Frames) -> Case {
    let of_generator = if random.percent(20) { generated.next() } else { None };
    let (made_for, mut frame) = of_generator.unwrap_or_else(|| {
        let channels = random.among(0, MAX_CHANNELS);
        (channels, written(random, channels, |_, _| ()))
    });
    let channels = if random.percent(15) { random.among(0, MAX_CHANNELS + 1) } else { made_for };
    let (lengths, _) = walk(&frame, channels);
    if !lengths.is_empty() && random.percent(60) {
        alter_lengths(random, channels, &mut frame, &lengths);
    }
    damage(random, &mut frame);
    Case { frame, made_for, channels }
}

/// Reads a case into arrays like these and holds the answer to ordinary reading, the walk and strict
/// reading: the number, and the classes of cases with whether it is one of each.
fn held(case: &Case, before: &Arrays) -> (usize, [(&'static str, bool); 17]) {
    let Case { frame, made_for, channels } = case;
    let what = || format!("{channels} channels, {}", hex(frame));
    let (lengths, refused) = walk(frame, *channels);
    let differ: Vec<&Length> =
        lengths.iter().filter(|(length, _)| *length != 8 * channels).collect();

    let ordinary = read(None, frame, *channels, before);
    assert_eq!(refused, !matches!(ordinary.0, 0 | 7), "{}", what());
    let owed = match differ.first() {
        Some((_, octets)) if ordinary.0 == 0 => refusal(13, octets.end, before),
        _ => ordinary,
    };
    let after = checked(frame, *channels, before);
    assert_eq!(after, owed, "{}", what());
    let (number, place) = (after.0, after.1.place);
    if number != 0 {
        assert_eq!(after, refusal(number, place, before), "{}", what());
    }
    let strict = [false, true].map(|fixed| read(Some(fixed), frame, *channels, before));
    for strict in strict.iter().filter(|strict| strict.0 == 0) {
        assert_eq!(&after, strict, "{}", what());
    }

    let (accepted, is_13) = (number == 0, number == 13);
    let first = is_13 && place == lengths[0].1.end;
    let last_octet = |(length, _): &&Length| length % 256 == 8 * channels % 256;
    let longer = |(length, octets): &Length| length_octets(*length, 0).len() < octets.len();
    let numbers = HEAD_NUMBERS + lengths.len() * ASDU_NUMBERS;
    let classes = [
        ("1 to 5, where a length differs", (1..=5).contains(&number) && !differ.is_empty()),
        ("7, where a length differs", number == 7 && !differ.is_empty()),
        ("13, in the first ASDU", first),
        ("13, in a later ASDU", is_13 && !first),
        ("13, several ASDUs differ", is_13 && 1 < differ.len()),
        ("13, the last octet is right", is_13 && differ.first().is_some_and(last_octet)),
        ("13, other channels", is_13 && channels != made_for),
        ("accepted, a length in a longer form", accepted && lengths.iter().any(longer)),
        ("accepted, several ASDUs", accepted && 1 < lengths.len()),
        ("accepted, no ASDU", accepted && lengths.is_empty()),
        ("accepted, no channel", accepted && !lengths.is_empty() && *channels == 0),
        ("accepted, 16 channels or more", accepted && !lengths.is_empty() && 16 <= *channels),
        ("accepted, other channels", accepted && !lengths.is_empty() && channels != made_for),
        ("accepted, exactly enough room", accepted && before.numbers.len() == numbers),
        ("accepted, strictly in the shortest form", strict[0].0 == 0),
        ("accepted, strictly in the fixed form", strict[1].0 == 0),
        ("accepted, not strictly", accepted && strict.iter().all(|strict| strict.0 != 0)),
    ];
    (number, classes)
}

#[test]
fn generated_frames() {
    let tally = Tally::of(13, |random, generated| {
        let case = case(random, generated);
        let before = lent_for(random, &case.frame, case.channels);
        held(&case, &before)
    });
    tally.print();
    tally.hold(13, &[1, 2, 3, 4, 5, 7, 8], 2000);
}
