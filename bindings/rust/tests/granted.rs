//! Granted reading: which samples are put into the arrays, 7 by the shown channels, and that the
//! octets of hidden channels make no difference, on HOPSICKLE_CASES pairs of frames (100,000 where it
//! isn't given) generated from HOPSICKLE_SEED (1).

mod arrays;
mod environment;
mod walk;

use arrays::{frames, Arrays};
use environment::number;
use hopsickle::sys::*;
use oracle::generate::{Random, FIRST_LENGTH_OCTETS};
use oracle::hex::hex;
use walk::{lent, walk};

impl Arrays {
    fn read_granted(&mut self, frame: &[u8], channels: usize, mask: u32) -> usize {
        let Arrays { numbers, octets, counts, qualities, place } = self;
        read_granted(frame, channels, mask, numbers, octets, counts, qualities, place)
    }

    fn lengths(&self) -> [usize; 4] {
        [self.numbers.len(), self.octets.len(), self.counts.len(), self.qualities.len()]
    }
}

/// The number and the arrays that a granted reading answers.
fn answer(frame: &[u8], channels: usize, mask: u32, before: &Arrays) -> (usize, Arrays) {
    let mut after = before.clone();
    (after.read_granted(frame, channels, mask), after)
}

/// The number and the arrays that an ordinary reading answers, with room for every frame.
fn ordinary(frame: &[u8], channels: usize) -> (usize, Arrays) {
    let mut after = Arrays::large();
    (after.read(None, frame, channels), after)
}

/// What is owed for an ordinary reading's answer, where these channels are shown.
fn owed(
    (number, read): &(usize, Arrays),
    channels: usize,
    shown: &[usize],
    before: &Arrays,
) -> (usize, Arrays) {
    if *number != 0 {
        return (*number, Arrays { place: read.place, ..before.clone() });
    }
    let asdus = read.numbers[NO_ASDU] as usize;
    let need = Arrays::enough(asdus, shown.len()).lengths();
    if before.lengths().iter().zip(need).any(|(length, need)| *length < need) {
        return (7, Arrays { place: 0, ..before.clone() });
    }
    let mut after = Arrays { place: 0, ..before.clone() };
    after.numbers[..need[0]].copy_from_slice(&read.numbers[..need[0]]);
    after.octets[..need[1]].copy_from_slice(&read.octets[..need[1]]);
    let places = (0..asdus).flat_map(|i| shown.iter().map(move |j| i * channels + j));
    for (k, place) in places.enumerate() {
        after.counts[k] = read.counts[place];
        after.qualities[k] = read.qualities[place];
    }
    (0, after)
}

// ---- a frame of two ASDUs of eight channels

const CHANNELS: usize = 8;

/// Where the samples of each ASDU start.
const SAMPLES: [usize; 2] = [47, 127];

/// The counts are 100 to 107 and -200 to -207. The quality words are 0 to 7 and 16 to 23, with bits
/// set that reading clears.
fn two_asdus() -> Vec<u8> {
    let mut frame = vec![0x01, 0x0c, 0xcd, 0x04, 0x00, 0x01, 0x00, 0x00, 0x00, 0x00, 0x00, 0x02];
    frame.extend([0x88, 0xba, 0x40, 0x00, 0x00, 0xb1, 0x80, 0x00, 0x00, 0x00]);
    frame.extend([0x60, 0x81, 0xa6, 0x80, 0x01, 0x02, 0xa2, 0x81, 0xa0]);
    for (asdu, start) in SAMPLES.into_iter().enumerate() {
        frame.extend([0x30, 0x4e, 0x80, 0x01, 0x41 + asdu as u8, 0x82, 0x01, asdu as u8]);
        frame.extend([0x83, 0x01, 0x01, 0x85, 0x01, 0x02, 0x87, 0x40]);
        assert_eq!(frame.len(), start);
        for channel in 0..CHANNELS as i32 {
            let count = [100 + channel, -200 - channel][asdu];
            let word = !(QUALITY_LIMIT - 1) + 16 * asdu as u32 + channel as u32;
            frame.extend(count.to_be_bytes());
            frame.extend(word.to_be_bytes());
        }
    }
    frame
}

/// Masks with the channels that they show.
const MASKS: [(u32, &[usize]); 9] = [
    (0, &[]),
    (0x1, &[0]),
    (0x80, &[7]),
    (0xaa, &[1, 3, 5, 7]),
    (0xff, &[0, 1, 2, 3, 4, 5, 6, 7]),
    (0xffff_ffff, &[0, 1, 2, 3, 4, 5, 6, 7]),
    (0xffff_ff00, &[]),
    (0x100, &[]),
    (0x8000_0042, &[1, 6]),
];

#[test]
fn shown_channels() {
    let frame = two_asdus();
    let read = ordinary(&frame, CHANNELS);
    assert_eq!((read.0, read.1.numbers[NO_ASDU]), (0, 2));
    for (mask, shown) in MASKS {
        let before = Arrays::large();
        let after = answer(&frame, CHANNELS, mask, &before);
        assert_eq!(after, owed(&read, CHANNELS, shown, &before), "{mask:x}");

        // The same by the octets of the frame, and nothing past them.
        let after = after.1;
        let channels = || shown.iter().map(|channel| *channel as i32);
        let counts = channels().map(|i| 100 + i).chain(channels().map(|i| -200 - i));
        let words = channels().chain(channels().map(|i| 16 + i)).map(|word| word as u32);
        let samples = 2 * shown.len();
        assert!(after.counts[..samples].iter().copied().eq(counts), "{mask:x}");
        assert!(after.qualities[..samples].iter().copied().eq(words), "{mask:x}");
        assert_eq!(after.counts[samples..], before.counts[samples..], "{mask:x}");
        assert_eq!(after.qualities[samples..], before.qualities[samples..], "{mask:x}");
    }
}

#[test]
fn room() {
    let frame = two_asdus();
    let read = ordinary(&frame, CHANNELS);
    for (mask, shown) in MASKS {
        let enough = Arrays::enough(2, shown.len());
        let after = answer(&frame, CHANNELS, mask, &enough);
        assert_eq!(after.0, 0, "{mask:x}");
        assert_eq!(after, owed(&read, CHANNELS, shown, &enough), "{mask:x}");

        // Counts and quality words can only be one short where there are any.
        let shorter = enough.shorter();
        assert_eq!(shorter.len(), if shown.is_empty() { 2 } else { 4 });
        for before in shorter {
            let after = answer(&frame, CHANNELS, mask, &before);
            assert_eq!(after, (7, Arrays { place: 0, ..before }), "{mask:x}");
        }
    }
    let none = Arrays::of(MAX_NUMBERS, MAX_OCTETS, 0, 0);
    assert_eq!(answer(&frame, CHANNELS, 0, &none).0, 0);
    assert_eq!(answer(&frame, CHANNELS, 1, &none).0, 7);
}

#[test]
fn cut_inside_a_hidden_sample() {
    let whole = two_asdus();
    for (mask, shown) in MASKS {
        let hidden = (0..CHANNELS).filter(|channel| !shown.contains(channel));
        for (channel, start) in hidden.flat_map(|channel| SAMPLES.map(|start| (channel, start))) {
            let sample = start + 8 * channel;
            for cut in sample..sample + 8 {
                for fill in [0x00, 0x5a, 0x80, 0xff] {
                    let mut frame = whole[..cut].to_vec();
                    frame[sample..].fill(fill);
                    for before in [Arrays::large(), Arrays::of(0, 0, 0, 0)] {
                        let after = answer(&frame, CHANNELS, mask, &before);
                        let refused = (1, Arrays { place: sample, ..before });
                        assert_eq!(after, refused, "{mask:x} {cut} {fill:x}");
                    }
                }
            }
        }
    }
}

#[test]
fn too_many_channels() {
    let frame = two_asdus();
    // Of the last channel and of one more alone, of all below them, and of all above.
    let [last, more] = [1 << (MAX_CHANNELS - 1), 1 << MAX_CHANNELS];
    for mask in [0, 1, last, more, more - 1, 2 * more - 1, !(2 * more - 1), u32::MAX] {
        for frame in [&frame[..], &frame[..100], &[]] {
            for channels in [MAX_CHANNELS + 1, MAX_CHANNELS + 2, 32, 33, usize::MAX] {
                for before in [Arrays::large(), Arrays::of(0, 0, 0, 0)] {
                    let after = answer(frame, channels, mask, &before);
                    assert_eq!(after, (8, Arrays { place: 0, ..before }), "{mask:x}");
                }
            }
        }
    }
    // As many as there can be are read, here of one ASDU.
    let mut frame = two_asdus();
    frame[27] = 1;
    frame.resize(SAMPLES[0] + MAX_CHANNELS * 8, 0x11);
    let last = answer(&frame, MAX_CHANNELS, last, &Arrays::enough(1, 1));
    assert_eq!(
        (last.0, &last.1.counts[..], &last.1.qualities[..]),
        (0, &[0x1111_1111][..], &[0x1111_1111 % QUALITY_LIMIT][..])
    );
}

// ---- what is hidden

/// The places of the count and quality octets of hidden channels that reading comes to, in ascending
/// order, and whether it is refused before its end.
fn hidden(frame: &[u8], channels: usize, mask: u32) -> (Vec<usize>, bool) {
    let (lengths, refused) = walk(frame, channels);
    let hidden = || (0..channels).filter(|channel| mask >> channel & 1 == 0);
    let samples =
        lengths.iter().flat_map(|(_, octets)| hidden().map(|channel| octets.end + 8 * channel));
    (samples.flat_map(|sample| sample..frame.len().min(sample + 8)).collect(), refused)
}

/// Cuts a frame after its first sample's start, or replaces an octet there that is none of a sample.
fn damage(random: &mut Random, channels: usize, frame: &mut Vec<u8>) {
    let (samples, _) = hidden(frame, channels, 0);
    let Some(&first) = samples.first() else {
        return;
    };
    match random.below(8) {
        0 | 1 => frame.truncate(random.among(first, frame.len())),
        2 | 3 => {
            let others = (first..frame.len()).filter(|place| samples.binary_search(place).is_err());
            let others: Vec<usize> = others.collect();
            if !others.is_empty() {
                frame[random.pick(&others)] = match random.below(2) {
                    0 => random.pick(&FIRST_LENGTH_OCTETS),
                    _ => random.draw() as u8,
                };
            }
        }
        _ => (),
    }
}

/// Other octets in these places: any, all 00, all FF, or any in one of them.
fn replaced(random: &mut Random, frame: &[u8], places: &[usize]) -> Vec<u8> {
    let mut other = frame.to_vec();
    match random.below(4) {
        0 => places.iter().for_each(|place| other[*place] = 0x00),
        1 => places.iter().for_each(|place| other[*place] = 0xff),
        2 if !places.is_empty() => other[random.pick(places)] = random.draw() as u8,
        _ => places.iter().for_each(|place| other[*place] = random.draw() as u8),
    }
    other
}

#[test]
fn hidden_octets_replaced() {
    let seed = number("HOPSICKLE_SEED", 1);
    let pairs = number("HOPSICKLE_CASES", 100_000) as usize;
    let mut random = Random(!seed);
    // Pairs of frames that differ, by the number that both are answered; and those of them that
    // ordinary reading tells apart.
    let (mut answers, mut told_apart) = ([0; 9], 0);
    for (made_for, mut frame) in frames(Random(seed)).take(100 + pairs) {
        if pairs <= answers.iter().sum() {
            break;
        }
        let channels =
            if random.percent(10) { random.among(0, MAX_CHANNELS + 1) } else { made_for };
        damage(&mut random, channels, &mut frame);
        let read = ordinary(&frame, channels);
        let asdus = if read.0 == 0 { read.1.numbers[NO_ASDU] as usize } else { 0 };
        let one = 1 << random.below(channels.max(1));
        for mask in [0, random.draw() as u32, one, !one, u32::MAX << channels, u32::MAX] {
            let shown: Vec<usize> = (0..channels).filter(|i| mask >> i & 1 == 1).collect();
            let before = lent(&mut random, asdus, shown.len());
            let after = answer(&frame, channels, mask, &before);
            let case = || format!("{channels} channels, mask {mask:x}, {}", hex(&frame));
            assert_eq!(after, owed(&read, channels, &shown, &before), "{}", case());

            let (places, refused) = hidden(&frame, channels, mask);
            assert_eq!(refused, read.0 != 0, "{}", case());
            let other = replaced(&mut random, &frame, &places);
            if other == frame {
                continue;
            }
            assert_eq!(
                answer(&other, channels, mask, &before),
                after,
                "{} {}",
                case(),
                hex(&other)
            );
            answers[after.0] += 1;
            told_apart += usize::from(ordinary(&other, channels) != read);
        }
    }
    println!("pairs by their answer: {answers:?}, told apart by ordinary reading: {told_apart}");
    let all: usize = answers.iter().sum();
    assert!(pairs <= all, "{answers:?}");
    assert!(pairs / 4 <= answers[0] && pairs / 4 <= told_apart, "{answers:?} {told_apart}");
    assert!(pairs / 10 <= all - answers[0] - answers[7], "{answers:?}");
    // 1 to 5 after hidden samples, and 7.
    for number in [1, 2, 3, 4, 5, 7] {
        assert!(pairs / 1000 <= answers[number], "{number}: {answers:?}");
    }
}
