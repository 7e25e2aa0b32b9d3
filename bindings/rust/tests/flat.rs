//! The functions of the library over slices: which elements of the lent arrays are written, and 7 for
//! each array that is too short. The frames are generated ones.

mod arrays;
#[path = "../src/slices.rs"]
#[allow(dead_code)]
mod slices;

use arrays::{frames, Arrays};
use hopsickle::sys::{self, *};
use oracle::generate::Random;

/// The number that a call answers, and what it leaves in its last argument.
fn answer(call: impl FnOnce(&mut usize) -> usize) -> (usize, usize) {
    let mut left = 77;
    let number = call(&mut left);
    (number, left)
}

impl Arrays {
    fn decode(&mut self, frame: &[u8], at: usize, channels: usize) -> usize {
        let Arrays { numbers, octets, counts, qualities, place } = self;
        slices::decode(frame, at, channels, numbers, octets, counts, qualities, place)
    }

    fn write(&self, channels: usize, fixed: bool, frame: &mut [u8]) -> (usize, usize) {
        let Arrays { numbers: n, octets: o, counts: c, qualities: q, .. } = self;
        answer(|size| slices::write(n, o, channels, fixed, c, q, frame, size))
    }

    fn write_values(
        &self,
        scales: &[f32],
        fixed: bool,
        values: &[f32],
        frame: &mut [u8],
    ) -> (usize, usize) {
        let Arrays { numbers: n, octets: o, qualities: q, .. } = self;
        answer(|size| slices::write_values(n, o, scales, fixed, values, q, frame, size))
    }

    fn size(&self, channels: usize, fixed: bool) -> (usize, usize) {
        answer(|size| slices::size(&self.numbers, &self.octets, channels, fixed, size))
    }
}

fn values(scales: &[f32], no_asdu: u16, counts: &[i32], values: &mut [f32]) -> (usize, usize) {
    answer(|written| slices::values(scales, no_asdu, counts, values, written))
}

#[test]
fn reading() {
    let mut accepted = [0; 3];
    for (channels, frame) in frames(Random(5)).take(20_000) {
        for (strict, accepted) in [None, Some(false), Some(true)].into_iter().zip(&mut accepted) {
            let before = Arrays::large();
            let mut after = before.clone();
            let number = after.read(strict, &frame, channels);
            if number != 0 {
                assert_eq!(Arrays { place: 77, ..after }, before);
                continue;
            }
            assert_eq!(after.place, 0);
            let asdus = after.numbers[NO_ASDU] as usize;
            let numbers = HEAD_NUMBERS + asdus * ASDU_NUMBERS;
            let octets = HEAD_OCTETS + asdus * ASDU_OCTETS;
            let samples = asdus * channels;
            assert_eq!(after.numbers[numbers..], before.numbers[numbers..]);
            assert_eq!(after.octets[octets..], before.octets[octets..]);
            assert_eq!(after.counts[samples..], before.counts[samples..]);
            assert_eq!(after.qualities[samples..], before.qualities[samples..]);
            assert!(after.qualities[..samples].iter().all(|word| *word < QUALITY_LIMIT));

            // Exactly enough, and one element less.
            let enough = Arrays::enough(asdus, channels);
            let mut exact = enough.clone();
            assert_eq!(exact.read(strict, &frame, channels), 0);
            assert_eq!(exact.numbers, after.numbers[..numbers]);
            assert_eq!(exact.octets, after.octets[..octets]);
            assert_eq!(exact.counts, after.counts[..samples]);
            assert_eq!(exact.qualities, after.qualities[..samples]);
            for before in enough.shorter() {
                let mut after = before.clone();
                assert_eq!((after.read(strict, &frame, channels), after.place), (7, 0));
                assert_eq!(Arrays { place: 77, ..after }, before);
            }

            // The PDU alone: the same without the header, but for the simulation mark.
            let mut pdu = enough.clone();
            let at = if exact.numbers[TAGGED] == 1 { 26 } else { 22 };
            assert_eq!(pdu.decode(&frame, at, channels), 0);
            let mut headless = exact.clone();
            headless.numbers[..SIMULATION].fill(0);
            headless.octets[..SECURITY_OCTETS].fill(0);
            assert_eq!(pdu, headless);
            *accepted += 1;
        }
    }
    assert!(accepted.iter().all(|accepted| 500 < *accepted), "{accepted:?}");
}

#[test]
fn header() {
    const NUMBERS: usize = HEADER_NUMBERS;
    const OCTETS: usize = HEADER_OCTETS;
    let call = |frame: &[u8], numbers: &mut [u32], octets: &mut [u8]| {
        answer(|place| slices::header(frame, numbers, octets, place))
    };
    for (channels, frame) in frames(Random(5)).take(2_000) {
        let before = ([9; NUMBERS + 2], [9; OCTETS + 2]);
        let (mut numbers, mut octets) = before;
        let (number, place) = call(&frame, &mut numbers, &mut octets);
        if number != 0 {
            assert_eq!((number, place, (numbers, octets)), (1, frame.len(), before));
            assert_eq!(call(&frame, &mut [], &mut []), (1, frame.len()));
            continue;
        }
        assert_eq!((&numbers[NUMBERS..], &octets[OCTETS..]), (&[9; 2][..], &[9; 2][..]));
        assert_eq!(place, if numbers[TAGGED] == 1 { 26 } else { 22 });
        assert_eq!(octets[..OCTETS], frame[..OCTETS]);
        let (numbers, octets) = (&mut numbers[..NUMBERS], &mut octets[..OCTETS]);
        assert_eq!(call(&frame, numbers, octets), (0, place));
        assert_eq!(call(&frame, &mut numbers[1..], octets), (7, 0));
        assert_eq!(call(&frame, numbers, &mut octets[1..]), (7, 0));

        let mut read = Arrays::of(MAX_NUMBERS, MAX_OCTETS, MAX_SAMPLES, MAX_SAMPLES);
        if read.read(None, &frame, channels) == 0 {
            assert_eq!((&read.numbers[..NUMBERS], &read.octets[..OCTETS]), (&*numbers, &*octets));
        }
    }
}

#[test]
fn writing() {
    for fixed in [false, true] {
        let frames = frames(Random(5)).take(20_000);
        let written = frames.filter(|(channels, frame)| written(*channels, fixed, frame));
        assert!(500 < written.count());
    }
}

/// What strict reading accepts in this form is written again, by every writer, into room enough.
fn written(channels: usize, fixed: bool, frame: &[u8]) -> bool {
    let mut read = Arrays::of(MAX_NUMBERS, MAX_OCTETS, MAX_SAMPLES, MAX_SAMPLES);
    if read.read(Some(fixed), frame, channels) != 0 {
        return false;
    }
    let asdus = read.numbers[NO_ASDU] as usize;
    let samples = asdus * channels;
    read.numbers.truncate(HEAD_NUMBERS + asdus * ASDU_NUMBERS);
    read.octets.truncate(HEAD_OCTETS + asdus * ASDU_OCTETS);
    read.counts.truncate(samples);
    read.qualities.truncate(samples);
    let scales = vec![1.0f32; channels];
    let mut scaled = vec![0.25f32; samples + 1];
    assert_eq!(values(&scales, asdus as u16, &read.counts, &mut scaled), (0, samples));
    assert_eq!(scaled.pop(), Some(0.25));
    // Values of counts beyond 24 bits have other counts.
    let exact = read.counts.iter().all(|count| count.unsigned_abs() <= 1 << 24);

    assert_eq!(read.size(channels, fixed), (0, frame.len()));
    let mut longer = vec![0xa5; frame.len() + 3];
    assert_eq!(read.write(channels, fixed, &mut longer), (0, frame.len()));
    assert_eq!((&longer[..frame.len()], &longer[frame.len()..]), (frame, &[0xa5; 3][..]));
    longer.fill(0xa5);
    assert_eq!(read.write_values(&scales, fixed, &scaled, &mut longer), (0, frame.len()));
    assert_eq!(longer[frame.len()..], [0xa5; 3]);
    assert!(!exact || longer[..frame.len()] == *frame);

    let mut short = vec![0xa5; frame.len() - 1];
    assert_eq!(read.write(channels, fixed, &mut short), (7, 0));
    assert_eq!(read.write_values(&scales, fixed, &scaled, &mut short), (7, 0));
    for one in read.shorter() {
        assert_eq!(one.write(channels, fixed, &mut longer), (7, 0));
        let flat = one.numbers.len() < read.numbers.len() || one.octets.len() < read.octets.len();
        assert_eq!(one.size(channels, fixed), if flat { (7, 0) } else { (0, frame.len()) });
        let fewer = &scaled[..one.counts.len()];
        assert_eq!(one.write_values(&scales, fixed, fewer, &mut longer), (7, 0));
        assert_eq!(
            values(&scales, asdus as u16, &one.counts, &mut scaled.clone()).0 == 7,
            one.counts.len() < samples
        );
    }
    if 0 < samples {
        assert_eq!(values(&scales, asdus as u16, &read.counts, &mut scaled[1..]), (7, 0));
    }
    assert!(short.iter().all(|octet| *octet == 0xa5));
    true
}

/// Arrays that stand for no description, and the order of the writer's refusals.
#[test]
fn descriptions() {
    let mut good = Arrays::of(HEAD_NUMBERS + ASDU_NUMBERS, HEAD_OCTETS + ASDU_OCTETS, 2, 2);
    good.numbers.fill(0);
    good.octets.fill(0);
    good.qualities.fill(0);
    good.numbers[ETHER_TYPE] = 0x88ba;
    good.numbers[NO_ASDU] = 1;
    let mut frame = [0; MAX_FRAME];
    assert_eq!(good.write(2, false, &mut frame), (0, 22 + 2 + 3 + 2 + 2 + 29));

    let refused = |change: &dyn Fn(&mut Arrays)| {
        let mut one = good.clone();
        change(&mut one);
        let number = one.write(2, false, &mut [0; MAX_FRAME]).0;
        assert_eq!(one.write_values(&[1.0; 2], false, &[0.0; 2], &mut [0; MAX_FRAME]).0, number);
        number
    };
    let at = |place: usize, number: u32| refused(&|one| one.numbers[place] = number);
    let asdu = |place: usize, number: u32| at(HEAD_NUMBERS + place, number);
    for mark in [TAGGED, SIMULATION, SECURITY] {
        assert_eq!(at(mark, 2), 9);
    }
    for mark in [DAT_SET, REFR_TM, SMP_RATE, SMP_MOD, GM_IDENTITY] {
        assert_eq!((asdu(mark, 2), asdu(mark, 1)), (9, 0));
    }
    assert_eq!((at(APPID, 65_535), at(APPID, 65_536)), (0, 9));
    assert_eq!((at(ETHER_TYPE, 0x88b8), at(ETHER_TYPE, 0x1_88ba)), (9, 9));
    assert_eq!((at(LENGTH, u32::MAX), at(NO_ASDU, 0)), (0, 9));
    assert_eq!((at(NO_ASDU, 2), at(NO_ASDU, u32::MAX)), (7, 7));
    let (text, security) = (MAX_TEXT as u32, MAX_SECURITY as u32);
    assert_eq!((asdu(SV_ID_LENGTH, text), asdu(SV_ID_LENGTH, text + 1)), (0, 9));
    assert_eq!((asdu(SMP_CNT, 65_535), asdu(SMP_CNT, 65_536)), (0, 9));
    assert_eq!((asdu(CONF_REV, u32::MAX), asdu(SMP_SYNCH, 256)), (0, 9));
    // What stands behind a mark of 0 isn't looked at.
    assert_eq!(
        (at(TPID, u32::MAX), at(TCI, u32::MAX), at(SECURITY_LENGTH, security + 1)),
        (0, 0, 0)
    );
    assert_eq!((asdu(DAT_SET_LENGTH, text + 1), asdu(SMP_RATE_VALUE, 65_536)), (0, 0));
    assert_eq!(refused(&|one| one.qualities[1] = QUALITY_LIMIT - 1), 0);
    assert_eq!(refused(&|one| one.qualities[1] = QUALITY_LIMIT), 9);

    // 8, then 7 for the arrays, 9, 11, 10, 7 for the frame.
    let mut large = Arrays::of(MAX_NUMBERS, MAX_OCTETS, MAX_SAMPLES, MAX_SAMPLES);
    large.numbers.fill(0);
    large.qualities.fill(0);
    large.numbers[NO_ASDU] = MAX_ASDUS as u32;
    const MANY: usize = MAX_CHANNELS + 1;
    let infinite = [f32::INFINITY; MANY * MAX_ASDUS];
    let number = |one: &Arrays, channels: usize| {
        let scales = vec![1.0; channels];
        one.write_values(&scales, false, &infinite[..MAX_ASDUS * channels], &mut []).0
    };
    let short = Arrays { octets: vec![], ..large.clone() };
    assert_eq!((number(&short, MANY), number(&short, MAX_CHANNELS)), (8, 7));
    assert_eq!(number(&large, MAX_CHANNELS), 9);
    large.numbers[ETHER_TYPE] = 0x88ba;
    let written = |channels: usize| large.write(channels, false, &mut []).0;
    assert_eq!((number(&large, MAX_CHANNELS), written(MAX_CHANNELS), written(2)), (11, 10, 7));
    let size = |channels: usize| large.size(channels, false);
    assert_eq!((size(MAX_CHANNELS), size(MANY), size(2).0), ((10, 0), (8, 0), 0));

    let mut out = [0.0; 2];
    assert_eq!(values(&[1.0; MANY], 0, &[], &mut out), (8, 0));
    assert_eq!(values(&[0.5, 2.0], 1, &[3, -4], &mut out), (0, 2));
    assert_eq!(out, [1.5, -8.0]);
    assert_eq!(values(&[], 65_535, &[], &mut []), (0, 0));
}
