//! Data sets by confRev: what an addition to a store and a reading by it answer and write, the order of
//! their refusals, and that additions change no answer but 15. The answers are held to a plain list of
//! sets, a walk of the frame and ordinary reading, also on HOPSICKLE_CASES frames (20,000 where it isn't
//! given) generated from HOPSICKLE_SEED (1).

mod arrays;
mod environment;
mod made;
mod tally;
mod walk;

use arrays::Arrays;
use environment::number;
use hopsickle::sys::{
    self, HEAD_NUMBERS, MAX_ASDUS, MAX_CHANNELS, MAX_SETS, SET_NUMBERS, SET_SCALES,
};
use made::{damage, framed, written};
use oracle::frame::length_octets;
use oracle::generate::Random;
use oracle::hex::hex;
use tally::{lent_for, Frames, Tally};
use walk::Walk;

/// Scale factors, equal where all their bits are.
#[derive(Clone, Debug)]
struct Scales(Vec<f32>);

impl PartialEq for Scales {
    fn eq(&self, other: &Scales) -> bool {
        let bits =
            |scales: &Scales| scales.0.iter().map(|scale| scale.to_bits()).collect::<Vec<_>>();
        bits(self) == bits(other)
    }
}

// ---- a store, as the library has it and as a plain list

/// Elements after each array of fixed length, which no call may write.
const BEYOND: usize = 3;

/// More channels than there can be.
const MANY: usize = MAX_CHANNELS + 1;

/// A store in its two arrays.
#[derive(Clone, PartialEq, Debug)]
struct Store {
    numbers: Vec<u32>,
    scales: Scales,
}

impl Store {
    /// A store that holds no set, with what no addition leaves in its other elements.
    fn empty() -> Store {
        let mut numbers = vec![0xdead_beef; SET_NUMBERS + BEYOND];
        numbers[0] = 0;
        Store { numbers, scales: Scales(vec![-1.5; SET_SCALES + BEYOND]) }
    }

    /// The store of these sets, added one after the other.
    fn of(sets: &[Set]) -> Store {
        let mut store = Store::empty();
        for (conf_rev, channels, scales) in sets {
            assert_eq!(store.add(*conf_rev, &scales[..*channels]).0, 0, "{conf_rev}");
        }
        store
    }

    /// The number that an addition answers, and how many sets it says are held.
    fn add(&mut self, conf_rev: u32, scales: &[f32]) -> (usize, usize) {
        let sets = self.numbers.first_chunk_mut().expect("numbers");
        let set_scales = self.scales.0.first_chunk_mut().expect("scale factors");
        let mut held = 77;
        (sys::sets_add(sets, set_scales, conf_rev, scales, &mut held), held)
    }

    /// The sets that it holds: at most `MAX_SETS`, whatever the first number is.
    fn sets(&self) -> Vec<Set> {
        let sets = self.numbers[1..].chunks(2).zip(self.scales.0.chunks(MAX_CHANNELS));
        let sets = sets.take(MAX_SETS.min(self.numbers[0] as usize));
        sets.map(|(numbers, scales)| (numbers[0], numbers[1] as usize, scales.to_vec())).collect()
    }
}

/// confRev, channels, and `MAX_CHANNELS` scale factors, zero past the channels.
type Set = (u32, usize, Vec<f32>);

fn set(conf_rev: u32, scales: &[f32]) -> Set {
    let mut all = scales.to_vec();
    all.resize(MAX_CHANNELS, 0.0);
    (conf_rev, scales.len(), all)
}

/// A set of so many channels, with scale factors that tell it from sets of other confRevs.
fn set_of(conf_rev: u32, channels: usize) -> Set {
    let scales: Vec<f32> =
        (0..channels).map(|i| conf_rev as f32 + i as f32 / 32.0 + 0.25).collect();
    set(conf_rev, &scales)
}

/// What an addition to a list of sets answers: the number, and the list after it.
fn added(sets: &[Set], conf_rev: u32, scales: &[f32]) -> (usize, Vec<Set>) {
    if MAX_CHANNELS < scales.len() {
        return (8, sets.to_vec());
    }
    if sets.iter().any(|set| conf_rev <= set.0) || MAX_SETS <= sets.len() {
        return (14, sets.to_vec());
    }
    (0, [sets, &[set(conf_rev, scales)]].concat())
}

/// Adds to a store and holds the answer and both arrays to the list: the number.
fn add(store: &mut Store, conf_rev: u32, scales: &[f32]) -> usize {
    let (number, sets) = added(&store.sets(), conf_rev, scales);
    let mut owed = store.clone();
    let mut held = 0;
    if number == 0 {
        held = sets.len();
        let last = held - 1;
        owed.numbers[0] = held as u32;
        owed.numbers[1 + 2 * last..][..2].copy_from_slice(&[conf_rev, scales.len() as u32]);
        owed.scales.0[MAX_CHANNELS * last..][..MAX_CHANNELS].copy_from_slice(&sets[last].2);
    }
    let before = store.clone();
    assert_eq!(store.add(conf_rev, scales), (number, held), "{conf_rev} {scales:?} {before:?}");
    assert_eq!(*store, owed, "{conf_rev} {scales:?} {before:?}");
    number
}

// ---- a reading by a store

/// What is lent to a reading, filled with what no reading leaves.
#[derive(Clone, PartialEq, Debug)]
struct Lent {
    arrays: Arrays,
    channels: usize,
    scales: Scales,
}

impl Lent {
    fn of(arrays: Arrays) -> Lent {
        Lent { arrays, channels: 99, scales: Scales(vec![-7.25; MAX_CHANNELS + BEYOND]) }
    }

    fn refused(&self, number: usize, place: usize) -> (usize, Lent) {
        (number, Lent { arrays: Arrays { place, ..self.arrays.clone() }, ..self.clone() })
    }
}

/// What a reading answers: the number, and what was lent.
fn answer(frame: &[u8], store: &Store, before: &Lent) -> (usize, Lent) {
    let mut after = before.clone();
    let Arrays { numbers, octets, counts, qualities, place } = &mut after.arrays;
    let number = sys::read_by_sets(
        frame,
        store.numbers.first_chunk().expect("numbers"),
        store.scales.0.first_chunk().expect("scale factors"),
        &mut after.channels,
        after.scales.0.first_chunk_mut().expect("scale factors"),
        numbers,
        octets,
        counts,
        qualities,
        place,
    );
    (number, after)
}

/// The first ASDU's confRev, none without ASDUs; `None` where reading is refused before.
fn first_rev(frame: &[u8]) -> Option<Option<u32>> {
    let mut walk = Walk::of(frame);
    match walk.start()? {
        0 => Some(None),
        _ => walk.conf_rev().map(Some),
    }
}

/// The confRevs of the ASDUs that reading comes to the end of.
fn conf_revs(frame: &[u8], channels: usize) -> Vec<u32> {
    let mut walk = Walk::of(frame);
    let asdus = walk.start().unwrap_or(0);
    (0..asdus).map_while(|_| walk.asdu(channels)).collect()
}

/// What is owed for a frame and a list of sets.
fn owed(frame: &[u8], sets: &[Set], before: &Lent) -> (usize, Lent) {
    let Some(first) = first_rev(frame) else {
        // Without channels ordinary reading refuses the same up to there.
        let mut after = before.clone();
        let number = after.arrays.read(None, frame, 0);
        assert!((1..=4).contains(&number), "{}", hex(frame));
        return (number, after);
    };
    let Some((_, channels, scales)) = sets.iter().find(|set| Some(set.0) == first) else {
        return before.refused(15, 0);
    };
    let mut after = before.clone();
    let number = after.arrays.read(None, frame, *channels);
    if number != 0 {
        return (number, after);
    }
    if conf_revs(frame, *channels).iter().any(|conf_rev| Some(*conf_rev) != first) {
        return before.refused(16, 0);
    }
    after.channels = *channels;
    after.scales.0[..MAX_CHANNELS].copy_from_slice(scales);
    (0, after)
}

/// Reads and holds the answer to the list: the number and the place.
fn read(frame: &[u8], store: &Store, before: &Lent) -> (usize, usize) {
    let after = answer(frame, store, before);
    assert_eq!(after, owed(frame, &store.sets(), before), "{} {store:?}", hex(frame));
    (after.0, after.1.arrays.place)
}

/// A frame with an ASDU for each of these confRevs, and samples of so many channels.
fn made(channels: usize, conf_revs: &[u32]) -> Vec<u8> {
    let length = length_octets(8 * channels, 0);
    let asdus: Vec<(u32, &[u8])> = conf_revs.iter().map(|rev| (*rev, &length[..])).collect();
    framed(channels, &asdus)
}

/// Arrays with more room than any frame takes, and without any room.
fn both() -> [Lent; 2] {
    [Arrays::large(), Arrays::of(0, 0, 0, 0)].map(Lent::of)
}

// ---- additions

#[test]
fn additions() {
    let mut store = Store::empty();
    // The first can be 0, and the last 2^32 - 1.
    let conf_revs = (0..MAX_SETS as u32 - 1).map(|i| i * i * 1000).chain([u32::MAX]);
    for (i, conf_rev) in conf_revs.enumerate() {
        let (_, channels, scales) = set_of(conf_rev, i % MANY);
        assert_eq!(add(&mut store, conf_rev, &scales[..channels]), 0, "{i}");
        assert_eq!(store.sets()[i], set_of(conf_rev, channels));
    }
    assert_eq!(store.numbers[0], MAX_SETS as u32);
    let revs: Vec<u32> = store.sets().iter().map(|set| set.0).collect();
    assert!(revs.windows(2).all(|pair| pair[0] < pair[1]), "{revs:?}");
}

#[test]
fn additions_that_are_not_higher() {
    let mut store = Store::of(&[set_of(5, 2), set_of(300, 1)]);
    for conf_rev in [300, 299, 44, 6, 5, 4, 1, 0] {
        for channels in [0, 1, 2, MAX_CHANNELS] {
            assert_eq!(add(&mut store, conf_rev, &vec![0.5; channels]), 14, "{conf_rev}");
        }
        for channels in [MANY, MANY + 1, 1000] {
            assert_eq!(add(&mut store, conf_rev, &vec![0.5; channels]), 8, "{conf_rev}");
        }
    }
    assert_eq!(store, Store::of(&[set_of(5, 2), set_of(300, 1)]));
    assert_eq!(add(&mut store, 400, &[0.5; MANY]), 8);
    assert_eq!(add(&mut store, 301, &[0.5]), 0);
    let mut store = Store::of(&[set_of(u32::MAX, 2)]);
    assert_eq!(add(&mut store, 0, &[0.5]), 14);
}

#[test]
fn more_sets_than_a_store_holds() {
    const LAST: u32 = 10 * MAX_SETS as u32;
    let channels = |i: usize| i % MANY;
    let sets: Vec<Set> = (1..=MAX_SETS).map(|i| set_of(10 * i as u32, channels(i))).collect();
    let full = Store::of(&sets);
    let mut store = full.clone();
    for conf_rev in [LAST + 1, LAST + 10, u32::MAX, LAST, 10, 15, 0] {
        assert_eq!(add(&mut store, conf_rev, &[0.5]), 14, "{conf_rev}");
        assert_eq!(add(&mut store, conf_rev, &[]), 14, "{conf_rev}");
        assert_eq!(add(&mut store, conf_rev, &[0.5; MANY]), 8, "{conf_rev}");
        assert_eq!(store, full, "{conf_rev}");
    }
    for i in 1..=MAX_SETS {
        let before = Lent::of(Arrays::large());
        let frame = made(channels(i), &[10 * i as u32]);
        let (number, after) = answer(&frame, &store, &before);
        assert_eq!((number, after.channels), (0, channels(i)), "{i}");
        assert_eq!(after.scales.0[..MAX_CHANNELS], sets[i - 1].2, "{i}");
        assert_eq!(read(&frame, &store, &before), (0, 0), "{i}");
    }
    assert_eq!(read(&made(1, &[LAST + 10]), &store, &Lent::of(Arrays::large())), (15, 0));
}

// ---- the order of refusals

#[test]
fn without_asdus() {
    // A2 stands at 27, and the length after it at 28.
    let frame = made(1, &[]);
    assert_eq!((frame[27..].to_vec(), frame.len()), (vec![0xa2, 0x00], 29));
    let longer = [&frame[..28], &[0x82, 0x00, 0x00]].concat();
    for store in [Store::empty(), Store::of(&[set_of(0, 1), set_of(1, 1)])] {
        for before in both() {
            assert_eq!(read(&frame, &store, &before), (15, 0));
            assert_eq!(read(&longer, &store, &before), (15, 0));
            assert_eq!(read(&frame[..28], &store, &before), (1, 27));
            assert_eq!(read(&frame[..27], &store, &before), (1, 27));
            assert_eq!(read(&longer[..30], &store, &before), (1, 27));
        }
    }
}

#[test]
fn up_to_the_first_conf_rev() {
    // The first ASDU stands at 29, its confRev has the octets 37 to 39, and smpSynch follows.
    let whole = made(1, &[7, 7]);
    assert_eq!((whole[29], &whole[37..41]), (0x30, &[0x83, 0x01, 0x07, 0x85][..]));
    let with = |at: usize, octet: u8| {
        let mut frame = whole.clone();
        frame[at] = octet;
        frame
    };
    let refusals = [
        (whole[..39].to_vec(), 1, 39),
        (whole[..38].to_vec(), 1, 37),
        (whole[..17].to_vec(), 1, 17),
        (with(30, 0x80), 2, 29),
        (with(38, 0x84), 2, 37),
        (with(38, 0x06), 3, 39),
        (with(35, 0x04), 3, 36),
        (with(26, MAX_ASDUS as u8 + 1), 4, 26),
    ];
    for store in [Store::empty(), Store::of(&[set_of(7, 1)]), Store::of(&[set_of(8, 1)])] {
        for before in both() {
            for (frame, number, place) in &refusals {
                assert_eq!(read(frame, &store, &before), (*number, *place));
            }
        }
    }
}

#[test]
fn cut_after_the_first_conf_rev() {
    let whole = made(2, &[7, 7]);
    let (held, missing) = (Store::of(&[set_of(7, 2)]), Store::of(&[set_of(8, 2)]));
    for before in both() {
        for cut in 40..whole.len() {
            let frame = &whole[..cut];
            assert_eq!(read(frame, &missing, &before), (15, 0), "{cut}");
            assert_eq!(read(frame, &Store::empty(), &before), (15, 0), "{cut}");
            assert_eq!(read(frame, &held, &before).0, 1, "{cut}");
        }
        assert_eq!(read(&whole[..40], &held, &before), (1, 40));
        assert_eq!(read(&whole[..43], &held, &before), (1, 43));
        assert_eq!(read(&whole[..60], &held, &before), (1, 53));
        // What is refused after confRev only with a set.
        let mut frame = whole.clone();
        frame[41] = 0x84;
        assert_eq!(read(&frame, &held, &before), (2, 40));
        assert_eq!(read(&frame, &missing, &before), (15, 0));
    }
    // A set of more channels than the frame has samples for: six are whole, the ASDU that follows read
    // as samples.
    let store = Store::of(&[set_of(7, MAX_CHANNELS)]);
    assert_eq!(read(&whole, &store, &Lent::of(Arrays::large())), (1, 93));
}

#[test]
fn other_conf_revs() {
    let store = Store::of(&[set_of(1, 1), set_of(7, 1), set_of(263, 1), set_of(0x0007_0007, 1)]);
    let large = Lent::of(Arrays::large());
    let differ: [&[u32]; 9] = [
        &[7, 1],
        &[7, 8],
        &[7, 263],
        &[7, 7, 1],
        &[7, 7, 7, 7, 7, 7, 7, 8],
        &[7, 8, 7],
        &[1, 7, 7],
        &[263, 7],
        &[0x0007_0007, 7],
    ];
    for revs in differ {
        let frame = made(1, revs);
        assert_eq!(read(&frame, &store, &large), (16, 0), "{revs:?}");
        let enough = Arrays::enough(revs.len(), 1);
        assert_eq!(read(&frame, &store, &Lent::of(enough.clone())), (16, 0), "{revs:?}");
        for shorter in enough.shorter() {
            assert_eq!(read(&frame, &store, &Lent::of(shorter)), (7, 0), "{revs:?}");
        }
        // 1 to 5 of a later ASDU stand before 16.
        let cut = &frame[..frame.len() - 1];
        assert_eq!(read(cut, &store, &large), (1, frame.len() - 8), "{revs:?}");
    }
    for revs in [&[7][..], &[7; 2], &[1; 3], &[263; 8]] {
        let frame = made(1, revs);
        assert_eq!(read(&frame, &store, &large), (0, 0), "{revs:?}");
        for shorter in Arrays::enough(revs.len(), 1).shorter() {
            assert_eq!(read(&frame, &store, &Lent::of(shorter)), (7, 0), "{revs:?}");
        }
    }
}

#[test]
fn the_set_of_a_later_conf_rev() {
    let store = Store::of(&[set_of(7, 1)]);
    for before in both() {
        for revs in [&[8, 7][..], &[6, 7], &[8, 7, 7], &[8, 8, 8, 7], &[263, 7], &[0, 7]] {
            assert_eq!(read(&made(1, revs), &store, &before), (15, 0), "{revs:?}");
        }
    }
}

/// The set that is found is that of the confRev, and not one that has a place or octets in common with it.
#[test]
fn the_set_of_the_conf_rev() {
    let revs =
        [0, 1, 0x80, 0xff, 0x100, 0x8000, 0xff80, 0x1_0000, 0x0100_0001, 0x8000_0000, u32::MAX];
    let store = Store::of(&revs.map(|rev| set_of(rev, (rev % 5) as usize)));
    for (rev, before) in revs.into_iter().flat_map(|rev| both().map(|before| (rev, before))) {
        let channels = (rev % 5) as usize;
        let room = 1 < before.arrays.numbers.len();
        let after = answer(&made(channels, &[rev, rev]), &store, &before);
        assert_eq!(after.0, if room { 0 } else { 7 }, "{rev}");
        if room {
            assert_eq!(after.1.channels, channels, "{rev}");
            assert_eq!(after.1.scales.0[..MAX_CHANNELS], set_of(rev, channels).2, "{rev}");
        }
        read(&made(channels, &[rev, rev]), &store, &before);
        assert_eq!(read(&made(1, &[rev ^ 2]), &store, &before), (15, 0), "{rev}");
    }
}

// ---- stores of any content

#[test]
fn stores_of_any_content() {
    let large = Lent::of(Arrays::large());
    let frame = made(1, &[7]);
    let channels = |frame: &[u8], store: &Store| answer(frame, store, &large).1.channels;
    const MOST: u32 = MAX_SETS as u32;
    let mut store = Store::of(&(0..MOST).map(|i| set_of(100 + i, 1)).collect::<Vec<_>>());
    // Above `MAX_SETS` are said to be held: so many are, and the elements after them are no set.
    for held in [MOST + 1, MOST + 2, 2 * MOST, 255, 256, u32::MAX] {
        store.numbers[0] = held;
        assert_eq!(read(&made(1, &[100 + MOST - 1]), &store, &large), (0, 0), "{held}");
        assert_eq!(read(&frame, &store, &large), (15, 0), "{held}");
        store.numbers[SET_NUMBERS..][..2].copy_from_slice(&[7, 1]);
        assert_eq!(read(&frame, &store, &large), (15, 0), "{held}");
        assert_eq!(add(&mut store, 1000, &[0.5]), 14, "{held}");
        assert_eq!(add(&mut store, 1000, &[0.5; MANY]), 8, "{held}");
    }
    // A set past those held isn't found, and no addition looks at it.
    let mut store = Store::of(&[set_of(5, 1), set_of(7, 1)]);
    store.numbers[0] = 1;
    assert_eq!(read(&frame, &store, &large), (15, 0));
    assert_eq!(add(&mut store, 6, &[0.5]), 0);
    store.numbers[0] = 0;
    assert_eq!(read(&made(1, &[5]), &store, &large), (15, 0));
    assert_eq!(add(&mut store, 0, &[0.5]), 0);
    // More channels than there can be: refused 8 for the frames of that set, after its confRev.
    let mut store = Store::of(&[set_of(5, 1), set_of(7, 1)]);
    for said in [MANY as u32, MANY as u32 + 1, 256, 257, 1 << 29, u32::MAX] {
        store.numbers[4] = said;
        for before in both() {
            for frame in [&frame[..], &frame[..40], &made(1, &[7, 5])] {
                assert_eq!(read(frame, &store, &before), (8, 0), "{said}");
            }
            assert_eq!(read(&frame[..39], &store, &before), (1, 39), "{said}");
        }
        assert_eq!(read(&made(1, &[5]), &store, &large), (0, 0), "{said}");
        assert_eq!(read(&made(1, &[6]), &store, &large), (15, 0), "{said}");
    }
    // Of the same confRev twice the first counts, also where the confRevs don't increase.
    let mut store = Store::of(&[set_of(7, 1), set_of(8, 2), set_of(9, 0)]);
    (store.numbers[3], store.numbers[5]) = (7, 5);
    assert_eq!((read(&frame, &store, &large), channels(&frame, &store)), ((0, 0), 1));
    (store.numbers[1], store.numbers[3]) = (9, 7);
    let two = made(2, &[7]);
    assert_eq!((read(&two, &store, &large), channels(&two, &store)), ((0, 0), 2));
    let none = made(0, &[5]);
    assert_eq!((read(&none, &store, &large), channels(&none, &store)), ((0, 0), 0));
    // Higher than all held, and not than the last alone.
    assert_eq!(add(&mut store, 9, &[0.5]), 14);
    assert_eq!(add(&mut store, 10, &[0.5]), 0);
}

// ---- generated frames and stores

fn scales(random: &mut Random, channels: usize) -> Vec<f32> {
    (0..channels).map(|_| f32::from_bits(random.draw() as u32)).collect()
}

/// A confRev near to this one, with octets in common with it, or any.
fn near(random: &mut Random, conf_rev: u32) -> u32 {
    match random.below(6) {
        0 => conf_rev,
        1 => conf_rev.wrapping_add(1),
        2 => conf_rev.wrapping_sub(1),
        3 => conf_rev ^ 1 << random.below(32),
        4 => conf_rev.wrapping_add(random.below(1 << 10) as u32),
        _ => random.draw() as u32,
    }
}

/// A number of channels: mostly this one.
fn channels_near(random: &mut Random, channels: usize) -> usize {
    if random.percent(80) {
        channels
    } else {
        random.among(0, MAX_CHANNELS)
    }
}

/// A store that additions make, some of them refused: mostly with a set of this confRev, after lower ones
/// and before higher ones.
fn store_by_additions(
    random: &mut Random,
    conf_rev: u32,
    channels: usize,
    answers: &mut [usize; 15],
) -> Store {
    let mut store = Store::empty();
    let most = random.pick(&[0, 2, 8, MAX_SETS + 8]);
    let (lower, higher) = (random.among(0, most), random.among(0, most));
    let step = random.pick(&[1, 1, 3, 300]);
    let first = conf_rev.saturating_sub((lower * step) as u32);
    let below = (0..lower).map(|i| first.saturating_add((i * step) as u32));
    let own = random.percent(90).then_some(conf_rev);
    let above = (0..higher).map(|i| conf_rev.saturating_add((1 + i * step) as u32));
    for rev in below.chain(own).chain(above) {
        if random.percent(10) {
            let (other, channels) = (near(random, rev), random.among(0, MANY + 1));
            answers[add(&mut store, other, &scales(random, channels))] += 1;
        }
        let channels = if rev == conf_rev {
            channels_near(random, channels)
        } else {
            random.among(0, MAX_CHANNELS)
        };
        answers[add(&mut store, rev, &scales(random, channels))] += 1;
    }
    store
}

/// A store of any content: mostly with a set of this confRev, among those held or not.
fn store_of_any_content(random: &mut Random, conf_rev: u32, channels: usize) -> Store {
    let mut store = Store::empty();
    for number in &mut store.numbers {
        *number = match random.below(3) {
            0 => near(random, conf_rev),
            1 => random.among(0, MAX_SETS + 8) as u32,
            _ => random.draw() as u32,
        };
    }
    store.numbers[0] = match random.below(8) {
        0 => random.draw() as u32,
        1..=3 => random.among(MAX_SETS, MAX_SETS + 2) as u32,
        _ => random.among(0, MAX_SETS) as u32,
    };
    if random.percent(90) {
        let i = if random.percent(20) { MAX_SETS - 1 } else { random.below(MAX_SETS) };
        store.numbers[1 + 2 * i] = conf_rev;
        store.numbers[2 + 2 * i] = match random.below(8) {
            0 => random.pick(&[MANY as u32, MANY as u32 + 1, 256, u32::MAX]),
            _ => channels_near(random, channels) as u32,
        };
    }
    store.scales = Scales(scales(random, SET_SCALES + BEYOND));
    let (other, channels) = (near(random, conf_rev), random.among(0, MANY + 1));
    add(&mut store, other, &scales(random, channels));
    store
}

/// A frame that the library writes, its later ASDUs with the confRev of the first or others, or one that
/// the generator makes; cut, with an octet replaced, or neither. And the channels that it was made for.
fn any_frame(random: &mut Random, generated: &mut Frames) -> (usize, Vec<u8>) {
    let of_generator = if random.percent(25) { generated.next() } else { None };
    let (channels, mut frame) = of_generator.unwrap_or_else(|| {
        let channels = random.among(0, MAX_CHANNELS);
        let mut revs = [random.draw() as u32 >> random.below(32); MAX_ASDUS];
        let share = random.pick(&[0, 0, 0, 30]);
        for i in 1..MAX_ASDUS {
            if random.percent(share) {
                revs[i] = near(random, revs[0]);
            }
        }
        (channels, written(random, channels, |i, asdu| asdu.conf_rev = revs[i]))
    });
    damage(random, &mut frame);
    (channels, frame)
}

struct Case {
    frame: Vec<u8>,
    made_for: usize,
    store: Store,
    by_additions: bool,
}

fn case(random: &mut Random, generated: &mut Frames, answers: &mut [usize; 15]) -> Case {
    let (made_for, frame) = any_frame(random, generated);
    let first = first_rev(&frame).flatten().unwrap_or(random.draw() as u32);
    let last = conf_revs(&frame, made_for).last().copied();
    let conf_rev = last.filter(|_| random.percent(15)).unwrap_or(first);
    let by_additions = random.percent(60);
    let store = if by_additions {
        store_by_additions(random, conf_rev, made_for, answers)
    } else {
        store_of_any_content(random, conf_rev, made_for)
    };
    Case { frame, made_for, store, by_additions }
}

/// Reads a case into arrays like these and holds the answer to the list of sets: the number, and the
/// classes of cases with whether it is one of each.
fn held(case: &Case, before: &Arrays) -> (usize, [(&'static str, bool); 24]) {
    let Case { frame, made_for, store, by_additions } = case;
    let (number, _) = read(frame, store, &Lent::of(before.clone()));
    let sets = store.sets();
    let first = first_rev(frame);
    let its = |set: &Set| Some(Some(set.0)) == first;
    let place = sets.iter().position(its);
    let channels = place.map_or(0, |place| sets[place].1);
    let revs = conf_revs(frame, channels);
    let differ = revs.iter().any(|rev| *rev != revs[0]);
    let later = revs.iter().any(|rev| sets.iter().any(|set| set.0 == *rev));
    let no_asdu = first == Some(None);
    let in_array = store.numbers[1..SET_NUMBERS].chunks(2).any(|pair| Some(Some(pair[0])) == first);
    let ordinary = Arrays::large().read(None, frame, 0);
    let (accepted, is_15) = (number == 0, number == 15);
    let classes = [
        ("1 to 4, up to the first confRev", first.is_none()),
        ("1 to 5, after the first confRev", first.is_some() && (1..=5).contains(&number)),
        ("1 to 5, where a later confRev differs", (1..=5).contains(&number) && differ),
        ("7, where a later confRev differs", number == 7 && differ),
        ("8, where the frame is refused later", number == 8 && ordinary != 0),
        ("15, no ASDU", is_15 && no_asdu),
        ("15, no set is held", is_15 && sets.is_empty()),
        ("15, all sets that can be are held", is_15 && sets.len() == MAX_SETS),
        ("15, a later confRev has a set", is_15 && later),
        ("15, a set past those held", is_15 && in_array && (store.numbers[0] as usize) < MAX_SETS),
        ("15, the frame is refused later", is_15 && !no_asdu && ordinary != 0),
        ("15, arrays too short", is_15 && before.numbers.len() < HEAD_NUMBERS),
        ("16, the second ASDU", number == 16 && revs[0] != revs[1]),
        ("16, a later ASDU than the second", number == 16 && revs[0] == revs[1]),
        ("accepted, several ASDUs", accepted && 1 < revs.len()),
        ("accepted, the first set", accepted && place == Some(0)),
        ("accepted, the last set", accepted && place.is_some_and(|place| place + 1 == sets.len())),
        ("accepted, the last set of a full store", accepted && place == Some(MAX_SETS - 1)),
        (
            "accepted, of one confRev twice",
            accepted && 1 < sets.iter().filter(|set| its(set)).count(),
        ),
        ("accepted, no channel", accepted && channels == 0),
        ("accepted, 16 channels or more", accepted && 16 <= channels),
        ("accepted, other channels", accepted && channels != *made_for),
        ("accepted, a store of additions", accepted && *by_additions),
        ("accepted, a store of any content", accepted && !by_additions),
    ];
    (number, classes)
}

#[test]
fn generated_frames() {
    let mut additions = [0; 15];
    let tally = Tally::of(16, |random, generated| {
        let case = case(random, generated, &mut additions);
        let first = first_rev(&case.frame).flatten();
        let set = case.store.sets().into_iter().find(|set| Some(set.0) == first);
        let channels = set.map_or(0, |set| set.1.min(MAX_CHANNELS));
        let before = lent_for(random, &case.frame, channels);
        held(&case, &before)
    });
    println!("additions by their answer: {additions:?}");
    tally.print();
    for number in [0, 8, 14] {
        assert!(tally.cases / 100 <= additions[number], "{number}: {additions:?}");
    }
    tally.hold(15, &[1, 2, 3, 4, 5, 7, 8, 16], 4000);
}

// ---- a history

const ADDITIONS: usize = MAX_SETS + 8;
const HISTORIES: usize = 25;

/// A frame and what is lent to read it.
type Reading = (Vec<u8>, Lent);

/// Readings of frames of this confRev, made for so many channels: whole, cut, with a later ASDU of another
/// confRev, and into arrays that are too short.
fn readings(random: &mut Random, conf_rev: u32, channels: usize) -> Vec<Reading> {
    let one = written(random, channels, |_, asdu| asdu.conf_rev = conf_rev);
    let cut = one[..random.among(0, one.len())].to_vec();
    let other = made(channels, &[conf_rev, conf_rev, near(random, conf_rev)]);
    let short = Arrays::enough(1, channels).shorter();
    let short = short[random.below(short.len())].clone();
    let large = Lent::of(Arrays::large());
    vec![
        (one, large.clone()),
        (cut, large.clone()),
        (other, large),
        (made(channels, &[conf_rev]), Lent::of(short)),
    ]
}

/// The additions of a history: a confRev and a number of channels for each. Most are higher, some equal or
/// lower, and some have too many channels.
fn history(random: &mut Random) -> Vec<(u32, usize)> {
    let mut last = random.below(1 << 12) as u32;
    let mut additions = vec![];
    for _ in 0..ADDITIONS {
        let channels = if random.percent(3) { MANY } else { random.among(0, MAX_CHANNELS) };
        let conf_rev = match random.below(16) {
            0 => last,
            1 => last.saturating_sub(random.among(1, 600) as u32),
            _ => last + random.among(1, 300) as u32,
        };
        additions.push((conf_rev, channels));
        last = last.max(conf_rev);
    }
    additions
}

#[test]
fn later_additions_change_no_answer_but_15() {
    let mut random = Random(!number("HOPSICKLE_SEED", 1));
    // Additions by their answer, and of those refused the ones where the store is full; answers that
    // stayed, by number, and answers 15 that became another.
    let (mut additions, mut full, mut stayed, mut found) = ([0; 15], 0, [0; 17], 0);
    for _ in 0..HISTORIES {
        let mut store = Store::empty();
        let mut all: Vec<Reading> = vec![];
        for (conf_rev, channels) in history(&mut random) {
            all.extend(readings(&mut random, conf_rev, channels.min(MAX_CHANNELS)));
            let answers = |store: &Store| -> Vec<(usize, Lent)> {
                all.iter().map(|(frame, before)| answer(frame, store, before)).collect()
            };
            let before = answers(&store);
            full += usize::from(store.numbers[0] == MAX_SETS as u32);
            let number = add(&mut store, conf_rev, &scales(&mut random, channels));
            additions[number] += 1;
            for (old, new) in before.iter().zip(answers(&store)) {
                if old.0 == 15 && new.0 != 15 {
                    assert_eq!(number, 0);
                    found += 1;
                } else {
                    assert_eq!(*old, new);
                    stayed[new.0] += 1;
                }
            }
            for (frame, before) in &all {
                read(frame, &store, before);
            }
        }
        let revs: Vec<u32> = store.sets().iter().map(|set| set.0).collect();
        assert!(revs.windows(2).all(|pair| pair[0] < pair[1]), "{revs:?}");
    }
    println!("additions by their answer: {additions:?}, where the store is full: {full}");
    println!("answers that stayed: {stayed:?}, 15 that became another: {found}");
    for number in [0, 8, 14] {
        assert!(10 <= additions[number], "{additions:?}");
    }
    for number in [0, 1, 7, 15, 16] {
        assert!(100 <= stayed[number], "{stayed:?}");
    }
    assert!(100 <= found && 10 <= full, "{found} {full}");
}
