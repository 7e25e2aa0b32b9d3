//! Values that are read and written again give the counts back, where these are from -4,194,303 to
//! 4,194,303 and the scale factors of magnitude 2^-30 to 2^30: by the library and by the original, on
//! HOPSICKLE_CASES frames (40,000 where it isn't given) generated from HOPSICKLE_SEED (1).

mod environment;
#[allow(dead_code)]
mod made;

use environment::number;
use hopsickle::sys::{MAX_ASDUS, MAX_CHANNELS};
use hopsickle::{encode_values, read_frame, Form, SavDataSetConfig, SavValueConfig};
use made::{described, fitting};
use oracle::generate::Random;
use oracle::hex::hex;
use oracle::original::{decode_smv, encode_smv, ethernet_header};
use oracle::types as theirs;

// ---- counts and scale factors

/// The end of the counts that are promised.
const PROMISED: usize = 2_097_152;

/// The end of those that are made.
const MOST: usize = 4_194_303;

/// The bits of 2^-30 and of 2^30.
const SCALES: [u32; 2] = [(127 - 30) << 23, (127 + 30) << 23];

/// Exponents from the one to the other.
const EXPONENTS: usize = 61;

/// The bits of a significand after its first, which is 1.
const FRACTION: u32 = 0x7f_ffff;

/// The scale factors of the data set `le_92`.
const LE_92: [f32; 2] = [0.0001, 0.01];

/// Any count, or one at or near an end.
fn count(random: &mut Random) -> i32 {
    let odd = 1 + 2 * random.below(1000);
    let magnitude = match random.below(8) {
        0 => random.pick(&[0, 1, PROMISED, MOST - 1, MOST]),
        1 => MOST + 1 - odd,
        2 => PROMISED - odd,
        3 => PROMISED + odd,
        4 => random.among(0, MOST) >> random.below(22),
        _ => random.among(0, MOST),
    };
    random.pick(&[1, -1]) * magnitude as i32
}

/// Any scale factor, or one at an end, a power of two, with a significand near 1 or near 2, or of
/// `le_92`.
fn scale(random: &mut Random) -> f32 {
    let near = random.below(1 << 16) as u32 >> random.below(17);
    let fraction = match random.below(6) {
        0 => 0,
        1 => near,
        2 => FRACTION - near,
        _ => random.draw() as u32 & FRACTION,
    };
    let exponent = random.below(EXPONENTS - 1) as u32;
    let magnitude = match random.below(20) {
        0 | 1 => random.pick(&SCALES),
        2 => random.pick(&LE_92).to_bits(),
        _ => SCALES[0] + (exponent << 23) + fraction,
    };
    random.pick(&[1.0, -1.0]) * f32::from_bits(magnitude)
}

fn bits(scale: f32) -> u32 {
    scale.abs().to_bits()
}

fn fraction(scale: f32) -> u32 {
    scale.to_bits() & FRACTION
}

/// A class of pairs: its name, and whether a count of this magnitude at a scale factor is one.
type Class = (&'static str, fn(usize, f32) -> bool);

const CLASSES: [Class; 12] = [
    ("count 0", |count, _| count == 0),
    ("count 1", |count, _| count == 1),
    ("count to 2,097,152", |count, _| count <= PROMISED),
    ("count 2,097,152", |count, _| count == PROMISED),
    ("count 4,194,302 or 4,194,303", |count, _| MOST - 1 <= count),
    ("odd count above 4,192,303", |count, _| MOST - 2000 < count && count % 2 == 1),
    ("scale factor 2^-30", |_, scale| bits(scale) == SCALES[0]),
    ("scale factor 2^30", |_, scale| bits(scale) == SCALES[1]),
    ("scale factor a power of two", |_, scale| fraction(scale) == 0),
    ("significand near 1", |_, scale| (1..0x1000).contains(&fraction(scale))),
    ("significand near 2", |_, scale| FRACTION - 0x1000 < fraction(scale)),
    ("scale factor of le_92", |_, scale| LE_92.contains(&scale.abs())),
];

// ---- frames

struct Case {
    scales: Vec<f32>,
    form: Form,
    counts: Vec<i32>,
    /// The frame that the library writes with these counts.
    frame: Vec<u8>,
}

fn case(random: &mut Random) -> Case {
    let channels = random.among(1, MAX_CHANNELS);
    let scales = (0..channels).map(|_| scale(random)).collect();
    let (header, mut pdu) = described(random, channels);
    let mut counts: Vec<i32> = (0..MAX_ASDUS * channels).map(|_| count(random)).collect();
    let form = random.pick(&[Form::Shortest, Form::Fixed]);
    let frame = fitting(&header, &mut pdu, &counts, form);
    counts.truncate(pdu.sav_asdu.len() * channels);
    Case { scales, form, counts, frame }
}

impl Case {
    /// The pairs of a count and its scale factor.
    fn pairs(&self) -> impl Iterator<Item = (i32, f32)> + '_ {
        self.counts.iter().copied().zip(self.scales.iter().copied().cycle())
    }

    /// What is wrong with counts that have to be those of the case: how many differ, and the first.
    fn not_returned(&self, who: &str, back: &[Option<i32>]) -> Result<(), Wrong> {
        let pairs = self.pairs().zip(back);
        let mut wrong = pairs.filter(|((count, _), back)| Some(*count) != **back);
        let Some(((count, scale), back)) = wrong.next() else { return Ok(()) };
        let back = back.map_or("nothing".to_string(), |back| back.to_string());
        let what = format!("{who}: {count} at {:08x} comes back as {back}", scale.to_bits());
        Err(Wrong { pairs: 1 + wrong.count(), what })
    }
}

/// How many pairs of a frame aren't returned, and what differs first.
struct Wrong {
    pairs: usize,
    what: String,
}

fn alike<T: PartialEq + std::fmt::Debug>(what: &str, one: T, other: T) -> Result<(), Wrong> {
    if one == other {
        return Ok(());
    }
    Err(Wrong { pairs: 0, what: format!("{what}: {one:x?}, and not {other:x?}") })
}

/// The values that the library reads. Written again they have to give the frame.
fn ours(case: &Case) -> Result<Vec<f32>, Wrong> {
    let all = |what: String| Wrong { pairs: case.counts.len(), what };
    let config = case.scales.iter().map(|scale| SavValueConfig::new(*scale)).collect();
    let config = SavDataSetConfig::new(config);
    let read = read_frame(&case.frame, &config).map_err(|refusal| all(refusal.to_string()))?;
    alike("counts read", read.counts(), &case.counts)?;
    let again = encode_values(&read.header(), &read.pdu(), case.form);
    let again = again.map_err(|refusal| all(refusal.to_string()))?;
    let back = read_frame(&again, &config).map_err(|refusal| all(refusal.to_string()))?;
    let counts: Vec<_> = back.counts().iter().copied().map(Some).collect();
    alike("number of samples", counts.len(), case.counts.len())?;
    case.not_returned("the library", &counts)?;
    alike("frame written again", hex(&again), hex(&case.frame))?;
    Ok(read.values().to_vec())
}

/// What the original reads has to have these values. Written again each sample has to give its count,
/// and in the shortest form, the only one that the original writes, all of them the frame.
fn original(case: &Case, values: &[f32]) -> Result<(), Wrong> {
    let all = |what: String| Wrong { pairs: case.counts.len(), what };
    let config = case.scales.iter().map(|scale| theirs::SavValueConfig::new(*scale)).collect();
    let config = theirs::SavDataSetConfig::new(config);
    let mut header = theirs::EthernetHeader::default();
    let start = ethernet_header::decode_ethernet_header(&mut header, &case.frame);
    let pdu = decode_smv::decode_smv(&case.frame, start, &config);
    let pdu = pdu.map_err(|error| all(format!("{error:?}")))?;
    let samples = || pdu.sav_asdu.iter().flat_map(|asdu| &asdu.all_data);
    let bits: Vec<u32> = samples().map(|sample| sample.value.to_bits()).collect();
    alike("values", bits, values.iter().map(|value| value.to_bits()).collect())?;

    let count = |sample| {
        let mut octets = [0; 8];
        encode_smv::private::sample(&mut octets, 0, sample).ok()?;
        octets.first_chunk().copied().map(i32::from_be_bytes)
    };
    let counts: Vec<_> = samples().map(count).collect();
    case.not_returned("the original", &counts)?;
    if case.form == Form::Shortest {
        let again = encode_smv::encode_smv(&header, &pdu);
        let again = again.map_err(|error| all(format!("{error:?}")))?;
        alike("frame written again by the original", hex(&again), hex(&case.frame))?;
    }
    Ok(())
}

// ---- all of them

#[derive(Default)]
struct Tally {
    /// Frames in the shortest form and in the fixed form, and pairs of them.
    frames: [usize; 2],
    pairs: [usize; 2],
    /// Pairs of each class.
    classes: [usize; CLASSES.len()],
    /// Scale factors above 0, by their exponents from -30 on, then those below 0.
    exponents: Vec<usize>,
    /// Pairs that aren't returned, and the frames that are wrong, in words.
    lost: usize,
    wrong: Vec<String>,
}

impl Tally {
    fn add(&mut self, case: &Case, outcome: Result<(), Wrong>) {
        let form = usize::from(case.form == Form::Fixed);
        self.frames[form] += 1;
        self.pairs[form] += case.counts.len();
        for (count, scale) in case.pairs() {
            for (number, (_, is_one)) in self.classes.iter_mut().zip(CLASSES) {
                *number += usize::from(is_one(count.unsigned_abs() as usize, scale));
            }
        }
        for scale in &case.scales {
            let exponent = (bits(*scale) - SCALES[0]) as usize >> 23;
            self.exponents[exponent + EXPONENTS * usize::from(*scale < 0.0)] += 1;
        }
        if let Err(Wrong { pairs, what }) = outcome {
            self.lost += pairs;
            self.wrong.push(format!("{what}; {:?} {}", case.scales, hex(&case.frame)));
        }
    }

    fn print(&self) {
        let Tally { frames, pairs, classes, lost, .. } = self;
        let by_original = ["frame by frame", "sample by sample"];
        for (i, form) in ["shortest", "fixed"].iter().enumerate() {
            let (frames, pairs, by) = (frames[i], pairs[i], by_original[i]);
            println!("{form} form: {frames} frames, {pairs} pairs, by the original {by}");
        }
        for ((class, _), number) in CLASSES.iter().zip(classes) {
            println!("{class}: {number} pairs");
        }
        println!("{} pairs, {lost} not returned", pairs[0] + pairs[1]);
    }

    /// Holds that nothing is wrong; and that there are frames of 25 pairs on average, a third of them in
    /// each form, and one in a thousand pairs of each class and scale factors of each exponent and sign.
    fn hold(&self, cases: usize) {
        let Tally { frames, pairs, classes, exponents, lost, wrong } = self;
        let first: Vec<_> = wrong.iter().take(5).collect();
        assert!(wrong.is_empty(), "{lost} pairs, {} frames: {first:#?}", wrong.len());
        assert_eq!((*lost, frames[0] + frames[1]), (0, cases));
        let all = pairs[0] + pairs[1];
        assert!(25 * cases.max(1) <= all, "{all}");
        assert!(frames.iter().all(|number| cases / 3 <= *number), "{frames:?}");
        for ((class, _), number) in CLASSES.iter().zip(classes) {
            assert!(all / 1000 <= *number, "{class}: {number}");
        }
        let scales: usize = exponents.iter().sum();
        assert!(exponents.iter().all(|number| scales / 1000 <= *number), "{exponents:?}");
    }
}

#[test]
fn values_written_again() {
    let cases = number("HOPSICKLE_CASES", 40_000) as usize;
    let mut random = Random(number("HOPSICKLE_SEED", 1));
    let mut tally = Tally { exponents: vec![0; 2 * EXPONENTS], ..Tally::default() };
    for _ in 0..cases {
        let case = case(&mut random);
        let outcome = ours(&case).and_then(|values| original(&case, &values));
        tally.add(&case, outcome);
    }
    tally.print();
    tally.hold(cases);
}
