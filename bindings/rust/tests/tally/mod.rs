//! Generated cases, counted by their answer and by their classes.

use crate::arrays::{frames, Arrays};
use crate::environment::number;
use crate::walk::{lent, walk};
use oracle::generate::Random;
use std::collections::BTreeMap;

/// Frames with a number of channels.
pub type Frames<'a> = dyn Iterator<Item = (usize, Vec<u8>)> + 'a;

/// Arrays to lend for reading a frame with so many channels.
pub fn lent_for(random: &mut Random, frame: &[u8], channels: usize) -> Arrays {
    let (lengths, refused) = walk(frame, channels);
    lent(random, if refused { 0 } else { lengths.len() }, channels)
}

pub struct Tally {
    pub cases: usize,
    answers: Vec<usize>,
    classes: BTreeMap<&'static str, usize>,
}

impl Tally {
    /// Of HOPSICKLE_CASES cases (20,000 where it isn't given), from HOPSICKLE_SEED (1): `one` makes a case,
    /// by the generator's frames or without, and says its answer, at most `last`, and the classes with
    /// whether it is one of each.
    pub fn of<const N: usize>(
        last: usize,
        mut one: impl FnMut(&mut Random, &mut Frames) -> (usize, [(&'static str, bool); N]),
    ) -> Tally {
        let seed = number("HOPSICKLE_SEED", 1);
        let cases = number("HOPSICKLE_CASES", 20_000) as usize;
        let mut random = Random(!seed);
        let mut generated = frames(Random(seed));
        let mut tally = Tally { cases, answers: vec![0; last + 1], classes: BTreeMap::new() };
        for _ in 0..cases {
            let (number, classes) = one(&mut random, &mut generated);
            tally.answers[number] += 1;
            for (class, is) in classes {
                *tally.classes.entry(class).or_default() += usize::from(is);
            }
        }
        tally
    }

    pub fn print(&self) {
        println!("frames by their answer: {:?}", self.answers);
        for (class, count) in &self.classes {
            println!("{class}: {count}");
        }
    }

    /// Holds that a tenth of the cases is accepted, a tenth answered with this number, and that of the
    /// others and of each class there is one in so many cases.
    pub fn hold(&self, often: usize, others: &[usize], one_in: usize) {
        let Tally { cases, answers, classes } = self;
        assert!(cases / 10 <= answers[0] && cases / 10 <= answers[often], "{answers:?}");
        let some = (cases / one_in).max(1);
        for number in others {
            assert!(some <= answers[*number], "{number}: {answers:?}");
        }
        for (class, count) in classes {
            assert!(some <= *count, "{class}: {count}");
        }
    }
}
