//! The arrays of a reading, and generated frames to read into them.

use hopsickle::sys::*;
use oracle::generate::{request, Random};
use oracle::layout::Cursor;

/// The arrays of a reading, filled with what no reading leaves.
#[derive(Clone, PartialEq, Debug)]
pub struct Arrays {
    pub numbers: Vec<u32>,
    pub octets: Vec<u8>,
    pub counts: Vec<i32>,
    pub qualities: Vec<u32>,
    pub place: usize,
}

impl Arrays {
    pub fn of(numbers: usize, octets: usize, counts: usize, qualities: usize) -> Arrays {
        Arrays {
            numbers: vec![0xdead_beef; numbers],
            octets: vec![0xa5; octets],
            counts: vec![0x5a5a_5a5a; counts],
            qualities: vec![0xdead_beef; qualities],
            place: 77,
        }
    }

    /// Enough for every frame, and more.
    pub fn large() -> Arrays {
        Arrays::of(MAX_NUMBERS + 3, MAX_OCTETS + 3, MAX_SAMPLES + 3, MAX_SAMPLES + 3)
    }

    /// Exactly enough for so many ASDUs, with so many samples each.
    pub fn enough(asdus: usize, samples: usize) -> Arrays {
        let numbers = HEAD_NUMBERS + asdus * ASDU_NUMBERS;
        let octets = HEAD_OCTETS + asdus * ASDU_OCTETS;
        Arrays::of(numbers, octets, asdus * samples, asdus * samples)
    }

    /// Reads a frame: the ordinary way, or strictly, shortest or fixed.
    pub fn read(&mut self, strict: Option<bool>, frame: &[u8], channels: usize) -> usize {
        let Arrays { numbers, octets, counts, qualities, place } = self;
        read(strict, frame, channels, numbers, octets, counts, qualities, place)
    }

    /// With one element less in one of the arrays that has any: all ways.
    pub fn shorter(&self) -> Vec<Arrays> {
        let mut all = vec![self.clone(); 4];
        all[0].numbers.pop();
        all[1].octets.pop();
        all[2].counts.pop();
        all[3].qualities.pop();
        all.retain(|one| one != self);
        all
    }
}

/// Frames with a number of channels, of the generator.
pub fn frames(mut random: Random) -> impl Iterator<Item = (usize, Vec<u8>)> {
    let requests = std::iter::repeat_with(move || request(&mut random));
    requests.filter(|asked| asked.kind == b'f').map(|asked| {
        let mut octets = Cursor(&asked.octets);
        let channels = usize::from(octets.u8().expect("a data set"));
        octets.octets(4 * channels).expect("a data set");
        (channels, octets.0.to_vec())
    })
}
