//! What is measured on: frames of one shape, in the form that each side takes.

use hopsickle::sys;
use hopsickle::{
    EthernetHeader, Form, Quality, Sample, SavAsdu, SavDataSetConfig, SavPdu, SavValueConfig,
};
use oracle::generate::Random;
use oracle::{original, types as theirs};

/// Frames of a case, which differ in smpCnt, counts and quality words.
pub const FRAMES: usize = 16;

/// Their confRev: reading by confRev has a store of a set for each one from 1 to it.
pub const CONF_REV: u32 = 8;

pub struct Shape {
    pub asdus: usize,
    pub channels: usize,
    /// Whether every optional field is there.
    pub full: bool,
}

/// A description in the flat arrays.
pub struct Flat {
    pub numbers: [u32; sys::MAX_NUMBERS],
    pub octets: [u8; sys::MAX_OCTETS],
    pub counts: [i32; sys::MAX_SAMPLES],
    pub qualities: [u32; sys::MAX_SAMPLES],
    pub values: [f32; sys::MAX_SAMPLES],
}

impl Flat {
    pub fn new() -> Flat {
        Flat {
            numbers: [0; sys::MAX_NUMBERS],
            octets: [0; sys::MAX_OCTETS],
            counts: [0; sys::MAX_SAMPLES],
            qualities: [0; sys::MAX_SAMPLES],
            values: [0.0; sys::MAX_SAMPLES],
        }
    }
}

/// One frame as octets, with its counters in the shortest form and in the fixed one, and as each
/// side's description.
pub struct One {
    pub frame: Vec<u8>,
    pub fixed: Vec<u8>,
    pub flat: Flat,
    pub counts: Vec<i32>,
    pub header: EthernetHeader,
    pub pdu: SavPdu,
    pub their_header: theirs::EthernetHeader,
    pub their_pdu: theirs::SavPdu,
}

pub struct Case {
    pub shape: Shape,
    pub scales: Vec<f32>,
    pub config: SavDataSetConfig,
    pub their_config: theirs::SavDataSetConfig,
    pub frames: Vec<One>,
}

/// `None` where the PDU would have more than 1,492 octets.
pub fn case(shape: Shape) -> Option<Case> {
    let mut random = Random(1);
    let scales: Vec<f32> =
        (0..shape.channels).map(|i| if i % 8 < 4 { 0.0001 } else { 0.01 }).collect();
    let config = SavDataSetConfig::new(scales.iter().copied().map(SavValueConfig::new).collect());
    let their_config = theirs::SavDataSetConfig::new(
        scales.iter().copied().map(theirs::SavValueConfig::new).collect(),
    );
    let mut frames = vec![];
    for _ in 0..FRAMES {
        frames.push(one(&mut random, &shape, &config, &their_config)?);
    }
    Some(Case { shape, scales, config, their_config, frames })
}

fn one(
    random: &mut Random,
    shape: &Shape,
    config: &SavDataSetConfig,
    their_config: &theirs::SavDataSetConfig,
) -> Option<One> {
    let header = EthernetHeader {
        dst_addr: [0x01, 0x0c, 0xcd, 0x04, 0x00, 0x01],
        src_addr: [0, 0, 0, 0, 0, 2],
        tpid: Some([0x81, 0x00]),
        tci: Some([0x80, 0x00]),
        ether_type: [0x88, 0xba],
        appid: [0x40, 0x00],
        length: [0; 2],
    };
    let asdu = SavAsdu {
        msv_id: "Feeder3_MU".to_string(),
        dat_set: shape.full.then(|| "MU1/LLN0$1".to_string()),
        conf_rev: CONF_REV,
        refr_tm: shape.full.then_some([0x5f, 1, 2, 3, 4, 5, 6, 0x0a]),
        smp_synch: 2,
        smp_rate: shape.full.then_some(4000),
        smp_mod: shape.full.then_some(1),
        gm_identity: shape.full.then_some([1, 2, 3, 4, 5, 6, 7, 8]),
        ..SavAsdu::default()
    };
    let first = random.below(4000);
    let sav_asdu = (0..shape.asdus).map(|i| SavAsdu {
        smp_cnt: ((first + i) % 4000) as u16,
        all_data: (0..shape.channels)
            .map(|_| Sample::new(0.0, Quality::from_sv(random.pick(&[0, 0, 0, 0x800])), 1.0))
            .collect(),
        ..asdu.clone()
    });
    let pdu = SavPdu {
        no_asdu: shape.asdus as u16,
        security: shape.full.then(|| vec![0x5a; 16]),
        sav_asdu: sav_asdu.collect(),
        ..SavPdu::default()
    };
    // Counts of at most 21 bits, whose values have the same counts again.
    let counts: Vec<i32> = (0..shape.asdus * shape.channels)
        .map(|_| random.below(1 << 22) as i32 - (1 << 21))
        .collect();
    let frame = hopsickle::encode_counts(&header, &pdu, &counts, Form::Shortest).ok()?;
    let fixed = hopsickle::encode_counts(&header, &pdu, &counts, Form::Fixed).ok()?;
    let read = hopsickle::read_strict(&frame, config, Form::Shortest).expect("what was written");
    let mut flat = Flat::new();
    let mut place = 0;
    let number = sys::read(
        None,
        &frame,
        shape.channels,
        &mut flat.numbers,
        &mut flat.octets,
        &mut flat.counts,
        &mut flat.qualities,
        &mut place,
    );
    assert_eq!(number, 0);
    flat.values[..counts.len()].copy_from_slice(read.values());
    let mut their_header = theirs::EthernetHeader::default();
    let start = original::ethernet_header::decode_ethernet_header(&mut their_header, &frame);
    let their_pdu = original::decode_smv::decode_smv(&frame, start, their_config).ok()?;
    let written = original::encode_smv::encode_smv(&their_header, &their_pdu).ok()?;
    assert_eq!(written, frame);
    assert_eq!(hopsickle::encode_smv(&read.header(), &read.pdu()).ok()?, frame);
    let (header, pdu) = (read.header(), read.pdu());
    Some(One { frame, fixed, flat, counts, header, pdu, their_header, their_pdu })
}
