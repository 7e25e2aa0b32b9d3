//! Frames of few octets, descriptions and frames that the library writes of them, and damage to frames.

use hopsickle::sys::{MAX_ASDUS, MAX_SECURITY, MAX_TEXT};
use hopsickle::{encode_counts, EthernetHeader, Form, Quality, Refusal, Sample, SavAsdu, SavPdu};
use oracle::frame::{integer, length_octets};
use oracle::generate::{Random, FIRST_LENGTH_OCTETS};

fn element(tag: u8, content: &[u8]) -> Vec<u8> {
    [&[tag][..], &length_octets(content.len(), 0), content].concat()
}

/// A frame with an ASDU for each of these confRevs and length octets after 87, and samples of so many
/// channels.
pub fn framed(channels: usize, asdus: &[(u32, &[u8])]) -> Vec<u8> {
    let asdu = |(conf_rev, length): &(u32, &[u8])| {
        let mut content = vec![0x80, 0x01, 0x41, 0x82, 0x01, 0x05];
        content.extend(element(0x83, &integer(*conf_rev)));
        content.extend([0x85, 0x01, 0x02, 0x87]);
        content.extend(*length);
        content.extend([0x00, 0x00, 0x03, 0xe8, 0x00, 0x00, 0x00, 0x41].repeat(channels));
        element(0x30, &content)
    };
    let contents: Vec<u8> = asdus.iter().flat_map(asdu).collect();
    let pdu = [&[0x80, 0x01, asdus.len() as u8][..], &element(0xa2, &contents)].concat();
    let pdu = element(0x60, &pdu);
    let mut frame = vec![0x01, 0x0c, 0xcd, 0x04, 0x00, 0x01, 0x00, 0x00, 0x00, 0x00, 0x00, 0x02];
    frame.extend([0x88, 0xba, 0x40, 0x00]);
    frame.extend((pdu.len() as u16 + 8).to_be_bytes());
    frame.extend([0x00, 0x00, 0x00, 0x00]);
    frame.extend(pdu);
    frame
}

fn text(random: &mut Random) -> String {
    let most = if random.percent(10) { MAX_TEXT } else { 12 };
    (0..random.among(0, most)).map(|_| random.pick(b"ABCxyz019_/$") as char).collect()
}

fn asdu(random: &mut Random, channels: usize) -> SavAsdu {
    let mut asdu = SavAsdu {
        msv_id: text(random),
        smp_cnt: random.draw() as u16 >> random.below(16),
        conf_rev: random.draw() as u32 >> random.below(32),
        smp_synch: random.draw() as u8 >> random.below(8),
        ..SavAsdu::default()
    };
    asdu.dat_set = random.percent(50).then(|| text(random));
    asdu.refr_tm = random.percent(50).then(|| random.draw().to_be_bytes());
    asdu.smp_rate = random.percent(50).then(|| random.draw() as u16);
    asdu.smp_mod = random.percent(50).then(|| random.draw() as u16);
    asdu.gm_identity = random.percent(50).then(|| random.draw().to_be_bytes());
    let sample = |_| Sample::new(0.0, Quality::from_sv(random.draw() as u32), 1.0);
    asdu.all_data = (0..channels).map(sample).collect();
    asdu
}

/// A header and a PDU of so many channels, of one to `MAX_ASDUS` ASDUs. The values are 0.
pub fn described(random: &mut Random, channels: usize) -> (EthernetHeader, SavPdu) {
    let tagged = random.percent(50);
    let header = EthernetHeader {
        dst_addr: [0x01, 0x0c, 0xcd, 0x04, 0x00, random.draw() as u8],
        tpid: tagged.then_some([0x81, 0x00]),
        tci: tagged.then(|| [0x80, random.draw() as u8]),
        ether_type: [0x88, 0xba],
        ..EthernetHeader::default()
    };
    let security =
        random.percent(30).then(|| vec![random.draw() as u8; random.among(0, MAX_SECURITY)]);
    let most = random.pick(&[1, MAX_ASDUS]);
    let asdus: Vec<SavAsdu> = (0..random.among(1, most)).map(|_| asdu(random, channels)).collect();
    let no_asdu = asdus.len() as u16;
    (header, SavPdu { sim: random.percent(50), no_asdu, security, sav_asdu: asdus })
}

/// The frame that the library writes with these counts, of as many of the ASDUs as fit; the others are
/// taken out.
pub fn fitting(header: &EthernetHeader, pdu: &mut SavPdu, counts: &[i32], form: Form) -> Vec<u8> {
    loop {
        match encode_counts(header, pdu, counts, form) {
            Ok(frame) => return frame,
            Err(refusal) => assert_eq!(refusal.number, Refusal::TOO_LONG_TO_WRITE),
        }
        pdu.sav_asdu.pop();
        pdu.no_asdu -= 1;
    }
}

/// A frame of so many channels as the library writes it, of one to `MAX_ASDUS` ASDUs as far as they fit,
/// each altered before, by its index.
pub fn written(
    random: &mut Random,
    channels: usize,
    alter: impl Fn(usize, &mut SavAsdu),
) -> Vec<u8> {
    let (header, mut pdu) = described(random, channels);
    pdu.sav_asdu.iter_mut().enumerate().for_each(|(i, asdu)| alter(i, asdu));
    let counts: Vec<i32> = (0..MAX_ASDUS * channels).map(|_| random.draw() as i32).collect();
    let form = random.pick(&[Form::Shortest, Form::Fixed]);
    fitting(&header, &mut pdu, &counts, form)
}

/// Cuts a frame or replaces an octet, or neither.
pub fn damage(random: &mut Random, frame: &mut Vec<u8>) {
    match random.below(8) {
        0 => frame.truncate(random.among(0, frame.len())),
        1 if !frame.is_empty() => {
            let place = random.below(frame.len());
            frame[place] = match random.below(2) {
                0 => random.pick(&FIRST_LENGTH_OCTETS),
                _ => random.draw() as u8,
            };
        }
        _ => (),
    }
}
