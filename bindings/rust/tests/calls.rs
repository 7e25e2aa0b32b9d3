//! Each call by itself: document 01's octets, limits, refusals with their places, errors.

use hopsickle::sys::{MAX_ASDUS, MAX_CHANNELS, MAX_FRAME, MAX_SECURITY, MAX_SETS, MAX_TEXT};
use hopsickle::*;

/// Document 01's frame.
const FRAME: [u8; 53] = [
    0x01, 0x0c, 0xcd, 0x04, 0x00, 0x01, 0x00, 0x00, 0x00, 0x00, 0x00, 0x02, 0x88, 0xba, 0x40, 0x00,
    0x00, 0x27, 0x00, 0x00, 0x00, 0x00, 0x60, 0x1d, 0x80, 0x01, 0x01, 0xa2, 0x18, 0x30, 0x16, 0x80,
    0x01, 0x41, 0x82, 0x01, 0x05, 0x83, 0x01, 0x01, 0x85, 0x01, 0x02, 0x87, 0x08, 0x00, 0x00, 0x03,
    0xe8, 0x00, 0x00, 0x00, 0x00,
];

/// The same in the fixed form.
const FIXED_FRAME: [u8; 57] = [
    0x01, 0x0c, 0xcd, 0x04, 0x00, 0x01, 0x00, 0x00, 0x00, 0x00, 0x00, 0x02, 0x88, 0xba, 0x40, 0x00,
    0x00, 0x2b, 0x00, 0x00, 0x00, 0x00, 0x60, 0x21, 0x80, 0x01, 0x01, 0xa2, 0x1c, 0x30, 0x1a, 0x80,
    0x01, 0x41, 0x82, 0x02, 0x00, 0x05, 0x83, 0x04, 0x00, 0x00, 0x00, 0x01, 0x85, 0x01, 0x02, 0x87,
    0x08, 0x00, 0x00, 0x03, 0xe8, 0x00, 0x00, 0x00, 0x00,
];

/// More channels than there can be.
const MANY: usize = MAX_CHANNELS + 1;

fn data_set(scales: &[f32]) -> SavDataSetConfig {
    SavDataSetConfig::new(scales.iter().copied().map(SavValueConfig::new).collect())
}

fn refusal(number: usize, place: usize) -> Refusal {
    Refusal { number, place }
}

fn samples(values: &[f32], scale: f32) -> Vec<Sample> {
    values.iter().map(|value| Sample::new(*value, Quality::default(), scale)).collect()
}

/// The description of document 01's frame.
fn described() -> (EthernetHeader, SavPdu) {
    let header = EthernetHeader {
        dst_addr: [0x01, 0x0c, 0xcd, 0x04, 0x00, 0x01],
        src_addr: [0, 0, 0, 0, 0, 2],
        ether_type: [0x88, 0xba],
        appid: [0x40, 0x00],
        ..EthernetHeader::default()
    };
    let asdu = SavAsdu {
        msv_id: "A".to_string(),
        smp_cnt: 5,
        conf_rev: 1,
        smp_synch: 2,
        all_data: samples(&[1000.0], 1.0),
        ..SavAsdu::default()
    };
    (header, SavPdu { no_asdu: 1, sav_asdu: vec![asdu], ..SavPdu::default() })
}

/// Two tagged ASDUs with every optional field.
fn full() -> (EthernetHeader, SavPdu) {
    let (mut header, mut pdu) = described();
    header.tpid = Some([0x81, 0x00]);
    header.tci = Some([0x80, 0x05]);
    pdu.sim = true;
    pdu.security = Some(vec![1, 2, 3]);
    let asdu = &mut pdu.sav_asdu[0];
    asdu.dat_set = Some("LD0/LLN0$PhsMeas1".to_string());
    asdu.smp_cnt = 65_535;
    asdu.conf_rev = 4_294_967_295;
    asdu.refr_tm = Some([1, 2, 3, 4, 5, 6, 7, 8]);
    asdu.smp_rate = Some(4000);
    asdu.smp_mod = Some(1);
    asdu.gm_identity = Some([9, 8, 7, 6, 5, 4, 3, 2]);
    asdu.all_data[0].quality = Quality::from_sv(0x1fff);
    pdu.sav_asdu.push(SavAsdu { msv_id: "é".to_string(), ..pdu.sav_asdu[0].clone() });
    pdu.no_asdu = 2;
    (header, pdu)
}

fn refused(pair: (EthernetHeader, SavPdu)) -> Option<usize> {
    let error = encode_smv(&pair.0, &pair.1).err()?;
    assert_eq!(error.refusal().map(|refusal| refusal.place), Some(0));
    error.refusal().map(|refusal| refusal.number)
}

/// What a change to document 01's description is refused as.
fn changed(change: impl FnOnce(&mut EthernetHeader, &mut SavPdu)) -> Option<usize> {
    let (mut header, mut pdu) = described();
    change(&mut header, &mut pdu);
    let written = refused((header.clone(), pdu.clone()));
    if written != Some(Refusal::VALUE_OUT_OF_RANGE) {
        assert_eq!(
            smv_size(&header, &pdu, Form::Shortest).err().map(|refusal| refusal.number),
            written
        );
    }
    written
}

#[test]
fn frame_test() {
    assert!(is_smv_frame(&FRAME));
    assert!(is_smv_frame(&FRAME[..14]));
    assert!(!is_smv_frame(&FRAME[..13]));
    assert!(!is_smv_frame(&[]));
    let (header, pdu) = full();
    let tagged = encode_smv(&header, &pdu).unwrap();
    assert!(is_smv_frame(&tagged[..18]));
    assert!(!is_smv_frame(&tagged[..17]));
}

#[test]
fn header() {
    let (described, _) = described();
    let mut header = EthernetHeader::default();
    assert_eq!(decode_ethernet_header(&mut header, &FRAME), 22);
    assert_eq!(header, EthernetHeader { length: [0x00, 0x27], ..described });

    let (tagged, pdu) = full();
    let octets = encode_smv(&tagged, &pdu).unwrap();
    assert_eq!(decode_ethernet_header(&mut header, &octets), 26);
    assert_eq!(header, EthernetHeader { length: header.length, ..tagged });
    assert_eq!(usize::from(u16::from_be_bytes(header.length)), octets.len() - 18);
}

#[test]
fn header_that_ends_too_soon() {
    let before = EthernetHeader { appid: [7, 7], ..EthernetHeader::default() };
    let mut header = before.clone();
    assert_eq!(decode_ethernet_header(&mut header, &FRAME[..17]), 17);
    assert_eq!(header, before);
    let error = decode_smv(&FRAME[..17], 17, &data_set(&[1.0])).unwrap_err();
    assert_eq!(error.refusal(), Some(refusal(1, 17)));
    assert_eq!(read_frame(&FRAME[..17], &data_set(&[1.0])).err(), Some(refusal(1, 17)));
    // The header needs no reserved octets, and its end can lie past that of the buffer.
    assert_eq!(decode_ethernet_header(&mut header, &FRAME[..18]), 22);
    assert_eq!(decode_ethernet_header(&mut header, &[]), 0);
}

#[test]
fn pdu() {
    let (_, pdu) = described();
    assert_eq!(decode_smv(&FRAME, 22, &data_set(&[1.0])), Ok(pdu.clone()));
    // The simulation mark is looked for from the buffer's start: here the first bit of 83.
    let marked = SavPdu { sim: true, ..pdu };
    assert_eq!(decode_smv(&FRAME[22..], 0, &data_set(&[1.0])), Ok(marked));
    let none = decode_smv(&FRAME, 22, &data_set(&[])).unwrap();
    assert!(none.sav_asdu[0].all_data.is_empty());

    let (header, pdu) = full();
    let octets = encode_smv(&header, &pdu).unwrap();
    assert_eq!(decode_smv(&octets, 26, &data_set(&[1.0])), Ok(pdu));
}

#[test]
fn refusals_of_reading() {
    let read = |octets: &[u8], channels: usize| {
        let data = data_set(&vec![1.0; channels]);
        let one = read_frame(octets, &data).err();
        let other = decode_smv(octets, 22, &data).err();
        assert_eq!(other.as_ref().and_then(DecodeError::refusal), one);
        assert_eq!(other.map(|error| error.buffer_index), one.map(|refusal| refusal.place));
        one
    };
    assert_eq!(read(&FRAME, 1), None);
    assert_eq!(read(&FRAME[..50], 1), Some(refusal(1, 45)));
    assert_eq!(read(&FRAME, 2), Some(refusal(1, 53)));
    assert_eq!(read(&FRAME, MANY), Some(refusal(8, 0)));
    assert_eq!(read(&[], MANY), Some(refusal(8, 0)));
    let with = |at: usize, octet: u8| {
        let mut octets = FRAME;
        octets[at] = octet;
        octets
    };
    assert_eq!(read(&with(23, 0x80), 1), Some(refusal(2, 22)));
    assert_eq!(read(&with(35, 0x04), 1), Some(refusal(3, 36)));
    assert_eq!(read(&with(26, MAX_ASDUS as u8 + 1), 1), Some(refusal(4, 26)));
    let mut long = FRAME.to_vec();
    long.extend([0x89, 9, 0, 0, 0, 0, 0, 0, 0, 0, 0]);
    assert_eq!(read(&long, 1), Some(refusal(5, 55)));
    assert_eq!(
        decode_smv(&FRAME, usize::MAX, &data_set(&[1.0])).err().map(|x| x.buffer_index),
        Some(usize::MAX)
    );
}

#[test]
fn what_was_read() {
    let (header, pdu) = full();
    let octets = encode_smv(&header, &pdu).unwrap();
    let frame = read_frame(&octets, &data_set(&[1.0])).unwrap();
    assert_eq!((frame.no_asdu(), frame.channels()), (2, 1));
    assert_eq!(frame.sv_id(0), Some(&b"A"[..]));
    assert_eq!(frame.sv_id(1), Some("é".as_bytes()));
    assert_eq!(frame.sv_id(2), None);
    assert_eq!(frame.dat_set(0), Some(&b"LD0/LLN0$PhsMeas1"[..]));
    assert_eq!(frame.dat_set(usize::MAX), None);
    assert_eq!(frame.security(), Some(&[1, 2, 3][..]));
    assert_eq!(frame.counts(), [1000, 1000]);
    assert_eq!(frame.values(), [1000.0, 1000.0]);
    assert_eq!(frame.qualities(), [0x1fff, 0x1fff]);
    assert_eq!(frame.pdu(), pdu);
    let length = (octets.len() as u16 - 18).to_be_bytes();
    assert_eq!(frame.header(), EthernetHeader { length, ..header });

    let empty = Frame::default();
    assert_eq!((empty.no_asdu(), empty.sv_id(0), empty.security()), (0, None, None));
    assert!(empty.counts().is_empty());
}

#[test]
fn octets_that_are_no_utf_8() {
    let mut octets = FRAME;
    octets[33] = 0xff;
    let frame = read_strict(&octets, &data_set(&[1.0]), Form::Shortest).unwrap();
    assert_eq!(frame.sv_id(0), Some(&[0xff][..]));
    assert_eq!(frame.pdu().sav_asdu[0].msv_id, "\u{fffd}");
    let mut again = [0; 53];
    assert_eq!(frame.write(Form::Shortest, &mut again), Ok(53));
    assert_eq!(again, octets);
}

#[test]
fn counts_beyond_24_bits() {
    let (header, pdu) = described();
    let octets = encode_counts(&header, &pdu, &[16_777_217], Form::Shortest).unwrap();
    let frame = read_strict(&octets, &data_set(&[1.0]), Form::Shortest).unwrap();
    assert_eq!(frame.counts(), [16_777_217]);
    assert_eq!(frame.values(), [16_777_216.0]);
}

#[test]
fn strict_reading() {
    let data = data_set(&[1.0]);
    assert_eq!(
        read_strict(&FRAME, &data, Form::Shortest).map(|frame| frame.counts().to_vec()),
        Ok(vec![1000])
    );
    let mut longer = FRAME.to_vec();
    longer.push(0);
    assert_eq!(read_strict(&longer, &data, Form::Shortest).err(), Some(refusal(6, 53)));
    let mut tag = FRAME;
    tag[29] = 0x31;
    assert!(read_frame(&tag, &data).is_ok());
    assert_eq!(read_strict(&tag, &data, Form::Shortest).err(), Some(refusal(6, 29)));
    let mut other = FRAME;
    other[13] = 0xb8;
    assert_eq!(read_strict(&other, &data, Form::Shortest).err(), Some(refusal(6, 0)));
    assert_eq!(read_strict(&FRAME[..52], &data, Form::Shortest).err(), Some(refusal(1, 45)));
    assert_eq!(
        read_strict(&FRAME, &data_set(&[1.0; MANY]), Form::Shortest).err(),
        Some(refusal(8, 0))
    );
}

#[test]
fn checked_reading() {
    let (header, pdu) = full();
    let octets = encode_smv(&header, &pdu).unwrap();
    let data = data_set(&[0.5]);
    let all = read_frame(&octets, &data).unwrap();
    let mut frame = read_checked(&octets, &data).unwrap();
    assert_eq!((frame.no_asdu(), frame.channels()), (2, 1));
    assert_eq!((frame.counts(), frame.values()), (all.counts(), all.values()));
    assert_eq!((frame.header(), frame.pdu()), (all.header(), all.pdu()));

    // Behind the samples of the last ASDU, of 8 octets, stand 13, smpMod and gmIdentity. A refusal
    // leaves what was read before.
    let last = octets.len() - 13 - 8;
    let mut other = octets.clone();
    other[last - 1] = 16;
    assert_eq!(read_frame(&other, &data).unwrap().pdu(), all.pdu());
    assert_eq!(read_checked(&other, &data).err(), Some(refusal(13, last)));
    assert_eq!(frame.read_checked(&other, &data), Err(refusal(13, last)));
    assert_eq!(frame.read_checked(&other[..last + 7], &data), Err(refusal(1, last)));
    assert_eq!(frame.read_checked(&other, &data_set(&[1.0; MANY])), Err(refusal(8, 0)));
    assert_eq!((frame.pdu(), frame.values()), (all.pdu(), all.values()));

    // Document 01's frame, read with no channel.
    assert!(read_frame(&FRAME, &data_set(&[])).is_ok());
    assert_eq!(read_checked(&FRAME, &data_set(&[])).err(), Some(refusal(13, 45)));
    frame.read_checked(&FRAME, &data).unwrap();
    assert_eq!((frame.no_asdu(), frame.values()), (1, &[500.0][..]));
}

#[test]
fn granted_reading() {
    let (header, mut pdu) = full();
    for (asdu, word) in pdu.sav_asdu.iter_mut().zip([0x40, 0x80]) {
        asdu.all_data = samples(&[0.0; 4], 1.0);
        for (sample, word) in asdu.all_data.iter_mut().zip(word..) {
            sample.quality = Quality::from_sv(word);
        }
    }
    let counts = [1, 2, 3, 4, 5, 6, 7, 8];
    let octets = encode_counts(&header, &pdu, &counts, Form::Shortest).unwrap();
    let data = data_set(&[1.0, 0.5, 2.0, 4.0]);
    let all = read_frame(&octets, &data).unwrap();
    let frame = read_granted(&octets, &data, 0b1010).unwrap();
    assert_eq!((frame.no_asdu(), frame.channels()), (2, 2));
    assert_eq!(frame.counts(), [2, 4, 6, 8]);
    assert_eq!(frame.values(), [1.0, 16.0, 3.0, 32.0]);
    assert_eq!(frame.qualities(), [0x41, 0x43, 0x81, 0x83]);

    // All else is as ordinary reading has it.
    assert_eq!(frame.header(), all.header());
    assert_eq!((frame.sv_id(1), frame.dat_set(1)), (all.sv_id(1), all.dat_set(1)));
    let mut shown = all.pdu();
    for asdu in &mut shown.sav_asdu {
        asdu.all_data = vec![asdu.all_data[1].clone(), asdu.all_data[3].clone()];
    }
    assert_eq!(frame.pdu(), shown);

    // Bits beyond the data set do nothing.
    assert_eq!(read_granted(&octets, &data, 0xffff_fffa).unwrap().pdu(), shown);
    assert_eq!(read_granted(&octets, &data, 0b1111).unwrap().pdu(), all.pdu());
    let none = read_granted(&octets, &data, 0xffff_fff0).unwrap();
    assert_eq!((none.no_asdu(), none.channels(), none.counts()), (2, 0, &[][..]));
    assert_eq!(none.sv_id(1), all.sv_id(1));

    // What was read is written again as a frame of the shown channels.
    let mut again = [0; MAX_FRAME];
    let size = frame.write(Form::Shortest, &mut again).unwrap();
    let strict = read_strict(&again[..size], &data_set(&[0.5, 4.0]), Form::Shortest).unwrap();
    assert_eq!(strict.pdu(), shown);

    // A refusal leaves what was read before, and an ordinary reading after it has all channels. Behind
    // the last sample stand 13 octets, smpMod and gmIdentity.
    let mut frame = frame;
    let last = octets.len() - 13 - 8;
    assert_eq!(frame.read_granted(&octets[..last + 7], &data, 1), Err(refusal(1, last)));
    assert_eq!(read_frame(&octets[..last + 7], &data).err(), Some(refusal(1, last)));
    assert_eq!(frame.read_granted(&octets, &data_set(&[1.0; MANY]), 0), Err(refusal(8, 0)));
    assert_eq!(frame.pdu(), shown);
    frame.read(&octets, &data).unwrap();
    assert_eq!((frame.channels(), frame.counts()), (4, &counts[..]));
    assert_eq!(frame.pdu(), all.pdu());
}

#[test]
fn reading_by_sets() {
    let (header, pdu) = full();
    let octets = encode_smv(&header, &pdu).unwrap();
    let (first, second) = (data_set(&[0.5]), data_set(&[0.25]));
    let mut sets = DataSets::new();
    assert_eq!((sets.len(), sets.is_empty(), sets.get(1)), (0, true, None));
    assert_eq!(read_by_sets(&FRAME, &sets).err(), Some(refusal(15, 0)));
    assert_eq!(sets.add(1, &first), Ok(1));
    assert_eq!(sets.add(4_294_967_295, &second), Ok(2));

    let (mut frame, set) = read_by_sets(&octets, &sets).unwrap();
    let all = read_frame(&octets, &second).unwrap();
    assert_eq!((&set, frame.no_asdu(), frame.channels()), (&second, 2, 1));
    assert_eq!((frame.counts(), frame.values()), (all.counts(), all.values()));
    assert_eq!((frame.header(), frame.pdu()), (all.header(), all.pdu()));

    // A refusal leaves what was read before.
    let mut pdu = pdu;
    pdu.sav_asdu[1].conf_rev = 1;
    let other = encode_smv(&header, &pdu).unwrap();
    assert_eq!(frame.read_by_sets(&other, &sets), Err(refusal(16, 0)));
    assert_eq!(frame.read_by_sets(&FRAME[..50], &sets), Err(refusal(1, 45)));
    pdu.sav_asdu[0].conf_rev = 2;
    let other = encode_smv(&header, &pdu).unwrap();
    assert_eq!(frame.read_by_sets(&other, &sets), Err(refusal(15, 0)));
    assert_eq!((frame.pdu(), frame.values()), (all.pdu(), all.values()));
    assert_eq!(frame.read_by_sets(&FRAME, &sets), Ok(first));
    assert_eq!((frame.no_asdu(), frame.values()), (1, &[500.0][..]));
}

#[test]
fn store_of_data_sets() {
    let mut sets = DataSets::default();
    for conf_rev in 1..=MAX_SETS {
        let set = data_set(&vec![0.5; conf_rev % MANY]);
        assert_eq!(sets.add(10 * conf_rev as u32, &set), Ok(conf_rev));
        assert_eq!((sets.len(), sets.get(10 * conf_rev as u32)), (conf_rev, Some(set)));
    }
    let full = sets.clone();
    let last = 10 * MAX_SETS as u32;
    for conf_rev in [0, 10, last, last + 10] {
        assert_eq!(sets.add(conf_rev, &data_set(&[1.0])), Err(refusal(14, 0)));
        assert_eq!(sets.add(conf_rev, &data_set(&[1.0; MANY])), Err(refusal(8, 0)));
    }
    assert_eq!((sets.get(0), sets.get(last + 10), &sets), (None, None, &full));
    assert_eq!(sets.get(10), Some(data_set(&[0.5])));
}

#[test]
fn one_frame_for_many_readings() {
    let (header, pdu) = full();
    let octets = encode_smv(&header, &pdu).unwrap();
    let mut frame = Frame::default();
    frame.read_strict(&octets, &data_set(&[1.0]), Form::Shortest).unwrap();
    assert_eq!(frame.read(&FRAME[..50], &data_set(&[2.0])), Err(refusal(1, 45)));
    assert_eq!(frame.pdu(), pdu);
    frame.read(&FRAME, &data_set(&[0.5])).unwrap();
    assert_eq!((frame.no_asdu(), frame.security(), frame.values()), (1, None, &[500.0][..]));
    assert_eq!(frame.write(Form::Shortest, &mut [0; 52]), Err(refusal(7, 0)));
}

#[test]
fn writing() {
    let (header, pdu) = described();
    assert_eq!(encode_smv(&header, &pdu), Ok(FRAME.to_vec()));
    assert_eq!(encode_counts(&header, &pdu, &[1000], Form::Shortest), Ok(FRAME.to_vec()));
    assert_eq!(encode_counts(&header, &pdu, &[1000, 5], Form::Shortest), Ok(FRAME.to_vec()));
    assert_eq!(smv_size(&header, &pdu, Form::Shortest), Ok(53));
}

#[test]
fn fixed_form() {
    let (header, mut pdu) = described();
    let fixed = FIXED_FRAME.to_vec();
    assert_eq!(encode_values(&header, &pdu, Form::Fixed), Ok(fixed.clone()));
    assert_eq!(encode_counts(&header, &pdu, &[1000], Form::Fixed), Ok(fixed));
    assert_eq!(encode_values(&header, &pdu, Form::Shortest), Ok(FRAME.to_vec()));
    assert_eq!(smv_size(&header, &pdu, Form::Fixed), Ok(57));

    // Ordinary reading takes both forms, and strict reading the one that it is asked for.
    let data = data_set(&[1.0]);
    let frame = read_frame(&FIXED_FRAME, &data).unwrap();
    assert_eq!(frame.pdu(), read_frame(&FRAME, &data).unwrap().pdu());
    let mut again = [0; 57];
    assert_eq!(frame.write(Form::Fixed, &mut again), Ok(57));
    assert_eq!(again, FIXED_FRAME);
    let strict = |frame: &[u8], form| {
        read_strict(frame, &data, form).map(|frame| frame.pdu().sav_asdu[0].clone())
    };
    assert_eq!(strict(&FIXED_FRAME, Form::Fixed), Ok(pdu.sav_asdu[0].clone()));
    assert_eq!(strict(&FIXED_FRAME, Form::Shortest), Err(refusal(6, 17)));
    assert_eq!(strict(&FRAME, Form::Fixed), Err(refusal(6, 17)));

    let counters = |pdu: &mut SavPdu, smp_cnt, conf_rev, smp_synch| {
        let asdu = &mut pdu.sav_asdu[0];
        (asdu.smp_cnt, asdu.conf_rev, asdu.smp_synch) = (smp_cnt, conf_rev, smp_synch);
    };
    counters(&mut pdu, 65_535, 4_294_967_295, 255);
    let largest = encode_values(&header, &pdu, Form::Fixed).unwrap();
    let octets = [0x82, 2, 0xff, 0xff, 0x83, 4, 0xff, 0xff, 0xff, 0xff, 0x85, 1, 0xff];
    assert_eq!(largest[34..47], octets);
    assert_eq!(strict(&largest, Form::Fixed), Ok(pdu.sav_asdu[0].clone()));
    assert_eq!(strict(&largest, Form::Shortest), Err(refusal(6, 17)));

    // Counters that are alike in both forms.
    counters(&mut pdu, 128, 0x0100_0000, 127);
    let alike = encode_values(&header, &pdu, Form::Fixed).unwrap();
    assert_eq!(encode_smv(&header, &pdu), Ok(alike.clone()));
    assert_eq!(strict(&alike, Form::Fixed), Ok(pdu.sav_asdu[0].clone()));
    assert_eq!(strict(&alike, Form::Shortest), Ok(pdu.sav_asdu[0].clone()));
}

#[test]
fn counts_of_values() {
    let count = |value: f32, scale: f32| {
        let (header, mut pdu) = described();
        pdu.sav_asdu[0].all_data = samples(&[value], scale);
        let octets = encode_smv(&header, &pdu).map_err(|error| error.refusal())?;
        read_strict(&octets, &data_set(&[scale]), Form::Shortest)
            .map(|frame| frame.counts()[0])
            .map_err(Some)
    };
    assert_eq!(count(-0.5, 1.0), Ok(-1));
    assert_eq!(count(2.5, 1.0), Ok(3));
    assert_eq!(count(2_147_483_648.0, 1.0), Ok(2_147_483_647));
    assert_eq!(count(-2_147_483_648.0, 1.0), Ok(-2_147_483_648));
    assert_eq!(count(f32::NAN, 1.0), Ok(0));
    assert_eq!(count(0.0, 0.0), Ok(0));
    assert_eq!(count(12.34, 0.01), Ok(1234));
    assert_eq!(count(2_147_483_904.0, 1.0), Err(Some(refusal(11, 0))));
    assert_eq!(count(1.0, 0.0), Err(Some(refusal(11, 0))));
}

#[test]
fn scale_factors_that_differ() {
    let (header, mut pdu) = full();
    for (asdu, scale) in pdu.sav_asdu.iter_mut().zip([0.5, 0.01]) {
        asdu.all_data = samples(&[-1.0, 7.0], scale);
    }
    let octets = encode_smv(&header, &pdu).unwrap();
    let frame = read_strict(&octets, &data_set(&[1.0, 1.0]), Form::Shortest).unwrap();
    assert_eq!(frame.counts(), [-2, 14, -100, 700]);
    // 9 before 11, 11 before 10.
    pdu.sav_asdu[1].all_data[1].value = f32::INFINITY;
    assert_eq!(refused((header.clone(), pdu.clone())), Some(11));
    pdu.security = Some(vec![0; MAX_SECURITY + 1]);
    assert_eq!(refused((header.clone(), pdu.clone())), Some(9));
    pdu.security = None;
    for asdu in &mut pdu.sav_asdu {
        asdu.all_data = samples(&[0.0; MAX_CHANNELS], 1.0);
    }
    pdu.sav_asdu[1].all_data[MAX_CHANNELS - 1].scale_factor = 2.0;
    pdu.sav_asdu = pdu.sav_asdu.iter().cycle().take(MAX_ASDUS).cloned().collect();
    pdu.no_asdu = MAX_ASDUS as u16;
    assert_eq!(refused((header.clone(), pdu.clone())), Some(10));
    pdu.sav_asdu[MAX_ASDUS - 1].all_data[0].value = 1e30;
    assert_eq!(refused((header, pdu)), Some(11));
}

#[test]
fn refusals_of_writing() {
    assert_eq!(changed(|_, _| ()), None);
    assert_eq!(changed(|header, _| header.tpid = Some([0x81, 0x00])), Some(9));
    assert_eq!(changed(|header, _| header.tci = Some([0, 1])), Some(9));
    assert_eq!(changed(|header, _| header.ether_type = [0x88, 0xb8]), Some(9));
    let other_tpid = |header: &mut EthernetHeader, _: &mut SavPdu| {
        header.tpid = Some([0x88, 0xa8]);
        header.tci = Some([0, 1]);
    };
    assert_eq!(changed(other_tpid), Some(9));
    assert_eq!(changed(|_, pdu| pdu.no_asdu = 0), Some(9));
    assert_eq!(changed(|_, pdu| pdu.no_asdu = 2), Some(9));
    assert_eq!(changed(|_, pdu| *pdu = SavPdu::default()), Some(9));
    let asdus = |n: u16| {
        move |_: &mut EthernetHeader, pdu: &mut SavPdu| {
            pdu.sav_asdu = vec![pdu.sav_asdu[0].clone(); n.into()];
            pdu.no_asdu = n;
        }
    };
    assert_eq!(changed(asdus(MAX_ASDUS as u16)), None);
    assert_eq!(changed(asdus(MAX_ASDUS as u16 + 1)), Some(9));
    assert_eq!(changed(asdus(MAX_ASDUS as u16 + 2)), Some(9));
    assert_eq!(changed(asdus(65_535)), Some(9));
    let channels = |n: usize| {
        move |_: &mut EthernetHeader, pdu: &mut SavPdu| {
            pdu.sav_asdu[0].all_data = samples(&vec![1.0; n], 1.0)
        }
    };
    assert_eq!(changed(channels(0)), None);
    assert_eq!(changed(channels(MAX_CHANNELS)), None);
    assert_eq!(changed(channels(MANY)), Some(8));
    assert_eq!(changed(channels(1000)), Some(8));
    let text = |n: usize| {
        move |_: &mut EthernetHeader, pdu: &mut SavPdu| pdu.sav_asdu[0].msv_id = "x".repeat(n)
    };
    assert_eq!(changed(text(MAX_TEXT)), None);
    assert_eq!(changed(text(MAX_TEXT + 1)), Some(9));
    assert_eq!(changed(text(70_000)), Some(9));
    let data_set = |n: usize| {
        move |_: &mut EthernetHeader, pdu: &mut SavPdu| {
            pdu.sav_asdu[0].dat_set = Some("x".repeat(n))
        }
    };
    assert_eq!(changed(data_set(MAX_TEXT)), None);
    assert_eq!(changed(data_set(MAX_TEXT + 1)), Some(9));
    assert_eq!(changed(|_, pdu| pdu.security = Some(vec![0; MAX_SECURITY])), None);
    assert_eq!(changed(|_, pdu| pdu.security = Some(vec![0; MAX_SECURITY + 1])), Some(9));
    let differ = |_: &mut EthernetHeader, pdu: &mut SavPdu| {
        pdu.sav_asdu.push(SavAsdu::default());
        pdu.no_asdu = 2;
    };
    assert_eq!(changed(differ), Some(9));
    let long = |header: &mut EthernetHeader, pdu: &mut SavPdu| {
        channels(MAX_CHANNELS)(header, pdu);
        asdus(MAX_ASDUS as u16)(header, pdu);
    };
    assert_eq!(changed(long), Some(10));
    assert_eq!(changed(|_, pdu| pdu.sav_asdu[0].all_data[0].value = 1e30), Some(11));

    let (header, pdu) = described();
    assert_eq!(encode_counts(&header, &pdu, &[], Form::Shortest), Err(refusal(7, 0)));
}

#[test]
fn quality() {
    assert_eq!(Quality::from_sv(0xffff_e000), Quality::default());
    assert!(Quality::default().is_good());
    for bit in 0..13 {
        let quality = Quality::from_sv(1 << bit);
        assert_eq!(quality.to_sv(), 1 << bit);
        assert!(!quality.is_good());
    }
    assert_eq!(Quality::from_sv(3).validity, Validity::Questionable);
    assert!(Quality::from_sv(1 << 2).overflow);
    assert!(Quality::from_sv(1 << 12).operator_blocked);
}

#[test]
fn time() {
    let octets = [0x5f, 1, 2, 3, 0, 0, 1, 0xea];
    let time = Timestamp::from_bytes(octets);
    assert_eq!((time.seconds, time.fraction), (0x5f01_0203, 1));
    assert!(time.quality.leap_second_known && time.quality.clock_failure);
    assert_eq!((time.quality.time_accuracy, time.quality.accuracy_bits()), (10, Some(10)));
    assert_eq!(time.to_bytes(), octets);
    assert_eq!(time.fraction_as_nanos(), 59);
    let larger = Timestamp { fraction: (1 << 24) + 1, ..time };
    assert_eq!((larger.fraction_as_nanos(), larger.to_bytes()), (59, octets));
    for octet in 0..=255 {
        assert_eq!(TimeQuality::from_byte(octet).to_byte(), octet);
    }
    assert_eq!(TimeQuality::from_byte(26).accuracy_bits(), None);
}

#[test]
fn data_sets() {
    let scales = [0.0001, 0.0001, 0.0001, 0.0001, 0.01, 0.01, 0.01, 0.01];
    assert_eq!(SavDataSetConfig::le_92(), data_set(&scales));
}

#[test]
fn errors() {
    for number in (1..=11).chain(13..=16) {
        let refusal = refusal(number, 7);
        assert_eq!(DecodeError::from(refusal).refusal(), Some(refusal));
        assert_eq!(EncodeError::from(refusal).refusal(), Some(refusal));
        assert!(refusal.to_string().starts_with(&format!("refused {number} at 7: ")));
        assert_eq!(DecodeError::from(refusal).message, refusal.sentence());
    }
    assert_eq!(DecodeError::new("mine", 3).refusal(), None);
    assert_eq!(EncodeError::new("mine", 3).refusal(), None);
    let small = EncodeError::BufferTooSmall { required: 2, available: 1 };
    assert_eq!((small.refusal(), small.to_string().is_empty()), (None, false));
    assert!(!refusal(12, 0).sentence().is_empty());
    assert!(!refusal(0, 0).sentence().is_empty());

    fn all() -> Result<(), Box<dyn std::error::Error>> {
        let (header, pdu) = described();
        let octets = encode_smv(&header, &pdu)?;
        decode_smv(&octets, 22, &data_set(&[1.0]))?;
        read_frame(&octets, &data_set(&[1.0]))?;
        Ok(())
    }
    assert!(all().is_ok());
}
