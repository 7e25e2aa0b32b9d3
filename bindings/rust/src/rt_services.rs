//! The functions of the original, under its names, and those that this project adds.

use crate::frame::{header_of, with_scratch, Frame};
use crate::types::{
    DecodeError, EncodeError, EthernetHeader, SavAsdu, SavDataSetConfig, SavPdu, SavValueConfig,
};
use crate::{slices, sys};
use crate::{DataSets, Form, Refusal};

// ---- the original's

/// Whether the EtherType is that of sampled values, behind a VLAN tag or not.
pub fn is_smv_frame(buffer: &[u8]) -> bool {
    // SAFETY: the pointer is that of a slice of as many octets.
    unsafe { sys::hopsickle_is_smv(buffer.as_ptr(), buffer.len()) }
}

/// Reads the header of a frame: the place after it. Where the octets end too soon, the header is left
/// and the place is the buffer's length, from where [`decode_smv`] is refused.
pub fn decode_ethernet_header(header: &mut EthernetHeader, buffer: &[u8]) -> usize {
    let (mut numbers, mut octets) = ([0; sys::HEADER_NUMBERS], [0; sys::HEADER_OCTETS]);
    let mut place = 0;
    let number = slices::header(buffer, &mut numbers, &mut octets, &mut place);
    if number != sys::ACCEPTED {
        return buffer.len();
    }
    *header = header_of(&numbers, &octets);
    place
}

/// Reads a PDU of this data set from `pos` on. The simulation mark is that of the frame that starts
/// with the buffer.
pub fn decode_smv(
    buffer: &[u8],
    pos: usize,
    config: &SavDataSetConfig,
) -> Result<SavPdu, DecodeError> {
    with_scratch(|(frame, _)| {
        frame.decode(buffer, pos, config)?;
        Ok(frame.pdu())
    })
}

/// Writes a frame in the shortest form. Each value is divided by its own scale factor.
pub fn encode_smv(header: &EthernetHeader, pdu: &SavPdu) -> Result<Vec<u8>, EncodeError> {
    Ok(encode_values(header, pdu, Form::Shortest)?)
}

// ---- added

/// Reads a frame of this data set: its header, then its PDU. The EtherType isn't tested.
pub fn read_frame(frame: &[u8], config: &SavDataSetConfig) -> Result<Frame, Refusal> {
    let mut read = Frame::default();
    read.read(frame, config)?;
    Ok(read)
}

/// Reads a frame as [`read_frame`] does, and checks that this data set matches it: refused as 13 unless
/// in every ASDU the length after 87 is 8 times the channels. The place is the octet after that length
/// in the earliest ASDU where it differs. What [`read_frame`] refuses is refused alike, before that.
/// Every frame that [`read_strict`] accepts is accepted.
pub fn read_checked(frame: &[u8], config: &SavDataSetConfig) -> Result<Frame, Refusal> {
    let mut read = Frame::default();
    read.read_checked(frame, config)?;
    Ok(read)
}

/// Reads a frame of this data set, and refuses it as 6 unless it is, from first to last octet, what
/// the writer writes of what was read, in this form.
pub fn read_strict(frame: &[u8], config: &SavDataSetConfig, form: Form) -> Result<Frame, Refusal> {
    let mut read = Frame::default();
    read.read_strict(frame, config, form)?;
    Ok(read)
}

/// Reads a frame of this data set for a customer to whom some of its channels are granted: channel i
/// is shown where bit i of `mask` is set, else hidden; bits beyond the data set do nothing. The frame
/// that is answered has the samples of the shown channels alone, in their order. All else in it, and
/// the refusals, are those of [`read_frame`].
///
/// Two frames of equal length that differ only in the count and quality octets of hidden channels
/// have the same answer. [`read_strict`] is not for customers: it looks at all bits of all quality
/// words, so what it refuses tells of hidden channels.
pub fn read_granted(frame: &[u8], config: &SavDataSetConfig, mask: u32) -> Result<Frame, Refusal> {
    let mut read = Frame::default();
    read.read_granted(frame, config, mask)?;
    Ok(read)
}

/// Reads a frame as [`read_frame`] does, with the data set that is held under its first ASDU's confRev,
/// which is answered too. Every ASDU of the frame that is answered has that confRev.
///
/// What [`read_frame`] refuses up to the first ASDU's confRev is refused alike; then as 15 a frame whose
/// confRev no set is held under, or without ASDUs; then what [`read_frame`] refuses with that set; then as
/// 16 a frame in which a later ASDU has another confRev than the first.
pub fn read_by_sets(frame: &[u8], sets: &DataSets) -> Result<(Frame, SavDataSetConfig), Refusal> {
    let mut read = Frame::default();
    let set = read.read_by_sets(frame, sets)?;
    Ok((read, set))
}

/// How many octets the writers write in this form, whatever the values or counts.
pub fn smv_size(header: &EthernetHeader, pdu: &SavPdu, form: Form) -> Result<usize, Refusal> {
    with_scratch(|(described, _)| {
        described.describe(header, pdu)?;
        described.size(form)
    })
}

/// Writes a frame in this form with these counts, ASDU by ASDU and channel by channel. Of the PDU's
/// samples it takes the quality alone.
pub fn encode_counts(
    header: &EthernetHeader,
    pdu: &SavPdu,
    counts: &[i32],
    form: Form,
) -> Result<Vec<u8>, Refusal> {
    with_scratch(|(described, frame)| {
        described.describe(header, pdu)?;
        let size = described.write_counts(counts, form, frame)?;
        Ok(frame[..size].to_vec())
    })
}

/// Writes a frame in this form. Each value is divided by its own scale factor. Values that a reading
/// handed back ([`Frame::values`]), within the bounds said there, are written as their counts are.
pub fn encode_values(
    header: &EthernetHeader,
    pdu: &SavPdu,
    form: Form,
) -> Result<Vec<u8>, Refusal> {
    with_scratch(|(described, frame)| {
        described.describe(header, pdu)?;
        let size = if is_one_data_set(pdu) {
            described.write_values(form, frame)?
        } else {
            described.write_counts(&counts_of_all(described, pdu)?, form, frame)?
        };
        Ok(frame[..size].to_vec())
    })
}

/// The counts of values whose scale factors differ between ASDUs, so that there is no data set for
/// the library's writer of values.
fn counts_of_all(described: &Frame, pdu: &SavPdu) -> Result<Vec<i32>, Refusal> {
    // Of the description, 8 and 9 come before the values' 11, and 10 after.
    match described.size(Form::Shortest) {
        Err(refusal) if refusal.number != Refusal::TOO_LONG_TO_WRITE => return Err(refusal),
        _ => {}
    }
    let counts: Result<Vec<_>, _> = pdu.sav_asdu.iter().map(counts_of).collect();
    Ok(counts?.concat())
}

/// Whether all ASDUs have the scale factors of the first.
fn is_one_data_set(pdu: &SavPdu) -> bool {
    let Some((first, rest)) = pdu.sav_asdu.split_first() else {
        return true;
    };
    let mut pairs = rest.iter().flat_map(|asdu| asdu.all_data.iter().zip(&first.all_data));
    pairs.all(|(one, other)| one.scale_factor.to_bits() == other.scale_factor.to_bits())
}

/// The counts of the samples of one ASDU: those of the frame that is written of it alone.
fn counts_of(asdu: &SavAsdu) -> Result<Vec<i32>, Refusal> {
    let header = EthernetHeader { ether_type: [0x88, 0xba], ..EthernetHeader::default() };
    let alone = SavAsdu { all_data: asdu.all_data.clone(), ..SavAsdu::default() };
    let pdu = SavPdu { no_asdu: 1, sav_asdu: vec![alone], ..SavPdu::default() };
    let frame = encode_values(&header, &pdu, Form::Shortest)?;
    let data = asdu.all_data.iter().map(|sample| SavValueConfig::new(sample.scale_factor));
    Ok(read_frame(&frame, &SavDataSetConfig::new(data.collect()))?.counts().to_vec())
}
