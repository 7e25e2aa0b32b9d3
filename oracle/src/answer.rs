//! The original's answer to one request.

use crate::layout::{bits, Cursor, Header, Pdu, Sample};
use crate::original::{decode_smv, encode_smv, ethernet_header};
use crate::types::{
    self, DecodeError, EncodeError, EthernetHeader, SavDataSetConfig, SavPdu, SavValueConfig,
};
use std::cell::RefCell;
use std::panic::{catch_unwind, AssertUnwindSafe};

/// What begins an answer.
pub const ACCEPTED: u8 = 0;
pub const REFUSED: u8 = 1;
pub const PANICKED: u8 = 2;
pub const NOT_ASKED: u8 = 3;

/// Every kind of request.
pub const KINDS: &[u8] = b"fphieslurtqbdnwcvk";

/// A refusal: number, place, and what the answer shows after them.
struct Refused(u8, usize, Vec<u8>);

impl From<DecodeError> for Refused {
    fn from(error: DecodeError) -> Refused {
        Refused(number(&error.message), error.buffer_index, vec![])
    }
}

impl From<EncodeError> for Refused {
    fn from(error: EncodeError) -> Refused {
        match error {
            EncodeError::General { message, buffer_index } => {
                Refused(number(&message), buffer_index, vec![])
            }
            EncodeError::BufferTooSmall { .. } => Refused(7, 0, vec![]),
        }
    }
}

/// The refusal number of a message; 0 for one that isn't known.
fn number(message: &str) -> u8 {
    const NUMBERS: &[(&str, u8)] = &[
        ("Attempt to read", 1),
        ("Out of bounds", 1),
        ("missing length byte", 1),
        ("not enough bytes", 1),
        ("Buffer too short for sample", 1),
        ("unsupported or invalid number of length bytes", 2),
        ("Mismatch value length", 3),
        ("Buffer too small to write tag and length", 7),
        ("not have enough capacity", 7),
        ("exceeds the maximum range for three-byte", 10),
        ("out of range for 32-bit signed integer", 11),
    ];
    let known = NUMBERS.iter().find(|(text, _)| message.contains(text));
    known.map_or(0, |&(_, number)| number)
}

/// Tells panics apart by their message.
fn panic_kind(message: &str) -> u8 {
    if message.starts_with("index out of bounds") {
        1
    } else if message.contains("out of range for slice")
        || message.contains("slice index starts at")
        || message.contains("copy_from_slice")
    {
        2
    } else if message.starts_with("attempt to") && message.contains("overflow") {
        3
    } else {
        4
    }
}

thread_local! {
    static SITE: RefCell<String> = const { RefCell::new(String::new()) };
}

/// Keeps panics from being printed, and notes where the last one was.
pub fn quiet_panics() {
    std::panic::set_hook(Box::new(|info| {
        let site = info.location().map_or(String::new(), |place| {
            let file = place.file().rsplit('/').next().unwrap_or("");
            format!("{}:{}:{}", file, place.line(), place.column())
        });
        SITE.with(|last| *last.borrow_mut() = site);
    }));
}

/// The file, line and column of the last panic.
pub fn last_site() -> String {
    SITE.with(|last| last.borrow().clone())
}

/// The answer's octets, status first.
pub fn answer(kind: u8, request: &[u8]) -> Vec<u8> {
    match catch_unwind(AssertUnwindSafe(|| ask(kind, request))) {
        Ok(None) => vec![NOT_ASKED],
        Ok(Some(Ok(octets))) => {
            let mut out = vec![ACCEPTED];
            out.extend(octets);
            out
        }
        Ok(Some(Err(Refused(number, place, rest)))) => {
            let mut out = vec![REFUSED, number];
            out.extend((place as u64).to_be_bytes());
            out.extend(rest);
            out
        }
        Err(payload) => {
            let message = match payload.downcast_ref::<String>() {
                Some(text) => text.as_str(),
                None => payload.downcast_ref::<&str>().copied().unwrap_or(""),
            };
            vec![PANICKED, panic_kind(message)]
        }
    }
}

type Answer = Option<Result<Vec<u8>, Refused>>;

/// `None` where the request can't be put to the original.
fn ask(kind: u8, request: &[u8]) -> Answer {
    let request = &mut Cursor(request);
    match kind {
        b'f' => frame(request),
        b'p' => pdu(request),
        b'h' => header(request),
        b'i' => Some(Ok(vec![u8::from(decode_smv::is_smv_frame(request.0))])),
        b'e' => encode(request),
        b's' => size(request),
        b'l' => write_tag_length(request),
        b'u' => write_unsigned(request),
        b'r' => read_unsigned(request),
        b't' => read_tag_length(request),
        b'c' => count(request),
        b'v' => value(request),
        b'k' => le_92(request),
        _ => of_types(kind, request).map(Ok),
    }
}

fn data_set(request: &mut Cursor) -> Option<SavDataSetConfig> {
    let mut config = vec![];
    for _ in 0..request.u8()? {
        config.push(SavValueConfig::new(f32::from_bits(request.u32()?)));
    }
    Some(SavDataSetConfig::new(config))
}

fn frame(request: &mut Cursor) -> Answer {
    let config = data_set(request)?;
    let mut header = EthernetHeader::default();
    let start = ethernet_header::decode_ethernet_header(&mut header, request.0);
    let pdu = match decode_smv::decode_smv(request.0, start, &config) {
        Ok(pdu) => pdu,
        Err(error) => return Some(Err(error.into())),
    };
    let mut out = vec![];
    Header::from_original(&header).put(&mut out);
    Pdu::from_original(&pdu).put(&mut out)?;
    Some(Ok(out))
}

fn pdu(request: &mut Cursor) -> Answer {
    let start = request.u64()? as usize;
    let config = data_set(request)?;
    let pdu = match decode_smv::decode_smv(request.0, start, &config) {
        Ok(pdu) => pdu,
        Err(error) => return Some(Err(error.into())),
    };
    let mut out = vec![];
    Pdu::from_original(&pdu).put(&mut out)?;
    Some(Ok(out))
}

fn header(request: &mut Cursor) -> Answer {
    let mut header = EthernetHeader::default();
    let next = ethernet_header::decode_ethernet_header(&mut header, request.0);
    let mut out = vec![];
    Header::from_original(&header).put(&mut out);
    out.extend((next as u64).to_be_bytes());
    Some(Ok(out))
}

fn description(request: &mut Cursor) -> Option<(EthernetHeader, SavPdu)> {
    let header = request.header()?;
    let pdu = request.pdu()?;
    request.end()?;
    Some((header.to_original(), pdu.to_original()?))
}

fn encode(request: &mut Cursor) -> Answer {
    let (header, pdu) = description(request)?;
    Some(encode_smv::encode_smv(&header, &pdu).map_err(Refused::from))
}

fn size(request: &mut Cursor) -> Answer {
    let (header, pdu) = description(request)?;
    let size = encode_smv::private::size(&header, &pdu);
    Some(Ok(u32::try_from(size).ok()?.to_be_bytes().to_vec()))
}

fn write_tag_length(request: &mut Cursor) -> Answer {
    let tag = request.u8()?;
    let value = request.u64()? as usize;
    let mut buffer = vec![0xee; usize::try_from(request.u32()?).ok()?];
    let index = request.u64()? as usize;
    request.end()?;
    Some(match encode_smv::private::tag_length(tag, value, &mut buffer, index) {
        Ok(next) => {
            let mut out = (next as u64).to_be_bytes().to_vec();
            out.extend(buffer);
            Ok(out)
        }
        Err(error) => {
            let Refused(number, place, _) = error.into();
            Err(Refused(number, place, buffer))
        }
    })
}

fn write_unsigned(request: &mut Cursor) -> Answer {
    let tag = request.u8()?;
    let width = usize::from(request.u8().filter(|width| matches!(width, 1 | 2 | 4))?);
    let octets: [u8; 4] = request.fixed()?;
    request.end()?;
    let (above, octets) = octets.split_at(4 - width);
    if above.iter().any(|&octet| octet != 0) {
        return None;
    }
    let mut buffer = [0u8; 16];
    Some(match encode_smv::private::unsigned(tag, octets, &mut buffer, 0) {
        Ok(next) => {
            let mut out = vec![encode_smv::private::unsigned_length(octets) as u8];
            out.extend(&buffer[..next]);
            Ok(out)
        }
        Err(error) => Err(error.into()),
    })
}

fn read_unsigned(request: &mut Cursor) -> Answer {
    let width = request.u8().filter(|width| matches!(width, 1 | 2 | 4))?;
    let index = request.u64()? as usize;
    let length = request.u64()? as usize;
    Some(match decode_smv::private::unsigned(width, request.0, index, length) {
        Ok((value, next)) => {
            let mut out = value.to_be_bytes().to_vec();
            out.extend((next as u64).to_be_bytes());
            Ok(out)
        }
        Err(error) => Err(error.into()),
    })
}

fn read_tag_length(request: &mut Cursor) -> Answer {
    let index = request.u64()? as usize;
    Some(match decode_smv::private::tag_length(request.0, index) {
        Ok((tag, length, next)) => {
            let mut out = vec![tag];
            out.extend((length as u64).to_be_bytes());
            out.extend((next as u64).to_be_bytes());
            Ok(out)
        }
        Err(error) => Err(error.into()),
    })
}

crate::of_types!(types);

fn count(request: &mut Cursor) -> Answer {
    let sample = Sample { value: request.u32()?, scale: request.u32()?, quality: 0 };
    request.end()?;
    let mut buffer = [0u8; 8];
    Some(match encode_smv::private::sample(&mut buffer, 0, &sample.to_original()) {
        Ok(_) => Ok(buffer[..4].to_vec()),
        Err(error) => Err(error.into()),
    })
}

fn value(request: &mut Cursor) -> Answer {
    let mut buffer = request.fixed::<4>()?.to_vec();
    let scale = f32::from_bits(request.u32()?);
    request.end()?;
    buffer.extend([0; 4]);
    let config = SavDataSetConfig::new(vec![SavValueConfig::new(scale)]);
    Some(match decode_smv::private::samples(&buffer, 0, &config) {
        Ok((_, samples)) => Ok(bits(samples[0].value).to_be_bytes().to_vec()),
        Err(error) => Err(error.into()),
    })
}

fn le_92(request: &mut Cursor) -> Answer {
    request.end()?;
    let config = SavDataSetConfig::le_92().config;
    let mut out = vec![config.len() as u8];
    for channel in &config {
        out.extend(channel.scale_factor.to_bits().to_be_bytes());
    }
    Some(Ok(out))
}
