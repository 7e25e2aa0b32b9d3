//! The original's reader and writer, built unchanged from its own files. Each file is included
//! into a module that makes its private functions reachable. Its `types.rs` is included by the file
//! of that name beside this file.
#![allow(dead_code)]

pub mod ethernet_header {
    include!("../../../shared/docs/src/src/rt_services/ethernet_header.rs");
}

pub mod decode_smv {
    include!("../../../shared/docs/src/src/rt_services/decode_smv.rs");

    pub mod private {
        use super::*;

        /// Reads an integer of `width` octets (1, 2 or 4): its value and the next position.
        pub fn unsigned(
            width: u8,
            buffer: &[u8],
            index: usize,
            length: usize,
        ) -> Result<(u32, usize), DecodeError> {
            match width {
                1 => {
                    let mut value = 0u8;
                    let next = decode_unsigned_8(&mut value, buffer, index, length)?;
                    Ok((u32::from(value), next))
                }
                2 => {
                    let mut value = 0u16;
                    let next = decode_unsigned_16(&mut value, buffer, index, length)?;
                    Ok((u32::from(value), next))
                }
                _ => {
                    let mut value = 0u32;
                    let next = decode_unsigned_32(&mut value, buffer, index, length)?;
                    Ok((value, next))
                }
            }
        }

        /// Reads a tag and a length: both, and the next position.
        pub fn tag_length(buffer: &[u8], index: usize) -> Result<(u8, usize, usize), DecodeError> {
            let (mut tag, mut length) = (0u8, 0usize);
            let next = decode_tag_length(&mut tag, &mut length, buffer, index)?;
            Ok((tag, length, next))
        }

        /// Reads the samples of a data set.
        pub fn samples(
            buffer: &[u8],
            index: usize,
            config: &SavDataSetConfig,
        ) -> Result<(usize, Vec<Sample>), DecodeError> {
            decode_savs(buffer, index, config)
        }
    }
}

pub mod encode_smv {
    include!("../../../shared/docs/src/src/rt_services/encode_smv.rs");

    pub mod private {
        use super::*;

        pub fn size(header: &EthernetHeader, pdu: &SavPdu) -> usize {
            smv_size(header, pdu)
        }

        pub fn tag_length(
            tag: u8,
            value: usize,
            buffer: &mut [u8],
            index: usize,
        ) -> Result<usize, EncodeError> {
            encode_tag_length(tag, value, buffer, index)
        }

        pub fn unsigned_length(value: &[u8]) -> usize {
            unsigned_integer_length(value)
        }

        pub fn unsigned(
            tag: u8,
            value: &[u8],
            buffer: &mut [u8],
            index: usize,
        ) -> Result<usize, EncodeError> {
            encode_unsigned_integer(tag, value, buffer, index)
        }

        pub fn sample(
            buffer: &mut [u8],
            index: usize,
            sample: &Sample,
        ) -> Result<usize, EncodeError> {
            encode_sample(buffer, index, sample)
        }
    }
}
