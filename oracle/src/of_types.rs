//! The answers of `Quality`, `TimeQuality` and `Timestamp`, for any module that has them under the
//! original's names.

/// Defines `of_types`, which answers a request of kind `q`, `b`, `d`, `n` or `w` by the types of a
/// module, without the status: `None` for another kind, or where the request has another layout.
#[macro_export]
macro_rules! of_types {
    ($types:ident) => {
        fn of_types(kind: u8, request: &mut $crate::layout::Cursor) -> Option<Vec<u8>> {
            use $types::{Quality, TimeQuality, Timestamp};

            fn put_time_quality(out: &mut Vec<u8>, quality: &TimeQuality) {
                out.push(u8::from(quality.leap_second_known));
                out.push(u8::from(quality.clock_failure));
                out.push(u8::from(quality.clock_not_synchronized));
                out.push(quality.time_accuracy);
            }

            fn put_accuracy_bits(out: &mut Vec<u8>, quality: &TimeQuality) {
                let accuracy = quality.accuracy_bits();
                out.push(u8::from(accuracy.is_some()));
                out.push(accuracy.unwrap_or(0));
            }

            let mut out = vec![];
            match kind {
                b'q' => {
                    let word = request.u32()?;
                    request.end()?;
                    let quality = Quality::from_sv(word);
                    out.push(quality.validity as u8);
                    out.extend(
                        [
                            quality.overflow,
                            quality.out_of_range,
                            quality.bad_reference,
                            quality.oscillatory,
                            quality.failure,
                            quality.old_data,
                            quality.inconsistent,
                            quality.inaccurate,
                            quality.source_substituted,
                            quality.test,
                            quality.operator_blocked,
                        ]
                        .map(u8::from),
                    );
                    out.extend(quality.to_sv().to_be_bytes());
                    out.push(u8::from(quality.is_good()));
                }
                b'b' => {
                    let quality = TimeQuality::from_byte(request.u8()?);
                    request.end()?;
                    put_time_quality(&mut out, &quality);
                    out.push(quality.to_byte());
                    put_accuracy_bits(&mut out, &quality);
                }
                b'd' => {
                    let time = Timestamp::from_bytes(request.fixed()?);
                    request.end()?;
                    out.extend(time.seconds.to_be_bytes());
                    out.extend(time.fraction.to_be_bytes());
                    put_time_quality(&mut out, &time.quality);
                    out.extend(time.to_bytes());
                    out.extend(time.fraction_as_nanos().to_be_bytes());
                }
                b'n' => {
                    let (fraction, quality) = (request.u32()?, TimeQuality::default());
                    request.end()?;
                    let time = Timestamp { seconds: 0, fraction, quality };
                    out.extend(time.fraction_as_nanos().to_be_bytes());
                }
                b'w' => {
                    let time = Timestamp {
                        seconds: request.u32()?,
                        fraction: request.u32()?,
                        quality: TimeQuality {
                            leap_second_known: request.mark()?,
                            clock_failure: request.mark()?,
                            clock_not_synchronized: request.mark()?,
                            time_accuracy: request.u8()?,
                        },
                    };
                    request.end()?;
                    out.extend(time.to_bytes());
                    put_accuracy_bits(&mut out, &time.quality);
                }
                _ => return None,
            }
            Some(out)
        }
    };
}
