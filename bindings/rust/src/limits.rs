//! The limits, spans and sizes of the C interface, as `include/wavpack_stereo_limits.h` has them.

/// The most frames of a block to read or to pack.
pub const MAX_FRAMES: usize = 131_072;
/// The most elements of a list of samples or residuals: a frame has two.
pub const MAX_ELEMENTS: usize = 262_144;
/// The most payload bytes that [`read`](crate::read), [`word`](crate::word) and
/// [`archive_write`](crate::archive_write) accept.
pub const MAX_PAYLOAD_BYTES: usize = 4_194_304;
/// The most bytes of a sound file: those of [`MAX_FRAMES`] frames.
pub const MAX_WAVE_BYTES: usize = 524_332;
/// The most passes of a list.
pub const MAX_PASSES: usize = 16;

/// The lowest log word that is accepted.
pub const MIN_LOG_WORD: i16 = -8191;
/// The highest log word that is accepted.
pub const MAX_LOG_WORD: i16 = 8191;
/// The lowest residual that can be packed.
pub const MIN_RESIDUAL: i32 = -1_879_048_192;
/// The highest residual that can be packed.
pub const MAX_RESIDUAL: i32 = 1_879_048_191;
/// The lowest rate of a sound file, in frames a second.
pub const MIN_RATE: u32 = 1;
/// The highest rate of a sound file, in frames a second.
pub const MAX_RATE: u32 = 192_000;
/// The highest value of a field of [`Int32Info`](crate::Int32Info).
pub const MAX_FIELD: u32 = 31;

/// How many bytes the entropy payload of a stereo block has.
pub const ENTROPY_BYTES: usize = 12;
/// How many bytes the entropy payload of a mono block has.
pub const MONO_ENTROPY_BYTES: usize = 6;

/// How many bytes [`pack`](crate::pack) asks for, for each frame; it may use fewer.
pub const BYTES_PER_FRAME: usize = 28;
/// How many bytes of a sound file stand before its samples.
pub const WAVE_HEADER_BYTES: usize = 44;
/// How many bytes of a sound file each sample has.
pub const WAVE_BYTES_PER_SAMPLE: usize = 2;
/// How many bytes [`deconstruct_int32`](crate::deconstruct_int32) asks for, for each sample; it may use
/// fewer.
pub const LITERAL_BYTES_PER_SAMPLE: usize = 4;
/// How many bytes a line of a morning page has, with its newline.
pub const LINE_BYTES: usize = 45;
/// How many frames a line of a morning page covers; the last line covers those that are left.
pub const LINE_FRAMES: usize = 1_024;

/// How many bytes a block of an archive has.
pub const ARCHIVE_BLOCK_BYTES: usize = 512;
/// How many bytes of a recording a block of an archive holds at most.
pub const ARCHIVE_DATA_BYTES: usize = 504;
/// How many bytes of a recording in an archive stand before its payload.
pub const ARCHIVE_HEAD_BYTES: usize = 12;
/// How many numbers the list of [`archive_read`](crate::archive_read) has for each recording.
pub const ARCHIVE_NUMBERS_PER_RECORDING: usize = 4;

/// How many bytes the morning page of so many frames has.
///
/// ```
/// use wavpack_stereo::page_bytes;
/// assert_eq!([0, 1, 1_024, 1_025].map(page_bytes), [0, 45, 45, 90]);
/// ```
#[must_use]
pub const fn page_bytes(frames: usize) -> usize {
    LINE_BYTES * frames.div_ceil(LINE_FRAMES)
}

/// How many bytes a recording with so many payload bytes has in an archive.
///
/// ```
/// use wavpack_stereo::archive_bytes;
/// assert_eq!([0, 492, 493, 996, 997].map(archive_bytes), [512, 512, 1_024, 1_024, 1_536]);
/// ```
#[must_use]
pub const fn archive_bytes(length: usize) -> usize {
    ARCHIVE_BLOCK_BYTES * (ARCHIVE_HEAD_BYTES + length).div_ceil(ARCHIVE_DATA_BYTES)
}

/// How many bytes hold so many bits, as [`pack`](crate::pack) and
/// [`deconstruct_int32`](crate::deconstruct_int32) write them.
///
/// ```
/// use wavpack_stereo::bytes_for_bits;
/// assert_eq!([0, 1, 8, 9].map(bytes_for_bits), [0, 1, 1, 2]);
/// ```
#[must_use]
pub const fn bytes_for_bits(bits: u32) -> usize {
    bits.div_ceil(8) as usize
}

#[cfg(test)]
mod tests {
    use super::*;
    use crate::slots::Slots;
    use crate::{Medians, Packed, Pass, Reading, TermByte, Wave, WordState, Zone};

    const HEADER: &str = include_str!("../../../include/wavpack_stereo.h");
    const LIMITS: &str = include_str!("../../../include/wavpack_stereo_limits.h");

    fn slots_of<T: Slots>() -> i64 {
        (size_of::<T::List>() / size_of::<u32>()) as i64
    }

    /// The numbers that the two headers define: names without `WV_`, and values.
    fn defined() -> impl Iterator<Item = (&'static str, i64)> {
        HEADER.lines().chain(LIMITS.lines()).filter_map(|line| {
            let (name, rest) = line.strip_prefix("#define WV_")?.split_once(' ')?;
            let value = rest.split(" /*").next()?.trim_matches(|c: char| "()u ".contains(c));
            Some((name, value.parse().ok()?))
        })
    }

    #[test]
    fn the_headers_define_these_numbers_and_no_others() {
        let [major, minor, patch] = [
            env!("CARGO_PKG_VERSION_MAJOR"),
            env!("CARGO_PKG_VERSION_MINOR"),
            env!("CARGO_PKG_VERSION_PATCH"),
        ]
        .map(|part| part.parse().unwrap());
        let expected = [
            ("VERSION_MAJOR", major),
            ("VERSION_MINOR", minor),
            ("VERSION_PATCH", patch),
            ("MAX_FRAMES", MAX_FRAMES as i64),
            ("MAX_ELEMENTS", MAX_ELEMENTS as i64),
            ("MAX_PAYLOAD_BYTES", MAX_PAYLOAD_BYTES as i64),
            ("MAX_WAVE_BYTES", MAX_WAVE_BYTES as i64),
            ("MAX_PASSES", MAX_PASSES as i64),
            ("MIN_LOG_WORD", MIN_LOG_WORD.into()),
            ("MAX_LOG_WORD", MAX_LOG_WORD.into()),
            ("MIN_RESIDUAL", MIN_RESIDUAL.into()),
            ("MAX_RESIDUAL", MAX_RESIDUAL.into()),
            ("MIN_RATE", MIN_RATE.into()),
            ("MAX_RATE", MAX_RATE.into()),
            ("MAX_FIELD", MAX_FIELD.into()),
            ("ENTROPY_BYTES", ENTROPY_BYTES as i64),
            ("MONO_ENTROPY_BYTES", MONO_ENTROPY_BYTES as i64),
            ("BYTES_PER_FRAME", BYTES_PER_FRAME as i64),
            ("WAVE_HEADER_BYTES", WAVE_HEADER_BYTES as i64),
            ("WAVE_BYTES_PER_SAMPLE", WAVE_BYTES_PER_SAMPLE as i64),
            ("LITERAL_BYTES_PER_SAMPLE", LITERAL_BYTES_PER_SAMPLE as i64),
            ("LINE_BYTES", LINE_BYTES as i64),
            ("LINE_FRAMES", LINE_FRAMES as i64),
            ("ARCHIVE_BLOCK_BYTES", ARCHIVE_BLOCK_BYTES as i64),
            ("ARCHIVE_DATA_BYTES", ARCHIVE_DATA_BYTES as i64),
            ("ARCHIVE_HEAD_BYTES", ARCHIVE_HEAD_BYTES as i64),
            ("ARCHIVE_NUMBERS_PER_RECORDING", ARCHIVE_NUMBERS_PER_RECORDING as i64),
            ("LOG_WORD_SLOTS", 1),
            ("TERM_BYTE_SLOTS", slots_of::<TermByte>()),
            ("WEIGHT_BYTE_SLOTS", 1),
            ("ENTROPY_SLOTS", slots_of::<Medians>()),
            ("READ_SLOTS", slots_of::<Reading>()),
            ("WORD_STATE_SLOTS", slots_of::<WordState>()),
            ("WORD_SAMPLE_SLOTS", 1),
            ("WORD_REPORT_SLOTS", slots_of::<Option<Zone>>()),
            ("PASS_SLOTS", Pass::SLOTS as i64),
            ("PACK_SLOTS", slots_of::<Packed>()),
            ("WAVE_EXPORT_SLOTS", 1),
            ("WAVE_IMPORT_SLOTS", slots_of::<Wave>()),
            ("MORNING_PAGE_SLOTS", 1),
            ("REASSEMBLE_INT32_SLOTS", 1),
            ("DECONSTRUCT_INT32_SLOTS", 1),
            ("ARCHIVE_WRITE_SLOTS", 1),
            ("ARCHIVE_READ_SLOTS", 2),
        ];
        assert!(defined().eq(expected), "the headers differ from the numbers here");
        assert!(HEADER.contains(concat!("#define WV_VERSION \"", env!("CARGO_PKG_VERSION"), "\"\n")));
    }

    #[test]
    fn the_limits_fit_each_other() {
        assert_eq!(MAX_ELEMENTS, 2 * MAX_FRAMES);
        assert_eq!(MAX_WAVE_BYTES, WAVE_HEADER_BYTES + WAVE_BYTES_PER_SAMPLE * MAX_ELEMENTS);
    }
}
