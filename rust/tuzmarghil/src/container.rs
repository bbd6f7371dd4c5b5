//! Files that are no H.264 byte stream: which ones they are, told by their first bytes, and the command that takes the stream out.

use crate::LIMIT;

/// As many bytes tell each of them.
#[doc(hidden)]
pub const CONTAINER_LOOK: usize = 4096;

const FFMPEG: &str = "ffmpeg -i FILE -map 0:v:0 -c:v copy -bsf:v h264_mp4toannexb -f h264 OUT.264";
const CONVERT: &str = "tuz convert FILE -o OUT.264 --to start-codes";
const FRAMING: &str = "--framing length";

/// Names and the bytes that they have at a place.
const MAGIC: [(&str, usize, &[u8]); 16] = [
    ("a QuickTime (MOV) file", 4, b"ftypqt  "),
    ("an MP4 file", 4, b"ftyp"),
    ("an MP4 file", 4, b"styp"),
    ("an MP4 file", 4, b"moof"),
    ("a QuickTime (MOV) file", 4, b"moov"),
    ("a QuickTime (MOV) file", 4, b"mdat"),
    ("a QuickTime (MOV) file", 4, b"wide"),
    ("a QuickTime (MOV) file", 4, b"free"),
    ("a QuickTime (MOV) file", 4, b"skip"),
    ("a Matroska (MKV) or WebM file", 0, b"\x1A\x45\xDF\xA3"),
    ("an AVI file", 0, b"RIFF"),
    ("an FLV file", 0, b"FLV\x01"),
    ("an Ogg file", 0, b"OggS"),
    ("an ASF (WMV) file", 0, b"\x30\x26\xB2\x75\x8E\x66\xCF\x11"),
    ("an MXF file", 0, b"\x06\x0E\x2B\x34\x02\x05\x01\x01"),
    ("an MPEG program stream", 0, b"\0\0\x01\xBA"),
];

/// How many of a file's first bytes must be there to tell. No more are asked of a stream that begins with a start code, so that a live one is shown from its first unit on.
#[doc(hidden)]
pub fn container_needs(front: &[u8]) -> usize {
    let zeros = front.iter().take_while(|b| **b == 0).count();
    let starts = zeros >= 2 && front.get(zeros) == Some(&1);
    // the time before a packet of a transport stream can look like a start code
    if front.len() < 8 || starts && front[4] != 0x47 {
        8
    } else {
        6 * 204
    }
}

/// What a file is that begins with these bytes, where that is no H.264 byte stream: a container, or units behind lengths, with the command that takes the stream out.
/// 4,096 bytes are enough to tell; `whole` says that these are all.
///
/// ```
/// use tuzmarghil::container;
///
/// let told = container(b"\0\0\0\x20ftypisom", false).unwrap();
/// assert!(told.starts_with("is an MP4 file, no H.264 byte stream; `ffmpeg -i FILE"));
/// assert_eq!(container(&[0, 0, 0, 1, 0x67, 0x42, 0, 0x1E], false), None);
/// ```
pub fn container(front: &[u8], whole: bool) -> Option<String> {
    in_container(front).or_else(|| {
        let told = || format!("has its units behind lengths of 4 bytes, not behind start codes: `{FRAMING}` reads it, and `{CONVERT}` puts start codes in their place");
        is_framed(front, whole).then(told)
    })
}

/// The same for a container alone.
#[doc(hidden)]
pub fn in_container(front: &[u8]) -> Option<String> {
    let magic = |(_, at, bytes): &&(&str, usize, &[u8])| {
        // before the name of an MP4's first box stands its length, which is large for `mdat` alone
        let length = *at == 0 || front.first() == Some(&0) || *bytes == b"mdat";
        let rest = front.get(*at..).unwrap_or(&[]);
        length && rest.starts_with(bytes)
    };
    let found = MAGIC.iter().find(magic).map(|(name, ..)| *name);
    let name =
        found.or_else(|| is_transport_stream(front).then_some("an MPEG transport stream (TS)"));
    name.map(|name| {
        format!("is {name}, no H.264 byte stream; `{FFMPEG}` takes the stream out of it")
    })
}

/// The byte 47 at six places in a row, 188, 192 or 204 bytes apart, of which the first may be cut.
fn is_transport_stream(front: &[u8]) -> bool {
    [188, 192, 204].into_iter().any(|step| {
        let packets = |first: usize| {
            let mut places = (first..front.len()).step_by(step);
            places.len() >= 5 && places.by_ref().take(6).all(|i| front[i] == 0x47)
        };
        (0..step).any(packets)
    })
}

/// Whether lengths of 4 bytes lead from unit to unit, so that this is told without being asked for.
fn is_framed(front: &[u8], whole: bool) -> bool {
    let (units, end) = match lengths(front) {
        Some(led) => led,
        None => return false,
    };
    let ends = whole && end == front.len() && units > 0;
    if starts_with_code(front) {
        units >= 4
    } else {
        ends || units >= 2
    }
}

/// The same for who asks which of the two it is: a first unit that is longer than these bytes is enough, where they do not begin with a start code.
#[doc(hidden)]
pub fn looks_framed(front: &[u8], whole: bool) -> bool {
    let long = lengths(front).map_or(false, |(_, end)| end > front.len());
    is_framed(front, whole) || long && !whole && !starts_with_code(front)
}

/// A length-framed file begins so but by chance: then more units are asked for.
fn starts_with_code(front: &[u8]) -> bool {
    front.starts_with(&[0, 0, 1]) || front.starts_with(&[0, 0, 0, 1])
}

/// How many whole units lengths of 4 bytes lead to, and the place that they lead to at last; nothing where one is no unit's.
fn lengths(front: &[u8]) -> Option<(usize, usize)> {
    let (mut at, mut units) = (0, 0);
    while let Some(length) = front.get(at..at + 4) {
        let length = u32::from_be_bytes([length[0], length[1], length[2], length[3]]) as usize;
        let first = front.get(at + 4).copied();
        let good = first.map_or(true, |b| b < 128 && (1..24).contains(&(b % 32)));
        if !good || !(2..=LIMIT).contains(&length) {
            return None;
        }
        at += 4 + length;
        units += usize::from(at <= front.len());
    }
    Some((units, at))
}

#[cfg(test)]
mod tests {
    use super::*;

    /// Each container by its first bytes, also behind lengths that look like start codes.
    #[test]
    fn containers() {
        for (name, at, bytes) in MAGIC {
            let mut front = [0, 0, 1, 0, 0, 0, 0, 0][..at].to_vec();
            front.extend(bytes);
            front.extend([0, 0, 1, 0x65, 0x88]);
            assert!(container(&front, false).unwrap().contains(name), "{name}");
        }
        for step in [188, 192, 204] {
            for first in [0, 4, 100] {
                let packet = |i: usize| if i % step == first { 0x47 } else { 0 };
                let front: Vec<u8> = (0..6 * step).map(packet).collect();
                assert!(container(&front, false).unwrap().contains("transport"));
            }
        }
    }

    #[test]
    fn lengths() {
        let unit: &[u8] = &[0, 0, 0, 4, 0x65, 0x88, 0x84, 0xA0];
        let long = [&[0, 0, 1, 0, 0x41][..], &[7; 255]].concat();
        for (front, whole, framed) in [
            (unit.to_vec(), true, true),
            (unit.to_vec(), false, false),
            (unit.repeat(2), false, true),
            ([&unit.repeat(2), &unit[..6]].concat(), true, true),
            ([unit, &[9, 9, 9, 9]].concat(), true, false),
            (long.repeat(3), true, false),
            (long.repeat(4), true, true),
        ] {
            assert_eq!(is_framed(&front, whole), framed, "{front:?}");
        }
        // who asks is told of one long unit too
        let front = [&[0, 0, 9, 0, 0x65][..], &[7; 255]].concat();
        assert!(looks_framed(&front, false) && !is_framed(&front, false));
        assert!(!looks_framed(&front, true));
        assert!(!looks_framed(&long, false));
    }

    /// Byte streams, with start codes of three and four bytes, are none of them.
    #[test]
    fn byte_streams() {
        for clip in ["comet", "fields", "plain"] {
            let path = format!(
                "{}/../../tests/clips/{clip}.264",
                env!("CARGO_MANIFEST_DIR")
            );
            let clip = std::fs::read(path).unwrap();
            for from in 0..clip.len().min(20_000) {
                let front = &clip[from..clip.len().min(from + CONTAINER_LOOK)];
                assert_eq!(
                    container(front, front.len() < CONTAINER_LOOK),
                    None,
                    "{from}"
                );
            }
        }
        assert_eq!(
            container(&[0, 0, 0, 1, 9, 0x10, 0, 0, 0, 1, 0x67], true),
            None
        );
    }
}
