//! Captures and their listings (document 01, "Capture and listing"). A capture is two sections, each after its count in
//! four octets, highest first: mode and E in two octets, and the lane's octets. Nothing follows. How long it may be goes by
//! its mode; where there is no such mode, as in mode 0 (document 02, request 2).
//!
//! `second listings` reads named captures on standard input, one after another, the name and the capture as a section
//! each, and prints for each its name with a colon on a line, and its listing.

use crate::mode::{is_extent, mode, row, Mode};
use crate::receiver::{receive, Lent, Receiver};

/// The section at the start, and what follows it.
fn section(octets: &[u8]) -> Option<(&[u8], &[u8])> {
    let (count, rest) = octets.split_first_chunk()?;
    rest.split_at_checked(u32::from_be_bytes(*count) as usize)
}

/// The octets of the longest capture with that mode octet.
fn longest(octet: u8) -> usize {
    mode(octet).unwrap_or(row(0)).longest_capture()
}

/// The settings and the lane of a capture, if it has the form.
fn sections(capture: &[u8]) -> Option<([u8; 3], &[u8])> {
    let (settings, rest) = section(capture)?;
    let (lane, after) = section(rest)?;
    let settings: [u8; 3] = settings.try_into().ok()?;
    let fits = after.is_empty() && capture.len() <= longest(settings[0]);
    fits.then_some((settings, lane))
}

/// What a fresh receiver makes of a capture's lane.
pub struct Decoded {
    /// The first line: the mode's name, E, and multiblocks received and released.
    pub head: String,
    pub mode: u8,
    pub count: usize,
    pub released: Lent,
}

/// A capture decoded, if its mode is one of those that are asked for, or the number by which it is refused.
pub fn decoded(capture: &[u8], asked_for: fn(&Mode) -> bool) -> Result<Decoded, u8> {
    let ([octet, e_high, e_low], lane) = sections(capture).ok_or(8)?;
    let mode = mode(octet).filter(|mode| asked_for(mode)).ok_or(1)?;
    let e = u16::from_be_bytes([e_high, e_low]);
    if !is_extent(u32::from(e)) {
        return Err(2);
    }
    let multiblocks = lane.len() / mode.lane_octets();
    let mut released = Lent::room_for(multiblocks);
    let received = receive(octet, Receiver::fresh(), lane, &mut released);
    if received.refusal != 0 {
        return Err(received.refusal);
    }
    let count = received.count;
    Ok(Decoded { head: format!("{} {e} {multiblocks} {count}", mode.name), mode: octet, count, released })
}

/// The lines of a listing, or the number by which the capture is refused.
pub fn lines(capture: &[u8]) -> Result<Vec<String>, u8> {
    let Decoded { head, count, released, .. } = decoded(capture, |_| true)?;
    let line = |k: usize| format!("{k} {} {} {}", released.statuses[k], released.places[k], released.patterns[k]);
    Ok([head].into_iter().chain((0..count).map(line)).collect())
}

/// What a program prints of a capture: its lines, or the number by which it is refused.
pub fn printed(lines: Result<Vec<String>, u8>) -> String {
    let lines = lines.unwrap_or_else(|refusal| vec![format!("refused {refusal}")]);
    lines.iter().map(|line| format!("{line}\n")).collect()
}

/// What `lanelist` prints of a capture.
pub fn listing(capture: &[u8]) -> String {
    printed(lines(capture))
}

/// The listings of named captures, or nothing if the last one is cut short.
pub fn listings(packed: &[u8]) -> Option<String> {
    let mut text = String::new();
    let mut rest = packed;
    while !rest.is_empty() {
        let (name, after) = section(rest)?;
        let (capture, after) = section(after)?;
        text += &format!("{}:\n{}", String::from_utf8_lossy(name), listing(capture));
        rest = after;
    }
    Some(text)
}

#[cfg(test)]
mod tests {
    use super::{listing, listings};
    use crate::captures::{capture, cases, packed};

    #[test]
    fn the_documents_own_example() {
        let lane = crate::cases::Input { mode: 1, e: 1, user: vec![0; 512], commands: vec![0; 2] }.lane();
        assert_eq!(listing(&capture(1, 1, &lane)), "fec 1 2 1\n0 4 0 0\n");
    }

    #[test]
    fn every_mode_has_its_name() {
        for (mode, name) in ["crc12", "fec", "crc12-80", "fec-80", "crc3", "cmd"].iter().enumerate() {
            assert_eq!(listing(&capture(mode as u8, 1, &[])), format!("{name} 1 0 0\n"));
        }
        assert_eq!(listing(&capture(6, 1, &[])), "refused 1\n");
    }

    #[test]
    fn the_form_goes_before_the_table() {
        let lane = [0; 264];
        assert_eq!(listing(&capture(6, 0, &lane[..263])), "refused 1\n");
        assert_eq!(listing(&capture(1, 0, &lane[..263])), "refused 2\n");
        assert_eq!(listing(&capture(1, 1, &lane[..263])), "refused 4\n");
        assert_eq!(listing(&capture(3, 1, &lane)), "refused 4\n");
        assert_eq!(listing(&[capture(6, 0, &lane), vec![0]].concat()), "refused 8\n");
    }

    /// 8 comes before 1 and before 4: what is too long is refused by 8, whatever its mode octet is.
    #[test]
    fn how_long_a_capture_may_be() {
        let first =
            |mode, length: usize| listing(&capture(mode, 1, &vec![0; length - 11])).lines().next().map(String::from);
        let lengths = [63_371, 63_372, 64_011, 64_012];
        let refused = |numbers: [u8; 4]| numbers.map(|number| Some(format!("refused {number}")));
        for mode in [0, 1, 4, 5, 6, 7, 255] {
            assert_eq!(lengths.map(|length| first(mode, length))[1..], refused([0, 8, 8, 8])[1..]);
        }
        assert_eq!([6, 7, 255].map(|mode| first(mode, 63_371)), [(); 3].map(|_| Some("refused 1".to_string())));
        for (mode, name) in [(4, "crc3"), (5, "cmd")] {
            assert_eq!(first(mode, 63_371), Some(format!("{name} 1 240 239")));
        }
        for (mode, name) in [(2, "crc12-80"), (3, "fec-80")] {
            assert_eq!(first(mode, 63_371), Some(format!("{name} 1 198 197")));
            assert_eq!(first(mode, 64_011), Some(format!("{name} 1 200 199")));
            assert_eq!(
                [63_372, 64_012].map(|length| first(mode, length)),
                [4, 8].map(|number| Some(format!("refused {number}")))
            );
        }
    }

    #[test]
    fn a_capture_cut_anywhere_is_refused() {
        let whole = capture(0, 1, &[0; 528]);
        assert!((0..whole.len()).all(|cut| listing(&whole[..cut]) == "refused 8\n"));
        assert_eq!(listing(&whole), "crc12 1 2 1\n0 4 0 0\n");
    }

    #[test]
    fn packed_captures_are_listed_one_after_another() {
        let cases = cases();
        let each: String = cases.iter().map(|case| format!("{}:\n{}", case.name, listing(&case.capture))).collect();
        let packed = packed(&cases);
        assert_eq!(listings(&packed), Some(each));
        assert_eq!(listings(&packed[..packed.len() - 1]), None);
    }
}
