//! The messages of a capture (document 02, request 6): the first line of its listing, then a line for each event of its released
//! commands, which begins with the multiblock in which the event begins. A capture is refused as for a listing, and by 1 also if
//! its mode has no command channel.

use crate::command::Channel;
use crate::event::{reads, Event, Read};
use crate::listing::{decoded, printed, Decoded};
use crate::mode::{row, Mode};

/// The words of a command in a mode, if it has some.
fn words(mode: &Mode) -> Option<usize> {
    Channel::of(mode).map(Channel::words)
}

/// What a line says after its number, if it says something.
fn said(event: &Event) -> Option<String> {
    match event {
        Event::Nothing => None,
        Event::Message { code, words } => {
            Some(words.iter().fold(format!("message {code}"), |line, word| format!("{line} {word}")))
        }
        Event::Cut(words) => Some(format!("cut {words}")),
        Event::Undefined(code) => Some(format!("undefined {code}")),
    }
}

/// The lines of a capture, or the number by which it is refused.
pub fn lines(capture: &[u8]) -> Result<Vec<String>, u8> {
    let Decoded { head, mode, count, released } = decoded(capture, |mode| words(mode).is_some())?;
    let words = words(row(mode)).ok_or(1)?;
    let line = |read: &Read| said(&read.event).map(|said| format!("{} {said}", read.begin / words));
    let events = reads(mode, &released.commands[..count], 0);
    Ok([head].into_iter().chain(events.iter().filter_map(line)).collect())
}

/// What `lanecommands` prints of a capture.
pub fn text(capture: &[u8]) -> String {
    printed(lines(capture))
}

#[cfg(test)]
mod tests {
    use super::text;
    use crate::captures::capture;
    use crate::cases::Input;
    use crate::command::of;

    fn sent(mode: u8, commands: &[u32]) -> Vec<u8> {
        let input = Input { mode, e: 2, user: vec![7; 256 * commands.len()], commands: commands.to_vec() };
        capture(mode, 2, &input.lane())
    }

    /// The last multiblock waits, so that its command isn't read.
    #[test]
    fn a_line_for_each_event() {
        let commands = [
            of("0 00000 0"),
            of("0 10000 1"),
            of("1 00011 1"),
            of("1 11111 0"),
            of("0 00111 1"),
            of("0 00001 1"),
            0,
            0,
        ];
        for (mode, name) in [(0, "crc12"), (2, "crc12-80"), (4, "crc3")] {
            let lines = "0 message 0\n1 message 16 3 31\n4 undefined 7\n5 cut 1\n6 message 0\n";
            assert_eq!(text(&sent(mode, &commands)), format!("{name} 2 8 7\n{lines}"));
        }
    }

    #[test]
    fn the_multiblock_of_a_word_among_three() {
        let commands = [of("010000 100011 111111 0"), of("100001 000101 000000 0"), 1, 0];
        assert_eq!(text(&sent(5, &commands)), "cmd 2 4 3\n0 message 16 3 31 1\n1 message 5\n2 cut 0\n");
    }

    #[test]
    fn refusals() {
        assert_eq!([0, 2, 4, 5].map(|mode| text(&capture(mode, 1, &[])).lines().count()), [1; 4]);
        for mode in [1, 3, 6, 255] {
            assert_eq!(text(&capture(mode, 0, &[0; 263])), "refused 1\n");
            assert_eq!(text(&[capture(mode, 1, &[]), vec![0]].concat()), "refused 8\n");
        }
        assert_eq!(text(&capture(0, 257, &[0; 263])), "refused 2\n");
        assert_eq!(text(&capture(5, 1, &[0; 263])), "refused 4\n");
    }
}
