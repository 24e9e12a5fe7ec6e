//! Texts near valid: one of the readable form, with an edit or two.

use simulator::random::Random;

#[derive(Clone, Copy, Debug, PartialEq, Eq, PartialOrd, Ord)]
pub enum Edit {
    None,
    ByteChanged,
    ByteRemoved,
    ByteAdded,
    SpaceRemoved,
    SpaceAdded,
    SpaceDoubled,
    SpaceToTab,
    LineRemoved,
    LineDoubled,
    LineBlank,
    LinesSwapped,
    Return,
    Returns,
    ByteOrderMark,
    Invisible,
    ZeroInFront,
    DigitAdded,
    DigitChanged,
    ClientAdded,
    ClientRemoved,
    Indented,
    Outdented,
    LastEndRemoved,
    TooManyLines,
    FarTooLong,
}

use Edit::*;

pub const EDITS: [Edit; 26] = [
    None,
    ByteChanged,
    ByteRemoved,
    ByteAdded,
    SpaceRemoved,
    SpaceAdded,
    SpaceDoubled,
    SpaceToTab,
    LineRemoved,
    LineDoubled,
    LineBlank,
    LinesSwapped,
    Return,
    Returns,
    ByteOrderMark,
    Invisible,
    ZeroInFront,
    DigitAdded,
    DigitChanged,
    ClientAdded,
    ClientRemoved,
    Indented,
    Outdented,
    LastEndRemoved,
    TooManyLines,
    FarTooLong,
];

/// Characters that an editor doesn't show, or shows as a space.
const INVISIBLE: [&str; 7] = ["\u{a0}", "\u{ad}", "\u{200b}", "\u{feff}", "\u{b}", "\u{7f}", "\0"];

/// What may be written for a client behind the name, and what may not.
const CLIENTS: [&str; 13] =
    [" 1", " 17", " 255", " 256", " 999", " 0", " 00", " 017", " 1000", " 65537", " ", "  17", " x"];

/// Some place whose byte is as wanted; of an empty choice none.
fn place(random: &mut Random, text: &[u8], wanted: impl Fn(u8) -> bool) -> Option<usize> {
    let places: Vec<usize> = (0..text.len()).filter(|&at| wanted(text[at])).collect();
    random.choose(&places)
}

fn space(byte: u8) -> bool {
    byte == b' '
}

/// A byte that could stand in a text, or any.
fn drawn_byte(random: &mut Random) -> u8 {
    if random.chance(80) {
        random.pick(b"aceimnoprtubAI 0123456789\n\r\t-+._#\0")
    } else {
        random.byte()
    }
}

fn edit_bytes(random: &mut Random, edit: Edit, text: &mut Vec<u8>) -> Option<()> {
    match edit {
        ByteChanged => {
            let at = place(random, text, |_| true)?;
            text[at] = drawn_byte(random);
        }
        ByteRemoved => drop(text.remove(place(random, text, |_| true)?)),
        ByteAdded => text.insert(random.between(0, text.len()), drawn_byte(random)),
        SpaceRemoved => drop(text.remove(place(random, text, space)?)),
        SpaceAdded => text.insert(random.between(0, text.len()), b' '),
        SpaceDoubled => text.insert(place(random, text, space)?, b' '),
        SpaceToTab => {
            let at = place(random, text, space)?;
            text[at] = b'\t';
        }
        ByteOrderMark => drop(text.splice(0..0, *b"\xef\xbb\xbf")),
        Invisible => {
            let at = random.between(0, text.len());
            text.splice(at..at, random.pick(&INVISIBLE).bytes());
        }
        DigitAdded => {
            text.insert(place(random, text, |byte| byte.is_ascii_digit())?, b'0' + random.below(10) as u8)
        }
        DigitChanged => {
            let at = place(random, text, |byte| byte.is_ascii_digit())?;
            text[at] = b'0' + random.below(10) as u8;
        }
        ZeroInFront => {
            let numbers =
                |at: &usize| text[*at].is_ascii_digit() && (*at == 0 || !text[*at - 1].is_ascii_digit());
            let starts: Vec<usize> = (0..text.len()).filter(numbers).collect();
            text.insert(random.choose(&starts)?, b'0');
        }
        LastEndRemoved => drop(text.pop()?),
        FarTooLong => text.resize(text.len() + random.pick(&[1 << 20, 3 << 20]), random.pick(b" x\n\0")),
        _ => {}
    }
    Some(())
}

/// There is a line.
fn edit_lines(random: &mut Random, edit: Edit, lines: &mut Vec<Vec<u8>>) {
    let (at, other) = (random.below(lines.len()), random.below(lines.len()));
    match edit {
        LineRemoved => drop(lines.remove(at)),
        LineDoubled => lines.insert(at, lines[at].clone()),
        LineBlank => lines.insert(random.between(0, lines.len()), vec![b'\n']),
        LinesSwapped => lines.swap(at, other),
        Return => {
            let end = lines[at].len() - 1;
            lines[at].insert(end, b'\r');
        }
        Returns => lines.iter_mut().for_each(|line| line.insert(line.len() - 1, b'\r')),
        ClientAdded => {
            let end = lines[at].len() - 1;
            lines[at].splice(end..end, random.pick(&CLIENTS).bytes());
        }
        ClientRemoved => {
            let end = lines[at].len() - 1;
            let space = lines[at].iter().rposition(|&byte| space(byte)).unwrap_or(end);
            lines[at].drain(space..end);
        }
        Indented => drop(lines[at].splice(0..0, vec![b' '; random.between(1, 4)])),
        Outdented => {
            let spaces = lines[at].iter().take_while(|&&byte| space(byte)).count();
            lines[at].drain(..random.between(1, 4).min(spaces));
        }
        TooManyLines => {
            let most = random.pick(&[1024, 1025, 1026, 1100]);
            *lines = lines.iter().cycle().take(most).cloned().collect();
        }
        _ => {}
    }
}

/// Makes the edit, if the text has a place for it.
pub fn apply(random: &mut Random, edit: Edit, text: &mut Vec<u8>) -> bool {
    let by_lines = [
        LineRemoved,
        LineDoubled,
        LineBlank,
        LinesSwapped,
        Return,
        Returns,
        ClientAdded,
        ClientRemoved,
        Indented,
        Outdented,
        TooManyLines,
    ];
    // Lines keep their ends; only a text that ends by a line is cut into lines.
    if by_lines.contains(&edit) {
        if text.last() != Some(&b'\n') {
            return false;
        }
        let mut lines: Vec<Vec<u8>> =
            text.split_inclusive(|&byte| byte == b'\n').map(<[u8]>::to_vec).collect();
        edit_lines(random, edit, &mut lines);
        *text = lines.concat();
        return true;
    }
    edit_bytes(random, edit, text).is_some()
}
