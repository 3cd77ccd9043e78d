//! Texts of mornings (docs/TEXT.md) damaged at drawn places, so that a line says another thing or is wrong.

use super::Dice;

/// Bytes that mean something in a line: blanks, comments, keys, clocks, prices, digits of both kinds.
const TELLING: &[u8] = b" \t\r\n#=:.0x19afFEBS-\0\x7f\xff";

/// Values at the ends of the forms and of the ranges, and just beyond them.
const VALUES: [&str; 40] = [
    "",
    "0",
    "00",
    "1",
    "3",
    "255",
    "256",
    "65535",
    "65536",
    "999999999",
    "1000000000",
    "4294967295",
    "4294967296",
    "18446744073709551615",
    "18446744073709551616",
    "000000000000000000000000000007",
    "0.000001",
    "0.000000",
    "0.0000001",
    "1000000000.000000",
    "1000000000.000001",
    "1000000001",
    "10.",
    ".5",
    "1.2.3",
    "09:30:00",
    "23:59:59",
    "24:00:00",
    "9:30:00",
    "B",
    "X",
    "F",
    "A=B",
    "ABCDEFGHIJK",
    "ABCDEFGHIJKL",
    "0x42",
    "0X42",
    "0x4G",
    "0x2020202020202020202020",
    "0x2020202020202020",
];

/// Words that may be put into a line.
const WORDS: [&str; 12] = [
    "#",
    "#a",
    "=",
    "=1",
    "flags=1",
    "type=F",
    "reserved20=1",
    "market=3",
    "symbol=7",
    "symbol",
    "nanoseconds=1000000000",
    "add",
];

/// The text with one to three of its lines damaged.
pub fn damaged_text(seed: u64, text: &[u8]) -> Vec<u8> {
    let mut dice = Dice::new(seed);
    let mut lines: Vec<Vec<u8>> = text
        .split(|byte| *byte == b'\n')
        .map(<[u8]>::to_vec)
        .collect();
    for _ in 0..dice.pick(&[1, 1, 1, 2, 3]) {
        let at = dice.below(lines.len() as u64) as usize;
        match dice.below(20) {
            // A line dropped or doubled, joined with the next one, or behind a blank one; a blank line dropped, after
            // which a packet goes on, and may become too long.
            0 if lines.len() > 1 => {
                lines.remove(at);
            }
            1 => lines.insert(at, lines[at].clone()),
            2 if at + 1 < lines.len() => {
                let next = lines.remove(at + 1);
                lines[at].extend(next);
            }
            3 => lines.insert(at, Vec::new()),
            4 | 5 => {
                let mut dropped = dice.between(1, 60);
                let mut place = 0;
                lines.retain(|line| {
                    let drops = place >= at && line.is_empty() && dropped > 0;
                    place += 1;
                    dropped -= u64::from(drops);
                    !drops
                });
            }
            _ => lines[at] = damaged_line(&mut dice, &lines[at]),
        }
    }
    lines.join(&b'\n')
}

fn damaged_line(dice: &mut Dice, line: &[u8]) -> Vec<u8> {
    let mut words: Vec<Vec<u8>> = line
        .split(|byte| *byte == b' ')
        .map(<[u8]>::to_vec)
        .collect();
    let word = dice.below(words.len() as u64) as usize;
    let mut bytes = line.to_vec();
    let at = dice.below(line.len() as u64 + 1) as usize;
    match dice.below(14) {
        0 => {
            words.remove(word);
        }
        1 => words.insert(word, words[word].clone()),
        2 => {
            let other = dice.below(words.len() as u64) as usize;
            words.swap(word, other);
        }
        3 => words.insert(word, dice.pick(&WORDS).into()),
        // another value, behind the same key if there is one
        4 | 5 | 6 => {
            let key = words[word].iter().position(|byte| *byte == b'=');
            words[word].truncate(key.map_or(0, |equals| equals + 1));
            words[word].extend(dice.pick(&VALUES).as_bytes());
        }
        // blanks, in front or behind too
        7 => {
            words[word].insert(0, dice.pick(b" \t\r"));
            words.push(vec![dice.pick(b" \t\r")]);
        }
        // as long as a line may be, and longer
        8 => {
            let length = dice.pick(&[4_095, 4_096, 4_097, 5_000]);
            let fill = dice.pick(b" \t#0");
            bytes.push(b' ');
            bytes.resize(length.max(bytes.len()), fill);
            return bytes;
        }
        9 if at < line.len() => {
            bytes.remove(at);
            return bytes;
        }
        10 if at < line.len() => {
            bytes.insert(at, line[at]);
            return bytes;
        }
        11 => {
            bytes.insert(at, dice.pick(TELLING));
            return bytes;
        }
        12 if at < line.len() => {
            bytes[at] = dice.pick(TELLING);
            return bytes;
        }
        _ if at < line.len() => {
            bytes[at] = dice.bits() as u8;
            return bytes;
        }
        _ => return bytes,
    }
    words.join(&b' ')
}
