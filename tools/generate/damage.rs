//! Damage done to a sheet: bytes, fields and lines changed, moved, dropped and doubled.

use super::random::Random;

/// Bytes that mean something in a sheet, or that may not be there.
const TELLING_BYTES: &[u8] = b"\t\n\r\0 \x7f\xc3!&().,-aZKZPFIMEG019";

pub fn damage(random: &mut Random, sheet: &mut Vec<u8>) {
    match random.below(16) {
        0 => change_byte(random, sheet),
        1 => insert_byte(random, sheet),
        2 => drop_byte(random, sheet),
        3 => sheet.truncate(random.below(sheet.len() + 1)),
        4 => drop_end(sheet),
        5..=8 => damage_lines(random, sheet),
        9..=11 => change_field(random, sheet),
        12..=14 => change_parts(random, sheet),
        _ => with_office_ends(random, sheet),
    }
}

fn change_byte(random: &mut Random, sheet: &mut [u8]) {
    let place = random.below(sheet.len());
    if let (Some(byte), Some(new)) = (sheet.get_mut(place), random.pick(TELLING_BYTES)) {
        *byte = *new;
    }
}

fn insert_byte(random: &mut Random, sheet: &mut Vec<u8>) {
    let place = random.below(sheet.len() + 1);
    if let Some(new) = random.pick(TELLING_BYTES) {
        sheet.insert(place, *new);
    }
}

fn drop_byte(random: &mut Random, sheet: &mut Vec<u8>) {
    if !sheet.is_empty() {
        sheet.remove(random.below(sheet.len()));
    }
}

fn drop_end(sheet: &mut Vec<u8>) {
    if sheet.last() == Some(&b'\n') {
        sheet.pop();
    }
}

/// Ends all lines, or one, with bytes 13 and 10.
fn with_office_ends(random: &mut Random, sheet: &mut Vec<u8>) {
    let all = random.percent(50);
    let line = random.below(lines_of(sheet).len());
    let mut lines = lines_of(sheet);
    for (index, bytes) in lines.iter_mut().enumerate() {
        if all || index == line {
            bytes.push(b'\r');
        }
    }
    *sheet = joined(&lines);
}

/// The lines of a sheet whose last line has its end.
fn lines_of(sheet: &[u8]) -> Vec<Vec<u8>> {
    let mut lines: Vec<Vec<u8>> = sheet.split(|&byte| byte == b'\n').map(<[u8]>::to_vec).collect();
    lines.pop();
    lines
}

fn joined(lines: &[Vec<u8>]) -> Vec<u8> {
    lines.iter().flat_map(|line| line.iter().copied().chain([b'\n'])).collect()
}

fn damage_lines(random: &mut Random, sheet: &mut Vec<u8>) {
    let mut lines = lines_of(sheet);
    if lines.is_empty() {
        return;
    }
    let (one, other) = (random.below(lines.len()), random.below(lines.len()));
    match random.below(7) {
        0 => lines.swap(one, other),
        1 => {
            lines.remove(one);
        }
        2 => {
            let again = lines[one].clone();
            lines.insert(other, again);
        }
        3 => lines[one].extend(b"\tfield"),
        4 => lines[one].push(b'\t'),
        5 => lines.insert(one, Vec::new()),
        _ => lengthen(random, &mut lines[one]),
    }
    *sheet = joined(&lines);
}

/// Brings a line to its limit, or over it, by a run of one byte.
fn lengthen(random: &mut Random, line: &mut Vec<u8>) {
    let byte = random.pick(b"a\t.,&!(").copied().unwrap_or(b'a');
    let most = random.between(239, 242);
    while line.len() < most {
        line.push(byte);
    }
}

/// Puts a field of another line, or nothing, or a text that is nearly right, in the place of a field.
fn change_field(random: &mut Random, sheet: &mut Vec<u8>) {
    let mut lines = lines_of(sheet);
    let fields: Vec<Vec<Vec<u8>>> = lines.iter().map(|line| fields_of(line)).collect();
    let number = random.below(lines.len());
    let Some(line) = lines.get_mut(number) else { return };
    let mut here = fields_of(line);
    let place = random.below(here.len());
    let new = match random.below(6) {
        0 => random.pick(ODD_FIELDS).map(|odd| odd.to_vec()),
        1 => random.pick(&fields).and_then(|other| random.pick(other)).cloned(),
        _ => nearby_field(random, &fields, number, place),
    };
    if let (Some(field), Some(new)) = (here.get_mut(place), new) {
        *field = new;
    }
    *line = here.join(&b'\t');
    *sheet = joined(&lines);
}

fn fields_of(line: &[u8]) -> Vec<Vec<u8>> {
    line.split(|&byte| byte == b'\t').map(<[u8]>::to_vec).collect()
}

/// The same field of a line not far away, which is likely to have the same letter.
fn nearby_field(random: &mut Random, fields: &[Vec<Vec<u8>>], line: usize, place: usize) -> Option<Vec<u8>> {
    let other = (line + random.below(7)).saturating_sub(3);
    fields.get(other).and_then(|other| other.get(place)).cloned()
}

const ODD_FIELDS: &[&[u8]] = &[
    b"",
    b"-",
    b"all",
    b"()",
    b"(())",
    b"!",
    b"(",
    b")",
    b"(a&)",
    b"a&b",
    b"a,",
    b"-,a",
    b".",
    b"all.",
    b"all.all",
    b"a.a",
    b"!!!!!!!!()",
    b"!!!!!!!()",
    b"(((((((())))))))",
    b"((((((((()))))))))",
    b"ninebytes",
    b"sight",
    b"plain",
    b"k",
];

/// Changes one to six of the names and facts of a line, so that several troubles meet in it.
fn change_parts(random: &mut Random, sheet: &mut Vec<u8>) {
    let mut lines = lines_of(sheet);
    let Some(number) = a_long_line(random, &lines) else { return };
    let Some(line) = lines.get_mut(number) else { return };
    let is_part = |byte: &u8| byte.is_ascii_lowercase() || byte.is_ascii_digit() || *byte == b'.';
    for _ in 0..random.between(1, 6) {
        let start = random.below(line.len());
        let from = line[..start].iter().rposition(|byte| !is_part(byte)).map_or(0, |index| index + 1);
        let length = line[from..].iter().take_while(|&byte| is_part(byte)).count();
        let part = line[from..from + length].to_vec();
        line.splice(from..from + length, changed_part(random, &part));
    }
    *sheet = joined(&lines);
}

/// The index of a line, likely one with a list of facts or a formula in brackets.
fn a_long_line(random: &mut Random, lines: &[Vec<u8>]) -> Option<usize> {
    let any: Vec<usize> = (0..lines.len()).collect();
    let is_long = |index: &usize| lines.get(*index).is_some_and(|line| line.contains(&b',') || line.contains(&b'&'));
    let long: Vec<usize> = any.iter().copied().filter(is_long).collect();
    let among = if long.is_empty() || random.percent(20) { &any } else { &long };
    random.pick(among).copied()
}

/// A part that has no form, one that is not listed, or the part with a watcher in front.
fn changed_part(random: &mut Random, part: &[u8]) -> Vec<u8> {
    let first = part.split(|&byte| byte == b'.').next().unwrap_or_default();
    match random.below(9) {
        0..=2 => b"Odd".to_vec(),
        3..=4 => b"unlisted".to_vec(),
        5 => [b"all.", part].concat(),
        6 => [first, b".", part].concat(),
        7 => [first, b".all.", part].concat(),
        _ => [b"all.all.", part].concat(),
    }
}
