//! Made texts for order 1, good, damaged and of any pieces, each from a seed.

use crate::draft::{not, Draft, Random};
use crate::jobs::{make_empty, make_negloop, make_small, make_tiny};
use crate::large::largest_job;
use crate::lines::{ended, lines_of_draft};

/// The lines of a made draft, rules in the order added, heads in no order.
pub fn lines_of_made(draft: &Draft) -> Vec<String> {
    lines_of_draft(draft).expect("no missing record was put in")
}

pub fn make_text_draft(random: &mut Random) -> Draft {
    let mut draft = match random.below(8) {
        0..=2 => make_tiny(random),
        3..=5 => make_small(random),
        6 => make_empty(random),
        _ => make_negloop(random),
    };
    random.shuffle(&mut draft.rules);
    draft
}

/// A text whose counts stand at their limits, or one past one of them.
pub fn make_limit_draft(random: &mut Random) -> Draft {
    let past = random.below(8);
    let limit = |limit: usize, place: usize| limit + usize::from(past == place);
    let mut draft = Draft::new(limit(4_096, 0), limit(32, 1));
    let (rules, literals, negated) = (limit(6_144, 2), limit(16_384, 3), random.pick(&[0, 40, 100]));
    draft.top_up(random, rules, literals, None, negated);
    draft.ask_randomly(random, limit(1_024, 4));
    draft
}

/// All counts at their limits in a text that is about as long as one can be: numbers
/// of four digits, all literals negated, heads in no order.
pub fn make_longest_draft(random: &mut Random) -> Draft {
    let mut draft = largest_job();
    let mut claim = || random.within(1_000, 4_095);
    for (head, body) in &mut draft.rules {
        *head = claim() as u16;
        body.literals_mut().iter_mut().for_each(|literal| *literal = not(claim()));
    }
    draft.questions.iter_mut().for_each(|(_, asked)| *asked = claim() as u16);
    draft
}

/// How a line is damaged so that it surely doesn't fit.
pub fn misfit(random: &mut Random, line: &str) -> String {
    match random.below(16) {
        0 => String::new(),
        1 => line.replacen(' ', "  ", 1) + if line.contains(' ') { "" } else { " " },
        2 => format!(" {line}"),
        3 => format!("{line} "),
        4 => format!("{line}\r"),
        5 => format!("{line}."),
        6 => format!("{line},"),
        7 => format!("\t{line}"),
        8 => format!("{line}\0"),
        9 => line.replacen(|letter: char| letter.is_ascii_digit(), "00", 1),
        10 => line.replacen(|letter: char| letter.is_ascii_digit(), "+0", 1),
        11 => line.replacen(|letter: char| letter.is_ascii_digit(), "-1", 1),
        12 => line.replacen(|letter: char| letter.is_ascii_digit(), "\u{663}", 1),
        13 => line.to_uppercase() + "A",
        14 => format!("{line}{line}."),
        _ => format!("# {line}"),
    }
}

/// Replaces the last number of a line, which is the worker count, a claim that
/// the line names or the claim asked for.
pub fn with_last_number(line: &str, number: &str) -> String {
    let digit = |letter: char| letter.is_ascii_digit();
    let end = line.rfind(digit).expect("each line holds a number") + 1;
    let start = line[..end].rfind(|letter| !digit(letter)).map_or(0, |at| at + 1);
    format!("{}{}{}", &line[..start], number, &line[end..])
}

/// A number that fits the grammar and is past every limit.
pub fn huge_number(random: &mut Random) -> String {
    match random.below(6) {
        0 => "65536".to_string(),
        1 => "4294967296".to_string(),
        2 => "18446744073709551616".to_string(),
        3 => "340282366920938463463374607431768211456".to_string(),
        4 => "9".repeat(random.within(20, 400)),
        _ => format!("1{}", "0".repeat(random.within(5, 300))),
    }
}

const BYTES: &[u8] = b"0123456789  ..,,\n\n\r\tnotifaskclaimsworkers\0-+_%\x0b\xc2\xa0\xff";
const PIECES: &[&str] = &[
    " if ",
    ", ",
    " not ",
    "not ",
    ".",
    ".\n",
    "\n",
    "\r\n",
    "\n\n",
    "  ",
    "\t",
    "0",
    "00",
    "01",
    "ask ",
    "ask 0 0\n",
    "0.\n",
    "0 if 0.\n",
    "claims 1 workers 1\n",
    "claims ",
    " workers ",
    "if",
    ",",
    " ",
    "99999999999999999999",
    "4096",
    "65536",
    "4294967296",
    "-1",
    "+1",
    "1e3",
    "0x0",
    "\u{a0}",
    "\u{feff}",
    "\0",
];

/// Changes some bytes or pieces anywhere; the text may fit all the same.
pub fn damage_text(random: &mut Random, text: &mut Vec<u8>) {
    let at = random.below(text.len() + 1);
    let inside = at.min(text.len().saturating_sub(1));
    match random.below(9) {
        0 if !text.is_empty() => text[inside] = random.pick(BYTES),
        1 if !text.is_empty() => drop(text.remove(inside)),
        2 => text.insert(at, random.pick(BYTES)),
        3 | 4 => drop(text.splice(at..at, random.pick(PIECES).bytes())),
        5 => text.truncate(at),
        6 => drop(text.pop()),
        7 => swap_lines(random, text),
        _ => drop(text.splice(at..text.len().min(at + 3), [])),
    }
}

fn swap_lines(random: &mut Random, text: &mut Vec<u8>) {
    let mut lines: Vec<Vec<u8>> = text.split_inclusive(|&byte| byte == b'\n').map(<[u8]>::to_vec).collect();
    if !lines.is_empty() {
        let (one, other) = (random.below(lines.len()), random.below(lines.len()));
        lines.swap(one, other);
    }
    *text = lines.concat();
}

/// A text of any sort: good, at the limits, with huge numbers, or damaged.
pub fn make_text(random: &mut Random) -> Vec<u8> {
    if random.percent(2) {
        return ended(&lines_of_made(&make_limit_draft(random)));
    }
    let mut lines = lines_of_made(&make_text_draft(random));
    if random.percent(15) {
        let at = random.below(lines.len());
        lines[at] = with_last_number(&lines[at], &huge_number(random));
    }
    let mut text = ended(&lines);
    if random.percent(70) {
        for _ in 0..random.within(1, 3) {
            damage_text(random, &mut text);
        }
    }
    text
}

/// Replaces any number of a line.
fn with_any_number(random: &mut Random, line: &str, number: &str) -> String {
    let starts: Vec<usize> = (0..line.len()).filter(|&at| starts_number(line.as_bytes(), at)).collect();
    let start = random.pick(&starts);
    let length = line[start..].bytes().take_while(u8::is_ascii_digit).count();
    format!("{}{}{}", &line[..start], number, &line[start + length..])
}

fn starts_number(line: &[u8], at: usize) -> bool {
    line[at].is_ascii_digit() && (at == 0 || !line[at - 1].is_ascii_digit())
}

/// A text with some numbers at or near a count.
fn make_near_text(random: &mut Random) -> Vec<u8> {
    let draft = make_text_draft(random);
    let mut lines = lines_of_made(&draft);
    let numbers = [0, 1, 31, 32, 33, 4095, 4096, 4097].into_iter();
    let near: Vec<usize> =
        numbers.chain([draft.claims, draft.workers].into_iter().flat_map(|n| [n - n.min(1), n, n + 1])).collect();
    for _ in 0..random.within(1, 2) {
        let (at, number) = (random.below(lines.len()), random.pick(&near));
        lines[at] = with_any_number(random, &lines[at], &number.to_string());
    }
    ended(&lines)
}

/// A text in which one line doesn't fit.
fn make_misfit_text(random: &mut Random, draft: &Draft) -> Vec<u8> {
    let mut lines = lines_of_made(draft);
    let at = random.below(lines.len());
    lines[at] = misfit(random, &lines[at]);
    ended(&lines)
}

/// A text with a number of very many digits; now and then the first is a zero.
fn make_long_number_text(random: &mut Random) -> Vec<u8> {
    let mut lines = lines_of_made(&make_text_draft(random));
    let mut digits: String = (0..random.within(1, 100_000)).map(|_| random.pick(&['0', '1', '5', '9'])).collect();
    digits.replace_range(..1, random.pick(&["1", "9", "6", "0"]));
    let at = random.below(lines.len());
    lines[at] = with_any_number(random, &lines[at], &digits);
    ended(&lines)
}

/// Pieces of lines and bytes in any order, often behind a first line that fits.
fn make_pieces(random: &mut Random) -> Vec<u8> {
    let mut text = Vec::new();
    if random.percent(80) {
        text.extend(random.pick(&["claims 2 workers 2\n", "claims 4096 workers 32\n", "claims 0 workers 1\n"]).bytes());
    }
    let honest = random.pick(&[0, 70, 100]);
    for _ in 0..random.within(0, 30) {
        match random.percent(honest) {
            true => text.extend(random.pick(PIECES).bytes()),
            false => text.push(random.pick(BYTES)),
        }
    }
    text
}

/// The text of a seed, which also chooses its sort.
pub fn generate_text(seed: u64) -> Vec<u8> {
    let random = &mut Random::new("text", seed);
    match seed % 100 {
        0 if seed % 500 == 0 => ended(&lines_of_made(&make_longest_draft(random))),
        0 => ended(&lines_of_made(&make_limit_draft(random))),
        1 => {
            let draft = make_limit_draft(random);
            make_misfit_text(random, &draft)
        }
        2 => make_long_number_text(random),
        3..=22 => make_pieces(random),
        23..=42 => make_near_text(random),
        43..=52 => {
            let draft = make_text_draft(random);
            make_misfit_text(random, &draft)
        }
        _ => make_text(random),
    }
}
