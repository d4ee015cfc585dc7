//! Solver output, right and damaged, and some texts with their answers.

use crate::questions::Item;
use crate::sample::Generator;

pub const SATISFIABLE: &[u8] = b"s SATISFIABLE";

/// The s lines.
const STATUS: [&[u8]; 3] = [SATISFIABLE, b"s UNSATISFIABLE", b"s UNKNOWN"];

/// Lines that are skipped.
const SKIPPED: [&[u8]; 11] = [
    b"",
    b"",
    b"c",
    b"c ",
    b"c\r",
    b"c\tv 1",
    b"cv 0",
    b"c s SATISFIABLE",
    b"cs UNSATISFIABLE",
    b"c v 1 -2 0",
    b"c\0\x01\x7F\x80\xFF",
];

/// Almost s lines.
const BAD_STATUS: [&[u8]; 27] = [
    b"s",
    b"s ",
    b"s S",
    b"s SAT",
    b"s SATISFIABL",
    b"s SATISFIABLE ",
    b"s SATISFIABLE\r",
    b"s SATISFIABLE\t",
    b"s SATISFIABLE\0",
    b"s SATISFIABLE 0",
    b"s SATISFIABLES",
    b"s SATISFIABLEs SATISFIABLE",
    b"s  SATISFIABLE",
    b"s\tSATISFIABLE",
    b"sSATISFIABLE",
    b" s SATISFIABLE",
    b"s satisfiable",
    b"S SATISFIABLE",
    b"SATISFIABLE",
    b"s UNSAT",
    b"s UNSATISFIABLE ",
    b"s UNSATISFIABL",
    b"s UNSATISFIABLE\r",
    b"s UNSATISFIABLES",
    b"s UNKNOW",
    b"s UNKNOWN ",
    b"s UNKNOWNS",
];

/// Lines that are wrong wherever they stand, besides those with a bad token.
const BAD_LINES: [&[u8]; 40] = [
    b" ",
    b"  ",
    b"\t",
    b"\r",
    b"\0",
    b"\x80",
    b"\xFF",
    b"\xE3",
    b"\xEF\xBB\xBF",
    b" c",
    b"\tc",
    b"C",
    b"x",
    b"p cnf 4 8",
    b"o 1",
    b"0",
    b"1",
    b"1 -2 -3 4 0",
    b"-1 0",
    b"v",
    b"v\t",
    b"v\r",
    b"vv 1",
    b"v1",
    b"v0",
    b"v-1",
    b"v\t1",
    b"V 1",
    b" v 1",
    b"\rv 1",
    b"v 1\t-2",
    b"v 1\r",
    b"v 0\r",
    b"v 1 v 2",
    b"v 0 0",
    b"v 0 1",
    b"v 1 0 -2",
    b"v 1 -2 -3 4 0 0",
    b"v 0 c",
    b"v 1 c comment",
];

/// Tokens that no v line may hold, whatever the instance. The long numbers are
/// 1 beyond powers of 2 at which a machine's numbers end, or near them, or have
/// a digit more than those.
const BAD_TOKENS: [&[u8]; 46] = [
    b"",
    b" ",
    b"-0",
    b"00",
    b"000",
    b"01",
    b"-01",
    b"0001",
    b"+0",
    b"+1",
    b"-",
    b"+",
    b"--1",
    b"-+1",
    b"+-1",
    b"- 1",
    b"1-",
    b"1+",
    b"1-2",
    b"1,",
    b"1.",
    b"1.0",
    b"1e0",
    b"0x1",
    b"x",
    b"1x",
    b"x1",
    b"1/",
    b"1:",
    b"/",
    b":",
    b"\xB1",
    b"1\x80",
    b"\xEF\xBC\x91",
    b"1\0",
    b"\0",
    b"65537",
    b"100001",
    b"2147483648",
    b"-2147483649",
    b"4294967297",
    b"-4294967297",
    b"18446744073709551617",
    b"-18446744073709551617",
    b"10000000000000000001",
    b"340282366920938463463374607431768211457",
];

/// `count` digits, the first and the last of them 1.
fn long_number(count: usize) -> Vec<u8> {
    let mut digits = vec![b'0'; count];
    digits[0] = b'1';
    digits[count - 1] = b'1';
    digits
}

/// Tokens that are wrong for this many variables.
fn bad_tokens(variables: usize) -> Vec<Vec<u8>> {
    let beyond = [
        format!("{}", variables + 1),
        format!("-{}", variables + 1),
        format!("{variables}0"),
        format!("-{variables}1"),
        format!("1{variables:09}"),
        format!("{}", variables + 256),
        format!("{}", variables + 65_536),
    ];
    let mut tokens: Vec<Vec<u8>> = BAD_TOKENS.iter().map(|token| token.to_vec()).collect();
    tokens.extend(beyond.map(String::into_bytes));
    tokens.extend([20, 40, 100].map(long_number));
    tokens
}

/// Lines that make short texts: right, wrong, or right only somewhere. There is
/// one variable.
pub const SHORT_LINES: [&[u8]; 13] = [
    b"",
    b"c",
    b"s SATISFIABLE",
    b"s UNSATISFIABLE",
    b"s UNKNOWN",
    b"v 1",
    b"v -1",
    b"v 0",
    b"v 1 0",
    b"v 0 1",
    b"v 1 -1",
    b"v 2",
    b"x",
];

/// The v lines of these literals and the 0. A line takes a further token while
/// it keeps to `columns` bytes.
pub fn v_lines(literals: &[i32], columns: usize) -> Vec<Vec<u8>> {
    let mut lines: Vec<Vec<u8>> = Vec::new();
    for number in literals.iter().chain(&[0]) {
        let token = format!(" {number}");
        match lines.last_mut() {
            Some(line) if line.len() + token.len() <= columns => line.extend(token.bytes()),
            _ => lines.push(format!("v{token}").into_bytes()),
        }
    }
    lines
}

/// What a solver prints: the s line and v lines of at most `columns` bytes.
pub fn output(literals: &[i32], columns: usize) -> Vec<u8> {
    let mut lines = vec![SATISFIABLE.to_vec()];
    lines.extend(v_lines(literals, columns));
    text_of(&lines)
}

/// Each line and a byte 10.
fn text_of(lines: &[Vec<u8>]) -> Vec<u8> {
    lines
        .iter()
        .flat_map(|line| [line, &b"\n"[..]].concat())
        .collect()
}

/// A valuation of this many variables.
pub fn some_valuation(g: &mut Generator, variables: usize) -> Vec<i32> {
    let mut entries: Vec<i32> = (1..=variables as i32).collect();
    for entry in &mut entries {
        if g.chance(50) {
            *entry = -*entry;
        }
    }
    entries
}

/// A text of the right form for these entries: literals in some order, v lines
/// cut somewhere, the s line and skipped lines anywhere.
pub fn some_output(g: &mut Generator, entries: &[i32]) -> Vec<u8> {
    let mut literals = entries.to_vec();
    match g.below(4) {
        0 => g.shuffle(&mut literals),
        1 => literals.reverse(),
        _ => {}
    }
    let columns = [0, 78, usize::MAX, 3 + g.below(40), 3 + g.below(12)][g.below(5)];
    let mut lines = v_lines(&literals, columns);
    if g.chance(30) {
        // The 0 in a line of its own.
        let last = lines.pop().unwrap_or_default();
        lines.extend(last.strip_suffix(b" 0").map(<[u8]>::to_vec));
        lines.retain(|line| line != b"v");
        lines.push(b"v 0".to_vec());
    }
    let at = [0, 0, lines.len(), g.below(lines.len() + 1)][g.below(4)];
    lines.insert(at, SATISFIABLE.to_vec());
    if g.chance(60) {
        for _ in 0..1 + g.below(5) {
            let line = skipped(g);
            lines.insert(g.below(lines.len() + 1), line);
        }
    }
    let mut text = text_of(&lines);
    if g.chance(20) {
        text.pop();
    }
    text
}

/// An empty line or a comment.
fn skipped(g: &mut Generator) -> Vec<u8> {
    if g.chance(80) {
        return SKIPPED[g.below(SKIPPED.len())].to_vec();
    }
    let length = g.below(12);
    let mut line = g.bytes(length);
    line.retain(|&byte| byte != b'\n');
    line.insert(0, b'c');
    line
}

/// The text with comments or empty lines that make it `length` bytes long, two
/// more than it has at least.
pub fn padded(g: &mut Generator, text: &[u8], length: usize) -> Vec<u8> {
    let mut text = text.to_vec();
    let comment = |length: usize| [b"c", &vec![b'-'; length - 1][..]].concat();
    match g.below(3) {
        0 => {
            let line = comment(length - text.len() - 1);
            text = [&line[..], b"\n", &text].concat();
        }
        1 => {
            text.push(b'\n');
            text.extend(comment(length - text.len()));
        }
        _ => text.resize(length, b'\n'),
    }
    text
}

/// A text for these entries: of the right form, with wrong literals, with another
/// s line, or damaged up to three times.
pub fn some_text(g: &mut Generator, entries: &[i32]) -> Vec<u8> {
    let mut literals = entries.to_vec();
    if g.chance(20) {
        damage_literals(g, &mut literals);
    }
    let mut text = some_output(g, &literals);
    if g.chance(10) {
        let mut lines = lines_of(&text);
        for line in lines.iter_mut().filter(|line| *line == SATISFIABLE) {
            *line = STATUS[1 + g.below(2)].to_vec();
        }
        text = lines.join(&b'\n');
    }
    for _ in 0..[0, 0, 0, 0, 1, 1, 1, 2, 3][g.below(9)] {
        text = damaged(g, entries.len(), &text);
    }
    text
}

/// Variables are missing, repeated, or both.
fn damage_literals(g: &mut Generator, literals: &mut Vec<i32>) {
    for _ in 0..1 + g.below(2) {
        let (i, j) = (g.below(literals.len()), g.below(literals.len() + 1));
        let literal = literals[i];
        match g.below(5) {
            0 if literals.len() > 1 => {
                literals.remove(i);
            }
            1 => literals.insert(j, literal),
            2 => literals.insert(j, -literal),
            3 => literals.extend_from_within(..j),
            _ => literals[i] = literals[j % literals.len()],
        }
    }
}

/// The pieces between bytes 10.
fn lines_of(text: &[u8]) -> Vec<Vec<u8>> {
    let lines = text.split(|&byte| byte == b'\n');
    lines.map(<[u8]>::to_vec).collect()
}

/// Damages a text in its bytes, lines, tokens or s line.
pub fn damaged(g: &mut Generator, variables: usize, text: &[u8]) -> Vec<u8> {
    let mut lines = lines_of(text);
    match g.below(7) {
        0 | 1 => return damaged_bytes(g, text),
        2 | 3 => damage_lines(g, &mut lines),
        4 | 5 => {
            let mut all: Vec<&mut Vec<u8>> =
                lines.iter_mut().filter(|x| x.starts_with(b"v ")).collect();
            if all.is_empty() {
                return damaged_bytes(g, text);
            }
            let chosen = g.below(all.len());
            damage_tokens(g, variables, all[chosen]);
        }
        _ => damage_status(g, &mut lines),
    }
    lines.join(&b'\n')
}

fn damaged_bytes(g: &mut Generator, text: &[u8]) -> Vec<u8> {
    const ODD: &[u8] = b"\n\n  --0012359cvs\t\r+.:/\0\x7F\x80\xFF";
    let mut text = text.to_vec();
    let at = g.below(text.len() + 1);
    let odd = ODD[g.below(ODD.len())];
    match g.below(8) {
        0 | 1 => text.insert(at, odd),
        2 => {
            if let Some(byte) = text.get_mut(at) {
                *byte = odd;
            }
        }
        3 => {
            g.damage(&mut text);
        }
        4 => text.truncate(at),
        5 => {
            text.drain(..at.min(3));
        }
        6 => {
            // A few bytes are there twice.
            let end = text.len().min(at + 1 + g.below(6));
            let piece = text[at..end].to_vec();
            text.splice(at..at, piece);
        }
        _ => {
            let end = text.len().min(at + 1 + g.below(2));
            text.drain(at..end);
        }
    }
    text
}

fn damage_lines(g: &mut Generator, lines: &mut Vec<Vec<u8>>) {
    let (i, j) = (g.below(lines.len()), g.below(lines.len()));
    match g.below(7) {
        0 => {
            lines.remove(i);
        }
        1 => lines.insert(j, lines[i].clone()),
        2 => lines.swap(i, j),
        3 => lines.insert(i, BAD_LINES[g.below(BAD_LINES.len())].to_vec()),
        4 => {
            let ends: [&[u8]; 4] = [b" ", b"\r", b"\t", b" 0"];
            lines[i].extend(ends[g.below(4)]);
        }
        5 => lines.truncate(i),
        _ => lines.push([&b"v 1"[..], b"v 0", b"v -1 0", b"c", b"s UNKNOWN"][g.below(5)].to_vec()),
    }
}

fn damage_tokens(g: &mut Generator, variables: usize, line: &mut Vec<u8>) {
    let tokens = line.split(|&byte| byte == b' ');
    let mut tokens: Vec<Vec<u8>> = tokens.map(<[u8]>::to_vec).collect();
    let variable = 1 + g.below(variables);
    let literal = [format!("{variable}"), format!("-{variable}")][g.below(2)]
        .clone()
        .into_bytes();
    // The first is the v.
    let (i, j) = (1 + g.below(tokens.len() - 1), 1 + g.below(tokens.len() - 1));
    match g.below(9) {
        0 => {
            tokens.remove(i);
        }
        1 => tokens.insert(j, tokens[i].clone()),
        2 => tokens.swap(i, j),
        3 => tokens[i] = literal,
        4 => tokens.insert(i, literal),
        5 => tokens.insert(i, b"0".to_vec()),
        6 => {
            let bad = bad_tokens(variables);
            tokens[i] = bad[g.below(bad.len())].clone();
        }
        7 => {
            let bad = bad_tokens(variables);
            tokens.insert(i, bad[g.below(bad.len())].clone());
        }
        _ => {
            tokens[i] = match tokens[i].strip_prefix(b"-") {
                Some(digits) => digits.to_vec(),
                None => [b"-", &tokens[i][..]].concat(),
            };
        }
    }
    *line = tokens.join(&b' ');
}

fn damage_status(g: &mut Generator, lines: &mut Vec<Vec<u8>>) {
    let other = STATUS[g.below(3)].to_vec();
    let Some(at) = lines.iter().position(|line| line.starts_with(b"s")) else {
        lines.push(other);
        return;
    };
    match g.below(5) {
        0 | 1 => lines[at] = STATUS[1 + g.below(2)].to_vec(),
        2 => {
            lines.remove(at);
        }
        3 => lines.insert(g.below(lines.len() + 1), other),
        _ => lines[at] = BAD_STATUS[g.below(BAD_STATUS.len())].to_vec(),
    }
}

/// For 4 variables: an s line and a v line of 14 bytes each, and one of 12
/// bytes, without the 0.
const S_LINE: &[u8] = b"s SATISFIABLE\n";
const V_LINE: &[u8] = b"v 1 -2 -3 4 0\n";
const OPEN_LINE: &[u8] = b"v 1 -2 -3 4\n";

/// The entries of all accepted texts of `worked`.
pub const WORKED: [i32; 4] = [1, -2, -3, 4];

/// Texts for 4 variables, with the answers worked out by hand.
pub fn worked() -> Vec<(Vec<u8>, Item)> {
    let mut all = Vec::new();
    for text in ACCEPTED {
        all.push((text.to_vec(), (0, 4)));
    }
    for (text, item) in REFUSED {
        all.push((text.to_vec(), *item));
    }
    // A wrong line as the first, between the other two, and as the last.
    let tokens = bad_tokens(4);
    let with_token = tokens.iter().flat_map(|token| {
        let before: [&[u8]; 2] = [b"v ", b"v -2 "];
        let alone = before.map(|before| [before, token].concat());
        alone
            .into_iter()
            .chain([[b"v ", &token[..], b" 4"].concat()])
    });
    let lines = BAD_LINES
        .iter()
        .chain(&BAD_STATUS)
        .map(|line| line.to_vec());
    for line in lines.chain(with_token) {
        all.push(([&line[..], b"\n", S_LINE, V_LINE].concat(), (27, 0)));
        all.push(([S_LINE, &line, b"\n", V_LINE].concat(), (27, 14)));
        // After a 0 any v line is wrong, whatever its tokens.
        all.push(match line.first() {
            Some(b'v') => ([S_LINE, OPEN_LINE, &line].concat(), (27, 26)),
            _ => ([S_LINE, V_LINE, &line].concat(), (27, 28)),
        });
    }
    // No other line is the s line.
    for line in BAD_STATUS {
        all.push(([line, b"\n", V_LINE].concat(), (27, 0)));
        all.push(([V_LINE, line].concat(), (27, 14)));
    }
    // A second s line.
    for line in STATUS {
        all.push(([S_LINE, line, b"\n", V_LINE].concat(), (27, 14)));
        all.push(([S_LINE, V_LINE, line].concat(), (27, 28)));
        all.push(([b"s UNKNOWN\n", line, b"\n"].concat(), (27, 10)));
        all.push(([b"s UNSATISFIABLE\n", line, b"\n"].concat(), (27, 16)));
    }
    all
}

const ACCEPTED: [&[u8]; 25] = [
    b"s SATISFIABLE\nv 1 -2 -3 4 0\n",
    b"s SATISFIABLE\nv 1 -2 -3 4 0",
    b"v 1 -2 -3 4 0\ns SATISFIABLE\n",
    b"v 1 -2 -3 4 0\ns SATISFIABLE",
    b"v 1 -2\ns SATISFIABLE\nv -3 4 0\n",
    b"v 1 -2 -3 4\ns SATISFIABLE\nv 0\n",
    b"v 1 -2 -3 4\ns SATISFIABLE\nv 0",
    b"v 1 -2 -3 4\nv 0\ns SATISFIABLE\n",
    b"s SATISFIABLE\nv 1 -2 -3\nv 4 0\n",
    b"s SATISFIABLE\nv 1\nv -2 -3 4 0\n",
    b"s SATISFIABLE\nv 1\nv -2\nv -3\nv 4\nv 0\n",
    // Other orders.
    b"s SATISFIABLE\nv 4 -3 -2 1 0\n",
    b"s SATISFIABLE\nv -3 1\nv 4 -2 0\n",
    b"s SATISFIABLE\nv -2 4\nv 1\nv -3\nv 0\n",
    b"v 4\nv -2 1\ns SATISFIABLE\nv -3 0",
    // Skipped lines, whatever they hold.
    b"\ns SATISFIABLE\nv 1 -2 -3 4 0\n",
    b"\n\n\ns SATISFIABLE\n\nv 1 -2\n\n\nv -3 4 0\n\n\n",
    b"c\ns SATISFIABLE\nc\nv 1 -2\nc\nv -3 4 0\nc\n",
    b"c\ns SATISFIABLE\nc\nv 1 -2 -3 4 0\nc",
    b"s SATISFIABLE\nv 1 -2 -3 4 0\n\nc v 1\ncv 0\n\n",
    b"c s UNKNOWN\nc v 9\ncs\ncv -0\ns SATISFIABLE\nv 1 -2 -3 4 0\n",
    b"c\r\nc\t\ncomment\nc  \ns SATISFIABLE\nv 1 -2 -3 4 0\nc\r",
    b"c\0\nc\x80\xFF\nc\xE2\x82\ns SATISFIABLE\nv 1 -2 -3 4 0\nc\0",
    b"v 1 -2 -3 4 0\nc\n\ns SATISFIABLE\n\nc\n",
    b"v 1 -2\n\nc between\nv -3\n\nv 4 0\n\ns SATISFIABLE\n\n",
];

const REFUSED: &[(&[u8], Item)] = &[
    // The s line or the 0 is missing.
    (b"", (27, 0)),
    (b"\n", (27, 1)),
    (b"\n\n", (27, 2)),
    (b"c", (27, 1)),
    (b"c\n", (27, 2)),
    (b"\nc", (27, 2)),
    (b"c only\n\n", (27, 8)),
    (b"v 0", (27, 3)),
    (b"v 0\n", (27, 4)),
    (b"v 1", (27, 3)),
    (b"v 1 -2 -3 4 0\n", (27, 14)),
    (b"v 1 -2 -3 4 0", (27, 13)),
    (b"v 1 -2 -3 4\n", (27, 12)),
    (b"v 1 -2 -3 4 0\nc s SATISFIABLE\n", (27, 30)),
    (b"v 1 1 0\n", (27, 8)),
    (b"s SATISFIABLE", (27, 13)),
    (b"s SATISFIABLE\n", (27, 14)),
    (b"\ns SATISFIABLE\n\n", (27, 16)),
    (b"s SATISFIABLE\nv 1 -2 -3 4\n", (27, 26)),
    (b"s SATISFIABLE\nv 1 -2 -3 4", (27, 25)),
    (b"v 1 -2 -3 4\ns SATISFIABLE", (27, 25)),
    (b"s SATISFIABLE\nv 1\nc v 0\n", (27, 24)),
    (b"s SATISFIABLE\nv 1 1", (27, 19)),
    // A v line after the 0, under each s line.
    (b"s SATISFIABLE\nv 1 -2 -3 4 0\nv 0\n", (27, 28)),
    (b"s SATISFIABLE\nv 1 -2 -3 4 0\nv 1\n", (27, 28)),
    (b"s SATISFIABLE\nv 1 -2 -3 4 0\nv 5", (27, 28)),
    (b"s SATISFIABLE\nv 1 -2 -3 4 0\nc\n\nv -4", (27, 31)),
    (b"s SATISFIABLE\nv 1 -2 -3 4 0\nv 1 -2 -3 4 0\n", (27, 28)),
    (b"s SATISFIABLE\nv 0\nv 1 -2 -3 4\n", (27, 18)),
    (b"s SATISFIABLE\nv 1 -2 0\nv -3 4\n", (27, 23)),
    (b"v 1 -2 0\ns SATISFIABLE\nv -3 4 0\n", (27, 23)),
    (b"v 1 -2 0\nv -3 4 0\ns SATISFIABLE\n", (27, 9)),
    (b"v 0\nv 0\n", (27, 4)),
    (b"s UNSATISFIABLE\nv 0\nv 1\n", (27, 20)),
    (b"s UNKNOWN\nv 0\nv 0\n", (27, 14)),
    (b"v 0\ns UNKNOWN\nv 1", (27, 14)),
    // Two wrong lines: the first decides.
    (b"x\ny\n", (27, 0)),
    (b"\nv 1 \nv 5\n", (27, 1)),
    (
        b"s SATISFIABLE\nv 5\ns SATISFIABLE\nv 1 -2 -3 4 0\n",
        (27, 14),
    ),
    (
        b"s SATISFIABLE\ns SATISFIABLE\nv 5\nv 1 -2 -3 4 0\n",
        (27, 14),
    ),
    (b"s SATISFIABLE\nv 1 -2 -3 4 0\nv 1\ns UNKNOWN\n", (27, 28)),
    (b"s SATISFIABLE\nv 1 -2 -3 4 0\ns UNKNOWN\nv 1\n", (27, 28)),
    // A wrong line comes before what is missing, before 28 and before 29.
    (b"v 5\n", (27, 0)),
    (b"v 1\nv 5\n", (27, 4)),
    (b"s SATISFIABLE\nv 1 x\n", (27, 14)),
    (b"s UNSATISFIABLE\nv 5\n", (27, 16)),
    (b"s UNSATISFIABLE\nv 1 0 -2\n", (27, 16)),
    (b"s UNSATISFIABLE\nv\n", (27, 16)),
    (b"s UNKNOWN\nv 1 \n", (27, 10)),
    (b"s UNKNOWN\n ", (27, 10)),
    (b"x\ns UNSATISFIABLE\n", (27, 0)),
    (b"s UNSATISFIABLE\ns SATISFIABLE\nv 1 -2 -3 4 0\n", (27, 16)),
    (b"s SATISFIABLE\ns UNSATISFIABLE\n", (27, 14)),
    (b"s SATISFIABLE\nv 1 1 -2 5 0\n", (27, 14)),
    (b"s SATISFIABLE\nv 1 1 0\nv 5", (27, 22)),
    // The s line says otherwise; with v lines or without, with a 0 or without.
    (b"s UNSATISFIABLE\n", (28, 0)),
    (b"s UNSATISFIABLE", (28, 0)),
    (b"s UNKNOWN\n", (28, 0)),
    (b"s UNKNOWN", (28, 0)),
    (b"\n\ns UNKNOWN", (28, 2)),
    (b"c x\ns UNSATISFIABLE\nc\n", (28, 4)),
    (b"c s SATISFIABLE\ns UNSATISFIABLE\n", (28, 16)),
    (b"s UNSATISFIABLE\nv 1 -2 -3 4 0\n", (28, 0)),
    (b"s UNKNOWN\nv 1 -2 -3 4 0\n", (28, 0)),
    (b"v 1 -2 -3 4 0\ns UNSATISFIABLE\n", (28, 14)),
    (b"v 1 -2 -3 4 0\ns UNKNOWN", (28, 14)),
    (b"v 1\ns UNKNOWN\nv -2\n", (28, 4)),
    (b"v 1 -2\ns UNSATISFIABLE\n", (28, 7)),
    (b"s UNSATISFIABLE\nv 0\n", (28, 0)),
    (b"v 0\ns UNKNOWN\nc\n", (28, 4)),
    (b"s UNSATISFIABLE\nv 1 1 -1\n", (28, 0)),
    (b"s UNKNOWN\nv 2 2 0\n", (28, 0)),
    // Variables are missing.
    (b"s SATISFIABLE\nv 0\n", (29, 1)),
    (b"v 0\ns SATISFIABLE", (29, 1)),
    (b"s SATISFIABLE\nv -2 -3 4 0\n", (29, 1)),
    (b"s SATISFIABLE\nv 1 -3 4 0\n", (29, 2)),
    (b"s SATISFIABLE\nv 1 -2 4 0\n", (29, 3)),
    (b"s SATISFIABLE\nv 1 -2 -3 0\n", (29, 4)),
    (b"s SATISFIABLE\nv 4 0\n", (29, 1)),
    (b"s SATISFIABLE\nv -4 1 0\n", (29, 2)),
    // Variables are repeated, with the same sign or the other.
    (b"s SATISFIABLE\nv 1 1 -2 -3 4 0\n", (29, 1)),
    (b"s SATISFIABLE\nv 1 -1 -2 -3 4 0\n", (29, 1)),
    (b"s SATISFIABLE\nv 1 -2 -3 4 -2 0\n", (29, 2)),
    (b"s SATISFIABLE\nv 1 -2 -3 4 2 0\n", (29, 2)),
    (b"s SATISFIABLE\nv 1 -2 -3 4 4 0\n", (29, 4)),
    (b"s SATISFIABLE\nv 1 -2 -3 4 -4 0\n", (29, 4)),
    (b"s SATISFIABLE\nv 1 -2\nv 1 -3 4 0\n", (29, 1)),
    (b"s SATISFIABLE\nv 1 -2 -3 4\nv 1 -2 -3 4 0\n", (29, 1)),
    (b"s SATISFIABLE\nv 1 -2 -3 4\nv 3 3 0\n", (29, 3)),
    (b"v 1 -2 -3 4\ns SATISFIABLE\nv -3\nv 0\n", (29, 3)),
    (b"s SATISFIABLE\nv 1 1 1 -2 -3 4 0\n", (29, 1)),
    (b"s SATISFIABLE\nv 2 2 2 2 1 -3 4 0\n", (29, 2)),
    // Both: the lowest variable decides, wherever it stands.
    (b"s SATISFIABLE\nv 1 1 -2 -3 0\n", (29, 1)),
    (b"s SATISFIABLE\nv 1 -2 3 3 0\n", (29, 3)),
    (b"s SATISFIABLE\nv 1 -2 4 -4 0\n", (29, 3)),
    (b"s SATISFIABLE\nv 4 4 -3 -2 0\n", (29, 1)),
    (b"s SATISFIABLE\nv 4 4 3 3 -2 1 0\n", (29, 3)),
    (b"s SATISFIABLE\nv 4 4 4 4 0\n", (29, 1)),
    (b"s SATISFIABLE\nv 1 1 1 1 0\n", (29, 1)),
    (b"s SATISFIABLE\nv 1 2 2 4 4 0\n", (29, 2)),
    (b"s SATISFIABLE\nv 1 -2 -3 0\nc 4\n", (29, 4)),
];
