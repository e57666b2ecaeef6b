//! The cases of `vectors_text`: a text loaded whole, and in three pieces, after each of which it is open or decided.

use crate::case::*;
use crate::files::{entries, no_sheet};
use crate::reference::{decided, load};

fn answer(text: &[u8]) -> String {
    match load(text) {
        Err(r) => refused(r) + " sheet 0",
        Ok(sheet) => format!(" loaded{}", entries(&sheet)),
    }
}

/// What a text in pieces prints, given what the whole prints.
fn in_pieces(pieces: [&[u8]; 3], whole: &str) -> String {
    let after = |n: usize| if decided(&pieces[..n].concat()) { " decided" } else { " open" };
    [after(1), after(2), after(3), whole].concat()
}

fn load_blocks(text: &[u8]) -> Vec<Vec<u8>> {
    vec![head(0, &[], &no_sheet()), text.to_vec()]
}

fn pieces_blocks(pieces: [&[u8]; 3]) -> Vec<Vec<u8>> {
    let mut all = vec![head(1, &[], &no_sheet())];
    all.extend(pieces.iter().map(|p| p.to_vec()));
    all
}

fn add_load(v: &mut Vectors, label: &str, text: &[u8]) {
    v.case(&format!("load, {label}"), &load_blocks(text), &answer(text));
}

fn add_pieces(v: &mut Vectors, label: &str, pieces: [&[u8]; 3]) {
    v.case(&format!("pieces, {label}"), &pieces_blocks(pieces), &in_pieces(pieces, &answer(&pieces.concat())));
}

const PRINTED: &str = "6,5,2,6\n8,7,2,8\n10,0,2,10\n";
const LONGEST: &str = "1000000,1000000,1000000,1000000\n";

/// Each answer with its line written out by hand.
fn worked(v: &mut Vectors) {
    let cases: [(&str, &str, &str); 22] = [
        ("printed sheet", PRINTED, " loaded sheet 3, 6 5 2 6, 8 7 2 8, 10 0 2 10"),
        ("one line", "6,5,2,6\n", " loaded sheet 1, 6 5 2 6"),
        ("least numbers", "1,0,1,1\n", " loaded sheet 1, 1 0 1 1"),
        ("largest numbers", LONGEST, " loaded sheet 1, 1000000 1000000 1000000 1000000"),
        ("empty text", "", " refused 5 at 0 sheet 0"),
        ("a line feed", "\n", " refused 16 at 0 sheet 0"),
        ("no last line feed", "6,5,2,6", " refused 16 at 0 sheet 0"),
        ("no line feed after the second line", "6,5,2,6\n8,7,2,8", " refused 16 at 1 sheet 0"),
        ("carriage return", "6,5,2,6\r\n", " refused 16 at 0 sheet 0"),
        ("empty line in the middle", "6,5,2,6\n\n8,7,2,8\n", " refused 16 at 1 sheet 0"),
        ("empty line at the end", "6,5,2,6\n8,7,2,8\n\n", " refused 16 at 2 sheet 0"),
        ("leading zero", "6,5,2,06\n", " refused 16 at 0 sheet 0"),
        ("zero twice", "6,00,2,6\n", " refused 16 at 0 sheet 0"),
        ("three numbers", "6,5,2\n", " refused 16 at 0 sheet 0"),
        ("five numbers", "6,5,2,6,1\n", " refused 16 at 0 sheet 0"),
        ("range in the second line", "6,5,2,6\n8,7,9,8\n", " refused 6 at 1 sheet 0"),
        ("16 before 6 on a line", "6,5,2,6\n0,7,2,8 \n", " refused 16 at 1 sheet 0"),
        ("6 on an earlier line than 16", "6,0,0,6\n8,7,2,8 \n", " refused 6 at 0 sheet 0"),
        ("2^32 + 6 for 6", "4294967302,5,2,6\n", " refused 6 at 0 sheet 0"),
        ("2^64 + 6 for 6", "6,5,2,18446744073709551622\n", " refused 6 at 0 sheet 0"),
        ("a large number in a line of another form", "4294967302,5,2,6,\n", " refused 16 at 0 sheet 0"),
        ("a minus sign", "6,-5,2,6\n", " refused 16 at 0 sheet 0"),
    ];
    for (label, text, line) in cases {
        let text = text.as_bytes();
        v.worked(&format!("load, {label}"), &load_blocks(text), &answer(text), line);
        let (a, b) = (text.len() / 3, 2 * text.len() / 3);
        let pieces = [&text[..a], &text[a..b], &text[b..]];
        v.worked(&format!("pieces, {label}"), &pieces_blocks(pieces), &in_pieces(pieces, &answer(text)), &in_pieces(pieces, line));
    }
    let full = "6,5,2,6\n".repeat(32);
    for (label, last, line) in [
        ("33 lines", "6,5,2,6\n", " refused 4 at 32 sheet 0"),
        ("33rd line out of range", "0,0,0,0\n", " refused 4 at 32 sheet 0"),
        ("33rd line of another form", "6,5,2,06\n", " refused 16 at 32 sheet 0"),
        ("33rd line empty", "\n", " refused 16 at 32 sheet 0"),
        ("33rd line without line feed", "6,5,2,6", " refused 16 at 32 sheet 0"),
    ] {
        let text = format!("{full}{last}");
        v.worked(&format!("load, {label}"), &load_blocks(text.as_bytes()), &answer(text.as_bytes()), line);
        let pieces = [full[..100].as_bytes(), full[100..].as_bytes(), last.as_bytes()];
        v.worked(&format!("pieces, {label}"), &pieces_blocks(pieces), &in_pieces(pieces, &answer(text.as_bytes())), &in_pieces(pieces, line));
    }
}

/// When a text is decided, written out by hand.
fn decisions(v: &mut Vectors) {
    for (label, pieces, line) in [
        ("a letter", ["6,5,2,6\n8", "x", ""], " open decided decided refused 16 at 1 sheet 0"),
        ("a zero and a digit", ["0", "1", ",1,1,1\n"], " open decided decided refused 16 at 0 sheet 0"),
        ("a number too large waits for its line feed", ["1000001", ",0,1,1", "\n"], " open open decided refused 6 at 0 sheet 0"),
        ("a fourth comma", ["6,5,2,6", ",", "1\n"], " open decided decided refused 16 at 0 sheet 0"),
        ("a line feed too early", ["6,5,2", "\n", "6,5,2,6\n"], " open decided decided refused 16 at 0 sheet 0"),
        ("a text that is accepted", ["6,5,2,6\n", "8,7,2,8", "\n"], " open open open loaded sheet 2, 6 5 2 6, 8 7 2 8"),
        ("no line feed at the end", ["6,5,2,6\n", "8,7,2,8", ""], " open open open refused 16 at 1 sheet 0"),
        ("an empty text", ["", "", ""], " open open open refused 5 at 0 sheet 0"),
        ("a comma first", ["", ",", "1"], " open decided decided refused 16 at 0 sheet 0"),
    ] {
        let pieces = pieces.map(str::as_bytes);
        v.worked(&format!("decided, {label}"), &pieces_blocks(pieces), &in_pieces(pieces, &answer(&pieces.concat())), line);
    }
    let full = "6,5,2,6\n".repeat(32);
    let pieces = [full.as_bytes(), b"0,0,0,0", b"\n"];
    v.worked("decided, a 33rd line", &pieces_blocks(pieces), &in_pieces(pieces, &answer(&pieces.concat())), " open open decided refused 4 at 32 sheet 0");
}

/// A text cut before each of its bytes, and with each of them changed.
fn bytes(v: &mut Vectors) {
    for n in 0..=PRINTED.len() {
        add_load(v, &format!("the first {n} bytes"), PRINTED[..n].as_bytes());
    }
    let text = b"12,0,1,10\n20,7,2,8\n";
    for at in 0..text.len() {
        for odd in [0, b'\t', b'\n', b'\r', b' ', b'+', b',', b'-', b'/', b'0', b'9', b':', 127, 128, 255] {
            let mut other = text.to_vec();
            other[at] = odd;
            add_load(v, &format!("byte {at} is {odd}"), &other);
        }
    }
}

/// Numbers at and over the limits, in each field.
fn numbers_in_fields(v: &mut Vectors) {
    let mut all: Vec<(String, String)> = [
        "0", "1", "999999", "1000000", "1000001", "9999999", "10000000", "4294967295", "4294967296", "4294967297", "4294967302",
        "18446744073709551615", "18446744073709551616", "18446744073709551617", "18446744073709551622", "10000000000000000000",
        "", "00", "01", "0x1",
    ]
    .iter()
    .map(|n| (format!("'{n}'"), n.to_string()))
    .collect();
    for digits in [100, 5_000] {
        all.push((format!("{digits} digits, the last 6"), format!("1{}6", "0".repeat(digits - 2))));
        all.push((format!("{digits} nines"), "9".repeat(digits)));
        all.push((format!("{digits} zeros"), "0".repeat(digits)));
    }
    for (label, number) in &all {
        for (field, name) in ["P", "J", "E", "D"].iter().enumerate() {
            let mut fields = ["20", "3", "1", "30"];
            fields[field] = number;
            add_load(v, &format!("{name} {label}"), format!("6,5,2,6\n{}\n8,7,2,8\n", fields.join(",")).as_bytes());
        }
    }
}

/// Lines at the limit, the longest text, and a block of the largest size.
fn limits(v: &mut Vectors) {
    for n in 31..=34 {
        add_load(v, &format!("{n} lines of 32 bytes"), LONGEST.repeat(n).as_bytes());
    }
    for n in [30, 31] {
        for (label, line) in [("form", "6,5,2,6,\n"), ("range", "6,5,7,6\n"), ("end", "6,5,2"), ("size", "6,5,2,99999999999999999999\n")] {
            add_load(v, &format!("{n} lines, then one with a fault of {label}"), format!("{}{line}", "6,5,2,6\n".repeat(n)).as_bytes());
        }
    }
    let full = LONGEST.repeat(32);
    add_load(v, "the longest text, one byte less", full[..1023].as_bytes());
    add_load(v, "the longest text and one byte", format!("{full}1").as_bytes());
    add_load(v, "a text of 12288 bytes", format!("{},0,1,1\n", "7".repeat(12_281)).as_bytes());
    let digits = "7".repeat(12_288);
    add_pieces(v, "36000 digits", [digits.as_bytes(), &digits.as_bytes()[..11_431], format!("{},0,1,1\n", &digits[..12_281]).as_bytes()]);
    add_pieces(v, "36000 digits and no comma", [digits.as_bytes(), digits.as_bytes(), format!("{}\n", &digits[..11_424]).as_bytes()]);
    add_pieces(v, "the longest text", [full[..31].as_bytes(), full[31..1_000].as_bytes(), full[1_000..].as_bytes()]);
}

/// Pieces of small texts, cut at every byte, and at every two bytes.
fn pieces(v: &mut Vectors) {
    let whole = b"6,5,2,6\n10,0,2,10\n";
    for at in 0..=whole.len() {
        let (a, b) = whole.split_at(at);
        add_pieces(v, &format!("cut at {at}"), [a, b, b""]);
        add_pieces(v, &format!("cut at {at}, nothing first"), [b"", a, b]);
        if let Some((one, rest)) = b.split_first() {
            add_pieces(v, &format!("byte {at} alone"), [a, &[*one], rest]);
        }
    }
    for (label, text) in [("one line", &b"1,0,1,1\n"[..]), ("a leading zero", b"1,00,1,1\n"), ("range", b"1,0,12,1\n"), ("no line feed", b"1,0,1,1")] {
        for a in 0..=text.len() {
            for b in a..=text.len() {
                add_pieces(v, &format!("{label} cut at {a} and {b}"), [&text[..a], &text[a..b], &text[b..]]);
            }
        }
    }
    for (label, pieces) in [
        ("three empty ones", ["", "", ""]),
        ("a line in each", ["6,5,2,6\n", "8,7,2,8\n", "10,0,2,10\n"]),
        ("16 in the first, then a text", ["6,5,2\n", "8,7,2,8\n", "10,0,2,10\n"]),
        ("6 in the first, then 16", ["6,5,7,6\n", "x", "\n"]),
        ("16 in the second, then 6", ["6,5,2,6\n8,7", ",2,8\r", "\n0,0,0,0\n"]),
        ("no line feed, then nothing", ["6,5,2,6\n", "8,7,2,8", ""]),
        ("an empty line in the second", ["6,5,2,6\n", "\n", "8,7,2,8\n"]),
        ("2^32 + 6 in three", ["42949", "673", "02,5,2,6\n"]),
        ("1000000 in three", ["10", "000", "00,5,2,6\n"]),
        ("1000001 in three", ["10000", "0", "1,5,2,6\n"]),
    ] {
        add_pieces(v, label, pieces.map(str::as_bytes));
    }
}

pub fn vectors() -> Vectors {
    let mut v = Vectors::new();
    worked(&mut v);
    decisions(&mut v);
    bytes(&mut v);
    numbers_in_fields(&mut v);
    limits(&mut v);
    pieces(&mut v);
    v
}
