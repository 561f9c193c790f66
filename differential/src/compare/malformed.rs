//! Scripts of which some lines are spoiled. A few of them are in the grammar all the same.

use super::random::Random;

/// Words that are no number, no type, no bytes, or only just.
const WORDS: [&str; 46] = [
    "",
    "00",
    "01",
    "+1",
    "-1",
    "1.0",
    "4294967295",
    "4294967296",
    "42949672950",
    "99999999999999999999",
    "0x1",
    "end",
    "run",
    "stream:",
    "future:",
    "stream",
    "stream:()",
    "stream:(u8,)",
    "stream:(,u8)",
    "stream:(u8",
    "stream:u8)",
    "stream:(none)",
    "stream:((u8))",
    "stream:f16",
    "stream:U8",
    "Stream:u8",
    "stream:(u8,u8,u8,u8,u8,u8,u8,u8)",
    "stream:(u8,u8,u8,u8,u8,u8,u8,u8,u8)",
    "future:(bool,char)",
    "stream:record<u8,u8>",
    "stream:record<u8,f64,enum1>",
    "stream:_",
    "stream:option<_>",
    "stream:option<u8>>",
    "stream:result<_>",
    "stream:result<u8,_>",
    "stream:enum129",
    "stream:flags0",
    "stream:variant<option<u8>,enum0>",
    "0a0",
    "0A",
    "0g",
    "0a 0b",
    "\t",
    "\u{e9}",
    "drive",
];

/// Spoils an input, in one to three places.
pub fn spoil(random: &mut Random, input: &mut Vec<u8>) {
    for _ in 0..=random.below(3) {
        match random.below(10) {
            0 | 1 => spoil_byte(random, input),
            2 => input.truncate(random.below(input.len() + 1)),
            3 => drop(input.pop()),
            4 => {
                let place = random.below(input.len() + 1);
                input.insert(place, b'\n');
            }
            _ => spoil_word(random, input),
        }
    }
}

fn spoil_byte(random: &mut Random, input: &mut Vec<u8>) {
    let byte =
        if random.chance(20) { random.draw() as u8 } else { random.pick(b"  \n\r\t0019afAFg-+(),:_\0") };
    let place = random.below(input.len() + 1);
    if place == input.len() || random.chance(40) {
        input.insert(place, byte);
    } else if random.chance(50) {
        input[place] = byte;
    } else {
        input.remove(place);
    }
}

// One word of a line is another one, is gone, comes twice, or has bytes of too many or too few digits.
fn spoil_word(random: &mut Random, input: &mut Vec<u8>) {
    let mut lines: Vec<Vec<u8>> = input.split(|byte| *byte == b'\n').map(<[u8]>::to_vec).collect();
    let at = random.below(lines.len());
    let mut words: Vec<Vec<u8>> = lines[at].split(|byte| *byte == b' ').map(<[u8]>::to_vec).collect();
    let place = random.below(words.len());
    match random.below(8) {
        0 => drop(words.remove(place)),
        1 => words.insert(place, words[place].clone()),
        2 => words[place].insert(0, b'0'),
        3 => words[place] = b"0a".repeat(random.pick(&[1, 63, 64, 65])),
        4 => words[place].make_ascii_uppercase(),
        5 => words.push(Vec::new()),
        _ => words[place] = random.pick(&WORDS).as_bytes().to_vec(),
    }
    lines[at] = words.join(&b' ');
    *input = lines.join(&b'\n');
}
