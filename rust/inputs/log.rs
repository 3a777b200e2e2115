// Logs of the build server (document 02, 2026-01) as their lines: good ones, and lines that are nearly right.
// The caller puts the lines together, each with its newline.

use crate::random::Random;

/// Lines that nearly have the shape and the ranges, each wrong by one thing. `@` stands for the name that is asked for.
pub const NEARLY: [&[u8]; 48] = [
    b"\n",
    b" \n",
    b"5\n",
    b"name\n",
    b"name \n",
    b"name5\n",
    b" 5\n",
    b"name  5\n",
    b" name 5\n",
    b"name 5 \n",
    b"name 5 6\n",
    b"na me 5\n",
    b"name\t5\n",
    b"name\xa05\n",
    b"name 5\r\n",
    b"name 5\t\n",
    b"name 5\x00\n",
    b"name 5\x0b\n",
    b"name 0\n",
    b"name 00\n",
    b"name 05\n",
    b"name 01048575\n",
    b"name 1048576\n",
    b"name 9999999\n",
    b"name 10485750\n",
    b"name 4294967297\n",
    b"name 18446744073709551617\n",
    b"name 340282366920938463463374607431768211457\n",
    b"name +5\n",
    b"name -5\n",
    b"name 5.0\n",
    b"name 1e3\n",
    b"name 0x5\n",
    b"name 5a\n",
    b"name /5\n",
    b"name 5:\n",
    b"name \xb5\n",
    b"na\x00me 5\n",
    b"na\x1fme 5\n",
    b"na\x7fme 5\n",
    b"na\x80me 5\n",
    b"n\xc3\xa4me 5\n",
    b"123456789012345678901234567890123 5\n",
    b"@\n",
    b"@ 0\n",
    b"@ 1048576\n",
    b"@ 012\n",
    b"@ 12 \n",
];

/// Bytes on both sides of each range of a line.
const EDGES: [u8; 15] = *b"\x00\x09\x0a\x0d\x1f\x20\x21\x2f\x30\x31\x39\x3a\x7e\x7f\xff";

/// The line of a name and a number of ticks, whatever they are.
pub fn line(name: &[u8], ticks: u64) -> Vec<u8> {
    [name, format!(" {ticks}\n").as_bytes()].concat()
}

/// A nearly right line by its number, with the name in its place.
pub fn nearly(number: usize, name: &[u8]) -> Vec<u8> {
    let pieces: Vec<&[u8]> = NEARLY[number].split(|byte| *byte == b'@').collect();
    pieces.join(name)
}

/// A good line of another name: one that begins with the name, that it begins with, that differs in a byte, or any.
pub fn other_line(random: &mut Random, name: &[u8]) -> Vec<u8> {
    let mut other = match random.below(4) {
        0 => [name, b"~"].concat(),
        1 => name[..name.len() - name.len().min(1)].to_vec(),
        2 => name.to_vec(),
        _ => Vec::new(),
    };
    let fits = |byte: &u8| (0x21..=0x7e).contains(byte);
    if other == name && !other.is_empty() {
        let at = random.below(other.len() as u64) as usize;
        other[at] = if other[at] == b'x' { b'X' } else { b'x' };
    }
    if !(1..=32).contains(&other.len()) || !other.iter().all(fits) || other == name {
        let drawn = |random: &mut Random| random.whole(0x21, 0x7e) as u8;
        let size = *random.pick(&[1, 2, 5, 31, 32]);
        other = (0..size).map(|_| drawn(random)).collect();
    }
    line(&other, ticks(random))
}

fn ticks(random: &mut Random) -> u64 {
    match random.below(3) {
        0 => *random.pick(&[1, 9, 10, 99, 100, 99_999, 999_999, 1_000_000, 1_048_575]),
        _ => random.whole(1, 1_048_575) >> random.below(20).min(19),
    }
    .max(1)
}

/// A line for each time, in their order, with good lines of other names between.
pub fn lines_of(random: &mut Random, name: &[u8], times: &[u32]) -> Vec<Vec<u8>> {
    let mut lines = Vec::new();
    let between = *random.pick(&[0, 1, 4]);
    for time in times.iter().map(Some).chain([None]) {
        for _ in 0..random.below(between + 1) {
            lines.push(other_line(random, name));
        }
        lines.extend(time.map(|time| line(name, u64::from(*time))));
    }
    lines
}

/// A line with a byte changed, put in, taken out or said twice; or a nearly right one in its place. It may still be a good line.
pub fn spoiled(random: &mut Random, line: &[u8], name: &[u8]) -> Vec<u8> {
    let at = random.below(line.len() as u64) as usize;
    let edge = *random.pick(&EDGES);
    let mut spoiled = line.to_vec();
    match random.below(5) {
        0 => spoiled[at] = edge,
        1 => spoiled.insert(at, edge),
        2 => drop(spoiled.remove(at)),
        3 => spoiled.insert(at, line[at]),
        _ => spoiled = nearly(random.below(NEARLY.len() as u64) as usize, name),
    }
    spoiled
}
