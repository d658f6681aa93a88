//! Plans made wrong in the ways in which a text can be no plan.

use crate::plan::MOST_BYTES;
use crate::plans::{plan_of_size, random_plan};
use crate::random::Random;

const ODD_BYTES: &[u8] = b" 019\n\r\t\0aclors-+./:\x7f\x80\xa0\xc3\xff";
const WRONG_NAMES: &[&str] = &[
    "store", "stor", "Cons", "con", "conss", "cad", "cdrr", "rplac", "rplacx", "lock", "lo", "s",
    "", "sam", "clea", "copz", " look", "add", "#",
];

/// A random text: a plan, a damaged plan, or one at the edge of what may be read.
pub fn random_text(random: &mut Random) -> Vec<u8> {
    match random.below(200) {
        0 => Vec::new(),
        1 => plan_of_size(random, MOST_BYTES),
        2 => plan_of_size(random, MOST_BYTES + 1),
        3 => sized_and_damaged(random),
        4 => bytes(random),
        5..120 => random_plan(random),
        _ => {
            let mut text = random_plan(random);
            damage(random, &mut text);
            if random.one_in(8) {
                damage(random, &mut text);
            }
            text
        }
    }
}

fn sized_and_damaged(random: &mut Random) -> Vec<u8> {
    let most = MOST_BYTES as u64;
    let size = random.between(most - 2, most + 2) as usize;
    let mut text = plan_of_size(random, size);
    match random.below(4) {
        0 => text.resize(MOST_BYTES + random.between(1, 40_000) as usize, b'x'),
        1 => {
            text.pop();
        }
        _ => damage(random, &mut text),
    }
    text
}

fn bytes(random: &mut Random) -> Vec<u8> {
    (0..random.below(40)).map(|_| random.draw() as u8).collect()
}

fn damage(random: &mut Random, text: &mut Vec<u8>) {
    let at = random.below(text.len() as u64 + 1) as usize;
    match random.below(12) {
        0 => replace(text, at, random.draw() as u8),
        1 => replace(text, at, *random.pick(ODD_BYTES)),
        2 => text.insert(at, *random.pick(ODD_BYTES)),
        3 => drop(text.splice(at..text.len().min(at + 1), [])),
        4 => text.truncate(at),
        5 => text.extend((0..random.between(1, 30)).map(|_| *random.pick(ODD_BYTES))),
        6 => insert_after(text, at, b' ', b"0"),
        7 => insert_after(text, at, b' ', b"12345"),
        8 => wrong_name(random, text, at),
        9 => insert_after(text, at, b' ', b" "),
        10 => drop(text.pop()),
        _ => insert_after(
            text,
            at,
            b'\n',
            random.pick(&["\n", "store 3 1 1 1\n", "\r\n"]).as_bytes(),
        ),
    }
}

fn replace(text: &mut [u8], at: usize, byte: u8) {
    if let Some(place) = text.get_mut(at) {
        *place = byte;
    }
}

/// Inserts after the first such byte at or after the place.
fn insert_after(text: &mut Vec<u8>, at: usize, byte: u8, inserted: &[u8]) {
    if let Some(found) = text[at..].iter().position(|&other| other == byte) {
        let place = at + found + 1;
        text.splice(place..place, inserted.iter().copied());
    }
}

/// Gives the next line another name.
fn wrong_name(random: &mut Random, text: &mut Vec<u8>, at: usize) {
    let start = text[at..].iter().position(|&byte| byte == b'\n').map_or(0, |found| at + found + 1);
    let length = text[start..].iter().position(|&byte| byte == b' ').unwrap_or(0);
    text.splice(start..start + length, random.pick(WRONG_NAMES).bytes());
}
