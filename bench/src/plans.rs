//! Random plans that are well formed, though the store may refuse much of them.

use crate::plan::MOST_BYTES;
use crate::random::Random;

const LARGE_STORE: u64 = 1000;
const LARGE_REGISTERS: &[u64] = &[16, 17, 31, 32, 255, 256, 4096, 65_535, 65_536, 99_999];
const EDGE_ZONES: &[(u64, u64)] = &[
    (0, 0),
    (0, 1),
    (0, 65_535),
    (0, 65_536),
    (1, 65_535),
    (1, 65_536),
    (4095, 61_441),
    (4095, 61_442),
    (4096, 1),
    (4096, 61_440),
    (65_535, 1),
    (65_535, 2),
    (65_536, 1),
    (65_536, 0),
    (99_999, 99_999),
];

/// How often each call is made, in the order of `CALLS`.
type Mix = [u64; 10];

const CALLS: [&str; 10] =
    ["load", "clear", "copy", "cons", "car", "cdr", "rplaca", "rplacd", "look", "same"];
const EVEN: Mix = [1; 10];
const CONS_HEAVY: Mix = [1, 1, 1, 20, 1, 1, 1, 1, 1, 1];
const REPLACEMENT_HEAVY: Mix = [1, 1, 1, 8, 2, 2, 12, 12, 1, 1];
const READING_HEAVY: Mix = [1, 1, 2, 6, 8, 8, 1, 1, 8, 6];
const DROPPING: Mix = [2, 6, 2, 16, 2, 2, 3, 3, 2, 2];
const MIXES: [Mix; 5] = [EVEN, CONS_HEAVY, REPLACEMENT_HEAVY, READING_HEAVY, DROPPING];

/// Writes one random plan.
pub struct Planner<'a> {
    random: &'a mut Random,
    mix: Mix,
    registers: u64,
    /// One register number in so many is past the last.
    large_every: u64,
    /// One piece in so many is a whole list's life.
    list_every: u64,
    text: Vec<u8>,
}

/// A plan of at most as many bytes as a plan may have.
pub fn random_plan(random: &mut Random) -> Vec<u8> {
    let lines = match random.below(100) {
        0..2 => random.between(0, 3),
        2..80 => random.between(5, 200),
        80..98 => random.between(100, 800),
        _ => 5000,
    };
    let mut planner = Planner::new(random);
    planner.store_line();
    for _ in 0..lines {
        if planner.text.len() + 2000 > MOST_BYTES {
            break;
        }
        planner.piece();
    }
    planner.text
}

/// A plan that is filled up to the very number of bytes.
pub fn plan_of_size(random: &mut Random, size: usize) -> Vec<u8> {
    let mut planner = Planner::new(random);
    planner.store_line();
    while planner.text.len() + 100 < size {
        planner.call();
    }
    let mut text = planner.text;
    // Lines of 7 and 8 bytes add up to every size above 41.
    while text.len() < size {
        let long = !(size - text.len()).is_multiple_of(7);
        text.extend_from_slice(if long { b"cdr 1 0\n" } else { b"look 1\n" });
    }
    text
}

impl<'a> Planner<'a> {
    fn new(random: &'a mut Random) -> Planner<'a> {
        Planner {
            mix: *random.pick(&MIXES),
            registers: *random.pick(&[2, 3, 4, 6, 10, 16]),
            large_every: *random.pick(&[20, 200, 2000]),
            list_every: *random.pick(&[4, 30, 1000]),
            random,
            text: Vec::new(),
        }
    }

    fn line(&mut self, name: &str, numbers: &[u64]) {
        self.text.extend_from_slice(name.as_bytes());
        for number in numbers {
            self.text.extend_from_slice(format!(" {number}").as_bytes());
        }
        self.text.push(b'\n');
    }

    fn store_line(&mut self) {
        let random = &mut *self.random;
        let cells = match random.below(10) {
            0 => random.below(4),
            1..6 => random.between(2, 20),
            6..8 => random.between(20, 200),
            8 => *random.pick(&[1023, 1024, 4000]),
            _ => *random.pick(&[4095, 4096, 4097, 65_536, 99_999]),
        };
        let floor = match random.below(6) {
            0 => 0,
            1 => random.between(1, 3),
            2 => cells / 2,
            3 => cells,
            4 => random.below(cells + 1),
            _ => *random.pick(&[4095, 4096, 99_999]),
        };
        // A large store comes to the end of a collection only with large turns.
        let [k1, k2] = if cells >= LARGE_STORE && random.one_in(2) {
            [random.between(32, 64), 64]
        } else {
            [effort(random), effort(random)]
        };
        self.line("store", &[cells, k1, k2, floor]);
    }

    /// One call, or the calls of a list's life.
    fn piece(&mut self) {
        if self.random.one_in(self.list_every) { self.list() } else { self.call() }
    }

    fn call(&mut self) {
        let mut at = self.random.below(self.mix.iter().sum());
        let mut call = 0;
        while at >= self.mix[call] {
            at -= self.mix[call];
            call += 1;
        }
        let numbers = [self.register(), self.register(), self.register()];
        match CALLS[call] {
            "load" => self.load(numbers[0]),
            "cons" => self.line("cons", &numbers),
            name @ ("clear" | "look") => self.line(name, &numbers[..1]),
            name => self.line(name, &numbers[..2]),
        }
    }

    fn load(&mut self, register: u64) {
        let (offset, length) = if self.random.one_in(6) {
            *self.random.pick(EDGE_ZONES)
        } else {
            let offsets = if self.random.one_in(8) { 65_536 } else { 4096 };
            let offset = self.random.below(offsets);
            (offset, self.random.between(1, 65_536 - offset))
        };
        self.line("load", &[register, offset, length]);
    }

    fn register(&mut self) -> u64 {
        if self.random.one_in(self.large_every) {
            *self.random.pick(LARGE_REGISTERS)
        } else {
            self.random.below(self.registers)
        }
    }

    /// Builds a list, walks along it and perhaps drops it or makes it a ring.
    fn list(&mut self) {
        let length = self.random.between(1, 12);
        let [head, item, walker] = [self.register(), self.register(), self.register()];
        for _ in 0..length {
            self.line("cons", &[head, item, head]);
        }
        self.line("copy", &[walker, head]);
        for _ in 0..self.random.below(length + 2) {
            self.line("cdr", &[walker, walker]);
            self.line("look", &[walker]);
        }
        match self.random.below(4) {
            0 => self.line("clear", &[head]),
            1 => self.line("rplacd", &[walker, head]),
            2 => self.line("rplaca", &[head, walker]),
            _ => self.line("same", &[head, walker]),
        }
    }
}

fn effort(random: &mut Random) -> u64 {
    match random.below(40) {
        0 => *random.pick(&[0, 65, 66, 128, 256, 99_999]),
        1..4 => 64,
        4..24 => random.between(1, 3),
        _ => random.between(1, 64),
    }
}
