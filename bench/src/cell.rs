//! Words and cells in the packed form of docs/BANKS.md.

const NUMBER_BITS: u32 = 28;
const WORD_BITS: u32 = 30;
const WORD_MASK: u64 = (1 << WORD_BITS) - 1;
const MARK: u64 = 1 << (2 * WORD_BITS);

/// The largest number that a packed word can have.
pub const LIMIT: u32 = (1 << NUMBER_BITS) - 1;

/// A packed word: its number in 28 bits, and its tag above them.
#[derive(Clone, Copy, PartialEq, Eq, Debug)]
pub struct Word(u32);

/// What a word says.
#[derive(Clone, Copy, PartialEq, Eq, Debug)]
pub enum Meaning {
    Nil,
    Cell(usize),
    Atom(u32),
    Reserved,
}

impl Word {
    pub const NIL: Word = Word(0);
    /// Stands in the cdr of free cells only.
    pub const RESERVED: Word = Word(3 << NUMBER_BITS);

    /// The word that names cell n, which is below 4,096.
    pub fn cell(n: usize) -> Word {
        Word(1 << NUMBER_BITS | n as u32)
    }

    /// The word of an atom, if its code is within the limit.
    pub fn atom(code: u32) -> Option<Word> {
        (code <= LIMIT).then_some(Word(2 << NUMBER_BITS | code))
    }

    pub fn meaning(self) -> Meaning {
        let number = self.0 & LIMIT;
        match self.0 >> NUMBER_BITS {
            0 => Meaning::Nil,
            1 => Meaning::Cell(number as usize),
            2 => Meaning::Atom(number),
            _ => Meaning::Reserved,
        }
    }

    pub fn as_cell(self) -> Option<usize> {
        match self.meaning() {
            Meaning::Cell(n) => Some(n),
            _ => None,
        }
    }
}

/// A packed cell: the car in bits 0 to 29, the cdr in 30 to 59, the mark in 60.
#[derive(Clone, Copy, PartialEq, Eq, Debug)]
pub struct Cell(u64);

impl Cell {
    pub fn new(car: Word, cdr: Word, mark: bool) -> Cell {
        Cell(u64::from(car.0) | u64::from(cdr.0) << WORD_BITS | u64::from(mark) << (2 * WORD_BITS))
    }

    /// A free cell, with the next free one in its car.
    pub fn free(next: Word) -> Cell {
        Cell::new(next, Word::RESERVED, false)
    }

    pub fn car(self) -> Word {
        Word((self.0 & WORD_MASK) as u32)
    }

    pub fn cdr(self) -> Word {
        Word((self.0 >> WORD_BITS & WORD_MASK) as u32)
    }

    pub fn is_marked(self) -> bool {
        self.0 & MARK != 0
    }

    pub fn set_car(&mut self, word: Word) {
        self.0 = self.0 & !WORD_MASK | u64::from(word.0);
    }

    pub fn set_cdr(&mut self, word: Word) {
        self.0 = self.0 & !(WORD_MASK << WORD_BITS) | u64::from(word.0) << WORD_BITS;
    }

    pub fn mark(&mut self) {
        self.0 |= MARK;
    }

    pub fn unmark(&mut self) {
        self.0 &= !MARK;
    }
}

#[cfg(test)]
mod tests {
    use super::*;

    #[test]
    fn packs_as_documented() {
        let cell = Cell::new(Word::cell(1), Word::NIL, true);
        assert_eq!(cell.0, 1_152_921_504_875_282_433);
    }

    #[test]
    fn fields_are_apart() {
        let mut cell = Cell::free(Word::cell(4095));
        cell.mark();
        cell.set_car(Word::atom(LIMIT).unwrap());
        assert_eq!(cell.cdr(), Word::RESERVED);
        cell.set_cdr(Word::cell(7));
        assert_eq!(cell.car().meaning(), Meaning::Atom(LIMIT));
        assert_eq!(cell.cdr().as_cell(), Some(7));
        assert!(cell.is_marked());
        cell.unmark();
        assert_eq!(cell, Cell::new(Word::atom(LIMIT).unwrap(), Word::cell(7), false));
    }

    #[test]
    fn wide_codes_are_no_atoms() {
        assert_eq!(Word::atom(LIMIT + 1), None);
    }
}
