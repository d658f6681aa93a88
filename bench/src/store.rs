//! The list store and its snapshot collector, as docs/COLLECTOR.md states them.

use crate::cell::{Cell, Meaning, Word};
use crate::zone::Zone;

pub const MOST_CELLS: usize = 4096;
pub const REGISTERS: usize = 16;
const MOST_EFFORT: u32 = 64;

#[derive(Clone, Copy, PartialEq, Eq, Debug)]
pub enum Phase {
    Idle,
    Mark,
    Sweep,
}

/// Why a call was refused, with the values that it returns.
#[derive(Clone, Copy, PartialEq, Eq, Debug)]
pub enum Refusal {
    WordTooWide(u32),
    NoEffort(u32, u32),
    NotAZone(u32, u32),
    NoRegister(u32),
    NotACell(u32),
    NoFreeCell(u32),
}

/// One of the ten calls; the numbers may be of any size.
#[derive(Clone, Copy, PartialEq, Eq, Debug)]
pub enum Call {
    Load { i: u32, offset: u32, length: u32 },
    Clear { i: u32 },
    Copy { i: u32, a: u32 },
    Cons { i: u32, a: u32, b: u32 },
    Car { i: u32, a: u32 },
    Cdr { i: u32, a: u32 },
    Rplaca { a: u32, b: u32 },
    Rplacd { a: u32, b: u32 },
    Look { i: u32 },
    Same { i: u32, j: u32 },
}

/// What a call that is not refused tells.
#[derive(Clone, Copy, PartialEq, Eq, Debug)]
pub enum Outcome {
    Done,
    Work(u32),
    Nil,
    Cell,
    Zone(Zone),
    Same(bool),
}

pub struct Store {
    cells: Vec<Cell>,
    registers: [Word; REGISTERS],
    /// Cells that are marked and not yet scanned.
    waiting: Vec<u16>,
    /// The head of the free list, which is linked through the cars.
    free: Word,
    free_count: u32,
    sweeper: usize,
    phase: Phase,
    floor: u32,
    k1: u32,
    k2: u32,
}

fn register(i: u32) -> Result<usize, Refusal> {
    if (i as usize) < REGISTERS { Ok(i as usize) } else { Err(Refusal::NoRegister(i)) }
}

impl Store {
    /// A store of so many cells, 4,096 at most, under the floor rule.
    pub fn new(cells: u32, k1: u32, k2: u32, floor: u32) -> Result<Store, Refusal> {
        let effort = 1..=MOST_EFFORT;
        if !effort.contains(&k1) || !effort.contains(&k2) {
            return Err(Refusal::NoEffort(k1, k2));
        }
        let size = (cells as usize).min(MOST_CELLS);
        let link = |n| if n < size { Word::cell(n) } else { Word::NIL };
        Ok(Store {
            cells: (1..=size).map(|next| Cell::free(link(next))).collect(),
            registers: [Word::NIL; REGISTERS],
            waiting: Vec::with_capacity(size),
            free: link(0),
            free_count: size as u32,
            sweeper: size,
            phase: Phase::Idle,
            floor,
            k1,
            k2,
        })
    }

    pub fn phase(&self) -> Phase {
        self.phase
    }

    pub fn apply(&mut self, call: Call) -> Result<Outcome, Refusal> {
        match call {
            Call::Load { i, offset, length } => self.load(i, offset, length),
            Call::Clear { i } => self.clear(i),
            Call::Copy { i, a } => self.copy(i, a),
            Call::Cons { i, a, b } => self.cons(i, a, b),
            Call::Car { i, a } => self.read(i, a, Cell::car),
            Call::Cdr { i, a } => self.read(i, a, Cell::cdr),
            Call::Rplaca { a, b } => self.replace(a, b, Cell::car, Cell::set_car),
            Call::Rplacd { a, b } => self.replace(a, b, Cell::cdr, Cell::set_cdr),
            Call::Look { i } => self.look(i),
            Call::Same { i, j } => self.same(i, j),
        }
    }

    fn load(&mut self, i: u32, offset: u32, length: u32) -> Result<Outcome, Refusal> {
        let zone = Zone::new(offset, length).ok_or(Refusal::NotAZone(offset, length))?;
        let i = register(i)?;
        let code = zone.code();
        self.registers[i] = Word::atom(code).ok_or(Refusal::WordTooWide(code))?;
        Ok(Outcome::Done)
    }

    fn clear(&mut self, i: u32) -> Result<Outcome, Refusal> {
        self.registers[register(i)?] = Word::NIL;
        Ok(Outcome::Done)
    }

    fn copy(&mut self, i: u32, a: u32) -> Result<Outcome, Refusal> {
        let i = register(i)?;
        self.registers[i] = self.registers[register(a)?];
        Ok(Outcome::Done)
    }

    fn cons(&mut self, i: u32, a: u32, b: u32) -> Result<Outcome, Refusal> {
        let (i, a, b) = (register(i)?, register(a)?, register(b)?);
        let work = self.turn();
        let head = self.free.as_cell().ok_or(Refusal::NoFreeCell(work))?;
        self.free = self.cells[head].car();
        self.free_count -= 1;
        // What the sweep has yet to pass must be marked to stay.
        let mark = head >= self.sweeper;
        self.cells[head] = Cell::new(self.registers[a], self.registers[b], mark);
        self.registers[i] = Word::cell(head);
        Ok(Outcome::Work(work))
    }

    fn read(&mut self, i: u32, a: u32, field: fn(Cell) -> Word) -> Result<Outcome, Refusal> {
        let i = register(i)?;
        let cell = self.named(a)?;
        self.registers[i] = field(self.cells[cell]);
        Ok(Outcome::Done)
    }

    #[inline]
    fn replace(
        &mut self,
        a: u32,
        b: u32,
        field: fn(Cell) -> Word,
        set: fn(&mut Cell, Word),
    ) -> Result<Outcome, Refusal> {
        register(a)?;
        let word = self.registers[register(b)?];
        let cell = self.named(a)?;
        if self.phase == Phase::Mark {
            // The snapshot keeps what the cell named when the collection began.
            self.offer(field(self.cells[cell]));
        }
        set(&mut self.cells[cell], word);
        Ok(Outcome::Done)
    }

    fn look(&self, i: u32) -> Result<Outcome, Refusal> {
        Ok(match self.registers[register(i)?].meaning() {
            Meaning::Cell(_) => Outcome::Cell,
            Meaning::Atom(code) => Zone::from_code(code).map_or(Outcome::Nil, Outcome::Zone),
            Meaning::Nil | Meaning::Reserved => Outcome::Nil,
        })
    }

    fn same(&self, i: u32, j: u32) -> Result<Outcome, Refusal> {
        Ok(Outcome::Same(self.registers[register(i)?] == self.registers[register(j)?]))
    }

    /// The cell that register a names.
    fn named(&self, a: u32) -> Result<usize, Refusal> {
        self.registers[register(a)?].as_cell().ok_or(Refusal::NotACell(a))
    }

    /// Makes one turn of the collector and tells its work.
    fn turn(&mut self) -> u32 {
        match self.phase {
            Phase::Idle => self.idle_turn(),
            Phase::Mark => self.mark_turn(),
            Phase::Sweep => self.sweep_turn(),
        }
    }

    fn idle_turn(&mut self) -> u32 {
        if self.free_count <= self.floor {
            self.phase = Phase::Mark;
            self.sweeper = 0;
            for word in self.registers {
                self.offer(word);
            }
        }
        0
    }

    fn mark_turn(&mut self) -> u32 {
        let mut work = 0;
        while work < self.k1 {
            let Some(n) = self.waiting.pop() else { break };
            let cell = self.cells[usize::from(n)];
            self.offer(cell.car());
            self.offer(cell.cdr());
            work += 1;
        }
        if self.waiting.is_empty() {
            self.phase = Phase::Sweep;
        }
        work
    }

    fn sweep_turn(&mut self) -> u32 {
        let start = self.sweeper;
        let end = self.cells.len().min(start + self.k2 as usize);
        for n in start..end {
            let cell = &mut self.cells[n];
            if cell.is_marked() {
                cell.unmark();
            } else if cell.cdr() != Word::RESERVED {
                *cell = Cell::free(self.free);
                self.free = Word::cell(n);
                self.free_count += 1;
            }
        }
        self.sweeper = end;
        if end == self.cells.len() {
            self.phase = Phase::Idle;
        }
        (end - start) as u32
    }

    /// Marks and pushes the cell that the word names, if it is unmarked.
    fn offer(&mut self, word: Word) {
        if let Some(n) = word.as_cell() {
            let cell = &mut self.cells[n];
            if !cell.is_marked() {
                cell.mark();
                self.waiting.push(n as u16);
            }
        }
    }
}
