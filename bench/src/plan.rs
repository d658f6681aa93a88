//! The reading of plans, with the exact place of the first fault.

use crate::store::Call;

pub const MOST_BYTES: usize = 32_768;
const MOST_DIGITS: usize = 5;
const FEWEST_LINE_BYTES: usize = "look 0\n".len();

const STORE_NAME: &[&str] = &["store"];
const CALL_NAMES: &[&str] =
    &["load", "clear", "copy", "cons", "car", "cdr", "rplaca", "rplacd", "look", "same"];

#[derive(Clone, Copy, PartialEq, Eq, Debug)]
pub struct StoreLine {
    pub cells: u32,
    pub k1: u32,
    pub k2: u32,
    pub floor: u32,
}

/// The place of the first fault: line and column, from 1.
#[derive(Clone, Copy, PartialEq, Eq, Debug)]
pub struct Fault {
    pub line: u32,
    pub column: u32,
}

/// What was read before the fault, if there is one.
#[derive(Clone, PartialEq, Eq, Debug, Default)]
pub struct Plan {
    pub store: Option<StoreLine>,
    pub calls: Vec<Call>,
    pub fault: Option<Fault>,
}

/// Reads a plan. The lines before a fault stand.
pub fn read_plan(text: &[u8]) -> Plan {
    let mut plan = Plan::default();
    if text.len() > MOST_BYTES {
        plan.fault = Some(Fault { line: 0, column: 0 });
        return plan;
    }
    let mut reader = Reader { text, place: 0 };
    let mut line_start = 0;
    if read_lines(&mut reader, &mut line_start, &mut plan).is_err() {
        let line = plan.store.map_or(1, |_| plan.calls.len() as u32 + 2);
        let column = (reader.place - line_start) as u32 + 1;
        plan.fault = Some(Fault { line, column });
    }
    plan
}

fn read_lines(
    reader: &mut Reader<'_>,
    line_start: &mut usize,
    plan: &mut Plan,
) -> Result<(), Stuck> {
    plan.store = Some(reader.store_line()?);
    plan.calls.reserve((reader.text.len() - reader.place) / FEWEST_LINE_BYTES);
    while reader.place < reader.text.len() {
        *line_start = reader.place;
        plan.calls.push(reader.call_line()?);
    }
    Ok(())
}

/// The reader's place is one with which no line goes on.
struct Stuck;

struct Reader<'a> {
    text: &'a [u8],
    place: usize,
}

impl Reader<'_> {
    fn store_line(&mut self) -> Result<StoreLine, Stuck> {
        if !self.text.starts_with(b"store") {
            return Err(self.stuck_in_name(STORE_NAME));
        }
        let [cells, k1, k2, floor] = self.numbers(5)?;
        Ok(StoreLine { cells, k1, k2, floor })
    }

    fn call_line(&mut self) -> Result<Call, Stuck> {
        match &self.text[self.place..] {
            [b'l', b'o', b'a', b'd', ..] => {
                self.numbers(4).map(|[i, offset, length]| Call::Load { i, offset, length })
            }
            [b'c', b'l', b'e', b'a', b'r', ..] => self.numbers(5).map(|[i]| Call::Clear { i }),
            [b'c', b'o', b'p', b'y', ..] => self.numbers(4).map(|[i, a]| Call::Copy { i, a }),
            [b'c', b'o', b'n', b's', ..] => self.numbers(4).map(|[i, a, b]| Call::Cons { i, a, b }),
            [b'c', b'a', b'r', ..] => self.numbers(3).map(|[i, a]| Call::Car { i, a }),
            [b'c', b'd', b'r', ..] => self.numbers(3).map(|[i, a]| Call::Cdr { i, a }),
            [b'r', b'p', b'l', b'a', b'c', b'a', ..] => {
                self.numbers(6).map(|[a, b]| Call::Rplaca { a, b })
            }
            [b'r', b'p', b'l', b'a', b'c', b'd', ..] => {
                self.numbers(6).map(|[a, b]| Call::Rplacd { a, b })
            }
            [b'l', b'o', b'o', b'k', ..] => self.numbers(4).map(|[i]| Call::Look { i }),
            [b's', b'a', b'm', b'e', ..] => self.numbers(4).map(|[i, j]| Call::Same { i, j }),
            _ => Err(self.stuck_in_name(CALL_NAMES)),
        }
    }

    /// Passes a name of so many bytes, the line's numbers and its end.
    fn numbers<const COUNT: usize>(&mut self, name: usize) -> Result<[u32; COUNT], Stuck> {
        self.place += name;
        let mut numbers = [0; COUNT];
        for number in &mut numbers {
            self.pass(b' ')?;
            *number = self.number()?;
        }
        self.pass(b'\n')?;
        Ok(numbers)
    }

    fn number(&mut self) -> Result<u32, Stuck> {
        let mut number = self.digit().ok_or(Stuck)?;
        let more = if number == 0 { 0 } else { MOST_DIGITS - 1 };
        for _ in 0..more {
            let Some(digit) = self.digit() else { break };
            number = 10 * number + digit;
        }
        Ok(number)
    }

    fn digit(&mut self) -> Option<u32> {
        let byte = self.text.get(self.place).filter(|byte| byte.is_ascii_digit())?;
        self.place += 1;
        Some(u32::from(byte - b'0'))
    }

    fn pass(&mut self, byte: u8) -> Result<(), Stuck> {
        if self.text.get(self.place) != Some(&byte) {
            return Err(Stuck);
        }
        self.place += 1;
        Ok(())
    }

    /// Passes what begins one of the names, which the text goes on with none of.
    #[cold]
    fn stuck_in_name(&mut self, names: &[&str]) -> Stuck {
        let rest = &self.text[self.place..];
        let common = |name: &&str| name.bytes().zip(rest).take_while(|(a, b)| a == *b).count();
        self.place += names.iter().map(common).max().unwrap_or(0);
        Stuck
    }
}

#[cfg(test)]
mod tests {
    use super::*;

    fn fault(text: &str) -> Option<(u32, u32)> {
        let text = text.replace('/', "\n");
        read_plan(text.as_bytes()).fault.map(|fault| (fault.line, fault.column))
    }

    #[test]
    fn faults_as_documented() {
        assert_eq!(fault(""), Some((1, 1)));
        assert_eq!(fault("load 1 120 80/"), Some((1, 1)));
        assert_eq!(fault("stor 3 1 1 1/"), Some((1, 5)));
        assert_eq!(fault("store 03 1 1 1/"), Some((1, 8)));
        assert_eq!(fault("store 100000 1 1 1/"), Some((1, 12)));
        assert_eq!(fault("store 3  1 1 1/"), Some((1, 9)));
        assert_eq!(fault("store 3 1 1/"), Some((1, 12)));
        assert_eq!(fault("store 3 1 1 1 /"), Some((1, 14)));
        assert_eq!(fault("store 3 1 1 1"), Some((1, 14)));
        assert_eq!(fault("store 3 1 1 1/store 3 1 1 1/"), Some((2, 2)));
        assert_eq!(fault("store 3 1 1 1//"), Some((2, 1)));
        assert_eq!(fault("store 3 1 1 1/"), None);
    }

    #[test]
    fn names_are_cut_at_their_longest_beginning() {
        assert_eq!(fault("store 3 1 1 1/rplacx 1 1/"), Some((2, 6)));
        assert_eq!(fault("store 3 1 1 1/look 1/cler 1/"), Some((3, 4)));
        assert_eq!(fault("store 3 1 1 1/cons"), Some((2, 5)));
        assert_eq!(fault("store 3 1 1 1/c"), Some((2, 2)));
    }

    #[test]
    fn long_plans_are_not_read() {
        let text = "store 3 1 1 1/".to_string() + &"car 1 1/".repeat(MOST_BYTES / 8);
        assert_eq!(fault(&text), Some((0, 0)));
    }
}
