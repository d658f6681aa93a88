//! The answers to a plan, as they are printed.

use crate::plan::{Fault, Plan, read_plan};
use crate::store::{Outcome, Refusal, Store};

/// An answer is seldom longer than this.
const USUAL_ANSWER_BYTES: usize = 8;

/// Reads a plan, makes its calls and writes the answers.
pub fn answer_plan(text: &[u8]) -> Vec<u8> {
    let plan = read_plan(text);
    let mut out = Vec::with_capacity(USUAL_ANSWER_BYTES * (plan.calls.len() + 2));
    // Without a store nothing after its line is answered, not even a fault.
    if answer_lines(&plan, &mut out).is_ok()
        && let Some(Fault { line, column }) = plan.fault
    {
        write_line(&mut out, "fault", &[line, column]);
    }
    out
}

/// Answers the lines before the fault; fails where the store is refused.
fn answer_lines(plan: &Plan, out: &mut Vec<u8>) -> Result<(), Refusal> {
    let Some(line) = plan.store else { return Ok(()) };
    let made = Store::new(line.cells, line.k1, line.k2, line.floor);
    let mut store = made.inspect_err(|&refusal| write_refusal(out, refusal))?;
    write_line(out, "ok", &[]);
    for &call in &plan.calls {
        match store.apply(call) {
            Ok(outcome) => write_outcome(out, outcome),
            Err(refusal) => write_refusal(out, refusal),
        }
    }
    Ok(())
}

fn write_outcome(out: &mut Vec<u8>, outcome: Outcome) {
    match outcome {
        Outcome::Done => write_line(out, "ok", &[]),
        Outcome::Work(work) => write_line(out, "ok", &[work]),
        Outcome::Nil => write_line(out, "nil", &[]),
        Outcome::Cell => write_line(out, "cell", &[]),
        Outcome::Zone(zone) => write_line(out, "zone", &[zone.offset(), zone.length()]),
        Outcome::Same(true) => write_line(out, "yes", &[]),
        Outcome::Same(false) => write_line(out, "no", &[]),
    }
}

fn write_refusal(out: &mut Vec<u8>, refusal: Refusal) {
    match refusal {
        Refusal::WordTooWide(code) => write_line(out, "refused", &[2, code]),
        Refusal::NoEffort(k1, k2) => write_line(out, "refused", &[3, k1, k2]),
        Refusal::NotAZone(offset, length) => write_line(out, "refused", &[4, offset, length]),
        Refusal::NoRegister(i) => write_line(out, "refused", &[5, i]),
        Refusal::NotACell(a) => write_line(out, "refused", &[6, a]),
        Refusal::NoFreeCell(work) => write_line(out, "refused", &[7, work]),
    }
}

#[inline]
fn write_line(out: &mut Vec<u8>, word: &str, numbers: &[u32]) {
    out.extend_from_slice(word.as_bytes());
    for &number in numbers {
        out.push(b' ');
        write_number(out, number);
    }
    out.push(b'\n');
}

fn write_number(out: &mut Vec<u8>, mut number: u32) {
    let mut digits = [0; 10];
    let mut first = digits.len();
    loop {
        first -= 1;
        digits[first] = b'0' + (number % 10) as u8;
        number /= 10;
        if number == 0 {
            break;
        }
    }
    out.extend_from_slice(&digits[first..]);
}

#[cfg(test)]
mod tests {
    use super::*;

    fn answers(text: &str) -> String {
        let out = answer_plan(text.replace('/', "\n").as_bytes());
        String::from_utf8(out).unwrap().replace('\n', "/")
    }

    #[test]
    fn answers_as_documented() {
        let plan = "store 3 1 1 1/load 1 120 80/cons 0 1 2/cons 0 1 2/cons 3 0 0/cons 4 0 0/\
                    cons 4 0 0/look 1/car 5 4/same 5 0/car 5 1/";
        let expected = "ok/ok/ok 0/ok 0/ok 0/refused 7 1/ok 1/zone 120 80/ok/yes/refused 6 1/";
        assert_eq!(answers(plan), expected);
    }

    #[test]
    fn loads_are_refused_in_order() {
        assert_eq!(answers("store 1 1 1 0/load 16 65535 2/"), "ok/refused 4 65535 2/");
        assert_eq!(answers("store 1 1 1 0/load 16 4096 1/"), "ok/refused 5 16/");
        assert_eq!(answers("store 1 1 1 0/load 15 4096 1/"), "ok/refused 2 268435457/");
    }

    #[test]
    fn a_refused_store_ends_the_plan() {
        assert_eq!(answers("store 3 65 1 0/look 1/"), "refused 3 65 1/");
    }

    #[test]
    fn a_fault_stands_last() {
        assert_eq!(answers("store 3 1 1 0/look 1/lock 1/"), "ok/nil/fault 3 3/");
    }

    #[test]
    fn an_empty_store_goes_through_the_phases() {
        let plan = "store 0 1 1 0/cons 0 0 0/cons 0 0 0/cons 0 0 0/cons 0 0 0/";
        assert_eq!(answers(plan), "ok/refused 7 0/refused 7 0/refused 7 0/refused 7 0/");
    }
}
