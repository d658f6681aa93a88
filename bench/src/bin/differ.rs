//! Runs seeded random plans through `zoneplan` and the twin and compares what they print. A program that ends with a status
//! other than 0, or by a signal, differs too.

use std::collections::BTreeMap;
use std::error::Error;
use std::io::{ErrorKind, Write};
use std::path::Path;
use std::process::{Command, ExitCode, Output, Stdio};
use zonetwin::answer::answer_plan;
use zonetwin::damage::random_text;
use zonetwin::plan::read_plan;
use zonetwin::random::Random;
use zonetwin::store::{Call, Phase, Store};

fn main() -> Result<ExitCode, Box<dyn Error>> {
    let mut args = std::env::args().skip(1);
    let program = args.next().ok_or("usage: differ zoneplan [count] [seed] [folder]")?;
    let count: u64 = args.next().map_or(Ok(20_000), |text| text.parse())?;
    let seed: u64 = args.next().map_or(Ok(1), |text| text.parse())?;
    let folder = args.next().unwrap_or("target".into());
    let mut coverage = Coverage::default();
    for number in 0..count {
        // Each plan has its own seed, so that one can be made again alone.
        let text = random_text(&mut Random::new(seed << 32 | number));
        let ours = answer_plan(&text);
        let output = output_of(&program, &text)?;
        if !output.status.success() {
            println!("{program} ended with {}", output.status);
        }
        if ours != output.stdout || !output.status.success() {
            save(Path::new(&folder), &text, &ours, &output.stdout)?;
            println!("plan {number} of seed {seed} differs; see {folder}/mismatch.*");
            return Ok(ExitCode::FAILURE);
        }
        coverage.count(&text, &ours);
    }
    coverage.print();
    println!("{count} plans of seed {seed}: no difference");
    Ok(ExitCode::SUCCESS)
}

/// What the program prints for the text, and how it ends.
fn output_of(program: &str, text: &[u8]) -> Result<Output, Box<dyn Error>> {
    let mut child = Command::new(program).stdin(Stdio::piped()).stdout(Stdio::piped()).spawn()?;
    let mut stdin = child.stdin.take().ok_or("no stdin")?;
    match stdin.write_all(text) {
        // A program may leave the rest of a text that is too long.
        Err(error) if error.kind() == ErrorKind::BrokenPipe => (),
        result => result?,
    }
    drop(stdin);
    Ok(child.wait_with_output()?)
}

fn save(folder: &Path, text: &[u8], ours: &[u8], theirs: &[u8]) -> std::io::Result<()> {
    std::fs::create_dir_all(folder)?;
    std::fs::write(folder.join("mismatch.plan"), text)?;
    std::fs::write(folder.join("mismatch.twin"), ours)?;
    std::fs::write(folder.join("mismatch.zoneplan"), theirs)
}

/// How often the plans came to what there is to come to.
#[derive(Default)]
struct Coverage {
    counts: BTreeMap<String, u64>,
}

impl Coverage {
    fn add(&mut self, what: &str) {
        *self.counts.entry(what.to_string()).or_default() += 1;
    }

    fn count(&mut self, text: &[u8], answers: &[u8]) {
        for line in String::from_utf8_lossy(answers).lines() {
            self.count_answer(line);
        }
        self.count_collections(text);
        self.add(match text.len() {
            0 => "plans: empty",
            1..=32_767 => "plans: up to 32,767 bytes",
            32_768 => "plans: 32,768 bytes",
            _ => "plans: longer",
        });
    }

    fn count_answer(&mut self, line: &str) {
        let parts: Vec<&str> = line.split(' ').collect();
        match parts[..] {
            ["ok", "0"] => self.add("ok, with work 0"),
            ["ok", _] => self.add("ok, with work above 0"),
            ["refused", number, ..] => self.add(&format!("refused {number}")),
            ["fault", "0", _] => self.add("fault 0 0"),
            ["fault", "1", _] => self.add("fault, first line"),
            ["fault", ..] => self.add("fault, later line"),
            _ => self.add(parts[0]),
        }
    }

    /// Makes the plan's calls once more to see the phases.
    fn count_collections(&mut self, text: &[u8]) {
        let plan = read_plan(text);
        let Some(line) = plan.store else { return };
        let Ok(mut store) = Store::new(line.cells, line.k1, line.k2, line.floor) else { return };
        for call in plan.calls {
            let before = store.phase();
            let outcome = store.apply(call);
            let replaces = matches!(call, Call::Rplaca { .. } | Call::Rplacd { .. });
            if replaces && before == Phase::Mark && outcome.is_ok() {
                self.add("replacements while marking");
            }
            match (before, store.phase()) {
                (Phase::Idle, Phase::Mark) => self.add("collections begun"),
                (Phase::Sweep, Phase::Idle) if line.cells < 1000 => {
                    self.add("collections finished")
                }
                (Phase::Sweep, Phase::Idle) => {
                    self.add("collections finished, 1,000 cells or more")
                }
                _ => (),
            }
        }
    }

    fn print(&self) {
        for (what, count) in &self.counts {
            println!("{count:>10}  {what}");
        }
    }
}
