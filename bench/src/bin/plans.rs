//! Writes the benchmark plans into a folder: for each store size and mix a plan near the largest
//! size, and for each store size an empty plan, whose cost is that of starting and making the store.

use std::path::Path;
use zonetwin::plan::MOST_BYTES;

const SIZES: [usize; 3] = [64, 1024, 4096];
const LOADS: &str = "load 9 120 80\nload 8 200 50\nclear 7\n";

/// A plan's effort, its first calls, and the calls that are then made over and over.
struct Mix {
    name: &'static str,
    k1: u32,
    k2: u32,
    first: fn(usize) -> String,
    group: fn() -> String,
}

const MIXES: [Mix; 6] = [
    Mix { name: "cons", k1: 8, k2: 8, first: list, group: conses },
    Mix { name: "turns", k1: 64, k2: 64, first: list, group: conses },
    Mix { name: "replacement", k1: 1, k2: 8, first: ring, group: replacements },
    Mix { name: "reading", k1: 8, k2: 8, first: list, group: readings },
    Mix { name: "largest-look", k1: 8, k2: 8, first: list, group: || "look 0\n".into() },
    Mix { name: "largest-mixed", k1: 8, k2: 8, first: list, group: shortest },
];

fn main() -> std::io::Result<()> {
    let folder = std::env::args().nth(1).unwrap_or("target/plans".into());
    let folder = Path::new(&folder);
    std::fs::create_dir_all(folder)?;
    for size in SIZES {
        std::fs::write(folder.join(format!("empty-{size}.plan")), store_line(size, 8, 8))?;
        for mix in &MIXES {
            std::fs::write(folder.join(format!("{}-{size}.plan", mix.name)), plan(size, mix))?;
        }
    }
    Ok(())
}

/// The floor is the size, so one collection begins as soon as another has finished.
fn store_line(size: usize, k1: u32, k2: u32) -> String {
    format!("store {size} {k1} {k2} {size}\n")
}

/// As many whole groups as fit.
fn plan(size: usize, mix: &Mix) -> String {
    let start = store_line(size, mix.k1, mix.k2) + LOADS + &(mix.first)(size);
    let group = (mix.group)();
    let times = (MOST_BYTES - start.len()) / group.len();
    start + &group.repeat(times)
}

fn list(_: usize) -> String {
    "cons 0 9 7\ncons 0 8 0\n".into()
}

/// A ring of cells, long enough that marking it takes many turns.
fn ring(size: usize) -> String {
    let length = (size / 4).min(256);
    let links = "cons 0 9 0\n".repeat(length);
    format!("cons 4 9 7\ncopy 0 4\n{links}rplacd 4 0\ncopy 3 0\n")
}

/// Builds three short lists anew, so that the old ones become garbage.
fn conses() -> String {
    (0..3).map(|i| format!("cons {i} 9 7\n") + &format!("cons {i} 9 {i}\n").repeat(4)).collect()
}

/// A cons, so that the collector moves, and replacements in it and along the ring.
fn replacements() -> String {
    "cons 1 9 7\ncdr 3 3\nrplaca 3 1\nrplacd 1 0\nrplaca 3 9\nrplaca 1 3\nrplaca 0 8\nrplacd 1 3\n"
        .into()
}

/// A short list anew, and walks along it.
fn readings() -> String {
    let build = "clear 0\n".to_string() + &"cons 0 9 0\n".repeat(4);
    let step = "cdr 1 1\ncar 2 1\nlook 2\nlook 1\nsame 1 0\n".repeat(3);
    build + &format!("copy 1 0\ncar 2 1\nlook 2\n{step}").repeat(6)
}

fn shortest() -> String {
    "look 0\ncar 1 0\ncdr 2 0\nclear 3\n".into()
}
