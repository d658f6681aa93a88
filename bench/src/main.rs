use std::io::{self, Read, Write};
use zonetwin::answer::answer_plan;
use zonetwin::plan::MOST_BYTES;

fn main() -> io::Result<()> {
    // One byte more than a plan may have tells that it is too long.
    let most = MOST_BYTES + 1;
    let mut text = Vec::with_capacity(most);
    io::stdin().lock().take(most as u64).read_to_end(&mut text)?;
    io::stdout().lock().write_all(&answer_plan(&text))
}
