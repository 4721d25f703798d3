//! wellreport written by hand in Rust, to compare with the proved program.

#[path = "handwritten.rs"]
mod handwritten;

use handwritten::{CellMonitor, Plate, LINE_ROOM};
use std::io::{self, Read, Write};

const INPUT_LEN: usize = 60_800;
const RECORDS: usize = INPUT_LEN / 19;

fn main() -> io::Result<()> {
    let mut bytes = Vec::with_capacity(INPUT_LEN);
    io::stdin().lock().take(INPUT_LEN as u64).read_to_end(&mut bytes)?;

    let mut out = vec![0; RECORDS * LINE_ROOM];
    let mut monitor = CellMonitor::new(&Plate::STANDARD).expect("the standard plate is valid");
    let (_, written) = monitor.lines(&bytes, 0, &mut out).expect("there is room");
    io::stdout().lock().write_all(&out[..written])
}
