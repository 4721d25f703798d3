//! Reads step records from standard input and prints the report, through the Rust module.
//!
//!   session              the cell monitor, record by record: what wellreport prints
//!   session batch        the same through the batch call and a small buffer
//!   session echo         the echo monitor, record by record
//!   session echo-batch   the same through the batch call

#[path = "../include/sukepina.rs"]
mod sukepina;

use std::io::{self, Read, Write};
use std::process::exit;
use sukepina::{CellMonitor, EchoMonitor, Refusal, LINE_ROOM, RECORD_LEN, STANDARD_PLATE};

const INPUT_LEN: u64 = 60_800;
const BATCH_ROOM: usize = 1_000;
const MOUNT: f32 = 50.0;
const REST: u64 = 60_000;

// Both monitors have the same calls: one text for both.
macro_rules! reports {
    ($monitor:ty, $report:ident, $batch:ident) => {
        fn $report(mut monitor: $monitor, bytes: &[u8], out: &mut impl Write) -> io::Result<()> {
            let mut line = [0; LINE_ROOM];
            let mut place = 0;
            while place != bytes.len() {
                match monitor.feed(bytes, place) {
                    Ok(next) => {
                        let len = monitor.readout(&mut line).expect("a line fits");
                        out.write_all(&line[..len])?;
                        place = next;
                    }
                    Err(refusal) => {
                        writeln!(out, "refused {} at {}", refusal as u32, place)?;
                        // A cut record at the end is refused with 1; then nothing is left.
                        place = if refusal == Refusal::Short { bytes.len() } else { place + RECORD_LEN };
                    }
                }
            }
            Ok(())
        }

        fn $batch(mut monitor: $monitor, bytes: &[u8], out: &mut impl Write) -> io::Result<()> {
            let mut lines = [0; BATCH_ROOM];
            let mut place = 0;
            while place != bytes.len() {
                let written = monitor.lines(bytes, &mut place, &mut lines).expect("a line fits");
                out.write_all(&lines[..written])?;
            }
            Ok(())
        }
    };
}

reports!(CellMonitor, cell_report, cell_batch);
reports!(EchoMonitor, echo_report, echo_batch);

fn main() -> io::Result<()> {
    let arguments: Vec<String> = std::env::args().skip(1).collect();
    let way = arguments.join(" ");
    if !["", "batch", "echo", "echo-batch"].contains(&way.as_str()) {
        eprintln!("session: the argument is nothing, batch, echo or echo-batch");
        exit(2);
    }

    let mut bytes = Vec::new();
    io::stdin().lock().take(INPUT_LEN).read_to_end(&mut bytes)?;

    let cell = || CellMonitor::set_up(&STANDARD_PLATE).expect("the plate is valid");
    let echo = || EchoMonitor::set_up(&STANDARD_PLATE, MOUNT, REST).expect("the settings are valid");
    let mut out = io::BufWriter::new(io::stdout().lock());
    match way.as_str() {
        "batch" => cell_batch(cell(), &bytes, &mut out)?,
        "echo" => echo_report(echo(), &bytes, &mut out)?,
        "echo-batch" => echo_batch(echo(), &bytes, &mut out)?,
        _ => cell_report(cell(), &bytes, &mut out)?,
    }
    out.flush()
}
