// The measured script in plain Rust: it reads one CREATE, INSERTs of lines "number, tab, text", and one SELECT, keeps the rows in memory, and prints the replies.
use std::io::{self, BufWriter, Read, Write};

/// A row of the table `t (a UInt8, s String)`.
type Row = (u8, Vec<u8>);

fn row_of(line: &[u8]) -> Option<Row> {
    let tab = line.iter().position(|&byte| byte == b'\t')?;
    let number = std::str::from_utf8(&line[..tab]).ok()?.parse().ok()?;
    Some((number, line[tab + 1..].to_vec()))
}

/// Adds the rows of one INSERT, which end at a line `\.`.
fn insert<'a>(rows: &mut Vec<Row>, lines: &mut impl Iterator<Item = &'a [u8]>) {
    let data = lines.take_while(|&line| line != b"\\.");
    rows.extend(data.filter_map(row_of));
}

fn select(out: &mut impl Write, rows: &mut [Row], commands: usize) -> io::Result<()> {
    writeln!(out, "ROWS {} PREFIX {commands}", rows.len())?;
    rows.sort();
    for (number, text) in rows {
        write!(out, "{number}\t")?;
        out.write_all(text)?;
        out.write_all(b"\n")?;
    }
    Ok(())
}

fn main() -> io::Result<()> {
    let mut script = Vec::new();
    io::stdin().read_to_end(&mut script)?;
    let mut out = BufWriter::new(io::stdout());
    let mut lines = script.split(|&byte| byte == b'\n');
    let mut rows = Vec::new();
    let mut commands = 0;
    while let Some(line) = lines.next() {
        if line.starts_with(b"SELECT") {
            select(&mut out, &mut rows, commands)?;
        } else if !line.is_empty() {
            if line.starts_with(b"INSERT") {
                insert(&mut rows, &mut lines);
            }
            commands += 1;
            writeln!(out, "OK {commands}")?;
        }
    }
    out.flush()
}
