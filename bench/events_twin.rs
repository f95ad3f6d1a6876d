// The workload `events` in plain Rust, with the program's own way of working: each INSERT is read into columns, its rows are split by
// their partition and sorted by their key, as pairs of a number and a place, and each partition is written as a part: the program's
// files, with their SHA-256 in a manifest, each synced before the folder gets its name. A folder that is there is opened, and each digest
// of its files compared. For a SELECT the columns are read back, with no digest compared, sorted and printed. With a condition only the
// granules are read that may have a match by their keys and their partition: first the columns of the condition, and of those granules that
// have a match the columns that are shown. It knows one table, `e (k UInt64, a UInt32, b Int64, s String, c UInt8)` with the key k, parted
// by a or not at all, and no escapes; and of SELECTs `SELECT * FROM e` and some columns in the table's order, each with a condition of
// comparisons of numbers that are joined by AND. An OPTIMIZE reads back the columns of all parts of a table without partitions, sorts the
// rows by their keys, those of equal keys as the parts have them, of which a replacing table keeps the last, and writes them as one part.
// A SELECT with FINAL of a table without partitions reads all columns of the granules that may have a match by their keys, as rows, folds
// these by the rule of a plain, replacing, summing or collapsing table (merging.rs), and asks the condition of what is left. A collapsing
// table has the sign in c, as an Int8, and is asked with FINAL alone. With --times it tells the steps apart on standard error.
#[allow(dead_code)]
mod merging;
mod sha256;

use merging::{merge_sorted, Collapsing, Plain, Replacing, Row, Summing, Value};
use sha256::sha256;
use std::collections::HashMap;
use std::fs::{self, File};
use std::io::{self, BufWriter, Read, Write};
use std::os::unix::fs::FileExt;
use std::path::{Path, PathBuf};
use std::time::{Duration, Instant};

/// The rows of a granule.
const GRANULE: usize = 8192;
/// What the columns of numbers k, a, b and c take for each row, in bytes.
const WIDTHS: [usize; 4] = [8, 4, 8, 1];
/// The columns.
const NAMES: [&str; 5] = ["k", "a", "b", "s", "c"];
/// The places of the columns k, of a, which may part the table, and of c, which has a byte for each row.
const KEY: usize = 0;
const PARTITION: usize = 1;
const BYTES: usize = 4;
/// The places of the columns that a summing table sums.
const SUMMED: [usize; 3] = [1, 2, 4];
/// The bytes of a manifest in front of its first mark, of a digest, and of a mark.
const HEADER: usize = 18;
const DIGEST: usize = 32;
const MARK: usize = 40;

/// The columns of the table, or those of them that are shown; the others are empty.
#[derive(Default)]
struct Columns {
    k: Vec<u64>,
    a: Vec<u32>,
    b: Vec<i64>,
    ends: Vec<usize>,
    bytes: Vec<u8>,
    c: Vec<u8>,
    /// Whether c has signs, each kept as its byte.
    is_signed: bool,
}

impl Columns {
    fn new(is_signed: bool) -> Self {
        Columns { is_signed, ..Columns::default() }
    }

    fn text(&self, place: usize) -> &[u8] {
        let start = if place == 0 { 0 } else { self.ends[place - 1] };
        &self.bytes[start..self.ends[place]]
    }

    /// The values of a row in the columns behind the key, nothing in those that are not shown.
    fn rest(&self, place: usize) -> (Option<u32>, Option<i64>, Option<&[u8]>, Option<i16>) {
        let text = (place < self.ends.len()).then(|| self.text(place));
        let c = self.c.get(place).map(|&c| if self.is_signed { i16::from(c as i8) } else { c.into() });
        (self.a.get(place).copied(), self.b.get(place).copied(), text, c)
    }

    /// The values of a row, where all columns are shown.
    fn row(&self, place: usize) -> Row {
        let c = self.c[place];
        vec![
            Value::UInt64(self.k[place]),
            Value::UInt32(self.a[place]),
            Value::Int64(self.b[place]),
            Value::Text(self.text(place).to_vec()),
            if self.is_signed { Value::Int8(c as i8) } else { Value::UInt8(c) },
        ]
    }

    /// Adds the values of a row in the columns that are shown.
    fn add_row(&mut self, row: &Row, shown: &[bool; 5]) {
        for (value, _) in row.iter().zip(shown).filter(|(_, &is_shown)| is_shown) {
            match value {
                Value::UInt64(k) => self.k.push(*k),
                Value::UInt32(a) => self.a.push(*a),
                Value::Int64(b) => self.b.push(*b),
                Value::Text(text) => {
                    self.bytes.extend_from_slice(text);
                    self.ends.push(self.bytes.len());
                }
                Value::UInt8(c) => self.c.push(*c),
                Value::Int8(sign) => self.c.push(*sign as u8),
            }
        }
    }

    /// Adds of a column the values that are kept, of those that these bytes spell.
    fn add(&mut self, column: usize, bytes: &[u8], keep: &[bool]) {
        match column {
            0 => self.k.extend(kept(bytes, keep).map(u64::from_le_bytes)),
            1 => self.a.extend(kept(bytes, keep).map(u32::from_le_bytes)),
            2 => self.b.extend(kept(bytes, keep).map(i64::from_le_bytes)),
            3 => self.add_texts(bytes, keep),
            _ => self.c.extend(kept(bytes, keep).map(u8::from_le_bytes)),
        }
    }

    fn add_texts(&mut self, bytes: &[u8], keep: &[bool]) {
        let mut rest = bytes;
        for &is_kept in keep {
            let (size, behind) = split_leb128(rest);
            if is_kept {
                self.bytes.extend_from_slice(&behind[..size]);
                self.ends.push(self.bytes.len());
            }
            rest = &behind[size..];
        }
    }

    /// Adds a line of five fields without escapes.
    fn push(&mut self, line: &[u8]) -> Option<()> {
        let mut fields = line.split(|&byte| byte == b'\t');
        let mut number = || std::str::from_utf8(fields.next()?).ok();
        self.k.push(number()?.parse().ok()?);
        self.a.push(number()?.parse().ok()?);
        self.b.push(number()?.parse().ok()?);
        let text = fields.next()?;
        self.bytes.extend_from_slice(text);
        self.ends.push(self.bytes.len());
        let c = std::str::from_utf8(fields.next()?).ok()?;
        self.c.push(if self.is_signed { c.parse::<i8>().ok()? as u8 } else { c.parse().ok()? });
        Some(())
    }

    /// The places of the rows of each partition, with their keys and sorted by them, the partitions in the order of their first rows.
    fn split(&self, is_parted: bool) -> Vec<Vec<(u64, u32)>> {
        let mut found = HashMap::new();
        let mut partitions: Vec<Vec<(u64, u32)>> = Vec::new();
        for (place, &key) in self.k.iter().enumerate() {
            let next = partitions.len();
            let number = if is_parted { *found.entry(self.a[place]).or_insert(next) } else { 0 };
            if number == next {
                partitions.push(Vec::new());
            }
            partitions[number].push((key, place as u32));
        }
        partitions.iter_mut().for_each(|pairs| pairs.sort());
        partitions
    }
}

/// The numbers of this width that are kept, of those that the bytes spell.
fn kept<'a, const WIDTH: usize>(bytes: &'a [u8], keep: &'a [bool]) -> impl Iterator<Item = [u8; WIDTH]> + 'a {
    let numbers = bytes.chunks_exact(WIDTH).zip(keep);
    numbers.filter(|(_, &is_kept)| is_kept).map(|(number, _)| number.try_into().unwrap())
}

/// The number of this place in the bytes of a column of numbers.
fn number_at(column: usize, bytes: &[u8], place: usize) -> i128 {
    match column {
        0 => u64::from_le_bytes(bytes[8 * place..][..8].try_into().unwrap()).into(),
        1 => u32::from_le_bytes(bytes[4 * place..][..4].try_into().unwrap()).into(),
        2 => i64::from_le_bytes(bytes[8 * place..][..8].try_into().unwrap()).into(),
        _ => bytes[place].into(),
    }
}

/// The number at the front of the bytes, and the bytes behind it.
fn split_leb128(bytes: &[u8]) -> (usize, &[u8]) {
    let (mut size, mut shift, mut rest) = (0usize, 0, bytes);
    loop {
        let byte = rest[0];
        rest = &rest[1..];
        size |= ((byte % 128) as usize) << shift;
        shift += 7;
        if byte < 128 {
            return (size, rest);
        }
    }
}

fn push_leb128(bytes: &mut Vec<u8>, mut number: usize) {
    while number >= 128 {
        bytes.push((number % 128 + 128) as u8);
        number /= 128;
    }
    bytes.push(number as u8);
}

/// The bytes of the texts at these places, and where each granule begins in them.
fn encode_texts(columns: &Columns, pairs: &[(u64, u32)]) -> (Vec<u8>, Vec<usize>) {
    let mut texts = Vec::with_capacity(24 * pairs.len());
    let mut starts = Vec::new();
    for (row, pair) in pairs.iter().enumerate() {
        if row % GRANULE == 0 {
            starts.push(texts.len());
        }
        let text = columns.text(pair.1 as usize);
        push_leb128(&mut texts, text.len());
        texts.extend_from_slice(text);
    }
    (texts, starts)
}

/// The bytes of `marks.bin`: where each granule of so many rows begins in the columns, and their sizes.
fn encode_marks(rows: usize, texts: usize, starts: &[usize]) -> Vec<u8> {
    let of_numbers = |width: usize| (0..rows).step_by(GRANULE).chain([rows]).map(move |row| row * width);
    let [k, a, b, c] = WIDTHS.map(of_numbers);
    let places = k.chain(a).chain(b).chain(starts.iter().copied()).chain([texts]).chain(c);
    places.flat_map(|place| (place as u64).to_le_bytes()).collect()
}

/// The files of a part but its manifest: marks, primary keys, and each column in this order of its rows.
fn encode(columns: &Columns, pairs: &[(u64, u32)]) -> [Vec<u8>; 7] {
    let places = || pairs.iter().map(|pair| pair.1 as usize);
    let keys = pairs.iter().step_by(GRANULE).chain(pairs.last());
    let (texts, starts) = encode_texts(columns, pairs);
    [
        encode_marks(pairs.len(), texts.len(), &starts),
        keys.flat_map(|pair| pair.0.to_le_bytes()).collect(),
        pairs.iter().flat_map(|pair| pair.0.to_le_bytes()).collect(),
        places().flat_map(|place| columns.a[place].to_le_bytes()).collect(),
        places().flat_map(|place| columns.b[place].to_le_bytes()).collect(),
        texts,
        places().map(|place| columns.c[place]).collect(),
    ]
}

/// These bytes and their digest.
fn sealed(mut bytes: Vec<u8>) -> Vec<u8> {
    let digest = sha256(&bytes);
    bytes.extend(digest);
    bytes
}

/// The bytes of the manifest of so many rows, whose other files have these sizes and digests.
fn manifest(rows: usize, files: &[Vec<u8>], digests: &[[u8; 32]]) -> Vec<u8> {
    let mut bytes = b"MTP1\x01\x00".to_vec();
    bytes.extend((rows as u64).to_le_bytes());
    bytes.extend((files.len() as u32).to_le_bytes());
    for (file, digest) in files.iter().zip(digests) {
        bytes.extend((file.len() as u64).to_le_bytes());
        bytes.extend(digest);
    }
    sealed(bytes)
}

/// Writes a file, syncs it, and closes it.
fn write_synced(path: &Path, bytes: &[u8]) -> io::Result<()> {
    let mut file = File::create(path)?;
    file.write_all(bytes)?;
    file.sync_all()
}

/// Gives a folder whose files are written its name in the root.
fn publish(root: &Path, stage: &Path, name: &str) -> io::Result<PathBuf> {
    let folder = root.join(name);
    File::open(stage)?.sync_all()?;
    fs::rename(stage, &folder)?;
    File::open(root)?.sync_all()?;
    Ok(folder)
}

/// The places of so many rows in the order of all columns from left to right.
fn order_of(columns: &Columns, rows: usize) -> Vec<u32> {
    let key = |place: u32| columns.k.get(place as usize).copied().unwrap_or(0);
    let mut pairs: Vec<(u64, u32)> = (0..rows as u32).map(|place| (key(place), place)).collect();
    pairs.sort_by(|x, y| {
        let rest = || columns.rest(x.1 as usize).cmp(&columns.rest(y.1 as usize));
        x.0.cmp(&y.0).then_with(rest)
    });
    pairs.into_iter().map(|pair| pair.1).collect()
}

fn print(columns: &Columns, order: &[u32], length: usize) -> io::Result<Vec<u8>> {
    let mut out = Vec::new();
    writeln!(out, "ROWS {} PREFIX {length}", order.len())?;
    for &place in order {
        let (a, b, s, c) = columns.rest(place as usize);
        columns.k.get(place as usize).map_or(Ok(()), |k| write!(out, "{k}\t"))?;
        a.map_or(Ok(()), |a| write!(out, "{a}\t"))?;
        b.map_or(Ok(()), |b| write!(out, "{b}\t"))?;
        if let Some(s) = s {
            out.extend_from_slice(s);
            out.push(b'\t');
        }
        c.map_or(Ok(()), |c| write!(out, "{c}\t"))?;
        out.pop();
        out.push(b'\n');
    }
    Ok(out)
}

/// A test of a condition: its column, the least and the greatest number that meet it, and where these are those of IN all of them, sorted.
struct Test {
    column: usize,
    least: i128,
    greatest: i128,
    listed: Vec<i128>,
}

/// The test of a text such as `a IN (5, 7)`.
fn list_of(column: usize, text: &str) -> Option<Test> {
    let numbers = text.strip_prefix('(')?.strip_suffix(')')?;
    let mut listed = numbers.split(", ").map(|number| number.parse().ok()).collect::<Option<Vec<i128>>>()?;
    listed.sort_unstable();
    Some(Test { column, least: *listed.first()?, greatest: *listed.last()?, listed })
}

/// The test of a text such as `a < 5`.
fn test_of(text: &str) -> Option<Test> {
    if let Some((name, numbers)) = text.split_once(" IN ") {
        return list_of(NAMES.iter().position(|&other| other == name && other != "s")?, numbers);
    }
    let words: Vec<&str> = text.split(' ').collect();
    let &[name, sign, number] = words.as_slice() else { return None };
    let column = NAMES.iter().position(|&other| other == name && other != "s")?;
    let number: i128 = number.parse().ok()?;
    let (least, greatest) = match sign {
        "=" => (number, number),
        "<" => (i128::MIN, number - 1),
        "<=" => (i128::MIN, number),
        ">" => (number + 1, i128::MAX),
        ">=" => (number, i128::MAX),
        _ => return None,
    };
    Some(Test { column, least, greatest, listed: Vec::new() })
}

impl Test {
    fn meets(&self, row: &Row) -> bool {
        self.is_met(row[self.column].number())
    }

    fn is_met(&self, number: i128) -> bool {
        (self.least..=self.greatest).contains(&number) && (self.listed.is_empty() || self.listed.binary_search(&number).is_ok())
    }

    /// Whether a number from the one to the other may meet it.
    fn may_be_met(&self, from: i128, to: i128) -> bool {
        let first = self.listed.partition_point(|&number| number < from);
        from <= self.greatest && self.least <= to && (self.listed.is_empty() || self.listed.get(first).is_some_and(|&number| number <= to))
    }
}

/// What a SELECT asks: whether each column is shown, whether it says FINAL, and tests that each row meets.
struct Query {
    shown: [bool; 5],
    is_final: bool,
    tests: Vec<Test>,
}

/// What the line of a SELECT asks.
fn query_of(line: &[u8]) -> Option<Query> {
    let text = std::str::from_utf8(line).ok()?.strip_prefix("SELECT ")?.strip_suffix(";")?;
    let (columns, rest) = text.split_once(" FROM e")?;
    let condition = rest.strip_prefix(" FINAL").unwrap_or(rest);
    let shown = NAMES.map(|name| columns == "*" || columns.split(", ").any(|column| column == name));
    let tests = condition.strip_prefix(" WHERE ").map(|tests| tests.split(" AND ").map(test_of).collect());
    Some(Query { shown, is_final: condition.len() < rest.len(), tests: tests.unwrap_or(Some(Vec::new()))? })
}

/// What is kept of a part: where its granules begin in the columns, and the keys of their first rows; of both one more.
struct Granules {
    starts: Vec<Vec<u64>>,
    keys: Vec<u64>,
}

/// A part: its folder, its partition, and what is kept of it, where that was read.
struct Part {
    folder: PathBuf,
    partition: Option<u32>,
    granules: Option<Granules>,
}

fn numbers_of(bytes: &[u8]) -> Vec<u64> {
    bytes.chunks_exact(8).map(|number| u64::from_le_bytes(number.try_into().unwrap())).collect()
}

/// The bytes of a file that ends with the digest of what is in front, which is compared.
fn read_sealed(file: &Path) -> io::Result<Vec<u8>> {
    let mut bytes = fs::read(file)?;
    let digest = bytes.split_off(bytes.len().checked_sub(DIGEST).ok_or(io::ErrorKind::InvalidData)?);
    (sha256(&bytes) == digest[..]).then_some(bytes).ok_or(io::ErrorKind::InvalidData.into())
}

impl Part {
    /// The part of a folder of this name.
    fn of(folder: PathBuf) -> Part {
        let name = folder.file_name().unwrap().to_str().unwrap();
        let partition = name.split('_').nth(1).and_then(|number| number.parse().ok());
        Part { partition, folder, granules: None }
    }

    /// The least block of the part's name.
    fn least(&self) -> usize {
        let name = self.folder.file_name().unwrap().to_str().unwrap();
        name.split('_').nth(2).and_then(|number| number.parse().ok()).unwrap()
    }

    /// Compares the digests of the part's files.
    fn check(&self) -> io::Result<()> {
        let manifest = read_sealed(&self.folder.join("manifest.bin"))?;
        let names = ["marks", "primary", "c0", "c1", "c2", "c3", "c4"];
        for (name, mark) in names.iter().zip(manifest[HEADER..].chunks_exact(MARK)) {
            let bytes = fs::read(self.folder.join(format!("{name}.bin")))?;
            if sha256(&bytes) != mark[MARK - DIGEST..] {
                return Err(io::ErrorKind::InvalidData.into());
            }
        }
        Ok(())
    }

    /// Reads what is kept of the part, where that is not there.
    fn load(&mut self) -> io::Result<()> {
        if self.granules.is_none() {
            let keys = numbers_of(&fs::read(self.folder.join("primary.bin"))?);
            let marks = numbers_of(&fs::read(self.folder.join("marks.bin"))?);
            let starts = marks.chunks_exact(keys.len()).map(<[u64]>::to_vec).collect();
            self.granules = Some(Granules { starts, keys });
        }
        Ok(())
    }

    /// The granules of which each test may be met by some row.
    fn chosen(&self, tests: &[Test]) -> Vec<usize> {
        let keys = &self.granules.as_ref().unwrap().keys;
        let may_meet = |test: &Test, granule: usize| match (test.column, self.partition) {
            (KEY, _) => test.may_be_met(keys[granule].into(), keys[granule + 1].into()),
            (PARTITION, Some(number)) => test.is_met(number.into()),
            _ => true,
        };
        let all = 0..keys.len() - 1;
        all.filter(|&granule| tests.iter().all(|test| may_meet(test, granule))).collect()
    }

    /// The bytes of a column in some granules, which rise. Neighbouring ones are read at once.
    fn read(&self, column: usize, granules: &[usize]) -> io::Result<Vec<u8>> {
        let starts = &self.granules.as_ref().unwrap().starts[column];
        let file = File::open(self.folder.join(format!("c{column}.bin")))?;
        let mut bytes = Vec::new();
        for run in granules.chunk_by(|left, right| left + 1 == *right) {
            let (from, to) = (starts[run[0]], starts[run[run.len() - 1] + 1]);
            let before = bytes.len();
            bytes.resize(before + (to - from) as usize, 0);
            file.read_exact_at(&mut bytes[before..], from)?;
        }
        Ok(bytes)
    }

    /// How many rows a granule has.
    fn rows(&self, granule: usize) -> usize {
        let starts = &self.granules.as_ref().unwrap().starts[BYTES];
        (starts[granule + 1] - starts[granule]) as usize
    }

    /// Adds the rows that meet the tests, and gives how many they are.
    fn add_matches(&self, query: &Query, columns: &mut Columns) -> io::Result<usize> {
        let chosen = self.chosen(&query.tests);
        let mut keep = vec![true; chosen.iter().map(|&granule| self.rows(granule)).sum()];
        let mut read = [const { None }; 5];
        for test in &query.tests {
            if read[test.column].is_none() {
                read[test.column] = Some(self.read(test.column, &chosen)?);
            }
            let bytes = read[test.column].as_ref().unwrap();
            for (place, is_kept) in keep.iter_mut().enumerate() {
                *is_kept &= test.is_met(number_at(test.column, bytes, place));
            }
        }
        let (matched, keep_matched) = self.matched(&chosen, &keep);
        for column in (0..5).filter(|&column| query.shown[column] && !matched.is_empty()) {
            match &read[column] {
                Some(bytes) => columns.add(column, bytes, &keep),
                None => columns.add(column, &self.read(column, &matched)?, &keep_matched),
            }
        }
        Ok(keep.iter().filter(|&&is_kept| is_kept).count())
    }

    /// The rows of the granules of which each test may be met by some row.
    fn chosen_rows(&self, tests: &[Test], is_signed: bool) -> io::Result<Vec<Row>> {
        let chosen = self.chosen(tests);
        let keep = vec![true; chosen.iter().map(|&granule| self.rows(granule)).sum()];
        let mut columns = Columns::new(is_signed);
        for column in 0..5 {
            columns.add(column, &self.read(column, &chosen)?, &keep);
        }
        Ok((0..keep.len()).map(|place| columns.row(place)).collect())
    }

    /// The granules with a row that is kept, and which of their rows are.
    fn matched(&self, chosen: &[usize], keep: &[bool]) -> (Vec<usize>, Vec<bool>) {
        let (mut matched, mut keep_matched, mut rest) = (Vec::new(), Vec::new(), keep);
        for &granule in chosen {
            let (front, behind) = rest.split_at(self.rows(granule));
            if front.contains(&true) {
                matched.push(granule);
                keep_matched.extend_from_slice(front);
            }
            rest = behind;
        }
        (matched, keep_matched)
    }
}

/// How long the steps took, those of one name together.
struct Steps {
    times: Vec<(&'static str, Duration)>,
    last: Instant,
}

impl Steps {
    fn new() -> Self {
        Steps { times: Vec::new(), last: Instant::now() }
    }

    fn end(&mut self, name: &'static str) {
        let time = self.last.elapsed();
        match self.times.iter_mut().find(|step| step.0 == name) {
            Some(step) => step.1 += time,
            None => self.times.push((name, time)),
        }
        self.last = Instant::now();
    }

    fn print(&self) {
        for (name, time) in &self.times {
            eprintln!("  {name}: {:.0} ms", time.as_secs_f64() * 1000.0);
        }
    }
}

/// The engine of the table, which says what is left of rows of one key.
#[derive(Clone, Copy, PartialEq)]
enum Engine {
    Plain,
    Replacing,
    Summing,
    Collapsing,
}

impl Engine {
    /// The engine of the text of a CREATE.
    fn of(text: &[u8]) -> Engine {
        let has = |word: &[u8]| text.windows(word.len()).any(|own| own == word);
        match (has(b"Replacing"), has(b"Summing"), has(b"Collapsing")) {
            (true, _, _) => Engine::Replacing,
            (_, true, _) => Engine::Summing,
            (_, _, true) => Engine::Collapsing,
            _ => Engine::Plain,
        }
    }

    /// What its rule leaves of the rows of each key, of sorted inputs.
    fn folded(self, inputs: &[Vec<Row>]) -> Vec<Row> {
        match self {
            Engine::Plain => merge_sorted(inputs, &[KEY], &Plain),
            Engine::Replacing => merge_sorted(inputs, &[KEY], &Replacing(None)),
            Engine::Summing => merge_sorted(inputs, &[KEY], &Summing(SUMMED.to_vec())),
            Engine::Collapsing => merge_sorted(inputs, &[KEY], &Collapsing(BYTES)),
        }
    }
}

/// The table, and how many commands were accepted.
struct Table {
    root: PathBuf,
    is_parted: bool,
    engine: Engine,
    parts: Vec<Part>,
    length: usize,
    steps: Steps,
}

impl Table {
    /// Makes the table of a CREATE, in a new folder.
    fn create(root: &Path, line: &[u8]) -> io::Result<Table> {
        fs::create_dir(root)?;
        let text = line.strip_suffix(b";").ok_or(io::ErrorKind::InvalidData)?;
        let mut entry = b"MTS1".to_vec();
        entry.extend((text.len() as u32).to_le_bytes());
        entry.extend(text);
        let stage = root.join(".stage");
        fs::create_dir(&stage)?;
        write_synced(&stage.join("entry.bin"), &sealed(entry))?;
        publish(root, &stage, "e.create")?;
        Ok(Table::empty(root, text))
    }

    /// The table of the text of a CREATE, without parts.
    fn empty(root: &Path, text: &[u8]) -> Table {
        let is_parted = text.windows(9).any(|word| word == b"PARTITION");
        let engine = Engine::of(text);
        Table { root: root.to_path_buf(), is_parted, engine, parts: Vec::new(), length: 1, steps: Steps::new() }
    }

    /// Whether c has signs.
    fn is_signed(&self) -> bool {
        self.engine == Engine::Collapsing
    }

    /// Opens the table of a folder that is there. Each digest is compared.
    fn open(root: &Path) -> io::Result<Table> {
        let entry = read_sealed(&root.join("e.create").join("entry.bin"))?;
        let mut table = Table::empty(root, &entry);
        for folder in fs::read_dir(root)? {
            let folder = folder?;
            if folder.file_name().to_string_lossy().starts_with("e.part_") {
                let mut part = Part::of(folder.path());
                part.check()?;
                part.load()?;
                table.parts.push(part);
            }
        }
        table.length += table.parts.len();
        table.parts.sort_by_key(Part::least);
        table.steps.end("open");
        Ok(table)
    }

    /// Writes the rows of a partition into a stage, and gives its folder.
    fn stage(&mut self, columns: &Columns, pairs: &[(u64, u32)], number: usize) -> io::Result<PathBuf> {
        let folder = self.root.join(format!(".stage_{number}"));
        let files = encode(columns, pairs);
        self.steps.end("encode");
        let digests = files.each_ref().map(|bytes| sha256(bytes));
        let manifest = manifest(pairs.len(), &files, &digests);
        self.steps.end("digests");
        fs::create_dir(&folder)?;
        let names = ["marks", "primary", "c0", "c1", "c2", "c3", "c4"];
        for (name, bytes) in names.iter().zip(&files) {
            write_synced(&folder.join(format!("{name}.bin")), bytes)?;
        }
        write_synced(&folder.join("manifest.bin"), &manifest)?;
        self.steps.end("write and sync");
        Ok(folder)
    }

    /// Adds the rows of one INSERT, which end at a line `\.`: a stage for each of its partitions, and then a name for each.
    fn insert<'a>(&mut self, lines: &mut impl Iterator<Item = &'a [u8]>) -> io::Result<()> {
        let mut columns = Columns::new(self.is_signed());
        for line in lines.take_while(|&line| line != b"\\.") {
            columns.push(line).ok_or(io::ErrorKind::InvalidData)?;
        }
        self.steps.end("parse");
        let partitions = columns.split(self.is_parted);
        self.steps.end("split and sort by the key");
        let mut staged = Vec::new();
        for (number, pairs) in partitions.iter().enumerate() {
            staged.push(self.stage(&columns, pairs, number)?);
        }
        for (stage, pairs) in staged.iter().zip(&partitions) {
            let (number, place) = (self.parts.len() + 1, pairs[0].1 as usize);
            let partition = if self.is_parted { columns.a[place].to_string() } else { "all".to_string() };
            let name = format!("e.part_{partition}_{number}_{number}_0");
            self.parts.push(Part::of(publish(&self.root, stage, &name)?));
            self.length += 1;
        }
        self.steps.end("publish");
        Ok(())
    }

    /// Makes one part of all, which had one INSERT each.
    fn optimize(&mut self) -> io::Result<()> {
        if !matches!(self.engine, Engine::Plain | Engine::Replacing) {
            return Err(io::ErrorKind::InvalidData.into());
        }
        let query = Query { shown: [true; 5], is_final: false, tests: Vec::new() };
        let mut columns = Columns::default();
        for part in &mut self.parts {
            part.load()?;
            part.add_matches(&query, &mut columns)?;
        }
        self.steps.end("read back and decode");
        let mut pairs: Vec<(u64, u32)> = columns.k.iter().copied().zip(0..).collect();
        pairs.sort_by_key(|pair| pair.0);
        if self.engine == Engine::Replacing {
            pairs = pairs.chunk_by(|left, right| left.0 == right.0).map(|key| key[key.len() - 1]).collect();
        }
        self.steps.end("merge");
        let stage = self.stage(&columns, &pairs, 0)?;
        let name = format!("e.part_all_1_{}_1", self.parts.len());
        self.parts = vec![Part::of(publish(&self.root, &stage, &name)?)];
        self.steps.end("publish");
        Ok(())
    }

    /// Adds what is left of the rows of each key, in all parts, and meets the tests, and gives how many rows that are.
    fn add_folded(&mut self, query: &Query, columns: &mut Columns) -> io::Result<usize> {
        let (mut inputs, mut count) = (Vec::new(), 0);
        for part in &mut self.parts {
            part.load()?;
            inputs.push(part.chosen_rows(&query.tests, columns.is_signed)?);
        }
        self.steps.end("read back and decode");
        for row in self.engine.folded(&inputs).iter().filter(|row| query.tests.iter().all(|test| test.meets(row))) {
            columns.add_row(row, &query.shown);
            count += 1;
        }
        self.steps.end("fold");
        Ok(count)
    }

    /// The reply to a SELECT.
    fn select(&mut self, line: &[u8]) -> io::Result<Vec<u8>> {
        let query = query_of(line).ok_or(io::ErrorKind::InvalidData)?;
        if self.is_signed() && !query.is_final || self.is_parted && query.is_final {
            return Err(io::ErrorKind::InvalidData.into());
        }
        let (mut columns, mut rows) = (Columns::new(self.is_signed()), 0);
        if query.is_final {
            rows = self.add_folded(&query, &mut columns)?;
        } else {
            for part in &mut self.parts {
                part.load()?;
                rows += part.add_matches(&query, &mut columns)?;
            }
            self.steps.end("read back and decode");
        }
        let order = order_of(&columns, rows);
        self.steps.end("sort the rows");
        let out = print(&columns, &order, self.length)?;
        self.steps.end("print");
        Ok(out)
    }
}

fn main() -> io::Result<()> {
    let words: Vec<String> = std::env::args().collect();
    let mut script = Vec::new();
    io::stdin().read_to_end(&mut script)?;
    let mut out = BufWriter::new(io::stdout());
    let mut lines = script.split(|&byte| byte == b'\n');
    let root = Path::new(&words[1]);
    let mut table = if root.exists() {
        Table::open(root)?
    } else {
        writeln!(out, "OK 1")?;
        Table::create(root, lines.next().ok_or(io::ErrorKind::InvalidData)?)?
    };
    out.flush()?;
    while let Some(line) = lines.next() {
        if line.starts_with(b"INSERT") {
            table.insert(&mut lines)?;
            writeln!(out, "OK {}", table.length)?;
        } else if line.starts_with(b"OPTIMIZE") {
            table.optimize()?;
            writeln!(out, "OK {}", table.length)?;
        } else if line.starts_with(b"SELECT") {
            out.write_all(&table.select(line)?)?;
        }
        out.flush()?;
    }
    if words.get(2).is_some_and(|word| word == "--times") {
        table.steps.print();
    }
    Ok(())
}
