//! Files for the loader: right ones, and copies with faults of every depth. `damage` makes faults
//! blindly; those here are aimed at a link, a limit, a field's form, the first line or the end.

use index_file::limits;

use super::{Fixed, Kind, Random, at, damage, file, fixed_files, malformed};
use crate::originals;

/// Files that the faults are made from, changed now and then.
const POOL: usize = 160;
const FILES_OF_A_POOL: usize = 2_000;

/// Numbers at and just past the bounds of 01, and texts that are no numbers.
const NUMBERS: &[&str] = &[
    "0",
    "1",
    "7",
    "8",
    "127",
    "128",
    "255",
    "256",
    "511",
    "512",
    "2047",
    "2048",
    "65535",
    "65536",
    "65537",
    "131072",
    "4294967295",
    "4294967296",
    "4294967297",
    "8589934592",
    "18446744073709551615",
    "18446744073709551616",
    "18446744073709551617",
    "36893488147419103232",
    "99999999999999999999",
    "184467440737095516150",
    "00",
    "01",
    "-0",
    "-1",
    "+1",
    "1 ",
    " 1",
    "1.",
    "0x1",
    "1e1",
    "",
    "-",
    "--",
];

/// Bytes that end, part or break fields and names.
const BYTES: &[u8] = &[
    0, 1, 9, 10, 11, 13, 31, 32, 33, 45, 47, 48, 57, 58, 126, 127, 128, 160, 255,
];

/// An endless row of files; the same seed gives the same.
pub struct Faults {
    random: Random,
    /// Whether the files ask `at`.
    asks_at: bool,
    /// The files that aren't random.
    fixed: Vec<Vec<u8>>,
    pool: Vec<Vec<u8>>,
    from_pool: usize,
}

/// Files by what they ask, of one run.
pub struct Part {
    /// Behind the number of files in a report.
    pub name: &'static str,
    pub count: u64,
    pub files: Faults,
}

/// So many files without `at`, the same as before there was this question, and behind them an eighth of
/// that with it.
pub fn parts(count: u64, seed: u64) -> [Part; 2] {
    let without = Part {
        name: "files",
        count,
        files: Faults::new(seed),
    };
    let with = Part {
        name: "files about `at`",
        count: count / 8,
        files: Faults::about_at(seed),
    };
    [without, with]
}

impl Faults {
    /// None of them asks `at`, but by chance.
    pub fn new(seed: u64) -> Self {
        let fixed = fixed_files(Kind::Edges).into_iter();
        Self::with(seed, false, fixed.chain(malformed::files()))
    }

    /// Most of them ask `at`.
    pub fn about_at(seed: u64) -> Self {
        let fixed = fixed_files(Kind::At).into_iter();
        Self::with(seed, true, fixed.chain(malformed::files_of_at()))
    }

    fn with(seed: u64, asks_at: bool, fixed: impl Iterator<Item = Fixed>) -> Self {
        Self {
            random: Random::new(seed),
            asks_at,
            fixed: fixed.map(|file| file.text.into_bytes()).collect(),
            pool: Vec::new(),
            from_pool: FILES_OF_A_POOL,
        }
    }

    fn fill_pool(&mut self) {
        let has_programs = originals::needed_for("programs").is_ok();
        self.pool.clear();
        for number in 0..POOL {
            let kind = match number % 8 {
                0..3 if has_programs => Kind::Programs,
                _ => Kind::Records,
            };
            let whole = file(kind, self.random.number());
            self.pool.push(match self.asks_at {
                true => at::asked(&mut self.random, &whole),
                false => whole,
            });
        }
        self.from_pool = 0;
    }
}

impl Iterator for Faults {
    type Item = Vec<u8>;

    fn next(&mut self) -> Option<Vec<u8>> {
        if self.from_pool == FILES_OF_A_POOL {
            self.fill_pool();
        }
        self.from_pool += 1;
        let random = &mut self.random;
        let whole = match random.percent(85) {
            true => random.pick(&self.pool).clone(),
            false => random.pick(&self.fixed).clone(),
        };
        Some(match random.below(100) {
            0..6 => whole,
            6..12 => first_line(random, whole),
            12..20 => limit(random, whole),
            20..50 => link(random, whole),
            50..65 => field(random, whole),
            65..70 => ending(random, whole),
            70..78 => bytes(random, whole),
            78..80 => long_digits(random, whole),
            _ if self.asks_at => damage::damage_at(random, whole),
            _ => damage::damage(random, whole),
        })
    }
}

/// The lines with their LF.
fn lines(bytes: &[u8]) -> Vec<Vec<u8>> {
    let lines = bytes.split_inclusive(|byte| *byte == b'\n');
    lines.map(<[u8]>::to_vec).collect()
}

/// The fields of a line, and whether it ends in LF.
fn fields(line: &[u8]) -> (Vec<Vec<u8>>, bool) {
    let text = line.strip_suffix(b"\n");
    let fields = text.unwrap_or(line).split(|byte| *byte == b'\t');
    (fields.map(<[u8]>::to_vec).collect(), text.is_some())
}

fn joined(fields: &[Vec<u8>], has_lf: bool) -> Vec<u8> {
    let mut line = fields.join(&b'\t');
    if has_lf {
        line.push(b'\n');
    }
    line
}

fn number(field: &[u8]) -> Option<u64> {
    std::str::from_utf8(field).ok()?.parse().ok()
}

/// A fault of the first line.
fn first_line(random: &mut Random, bytes: Vec<u8>) -> Vec<u8> {
    let mut lines = lines(&bytes);
    if lines.is_empty() {
        return bytes;
    }
    let other = [
        "",
        "\n",
        "index\n",
        "index\t\n",
        "index\t0\n",
        "index\t2\n",
        "index\t01\n",
        "index\t1",
        "index\t1\t\n",
        "index\t1 \n",
        "index\t1\r\n",
        "index 1\n",
        "Index\t1\n",
        "index\t11\n",
        "\nindex\t1\n",
        "index\t\t1\n",
        "indx\t1\n",
        "index\t1\0\n",
        "\u{feff}index\t1\n",
    ];
    match random.below(4) {
        0 => {
            let at = random.below(lines[0].len());
            lines[0][at] = random.number() as u8;
        }
        1 => {
            let at = random.below(lines[0].len());
            lines[0].remove(at);
        }
        2 => {
            let at = random.below(lines[0].len() + 1);
            lines[0].insert(at, *random.pick(BYTES));
        }
        _ => lines[0] = random.pick(&other).as_bytes().to_vec(),
    }
    lines.concat()
}

/// Copies of one line until its kind, or the file, has just as many as allowed, or one more.
fn limit(random: &mut Random, bytes: Vec<u8>) -> Vec<u8> {
    let mut lines = lines(&bytes);
    if lines.len() < 2 {
        return bytes;
    }
    let over = random.below(2);
    let at = 1 + random.below(lines.len() - 1);
    let kind = lines[at][0];
    let most = match kind {
        b'M' => limits::MODULES,
        b'S' => limits::SCOPES,
        b'T' => limits::TYPES,
        b'D' => limits::DEFINITIONS,
        b'E' => limits::EXPRESSIONS,
        b'Q' => limits::QUESTIONS,
        _ => return bytes,
    };
    match random.below(10) {
        0 => return padded(bytes, limits::BYTES + over),
        1 | 2 => return items(random, bytes, limits::ITEMS + over),
        _ => {}
    }
    let there = lines.iter().filter(|line| line[0] == kind).count();
    for copy in there..most + over {
        let mut line = lines[at].clone();
        if kind == b'M' {
            // Modules have different names, and a scope each.
            line = format!("M\tcopy{copy}\nS\t-\tmodule\n").into_bytes();
        }
        lines.insert(at, line);
    }
    lines.concat()
}

/// The file with questions behind it, the last one cut off, so that it has so many bytes.
fn padded(mut bytes: Vec<u8>, length: usize) -> Vec<u8> {
    while bytes.len() < length {
        let left = length - bytes.len();
        let line = b"Q\tdef\t0\t65535\n";
        bytes.extend_from_slice(&line[..left.min(line.len())]);
    }
    bytes
}

/// Items at the end of a line with a list, until the file has about so many.
fn items(random: &mut Random, bytes: Vec<u8>, most: usize) -> Vec<u8> {
    let mut lines = lines(&bytes);
    let count: usize = lines.iter().map(|line| items_of(line)).sum();
    let with_list: Vec<usize> = (0..lines.len())
        .filter(|at| item(&lines[*at]).is_some())
        .collect();
    if with_list.is_empty() || count >= most {
        return bytes;
    }
    let at = *random.pick(&with_list);
    let item = item(&lines[at]).expect("chosen so");
    let (mut fields, has_lf) = fields(&lines[at]);
    for _ in count..most {
        fields.extend(item.iter().map(|field| field.as_bytes().to_vec()));
    }
    lines[at] = joined(&fields, has_lf);
    lines.concat()
}

/// The fields of one more item, where the line has a list.
fn item(line: &[u8]) -> Option<&'static [&'static str]> {
    let (fields, _) = fields(line);
    let field = |at: usize| fields.get(at).map_or(&b""[..], Vec::as_slice);
    match (field(0), field(1), field(7), field(9)) {
        (b"T", b"tuple", _, _) => Some(&["0"]),
        (b"D", _, b"fn" | b"struct", _) => Some(&["x", "0"]),
        (b"D", _, b"let", _) if field(10) != b"-" => Some(&["0"]),
        (b"E", _, _, b"call" | b"tuple" | b"arr") => Some(&["0"]),
        _ => None,
    }
}

/// How many items a right line has.
fn items_of(line: &[u8]) -> usize {
    let (fields, _) = fields(line);
    let field = |at: usize| fields.get(at).map_or(&b""[..], Vec::as_slice);
    let behind = |first: usize, width: usize| fields.len().saturating_sub(first) / width;
    match (field(0), field(1), field(7), field(9)) {
        (b"T", b"tuple", _, _) => behind(2, 1),
        (b"D", _, b"fn", _) => behind(9, 2),
        (b"D", _, b"struct", _) => behind(8, 2),
        (b"D", _, b"let", _) => behind(11, 1),
        (b"E", _, _, b"call") => behind(11, 1),
        (b"E", _, _, b"tuple" | b"arr") => behind(10, 1),
        _ => 0,
    }
}

/// A number of some line becomes one about as large as a module has records of some kind: a link to
/// the last one, or just past it.
fn link(random: &mut Random, bytes: Vec<u8>) -> Vec<u8> {
    let mut lines = lines(&bytes);
    let numbers: Vec<(usize, usize)> = (1..lines.len())
        .flat_map(|line| {
            let (fields, _) = fields(&lines[line]);
            let numbers = (1..fields.len()).filter(|at| number(&fields[*at]).is_some());
            numbers.map(|at| (line, at)).collect::<Vec<_>>()
        })
        .collect();
    if numbers.is_empty() {
        return bytes;
    }
    for _ in 0..*random.pick(&[1, 1, 1, 2, 4]) {
        let &(line, at) = random.pick(&numbers);
        let counts = counts_around(&lines, line);
        let kind = random.below(counts.len());
        let (mut fields, has_lf) = fields(&lines[line]);
        let near = counts[kind] as i64 + random.below(5) as i64 - 2;
        fields[at] = near.max(0).to_string().into_bytes();
        lines[line] = joined(&fields, has_lf);
    }
    lines.concat()
}

/// The records of each kind in the module of a line, those before the line and the modules.
fn counts_around(lines: &[Vec<u8>], line: usize) -> Vec<usize> {
    let kind = |at: &usize| lines[*at][0];
    let first = (0..=line).rev().find(|at| kind(at) == b'M').unwrap_or(0);
    let next = (line + 1..lines.len()).find(|at| matches!(kind(at), b'M' | b'Q'));
    let module = first..next.unwrap_or(lines.len());
    let count =
        |lines: std::ops::Range<usize>, letter: u8| lines.filter(|at| kind(at) == letter).count();
    let mut counts: Vec<usize> = b"STDE"
        .iter()
        .map(|letter| count(module.clone(), *letter))
        .collect();
    counts.push(count(first..line, kind(&line)));
    counts.push(count(0..lines.len(), b'M'));
    counts
}

/// Another number or word in one field, a field less, a field twice, two fields exchanged.
fn field(random: &mut Random, bytes: Vec<u8>) -> Vec<u8> {
    let mut lines = lines(&bytes);
    if lines.len() < 2 {
        return bytes;
    }
    let line = 1 + random.below(lines.len() - 1);
    let other = 1 + random.below(lines.len() - 1);
    let (mut fields, has_lf) = fields(&lines[line]);
    let at = random.below(fields.len());
    match random.below(8) {
        0 => {
            fields.remove(at);
        }
        1 => fields.insert(at, fields[at].clone()),
        2 => {
            let with = random.below(fields.len());
            fields.swap(at, with);
        }
        // A field of another line.
        3 => {
            let (others, _) = self::fields(&lines[other]);
            fields[at] = random.pick(&others).clone();
        }
        // Names of 63 to 65 bytes.
        4 => fields[at] = vec![b'n'; 63 + random.below(3)],
        _ => fields[at] = random.pick(NUMBERS).as_bytes().to_vec(),
    }
    lines[line] = joined(&fields, has_lf);
    lines.concat()
}

/// The end of the file: no last LF, an end within a line, empty lines, a line behind it.
fn ending(random: &mut Random, mut bytes: Vec<u8>) -> Vec<u8> {
    let behind: [&[u8]; 8] = [
        b"\n",
        b"\n\n",
        b"\r\n",
        b"\0",
        b" ",
        b"Q\n",
        b"Q\tdef\t0\t0",
        b"T\tfelt\n",
    ];
    match random.below(4) {
        0 => {
            bytes.pop();
        }
        1 => {
            let length = random.below(bytes.len() + 1);
            bytes.truncate(length);
        }
        2 => {
            // An end at a line's end.
            let mut lines = lines(&bytes);
            let left = random.below(lines.len() + 1);
            lines.truncate(left);
            bytes = lines.concat();
        }
        _ => bytes.extend_from_slice(behind[random.below(behind.len())]),
    }
    bytes
}

/// Single bytes changed, put in or taken out.
fn bytes(random: &mut Random, mut bytes: Vec<u8>) -> Vec<u8> {
    for _ in 0..random.between(1, 3) {
        if bytes.is_empty() {
            return bytes;
        }
        let at = random.below(bytes.len());
        let byte = *random.pick(BYTES);
        match random.below(5) {
            0 => bytes[at] = byte,
            1 => bytes[at] ^= 1 << random.below(8),
            2 => bytes.insert(at, byte),
            3 => {
                bytes.remove(at);
            }
            _ => {
                let with = random.below(bytes.len());
                bytes.swap(at, with);
            }
        }
    }
    bytes
}

/// A number of many digits.
fn long_digits(random: &mut Random, bytes: Vec<u8>) -> Vec<u8> {
    let mut lines = lines(&bytes);
    if lines.len() < 2 {
        return bytes;
    }
    let line = 1 + random.below(lines.len() - 1);
    let (mut fields, has_lf) = fields(&lines[line]);
    let at = random.below(fields.len());
    let digit = *random.pick(b"019");
    fields[at] = vec![digit; random.between(15, 5_000)];
    lines[line] = joined(&fields, has_lf);
    lines.concat()
}
