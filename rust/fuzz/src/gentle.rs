//! Changes that leave most files right: a field takes the text that a like line has in its place, or
//! another small number; a line is copied, dropped or exchanged with its neighbour.

use typetool::generate::Random;

fn parts(bytes: &[u8], at: u8) -> Vec<&[u8]> {
    bytes.split(|byte| *byte == at).collect()
}

/// One to four changes.
pub fn change(random: &mut Random, mut file: Vec<u8>) -> Vec<u8> {
    for _ in 0..random.between(1, 4) {
        file = match random.below(8) {
            0 => change_lines(random, &file),
            1..4 => change_number(random, &file),
            _ => take_field(random, &file),
        };
    }
    file
}

fn with_line(lines: &[&[u8]], at: usize, line: &[u8]) -> Vec<u8> {
    let mut lines = lines.to_vec();
    lines[at] = line;
    lines.join(&b'\n')
}

/// A field becomes what another line of the same kind has there.
fn take_field(random: &mut Random, file: &[u8]) -> Vec<u8> {
    let lines = parts(file, b'\n');
    let at = random.below(lines.len());
    let mut fields = parts(lines[at], b'\t');
    let like = |line: &&[u8]| parts(line, b'\t')[0] == fields[0];
    let others: Vec<&[u8]> = lines.iter().copied().filter(like).collect();
    let other = parts(others[random.below(others.len())], b'\t');
    let field = random.below(fields.len());
    if random.percent(20) {
        // A node or a kind with all that follows it.
        let tail = if fields[0] == b"E" { 9 } else { 7 };
        if fields.len() > tail && other.len() > tail {
            fields.truncate(tail);
            fields.extend_from_slice(&other[tail..]);
        }
    } else if let Some(taken) = other.get(field) {
        fields[field] = taken;
    }
    with_line(&lines, at, &fields.join(&b'\t'))
}

/// A number becomes another one, mostly a near or a small one.
fn change_number(random: &mut Random, file: &[u8]) -> Vec<u8> {
    let lines = parts(file, b'\n');
    let at = random.below(lines.len());
    let mut fields = parts(lines[at], b'\t');
    let is_number = |field: &&[u8]| !field.is_empty() && field.iter().all(u8::is_ascii_digit);
    let numbers: Vec<usize> = (0..fields.len())
        .filter(|n| is_number(&fields[*n]))
        .collect();
    if numbers.is_empty() {
        return file.to_vec();
    }
    let field = *random.pick(&numbers);
    let text = String::from_utf8_lossy(fields[field]).into_owned();
    let number: u64 = text.parse().unwrap_or(0);
    let changed = match random.below(5) {
        0 => number.saturating_add(1),
        1 => number.saturating_sub(1),
        2 => random.below(300) as u64,
        _ => random.below(8) as u64,
    };
    let changed = changed.to_string();
    fields[field] = changed.as_bytes();
    with_line(&lines, at, &fields.join(&b'\t'))
}

fn change_lines(random: &mut Random, file: &[u8]) -> Vec<u8> {
    let mut lines = parts(file, b'\n');
    let at = random.below(lines.len());
    match random.below(3) {
        0 => lines.insert(at, lines[at]),
        1 => {
            lines.remove(at);
        }
        _ => {
            let next = (at + 1) % lines.len();
            lines.swap(at, next);
        }
    }
    lines.join(&b'\n')
}
