//! The readable form, from its description: a line is kind, label, name and, unless that is 0, client, behind two spaces
//! for each record above.

use simulator::record::{Itinerary, Kind, Record, LAST_CLIENT, MOST_RECORDS};
use std::str::FromStr;

const WORDS: [(&str, Kind); 5] = [
    ("ambient", Kind::Ambient),
    ("in", Kind::In),
    ("out", Kind::Out),
    ("open", Kind::Open),
    ("copier", Kind::Copier),
];

/// The length of the longest text that can be read: 1,024 lines, each a step deeper, of ambients with two digits twice
/// and three for the client.
pub const LONGEST: usize = MOST_RECORDS * (MOST_RECORDS - 1) + MOST_RECORDS * "ambient 63 63 999\n".len();

/// The itinerary's bytes, or the number of the first line with a fault.
pub fn read(text: &[u8]) -> Result<Vec<u8>, usize> {
    let mut records = Vec::new();
    // The numbers of the records that the last line stands in, and its own.
    let mut above: Vec<u16> = Vec::new();
    let mut rest = text;
    while !rest.is_empty() {
        let number = records.len() + 1;
        let end = rest.iter().position(|&byte| byte == b'\n').ok_or(number)?;
        let (depth, record) = read_line(&rest[..end]).ok_or(number)?;
        if number > MOST_RECORDS || depth > above.len() {
            return Err(number);
        }
        above.truncate(depth);
        records.push(Record { parent: above.last().copied().unwrap_or(0), ..record });
        above.push(number as u16);
        rest = &rest[end + 1..];
    }
    Ok(Itinerary { records }.bytes())
}

/// Its depth, and the record without its parent.
fn read_line(line: &[u8]) -> Option<(usize, Record)> {
    let line = std::str::from_utf8(line).ok()?;
    let fields = line.trim_start_matches(' ');
    let spaces = line.len() - fields.len();
    let fields: Vec<&str> = fields.split(' ').collect();
    let (word, label, name, client) = match fields[..] {
        [word, label, name] => (word, label, name, 0),
        [word, label, name, client] => (word, label, name, read_client(client)?),
        _ => return None,
    };
    let kind = WORDS.iter().find(|(known, _)| *known == word)?.1;
    let (label, name) = (read_number(label)?, read_number(name)?);
    let right = spaces % 2 == 0 && kind.labels().contains(&label) && kind.names().contains(&name);
    right.then_some((spaces / 2, Record { kind, label, name, parent: 0, client }))
}

/// Digits alone, no zero in front.
fn read_number<N: FromStr + ToString>(digits: &str) -> Option<N> {
    let number: N = digits.parse().ok()?;
    (number.to_string() == digits).then_some(number)
}

/// Client 0 isn't written.
fn read_client(digits: &str) -> Option<u16> {
    read_number(digits).filter(|client| (1..=LAST_CLIENT).contains(client))
}

/// The lines of a tree, what stands in a record below it, by numbers; `line` writes a record.
fn write_lines(itinerary: &Itinerary, line: &dyn Fn(u16, &str) -> String) -> String {
    let mut text = String::new();
    let children = |parent: u16| {
        let stands = move |record: &Record| record.kind != Kind::Gone && record.parent == parent;
        itinerary.numbers().filter(move |&number| itinerary.get(number).is_some_and(stands))
    };
    // Still to write, the next one last.
    let mut left: Vec<(u16, usize)> = children(0).map(|number| (number, 0)).collect();
    left.reverse();
    while let Some((number, depth)) = left.pop() {
        let record = itinerary.records[number as usize - 1];
        let word = WORDS.iter().find(|(_, kind)| *kind == record.kind).map_or("", |(word, _)| word);
        let client = if record.client == 0 { String::new() } else { format!(" {}", record.client) };
        let fields = format!("{word} {} {}{client}", record.label, record.name);
        text += &format!("{}{}\n", "  ".repeat(depth), line(number, &fields));
        let below: Vec<(u16, usize)> = children(number).map(|child| (child, depth + 1)).collect();
        left.extend(below.into_iter().rev());
    }
    text
}

pub fn write(itinerary: &Itinerary) -> String {
    write_lines(itinerary, &|_, fields| fields.to_string())
}

/// With each record's number, and a mark on what is hidden.
pub fn list(itinerary: &Itinerary, hidden: &dyn Fn(u16) -> bool) -> String {
    write_lines(itinerary, &|number, fields| {
        format!("{number} {fields}{}", if hidden(number) { " hidden" } else { "" })
    })
}

#[cfg(test)]
mod tests {
    use super::*;
    use crate::compare::ON_FAULT;
    use std::fs;

    /// What stands in the file of a case; a missing file is an empty one.
    fn content(case: &std::path::Path, file: &str) -> Vec<u8> {
        fs::read(case.join(file)).unwrap_or_default()
    }

    #[test]
    fn clients_are_read_where_they_are_written() {
        let client = |line: &str| read_line(line.as_bytes()).map(|(_, record)| record.client);
        for (line, wanted) in
            [("ambient 1 0", 0), ("ambient 1 0 17", 17), ("  in 64 5 1", 1), ("open 127 63 999", 999)]
        {
            assert_eq!(client(line), Some(wanted), "{line}");
        }
        for line in [
            "ambient 1 0 0",
            "ambient 1 0 00",
            "ambient 1 0 017",
            "ambient 1 0 1000",
            "ambient 1 0 65536",
            "ambient 1 0 -1",
            "ambient 1 0 +1",
            "ambient 1 0 ",
            "ambient 1 0  17",
            "ambient 1 0 17 ",
            "ambient 1 0 17 5",
            "ambient 1 0\t17",
            "ambient 1 0 17\r",
            "ambient 1 0 x",
        ] {
            assert_eq!(client(line), None, "{line}");
        }
    }

    #[test]
    fn the_stored_cases_are_read_as_stored() {
        let mut counts = [0, 0];
        for case in fs::read_dir("../tests/hubtext").unwrap().flatten() {
            let case = case.path();
            let errors = String::from_utf8(content(&case, "errors")).unwrap();
            let expected = content(&case, "expected");
            let Ok(text) = fs::read(case.join("itinerary.txt")) else {
                assert!(errors.starts_with("itinerary.txt: ") && expected == ON_FAULT, "{case:?}");
                continue;
            };
            let read = read(&text);
            counts[usize::from(read.is_err())] += 1;
            match read {
                Ok(bytes) => assert!(errors.is_empty() && bytes == expected, "{case:?}"),
                Err(line) => {
                    let told = errors.starts_with(&format!("line {line}: "));
                    assert!(told && expected == ON_FAULT, "{case:?}: {line}");
                }
            }
        }
        assert!(counts.iter().all(|&count| count > 0));
    }

    #[test]
    fn the_stored_itineraries_are_written_as_stored() {
        for case in fs::read_dir("../tests/hubshow").unwrap().flatten() {
            let wanted = content(&case.path(), "expected");
            let bytes = fs::read(case.path().join("itinerary.bin"));
            // What can't be read or is refused gets a question mark.
            match bytes.map(|bytes| Itinerary::read(&bytes)) {
                Ok(Ok(itinerary)) => assert!(write(&itinerary).as_bytes() == wanted, "{case:?}"),
                _ => assert!(wanted == b"?", "{case:?}"),
            }
        }
    }
}
