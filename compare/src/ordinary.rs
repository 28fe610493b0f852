// A second reader of texts, written from the rules alone: a line is held to a pattern, byte by byte, in which `#` is a number.
use crate::rows::{Answer, Road, Rows};
use std::collections::BTreeSet;
use std::ops::RangeInclusive;

const MAX_TEXT: usize = 65_536;
const NODES: RangeInclusive<i64> = 1..=200;
const ARCS: RangeInclusive<i64> = 0..=1_000;
const STOCK: RangeInclusive<i64> = -1_000_000..=1_000_000;
const MOST: RangeInclusive<i64> = 0..=1_000;
const COST: RangeInclusive<i64> = -1_000..=1_000;

const NET: &str = "(net # #)\n";
const STOCK_LINE: &str = "(stock # #)\n";
const ARC_LINE: &str = "(arc (# #) (# #) (# #))\n";

type Fault = (usize, Option<usize>);

fn fault<T>(number: usize, place: usize) -> Result<T, Fault> {
    Err((number, Some(place)))
}

/// Reads into the rows only where the whole text is right.
pub fn read(text: &[u8], rows: &mut Rows) -> Answer {
    let (stocks, roads) = consignment(text, rows.roads.len(), rows.stocks.len())?;
    rows.stocks[..stocks.len()].copy_from_slice(&stocks);
    rows.roads[..roads.len()].copy_from_slice(&roads);
    Ok((stocks.len(), roads.len()))
}

fn consignment(
    text: &[u8],
    road_room: usize,
    stock_room: usize,
) -> Result<(Vec<i32>, Vec<Road>), Fault> {
    if text.len() > MAX_TEXT {
        return Err((9, None));
    }
    let end = line_end(text, 0)?;
    let sizes = numbers(&text[..end], 0, NET, &[NODES, ARCS])?;
    let (nodes, arcs) = (sizes[0] as usize, sizes[1] as usize);
    if road_room < arcs || stock_room < nodes {
        return Err((14, None));
    }
    let node = 0..=sizes[0] - 1;
    let mut stocks = vec![0; nodes];
    let mut roads = Vec::new();
    let mut named = BTreeSet::new();
    let mut at = end;
    while at < text.len() {
        let end = line_end(text, at)?;
        let line = &text[at..end];
        let mut open = Vec::new();
        if roads.is_empty() {
            open.push(STOCK_LINE);
        }
        if roads.len() < arcs {
            open.push(ARC_LINE);
        }
        let pattern = chosen(line, at, &open)?;
        if pattern == STOCK_LINE {
            let values = numbers(line, at, pattern, &[node.clone(), STOCK])?;
            if !named.insert(values[0]) {
                return fault(13, at);
            }
            stocks[values[0] as usize] = values[1] as i32;
        } else {
            let values = numbers(
                line,
                at,
                pattern,
                &[node.clone(), node.clone(), MOST, MOST, COST, COST],
            )?;
            if values[0] == values[1] || values[2] > values[3] {
                return fault(12, at);
            }
            roads.push(Road {
                tail: values[0] as u32,
                head: values[1] as u32,
                least: values[2] as u32,
                most: values[3] as u32,
                first: values[4] as i32,
                second: values[5] as i32,
            });
        }
        at = end;
    }
    if roads.len() < arcs {
        return fault(10, text.len());
    }
    Ok((stocks, roads))
}

// Where the line that begins at `at` ends, with its byte 10.
fn line_end(text: &[u8], at: usize) -> Result<usize, Fault> {
    match text[at..].iter().position(|&byte| byte == b'\n') {
        Some(length) => Ok(at + length + 1),
        None => fault(10, text.len()),
    }
}

// The open pattern whose word the line begins with.
fn chosen<'a>(line: &[u8], at: usize, open: &[&'a str]) -> Result<&'a str, Fault> {
    let mut furthest = 0;
    for pattern in open {
        // The word, with what stands before it and one space.
        let word = &pattern.as_bytes()[..=pattern.find(' ').expect("a space follows each word")];
        let same = line.iter().zip(word).take_while(|(a, b)| a == b).count();
        if same == word.len() {
            return Ok(pattern);
        }
        furthest = furthest.max(same);
    }
    fault(10, at + furthest)
}

// The numbers of a line, which begins at `at` in its text.
fn numbers(
    line: &[u8],
    at: usize,
    pattern: &str,
    ranges: &[RangeInclusive<i64>],
) -> Result<Vec<i64>, Fault> {
    let mut values = Vec::new();
    let mut i = 0;
    for expected in pattern.bytes() {
        if expected != b'#' {
            if line[i] != expected {
                return fault(10, at + i);
            }
            i += 1;
            continue;
        }
        let start = i;
        let minus = line[i] == b'-';
        i += usize::from(minus);
        let digits = line[i..]
            .iter()
            .take_while(|byte| byte.is_ascii_digit())
            .count();
        let figures = &line[i..i + digits];
        i += digits;
        match figures {
            [] => return fault(10, at + i),
            [b'0'] if minus => return fault(10, at + start),
            [b'0', _, ..] => return fault(10, at + start),
            _ if digits > 7 => return fault(11, at + start),
            _ => {}
        }
        let size = figures
            .iter()
            .fold(0, |sum, digit| 10 * sum + i64::from(digit - b'0'));
        let value = if minus { -size } else { size };
        if !ranges[values.len()].contains(&value) {
            return fault(11, at + start);
        }
        values.push(value);
    }
    Ok(values)
}
