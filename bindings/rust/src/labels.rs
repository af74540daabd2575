//! The names of a source, for scripts of the debugger and for profiles.
use crate::{Done, Error, command};
use std::collections::BTreeMap;

/// The labels of two sources with their addresses, the processor's first, as the listing of
/// `gravitar asm` has them; then each `NAME = NUMBER` of the processor's. Of two with one name the
/// first is there.
pub fn labels(processor: &[u8], generator: &[u8]) -> Result<Vec<(String, u16)>, Error> {
    let words = ["asm", "c", "v", "i"];
    let done = command(&words, &[("c", processor), ("v", generator)])?;
    if done.status != 0 {
        return Err(Error::Command(done));
    }
    let [of_processor, of_generator] = listed(&done);
    let mut found = labels_of(processor, &of_processor);
    found.extend(labels_of(generator, &of_generator));
    found.extend(lines(processor).filter_map(|(_, line)| constant(&line)));
    let mut first: Vec<(String, u16)> = Vec::new();
    for pair in found {
        if first.iter().all(|it| it.0 != pair.0) {
            first.push(pair);
        }
    }
    Ok(first)
}

/// For each line that gives bytes, by its number, the address and the one behind it.
type Listed = BTreeMap<usize, (u16, u16)>;

fn listed(done: &Done) -> [Listed; 2] {
    let mut both = [Listed::new(), Listed::new()];
    for line in String::from_utf8_lossy(&done.out).lines() {
        let mut words = line.split(' ');
        let address = words.next().and_then(|it| u16::from_str_radix(it, 16).ok());
        let number = words
            .next()
            .and_then(|it| it.strip_suffix(':')?.parse().ok());
        if let (Some(address), Some(number)) = (address, number) {
            let end = address.wrapping_add(words.count() as u16);
            both[usize::from(address < 0x9000)].insert(number, (address, end));
        }
    }
    both
}

/// The lines without their comments, from 1.
fn lines(source: &[u8]) -> impl Iterator<Item = (usize, String)> + '_ {
    let lines = source.split(|byte| *byte == b'\n').map(|line| {
        let text = line.split(|byte| *byte == b';').next().unwrap_or_default();
        String::from_utf8_lossy(text).into_owned()
    });
    (1..).zip(lines)
}

fn is_name(text: &str) -> bool {
    let is_part = |it: char| it == '_' || it.is_ascii_alphanumeric();
    text.chars().all(is_part)
        && !text.starts_with(|it: char| it.is_ascii_digit())
        && !text.is_empty()
}

fn constant(line: &str) -> Option<(String, u16)> {
    let (name, number) = line.split_once('=')?;
    let (name, number) = (name.trim(), number.trim());
    let value = match number.split_at_checked(1)? {
        ("$", digits) => u16::from_str_radix(digits, 16).ok()?,
        ("%", digits) => u16::from_str_radix(digits, 2).ok()?,
        _ => number.parse().ok()?,
    };
    is_name(name).then(|| (name.to_string(), value))
}

fn labels_of(source: &[u8], listed: &Listed) -> Vec<(String, u16)> {
    let (mut found, mut waiting, mut here) = (Vec::new(), Vec::new(), None);
    for (number, line) in lines(source) {
        let mut rest = &line[..];
        if let Some((name, behind)) = line.split_once(':').filter(|it| is_name(it.0.trim())) {
            waiting.push(name.trim().to_string());
            rest = behind;
        }
        if let Some((address, end)) = listed.get(&number) {
            found.extend(waiting.drain(..).map(|name| (name, *address)));
            here = Some(*end);
        } else if rest.trim_start().starts_with(".org") {
            found.extend(waiting.drain(..).filter_map(|name| Some((name, here?))));
            here = None;
        }
    }
    found.extend(waiting.into_iter().filter_map(|name| Some((name, here?))));
    found
}
