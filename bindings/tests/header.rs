//! The C header, the scheduler's own refusals and constants and this crate have the same numbers under the same names.

use playback::{limits, Refusal};
use std::collections::BTreeMap;
use std::fs;
use std::path::Path;

fn text(path: &str) -> String {
    let path = Path::new(env!("CARGO_MANIFEST_DIR")).join("..").join(path);
    fs::read_to_string(&path).unwrap_or_else(|error| panic!("{}: {error}", path.display()))
}

/// `pub const NAME: TYPE = NUMBER;`
fn constants(path: &str) -> BTreeMap<String, u64> {
    let text = text(path);
    let lines = text.lines().filter_map(|line| {
        let (name, rest) = line.strip_prefix("pub const ")?.split_once(':')?;
        let number = rest.split_once('=')?.1.trim().strip_suffix(';')?;
        Some((name.to_string(), number.parse().ok()?))
    });
    lines.collect()
}

/// `VariantName = NUMBER,` as `VARIANT_NAME`
fn variants(path: &str) -> BTreeMap<String, u64> {
    let text = text(path);
    let lines = text.lines().filter_map(|line| {
        let (variant, rest) = line.strip_prefix("    ")?.split_once(" = ")?;
        let number = rest.strip_suffix(',')?.parse().ok()?;
        let mut name = String::new();
        for letter in variant.chars() {
            if letter.is_ascii_uppercase() && !name.is_empty() {
                name.push('_');
            }
            name.push(letter.to_ascii_uppercase());
        }
        Some((name, number))
    });
    lines.collect()
}

/// The header's `#define PLAYBACK_NAME NUMBER` and `PLAYBACK_NAME = NUMBER,` with the prefix taken off.
fn header(prefix: &str) -> BTreeMap<String, u64> {
    let text = text("include/playback.h");
    let lines = text.lines().filter_map(|line| {
        let line = line.trim();
        let line = line.strip_prefix("#define ").unwrap_or(line);
        let (name, rest) = line.strip_prefix(prefix)?.split_once(' ')?;
        let rest = rest.trim_start_matches(['=', ' ']);
        let rest = rest.strip_prefix("UINT64_C(").unwrap_or(rest);
        let end = rest.find(|digit: char| !digit.is_ascii_digit());
        let number = &rest[..end.unwrap_or(rest.len())];
        Some((name.to_string(), number.parse().ok()?))
    });
    lines.collect()
}

/// The comment after a refusal of the header.
fn header_meaning(name: &str) -> String {
    let text = text("include/playback.h");
    let wanted = format!("PLAYBACK_REFUSED_{name} ");
    let line = text.lines().find(|line| line.trim().starts_with(&wanted));
    let comment = line.and_then(|line| line.split_once("/* "));
    let comment = comment.expect("a comment").1.strip_suffix(" */");
    comment.expect("a closed comment").to_string()
}

#[test]
fn refusals_are_the_schedulers() {
    let refusals = variants("crates/limits/src/refusals.rt");
    assert_eq!(header("PLAYBACK_REFUSED_"), refusals);
    assert_eq!(refusals.len(), 25);
    for (name, number) in refusals {
        let refusal = Refusal::from_number(number as u32).expect("a refusal");
        let variant = format!("{refusal:?}").to_lowercase();
        assert_eq!(variant, name.replace('_', "").to_lowercase());
        assert_eq!(refusal.meaning(), header_meaning(&name));
    }
}

#[test]
fn limits_are_the_schedulers() {
    let ours = [
        ("MAX_FILMS", limits::MAX_FILMS as u64),
        ("MAX_ROUNDS", limits::MAX_ROUNDS as u64),
        ("MAX_SIZE", limits::MAX_SIZE),
        ("MAX_PREFETCH", limits::MAX_PREFETCH),
        ("MAX_RESERVE", limits::MAX_RESERVE),
        ("MAX_DAY", limits::MAX_DAY),
        ("MAX_DISK", limits::MAX_DISK),
        ("MAX_MEMORY", limits::MAX_MEMORY),
        ("MAX_BOOKINGS", limits::MAX_BOOKINGS as u64),
    ];
    let constants = constants("crates/limits/src/bounds.rt");
    let header = header("PLAYBACK_");
    for (name, number) in ours {
        assert_eq!(constants.get(name), Some(&number), "{name}");
        assert_eq!(header.get(name), Some(&number), "{name}");
    }
}

#[test]
fn journal_words_are_the_headers() {
    use playback::journal;
    let header = header("PLAYBACK_");
    let ours = [
        ("JOURNAL_ENTRY", journal::ENTRY as u64),
        ("JOURNAL_BOOK", journal::BOOK),
        ("JOURNAL_DROP", journal::DROP),
        ("JOURNAL_PLAY", journal::PLAY),
        ("LOG_ANSWER", journal::ANSWER as u64),
        ("LOG_LINE", journal::LINE as u64),
    ];
    for (name, number) in ours {
        assert_eq!(header.get(name), Some(&number), "{name}");
    }
}
