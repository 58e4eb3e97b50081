//! What may be done to a printed file. Each edit says how often its text stands there; another count
//! stops the build, as does a printed file with another fingerprint than the published one's.

pub enum Edit {
    Replace { times: usize, why: &'static str, from: &'static str, to: &'static str },
    Omit { why: &'static str, from: &'static str, until: &'static str },
    Publish { items: &'static [&'static str] },
}

/// Each of the `times` places where `from` stands takes `to` instead.
pub const fn replace(times: usize, why: &'static str, from: &'static str, to: &'static str) -> Edit {
    Edit::Replace { times, why, from, to }
}

/// The text from `from`, which stands once, up to the next `until` is left out; an empty `until` is
/// the end of the file.
pub const fn omit(why: &'static str, from: &'static str, until: &'static str) -> Edit {
    Edit::Omit { why, from, until }
}

/// Each item stands once and becomes `pub`, for the tests and the comparison; it computes the same.
pub const fn publish(items: &'static [&'static str]) -> Edit {
    Edit::Publish { items }
}

pub fn derive(file: &str, mut text: String, edits: &[Edit]) -> Result<String, String> {
    for edit in edits {
        text = match edit {
            Edit::Replace { times, why, from, to } => {
                counted(file, &text, from, *times, why)?;
                text.replace(from, to)
            }
            Edit::Omit { why, from, until } => {
                counted(file, &text, from, 1, why)?;
                let (head, rest) = text.split_at(text.find(from).unwrap_or(0));
                let after = &rest[from.len()..];
                let end = match *until {
                    "" => after.len(),
                    until => after.find(until).ok_or(format!("{file}: {why}: no later {until:?}"))?,
                };
                format!("{head}{}", &after[end..])
            }
            Edit::Publish { items } => {
                let mut text = text;
                for item in *items {
                    counted(file, &text, item, 1, "made public")?;
                    let bare = item.trim_start();
                    let indent = &item[..item.len() - bare.len()];
                    text = text.replace(item, &format!("{indent}pub {bare}"));
                }
                text
            }
        };
    }
    Ok(text)
}

fn counted(file: &str, text: &str, part: &str, times: usize, why: &str) -> Result<(), String> {
    let found = text.matches(part).count();
    if found == times {
        return Ok(());
    }
    Err(format!("{file}: {why}: stands {found} times in the print, not {times}: {part:?}"))
}

/// FNV-1a, 64 bits.
pub fn fingerprint(text: &str) -> u64 {
    text.bytes().fold(0xcbf2_9ce4_8422_2325, |h, b| (h ^ b as u64).wrapping_mul(0x0000_0100_0000_01b3))
}
