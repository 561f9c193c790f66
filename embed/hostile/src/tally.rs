//! How often each export answered each status, beside what `strm.h` says that it may.

use crate::words::name_of;
use std::collections::{BTreeMap, HashMap};

const HEADER: &str = include_str!("../../strm.h");

/// Statuses of exports.
#[derive(Default)]
pub struct Tally {
    seen: HashMap<(&'static str, u32), u64>,
}

impl Tally {
    pub fn count(&mut self, export: &'static str, status: u32) {
        *self.seen.entry((export, status)).or_default() += 1;
    }

    /// All calls.
    pub fn calls(&self) -> u64 {
        self.seen.values().sum()
    }

    /// How often each status was answered.
    pub fn statuses(&self) -> BTreeMap<u32, u64> {
        let mut statuses = BTreeMap::new();
        for ((_, status), count) in &self.seen {
            *statuses.entry(*status).or_default() += count;
        }
        statuses
    }

    /// The statuses that an export answered and the header does not list of it.
    pub fn unlisted(&self) -> Vec<String> {
        let listed = listed();
        let mut unlisted: Vec<_> = self
            .seen
            .keys()
            .map(|(export, status)| (*export, name_of(*status)))
            .filter(|(_, name)| !matches!(name.as_str(), "DONE" | "NO_STORE"))
            .filter(|(export, name)| !listed.get(export).is_some_and(|names| names.contains(&name.as_str())))
            .map(|(export, name)| format!("strm_{export}: {name}"))
            .collect();
        unlisted.sort();
        unlisted
    }

    /// The exports of the header that were not called.
    pub fn uncalled(&self) -> Vec<&'static str> {
        let is_called = |export: &&str| self.seen.keys().any(|(called, _)| called == export);
        listed().into_keys().filter(|export| !is_called(export)).collect()
    }

    /// The statuses that the header lists of an export, and it never answered.
    pub fn missing(&self, is_scarce: bool) -> Vec<String> {
        let seen: Vec<_> = self.seen.keys().map(|(export, status)| (*export, name_of(*status))).collect();
        let mut missing = Vec::new();
        for (export, names) in listed() {
            for name in ["DONE"].into_iter().chain(names) {
                let is_seen = seen.iter().any(|(called, found)| *called == export && found == name);
                if !is_seen && can_come(export, name, is_scarce) {
                    missing.push(format!("strm_{export}: {name}"));
                }
            }
        }
        missing
    }
}

/// The version of the header.
pub fn version() -> u32 {
    let line = HEADER.lines().find_map(|line| line.strip_prefix("#define STRM_VERSION "));
    line.and_then(|number| number.trim_end_matches('u').parse().ok()).unwrap_or(0)
}

// The statuses that stand in the comment above each export of the header.
fn listed() -> BTreeMap<&'static str, Vec<&'static str>> {
    let mut listed = BTreeMap::new();
    for part in HEADER.split("\n/* ").skip(1) {
        let Some((comment, code)) = part.split_once("*/\n") else { continue };
        let Some((_, declared)) = code.split_once(" strm_") else { continue };
        let Some((export, _)) = declared.split_once('(') else { continue };
        let words = comment.split(|letter: char| !letter.is_ascii_alphanumeric() && letter != '_');
        let names = words.filter_map(|word| word.strip_prefix("STRM_")).filter(|name| is_status(name));
        if export.bytes().all(|byte| byte.is_ascii_lowercase() || byte == b'_') {
            listed.insert(export, names.collect());
        }
    }
    listed
}

// Whether calls that are drawn can come to it: nobody makes 2^28 handles or 2^20 guests, and what a comment says
// of each call is not listed of one.
fn can_come(export: &str, name: &str, is_scarce: bool) -> bool {
    match name {
        "INDEX_OVERFLOW" | "NO_STORE" => false,
        "FULL" => !export.starts_with("add_guest"),
        // No block has 2^32 bytes behind a memory's end.
        "MEMORY_TOO_BIG" => export != "memory_grown",
        "OUT_OF_MEMORY" => is_scarce,
        _ => true,
    }
}

fn is_status(name: &str) -> bool {
    (1..80).any(|status| name_of(status) == name)
}
