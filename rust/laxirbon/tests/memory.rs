//! That calls leave no memory behind. It is a process of its own, since other tests take memory, too.
#![cfg(all(feature = "library", target_os = "linux"))]

use laxirbon::{Document, listing, lower_body};

const DOCUMENT: &str = include_str!("../../../examples/for_and_question.json");

/// How many pages of memory the process has.
fn resident_pages() -> usize {
    let statm = std::fs::read_to_string("/proc/self/statm").expect("statm");
    statm.split(' ').nth(1).and_then(|pages| pages.parse().ok()).expect("pages")
}

#[test]
fn calls_leave_no_memory() {
    let calls = |count| {
        for _ in 0..count {
            assert!(lower_body(&Document::from(DOCUMENT)).is_ok());
            assert!(listing(laxirbon::Mode::Path, &Document::from(DOCUMENT)).is_err());
        }
    };
    calls(1000);
    let before = resident_pages();
    calls(2000);
    let more = resident_pages().saturating_sub(before);
    assert!(more < 100, "{more} more pages after 2,000 calls");
}
