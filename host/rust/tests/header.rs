//! What the crate and `tenonwhisk.h` say twice.

use tenonwhisk::{bank, encoder, xa, Refusal, State, VERSION};

const HEADER: &str = include_str!("../../tenonwhisk.h");

const REFUSALS: [(&str, Refusal); 17] = [
    ("MEMORY", Refusal::Memory),
    ("STATE", Refusal::State),
    ("OFFSET", Refusal::Offset),
    ("READ_ONLY", Refusal::ReadOnly),
    ("NOT_CARRIED", Refusal::NotCarried),
    ("MODE", Refusal::Mode),
    ("COUNT", Refusal::Count),
    ("ADDRESS", Refusal::Address),
    ("BANK", Refusal::Bank),
    ("NO_ENTRY", Refusal::NoEntry),
    ("UNDOCUMENTED", Refusal::Undocumented),
    ("XA_COPIES", Refusal::XaCopies),
    ("XA_EIGHT_BIT", Refusal::XaEightBit),
    ("XA_LENGTH", Refusal::XaLength),
    ("ENCODER", Refusal::Encoder),
    ("ROOM", Refusal::Room),
    ("BUFFERS", Refusal::Buffers),
];

/// What stands in the header between two texts.
fn between(before: &str, after: &str) -> &'static str {
    let start = HEADER.find(before).unwrap_or_else(|| panic!("no {before}")) + before.len();
    HEADER[start..].split(after).next().unwrap().trim()
}

/// The text of string literals that follow each other.
fn joined(literals: &str) -> String {
    literals.split('"').skip(1).step_by(2).collect()
}

#[test]
fn numbers() {
    for (name, refusal) in REFUSALS {
        let number = between(&format!("    TENONWHISK_{name} = "), " ");
        assert_eq!(number.trim_end_matches(','), refusal.number().to_string(), "{name}");
    }
}

#[test]
fn words() {
    for (name, refusal) in REFUSALS {
        assert_eq!(joined(between(&format!("case TENONWHISK_{name}:\n"), ";\n")), refusal.to_string());
    }
}

#[test]
fn version() {
    assert_eq!(joined(between("#define TENONWHISK_VERSION ", "\n")), VERSION);
}

#[test]
fn length_of_a_state() {
    assert_eq!(between("#define TENONWHISK_STATE_HALFWORDS ", "\n"), State::HALFWORDS.to_string());
}

#[test]
fn banks() {
    assert_eq!(between("#define TENONWHISK_BANK_ENTRIES ", "\n"), bank::MOST_ENTRIES.to_string());
    assert_eq!(between("TENONWHISK_BANK_SOUND = ", ","), bank::Entry::SOUND.to_string());
    assert_eq!(between("TENONWHISK_BANK_ALIAS = ", " "), bank::Entry::ALIAS.to_string());
}

#[test]
fn speech() {
    assert_eq!(between("#define TENONWHISK_XA_SECTOR_BYTES ", "\n"), xa::SECTOR_BYTES.to_string());
    assert_eq!(between("#define TENONWHISK_XA_SAMPLES ", "\n"), xa::SAMPLES.to_string());
}

#[test]
fn blocks() {
    assert_eq!(between("#define TENONWHISK_BLOCK_BYTES ", "\n"), encoder::BLOCK_BYTES.to_string());
    assert_eq!(between("#define TENONWHISK_BLOCK_SAMPLES ", "\n"), encoder::BLOCK_SAMPLES.to_string());
}
