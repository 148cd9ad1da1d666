use std::fs::File;

use crate::folder::{bank_of, Folder, Ran};

const USAGE: &str = "usage: bank [OPTIONS] FILE (bank --help says more)\n";

/// What was printed, by lines.
fn printed(ran: &Ran) -> Vec<&str> {
    std::str::from_utf8(&ran.out).unwrap().lines().collect()
}

#[test]
fn a_good_bank_is_listed() {
    let folder = Folder::new("bank-good");
    let entries = [(0, 96, 1), (0, 10_000, 200), (1, 1, 0), (1, 2, 0), (1, 3, 0), (1, 4, 0), (1, 5, 0), (0, 96, 2)];
    folder.write("a.bank", bank_of(&entries, 13_205));
    let ran = folder.bank(&["a.bank"]);
    ran.is(0, "");
    assert_eq!(
        printed(&ran),
        [
            "entry  kind   offset  blocks",
            "    0  sound      96       1",
            "    1  sound   10000     200",
            "    2  alias       -       -  leads to entry 1",
            "    3  alias       -       -  leads through 2 to entry 1",
            "    4  alias       -       -  leads through 3, 2 to entry 1",
            "    5  alias       -       -  leads through 4, 3, 2 to entry 1",
            "    6  alias       -       -  leads through 5, 4, 3 and 1 more to entry 1",
            "    7  sound      96       2",
            "a.bank: 8 entries (3 sounds, 5 aliases), 13205 bytes (82 in the header, 3232 in sounds, 9891 unused)",
        ]
    );
}

#[test]
fn a_bank_of_no_entries_is_good() {
    let folder = Folder::new("bank-none");
    folder.write("a.bank", [0; 3]);
    let ran = folder.bank(&["a.bank"]);
    ran.is(0, "");
    assert_eq!(
        printed(&ran),
        ["a.bank: 0 entries (0 sounds, 0 aliases), 3 bytes (2 in the header, 0 in sounds, 1 unused)"]
    );
}

#[test]
fn every_damaged_entry_is_marked_and_the_first_is_named() {
    let folder = Folder::new("bank-damaged");
    let entries = [
        (0, 80, 1),
        (0, 70_000, 10),
        (1, 1, 0),
        (1, 2, 0),
        (7, 1, 2),
        (1, 9, 5),
        (0, 40, 0),
        (0, 0xFFFF_FFF0, u32::MAX),
    ];
    folder.write("a.bank", bank_of(&entries, 65_536));
    let ran = folder.bank(&["a.bank"]);
    ran.is(1, "a.bank: entry 0 is damaged: it begins at byte 80, but the header ends at byte 82\n");
    assert_eq!(
        printed(&ran),
        [
            "entry  kind       offset      blocks",
            "    0  sound          80           1  DAMAGED: it begins at byte 80, but the header ends at byte 82",
            "    1  sound       70000          10  DAMAGED: it ends at byte 70160, but the file has 65536 bytes",
            "    2  alias           -           -  leads to entry 1, which is damaged",
            "    3  alias           -           -  leads through 2 to entry 1, which is damaged",
            "    4  7               1           2  DAMAGED: its kind is 7, but a sound has kind 0 and an alias kind 1",
            "    5  alias           -           -  DAMAGED: it is an alias of entry 9, but an alias leads to an entry \
             before its own; it is an alias with 5 blocks, but an alias has none",
            "    6  sound          40           0  DAMAGED: it begins at byte 40, but the header ends at byte 82; it \
             begins at byte 40, which is not a multiple of 16; it has no blocks",
            "    7  sound  4294967280  4294967295  DAMAGED: it ends at byte 73014444000, but the file has 65536 bytes",
            "a.bank: 8 entries (0 sounds, 2 aliases, 6 damaged), 65536 bytes (82 in the header, 0 in sounds, 65454 \
             unused)",
        ]
    );
}

#[test]
fn a_damaged_header_says_which_rule() {
    let folder = Folder::new("bank-header");
    for (bank, why) in [
        (vec![], "the file is empty, but the number of entries takes 2 bytes"),
        (vec![0], "the file has 1 byte, but the number of entries takes 2 bytes"),
        (vec![1, 4], "it counts 1025 entries, but a bank has at most 1024"),
        (bank_of(&[(0, 48, 1), (1, 0, 0)], 21), "it takes 22 bytes for 2 entries, but the file has 21 bytes"),
    ] {
        folder.write("a.bank", bank);
        let ran = folder.bank(&["a.bank"]);
        ran.is(1, &format!("a.bank: the header is damaged: {why}\n"));
        assert_eq!(ran.out, b"");
    }
}

#[test]
fn the_largest_bank_is_listed() {
    let folder = Folder::new("bank-largest");
    let entries: Vec<_> = std::iter::once((0, 10_256, 1)).chain((0..1023).map(|n| (1, n, 0))).collect();
    folder.write("a.bank", bank_of(&entries, 10_272));
    let ran = folder.bank(&["a.bank"]);
    ran.is(0, "");
    let lines = printed(&ran);
    assert_eq!(lines.len(), 1026);
    assert_eq!(lines[1024], " 1023  alias       -       -  leads through 1022, 1021, 1020 and 1019 more to entry 0");
}

#[test]
fn any_bytes_are_listed_in_plain_lines() {
    let folder = Folder::new("bank-bytes");
    let mut bytes: Vec<u8> = (0..3000u32).map(|k| (k * k * 31 / 8) as u8).collect();
    bytes[..2].copy_from_slice(&[200, 0]);
    folder.write("a\n\x1b[1m.bank", bytes);
    let ran = folder.bank(&["a\n\x1b[1m.bank"]);
    assert_eq!(ran.status, Some(1));
    assert!(ran.said.starts_with("a??[1m.bank: entry 0 is damaged: "), "{}", ran.said);
    assert_eq!(printed(&ran).len(), 202);
    assert!(ran.out.iter().all(|&byte| byte == b'\n' || (b' '..=b'~').contains(&byte)));
}

#[test]
fn standard_input_and_pipes_are_banks() {
    let folder = Folder::new("bank-input");
    folder.write("a.bank", bank_of(&[(0, 16, 1)], 32));
    let listed =
        |name| format!("{name}: 1 entry (1 sound, 0 aliases), 32 bytes (12 in the header, 16 in sounds, 4 unused)");
    for (line, name) in [
        ("\"$BANK\" - <a.bank", "standard input"),
        ("cat a.bank | \"$BANK\" -", "standard input"),
        ("cat a.bank | \"$BANK\" /dev/stdin", "standard input"),
        ("mkfifo f && { cat a.bank >f & \"$BANK\" f; }", "f"),
        ("cp a.bank ./-a && \"$BANK\" -- -a", "-a"),
    ] {
        let ran = folder.shell(line);
        ran.is(0, "");
        assert_eq!(printed(&ran).last(), Some(&listed(name).as_str()), "{line}");
    }
    folder.shell("\"$BANK\" - <&-").is(4, "cannot read standard input: it is closed\n");
}

#[test]
fn a_file_that_cannot_be_read_is_told() {
    let folder = Folder::new("bank-unread");
    folder.make_folder("folder");
    File::create(folder.path("huge.bank")).unwrap().set_len(10 << 30).unwrap();
    folder.bank(&["missing.bank"]).is(4, "cannot read missing.bank: No such file or directory\n");
    folder.bank(&["folder"]).is(4, "cannot read folder: Is a directory\n");
    folder.bank(&["huge.bank"]).is(4, "cannot read huge.bank: it is longer than 1 GiB, and no bank needs to be\n");
}

#[test]
fn output_that_cannot_be_written_is_a_failure() {
    let folder = Folder::new("bank-unwritten");
    folder.write("a.bank", bank_of(&[(0, 0, 0)], 12));
    for arguments in ["a.bank", "--help", "--version"] {
        folder
            .shell(&format!("\"$BANK\" {arguments} >/dev/full"))
            .is(4, "cannot write standard output: No space left on device\n");
        folder.shell(&format!("\"$BANK\" {arguments} >&-")).is(4, "cannot write standard output: it is closed\n");
    }
}

#[test]
fn help_and_version() {
    let folder = Folder::new("bank-help");
    for help in [&["-h"][..], &["--help"], &["a", "b", "--help"]] {
        let ran = folder.bank(help);
        ran.is(0, "");
        let lines = printed(&ran);
        assert_eq!(lines[0], "usage: bank [OPTIONS] FILE");
        assert!(lines.contains(&"Exit status:") && lines.iter().all(|line| line.chars().count() <= 110));
    }
    let ran = folder.bank(&["--version"]);
    ran.is(0, "");
    assert_eq!(printed(&ran), [concat!("bank ", env!("CARGO_PKG_VERSION"))]);
}

#[test]
fn wrong_usage_is_told() {
    let folder = Folder::new("bank-usage");
    for (arguments, words) in [
        (&[][..], "FILE is missing"),
        (&["--"], "FILE is missing"),
        (&["a.bank", "b.bank"], "one name too many: b.bank"),
        (&["--bogus", "a.bank"], "unknown option --bogus"),
        (&["a.bank", "-l"], "unknown option -l"),
        (&["--help=all"], "unknown option --help=all"),
        (&[""], "the name of FILE is empty"),
    ] {
        let ran = folder.bank(arguments);
        ran.is(2, &format!("{words}\n{USAGE}"));
        assert_eq!(ran.out, b"");
    }
}
