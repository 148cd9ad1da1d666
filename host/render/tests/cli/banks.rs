//! Sound banks in `render`: `--title`, `--house` and lines `b`.

use std::fs::File;

use crate::folder::{bank_of, playing, samples, Folder, BLOCK};

/// The block with another sound: its samples are turned around.
fn other() -> [u8; 16] {
    let mut block = BLOCK;
    block[2..].reverse();
    block
}

/// Entry 0 is a sound of two blocks, entry 1 one of a single block.
fn title() -> Vec<u8> {
    let mut bank = bank_of(&[(0, 32, 2), (0, 64, 1)], 32);
    bank.extend([BLOCK, BLOCK, other()].concat());
    bank
}

/// Entries 0 and 2 are sounds, entry 1 an alias of 0, entry 3 one of 1, entry 4 one of 2.
fn house() -> Vec<u8> {
    let mut bank = bank_of(&[(0, 64, 1), (1, 0, 0), (0, 80, 1), (1, 1, 0), (1, 2, 0)], 64);
    bank.extend([other(), BLOCK].concat());
    bank
}

fn folder(name: &str) -> Folder {
    let folder = Folder::new(name);
    folder.write("title.bank", title());
    folder.write("house.bank", house());
    folder
}

/// A script that applies transfers inward, moves to 1000h with some lines, and plays.
fn moving(lines: &str) -> String {
    format!("w 1AA C010\nt 1\nw 1A6 200\n{lines}{}", playing(0x200))
}

/// Lines `s` that move some bytes.
fn sent(bytes: &[u8]) -> String {
    let line = |part: &[u8]| part.chunks(2).map(|pair| format!(" {:02X}{:02X}", pair[1], pair[0])).collect::<String>();
    bytes.chunks(64).map(|part| format!("s{}\n", line(part))).collect()
}

/// The script gives the sound that moving the bytes with lines `s` gives.
#[track_caller]
fn assert_moves(folder: &Folder, options: &[&str], lines: &str, bytes: &[u8]) {
    folder.write("b.txt", moving(lines));
    folder.write("s.txt", moving(&sent(bytes)));
    folder.render(&[&["b.txt", "b.wav"], options].concat()).is(0, "b.wav: 0.100 s\n");
    folder.render(&["s.txt", "s.wav"]).is(0, "s.wav: 0.100 s\n");
    assert_eq!(folder.read("b.wav"), folder.read("s.wav"));
    assert!(samples(&folder.read("b.wav")).iter().any(|&sample| sample > 1000));
}

const BOTH: [&str; 4] = ["--title", "title.bank", "--house", "house.bank"];

#[test]
fn the_title_is_asked_before_the_house() {
    let folder = folder("banks-both");
    assert_moves(&folder, &BOTH, "b 0\n", &[BLOCK, BLOCK].concat());
    assert_moves(&folder, &BOTH, "b 1\n", &other());
    assert_moves(&folder, &BOTH, "b 2\n", &BLOCK);
}

#[test]
fn aliases_lead_to_sounds_of_their_own_bank() {
    let folder = folder("banks-alias");
    assert_moves(&folder, &BOTH, "b 3\n", &other());
    assert_moves(&folder, &BOTH, "b 4\n", &BLOCK);
    assert_moves(&folder, &["--house=house.bank"], "b 1\n", &other());
}

#[test]
fn one_bank_is_enough() {
    let folder = folder("banks-one");
    assert_moves(&folder, &["--title", "title.bank"], "b 1\n", &other());
    assert_moves(&folder, &["--house", "title.bank"], "b 1\n", &other());
    assert_moves(&folder, &["--house", "house.bank"], "b 000000000002\n", &BLOCK);
    folder.write("s.txt", moving("b 2\n"));
    let ran = folder.render(&["s.txt", "out.wav", "--title", "title.bank"]);
    assert!(ran.said.starts_with("line 4: refused (10): there is no entry with this number\n"), "{}", ran.said);
}

#[test]
fn sounds_follow_each_other_at_the_transfer_address() {
    let folder = folder("banks-row");
    assert_moves(
        &folder,
        &BOTH,
        "b 1\nb 2\ns 1234\nb 0\n",
        &[&other()[..], &BLOCK, &[0x34, 0x12], &BLOCK, &BLOCK].concat(),
    );
}

#[test]
fn a_long_sound_is_moved_whole() {
    let folder = folder("banks-long");
    let sound: Vec<u8> = std::iter::once(BLOCK).cycle().take(1000).flatten().collect();
    folder.write("long.bank", [bank_of(&[(0, 16, 1000)], 16), sound.clone()].concat());
    assert_moves(&folder, &["--title", "long.bank"], "b 0\n", &sound);
}

#[test]
fn a_sound_longer_than_sound_ram_is_not_moved() {
    let folder = folder("banks-longer");
    folder.write("long.bank", bank_of(&[(0, 32, 4096), (0, 32, 4097)], 32 + 16 * 4097));
    folder.write("s.txt", "w 1AA C010\nt 1\nw 1A6 200\nb 0\nb 1\n");
    folder.render(&["s.txt", "out.wav", "--title", "long.bank"]).is(0, "out.wav: 0.000 s\n");
    folder.render(&["s.txt", "out.wav", "--title", "long.bank", "--ram", "64"]).is(
        2,
        "line 5: sound 1 has 65552 bytes, but sound RAM has only 65536\nout.wav: 0.000 s, lines bad or refused: 1\n",
    );
}

#[test]
fn refusals_are_told_with_their_lines_and_the_rest_is_rendered() {
    let folder = folder("banks-refused");
    folder
        .write("s.txt", "b 0\nw 1AA C010\nt 1\nb 5\nb 4294967295\nb 4294967296\nb\nb 1 2\nb -1\nb 0x1\nb 4\nt 4409\n");
    let bad = "bad line (b NUMBER is expected, NUMBER decimal, up to 4294967295)";
    folder.render(&[&["s.txt", "out.wav"][..], &BOTH].concat()).is(
        2,
        &format!(
            "line 1: refused (6): another transfer mode is applied (SPUCNT bits 5-4 act from the next tick on); \
             mode 1 or 2 moves inward, 3 outward\n\
             line 4: refused (10): there is no entry with this number\n\
             line 5: refused (10): there is no entry with this number\n\
             line 6: {bad}\nline 7: {bad}\nline 8: {bad}\nline 9: {bad}\nline 10: {bad}\n\
             out.wav: 0.100 s, lines bad or refused: 8\n"
        ),
    );
}

#[test]
fn a_refused_sound_moves_nothing() {
    let folder = folder("banks-nothing");
    let in_mode = |spucnt| format!("w 1AA {spucnt}\nt 1\nw 1A6 200\nb 0\nw 1AA C010\nt 1\n");
    for refused in [in_mode("C000"), in_mode("C030"), "b 9\n".to_owned()] {
        folder.write("with.txt", moving(&format!("{refused}b 1\n")));
        folder.write("without.txt", moving(&format!("{}b 1\n", refused.replace("b 0\n", "").replace("b 9\n", ""))));
        assert_eq!(folder.render(&[&["with.txt", "with.wav"][..], &BOTH].concat()).status, Some(2));
        assert_eq!(folder.render(&[&["without.txt", "without.wav"][..], &BOTH].concat()).status, Some(0));
        assert_eq!(folder.read("with.wav"), folder.read("without.wav"));
    }
}

#[test]
fn without_a_bank_a_sound_is_not_found() {
    let folder = folder("banks-none");
    folder.write("s.txt", "w 1AA C010\nt 1\nb 0\nt 4409\n");
    folder.render(&["s.txt", "out.wav"]).is(
        2,
        "line 3: there is no sound bank; name one with --title FILE or --house FILE\n\
         out.wav: 0.100 s, lines bad or refused: 1\n",
    );
    folder.write("empty.bank", [0, 0]);
    folder
        .render(&["s.txt", "out.wav", "--title", "empty.bank"])
        .is(2, "line 3: refused (10): there is no entry with this number\nout.wav: 0.100 s, lines bad or refused: 1\n");
}

#[test]
fn a_damaged_bank_is_refused_before_anything_is_rendered() {
    let folder = folder("banks-damaged");
    folder.write("s.txt", moving("b 1\n"));
    folder.write("short.bank", &house()[..90]);
    folder.write("header.bank", [9, 0, 0]);
    folder.write("empty.bank", "");
    let earlier = folder.render_earlier("out.wav");
    for (options, words) in [
        (
            ["--title=short.bank", "--house=house.bank"],
            "short.bank: entry 2 is damaged: it ends at byte 96, but the file has 90 bytes",
        ),
        (
            ["--title=title.bank", "--house=short.bank"],
            "short.bank: entry 2 is damaged: it ends at byte 96, but the file has 90 bytes",
        ),
        (
            ["--house=header.bank", "--ram=64"],
            "header.bank: the header is damaged: it takes 92 bytes for 9 entries, but the file has 3 bytes",
        ),
        (
            ["--title=empty.bank", "--ram=64"],
            "empty.bank: the header is damaged: the file is empty, but the number of entries takes 2 bytes",
        ),
    ] {
        folder
            .render(&[&["s.txt", "out.wav"][..], &options].concat())
            .is(4, &format!("{words}\nout.wav is as it was before\n"));
        let ran = folder.render(&[&["s.txt", "-"][..], &options].concat());
        ran.is(4, &format!("{words}\nnothing was written to standard output\n"));
        assert_eq!(ran.out, b"");
    }
    assert_eq!(folder.read("out.wav"), earlier);
}

#[test]
fn a_bank_that_cannot_be_read_is_told() {
    let folder = folder("banks-unread");
    folder.write("s.txt", "t 1\n");
    folder.make_folder("folder");
    File::create(folder.path("huge.bank")).unwrap().set_len(10 << 30).unwrap();
    for option in ["--title", "--house"] {
        for (bank, words) in [
            ("missing.bank", "No such file or directory"),
            ("folder", "Is a directory"),
            ("huge.bank", "it is longer than 1 GiB, and no bank needs to be"),
        ] {
            folder
                .render(&["s.txt", "out.wav", option, bank])
                .is(4, &format!("cannot read {bank}: {words}\nout.wav was not written\n"));
        }
    }
}

#[test]
fn a_pipe_is_a_bank() {
    let folder = folder("banks-pipe");
    assert_moves(&folder, &["--title", "title.bank"], "b 0\n", &[BLOCK, BLOCK].concat());
    folder.shell("cat title.bank | \"$RENDER\" b.txt pipe.wav --title /dev/stdin").is(0, "pipe.wav: 0.100 s\n");
    assert_eq!(folder.read("pipe.wav"), folder.read("b.wav"));
}

#[test]
fn script_and_banks_do_not_come_from_one_pipe() {
    let folder = folder("banks-one-pipe");
    folder.write("b.txt", moving("b 0\n"));
    folder.shell("mkfifo f").is(0, "");
    folder.link("f", "g");
    for (line, words) in [
        ("cat b.txt | X - out.wav --title /dev/stdin", "standard input cannot be both SCRIPT and the title's bank"),
        ("cat b.txt | X - out.wav --house /dev/fd/0", "standard input cannot be both SCRIPT and the house's bank"),
        (
            "cat b.txt | X /dev/stdin out.wav --title title.bank --house /dev/stdin",
            "standard input cannot be both SCRIPT and the house's bank",
        ),
        (
            "cat title.bank | X b.txt out.wav --title /dev/stdin --house /dev/stdin",
            "standard input cannot be both the title's bank and the house's bank",
        ),
        ("X - out.wav --title /dev/stdin <b.txt", "standard input cannot be both SCRIPT and the title's bank"),
        ("X - out.wav --house /dev/stdin </dev/null", "standard input cannot be both SCRIPT and the house's bank"),
        ("cat b.txt | X - out.wav --title /dev/fd/3 3<&0", "standard input cannot be both SCRIPT and the title's bank"),
        ("X f out.wav --title g", "f cannot be both SCRIPT and the title's bank"),
        ("X b.txt out.wav --title g --house f", "g cannot be both the title's bank and the house's bank"),
    ] {
        let line = line.replace('X', "\"$RENDER\"");
        folder.shell(&line).is(4, &format!("{words}\nout.wav was not written\n"));
    }
    assert!(!folder.names().contains(&"out.wav".to_owned()));
}

#[test]
fn script_and_banks_may_come_from_two_pipes() {
    let folder = folder("banks-two-pipes");
    assert_moves(&folder, &BOTH, "b 2\n", &BLOCK);
    folder
        .shell("cat house.bank | { cat b.txt | \"$RENDER\" - out.wav --title title.bank --house /dev/fd/3; } 3<&0")
        .is(0, "out.wav: 0.100 s\n");
    assert_eq!(folder.read("out.wav"), folder.read("b.wav"));
}

#[test]
fn one_file_may_be_both_banks() {
    let folder = folder("banks-one-file");
    folder.hard_link("title.bank", "same.bank");
    assert_moves(&folder, &["--title", "title.bank", "--house", "./title.bank"], "b 1\n", &other());
    assert_moves(&folder, &["--title", "title.bank", "--house", "same.bank"], "b 1\n", &other());
    folder
        .shell("\"$RENDER\" b.txt out.wav --title /dev/stdin --house title.bank <title.bank")
        .is(0, "out.wav: 0.100 s\n");
    assert_eq!(folder.read("out.wav"), folder.read("b.wav"));
}
