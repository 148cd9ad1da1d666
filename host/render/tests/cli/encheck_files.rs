//! `encheck`: the files and streams that it reads.

use std::fs::File;

use crate::encoded::{decoded, mono_wav, some_blocks, wav};
use crate::folder::Folder;

const YES: &str = "yes: 2 blocks (0.001 s), every sample equal to its original\n";
const WANTED: &str = "16 bits, mono, any rate, PCM is wanted";

/// A folder with a good sound: a.wav and b.adpcm.
fn with_sound(name: &str) -> Folder {
    let folder = Folder::new(name);
    let blocks = some_blocks(2);
    folder.write("a.wav", mono_wav(44_100, &decoded(&blocks)));
    folder.write("b.adpcm", blocks);
    folder
}

#[test]
fn either_file_may_be_standard_input_or_a_pipe() {
    let folder = with_sound("encheck-input");
    folder.shell("mkfifo f g").is(0, "");
    let writer = |from, to| format!("timeout 20 sh -c 'cat {from} >{to}' & ");
    for line in [
        "\"$ENCHECK\" - b.adpcm 0 <a.wav".to_owned(),
        "cat a.wav | \"$ENCHECK\" - b.adpcm 0".to_owned(),
        "cat a.wav | \"$ENCHECK\" /dev/stdin b.adpcm 0".to_owned(),
        "\"$ENCHECK\" a.wav - 0 <b.adpcm".to_owned(),
        "cat b.adpcm | \"$ENCHECK\" a.wav - 0".to_owned(),
        writer("a.wav", "f") + "timeout 20 \"$ENCHECK\" f b.adpcm 0",
        writer("b.adpcm", "f") + "timeout 20 \"$ENCHECK\" a.wav f 0",
        writer("a.wav", "f") + &writer("b.adpcm", "g") + "timeout 20 \"$ENCHECK\" f g 0",
        writer("a.wav", "f") + "cat b.adpcm | timeout 20 \"$ENCHECK\" f - 0",
    ] {
        folder.shell(&line).printed(0, YES);
    }
    folder.shell("cat a.wav | \"$ENCHECK\" - b.adpcm 0 --pad").printed(0, YES);
    let ran = folder.shell("head -c 16 b.adpcm | \"$ENCHECK\" a.wav - 0");
    let longer = "besides, a.wav is longer than standard input (2 groups of 28 samples, but 1 block)\n";
    assert!(ran.status == Some(1) && ran.out.ends_with(longer.as_bytes()), "{ran:?}");
}

#[test]
fn both_files_do_not_come_from_one_pipe() {
    let folder = with_sound("encheck-one-pipe");
    for line in ["X - - 0 <a.wav", "cat a.wav b.adpcm | X - /dev/stdin", "X /dev/fd/0 - </dev/null"] {
        let line = line.replace('X', "\"$ENCHECK\"");
        folder.shell(&line).is(4, "standard input cannot be both ORIGINAL and ENCODED\n");
    }
    folder.shell("mkfifo f && timeout 20 \"$ENCHECK\" f f").is(4, "f cannot be both ORIGINAL and ENCODED\n");
}

#[test]
fn files_that_cannot_be_read_are_told() {
    let folder = with_sound("encheck-unread");
    folder.make_folder("folder");
    File::create(folder.path("huge.adpcm")).unwrap().set_len(10 << 30).unwrap();
    for (names, said) in [
        (["missing.wav", "b.adpcm"], "cannot read missing.wav: No such file or directory\n"),
        (["a.wav", "missing.adpcm"], "cannot read missing.adpcm: No such file or directory\n"),
        (["folder", "b.adpcm"], "cannot read folder: Is a directory\n"),
        (["a.wav", "folder"], "cannot read folder: Is a directory\n"),
        (["a.wav/", "b.adpcm"], "cannot read a.wav/: Not a directory\n"),
        (["a.wav", "huge.adpcm"], "cannot read huge.adpcm: it is longer than 1 GiB, and no sound needs to be\n"),
    ] {
        folder.encheck(&names).is(4, said);
    }
    folder.shell("\"$ENCHECK\" a.wav - <&-").is(4, "cannot read standard input: it is closed\n");
    folder.shell("\"$ENCHECK\" - b.adpcm <.").is(4, "cannot read standard input: Is a directory\n");
    if !folder.belongs_to_root() {
        folder.set_mode("b.adpcm", 0);
        folder.encheck(&["a.wav", "b.adpcm"]).is(4, "cannot read b.adpcm: Permission denied\n");
    }
}

#[test]
fn an_original_of_another_kind_is_told() {
    let folder = with_sound("encheck-kinds");
    for (file, said) in [
        (vec![], format!("is empty; a WAV file of {WANTED}")),
        (folder.read("b.adpcm"), format!("is not a WAV file; a WAV file of {WANTED}")),
        (b"fLaC\0\0\0\x22".to_vec(), format!("is a FLAC file; a WAV file of {WANTED}")),
        (wav(2, 44_100, 16, &[0; 112]), format!("is a WAV file of 16 bits, stereo, 44100 Hz, PCM; {WANTED}")),
        (wav(1, 22_050, 8, &[0; 56]), format!("is a WAV file of 8 bits, mono, 22050 Hz, PCM; {WANTED}")),
        (wav(1, 44_100, 24, &[0; 168]), format!("is a WAV file of 24 bits, mono, 44100 Hz, PCM; {WANTED}")),
        (wav(1, 0, 16, &[0; 112]), "is a WAV file whose rate is 0 Hz".to_owned()),
        (wav(1, 44_100, 16, &[0; 112])[..36].to_vec(), "is a WAV file without sound".to_owned()),
        (wav(1, 44_100, 16, &[0; 112])[..30].to_vec(), "is a WAV file that ends within its header".to_owned()),
        (
            wav(1, 44_100, 16, &[0; 112])[..100].to_vec(),
            "is shorter than its header says: it has 56 of 112 bytes of sound".to_owned(),
        ),
        (wav(1, 44_100, 16, &[0; 57]), "has 57 bytes of sound, but a sample takes 2 bytes".to_owned()),
    ] {
        folder.write("c.wav", file);
        let ran = folder.encheck(&["c.wav", "b.adpcm"]);
        ran.is(4, &format!("c.wav {said}\n"));
        assert_eq!(ran.out, b"");
    }
}

#[test]
fn a_streamed_original_goes_on_to_its_end() {
    let folder = with_sound("encheck-streamed");
    let mut streamed = folder.read("a.wav");
    for at in [4, 40] {
        streamed[at..at + 4].fill(0xFF);
    }
    folder.write("c.wav", &streamed);
    folder.encheck(&["c.wav", "b.adpcm", "0"]).printed(0, YES);
    folder.write("c.wav", [&streamed[..], &[0]].concat());
    folder.encheck(&["c.wav", "b.adpcm", "0"]).is(4, "c.wav has 113 bytes of sound, but a sample takes 2 bytes\n");
}

#[test]
fn other_chunks_of_the_original_are_no_sound() {
    let folder = with_sound("encheck-chunks");
    let plain = folder.read("a.wav");
    let tags = *b"LIST\x05\0\0\0tags!\0";
    let mut with_tags = [&plain[..36], &tags, &plain[36..], &tags].concat();
    with_tags[4..8].copy_from_slice(&(36 + 112 + 28u32).to_le_bytes());
    folder.write("c.wav", with_tags);
    folder.encheck(&["c.wav", "b.adpcm", "0"]).printed(0, YES);
}

#[test]
fn encoded_files_with_a_header_are_told() {
    let folder = with_sound("encheck-vag");
    let vag = [&b"VAGp\0\0\0\x20\0\0\0\0\0\0\0\x20\0\0\xAC\x44"[..], &[0; 28], &folder.read("b.adpcm")].concat();
    folder.write("b.vag", vag);
    folder.encheck(&["a.wav", "b.vag", "0"]).is(
        4,
        "b.vag has a VAG header of 48 bytes before its blocks; leave it out: \
         tail -c +49 FILE | encheck ORIGINAL.wav -\n",
    );
    folder.shell("tail -c +49 b.vag | \"$ENCHECK\" a.wav - 0").printed(0, YES);
    folder
        .encheck(&["a.wav", "a.wav"])
        .is(4, "a.wav is a WAV file; the blocks that an encoder made of one are wanted\n");
}

#[test]
fn a_verdict_that_cannot_be_written_is_a_failure() {
    let folder = with_sound("encheck-unwritten");
    for (line, said) in [
        ("X a.wav b.adpcm >/dev/full", "cannot write standard output: No space left on device\n"),
        ("X a.wav b.adpcm 5 >&-", "cannot write standard output: it is closed\n"),
    ] {
        folder.shell(&line.replace('X', "\"$ENCHECK\"")).is(4, said);
    }
}

#[test]
fn names_stay_on_their_line() {
    let folder = with_sound("encheck-names");
    folder.write("a\n\x1b[1m.wav", mono_wav(44_100, &[]));
    let ran = folder.encheck(&["a\n\x1b[1m.wav", "b.adpcm"]);
    ran.printed(
        1,
        "no: block 0 of 2, at 0.000 s in the sound\n  it has no originals: b.adpcm is longer than a??[1m.wav \
         (2 blocks, but 0 groups of 28 samples)\n",
    );
}

#[test]
fn no_progress_is_shown_but_on_a_terminal() {
    let folder = with_sound("encheck-progress");
    folder.write("both", "{ cat b.adpcm; sleep 0.5; } | \"$ENCHECK\" a.wav -\n");
    let smallest = "the smallest E with which the answer is yes: 0";
    folder.shell("sh both").printed(0, &format!("{YES}{smallest}\n"));
    if folder.shell("command -v script").status != Some(0) {
        return;
    }
    let shown = String::from_utf8(folder.shell("timeout 20 script -qec 'sh both' /dev/null").out).unwrap();
    let progress = shown.split('\r').find(|part| part.starts_with("looking for the smallest E: trying "));
    assert!(progress.is_some(), "{shown:?}");
    let cleared = " ".repeat(progress.unwrap().len());
    assert!(shown.ends_with(&format!("\r{cleared}\r{}\r\n{smallest}\r\n", YES.trim_end())), "{shown:?}");
}
