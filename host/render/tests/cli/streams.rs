use crate::folder::{playing, samples, streamed_samples, Folder, BLOCK, DOUBTFUL, SILENCE};

const INCOMPLETE: &str = "what was written of the stream is incomplete\n";

/// A second and a half of sound.
fn sounding(folder: &Folder) -> Vec<i16> {
    folder.write("block.bin", BLOCK);
    folder.write("s.txt", format!("l 1000 block.bin\n{}t 44100\nt 22050\n", playing(0x200)));
    folder.render(&["s.txt", "file.wav"]).is(0, "file.wav: 1.600 s\n");
    samples(&folder.read("file.wav"))
}

#[test]
fn standard_output_is_streamed() {
    let folder = Folder::new("standard-output");
    let expected = sounding(&folder);
    let ran = folder.render(&["s.txt", "-"]);
    ran.is(0, "standard output: 1.600 s\n");
    assert_eq!(streamed_samples(&ran.out), expected);
    folder.shell("\"$RENDER\" s.txt - >out.wav").is(0, "standard output: 1.600 s\n");
    assert_eq!(folder.read("out.wav"), ran.out);
    folder.shell("\"$RENDER\" s.txt /dev/stdout >out.wav").is(0, "/dev/stdout: 1.600 s\n");
    assert_eq!(folder.read("out.wav"), ran.out);
}

#[test]
fn a_file_behind_standard_output_is_not_cut() {
    let folder = Folder::new("appended");
    folder.write("s.txt", SILENCE);
    for out in ["-", "/dev/stdout"] {
        folder.shell(&format!("{{ echo before; \"$RENDER\" s.txt {out}; }} >out")).status.unwrap();
        let written = folder.read("out");
        assert!(written.starts_with(b"before\nRIFF"));
        assert_eq!(written.len(), 7 + 44 + 4 * 4410);
    }
}

#[test]
fn a_fifo_is_streamed() {
    let folder = Folder::new("fifo");
    let expected = sounding(&folder);
    folder.shell("mkfifo f && { cat f >out.wav & \"$RENDER\" s.txt f; wait; }").is(0, "f: 1.600 s\n");
    assert_eq!(streamed_samples(&folder.read("out.wav")), expected);
}

#[test]
fn devices_are_streamed() {
    let folder = Folder::new("devices");
    sounding(&folder);
    folder.render(&["s.txt", "/dev/null"]).is(0, "/dev/null: 1.600 s\n");
    let full = format!("cannot write /dev/full: No space left on device\n{INCOMPLETE}");
    folder.render(&["s.txt", "/dev/full"]).is(4, &full);
    folder.write("short.txt", SILENCE);
    folder.render(&["short.txt", "/dev/full"]).is(4, &full);
    folder.link("/dev/full", "full.wav");
    folder.render(&["s.txt", "full.wav"]).is(4, &full.replace("/dev/full", "full.wav"));
}

#[test]
fn a_file_that_is_open_for_other_purposes_is_not_written() {
    let folder = Folder::new("descriptors");
    folder.write("s.txt", SILENCE);
    folder.write("other.txt", "w 180 3FFF\n");
    let words = "this is an open file; give the file's own name";
    folder
        .shell("\"$RENDER\" s.txt /dev/stdin <other.txt")
        .is(4, &format!("cannot write /dev/stdin: {words}\n/dev/stdin is as it was before\n"));
    folder
        .shell("\"$RENDER\" s.txt /dev/fd/3 3<>other.txt")
        .is(4, &format!("cannot write /dev/fd/3: {words}\n/dev/fd/3 is as it was before\n"));
    assert_eq!(folder.read("other.txt"), b"w 180 3FFF\n");
    folder.shell("{ \"$RENDER\" s.txt /dev/fd/3 3>&1 >/dev/null | cat >out.wav; }").is(0, "/dev/fd/3: 0.100 s\n");
    assert_eq!(streamed_samples(&folder.read("out.wav")), [0; 2 * 4410]);
}

#[test]
fn a_broken_pipe_is_a_failure() {
    let folder = Folder::new("broken-pipe");
    sounding(&folder);
    let ran = folder.shell("{ \"$RENDER\" s.txt -; echo $? >status; } | head -c 10");
    assert_eq!(ran.out, b"RIFF\xFF\xFF\xFF\xFFWA");
    assert_eq!(ran.said, format!("cannot write standard output: Broken pipe\n{INCOMPLETE}"));
    assert_eq!(folder.read("status"), b"4\n");
}

#[test]
fn messages_that_nobody_reads_change_nothing() {
    let folder = Folder::new("broken-messages");
    folder.write("s.txt", format!("{}t 4410\n", "T\n".repeat(100_000)));
    folder.shell("{ \"$RENDER\" s.txt out.wav; echo $? >status; } 2>&1 >/dev/null | head -c 10");
    assert_eq!(folder.read("status"), b"2\n");
    assert_eq!(samples(&folder.read("out.wav")).len(), 2 * 4410);
}

#[test]
fn closed_standard_error_changes_nothing() {
    let folder = Folder::new("closed-standard-error");
    folder.write("s.txt", format!("T\n{DOUBTFUL}"));
    assert_eq!(folder.render(&["s.txt", "file.wav"]).status, Some(3));
    folder.shell("\"$RENDER\" s.txt out.wav 2>&-").is(3, "");
    assert_eq!(folder.read("out.wav"), folder.read("file.wav"));
    folder.shell("\"$RENDER\" s.txt out.wav <&- >&- 2>&-").is(3, "");
    assert_eq!(folder.read("out.wav"), folder.read("file.wav"));
    folder.shell("\"$RENDER\" s.txt - >stream.wav 2>&-").is(3, "");
    assert_eq!(streamed_samples(&folder.read("stream.wav")), samples(&folder.read("file.wav")));
}

#[test]
fn closed_standard_output_is_a_failure() {
    let folder = Folder::new("closed-standard-output");
    folder.write("s.txt", SILENCE);
    folder
        .shell("\"$RENDER\" s.txt - >&-")
        .is(4, "cannot write standard output: it is closed\nnothing was written to standard output\n");
    folder.shell("\"$RENDER\" s.txt out.wav >&-").is(0, "out.wav: 0.100 s\n");
}

#[test]
fn closed_standard_input_is_no_empty_script() {
    let folder = Folder::new("closed-standard-input");
    let earlier = folder.render_earlier("out.wav");
    folder
        .shell("\"$RENDER\" - out.wav <&-")
        .is(4, "cannot read standard input: it is closed\nout.wav is as it was before\n");
    assert_eq!(folder.read("out.wav"), earlier);
}

#[test]
fn no_progress_is_shown_but_on_a_terminal() {
    let folder = Folder::new("progress");
    let shell = |line| folder.shell(line);
    shell("{ echo t 44100; sleep 0.5; echo t 44100; } | \"$RENDER\" - out.wav").is(0, "out.wav: 2.000 s\n");
    if shell("command -v script").status != Some(0) {
        return;
    }
    folder.write("both", "{ echo t 44100; sleep 0.5; echo t 44100; echo T; } | \"$RENDER\" - out.wav\n");
    let ran = shell("script -qec 'sh both' /dev/null");
    let shown = String::from_utf8(ran.out).unwrap();
    let first = shown.split('\r').find(|part| part.ends_with(" s rendered"));
    assert!(first.is_some(), "{shown:?}");
    assert!(shown.contains(&format!("{}\rline 3: bad line ", " ".repeat(first.unwrap().len()))), "{shown:?}");
    assert!(shown.ends_with("out.wav: 2.000 s, lines bad or refused: 1\r\n"), "{shown:?}");
}
