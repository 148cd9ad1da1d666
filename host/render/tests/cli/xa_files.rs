//! `xa`: what it reads and what it writes.

use std::io::Read;

use crate::folder::{ran, samples, streamed_samples, Folder, XA};
use crate::sectors::{damage, sector, sectors, vectors, MONO, STEREO, VIDEO};
use crate::signals::{begin, send, wait_until, SIGINT, SIGTERM};

const DECODED: &str = "0.320 s, stereo, 37800 Hz, sectors decoded: 6";

/// A file of the stereo vectors, and the samples.
fn with_vectors(name: &str) -> (Folder, Vec<i16>) {
    let folder = Folder::new(name);
    let (groups, expected) = vectors("stereo");
    folder.write("a.xa", groups.concat());
    (folder, expected)
}

#[test]
fn streams_get_the_sound_with_a_header_for_unknown_length() {
    let (folder, expected) = with_vectors("xa-streams");
    let ran = folder.xa(&["a.xa", "-"]);
    ran.is(0, &format!("standard output: {DECODED}\n"));
    assert_eq!(streamed_samples(&ran.out), expected);
    folder.shell("\"$XA\" a.xa /dev/stdout >out.wav").is(0, &format!("/dev/stdout: {DECODED}\n"));
    assert_eq!(folder.read("out.wav"), ran.out);
    folder.shell("mkfifo f && { cat f >fifo.wav & \"$XA\" a.xa f; wait; }").is(0, &format!("f: {DECODED}\n"));
    assert_eq!(folder.read("fifo.wav"), ran.out);
    folder.xa(&["a.xa", "/dev/null"]).is(0, &format!("/dev/null: {DECODED}\n"));
    folder
        .xa(&["a.xa", "/dev/full"])
        .is(4, "cannot write /dev/full: No space left on device\nwhat was written of the stream is incomplete\n");
}

#[test]
fn standard_input_and_pipes_need_the_bytes_of_a_sector() {
    let (folder, expected) = with_vectors("xa-input");
    folder.shell("mkfifo f").is(0, "");
    for (line, name) in [
        ("\"$XA\" - out.wav <a.xa", "standard input"),
        ("cat a.xa | \"$XA\" - out.wav", "standard input"),
        ("cat a.xa | \"$XA\" /dev/stdin out.wav", "standard input"),
        ("\"$XA\" f out.wav", "f"),
    ] {
        let said = format!("{name} is read only once, so xa needs --sector N\nout.wav was not written\n");
        folder.shell(line).is(4, &said);
        let line = line.replace("out.wav", "new.wav --sector 2304");
        let writer = if name == "f" { "cat a.xa >f & " } else { "" };
        folder.shell(&format!("{writer}{line}")).is(0, &format!("new.wav: {DECODED}\n"));
        assert_eq!(samples(&folder.read("new.wav")), expected);
    }
    folder.shell("\"$XA\" - out.wav <&-").is(4, "cannot read standard input: it is closed\nout.wav was not written\n");
    folder.shell("head -c 3000 a.xa | \"$XA\" - out.wav --sector 2304").is(
        1,
        "sector 1 (byte 2304, 0.053 s) is left out as silence: it ends after 696 of 2304 bytes\n\
         out.wav: 0.107 s, stereo, 37800 Hz, sectors decoded: 1, left out as silence: 1\n",
    );
    for (bytes, words) in [(2304, "is empty"), (2336, "holds no sound")] {
        let ran = folder.shell(&format!("\"$XA\" - out.wav --sector {bytes} </dev/null"));
        ran.is(4, &format!("standard input {words}\nout.wav is as it was before\n"));
    }
}

#[test]
fn the_first_sound_of_standard_input_is_decoded() {
    let folder = Folder::new("xa-input-first");
    let ((stereo, stereo_heard), (mono, mono_heard)) = (vectors("stereo"), vectors("mono"));
    let mut file = sectors(2352, VIDEO, &mono[..2]);
    for (stereo, mono) in stereo.iter().zip(&mono) {
        file.extend(sector(2352, [1, 7, 0x64, 1], stereo));
        file.extend(sector(2352, MONO, mono));
    }
    folder.write("a.xa", file);
    for (option, told, expected) in [
        ("", "0.320 s, stereo, 37800 Hz", &stereo_heard),
        ("--channel 7", "0.320 s, stereo, 37800 Hz", &stereo_heard),
        ("--channel 1:0", "0.640 s, mono, 37800 Hz", &mono_heard),
    ] {
        folder
            .shell(&format!("cat a.xa | \"$XA\" --sector 2352 {option} - out.wav"))
            .is(0, &format!("out.wav: {told}, sectors decoded: 6, skipped: 8\n"));
        assert_eq!(samples(&folder.read("out.wav")), *expected);
    }
    folder
        .shell("cat a.xa | \"$XA\" --sector 2352 --channel 2:0 - new.wav")
        .is(4, "standard input holds no such sound\nnew.wav was not written\n");
    folder
        .shell("head -c 4704 a.xa | \"$XA\" --sector 2352 - new.wav")
        .is(4, "standard input holds no sound\nnew.wav was not written\n");
}

#[test]
fn a_wav_file_is_replaced_and_nothing_else() {
    let (folder, expected) = with_vectors("xa-replacing");
    folder.render_earlier("out.wav");
    folder.set_mode("out.wav", 0o640);
    folder.link("out.wav", "link.wav");
    folder.xa(&["a.xa", "link.wav"]).is(0, &format!("link.wav: {DECODED}\n"));
    assert_eq!((samples(&folder.read("out.wav")), folder.mode("out.wav")), (expected, 0o640));
    folder.write("b.xa", folder.read("a.xa"));
    folder.xa(&["a.xa", "b.xa"]).is(
        4,
        "b.xa is not a WAV file, and xa replaces only WAV files; nothing was written\nb.xa is as it was before\n",
    );
    assert_eq!(folder.read("b.xa"), folder.read("a.xa"));
    assert_eq!(folder.names(), ["a.xa", "b.xa", "link.wav", "out.wav"]);
}

#[test]
fn the_input_is_never_replaced() {
    let (folder, _) = with_vectors("xa-same");
    let before = folder.read("a.xa");
    folder.link("a.xa", "soft.wav");
    folder.hard_link("a.xa", "hard.wav");
    for out in ["a.xa", "./a.xa", "soft.wav", "hard.wav"] {
        folder.xa(&["a.xa", out]).is(
            4,
            &format!("a.xa and the output {out} are the same file; nothing was written\n{out} is as it was before\n"),
        );
    }
    folder
        .shell("\"$XA\" --sector 2304 - a.xa <a.xa")
        .is(4, "standard input and the output a.xa are the same file; nothing was written\na.xa is as it was before\n");
    folder.shell("\"$XA\" a.xa - >>a.xa").is(
        4,
        "a.xa and the output standard output are the same file; nothing was written\n\
         nothing was written to standard output\n",
    );
    folder.shell("\"$XA\" a.xa - >both 2>&1").is(4, "");
    assert_eq!(folder.read("a.xa"), before);
}

#[test]
fn files_that_cannot_be_read_or_written_are_told() {
    let (folder, _) = with_vectors("xa-unread");
    let earlier = folder.render_earlier("out.wav");
    folder.make_folder("folder");
    let fate = "out.wav is as it was before\n";
    folder.xa(&["missing.xa", "out.wav"]).is(4, &format!("cannot read missing.xa: No such file or directory\n{fate}"));
    folder.xa(&["folder", "out.wav"]).is(4, &format!("cannot read folder: Is a directory\n{fate}"));
    folder
        .xa(&["a.xa", "missing/out.wav"])
        .is(4, "cannot write missing/out.wav: No such file or directory\nmissing/out.wav was not written\n");
    folder
        .shell("ulimit -f 8; exec \"$XA\" a.xa out.wav")
        .is(4, &format!("cannot write out.wav: File too large\n{fate}"));
    assert_eq!(folder.read("out.wav"), earlier);
    assert_eq!(folder.names(), ["a.xa", "folder", "out.wav"]);
}

#[test]
fn an_interrupted_run_leaves_what_was_before() {
    let (folder, _) = with_vectors("xa-signal");
    let earlier = folder.render_earlier("out.wav");
    for signal in [SIGINT, SIGTERM] {
        let child = begin(&mut folder.command(XA, &["--sector", "2304", "-", "out.wav"]), folder.read("a.xa"));
        let temporary = folder.path(&format!(".out.wav.xa-{}.tmp", child.id()));
        wait_until(|| temporary.metadata().is_ok_and(|metadata| metadata.len() == 44 + 6 * 8064));
        send(signal, &child);
        let ran = ran(child.wait_with_output().unwrap());
        assert_eq!((ran.status, ran.signal), (None, Some(signal)));
        assert_eq!(ran.said, "interrupted; the output is as it was before\n");
        assert_eq!(folder.read("out.wav"), earlier);
        assert_eq!(folder.names(), ["a.xa", "out.wav"]);
    }
}

#[test]
fn a_stream_hears_each_sector_at_once() {
    let (folder, expected) = with_vectors("xa-live");
    let groups = folder.read("a.xa");
    let mut child = begin(&mut folder.command(XA, &["--sector", "2304", "-", "-"]), &groups[..2304]);
    let mut sound = vec![0; 44 + 8064];
    child.stdout.as_mut().unwrap().read_exact(&mut sound).unwrap();
    assert_eq!(streamed_samples(&sound), expected[..4032]);
    drop(child.stdin.take());
    ran(child.wait_with_output().unwrap()).is(0, "standard output: 0.053 s, stereo, 37800 Hz, sectors decoded: 1\n");
}

#[test]
fn no_progress_is_shown_but_on_a_terminal() {
    let folder = Folder::new("xa-progress");
    let (mut groups, _) = vectors("stereo");
    damage(&mut groups[1], 0);
    folder.write("a.xa", sectors(2336, STEREO, &groups[..1]));
    folder.write("b.xa", sectors(2336, STEREO, &groups[1..2]));
    folder.write("both", "{ cat a.xa; sleep 0.5; cat a.xa b.xa; } | \"$XA\" --sector 2336 - out.wav\n");
    let last = "out.wav: 0.160 s, stereo, 37800 Hz, sectors decoded: 2, left out as silence: 1";
    let ran = folder.shell("sh both");
    assert!(ran.said.starts_with("sector 2 ") && ran.said.ends_with(&format!("\n{last}\n")), "{}", ran.said);
    if folder.shell("command -v script").status != Some(0) {
        return;
    }
    let shown = String::from_utf8(folder.shell("script -qec 'sh both' /dev/null").out).unwrap();
    let progress = shown.split('\r').find(|part| part.ends_with(" s decoded"));
    assert!(progress.is_some(), "{shown:?}");
    assert!(shown.contains(&format!("{}\rsector 2 (byte 4672, ", " ".repeat(progress.unwrap().len()))), "{shown:?}");
    assert!(shown.ends_with(&format!("{last}\r\n")), "{shown:?}");
}
