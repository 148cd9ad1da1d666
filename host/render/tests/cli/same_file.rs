use crate::folder::{Folder, SILENCE};

fn same(input: &str, output: &str, untouched: &str) -> String {
    format!("{input} and the output {output} are the same file; nothing was written\n{untouched}\n")
}

#[test]
fn the_script_is_never_replaced() {
    let folder = Folder::new("same-script");
    folder.write("s.wav", SILENCE);
    folder.link("s.wav", "soft.wav");
    folder.link("soft.wav", "softer.wav");
    folder.hard_link("s.wav", "hard.wav");
    for [script, out] in [
        ["s.wav", "s.wav"],
        ["s.wav", "./s.wav"],
        ["s.wav", "soft.wav"],
        ["s.wav", "softer.wav"],
        ["s.wav", "hard.wav"],
        ["soft.wav", "s.wav"],
        ["hard.wav", "softer.wav"],
    ] {
        let said = same(script, out, &format!("{out} is as it was before"));
        folder.render(&[script, out]).is(4, &said);
    }
    assert_eq!(folder.read("s.wav"), SILENCE.as_bytes());
    assert_eq!(folder.names(), ["hard.wav", "s.wav", "soft.wav", "softer.wav"]);
}

#[test]
fn the_cd_file_is_never_replaced() {
    let folder = Folder::new("same-cd");
    let cd = folder.render_earlier("cd.wav");
    folder.write("s.txt", SILENCE);
    folder.hard_link("cd.wav", "hard.wav");
    for out in ["cd.wav", "hard.wav"] {
        let said = same("cd.wav", out, &format!("{out} is as it was before"));
        folder.render(&["s.txt", out, "--cd", "cd.wav"]).is(4, &said);
    }
    assert_eq!(folder.read("cd.wav"), cd);
}

#[test]
fn a_bank_is_never_replaced() {
    let folder = Folder::new("same-bank");
    folder.write("s.txt", SILENCE);
    folder.write("a.bank", [0, 0]);
    folder.hard_link("a.bank", "hard.wav");
    for [option, out] in [["--title", "a.bank"], ["--house", "a.bank"], ["--house", "hard.wav"]] {
        let said = same("a.bank", out, &format!("{out} is as it was before"));
        folder.render(&["s.txt", out, option, "a.bank"]).is(4, &said);
    }
    assert_eq!(folder.read("a.bank"), [0, 0]);
}

#[test]
fn standard_input_from_the_output_is_refused() {
    let folder = Folder::new("same-standard-input");
    folder.write("s.wav", SILENCE);
    let said = same("standard input", "s.wav", "s.wav is as it was before");
    folder.shell("\"$RENDER\" - s.wav <s.wav").is(4, &said);
    folder.shell("\"$RENDER\" - s.wav <>s.wav").is(4, &said);
    assert_eq!(folder.read("s.wav"), SILENCE.as_bytes());
}

#[test]
fn standard_output_to_an_input_is_refused() {
    let folder = Folder::new("same-standard-output");
    folder.write("s.txt", SILENCE);
    let cd = folder.render_earlier("cd.wav");
    let said = |input| same(input, "standard output", "nothing was written to standard output");
    folder.shell("\"$RENDER\" s.txt - >>s.txt").is(4, &said("s.txt"));
    folder.shell("\"$RENDER\" s.txt - 1<>s.txt").is(4, &said("s.txt"));
    folder.shell("\"$RENDER\" - - <s.txt >>s.txt").is(4, &said("standard input"));
    folder.shell("\"$RENDER\" s.txt - --cd cd.wav >>cd.wav").is(4, &said("cd.wav"));
    let said = same("s.txt", "/dev/stdout", "/dev/stdout is as it was before");
    folder.shell("\"$RENDER\" s.txt /dev/stdout >>s.txt").is(4, &said);
    assert_eq!(folder.read("s.txt"), SILENCE.as_bytes());
    assert_eq!(folder.read("cd.wav"), cd);
}

#[test]
fn one_fifo_for_both_is_refused() {
    let folder = Folder::new("same-fifo");
    let said = same("f", "f", "f is as it was before");
    folder.shell("mkfifo f && \"$RENDER\" f f").is(4, &said);
}

#[test]
fn messages_in_the_sound_are_refused() {
    let folder = Folder::new("same-standard-error");
    folder.write("s.txt", SILENCE);
    folder.shell("\"$RENDER\" s.txt - >both 2>&1").is(4, "");
    let said = same("standard error", "standard output", "nothing was written to standard output");
    assert_eq!(folder.read("both"), said.as_bytes());
}

#[test]
fn a_file_that_is_no_wav_file_is_not_replaced() {
    let folder = Folder::new("no-wav");
    let earlier = folder.render_earlier("s.wav");
    for content in ["w 180 3FFF\nt 1\n", "x", "RIFF....AVI LIST", "RIFF\0\0\0\0WAV"] {
        folder.write("song.txt", content);
        folder.render(&["s.wav", "song.txt"]).is(
            4,
            "song.txt is not a WAV file, and render replaces only WAV files; nothing was written\n\
             song.txt is as it was before\n",
        );
        assert_eq!(folder.read("song.txt"), content.as_bytes());
    }
    assert_eq!(folder.read("s.wav"), earlier);
    assert_eq!(folder.names(), ["s.wav", "song.txt"]);
}

#[test]
fn an_empty_file_is_replaced() {
    let folder = Folder::new("empty-target");
    folder.write("s.txt", SILENCE);
    folder.write("out", "");
    folder.render(&["s.txt", "out"]).is(0, "out: 0.100 s\n");
    assert_eq!(folder.read("out").len(), 44 + 4 * 4410);
}
