use crate::folder::{Folder, SILENCE};

const USAGE: &str = "usage: render [OPTIONS] SCRIPT OUT (render --help says more)\n";

#[test]
fn help_tells_options_lines_and_status() {
    let folder = Folder::new("help");
    for help in [&["-h"][..], &["--help"], &["a", "b", "--help"]] {
        let ran = folder.render(help);
        ran.is(0, "");
        let text = String::from_utf8(ran.out).unwrap();
        assert!(text.starts_with("usage: render [OPTIONS] SCRIPT OUT\n"));
        for part in ["--ram", "--cd", "--title", "--house", "--version", "w OFFSET VALUE", "b NUMBER", "Exit status"] {
            assert!(text.contains(part), "{part}");
        }
        assert!(text.lines().all(|line| line.chars().count() <= 110));
    }
}

#[test]
fn the_version() {
    let ran = Folder::new("version").render(&["--version"]);
    ran.is(0, "");
    assert_eq!(ran.out, b"render 0.7.0\n");
}

#[test]
fn help_that_cannot_be_written_is_a_failure() {
    let folder = Folder::new("help-unwritten");
    folder.shell("\"$RENDER\" --help >/dev/full").is(4, "cannot write standard output: No space left on device\n");
    folder.shell("\"$RENDER\" --version >&-").is(4, "cannot write standard output: it is closed\n");
}

#[test]
fn wrong_usage_is_told_and_touches_nothing() {
    let folder = Folder::new("wrong-usage");
    folder.write("s.txt", SILENCE);
    for (arguments, words) in [
        (&[][..], "SCRIPT and OUT are missing"),
        (&["s.txt"], "OUT is missing"),
        (&["s.txt", "out.wav", "more.wav"], "one name too many: more.wav"),
        (&["--bogus", "s.txt", "out.wav"], "unknown option --bogus"),
        (&["s.txt", "out.wav", "-q"], "unknown option -q"),
        (&["s.txt", "out.wav", "--ram", "128"], "--ram takes 512 or 64, not 128"),
        (&["s.txt", "out.wav", "--ram"], "--ram needs a value, 512 or 64"),
        (&["s.txt", "out.wav", "--cd"], "--cd needs the name of a WAV file"),
        (&["s.txt", "out.wav", "--title"], "--title needs the name of a bank"),
        (&["s.txt", "out.wav", "--house="], "--house needs the name of a bank"),
        (&["s.txt", ""], "the name of OUT is empty"),
    ] {
        folder.render(arguments).is(4, &format!("{words}; nothing was written\n{USAGE}"));
    }
    assert_eq!(folder.names(), ["s.txt"]);
}

#[test]
fn options_stand_anywhere_and_two_hyphens_end_them() {
    let folder = Folder::new("options");
    folder.write("-s.txt", SILENCE);
    folder.render(&["--ram=64", "--", "-s.txt", "-out.wav"]).is(0, "-out.wav: 0.100 s\n");
    folder.render(&["./-s.txt", "--ram", "64", "out.wav", "--cd=-out.wav"]).is(0, "out.wav: 0.100 s\n");
    assert_eq!(folder.read("out.wav"), folder.read("-out.wav"));
}
