//! `xa`: its command line.

use crate::folder::Folder;
use crate::sectors::{sectors, vectors, MONO};

const USAGE: &str = "usage: xa [OPTIONS] FILE OUT (xa --help says more)\n";

#[test]
fn help_and_version() {
    let folder = Folder::new("xa-help");
    for help in [&["-h"][..], &["--help"], &["a", "b", "--help"]] {
        let ran = folder.xa(help);
        ran.is(0, "");
        let text = String::from_utf8(ran.out).unwrap();
        assert!(text.starts_with("usage: xa [OPTIONS] FILE OUT\n"));
        for part in ["--sector", "--channel", "--mono", "--stereo", "--rate", "--version", "Exit status"] {
            assert!(text.contains(part), "{part}");
        }
        assert!(text.lines().all(|line| line.chars().count() <= 110));
    }
    let ran = folder.xa(&["--version"]);
    ran.is(0, "");
    assert_eq!(ran.out, concat!("xa ", env!("CARGO_PKG_VERSION"), "\n").as_bytes());
    folder.shell("\"$XA\" --help >/dev/full").is(4, "cannot write standard output: No space left on device\n");
    folder.shell("\"$XA\" --version >&-").is(4, "cannot write standard output: it is closed\n");
}

#[test]
fn wrong_usage_is_told_and_touches_nothing() {
    let folder = Folder::new("xa-wrong-usage");
    folder.write("a.xa", vectors("mono").0.concat());
    for (arguments, words) in [
        (&[][..], "FILE and OUT are missing"),
        (&["a.xa"], "OUT is missing"),
        (&["a.xa", "out.wav", "more.wav"], "one name too many: more.wav"),
        (&["--bogus", "a.xa", "out.wav"], "unknown option --bogus"),
        (&["a.xa", "out.wav", "--sector", "2048"], "--sector takes 2304, 2336 or 2352, not 2048"),
        (&["a.xa", "out.wav", "--rate=44100"], "--rate takes 37800 or 18900, not 44100"),
        (&["a.xa", "out.wav", "--channel", "1:256"], "--channel takes F:C or C, each 0 to 255, not 1:256"),
        (&["", "out.wav"], "the name of FILE is empty"),
    ] {
        folder.xa(arguments).is(2, &format!("{words}; nothing was written\n{USAGE}"));
    }
    assert_eq!(folder.names(), ["a.xa"]);
}

#[test]
fn options_that_do_not_fit_the_sectors_are_refused() {
    let folder = Folder::new("xa-unfit-options");
    let (groups, _) = vectors("mono");
    folder.write("plain.xa", groups.concat());
    folder.write("raw.xa", sectors(2352, MONO, &groups));
    let raw = "raw.xa has sectors of 2352 bytes, which say themselves";
    for (arguments, words) in [
        (&["raw.xa", "--mono"][..], format!("{raw} whether they are mono or stereo; leave out --mono")),
        (&["raw.xa", "--stereo", "--rate=18900"], format!("{raw} whether they are mono or stereo; leave out --stereo")),
        (&["raw.xa", "--rate", "37800", "--sector=2352"], format!("{raw} at which rate they play; leave out --rate")),
        (
            &["plain.xa", "--channel", "0"],
            "plain.xa has sectors of 2304 bytes, which belong to no channel; leave out --channel".to_owned(),
        ),
    ] {
        folder.xa(&[arguments, &["out.wav"]].concat()).is(4, &format!("{words}\nout.wav was not written\n"));
    }
    assert_eq!(folder.names(), ["plain.xa", "raw.xa"]);
}

#[test]
fn two_hyphens_end_options() {
    let folder = Folder::new("xa-options");
    folder.write("--mono", vectors("mono").0.concat());
    folder.xa(&["--mono", "--", "--mono", "-out.wav"]).is(0, "-out.wav: 0.640 s, mono, 37800 Hz, sectors decoded: 6\n");
}
