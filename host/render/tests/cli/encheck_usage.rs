//! `encheck`: its command line.

use crate::encoded::{decoded, mono_wav, some_blocks};
use crate::folder::Folder;

const USAGE: &str = "usage: encheck [OPTIONS] ORIGINAL.wav ENCODED [E] (encheck --help says more)\n";

#[test]
fn help_and_version() {
    let folder = Folder::new("encheck-help");
    for help in [&["-h"][..], &["--help"], &["a", "b", "--help"]] {
        let ran = folder.encheck(help);
        ran.is(0, "");
        let text = String::from_utf8(ran.out).unwrap();
        assert!(text.starts_with("usage: encheck [OPTIONS] ORIGINAL.wav ENCODED [E]\n"));
        for part in ["--pad", "--version", "0 to 65535", "counted from 0", "end flag", "filter", "Exit status"] {
            assert!(text.contains(part), "{part}");
        }
        assert!(text.lines().all(|line| line.chars().count() <= 110));
    }
    folder.encheck(&["--version"]).printed(0, concat!("encheck ", env!("CARGO_PKG_VERSION"), "\n"));
    folder.shell("\"$ENCHECK\" --help >/dev/full").is(4, "cannot write standard output: No space left on device\n");
    folder.shell("\"$ENCHECK\" --version >&-").is(4, "cannot write standard output: it is closed\n");
}

#[test]
fn wrong_usage_is_told() {
    let folder = Folder::new("encheck-wrong-usage");
    for (arguments, words) in [
        (&[][..], "ORIGINAL and ENCODED are missing"),
        (&["a.wav"], "ENCODED is missing"),
        (&["a.wav", "b", "65536"], "E is a decimal number, 0 to 65535, not 65536"),
        (&["a.wav", "b", "-1"], "E is a decimal number, 0 to 65535, not -1"),
        (&["a.wav", "b", "c.wav"], "E is a decimal number, 0 to 65535, not c.wav"),
        (&["a.wav", "b", ""], "E is a decimal number, 0 to 65535, not "),
        (&["a.wav", "b", "5", "more"], "one name too many: more"),
        (&["--bogus", "a.wav", "b"], "unknown option --bogus"),
        (&["a.wav", "b", "--pad=28"], "--pad takes no value"),
        (&["", "b"], "the name of ORIGINAL is empty"),
        (&["a.wav", ""], "the name of ENCODED is empty"),
    ] {
        let ran = folder.encheck(arguments);
        ran.is(2, &format!("{words}\n{USAGE}"));
        assert_eq!(ran.out, b"");
    }
}

#[test]
fn two_hyphens_end_options() {
    let folder = Folder::new("encheck-options");
    let blocks = some_blocks(2);
    folder.write("--pad", mono_wav(44_100, &decoded(&blocks)));
    folder.write("-5", &blocks);
    let yes = "yes: 2 blocks (0.001 s), every sample within 5 of its original\n";
    folder.encheck(&["--pad", "--", "--pad", "-5", "5"]).printed(0, yes);
}
