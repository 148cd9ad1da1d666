use std::fs;

use crate::folder::{Folder, DOUBTFUL, SILENCE};

/// Nothing is there but what was before.
#[track_caller]
fn assert_untouched(folder: &Folder, out: &[u8], names: &[&str]) {
    assert_eq!(folder.read("out.wav"), out);
    assert_eq!(folder.names(), names);
}

#[test]
fn a_wav_file_is_replaced_and_keeps_its_mode() {
    let folder = Folder::new("replaced");
    folder.render_earlier("out.wav");
    folder.write("s.txt", SILENCE);
    for mode in [0o600, 0o640, 0o666, 0o777] {
        folder.set_mode("out.wav", mode);
        folder.render(&["s.txt", "out.wav"]).is(0, "out.wav: 0.100 s\n");
        assert_eq!(folder.mode("out.wav"), mode);
    }
    assert_eq!(folder.read("out.wav").len(), 44 + 4 * 4410);
    assert_eq!(folder.names(), ["out.wav", "s.txt"]);
}

#[test]
fn a_new_file_has_the_mode_that_the_umask_leaves() {
    let folder = Folder::new("new-mode");
    folder.write("s.txt", SILENCE);
    folder.shell("umask 027; \"$RENDER\" s.txt out.wav").is(0, "out.wav: 0.100 s\n");
    assert_eq!(folder.mode("out.wav"), 0o640);
}

#[test]
fn links_stay_and_what_they_lead_to_is_replaced() {
    let folder = Folder::new("links");
    folder.write("s.txt", SILENCE);
    folder.make_folder("sounds");
    folder.render_earlier("sounds/real.wav");
    folder.link("sounds/real.wav", "link.wav");
    folder.link("../link.wav", "sounds/back.wav");
    for out in ["link.wav", "sounds/back.wav"] {
        folder.render(&["s.txt", out]).is(0, &format!("{out}: 0.100 s\n"));
        assert!(fs::symlink_metadata(folder.path(out)).unwrap().is_symlink());
        assert!(fs::symlink_metadata(folder.path("sounds/real.wav")).unwrap().is_file());
        assert_eq!(folder.read("sounds/real.wav").len(), 44 + 4 * 4410);
        folder.write("sounds/real.wav", "");
    }
}

#[test]
fn a_link_to_nothing_gets_its_file() {
    let folder = Folder::new("dangling");
    folder.write("s.txt", SILENCE);
    folder.make_folder("sounds");
    folder.link("sounds/new.wav", "link.wav");
    folder.render(&["s.txt", "link.wav"]).is(0, "link.wav: 0.100 s\n");
    assert!(fs::symlink_metadata(folder.path("link.wav")).unwrap().is_symlink());
    assert_eq!(folder.read("sounds/new.wav").len(), 44 + 4 * 4410);
    folder.link("missing/new.wav", "lost.wav");
    folder
        .render(&["s.txt", "lost.wav"])
        .is(4, "cannot write lost.wav: No such file or directory\nlost.wav was not written\n");
}

#[test]
fn links_in_a_circle_are_refused() {
    let folder = Folder::new("circle");
    folder.write("s.txt", SILENCE);
    folder.link("b.wav", "a.wav");
    folder.link("a.wav", "b.wav");
    folder
        .render(&["s.txt", "a.wav"])
        .is(4, "cannot write a.wav: too many levels of symbolic links\na.wav was not written\n");
}

#[test]
fn a_folder_is_no_script_and_no_output() {
    let folder = Folder::new("folders");
    let earlier = folder.render_earlier("out.wav");
    folder.make_folder("folder");
    folder.write("s.txt", SILENCE);
    folder.render(&["folder", "out.wav"]).is(4, "cannot read folder: Is a directory\nout.wav is as it was before\n");
    folder
        .shell("\"$RENDER\" - out.wav <folder")
        .is(4, "cannot read standard input: Is a directory\nout.wav is as it was before\n");
    folder.render(&["s.txt", "folder"]).is(4, "cannot write folder: Is a directory\nfolder is as it was before\n");
    folder.render(&["s.txt", "folder/"]).is(4, "cannot write folder/: Is a directory\nfolder/ is as it was before\n");
    folder.render(&["s.txt", "new/"]).is(4, "cannot write new/: Is a directory\nnew/ was not written\n");
    assert_untouched(&folder, &earlier, &["folder", "out.wav", "s.txt"]);
    assert_eq!(fs::read_dir(folder.path("folder")).unwrap().count(), 0);
}

#[test]
fn what_is_not_there_is_told() {
    let folder = Folder::new("missing");
    let earlier = folder.render_earlier("out.wav");
    folder.write("s.txt", SILENCE);
    folder
        .render(&["missing.txt", "out.wav"])
        .is(4, "cannot read missing.txt: No such file or directory\nout.wav is as it was before\n");
    folder
        .render(&["s.txt", "missing/out.wav"])
        .is(4, "cannot write missing/out.wav: No such file or directory\nmissing/out.wav was not written\n");
    folder
        .render(&["s.txt", "s.txt/out.wav"])
        .is(4, "cannot write s.txt/out.wav: Not a directory\ns.txt/out.wav was not written\n");
    assert_untouched(&folder, &earlier, &["out.wav", "s.txt"]);
}

#[test]
fn a_forbidden_file_is_not_replaced() {
    let folder = Folder::new("forbidden");
    if folder.belongs_to_root() {
        return;
    }
    let earlier = folder.render_earlier("out.wav");
    folder.write("s.txt", SILENCE);
    folder.set_mode("out.wav", 0o444);
    folder
        .render(&["s.txt", "out.wav"])
        .is(4, "cannot write out.wav: Permission denied\nout.wav is as it was before\n");
    assert_untouched(&folder, &earlier, &["out.wav", "s.txt"]);
}

#[test]
fn a_forbidden_folder_gets_no_file() {
    let folder = Folder::new("forbidden-folder");
    if folder.belongs_to_root() {
        return;
    }
    folder.make_folder("sounds");
    let earlier = folder.render_earlier("sounds/out.wav");
    folder.write("s.txt", SILENCE);
    folder.set_mode("sounds", 0o555);
    let ran = folder.render(&["s.txt", "sounds/out.wav"]);
    folder.set_mode("sounds", 0o755);
    ran.is(
        4,
        "cannot write sounds/out.wav: no new file may be created in its folder\nsounds/out.wav is as it was before\n",
    );
    assert_eq!(folder.read("sounds/out.wav"), earlier);
}

#[test]
fn a_full_disk_leaves_what_was_before() {
    let folder = Folder::new("full");
    let earlier = folder.render_earlier("out.wav");
    folder.write("s.txt", SILENCE);
    let limited = |arguments| folder.shell(&format!("ulimit -f 8; exec \"$RENDER\" {arguments}"));
    limited("s.txt out.wav").is(4, "cannot write out.wav: File too large\nout.wav is as it was before\n");
    limited("s.txt new.wav").is(4, "cannot write new.wav: File too large\nnew.wav was not written\n");
    assert_untouched(&folder, &earlier, &["out.wav", "s.txt"]);
}

#[test]
fn doubt_lines_and_failure_are_told_together() {
    let folder = Folder::new("full-doubt");
    folder.write("s.txt", DOUBTFUL);
    let ran = folder.shell("ulimit -f 8; exec \"$RENDER\" s.txt out.wav");
    ran.is(
        5,
        "line 5: from tick 4410 (0.100 s) on the sound may rest on memory that nobody loaded\n\
         cannot write out.wav: File too large\nout.wav was not written\n",
    );
    folder.write("s.txt", format!("T\n{DOUBTFUL}"));
    assert_eq!(folder.shell("ulimit -f 8; exec \"$RENDER\" s.txt out.wav").status, Some(7));
    folder.write("s.txt", format!("T\n{SILENCE}"));
    assert_eq!(folder.shell("ulimit -f 8; exec \"$RENDER\" s.txt out.wav").status, Some(6));
    assert_eq!(folder.names(), ["s.txt"]);
}

#[test]
#[cfg(target_os = "linux")]
fn a_script_that_breaks_off_leaves_what_was_before() {
    let folder = Folder::new("read-error");
    let earlier = folder.render_earlier("out.wav");
    folder
        .render(&["/proc/self/mem", "out.wav"])
        .is(4, "cannot read /proc/self/mem: Input/output error\nout.wav is as it was before\n");
    assert_untouched(&folder, &earlier, &["out.wav"]);
}

#[test]
fn a_temporary_file_of_another_run_stays() {
    let folder = Folder::new("stale");
    folder.write("s.txt", SILENCE);
    let ran = folder.shell("echo other >.out.wav.render-$$.tmp; exec \"$RENDER\" s.txt out.wav");
    ran.is(0, "out.wav: 0.100 s\n");
    let names = folder.names();
    assert_eq!(names.len(), 3);
    assert_eq!(folder.read(&names[0]), b"other\n");
}

#[test]
fn names_may_be_long_and_odd() {
    let folder = Folder::new("long-names");
    folder.write("s.txt", SILENCE);
    for name in ["x".repeat(255), "ü".repeat(127), "a\nb \u{1b}[1m.wav".to_owned()] {
        let shown: String = name.chars().map(|c| if c.is_control() { '?' } else { c }).collect();
        folder.render(&["s.txt", &name]).is(0, &format!("{shown}: 0.100 s\n"));
        assert_eq!(folder.read(&name).len(), 44 + 4 * 4410);
    }
    assert_eq!(folder.names().len(), 4);
}
