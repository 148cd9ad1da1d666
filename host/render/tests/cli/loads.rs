use std::fs::File;

use crate::folder::{playing, samples, Folder, BLOCK};

#[test]
fn a_loaded_sample_sounds() {
    let folder = Folder::new("load");
    folder.write("block.bin", BLOCK);
    folder.write("s.txt", format!("l 1000 block.bin\n{}", playing(0x200)));
    folder.render(&["s.txt", "out.wav"]).is(0, "out.wav: 0.100 s\n");
    assert!(samples(&folder.read("out.wav")).iter().any(|&sample| sample > 1000));
}

#[test]
fn a_load_is_heard_as_a_transfer_is() {
    let folder = Folder::new("load-transfer");
    let halfwords: String = BLOCK.chunks(2).map(|pair| format!(" {:02X}{:02X}", pair[1], pair[0])).collect();
    folder.write("block.bin", BLOCK);
    for (name, line) in [("l.txt", "l 1000 block.bin"), ("s.txt", &format!("w 1A6 200\ns{halfwords}"))] {
        folder.write(name, format!("w 1AA C010\nt 1\n{line}\n{}", playing(0x200)));
    }
    folder.render(&["l.txt", "l.wav"]).is(0, "l.wav: 0.100 s\n");
    folder.render(&["s.txt", "s.wav"]).is(0, "s.wav: 0.100 s\n");
    assert_eq!(folder.read("l.wav"), folder.read("s.wav"));
}

#[test]
fn a_load_leaves_the_transfer_address() {
    let folder = Folder::new("load-address");
    folder.write("noise.bin", [0x55; 640]);
    folder.write("block.bin", BLOCK);
    let halfwords: String = BLOCK.chunks(2).map(|pair| format!(" {:02X}{:02X}", pair[1], pair[0])).collect();
    let script = |load| format!("w 1AA C010\nt 1\nw 1A6 200\n{load}s{halfwords}\n{}", playing(0x200));
    folder.write("with.txt", script("l 8000 noise.bin\n"));
    folder.write("without.txt", script(""));
    folder.render(&["with.txt", "with.wav"]).is(0, "with.wav: 0.100 s\n");
    folder.render(&["without.txt", "without.wav"]).is(0, "without.wav: 0.100 s\n");
    assert_eq!(folder.read("with.wav"), folder.read("without.wav"));
}

#[test]
fn a_sample_above_64_kib_needs_512() {
    let folder = Folder::new("load-high");
    folder.write("block.bin", BLOCK);
    folder.write("s.txt", format!("l 10000 block.bin\n{}", playing(0x2000)));
    folder.render(&["s.txt", "out.wav"]).is(0, "out.wav: 0.100 s\n");
    let small = folder.render(&["--ram", "64", "s.txt", "out.wav"]);
    assert_eq!(small.status, Some(3));
    let words = "line 1: cannot load block.bin: address 10000h lies beyond the end of sound RAM (65536 bytes)\n";
    assert!(small.said.starts_with(words), "{}", small.said);
}

#[test]
fn a_file_is_looked_for_beside_the_script() {
    let folder = Folder::new("load-beside");
    folder.make_folder("songs");
    folder.write("songs/big kick.bin", BLOCK);
    folder.write("songs/s.txt", "l 1000  big kick.bin \r\n");
    folder.render(&["songs/s.txt", "out.wav"]).is(0, "out.wav: 0.000 s\n");
    let absolute = folder.path("songs/big kick.bin");
    folder.write("s.txt", format!("l 1000 {}\nl 1000 songs/big kick.bin\n", absolute.display()));
    folder.render(&["s.txt", "out.wav"]).is(0, "out.wav: 0.000 s\n");
}

#[test]
fn a_file_is_looked_for_in_the_current_folder_if_the_script_is_standard_input() {
    let folder = Folder::new("load-current");
    folder.make_folder("songs");
    folder.write("block.bin", BLOCK);
    folder.write("songs/s.txt", "l 1000 block.bin\n");
    for script in ["-", "/dev/stdin"] {
        folder.shell(&format!("\"$RENDER\" {script} out.wav <songs/s.txt")).is(0, "out.wav: 0.000 s\n");
    }
}

#[test]
fn what_is_not_loaded_is_told() {
    let folder = Folder::new("load-refused");
    folder.make_folder("folder");
    folder.write("block.bin", BLOCK);
    folder.write("empty.bin", "");
    folder.write("odd.bin", [0; 33]);
    folder.write("large.bin", [0; 18]);
    File::create(folder.path("huge.bin")).unwrap().set_len(10 << 30).unwrap();
    folder.write(
        "s.txt",
        "l 1000 missing.bin\nl 1000 folder\nl 1000 empty.bin\nl 1000 odd.bin\nl 7FFF0 large.bin\nl 0 huge.bin\n\
         l 1004 block.bin\nl 80000 block.bin\nl 1000 /dev/zero\nl 1000\nl 100000 block.bin\nl 7FFF0 block.bin\nt 4410\n",
    );
    folder.render(&["s.txt", "out.wav"]).is(
        2,
        "line 1: cannot load missing.bin: No such file or directory\n\
         line 2: cannot load folder: Is a directory\n\
         line 3: cannot load empty.bin: it is empty\n\
         line 4: cannot load odd.bin: its length of 33 bytes is odd, but sound RAM takes halfwords of 2 bytes\n\
         line 5: cannot load large.bin: it has 18 bytes, but only 16 fit at this address\n\
         line 6: cannot load huge.bin: it has 10737418240 bytes, but only 524288 fit at this address\n\
         line 7: cannot load block.bin: address 1004h is not a multiple of 8\n\
         line 8: cannot load block.bin: address 80000h lies beyond the end of sound RAM (524288 bytes)\n\
         line 9: cannot load /dev/zero: it has more bytes than the 520192 that fit at this address\n\
         line 10: bad line (l ADDRESS FILE is expected, ADDRESS hex, 1 to 5 digits)\n\
         line 11: bad line (l ADDRESS FILE is expected, ADDRESS hex, 1 to 5 digits)\n\
         out.wav: 0.100 s, lines bad or refused: 11\n",
    );
}

#[test]
fn a_forbidden_file_is_not_loaded() {
    let folder = Folder::new("load-forbidden");
    if folder.belongs_to_root() {
        return;
    }
    folder.write("block.bin", BLOCK);
    folder.set_mode("block.bin", 0);
    folder.write("s.txt", "l 1000 block.bin\n");
    folder
        .render(&["s.txt", "out.wav"])
        .is(2, "line 1: cannot load block.bin: Permission denied\nout.wav: 0.000 s, lines bad or refused: 1\n");
}

#[test]
fn a_refused_load_loads_nothing() {
    let folder = Folder::new("load-nothing");
    folder.write("odd.bin", [&BLOCK[..], &[0]].concat());
    folder.write("s.txt", format!("l 1000 odd.bin\n{}", playing(0x200)));
    assert_eq!(folder.render(&["s.txt", "out.wav"]).status, Some(3));
    assert!(samples(&folder.read("out.wav")).iter().all(|&sample| sample == 0));
}

#[test]
fn the_output_file_is_not_loaded_nor_replaced() {
    let folder = Folder::new("load-output");
    let earlier = folder.render_earlier("out.wav");
    folder.hard_link("out.wav", "hard.bin");
    folder.link("out.wav", "soft.bin");
    for name in ["out.wav", "hard.bin", "soft.bin"] {
        folder.write("s.txt", format!("t 4410\nl 1000 {name}\nt 4410\n"));
        folder
            .render(&["s.txt", "out.wav"])
            .is(6, &format!("line 2: cannot load {name}: it is the output file\nout.wav is as it was before\n"));
        assert_eq!(folder.read("out.wav"), earlier);
    }
    assert_eq!(folder.names(), ["hard.bin", "out.wav", "s.txt", "soft.bin"]);
}
