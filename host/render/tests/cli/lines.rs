use crate::folder::{playing, samples, Folder, DOUBTFUL, SILENCE};

#[test]
fn a_good_script_gives_a_wav_file() {
    let folder = Folder::new("good");
    folder.write("s.txt", "t 44100\nt 44100\nt 44100\nt 0\n");
    folder.render(&["s.txt", "out.wav"]).is(0, "out.wav: 3.000 s\n");
    assert_eq!(samples(&folder.read("out.wav")), [0; 2 * 132_300]);
    assert_eq!(folder.names(), ["out.wav", "s.txt"]);
}

#[test]
fn an_empty_script_gives_no_sound() {
    let folder = Folder::new("empty");
    folder.write("s.txt", "");
    folder.render(&["s.txt", "out.wav"]).is(0, "out.wav: 0.000 s\n");
    assert_eq!(folder.read("out.wav").len(), 44);
}

#[test]
fn bad_and_refused_lines_are_told_and_left_out() {
    let folder = Folder::new("bad-lines");
    folder.write("s.txt", "t 1\nT 1\nw 180 8000\ns 0\nw 180\nw 1AE 0\nw 1A1 0\nw A 2000\nt 65536\nt 1");
    folder.render(&["s.txt", "out.wav"]).is(
        2,
        "line 2: bad line (w OFFSET VALUE, s V .., t N, l ADDRESS FILE, b NUMBER or # is expected)\n\
         line 3: refused (5): this register, or this value of it, is not carried\n\
         line 4: refused (6): another transfer mode is applied (SPUCNT bits 5-4 act from the next tick on); \
         mode 1 or 2 moves inward, 3 outward\n\
         line 5: bad line (w OFFSET VALUE is expected, each hex, 1 to 4 digits)\n\
         line 6: refused (4): this register can only be read\n\
         line 7: refused (3): there is no register at this offset\n\
         line 8: refused (11): the value sets a bit that nobody has documented (bit 13 of a voice's +Ah; \
         bits 15-8 of 18Ah, 18Eh, 192h, 196h, 19Ah; bits 15-4 and 0 of 1ACh)\n\
         line 9: bad line (t N is expected, N decimal, up to 65535)\n\
         out.wav: 0.000 s, lines bad or refused: 8\n",
    );
    assert_eq!(samples(&folder.read("out.wav")).len(), 4);
}

#[test]
fn doubt_is_told_from_its_first_tick_on() {
    let folder = Folder::new("doubt");
    folder.write("s.txt", DOUBTFUL);
    folder.render(&["s.txt", "out.wav"]).is(
        1,
        "line 5: from tick 4410 (0.100 s) on the sound may rest on memory that nobody loaded\n\
         out.wav: 1.000 s, in doubt from 0.100 s on\n",
    );
}

#[test]
fn doubt_and_refused_lines_are_told_together() {
    let folder = Folder::new("doubt-and-lines");
    folder.write("s.txt", format!("{DOUBTFUL}t\n"));
    folder.render(&["s.txt", "out.wav"]).is(
        3,
        "line 5: from tick 4410 (0.100 s) on the sound may rest on memory that nobody loaded\n\
         line 6: bad line (t N is expected, N decimal, up to 65535)\n\
         out.wav: 1.000 s, lines bad or refused: 1, in doubt from 0.100 s on\n",
    );
}

#[test]
fn comments_and_blank_lines_are_passed_over_and_counted() {
    let folder = Folder::new("comments");
    folder.write("s.txt", "# A song\n\n  \t\r\n\t# more\r\nt 4410\r\n#\nx\n");
    folder.render(&["s.txt", "out.wav"]).is(
        2,
        "line 7: bad line (w OFFSET VALUE, s V .., t N, l ADDRESS FILE, b NUMBER or # is expected)\n\
         out.wav: 0.100 s, lines bad or refused: 1\n",
    );
}

#[test]
fn lines_may_be_long() {
    let folder = Folder::new("long-lines");
    let [zeros, blanks, comment] = ["0", " \t", "x"].map(|piece| piece.repeat(1_000_000));
    folder.write(
        "s.txt",
        format!("#{comment}\nw{blanks}1AA C010\nt {zeros}1\ns 1{blanks}2\ns{}\nt 1", " 0".repeat(100_000)),
    );
    folder
        .render(&["s.txt", "out.wav"])
        .is(2, "line 5: refused (7): a transfer moves 1 to 32 halfwords\nout.wav: 0.000 s, lines bad or refused: 1\n");
}

#[test]
fn standard_input_is_a_script() {
    let folder = Folder::new("standard-input");
    folder.shell("printf 't 4410\\n' | \"$RENDER\" - out.wav").is(0, "out.wav: 0.100 s\n");
    folder.write("s.txt", SILENCE);
    folder.shell("\"$RENDER\" - two.wav <s.txt").is(0, "two.wav: 0.100 s\n");
    folder.shell("\"$RENDER\" /dev/stdin three.wav <s.txt").is(0, "three.wav: 0.100 s\n");
    assert_eq!(folder.read("out.wav"), folder.read("two.wav"));
    assert_eq!(folder.read("out.wav"), folder.read("three.wav"));
}

#[test]
fn a_fifo_is_a_script() {
    let folder = Folder::new("script-fifo");
    folder.shell("mkfifo s && { printf 't 4410\\n' >s & \"$RENDER\" s out.wav; }").is(0, "out.wav: 0.100 s\n");
}

#[test]
fn small_sound_ram_is_met_again_from_its_beginning() {
    let folder = Folder::new("ram");
    // Address 10000h is 0 in 64 KiB, where ticks write what they capture, faster than the voice reads.
    folder.write("s.txt", format!("t 8\n{}", playing(0x2000)));
    folder.render(&["--ram", "64", "s.txt", "small.wav"]).is(0, "small.wav: 0.100 s\n");
    let in_doubt = "line 11: from tick 8 (0.000 s) on the sound may rest on memory that nobody loaded\n\
                    large.wav: 0.100 s, in doubt from 0.000 s on\n";
    folder.render(&["--ram", "512", "s.txt", "large.wav"]).is(1, in_doubt);
    folder.render(&["s.txt", "large.wav"]).is(1, in_doubt);
}
