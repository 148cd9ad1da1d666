use crate::folder::{samples, Folder};

/// A script that passes the CD input on, as loud as it is, for some ticks.
fn passing_on(ticks: u32) -> String {
    format!("w 180 3FFF\nw 182 3FFF\nw 1B0 7FFF\nw 1B2 7FFF\nw 1AA C001\nt {ticks}\n")
}

fn ramp(pairs: i16) -> Vec<u8> {
    (1..=pairs).flat_map(|k| [100 * k, -100 * k]).flat_map(i16::to_le_bytes).collect()
}

fn wav(format: &[u8], sound: &[u8]) -> Vec<u8> {
    let length = |bytes: usize| (bytes as u32).to_le_bytes();
    let format = [b"fmt ", &length(format.len())[..], format].concat();
    let extra = *b"LIST\x03\0\0\0odd\0";
    let all = 4 + format.len() + extra.len() + 8 + sound.len();
    [b"RIFF", &length(all)[..], b"WAVE", &extra, &format, b"data", &length(sound.len()), sound].concat()
}

const FORMAT: [u8; 16] = [1, 0, 2, 0, 0x44, 0xAC, 0, 0, 0x10, 0xB1, 2, 0, 4, 0, 16, 0];

fn extensible() -> Vec<u8> {
    let mut format = FORMAT.to_vec();
    format[..2].copy_from_slice(&[0xFE, 0xFF]);
    format.extend([22, 0, 16, 0, 3, 0, 0, 0, 1, 0, 0, 0, 0, 0, 0x10, 0, 0x80, 0, 0, 0xAA, 0, 0x38, 0x9B, 0x71]);
    format
}

/// A sample of the CD after its volume and the main volume, each of which rounds down.
fn passed_on(sample: i16) -> i16 {
    ((((i32::from(sample) * 0x7FFF) >> 15) * 0x7FFE) >> 15) as i16
}

#[track_caller]
fn assert_ramp_then_silence(samples: &[i16], pairs: i16) {
    let expected = (1..=pairs).flat_map(|k| [passed_on(100 * k), passed_on(-100 * k)]).chain(std::iter::repeat(0));
    assert_eq!(samples, expected.take(samples.len()).collect::<Vec<_>>());
}

#[test]
fn a_cd_file_is_played_from_tick_0_and_then_silence() {
    let folder = Folder::new("cd");
    folder.write("s.txt", passing_on(5000));
    folder.write("plain.wav", wav(&FORMAT, &ramp(300)));
    folder.write("extensible.wav", wav(&extensible(), &ramp(300)));
    for cd in ["plain.wav", "extensible.wav"] {
        folder.render(&["s.txt", "out.wav", "--cd", cd]).is(0, "out.wav: 0.113 s\n");
        assert_ramp_then_silence(&samples(&folder.read("out.wav")), 300);
    }
}

#[test]
fn a_long_cd_file_goes_on_through_many_lines() {
    let folder = Folder::new("cd-long");
    folder.write("s.txt", format!("{}t 100\nt 55\n", passing_on(45)));
    folder.write("cd.wav", wav(&FORMAT, &ramp(300)));
    folder.render(&["s.txt", "out.wav", "--cd=cd.wav"]).is(0, "out.wav: 0.005 s\n");
    assert_ramp_then_silence(&samples(&folder.read("out.wav")), 200);
}

#[test]
fn a_streamed_file_is_played_to_its_end() {
    let folder = Folder::new("cd-streamed");
    folder.write("s.txt", passing_on(300));
    folder.write("first.wav", wav(&FORMAT, &ramp(200)));
    folder.shell("\"$RENDER\" s.txt - --cd first.wav >cd.wav").is(0, "standard output: 0.007 s\n");
    folder.render(&["s.txt", "out.wav", "--cd", "cd.wav"]).is(0, "out.wav: 0.007 s\n");
    let played = samples(&folder.read("out.wav"));
    assert!(played[398] > 19_900 && played[400..].iter().all(|&sample| (-2..=0).contains(&sample)));
}

#[test]
fn script_and_cd_do_not_come_from_one_pipe() {
    let folder = Folder::new("cd-one-pipe");
    folder.write("s.txt", passing_on(100));
    folder.write("cd.wav", wav(&FORMAT, &ramp(100)));
    for line in ["cat s.txt cd.wav | X - out.wav --cd /dev/stdin", "X - out.wav --cd /dev/fd/0 <s.txt"] {
        let line = line.replace('X', "\"$RENDER\"");
        folder.shell(&line).is(4, "standard input cannot be both SCRIPT and the CD\nout.wav was not written\n");
    }
}

#[test]
fn a_pipe_is_played() {
    let folder = Folder::new("cd-pipe");
    folder.write("s.txt", passing_on(300));
    folder.write("cd.wav", wav(&FORMAT, &ramp(200)));
    folder.shell("cat cd.wav | \"$RENDER\" s.txt out.wav --cd /dev/stdin").is(0, "out.wav: 0.007 s\n");
    assert_ramp_then_silence(&samples(&folder.read("out.wav")), 200);
}

#[test]
fn a_file_that_is_cut_short_is_played_as_far_as_it_goes() {
    let folder = Folder::new("cd-cut");
    let whole = wav(&FORMAT, &ramp(300));
    folder.write("cd.wav", &whole[..whole.len() - 4 * 200 - 1]);
    folder.write("s.txt", passing_on(1000));
    folder.render(&["s.txt", "out.wav", "--cd", "cd.wav"]).is(
        0,
        "cd.wav is shorter than its header says: its sound ends at 0.002 s, and silence follows\nout.wav: 0.023 s\n",
    );
    assert_ramp_then_silence(&samples(&folder.read("out.wav")), 99);
}

#[test]
fn another_file_is_refused() {
    let folder = Folder::new("cd-refused");
    folder.write("s.txt", passing_on(10));
    folder.make_folder("folder");
    folder.write("words.wav", "some words, but no sound\n");
    let mono = [1, 0, 1, 0, 0x22, 0x56, 0, 0, 0x22, 0x56, 0, 0, 1, 0, 8, 0];
    folder.write("mono.wav", wav(&mono, &ramp(3)));
    for (cd, words) in [
        ("missing.wav", "cannot read missing.wav: No such file or directory"),
        ("folder", "cannot read folder: Is a directory"),
        ("words.wav", "words.wav is not a WAV file; a WAV file of 16 bits, stereo, 44100 Hz, PCM is wanted"),
        ("mono.wav", "mono.wav is a WAV file of 8 bits, mono, 22050 Hz, PCM; 16 bits, stereo, 44100 Hz, PCM is wanted"),
    ] {
        folder.render(&["s.txt", "out.wav", "--cd", cd]).is(4, &format!("{words}\nout.wav was not written\n"));
    }
    assert!(!folder.names().contains(&"out.wav".to_owned()));
}
