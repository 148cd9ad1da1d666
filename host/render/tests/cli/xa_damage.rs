//! `xa`: sectors that are left out, and sounds that cannot be decoded.

use tenonwhisk::xa::Channels;

use crate::folder::{samples, streamed_samples, Folder};
use crate::sectors::{damage, heard, sector, sectors, vectors, KINDS, MONO, STEREO, VIDEO};

const EIGHT_BITS: &str = "XA samples of 8 bits are not decoded, only those of 4 bits";

#[test]
fn a_damaged_sector_is_silence_and_the_next_goes_on_from_the_one_before() {
    let folder = Folder::new("xa-damaged");
    let (groups, whole) = vectors("stereo");
    for bytes in KINDS {
        for (n, time) in [(0, "0.000 s"), (2, "0.107 s"), (5, "0.267 s")] {
            let (mut damaged, mut others) = (groups.clone(), groups.clone());
            damage(&mut damaged[n], 17);
            damage(&mut damaged[n], 3);
            let [byte, copy] = [6, 2].map(|byte| damaged[n][128 * 3 + byte]);
            others.remove(n);
            folder.write("a.xa", sectors(bytes, STEREO, &damaged));
            folder.xa(&["a.xa", "out.wav"]).is(
                1,
                &format!(
                    "sector {n} (byte {}, {time}) is left out as silence: byte 6 of sound group 3 is {byte:02X}h, but \
                     its copy, byte 2, is {copy:02X}h\n\
                     out.wav: 0.320 s, stereo, 37800 Hz, sectors decoded: 5, left out as silence: 1\n",
                    n * bytes
                ),
            );
            let heard_now = samples(&folder.read("out.wav"));
            let (before, rest) = heard_now.split_at(4032 * n);
            assert_eq!(before, &whole[..4032 * n]);
            assert_eq!(rest[..4032], [0; 4032]);
            assert_eq!([before, &rest[4032..]].concat(), heard(Channels::Stereo, &others));
        }
    }
}

#[test]
fn damage_of_mono_sound_among_others_has_its_time() {
    let folder = Folder::new("xa-damaged-mono");
    let (mut groups, _) = vectors("mono");
    damage(&mut groups[1], 0);
    damage(&mut groups[4], 0);
    let [[first, first_copy], [second, second_copy]] = [1, 4].map(|n| [groups[n][6], groups[n][2]]);
    let file: Vec<u8> = groups
        .iter()
        .flat_map(|groups| [sector(2336, VIDEO, groups), sector(2336, [1, 0, 0x64, 0x04], groups)].concat())
        .collect();
    folder.write("a.xa", file);
    folder.xa(&["a.xa", "out.wav"]).is(
        1,
        &format!(
            "sector 3 (byte 7008, 0.213 s) is left out as silence: byte 6 of sound group 0 is {first:02X}h, but its \
             copy, byte 2, is {first_copy:02X}h\n\
             sector 9 (byte 21024, 0.853 s) is left out as silence: byte 6 of sound group 0 is {second:02X}h, but its \
             copy, byte 2, is {second_copy:02X}h\n\
             out.wav: 1.280 s, mono, 18900 Hz, sectors decoded: 4, left out as silence: 2, skipped: 6\n"
        ),
    );
}

#[test]
fn a_cut_sector_is_left_out() {
    let folder = Folder::new("xa-cut");
    let (groups, whole) = vectors("stereo");
    for bytes in KINDS {
        let file = sectors(bytes, STEREO, &groups[..3]);
        for left in [1, 23, 100, bytes - 1] {
            folder.write("a.xa", &file[..2 * bytes + left]);
            folder.xa(&["a.xa", "out.wav", "--sector", &bytes.to_string()]).is(
                1,
                &format!(
                    "sector 2 (byte {}, 0.107 s) is left out as silence: it ends after {left} of {bytes} bytes\n\
                     out.wav: 0.160 s, stereo, 37800 Hz, sectors decoded: 2, left out as silence: 1\n",
                    2 * bytes
                ),
            );
            let heard_now = samples(&folder.read("out.wav"));
            assert_eq!((&heard_now[..8064], &heard_now[8064..]), (&whole[..8064], &[0; 4032][..]));
        }
        folder.write("a.xa", &file);
        folder
            .xa(&["a.xa", "out.wav", "--sector", &bytes.to_string()])
            .is(0, "out.wav: 0.160 s, stereo, 37800 Hz, sectors decoded: 3\n");
    }
}

#[test]
fn a_cut_sector_of_something_else_is_skipped() {
    let folder = Folder::new("xa-cut-other");
    let (groups, _) = vectors("mono");
    for other in [VIDEO, [1, 1, 0x64, 0x00]] {
        let file = [sector(2352, MONO, &groups[0]), sector(2352, other, &groups[1])].concat();
        for length in [24, 2351] {
            folder.write("a.xa", &file[..2352 + length]);
            folder
                .xa(&["a.xa", "out.wav", "--sector", "2352"])
                .is(0, "out.wav: 0.107 s, mono, 37800 Hz, sectors decoded: 1, skipped: 1\n");
        }
    }
}

#[test]
fn samples_of_8_bits_are_left_out() {
    let folder = Folder::new("xa-8-bits");
    let (groups, _) = vectors("mono");
    let eight = [1, 0, 0x64, 0x10];
    let file =
        [sector(2336, MONO, &groups[0]), sector(2336, eight, &groups[1]), sector(2336, MONO, &groups[2])].concat();
    folder.write("a.xa", file);
    folder.xa(&["a.xa", "out.wav"]).is(
        1,
        &format!(
            "sector 1 (byte 2336, 0.107 s) is left out as silence: {EIGHT_BITS}\n\
             out.wav: 0.267 s, mono, 37800 Hz, sectors decoded: 2, left out as silence: 1\n"
        ),
    );
    let heard_now = samples(&folder.read("out.wav"));
    assert_eq!(heard_now[4032..4032 + 2016], [0; 2016]); // samples of 8 bits are half as many
    let others = [&heard_now[..4032], &heard_now[4032 + 2016..]].concat();
    assert_eq!(others, heard(Channels::Mono, &[groups[0].clone(), groups[2].clone()]));
}

#[test]
fn a_sound_of_8_bits_fails() {
    let folder = Folder::new("xa-all-8-bits");
    let (groups, _) = vectors("mono");
    let earlier = folder.render_earlier("out.wav");
    folder.write("a.xa", sectors(2352, [1, 3, 0x64, 0x10], &groups[..2]));
    folder.xa(&["a.xa", "out.wav"]).is(
        4,
        "a.xa: the sound 1:3 cannot be decoded: its samples have 8 bits, and xa decodes only samples of 4 bits\n\
         out.wav is as it was before\n",
    );
    folder.shell("\"$XA\" --sector 2352 - out.wav <a.xa").is(
        4,
        &format!(
            "sector 0 (byte 0, 0.000 s) is left out as silence: {EIGHT_BITS}\n\
             sector 1 (byte 2352, 0.053 s) is left out as silence: {EIGHT_BITS}\n\
             standard input: no sector of the sound can be decoded\nout.wav is as it was before\n"
        ),
    );
    assert_eq!(folder.read("out.wav"), earlier);
    folder.write("b.xa", [folder.read("a.xa"), sector(2352, MONO, &groups[0])].concat());
    folder.xa(&["b.xa", "out.wav"]).is(
        4,
        "b.xa holds more than one sound; choose one of these:\n  \
         --channel 1:0  1 sector, 0.107 s, mono, 37800 Hz\n  \
         --channel 1:3  2 sectors, 0.107 s, mono, 37800 Hz, 8 bits\nout.wav is as it was before\n",
    );
}

#[test]
fn a_sound_without_a_good_sector_fails() {
    let folder = Folder::new("xa-all-damaged");
    let earlier = folder.render_earlier("out.wav");
    folder.write("a.xa", (0..2 * 2304).map(|k| (k % 251) as u8).collect::<Vec<u8>>());
    let ran = folder.xa(&["a.xa", "out.wav"]);
    assert_eq!((ran.status, ran.said.lines().count()), (Some(4), 4));
    assert!(
        ran.said.ends_with("\na.xa: no sector of the sound can be decoded\nout.wav is as it was before\n"),
        "{}",
        ran.said
    );
    assert_eq!((folder.read("out.wav"), folder.names()), (earlier, vec!["a.xa".to_owned(), "out.wav".to_owned()]));
}

#[test]
fn a_sound_that_changes_its_format_fails() {
    let folder = Folder::new("xa-change");
    let earlier = folder.render_earlier("out.wav");
    let (groups, _) = vectors("stereo");
    for (coding, to) in [(0x00, "mono, 37800 Hz"), (0x05, "stereo, 18900 Hz"), (0x14, "mono, 18900 Hz")] {
        let file = [
            sectors(2336, STEREO, &groups[..2]),
            sector(2336, VIDEO, &groups[0]),
            sector(2336, [1, 0, 0x64, coding], &groups[0]),
        ]
        .concat();
        folder.write("a.xa", file);
        let why = format!(
            "it changes from stereo, 37800 Hz to {to} at sector 3 (byte 7008), and a WAV file has one format\n\
             out.wav is as it was before\n"
        );
        folder.xa(&["a.xa", "out.wav"]).is(4, &format!("a.xa: the sound 1:0 cannot be decoded: {why}"));
        folder
            .shell("\"$XA\" --sector 2336 - out.wav <a.xa")
            .is(4, &format!("standard input: the sound cannot be decoded: {why}"));
        assert_eq!(folder.read("out.wav"), earlier);
        assert_eq!(folder.names(), ["a.xa", "out.wav"]);
    }
}

#[test]
fn a_damaged_subheader_is_told() {
    let folder = Folder::new("xa-subheader");
    let (groups, whole) = vectors("stereo");
    let mut file = sectors(2352, STEREO, &groups);
    let said = |why: &str| {
        format!(
            "sector 3 (byte 7056, 0.160 s) is left out as silence: {why}\n\
             out.wav: 0.320 s, stereo, 37800 Hz, sectors decoded: 5, left out as silence: 1\n"
        )
    };
    for (changed, why) in [
        ([1, 0, 0x60, 0x01], "its subheader is 01 00 60 01, but the copy of it is 01 00 64 01"),
        ([1, 5, 0x64, 0x01], "its subheader is 01 05 64 01, but the copy of it is 01 00 64 01"),
        ([1, 0, 0x64, 0x00], "its subheader is 01 00 64 00, but the copy of it is 01 00 64 01"),
    ] {
        file[3 * 2352 + 16..][..4].copy_from_slice(&changed);
        folder.write("a.xa", &file);
        folder.xa(&["a.xa", "out.wav"]).is(1, &said(why));
        folder.shell("\"$XA\" --sector 2352 - out.wav <a.xa").is(1, &said(why));
        assert_eq!(samples(&folder.read("out.wav"))[3 * 4032..4 * 4032], [0; 4032]);
    }
    let reserved = [1, 0, 0x64, 0x02, 1, 0, 0x64, 0x02];
    file[3 * 2352 + 16..][..8].copy_from_slice(&reserved);
    folder.write("a.xa", &file);
    folder.xa(&["a.xa", "out.wav"]).is(1, &said("its coding information is 02h, which is reserved"));
    file[3 * 2352 + 16..][..8].copy_from_slice(&[1, 0, 0x64, 0x01, 1, 0, 0x64, 0x01]);
    file[3 * 2352 + 5] = 0; // in the sync pattern, which the sound does not need
    folder.write("a.xa", &file);
    folder.xa(&["a.xa", "out.wav"]).is(0, "out.wav: 0.320 s, stereo, 37800 Hz, sectors decoded: 6\n");
    assert_eq!(samples(&folder.read("out.wav")), whole);
}

#[test]
fn a_first_sector_with_a_damaged_subheader_takes_its_time() {
    let folder = Folder::new("xa-first-subheader");
    let (groups, _) = vectors("mono");
    let mut file = sectors(2336, MONO, &groups[..3]);
    file[3] = 0x01;
    folder.write("a.xa", &file);
    folder.xa(&["a.xa", "out.wav"]).is(
        1,
        "sector 0 (byte 0, 0.000 s) is left out as silence: its subheader is 01 00 64 01, but the copy of it is \
         01 00 64 00\n\
         out.wav: 0.320 s, mono, 37800 Hz, sectors decoded: 2, left out as silence: 1\n",
    );
    folder
        .shell("\"$XA\" --sector 2336 - out.wav <a.xa")
        .is(0, "out.wav: 0.213 s, mono, 37800 Hz, sectors decoded: 2, skipped: 1\n");
    let reserved = sectors(2336, [1, 0, 0x64, 0x08], &groups[..1]);
    folder.write("a.xa", &reserved);
    folder.xa(&["a.xa", "out.wav"]).is(
        4,
        "a.xa: the sound 1:0 cannot be decoded: the coding information of its sectors is reserved\n\
         out.wav is as it was before\n",
    );
    folder.shell("\"$XA\" --sector 2336 - out.wav <a.xa").is(
        4,
        "standard input: the sound 1:0 begins with sector 0: its coding information is 08h, which is reserved\n\
         out.wav is as it was before\n",
    );
}

#[test]
fn silence_is_streamed_too() {
    let folder = Folder::new("xa-damaged-stream");
    let (mut groups, _) = vectors("stereo");
    damage(&mut groups[0], 9);
    folder.write("a.xa", groups.concat());
    let ran = folder.xa(&["a.xa", "-"]);
    assert_eq!(ran.status, Some(1));
    let heard_now = streamed_samples(&ran.out);
    assert_eq!(heard_now[..4032], [0; 4032]);
    assert_eq!(heard_now[4032..], heard(Channels::Stereo, &groups[1..]));
}
