//! `xa`: kinds of sectors, and the sounds of a file.

use tenonwhisk::xa::Channels;

use crate::folder::{samples, Folder};
use crate::sectors::{damage, heard, sector, sectors, vectors, KINDS, MONO, STEREO, VIDEO};

/// The channels and the rate that a WAV file has.
fn format(wav: &[u8]) -> (u8, u32) {
    assert_eq!(wav[20..22], [1, 0]);
    let bytes = [wav[22], wav[23], wav[34], wav[35]];
    assert_eq!(bytes, [wav[32] / 2, 0, 16, 0]);
    let rate = u32::from_le_bytes(wav[24..28].try_into().unwrap());
    assert_eq!(wav[28..32], (rate * u32::from(wav[32])).to_le_bytes());
    (wav[22], rate)
}

#[test]
fn the_vectors_are_decoded_from_sectors_of_every_kind() {
    let folder = Folder::new("xa-vectors");
    for (channels, subheader, told) in
        [("stereo", STEREO, "0.320 s, stereo, 37800 Hz"), ("mono", MONO, "0.640 s, mono, 37800 Hz")]
    {
        let (groups, expected) = vectors(channels);
        for bytes in KINDS {
            folder.write("a.xa", sectors(bytes, subheader, &groups));
            let option = format!("--{channels}");
            let arguments: &[&str] = if bytes == 2304 { &["a.xa", "out.wav", &option] } else { &["a.xa", "out.wav"] };
            folder.xa(arguments).is(0, &format!("out.wav: {told}, sectors decoded: 6\n"));
            assert_eq!(samples(&folder.read("out.wav")), expected);
        }
    }
    assert_eq!(folder.names(), ["a.xa", "out.wav"]);
}

#[test]
fn options_or_subheaders_tell_the_format() {
    let folder = Folder::new("xa-format");
    let (groups, expected) = vectors("stereo");
    folder.write("a.xa", groups.concat());
    for (options, told, is) in [
        (&[][..], "0.320 s, stereo, 37800 Hz", (2, 37_800)),
        (&["--rate", "18900"], "0.640 s, stereo, 18900 Hz", (2, 18_900)),
        (&["--mono"], "0.640 s, mono, 37800 Hz", (1, 37_800)),
        (&["--mono", "--rate=18900"], "1.280 s, mono, 18900 Hz", (1, 18_900)),
    ] {
        folder.xa(&[&["a.xa", "out.wav"], options].concat()).is(0, &format!("out.wav: {told}, sectors decoded: 6\n"));
        let wav = folder.read("out.wav");
        assert_eq!(format(&wav), is);
        let coding = u8::from(is.0 == 2) | if is.1 == 18_900 { 4 } else { 0 } | 0x40; // with emphasis
        for bytes in [2336, 2352] {
            folder.write("b.xa", sectors(bytes, [1, 0, 0x64, coding], &groups));
            folder.xa(&["b.xa", "b.wav"]).is(0, &format!("b.wav: {told}, sectors decoded: 6\n"));
            assert_eq!(folder.read("b.wav"), wav);
        }
    }
    folder.xa(&["a.xa", "out.wav", "--stereo"]).is(0, "out.wav: 0.320 s, stereo, 37800 Hz, sectors decoded: 6\n");
    assert_eq!(samples(&folder.read("out.wav")), expected);
}

#[test]
fn a_length_that_fits_two_kinds_is_told_apart_by_the_content() {
    let folder = Folder::new("xa-lengths");
    let groups: Vec<_> = vectors("stereo").0.into_iter().cycle().take(147).collect();
    let all = heard(Channels::Stereo, &groups);
    for (bytes, count) in [(2304, 49), (2352, 48), (2304, 73), (2336, 72), (2336, 147), (2352, 146)] {
        folder.write("a.xa", sectors(bytes, STEREO, &groups[..count]));
        let ran = folder.xa(&["a.xa", "out.wav"]);
        assert_eq!(ran.status, Some(0), "{}", ran.said);
        assert!(ran.said.ends_with(&format!(", stereo, 37800 Hz, sectors decoded: {count}\n")), "{}", ran.said);
        assert_eq!(samples(&folder.read("out.wav")), all[..4032 * count]);
    }
    let video = [sectors(2336, VIDEO, &groups[..71]), sector(2336, STEREO, &groups[0])].concat();
    folder.write("a.xa", video);
    folder.xa(&["a.xa", "out.wav"]).is(0, "out.wav: 0.053 s, stereo, 37800 Hz, sectors decoded: 1, skipped: 71\n");
}

#[test]
fn a_length_that_neither_tells_apart_needs_an_option() {
    let folder = Folder::new("xa-undecided");
    let mut groups: Vec<_> = vectors("stereo").0.into_iter().cycle().take(49).collect();
    damage(&mut groups[7], 0);
    folder.write("a.xa", groups.concat());
    folder.xa(&["a.xa", "out.wav"]).is(
        4,
        "a.xa has 112896 bytes, which are whole sectors of 2304 and of 2352 bytes, and its content does not tell \
         which; say it with --sector N\nout.wav was not written\n",
    );
    let ran = folder.xa(&["a.xa", "out.wav", "--sector", "2304"]);
    assert_eq!((ran.status, samples(&folder.read("out.wav")).len()), (Some(1), 49 * 4032));
    folder
        .xa(&["a.xa", "out.wav", "--sector", "2352"])
        .is(4, "a.xa holds no sound (48 sectors of other kinds)\nout.wav is as it was before\n");
}

#[test]
fn a_length_that_fits_no_kind_is_told() {
    let folder = Folder::new("xa-unfit");
    let (groups, _) = vectors("stereo");
    for length in [1, 2303, 2305, 6 * 2304 - 1] {
        folder.write("a.xa", &groups.concat()[..length]);
        folder.xa(&["a.xa", "out.wav"]).is(
            4,
            &format!(
                "a.xa has {length} bytes, which are not whole sectors of 2304, 2336 or 2352 bytes; with --sector N, \
                 xa decodes the sectors that are whole\nout.wav was not written\n"
            ),
        );
    }
    folder.write("a.xa", "");
    for option in ["--sector=2304", "--sector=2352", "--"] {
        folder.xa(&[option, "a.xa", "out.wav"]).is(4, "a.xa is empty\nout.wav was not written\n");
    }
    let riff = [b"RIFF\0\0\0\0CDXAfmt \x10\0\0\0", &[0; 16][..], b"data\0\0\0\0"].concat();
    folder.write("a.xa", [riff, sectors(2352, STEREO, &groups)].concat());
    folder.xa(&["a.xa", "out.wav"]).is(
        4,
        "a.xa has a RIFF header of 44 bytes before its sectors; leave it out: \
         tail -c +45 FILE | xa --sector 2352 - OUT\nout.wav was not written\n",
    );
    folder
        .shell("tail -c +45 a.xa | \"$XA\" --sector 2352 - out.wav")
        .is(0, "out.wav: 0.320 s, stereo, 37800 Hz, sectors decoded: 6\n");
}

/// Stereo sound of channel 1:0, mono sound of channels 1:1 and 2:1 at two rates, and video, mixed.
fn interleaved(bytes: usize) -> Vec<u8> {
    let ((stereo, _), (mono, _)) = (vectors("stereo"), vectors("mono"));
    let mut file = Vec::new();
    for n in 0..6 {
        file.extend(sector(bytes, STEREO, &stereo[n]));
        file.extend(sector(bytes, VIDEO, &[0x77; 2304]));
        file.extend(sector(bytes, [1, 1, 0x64, 0], &mono[n]));
        if n % 2 == 0 {
            file.extend(sector(bytes, [2, 1, 0xE4, 4], &mono[n]));
            file.extend(sector(bytes, [0; 4], &[0; 2304]));
        }
    }
    file
}

const LIST: [&str; 3] = [
    "  --channel 1:0  6 sectors, 0.320 s, stereo, 37800 Hz\n",
    "  --channel 1:1  6 sectors, 0.640 s, mono, 37800 Hz\n",
    "  --channel 2:1  3 sectors, 0.640 s, mono, 18900 Hz\n",
];

#[test]
fn sounds_of_a_file_are_listed() {
    let folder = Folder::new("xa-listed");
    let [first, second, third] = LIST;
    let fate = "out.wav was not written\n";
    for bytes in [2336, 2352] {
        folder.write("a.xa", interleaved(bytes));
        let several = "a.xa holds more than one sound; choose one of these:\n";
        folder.xa(&["a.xa", "out.wav"]).is(4, &format!("{several}{first}{second}{third}{fate}"));
        folder.xa(&["a.xa", "out.wav", "--channel", "1"]).is(4, &format!("{several}{second}{third}{fate}"));
        let none = "a.xa holds no such sound; choose one of these:\n";
        for channel in ["2", "0:1", "2:0"] {
            folder.xa(&["a.xa", "out.wav", "--channel", channel]).is(4, &format!("{none}{first}{second}{third}{fate}"));
        }
    }
    assert_eq!(folder.names(), ["a.xa"]);
}

#[test]
fn one_sound_of_a_file_is_decoded() {
    let folder = Folder::new("xa-chosen");
    let ((_, stereo), (mono, expected)) = (vectors("stereo"), vectors("mono"));
    let every_second: Vec<_> = mono.into_iter().step_by(2).collect();
    for bytes in [2336, 2352] {
        folder.write("a.xa", interleaved(bytes));
        for (channel, told, expected) in [
            ("0", "0.320 s, stereo, 37800 Hz, sectors decoded: 6, skipped: 18", &stereo),
            ("1:0", "0.320 s, stereo, 37800 Hz, sectors decoded: 6, skipped: 18", &stereo),
            ("1:1", "0.640 s, mono, 37800 Hz, sectors decoded: 6, skipped: 18", &expected),
            ("2:1", "0.640 s, mono, 18900 Hz, sectors decoded: 3, skipped: 21", &heard(Channels::Mono, &every_second)),
        ] {
            folder.xa(&["a.xa", "out.wav", "--channel", channel]).is(0, &format!("out.wav: {told}\n"));
            assert_eq!(samples(&folder.read("out.wav")), *expected);
        }
    }
}

#[test]
fn the_only_sound_needs_no_choice() {
    let folder = Folder::new("xa-only");
    let (groups, expected) = vectors("mono");
    let file: Vec<u8> =
        groups.iter().flat_map(|groups| [sector(2352, VIDEO, groups), sector(2352, MONO, groups)].concat()).collect();
    folder.write("a.xa", file);
    folder.xa(&["a.xa", "out.wav"]).is(0, "out.wav: 0.640 s, mono, 37800 Hz, sectors decoded: 6, skipped: 6\n");
    assert_eq!(samples(&folder.read("out.wav")), expected);
}

#[test]
fn a_file_without_sound_is_told() {
    let folder = Folder::new("xa-no-sound");
    for (file, sectors) in [
        (sectors(2336, VIDEO, &vectors("mono").0), "6 sectors"),
        (sector(2352, [1, 0, 0xFB, 0], &[0; 2304]), "1 sector"),
        (vec![0xFF; 2352 * 5], "5 sectors"), // music of a disc, which has no subheaders
    ] {
        folder.write("a.xa", file);
        folder
            .xa(&["a.xa", "out.wav"])
            .is(4, &format!("a.xa holds no sound ({sectors} of other kinds)\nout.wav was not written\n"));
    }
}
