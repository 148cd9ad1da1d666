//! A verdict in plain words.

use tenonwhisk::encoder::{Fault, BLOCK_BYTES, BLOCK_SAMPLES};

use crate::encoding::judging::{Far, Judgment, Within};
use crate::encoding::sound::Sound;
use crate::words::{self, counted};

/// Lines for standard output. The first begins with the answer.
pub fn text(sound: &Sound, judgment: &Judgment) -> String {
    let mut lines = match judgment {
        Judgment::Yes(within) => yes(sound, within),
        Judgment::No(fault, far) => no(sound, *fault, far.as_ref()),
    };
    if sound.added > 0 {
        let found = sound.originals.len() - sound.added;
        let added = counted(sound.added as u64, "zero sample", "zero samples");
        lines.push(format!("--pad added {added} to the {found} of {}", sound.original_name));
    }
    lines.join("\n") + "\n"
}

fn yes(sound: &Sound, within: &Within) -> Vec<String> {
    let (Within::Allowed(error) | Within::Smallest(error)) = *within;
    let near = match error {
        0 => "equal to its original".to_owned(),
        _ => format!("within {error} of its original"),
    };
    let time = words::seconds(sound.originals.len() as u64, sound.rate);
    let mut lines = vec![format!("yes: {} ({time}), every sample {near}", blocks(sound.block_count()))];
    if let Within::Smallest(error) = within {
        lines.push(format!("the smallest E with which the answer is yes: {error}"));
    }
    lines
}

fn no(sound: &Sound, fault: Fault, far: Option<&Far>) -> Vec<String> {
    let (block, count) = (fault.block, sound.block_count());
    let of_count = if block < count { format!(" of {count}") } else { String::new() };
    let time = words::seconds((BLOCK_SAMPLES * block) as u64, sound.rate);
    let mut lines = vec![format!("no: block {block}{of_count}, at {time} in the sound")];
    let mut add = |rule: String| lines.push(format!("  {rule}"));
    if fault.unpaired {
        add(unpaired(sound));
    }
    if let Some(far) = far {
        add(far_off(sound, far));
    }
    if fault.end_flag {
        add(end_flag(sound, block));
    }
    if fault.filter {
        add(format!("its filter is {}, but only 0 to 4 are allowed", sound.blocks[BLOCK_BYTES * block] >> 4 & 7));
    }
    if !fault.unpaired && sound.groups() != count {
        add(format!("besides, {}", longer(sound)));
    }
    lines
}

fn unpaired(sound: &Sound) -> String {
    let Sound { original_name, encoded_name, .. } = sound;
    match (sound.groups(), sound.block_count()) {
        (0, 0) => format!("the sound is empty: {original_name} has no samples, and {encoded_name} no blocks"),
        (groups, count) if groups > count => format!("there is no such block: {}", longer(sound)),
        _ => format!("it has no originals: {}", longer(sound)),
    }
}

/// Which file is longer. Expects that one is.
fn longer(sound: &Sound) -> String {
    let Sound { original_name, encoded_name, .. } = sound;
    let (groups, count) = (sound.groups(), sound.block_count());
    let groups_words = counted(groups as u64, "group of 28 samples", "groups of 28 samples");
    if groups > count {
        format!("{original_name} is longer than {encoded_name} ({groups_words}, but {})", blocks(count))
    } else {
        format!("{encoded_name} is longer than {original_name} ({}, but {groups_words})", blocks(count))
    }
}

fn far_off(sound: &Sound, far: &Far) -> String {
    let Far { sample, original, decoded, distance, allowed } = far;
    let time = words::seconds(*sample as u64, sound.rate);
    format!(
        "sample {sample} ({time}) decodes to {decoded}, {distance} away from its original, {original}, but E is \
         {allowed}"
    )
}

fn end_flag(sound: &Sound, block: usize) -> String {
    match sound.block_count() - 1 - block {
        0 => "it is the last block, but it lacks the end flag".to_owned(),
        more => {
            let follow = counted(more as u64, "more block follows", "more blocks follow");
            format!("it has the end flag, but {follow}")
        }
    }
}

fn blocks(count: usize) -> String {
    counted(count as u64, "block", "blocks")
}
