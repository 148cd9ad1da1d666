use std::fs;
use std::io::{Read, Write};
use std::process::{Child, Command, Stdio};
use std::thread;
use std::time::{Duration, Instant};

use crate::folder::{ran, samples, Folder, RENDER};

const SIGHUP: i32 = 1;
pub const SIGINT: i32 = 2;
pub const SIGTERM: i32 = 15;

pub fn send(signal: i32, child: &Child) {
    let sent = Command::new("kill").args([format!("-{signal}"), child.id().to_string()]).status().unwrap();
    assert!(sent.success());
}

#[track_caller]
pub fn wait_until(what: impl Fn() -> bool) {
    let end = Instant::now() + Duration::from_secs(20);
    while !what() {
        assert!(Instant::now() < end, "it takes too long");
        thread::sleep(Duration::from_millis(5));
    }
}

/// Runs a command with a pipe as standard input, which stays open, and begins the input.
pub fn begin(command: &mut Command, input: impl AsRef<[u8]>) -> Child {
    let mut child = command.stdin(Stdio::piped()).stdout(Stdio::piped()).stderr(Stdio::piped()).spawn().unwrap();
    child.stdin.as_mut().unwrap().write_all(input.as_ref()).unwrap();
    child
}

/// Waits until the sound of the script's beginning stands in the temporary file.
fn wait_for_temporary(folder: &Folder, child: &Child, bytes: u64) {
    let path = folder.path(&format!(".out.wav.render-{}.tmp", child.id()));
    wait_until(|| fs::metadata(&path).is_ok_and(|metadata| metadata.len() == bytes));
}

#[test]
fn an_interrupted_run_leaves_what_was_before() {
    for signal in [SIGHUP, SIGINT, SIGTERM] {
        let folder = Folder::new(&format!("signal-{signal}"));
        let earlier = folder.render_earlier("out.wav");
        let child = begin(&mut folder.command(RENDER, &["-", "out.wav"]), "t 44100\n");
        wait_for_temporary(&folder, &child, 44 + 4 * 44100);
        send(signal, &child);
        let ran = ran(child.wait_with_output().unwrap());
        assert_eq!((ran.status, ran.signal), (None, Some(signal)));
        assert_eq!(ran.said, "interrupted; the output is as it was before\n");
        assert_eq!(folder.read("out.wav"), earlier);
        assert_eq!(folder.names(), ["out.wav"]);
    }
}

#[test]
fn an_interrupted_run_makes_no_file() {
    let folder = Folder::new("signal-new");
    let child = begin(&mut folder.command(RENDER, &["-", "out.wav"]), "t 1\n");
    wait_for_temporary(&folder, &child, 48);
    send(SIGINT, &child);
    assert_eq!(ran(child.wait_with_output().unwrap()).signal, Some(SIGINT));
    assert!(folder.names().is_empty());
}

#[test]
fn an_interrupted_stream_is_incomplete() {
    let folder = Folder::new("signal-stream");
    let mut child = begin(&mut folder.command(RENDER, &["-", "-"]), "t 100\n");
    let mut sound = [0; 444];
    child.stdout.as_mut().unwrap().read_exact(&mut sound).unwrap();
    send(SIGTERM, &child);
    let ran = ran(child.wait_with_output().unwrap());
    assert_eq!(ran.signal, Some(SIGTERM));
    assert_eq!(ran.said, "interrupted; what was written of the stream is incomplete\n");
}

#[test]
fn a_run_that_waits_for_a_fifo_is_interrupted() {
    let folder = Folder::new("signal-fifo");
    for name in ["script", "out"] {
        assert!(Command::new("mkfifo").arg(folder.path(name)).status().unwrap().success());
    }
    let child = begin(&mut folder.command(RENDER, &["script", "out"]), "");
    let writer = fs::File::options().write(true).open(folder.path("script")).unwrap(); // waits until the run opens it
    send(SIGINT, &child);
    let ran = ran(child.wait_with_output().unwrap());
    assert_eq!((ran.signal, ran.said.as_str()), (Some(SIGINT), "interrupted; the output is as it was before\n"));
    drop(writer);
}

#[test]
fn the_shell_sees_status_130() {
    let folder = Folder::new("signal-shell");
    let mut command = Command::new("sh");
    command.args(["-c", "\"$RENDER\" - out.wav; echo $?"]).env("RENDER", RENDER).current_dir(folder.path(""));
    let child = begin(&mut command, "t 44100\n");
    wait_until(|| folder.names().iter().any(|name| name.ends_with(".tmp")));
    let render = folder.names()[0].trim_end_matches(".tmp").rsplit('-').next().unwrap().to_owned();
    assert!(Command::new("kill").args(["-INT", &render]).status().unwrap().success());
    assert_eq!(child.wait_with_output().unwrap().stdout, b"130\n");
}

#[test]
fn an_ignored_signal_stays_ignored() {
    let folder = Folder::new("signal-ignored");
    let mut command = Command::new("sh");
    command.args(["-c", "trap '' INT HUP; exec \"$RENDER\" - out.wav"]).env("RENDER", RENDER);
    let mut child = begin(command.current_dir(folder.path("")), "t 44100\n");
    wait_for_temporary(&folder, &child, 44 + 4 * 44100);
    send(SIGINT, &child);
    send(SIGHUP, &child);
    child.stdin.as_mut().unwrap().write_all(b"t 44100\n").unwrap();
    ran(child.wait_with_output().unwrap()).is(0, "out.wav: 2.000 s\n");
    assert_eq!(samples(&folder.read("out.wav")).len(), 2 * 88_200);
}
