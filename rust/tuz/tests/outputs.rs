//! What the command writes: whole or not at all, over nothing that it reads, and as soon as it is known.

mod common;

use common::*;
use std::fs::{self, File};
use std::io::{BufRead, BufReader, Write};
use std::os::unix::fs::{symlink, PermissionsExt};
use std::os::unix::process::CommandExt;
use std::path::PathBuf;
use std::process::{Child, Command, Output, Stdio};

/// A folder of a test's own, empty.
fn folder(name: &str) -> PathBuf {
    let path = PathBuf::from(env!("CARGO_TARGET_TMPDIR")).join(name);
    let _was_there = fs::remove_dir_all(&path);
    fs::create_dir(&path).unwrap();
    path
}

/// Removes a folder with links in it: `rt` wants none in the repository.
fn without_links(folder: &PathBuf) {
    fs::remove_dir_all(folder).unwrap();
}

/// The command in a folder.
fn at(folder: &PathBuf, line: &str) -> Output {
    let line = format!("\"$0\" {line}");
    let words = ["-c", &line, env!("CARGO_BIN_EXE_tuz")];
    run(Command::new("sh").args(words).current_dir(folder), &CLIP)
}

/// No output takes the place of an input or of another output, whatever it is called.
#[test]
fn nothing_is_written_over_an_input() {
    let here = folder("same");
    let clip = CLIP.repeat(5);
    fs::write(here.join("n.264"), &clip).unwrap();
    fs::write(here.join("t.table"), SETS).unwrap();
    fs::hard_link(here.join("n.264"), here.join("hard")).unwrap();
    symlink("n.264", here.join("soft")).unwrap();
    symlink("new", here.join("dangling")).unwrap();
    let recording = "is the same file as the recording, which would be lost";
    let another = "is the same file as another output, which would be lost";
    for (line, told) in [
        ("tear n.264 --sample -o n.264", recording),
        ("tear n.264 --sample -o ./../same/n.264", recording),
        ("tear n.264 --sample -o hard", recording),
        ("tear soft --sample -o n.264", recording),
        ("tear - --sample -o n.264 < n.264", recording),
        ("qp n.264 --sample --csv n.264", recording),
        ("qp n.264 --sample --plot soft", recording),
        (
            "qp n.264 --table t.table --csv t.table",
            "is the same file as the table, which would be lost",
        ),
        ("qp n.264 --sample --csv x --plot x", another),
        ("qp n.264 --sample --csv x --plot ./x", another),
        ("qp n.264 --sample --csv new --plot dangling", another),
        ("qp n.264 --sample --csv - --plot -", another),
        ("qp n.264 --sample --csv x > x", another),
        ("list n.264 --sample >> n.264", recording),
        ("cases t.table >> t.table", "is the same file as the cases"),
    ] {
        let done = at(&here, line);
        assert!(err(&done).contains(told), "{line}: {}", err(&done));
        assert_eq!(done.status.code(), Some(2), "{line}");
        assert_eq!(fs::read(here.join("n.264")).unwrap(), clip, "{line}");
        assert_eq!(fs::read(here.join("t.table")).unwrap(), SETS.as_bytes());
        let _of_the_shell = fs::remove_file(here.join("x"));
        assert_eq!(fs::read_dir(&here).unwrap().count(), 5, "{line}");
    }
    // devices may be named twice
    let done = at(
        &here,
        "qp n.264 --sample -q --csv /dev/null --plot /dev/null",
    );
    assert_eq!((err(&done).as_str(), done.status.code()), ("", Some(0)));
    without_links(&here);
}

/// A file takes its place when it is whole: by the links that lead to it, with the mode that it had.
#[test]
fn a_file_takes_its_place() {
    let here = folder("place");
    fs::write(here.join("old.csv"), "old").unwrap();
    fs::set_permissions(here.join("old.csv"), fs::Permissions::from_mode(0o640)).unwrap();
    symlink("old.csv", here.join("link")).unwrap();
    let done = at(
        &here,
        "qp - --sample -q --csv link --plot new.svg > /dev/null",
    );
    assert_eq!((err(&done).as_str(), done.status.code()), ("", Some(0)));
    let rows = fs::read_to_string(here.join("old.csv")).unwrap();
    assert_eq!(rows.lines().last().unwrap(), "4,4,slice,,,,,7,I,0,26");
    let mode = fs::metadata(here.join("old.csv")).unwrap().permissions();
    assert_eq!(mode.mode() & 0o777, 0o640);
    assert!(fs::symlink_metadata(here.join("link"))
        .unwrap()
        .is_symlink());
    assert_eq!(fs::read_dir(&here).unwrap().count(), 3);
    let done = at(&here, "tear - --sample -o - --how cut --at 8");
    assert_eq!(done.stdout, CLIP[..8]);
    assert!(err(&done).ends_with("written standard output length=8\n"));
    without_links(&here);
}

/// Every write is looked at, those that fit a buffer too; nothing of the file stays.
#[test]
fn a_full_disk_is_told() {
    let here = folder("full");
    let full = "/dev/full: No space left on device (os error 28)\n";
    for line in [
        "qp - --sample -q --csv /dev/full",
        "qp - --sample -q --plot /dev/full",
        "tear - --sample -o /dev/full",
    ] {
        let done = at(&here, line);
        assert_eq!(
            (err(&done), done.status.code()),
            (format!("tuz: {full}"), Some(2)),
            "{line}"
        );
    }
    for line in [
        "headers - --sample",
        "qp - --sample --plot -",
        "tear - --sample -o -",
        "cases t",
        "explain",
    ] {
        fs::write(here.join("t"), "65\n").unwrap();
        let done = at(&here, &format!("{line} > /dev/full"));
        let told = "tuz: standard output: No space left on device (os error 28)\n";
        assert!(err(&done).ends_with(told), "{line}: {}", err(&done));
        assert_eq!(done.status.code(), Some(2), "{line}");
    }
    // a file system of its own is not at hand: a limit on a file's length is told as late
    let limited = "ulimit -f 1; trap '' XFSZ; exec \"$0\" qp - --sample -q --csv much.csv --plot much.svg > /dev/null";
    let words = ["-c", limited, env!("CARGO_BIN_EXE_tuz")];
    let done = run(
        Command::new("bash").args(words).current_dir(&here),
        &CLIP.repeat(5000),
    );
    assert_eq!(
        (err(&done).as_str(), done.status.code()),
        ("tuz: much.csv: File too large (os error 27)\n", Some(2))
    );
    assert_eq!(fs::read_dir(&here).unwrap().count(), 1);
}

/// Outputs are opened first: where one cannot be, nothing is read and nothing is told.
#[test]
fn outputs_are_opened_first() {
    let here = folder("first");
    fs::create_dir(here.join("folder")).unwrap();
    for (line, told) in [
        (
            "qp - --sample --csv one.csv --plot /nowhere/qp.svg",
            "/nowhere/qp.svg: No such file",
        ),
        (
            "qp - --sample --plot folder",
            "folder: is a directory, not a file",
        ),
        (
            "tear - --sample -o folder",
            "folder: is a directory, not a file",
        ),
    ] {
        let done = at(&here, line);
        assert!(
            err(&done).starts_with(&format!("tuz: {told}")),
            "{}",
            err(&done)
        );
        assert_eq!((done.status.code(), out(&done).as_str()), (Some(2), ""));
        assert_eq!(fs::read_dir(&here).unwrap().count(), 1);
    }
}

/// The command, with its standard input open and its standard output at hand. It is started as by a terminal: the test may run under `nohup` or behind a `&`, where
/// signals are ignored, and the command keeps to that.
fn live(words: &[&str]) -> Child {
    let mut command = Command::new(env!("CARGO_BIN_EXE_tuz"));
    let piped = command.args(words).stdin(Stdio::piped());
    // SAFETY: between fork and exec only `signal` is called, which is safe there.
    unsafe {
        piped.pre_exec(|| {
            for signal in [libc::SIGINT, libc::SIGTERM, libc::SIGHUP] {
                libc::signal(signal, libc::SIG_DFL);
            }
            Ok(())
        });
    }
    piped
        .stdout(Stdio::piped())
        .stderr(Stdio::piped())
        .spawn()
        .unwrap()
}

/// A unit is told as soon as its end mark has come; the test hangs where it is not.
#[test]
fn a_live_recording_is_told_as_it_comes() {
    for (words, told) in [
        (
            &["list"][..],
            "unit place=4 length=4 slice type=7 frame=0 qp=26\n",
        ),
        (
            &["headers", "--format", "json"],
            "{\"place\":4,\"length\":4,\"answer\":\"slice\"",
        ),
        (
            &["qp", "--format", "text"],
            "unit place=4 length=4 slice type=7 family=I",
        ),
    ] {
        let mut child = live(&[words, &["-", "--sample", "-q"]].concat());
        let mut input = child.stdin.take().unwrap();
        let mut lines = BufReader::new(child.stdout.take().unwrap());
        input.write_all(&CLIP[..11]).unwrap();
        let mut line = String::new();
        lines.read_line(&mut line).unwrap();
        assert!(line.starts_with(told), "{line}");
        // zeros end a unit too
        input.write_all(&[0x65, 0x88, 0x84, 0xA0, 0, 0, 0]).unwrap();
        line.clear();
        lines.read_line(&mut line).unwrap();
        assert!(line.contains("11"), "{line}");
        drop(input);
        assert!(child.wait().unwrap().success());
    }
}

/// An interrupt leaves whole lines and no half file, on a pipe that waits and in the middle of the work.
#[test]
fn an_interrupt_leaves_whole_lines() {
    let here = folder("interrupt");
    let (csv, svg) = (here.join("a.csv"), here.join("a.svg"));
    for (signal, status) in [("INT", 130), ("TERM", 143), ("HUP", 129)] {
        let files = ["--csv", word(&csv), "--plot", word(&svg)];
        let mut child = live(&[&["qp", "-", "--sample"], &files[..]].concat());
        let mut input = child.stdin.take().unwrap();
        let mut lines = BufReader::new(child.stdout.take().unwrap());
        input.write_all(&CLIP.repeat(3)).unwrap();
        let mut line = String::new();
        lines.read_line(&mut line).unwrap();
        let kill = Command::new("kill")
            .args(["-s", signal, &child.id().to_string()])
            .status();
        assert!(kill.unwrap().success());
        let rest: Vec<_> = lines
            .split(b'\n')
            .map(|l| String::from_utf8(l.unwrap()).unwrap())
            .collect();
        assert_eq!(child.wait().unwrap().code(), Some(status));
        assert!(rest.iter().all(|l| l.ends_with(" qp=26")), "{rest:?}");
        assert_eq!(fs::read_dir(&here).unwrap().count(), 0);
    }

    let mut endless = live(&["list", "-", "--sample"]);
    let listing = here.join("list.txt");
    let mut input = endless.stdin.take().unwrap();
    let (id, output) = (endless.id().to_string(), endless.stdout.take().unwrap());
    let feeding = std::thread::spawn(move || while input.write_all(&CLIP.repeat(1000)).is_ok() {});
    let mut to = File::create(&listing).unwrap();
    let copying =
        std::thread::spawn(move || std::io::copy(&mut BufReader::new(output), &mut to).unwrap());
    while fs::metadata(&listing).unwrap().len() < 1 << 20 {
        std::thread::sleep(std::time::Duration::from_millis(5));
    }
    assert!(Command::new("kill")
        .args(["-s", "INT", &id])
        .status()
        .unwrap()
        .success());
    assert_eq!(endless.wait().unwrap().code(), Some(130));
    feeding.join().unwrap();
    copying.join().unwrap();
    let listed = fs::read_to_string(&listing).unwrap();
    assert!(listed.ends_with('\n'), "{:?}", listed.lines().last());
    assert!(listed
        .lines()
        .all(|l| l.ends_with(" qp=26") || l.ends_with(" type=9")));
}

/// A long recording has a bar on a terminal where the lines go elsewhere; with -q there is none, and nothing else.
#[test]
fn quiet_has_no_bar() {
    let clip = file("long.264", &CLIP);
    let grown = File::options().write(true).open(&clip).unwrap();
    grown.set_len(200 << 20).unwrap();
    let seen = |words: &str| {
        let program = env!("CARGO_BIN_EXE_tuz");
        let line = format!(
            "{program} list {} --sample {words} > /dev/null",
            word(&clip)
        );
        let mut terminal = Command::new("script");
        let done = terminal
            .args(["-qec", &line, "/dev/null"])
            .output()
            .unwrap();
        out(&done)
    };
    let told = seen("");
    assert!(told.contains("iB/s"), "{told:?}");
    assert_eq!(seen("-q"), "");
    fs::remove_file(clip).unwrap();
}
