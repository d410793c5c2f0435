//! The binary: standard input or a file, standard output, exit status.

use std::io::Write;
use std::process::{Command, Output, Stdio};

fn second(words: &[&str], input: &[u8]) -> Output {
    let mut child = Command::new(env!("CARGO_BIN_EXE_second"))
        .args(words)
        .stdin(Stdio::piped())
        .stdout(Stdio::piped())
        .stderr(Stdio::piped())
        .spawn()
        .expect("the binary starts");
    // A command that does not read its input may be gone already.
    let _ = child.stdin.take().expect("an input").write_all(input);
    child.wait_with_output().expect("the binary ends")
}

#[test]
fn tape_from_input_and_from_a_file() {
    let tape = [
        2, 0, 3, 0, 1, 10, 8, 0, 1, 0, 0, 0, 0, 0, 0, 1, 1, 0, 0, 0, 2, 0,
    ];
    let expected = "record answer command address wait data rest\n\
                    1 0 0 0 0 0 0\n2 0 8 0 0 0 0\n3 0 0 0 0 0 0\nend 3\n";
    let out = second(&["tape"], &tape);
    assert!(out.status.success());
    assert_eq!(String::from_utf8_lossy(&out.stdout), expected);
    let path = std::env::temp_dir().join(format!("second-tape-{}", std::process::id()));
    std::fs::write(&path, tape).expect("a temporary file");
    let out = second(&["tape", path.to_str().expect("a plain name")], &[]);
    let _ = std::fs::remove_file(&path);
    assert!(out.status.success());
    assert_eq!(String::from_utf8_lossy(&out.stdout), expected);
}

#[test]
fn made_input_goes_back_in() {
    let tape = second(&["make", "tape", "7", "30"], &[]).stdout;
    assert_eq!(tape, second::generate::tape(7, 30));
    let bundle = second(&["make", "bundle", "7", "3", "20"], &[]).stdout;
    assert_eq!(bundle, second::generate::bundle(7, 3, 20));
    let text = second(&["compact"], &bundle).stdout;
    assert_eq!(text, second::compact::compact_text(&bundle).into_bytes());
    let probes = second(&["make", "probes", "7", "40"], &[]).stdout;
    assert_eq!(probes, second::spoil::probes(7, 40));
    let text = second(&["probe"], &probes).stdout;
    assert_eq!(text, second::probe::probe_text(&probes).into_bytes());
    assert_eq!(String::from_utf8_lossy(&text).lines().count(), 40);
    let images = second(&["make", "images", "7", "40"], &[]).stdout;
    assert_eq!(images, second::images::images(7, 40));
    let text = second(&["probe"], &images).stdout;
    assert_eq!(text, second::probe::probe_text(&images).into_bytes());
    assert_eq!(String::from_utf8_lossy(&text).lines().count(), 40);
    let requests = second(&["make", "requests", "7", "50"], &[]).stdout;
    assert_eq!(requests, second::ask::requests(7, 50));
    let text = second(&["host"], &requests).stdout;
    assert_eq!(text, second::request::host_text(&requests).into_bytes());
    assert_eq!(String::from_utf8_lossy(&text).lines().count(), 50);
}

#[test]
fn coverage_reports() {
    let out = second(&["coverage", "1", "2", "10"], &[]);
    assert!(out.status.success());
    assert!(out.stdout.ends_with(b"coverage incomplete\n"));
    let out = second(&["probe-coverage", "1", "10"], &[]);
    assert!(out.status.success());
    assert!(out.stdout.ends_with(b"coverage incomplete\n"));
    let out = second(&["image-coverage", "1", "10"], &[]);
    assert!(out.status.success());
    assert!(out.stdout.ends_with(b"coverage incomplete\n"));
    let out = second(&["host-coverage", "1", "10"], &[]);
    assert!(out.status.success());
    assert!(out.stdout.ends_with(b"coverage incomplete\n"));
}

#[test]
fn pace_counts_the_clocks_of_all_calls() {
    for (words, clocks) in [
        ("pace read 1 65535 2 10", "131070"),
        ("pace read 2 1000 3 10", "3000"),
        ("pace read 4 1000 3 21", "3000"),
        ("pace write 1 64 1 10", "64"),
        ("pace write 2 1000 3 15", "3000"),
        ("pace write 4 65535 1 10", "65535"),
        ("pace gather 1 1000 3", "3000"),
        ("pace gather 4 1000 0", "0"),
    ] {
        let out = second(&words.split(' ').collect::<Vec<_>>(), &[]);
        assert!(out.status.success());
        let text = String::from_utf8_lossy(&out.stdout).into_owned();
        let line: Vec<&str> = text.trim_end().split(' ').collect();
        assert_eq!(line[..2], [clocks, "clocks"], "{words}");
        assert_eq!(line.len(), 4);
    }
}

#[test]
fn errors() {
    for words in [
        &[][..],
        &["nonsense"],
        &["make"],
        &["make", "tape", "1"],
        &["make", "tape", "one", "2"],
        &["make", "probes", "1", "-1"],
        &["make", "images", "1"],
        &["image-coverage", "1"],
        &["tape", "no-such-file-here"],
        &["tape", "a", "b"],
        &["compact", "no-such-file-here"],
        &["probe", "no-such-file-here"],
        &["make", "requests", "1"],
        &["host", "no-such-file-here"],
        &["host-coverage", "1"],
        &["coverage", "1", "2"],
        &["pace", "read", "4", "1000", "2"],
        &["pace", "read", "3", "1000", "2", "10"],
        &["pace", "write", "1", "63", "2", "10"],
        &["pace", "gather", "1", "65536", "2"],
    ] {
        let out = second(words, &[]);
        assert_eq!(out.status.code(), Some(1), "{words:?}");
        assert!(out.stdout.is_empty());
        assert!(!out.stderr.is_empty());
    }
}
