//! The command line: what it writes, and its exit status for good and bad use.

use std::io::Write;
use std::process::{Command, Output, Stdio};

fn run(words: &[&str], input: &[u8]) -> Output {
    let mut child = Command::new(env!("CARGO_BIN_EXE_second"))
        .args(words)
        .stdin(Stdio::piped())
        .stdout(Stdio::piped())
        .stderr(Stdio::piped())
        .spawn()
        .expect("the program starts");
    // Written beside the reading of the output, or both pipes could fill. The program may stop before it has read all:
    // then the pipe is closed, which is no failure of the test.
    let (mut pipe, input) = (child.stdin.take().expect("a pipe"), input.to_vec());
    let writer = std::thread::spawn(move || pipe.write_all(&input));
    let output = child.wait_with_output().expect("the program ends");
    let _ = writer.join().expect("the writer ends");
    output
}

fn text(bytes: &[u8]) -> &str {
    std::str::from_utf8(bytes).expect("text")
}

/// A misuse has exit status 2 and one clear message.
fn misuse(words: &[&str], input: &str, message: &str) {
    let output = run(words, input.as_bytes());
    assert_eq!(output.status.code(), Some(2), "{words:?}");
    let error = text(&output.stderr);
    assert!(error.starts_with("second: ") && error.contains(message), "{words:?}: {error}");
    assert!(!error.contains("panicked"), "{error}");
}

#[test]
fn bad_use_gets_a_message_and_status_2() {
    for words in [
        &[][..],
        &["fold"],
        &["check"],
        &["format"],
        &["format", "a", "b"],
        &["batch", "x"],
        &["generate", "1"],
        &["show"],
    ] {
        misuse(words, "", "usage");
    }
    misuse(&["format", "/nowhere/at-all"], "", "/nowhere/at-all");
    misuse(&["check", "/nowhere/at-all"], "", "/nowhere/at-all");
    misuse(&["format", "/"], "", "/");
    misuse(&["generate", "one", "2"], "", "one");
    misuse(&["check", "--least", "x", "-"], "", "x");
}

#[test]
fn broken_vectors_get_a_message_and_status_2() {
    for (line, message) in [
        ("{", "broken JSON"),
        ("[]", "\"doc\""),
        ("{\"doc\": 1}", "\"doc\""),
        ("{\"doc\": \"0\"}", "odd number"),
        ("{\"doc\": \"zz\"}", "hexadecimal"),
        ("{\"doc\": \"\", \"calls\": 1}", "\"calls\""),
        ("{\"doc\": \"\", \"calls\": [[1, 2, 3]]}", "last 0 or 1"),
        ("{\"doc\": \"\", \"calls\": [[1, 0]]}", "a call must be"),
        ("{\"doc\": \"\", \"calls\": [[-1, 0, 1]]}", "a call must be"),
        ("{\"doc\": \"\", \"store\": -1}", "\"store\""),
        ("\u{fffd}", "broken JSON"),
    ] {
        misuse(&["batch"], &format!("{{\"doc\": \"\"}}\n{line}\n"), message);
        misuse(&["check", "-"], &format!("{line}\n"), message);
    }
    misuse(&["check", "-"], "{\"doc\": \"\", \"out\": \"\"}", "\"end\"");
    misuse(&["check", "-"], "{\"doc\": \"\", \"out\": \"\", \"end\": \"over\"}", "an answer must be");
    misuse(&["check", "-"], "{\"doc\": \"\", \"out\": \"\", \"end\": [7, 1, 2]}", "an answer must be");
    let output = run(&["batch"], b"{\"doc\": \"\xff\"}\n");
    assert_eq!(output.status.code(), Some(2));
}

#[test]
fn batch_answers_each_line() {
    let input = b"{\"doc\": \"61\"}\n\n{\"doc\": \"2e6c6c20300a\"}\n{\"doc\": \"610962\", \"calls\": [[3, 1, 10], [1, 1, 0]]}\n{\"doc\": \"61\", \"store\": 8191}\n{\"calls\": [], \"doc\": \"\"}\n{\"doc\": \"2e706c20310a61\", \"calls\": [[99, 0, 0], [0, 1, 1], [0, 0, 9]]}";
    let output = run(&["batch"], input);
    assert_eq!(output.status.code(), Some(0));
    let lines: Vec<&str> = text(&output.stdout).lines().collect();
    assert_eq!(lines[0], format!("{{\"out\": \"61{}\", \"end\": \"done\"}}", "0a".repeat(66)));
    assert_eq!(
        &lines[1..],
        [
            "{\"out\": \"\", \"end\": [7, 1]}",
            "{\"answers\": [[2, 0, [2, 1]], [0, 0, [2, 1]]], \"out\": \"\"}",
            "{\"out\": \"\", \"end\": [1, 0]}",
            "{\"answers\": [], \"out\": \"\"}",
            "{\"answers\": [[7, 0, \"input\"], [0, 1, \"room\"], [0, 1, \"done\"]], \"out\": \"610a\"}",
        ]
    );
}

#[test]
fn format_writes_pages_and_tells_a_refusal() {
    let output = run(&["format", "-"], b".pl 3\na\n.br\nb\n.ll 0\n");
    assert_eq!(
        (output.status.code(), text(&output.stdout), text(&output.stderr)),
        (Some(1), "a\n", "refused 7 at line 5\n")
    );
    let output = run(&["format", "-"], b".pl 2\na b\n");
    assert_eq!((output.status.code(), text(&output.stdout), text(&output.stderr)), (Some(0), "a b\n\n", ""));
    let output = run(&["format", "-"], b"");
    assert_eq!((output.status.code(), text(&output.stdout), text(&output.stderr)), (Some(0), "", ""));
    // More pages than one room holds.
    let rows = b"some text\n".repeat(20_000);
    let output = run(&["format", "-"], &[b".pl 1\n.nf\n", rows.as_slice()].concat());
    assert_eq!((output.status.code(), output.stdout), (Some(0), rows));
}

#[test]
fn check_counts_and_shows_differences() {
    let good = "{\"doc\": \"\", \"out\": \"\", \"end\": \"done\"}\n";
    let output = run(&["check", "-"], good.repeat(3).as_bytes());
    assert_eq!((output.status.code(), text(&output.stdout)), (Some(0), "3 passed, 0 failed\n"));
    // Wrong pages, a wrong closing answer, a wrong call answer, an answer too few.
    let bad = [
        "{\"name\": \"P\", \"doc\": \"2e706c20310a61\", \"out\": \"620a\", \"end\": \"done\"}",
        "{\"name\": \"E\", \"doc\": \"2e6c6c20300a\", \"out\": \"\", \"end\": [7, 2]}",
        "{\"name\": \"C\", \"doc\": \"61\", \"calls\": [[1, 0, 1]], \"answers\": [[1, 1, \"input\"]], \"out\": \"\"}",
        "{\"name\": \"A\", \"doc\": \"61\", \"calls\": [[1, 0, 1]], \"answers\": [], \"out\": \"\"}",
    ];
    for (line, shown) in
        bad.iter().zip(["differ first at byte 1, in row 1", "line: 2", "call 1", "0 answers expected, 1 given"])
    {
        let output = run(&["check", "-"], format!("{good}{line}\n").as_bytes());
        assert_eq!(output.status.code(), Some(1), "{line}");
        let report = text(&output.stdout);
        assert!(report.contains(shown), "{report}");
        assert!(report.ends_with("\n1 passed, 1 failed\n"), "{report}");
    }
    let output = run(&["check", "-"], b"");
    assert_eq!((output.status.code(), text(&output.stdout)), (Some(1), "-: no vectors\n0 passed, 1 failed\n"));
    let output = run(&["check", "--least", "3", "-"], good.repeat(2).as_bytes());
    assert_eq!((output.status.code(), text(&output.stdout)), (Some(1), "fewer than 3 vectors\n2 passed, 1 failed\n"));
    let output = run(&["check", "--least", "2", "-"], good.repeat(2).as_bytes());
    assert_eq!((output.status.code(), text(&output.stdout)), (Some(0), "2 passed, 0 failed\n"));
}

#[test]
fn generated_documents_are_the_same_each_time() {
    let first = run(&["generate", "7", "50"], b"");
    assert_eq!(first.status.code(), Some(0));
    assert_eq!(text(&first.stdout).lines().count(), 50);
    assert_eq!(first.stdout, run(&["generate", "7", "50"], b"").stdout);
    assert_ne!(first.stdout, run(&["generate", "8", "50"], b"").stdout);
}

#[test]
fn show_prints_a_vector_readably() {
    let output =
        run(&["show", "-"], b"{\"name\": \"N\", \"doc\": \"2e706c20310a61\", \"out\": \"610a\", \"end\": \"done\"}");
    assert_eq!(output.status.code(), Some(0));
    let shown = text(&output.stdout);
    assert!(
        shown.contains("N\n") && shown.contains(".pl 1|") && shown.contains("a|") && shown.contains("Done"),
        "{shown}"
    );
}

#[test]
fn runs_show_pages_and_answers() {
    let output = run(&["runs"], b"# two\n.pl 2|.nf|a|.ll 0\n{2001 |}\n{2097152 x}\n");
    assert_eq!(output.status.code(), Some(0));
    let refused = "refused 7 at line 4; taken 17, written 2; calls";
    let done = "done; taken 2001, written 2046; calls";
    assert_eq!(
        text(&output.stdout).lines().collect::<Vec<&str>>(),
        [
            "# two",
            // The sum goes on from 0 by the number 3 of a refusal, 17 and 2: times 257, and one more than the value.
            &format!("whole: {refused} 1, for input 0, for room 0, sum 268825"),
            "  a|",
            &format!("blocks 1, rooms 0 1: {refused} 18, for input 15, for room 2, sum 137572509"),
            "  a|",
            &format!("blocks 3, rooms 1 1: {refused} 6, for input 4, for room 1, sum 703880146"),
            "  a|",
            &format!("blocks 7, rooms 5 5: {refused} 3, for input 2, for room 0, sum 399711046"),
            "  a|",
            &format!("whole: {done} 1, for input 0, for room 0, sum 714708"),
            "  pages with sum 439112090",
            &format!("blocks 509, rooms 0 4093: {done} 8, for input 3, for room 4, sum 805034856"),
            "  pages with sum 439112090",
            "too long",
        ]
    );
    misuse(&["runs"], "# a\n{3 x\n", "line 2: a brace is not closed");
    misuse(&["runs", "x"], "", "usage");
}
