//! The program as it is run: its answers, and what it refuses.

use std::fs;
use std::io::Write;
use std::path::Path;
use std::process::{Command, Output, Stdio};

fn run(arguments: &[&str], input: &[u8]) -> Output {
    let mut child = Command::new(env!("CARGO_BIN_EXE_second"))
        .args(arguments)
        .stdin(Stdio::piped())
        .stdout(Stdio::piped())
        .stderr(Stdio::piped())
        .spawn()
        .expect("the program starts");
    let mut stdin = child.stdin.take().expect("standard input is a pipe");
    // A program that refuses its arguments does not read its input.
    let _ = stdin.write_all(input);
    drop(stdin);
    child.wait_with_output().expect("the program ends")
}

fn check_answer(arguments: &[&str], input: &[u8], expected: &str) {
    let output = run(arguments, input);
    assert!(output.status.success(), "{arguments:?}");
    assert_eq!(
        String::from_utf8_lossy(&output.stdout),
        expected,
        "{arguments:?}"
    );
}

#[test]
fn shake_prints_the_output_in_hex() {
    check_answer(
        &["shake", "128", "16"],
        b"",
        "7f9c2ba4e88f827d616045507605853e\n",
    );
    check_answer(&["shake", "256", "4"], &[0xa3; 200], "cd8a920e\n");
    check_answer(&["shake", "256", "0"], b"anything", "\n");
}

/// Output of more bytes than the program hands on at once.
#[test]
fn shake_prints_long_output_whole() {
    let output = second::shake::shake(second::shake::Hash::Shake128, b"long", 10_000);
    let expected = second::hex::to_hex(&output) + "\n";
    check_answer(&["shake", "128", "10000"], b"long", &expected);
}

#[test]
fn calls_prints_the_sheet_of_a_function() {
    for function in ["hash", "seeds"] {
        let sheet = second::calls::of(function).unwrap();
        check_answer(&["calls", function], b"", &sheet.to_string());
    }
}

/// Each sheet is of calls of its own function.
#[test]
fn calls_go_to_the_function_that_is_asked_for() {
    for function in [
        "hash",
        "encrypt",
        "public_key",
        "seeds",
        "challenge",
        "read",
        "write",
        "sign",
        "verify",
    ] {
        let output = run(&["calls", function], b"");
        let text = String::from_utf8_lossy(&output.stdout).into_owned();
        let mut calls = text.lines().filter(|line| line.starts_with("call "));
        let end = format!(" picnic_{function}");
        assert!(text.contains("\ncall "), "{function}");
        assert!(calls.all(|call| call.ends_with(&end)), "{function}");
    }
}

/// Noisy calls are asked for by seed and number.
#[test]
fn noisy_calls_follow_from_their_seed() {
    let sheet = second::calls::fuzz::sheet(3, 5);
    check_answer(&["calls", "fuzz", "3", "5"], b"", &sheet.to_string());
    for arguments in [
        ["calls", "fuzz", "9223372036854775808", "1"],
        ["calls", "fuzz", "x", "1"],
    ] {
        assert_eq!(run(&arguments, b"").status.code(), Some(1), "{arguments:?}");
    }
}

/// Known answers go out and come back in as calls.
#[test]
fn known_answers_become_calls() {
    let answers = run(&["answers", "1", "1"], b"");
    assert!(answers.status.success());
    let text = String::from_utf8_lossy(&answers.stdout).into_owned();
    assert!(text.contains("\ncount = 0\n") && text.contains("\npk = 01"));
    let output = run(&["published"], &answers.stdout);
    let calls = String::from_utf8_lossy(&output.stdout).into_owned();
    assert!(calls.contains("\ncall sign-known-set1-0 picnic_sign\n"));
    let output = run(
        &["published"],
        text.replace("mlen = 33", "mlen = 3").as_bytes(),
    );
    assert_eq!(output.status.code(), Some(1));
}

/// What stands in a file of the partner's answers.
fn partner(file: &str) -> String {
    let path = Path::new(env!("CARGO_MANIFEST_DIR"))
        .join("../vectors/partner")
        .join(file);
    fs::read_to_string(&path).unwrap_or_else(|error| panic!("{}: {error}", path.display()))
}

/// The first line of the partner's digests is of the answer that is there in
/// full. It comes out in the form of the published files, and goes in as calls.
#[test]
fn signatures_known_by_their_digests_become_known_answers() {
    let digests = partner("digests.txt");
    let lines: Vec<&str> = digests.lines().take(2).collect();
    let output = run(&["signed"], lines.join("\n").as_bytes());
    assert!(output.status.success());
    let text = String::from_utf8_lossy(&output.stdout).into_owned();
    let full = second::known_answers::read(&partner("picnic-L1-FS.rsp"));
    assert_eq!(full.as_ref().map(Vec::len), Ok(1));
    assert_eq!(second::known_answers::read(&text), full);
    let names = ["count", "seed", "mlen", "msg", "pk", "sk", "smlen", "sm"];
    let found = text.lines().filter_map(|line| line.split_once(" = "));
    assert!(found.map(|(name, _)| name).eq(names));
    let calls = run(&["published"], &output.stdout);
    let calls = String::from_utf8_lossy(&calls.stdout).into_owned();
    assert!(calls.contains("\ncall verify-known-set1-0 picnic_verify\n"));
}

/// Nothing is printed but what is wrong with which line, though the line
/// before it is right.
#[test]
fn signatures_with_other_digests_are_refused() {
    let digests = partner("digests.txt");
    let good = digests.lines().nth(1).expect("there is a line");
    let last = good.len() - 1;
    let digit = if good.ends_with('0') { "1" } else { "0" };
    for (bad, what) in [
        (
            format!("{}{digit}", &good[..last]),
            "the signature's SHA-256",
        ),
        (good.replacen("1 ", "4 ", 1), "there is no set 4"),
        (
            good.replace(" 32720 ", " 32736 "),
            "the signature has 32720 bytes",
        ),
        (
            good.replace(" c16f", " c16e"),
            "C is not the encryption of p",
        ),
        (
            good[..last].into(),
            "the digest: 32 bytes in hex are wanted",
        ),
        ("1".into(), "1 fields, not seven"),
    ] {
        assert_ne!(bad, good, "{what}");
        let output = run(&["signed"], format!("{good}\n{bad}\n").as_bytes());
        let error = String::from_utf8_lossy(&output.stderr).into_owned();
        assert_eq!(output.status.code(), Some(1), "{what}");
        assert!(output.stdout.is_empty(), "{what}");
        let start = format!("second: line 2: {what}");
        assert!(error.starts_with(&start), "{error}");
    }
    let output = run(&["signed"], &[0xff]);
    assert_eq!(output.status.code(), Some(1), "what is no text");
}

/// All tables in one run of bytes, in the order in which a host lends them.
#[test]
fn lend_writes_the_tables() {
    let tables = second::sets::SETS[1].lowmc().tables();
    let output = run(&["lend", "2"], b"");
    assert!(output.status.success());
    let expected = [&tables.keys[..], &tables.layers, &tables.constants].concat();
    assert!(output.stdout == expected);
}

/// A time, which no test depends on, and the last ciphertext.
#[test]
fn bench_prints_a_time_and_the_last_ciphertext() {
    let output = run(&["bench", "encrypt", "1", "1", "1"], b"");
    let text = String::from_utf8_lossy(&output.stdout).into_owned();
    let (time, last) = text.split_once(' ').expect("there are two words");
    assert!(time.parse::<f64>().is_ok(), "{text}");
    assert_eq!(last, "0e30720b9f64d5c2a7771c8c238d8f70\n");
}

#[test]
fn encrypt_prints_the_published_ciphertext() {
    check_answer(
        &[
            "encrypt",
            "1",
            "80000000000000000000000000000000",
            "abff0000000000000000000000000000",
        ],
        b"",
        "0e30720b9f64d5c2a7771c8c238d8f70\n",
    );
}

#[test]
fn tables_prints_three_digests() {
    let tables = second::lowmc::Lowmc::new(30, 10, 3).unwrap().draw_tables();
    let digest = |table: &[u8]| {
        second::hex::to_hex(&second::shake::shake(
            second::shake::Hash::Shake256,
            table,
            32,
        ))
    };
    let expected = format!(
        "{}\n{}\n{}\n",
        digest(&tables.keys),
        digest(&tables.layers),
        digest(&tables.constants)
    );
    check_answer(&["tables", "30", "10", "3"], b"", &expected);
}

#[test]
fn help_names_every_subcommand() {
    let output = run(&["help"], b"");
    let text = String::from_utf8_lossy(&output.stdout).into_owned();
    for name in [
        "help",
        "constants",
        "calls",
        "answers",
        "published",
        "signed",
        "shake",
        "tables",
        "lend",
        "encrypt",
        "bench",
        "work",
    ] {
        assert!(text.contains(&format!("second {name}")), "{name}");
    }
}

#[test]
fn what_is_not_understood_is_refused() {
    let key = "80000000000000000000000000000000";
    let refused: [&[&str]; 18] = [
        &[],
        &["sign"],
        &["signed", "1"],
        &["calls"],
        &["calls", "picnic_hash"],
        &["shake", "128"],
        &["shake", "512", "16"],
        &["shake", "128", "-1"],
        &["tables", "128", "43", "4"],
        &["lend", "0"],
        &["bench", "encrypt", "4", "1", "1"],
        &["bench", "nothing", "1", "1", "1"],
        &["work", "0"],
        &["bench", "encrypt", "1", "0", "1"],
        &["bench", "encrypt", "1", "1", "0"],
        &["encrypt", "4", key, key],
        &["encrypt", "2", key, key],
        &["encrypt", "1", key, "xy"],
    ];
    for arguments in refused {
        let output = run(arguments, b"");
        assert_eq!(output.status.code(), Some(1), "{arguments:?}");
        assert!(output.stdout.is_empty(), "{arguments:?}");
        assert!(!output.stderr.is_empty(), "{arguments:?}");
    }
}
