//! The C programs of `host/c`, compiled against the header and the archive, and run. The header itself checks the layout of every
//! struct. `exchange`, `group` and `path` must print what their `.stdout` has; what `capture` and `xgpon` must print is the tests' own.

use crate::captures::answers;
use crate::captures::blocks::{random_block, settings};
use crate::random::cases;
use crate::reference::capture::{self, Way};
use crate::xgpon;
use jazmotip::{BlockAnswer, BlockDirectory, BlockNearAnswer, BlockPart, BlockVerdict};
use std::fmt::Write as _;
use std::io::Write as _;
use std::path::{Path, PathBuf};
use std::process::{Command, Stdio};

fn host() -> PathBuf {
    Path::new(env!("CARGO_MANIFEST_DIR")).join("..")
}

/// Compiles a program with gcc, or what CC names.
fn compiled(name: &str, level: &str) -> PathBuf {
    let program = Path::new(env!("CARGO_TARGET_TMPDIR")).join(format!("{name}{level}"));
    let compiler = std::env::var("CC").unwrap_or_else(|_| "gcc".to_string());
    let compiled = Command::new(&compiler)
        .args(["-std=c11", "-Wall", "-Wextra", "-Werror", "-pedantic", level, "-I"])
        .arg(host().join("include"))
        .arg(host().join(format!("c/{name}.c")))
        .arg(env!("JAZMOTIP_ARCHIVE"))
        .arg("-o")
        .arg(&program)
        .output()
        .unwrap_or_else(|error| panic!("{compiler}: {error}"));
    assert!(compiled.status.success(), "{}", String::from_utf8_lossy(&compiled.stderr));
    program
}

/// What a program prints for an input.
fn printed(program: &Path, input: &[u8]) -> String {
    let mut run = Command::new(program).stdin(Stdio::piped()).stdout(Stdio::piped()).spawn().expect("the program starts");
    run.stdin.take().expect("its input").write_all(input).expect("the input is read");
    let done = run.wait_with_output().expect("the program ends");
    let text = String::from_utf8(done.stdout).expect("plain text");
    assert!(done.status.success(), "{text}");
    text
}

/// A program that reads nothing prints what stands in its file.
fn prints_its_file(name: &str) {
    let expected = std::fs::read_to_string(host().join(format!("c/{name}.stdout"))).expect("the expected output");
    for level in ["-O0", "-O2"] {
        assert_eq!(printed(&compiled(name, level), &[]), expected, "{level}");
    }
}

#[test]
fn exchange_plays_to_the_second_switch() {
    prints_its_file("exchange");
}

#[test]
fn group_brings_a_viewer_back() {
    prints_its_file("group");
}

#[test]
fn path_changes_and_goes_on() {
    prints_its_file("path");
}

/// NULL with length 0: an empty payload is sealed, empty settings and an empty block are refused, and nothing is read or written.
#[test]
fn nothing_is_null_with_length_0() {
    let expected = "seal 0: 0 0 0 0, count 0\n\
                    seal 1: 0 0 0 0, count 0\n\
                    seal 2: 1 1 1 1, count 0\n\
                    seal into nothing: 14\n\
                    seal of nothing: 14\n\
                    count: 0\n\
                    rearrange: 0 14\n\
                    restore: 0 14\n\
                    olt send: 0, count 0\n\
                    onu receive: 0\n\
                    onu send: 0, count 0\n\
                    olt receive: 0\n\
                    directory: 15 pair 0\n\
                    verdict: 14 15\n\
                    verdicts: 14 15\n\
                    payload: 15\n\
                    open: 14 15 14\n\
                    open near: 14 15 14\n\
                    class open: 23 14 15\n\
                    class load: 14\n\
                    rearrange: 15 14\n\
                    restore: 15 14\n\
                    list: no llid ch key eqs result\nrefused 14\n";
    for level in ["-O0", "-O2"] {
        assert_eq!(printed(&compiled("nothing", level), &[]), expected, "{level}");
    }
}

/// What `capture` must print.
fn capture_text(settings: &[u8], block: &[u8]) -> String {
    let mut text = capture::listing(settings, block, Way::Usual);
    let BlockDirectory { number, pair, records } = answers::directory(block);
    writeln!(text, "directory {number} pair {pair} records {records}").expect("text");
    let (usual, _) = answers::open(settings, block, block.len(), Way::Usual);
    let BlockAnswer { number, expansions, pair, count, runs } = usual.answer;
    writeln!(text, "open {number} pair {pair} count {count}\nruns {runs} expansions {expansions}").expect("text");
    let (BlockNearAnswer { answer, smallest, largest }, _) = answers::open(settings, block, block.len(), Way::Near);
    let (number, count) = (answer.number, answer.count);
    writeln!(text, "open near {number} count {count} corrections {smallest} to {largest}").expect("text");
    for k in 1..=records {
        let BlockVerdict { number, encenabled, enckey, clock, .. } = answers::verdict(settings, block, k, Way::Usual);
        let BlockPart { number: found, offset, length, .. } = answers::part(block, k);
        write!(text, "record {k}: {number} key {encenabled} {enckey} clock {clock} payload {found} {offset} {length}")
            .expect("text");
        text.push_str(if encenabled == 1 { ", seals back\n" } else { "\n" });
    }
    text
}

#[test]
fn capture_opens_and_seals_back() {
    let program = compiled("capture", "-O2");
    let sample = std::fs::read(host().join("../samples/line.capture")).expect("the sample");
    let (settings_of, block_of) = sample.split_at(41);
    assert_eq!(printed(&program, &sample), capture_text(settings_of, block_of));
    assert_eq!(printed(&program, &sample[..40]), capture_text(&sample[..40], &[]));
    let broken = std::fs::read(host().join("../samples/broken.capture")).expect("the broken sample");
    let (settings_of, block_of) = broken.split_at(41);
    assert_eq!(printed(&program, &broken), capture_text(settings_of, block_of));
    assert!(printed(&program, &broken).contains("\nrefused 19 3\n"));
    cases(40, |random| {
        let settings = settings(random, 3);
        let records = random.within(1, 12) as usize;
        let mut block = random_block(random, &settings, records, 30);
        if random.once_in(3) {
            let place = random.below(2 + 8 * records as u64) as usize;
            block[place] = block[place].wrapping_add(1);
        }
        assert_eq!(printed(&program, &[&settings[..], &block].concat()), capture_text(&settings, &block));
    });
}

#[test]
fn xgpon_plays_its_inputs() {
    let program = compiled("xgpon", "-O2");
    cases(40, |random| {
        let inputs = xgpon::random_inputs(random);
        let octets: Vec<u8> = inputs.iter().flat_map(|input| [input.kind, input.index]).collect();
        assert_eq!(printed(&program, &octets), xgpon::played(&inputs));
    });
}
