//! The session program beside the model's listing.

use std::io::{ErrorKind, Write};
use std::path::{Path, PathBuf};
use std::process::{Child, Command, Output, Stdio};
use std::thread::sleep;
use std::time::Duration;

use beside::shapes::times;
use model::random::{commands, row, Random};
use model::session::listing;

/// The reference's example.
const EXAMPLE: [u16; 27] = [
    0x0005, 0x2001, 0x0002, 0x8000, 0x0009, 0x2001, 0x8000, 0x8000, 0x0002, 0x2001, 0x1004, 0x0003,
    0x0003, 0x4000, 0x2001, 0x0002, 0x0003, 0x3000, 0x2001, 0x8000, 0x8001, 0x1005, 0x1005, 0x7000,
    0x5000, 0x2001, 0x0002,
];

/// The program, two levels above this crate.
fn program() -> PathBuf {
    let program = Path::new(env!("CARGO_MANIFEST_DIR")).join("../../target/session");
    assert!(program.exists(), "`make session` has to be run first");
    program
}

fn started() -> Child {
    let mut command = Command::new(program());
    command.stdin(Stdio::piped()).stdout(Stdio::piped());
    command.stderr(Stdio::piped());
    command.spawn().expect("the program starts")
}

/// Writes to the program; it may have ended before it has read all.
fn give(child: &mut Child, bytes: &[u8]) {
    let stdin = child.stdin.as_mut().expect("it is piped");
    match stdin.write_all(bytes).and_then(|()| stdin.flush()) {
        Err(error) if error.kind() != ErrorKind::BrokenPipe => panic!("{error}"),
        _ => (),
    }
}

/// What was printed; the program ended by itself and said nothing else.
fn printed(output: Output) -> String {
    assert!(output.status.code().is_some(), "{}", output.status);
    assert_eq!(String::from_utf8_lossy(&output.stderr), "");
    String::from_utf8(output.stdout).expect("the listing is text")
}

/// Both print the same for these bytes.
fn alike(bytes: &[u8]) -> String {
    let mut child = started();
    give(&mut child, bytes);
    let found = printed(child.wait_with_output().expect("it ends"));
    assert_eq!(found, listing(bytes), "{} bytes", bytes.len());
    found
}

fn bytes(cells: &[u16]) -> Vec<u8> {
    cells.iter().flat_map(|cell| cell.to_be_bytes()).collect()
}

#[test]
fn the_references_listing() {
    let found = alike(&bytes(&EXAMPLE));
    let wanted = "no refusal count cells\n\
                  1 0 0\n\
                  2 0 0\n\
                  3 0 0\n\
                  4 0 2 0005 0009\n\
                  5 0 3 0002 0005 0009\n\
                  6 0 0\n\
                  7 7 0\n\
                  8 0 2 0002 0006\n\
                  9 3 0\n\
                  stop 3 used 24 written 16\n";
    assert_eq!(found, wanted);
}

#[test]
fn nothing_in() {
    assert_eq!(
        alike(&[]),
        "no refusal count cells\nstop 0 used 0 written 0\n"
    );
    let output = Command::new(program()).stdin(Stdio::null()).output();
    assert_eq!(printed(output.expect("it runs")), listing(&[]));
}

#[test]
fn odd_counts() {
    let example = bytes(&EXAMPLE);
    for count in 0..=example.len() {
        let found = alike(&example[..count]);
        assert_eq!(found == "bad input\n", count % 2 == 1);
    }
}

#[test]
fn around_8192_bytes() {
    let mut random = Random::new(801);
    for count in [8_190, 8_191, 8_192, 8_193, 8_194, 16_384, 20_000] {
        let any: Vec<u8> = (0..count).map(|_| random.bits() as u8).collect();
        for input in [vec![0x10; count], vec![0; count], vec![0xff; count], any] {
            let found = alike(&input);
            assert_eq!(found == "bad input\n", count % 2 == 1 || count > 8_192);
        }
    }
    let most = alike(&[0x10; 8_192]);
    assert!(most.ends_with("stop 0 used 4096 written 4096\n"));
}

/// Input that comes in pieces, cut inside cells too.
#[test]
fn pieces() {
    let example = bytes(&EXAMPLE);
    for size in [1, 3, 7, 53] {
        let mut child = started();
        for piece in example.chunks(size) {
            give(&mut child, piece);
            sleep(Duration::from_millis(1));
        }
        let found = printed(child.wait_with_output().expect("it ends"));
        assert_eq!(found, listing(&example));
    }
    let long = vec![0x10; 8_193];
    let mut child = started();
    for piece in long.chunks(4_096) {
        give(&mut child, piece);
        sleep(Duration::from_millis(5));
    }
    let found = printed(child.wait_with_output().expect("it ends"));
    assert_eq!(found, "bad input\n");
}

#[test]
fn random_commands() {
    let mut random = Random::new(802);
    for _ in 0..times(60) {
        let (count, harm) = (random.below(60), random.pick(&[0, 30, 8]));
        alike(&bytes(&commands(&mut random, count, harm)));
        let length = random.below(40);
        alike(&bytes(&row(&mut random, length)));
    }
}

/// Sessions whose output doesn't fit in 4,096 cells.
#[test]
fn stops_by_10() {
    let found = alike(&bytes(&[0x7000; 1_366]));
    assert!(found.ends_with("1365 0 2 0000 0000\nstop 10 used 1365 written 4095\n"));
    let rules: Vec<u16> = (0..500).flat_map(|n| [n, 0x0002]).collect();
    let lists = [0x3000, 0x8000].repeat(20);
    let found = alike(&bytes(&[rules, lists].concat()));
    assert!(found.contains("\nstop 10 used "));
    let mut random = Random::new(803);
    for _ in 0..times(5) {
        let mut cells = commands(&mut random, 400, 0);
        cells.truncate(2_000);
        cells.extend([0x5000, 0x8000].repeat(900));
        alike(&bytes(&cells));
    }
}
