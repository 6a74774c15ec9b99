//! A whole inspection through the program `inspect`, from lines to slip.
use std::fmt::Write as _;
use std::io::Write as _;
use std::process::{Command, Stdio};
use std::time::{Duration, Instant};

/// A reel noted, a plan of one sample opened, every frame viewed and the slip written.
fn session(frames: u32) -> String {
    let mut lines = format!("r 7 100000 1\np {frames} 0 1 0 0 10 999999\n");
    for i in 0..frames {
        // 7,919 has no factor in common with the reel, so no frame comes twice
        let frame = i * 7_919 % 100_000;
        writeln!(lines, "f 3 {} {} g", frame / 24, frame % 24).expect("text grows");
    }
    lines.push_str("s 3\n");
    lines
}

fn inspect(program: &str, lines: &str) -> (Duration, String) {
    let start = Instant::now();
    let mut child = Command::new(program).stdin(Stdio::piped()).stdout(Stdio::piped()).spawn().expect("inspect runs");
    // the input is at most 65,536 bytes and is read before anything is written
    child.stdin.take().expect("a pipe").write_all(lines.as_bytes()).expect("inspect reads");
    let output = child.wait_with_output().expect("inspect ends");
    (start.elapsed(), String::from_utf8(output.stdout).expect("text"))
}

pub fn table(program: &str) {
    println!("frames   wall ms   us a frame");
    for frames in [256, 1_024, 4_096] {
        let lines = session(frames);
        let mut least = Duration::MAX;
        for _ in 0..15 {
            let (time, output) = inspect(program, &lines);
            let passed = output.lines().nth(frames as usize + 1) == Some("ok 1");
            assert!(passed && !output.contains("no "), "the inspection of {frames} frames did not end in PASS");
            least = least.min(time);
        }
        let seconds = least.as_secs_f64();
        println!("{frames:6} {:9.2} {:12.2}", seconds * 1e3, seconds * 1e6 / f64::from(frames));
    }
}
