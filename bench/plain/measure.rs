// Runs a program with its standard input from one file and its standard output to another, and prints its processor microseconds and its
// peak memory in KiB: `measure PROGRAM INPUT OUTPUT`. A process begins with the peak of the one that starts it, so that one is small.
use std::fs::File;
use std::process::Command;

extern "C" {
    fn getrusage(who: i32, usage: *mut i64) -> i32;
}

const CHILDREN: i32 = -1;

fn main() {
    let words: Vec<_> = std::env::args().collect();
    let (input, output) = (File::open(&words[2]).expect("an input"), File::create(&words[3]).expect("an output"));
    Command::new(&words[1]).stdin(input).stdout(output).status().expect("a program");
    // Seconds and microseconds of the program, of the system, the peak of memory, and what isn't looked at.
    let mut usage = [0i64; 18];
    unsafe { getrusage(CHILDREN, usage.as_mut_ptr()) };
    println!("{} {}", (usage[0] + usage[2]) * 1_000_000 + usage[1] + usage[3], usage[4]);
}
