//! Runs a program and prints its time and its memory: `measure OUTPUT PROGRAM ARG..`.
//!
//! The program's output goes to the file OUTPUT. The line that is printed has nanoseconds by the clock, microseconds of user time
//! and KiB of memory. The memory is the peak of the largest process, if the program starts others. It is at least that of this
//! small program, which a large caller's would hide. The exit status is 1 unless the program's is 0. It needs Linux.
use std::fs::File;
use std::process::{Command, Stdio};
use std::time::Instant;

/// `struct rusage` of Linux on 64 bits.
#[repr(C)]
#[derive(Default)]
struct Usage {
    user: [i64; 2],
    system: [i64; 2],
    peak_kib: i64,
    others: [i64; 13],
}

unsafe extern "C" {
    fn wait4(pid: i32, status: *mut i32, options: i32, usage: *mut Usage) -> i32;
}

fn main() {
    let args: Vec<String> = std::env::args().skip(1).collect();
    let output = File::create(&args[0]).expect("to create the output");
    let mut command = Command::new(&args[1]);
    command.args(&args[2..]).stdin(Stdio::null()).stdout(output);
    let began = Instant::now();
    let child = command.spawn().expect("to run the program");
    let (mut status, mut usage) = (0, Usage::default());
    let pid = child.id() as i32;
    // SAFETY: both pointers are to live values of the types that the call writes, and the child is waited for only here.
    let ended = unsafe { wait4(pid, &mut status, 0, &mut usage) };
    let nanoseconds = began.elapsed().as_nanos();
    assert_eq!(ended, pid, "the program was not waited for");
    println!("{nanoseconds} {} {}", usage.user[0] * 1_000_000 + usage.user[1], usage.peak_kib);
    std::process::exit(i32::from(status != 0));
}
