//! Runs the same work on the port and on the Rust in one run and prints tables of both, with ratios
//! above 1 where the port is the faster.

mod crc;
mod port;
mod queue;
mod ring;
mod timing;
mod zlib;

fn main() {
    let folder = std::env::args_os().nth(1).expect("a folder in memory, for the queue files");
    queue::table(folder.as_ref());
    println!();
    queue::by_length(folder.as_ref());
    println!();
    crc::table();
    println!();
    ring::table();
}
