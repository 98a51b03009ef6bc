//! How many items of 100 bytes a second the Rust client logs, one call at a time and with 64 under way.
//! Words: the program, an empty folder, and a number of items. Prints `name: items a second`.

use dlog::{Error, Log, Options, Server};
use std::time::Instant;

const AHEAD: usize = 64;

fn timed(
    server: &Server,
    log: &Log,
    name: &str,
    count: usize,
    write: impl FnOnce(&Server) -> Result<(), Error>,
) -> Result<(), Error> {
    server.open(log, &Options::default())?;
    let start = Instant::now();
    write(server)?;
    server.close(log)?;
    println!(
        "{name}: {:.0}",
        count as f64 / start.elapsed().as_secs_f64()
    );
    Ok(())
}

fn main() -> Result<(), Error> {
    let words: Vec<String> = std::env::args().collect();
    let count: usize = words[3].parse().unwrap_or(100_000);
    let items: Vec<[u8; 100]> = (0..count)
        .map(|number| {
            let mut item = [b'z'; 100];
            item[..8].copy_from_slice(&number.to_be_bytes());
            item
        })
        .collect();
    let server = Server::start(&words[1], &words[2])?;
    let (one, ahead) = (Log::new(1, "one"), Log::new(1, "ahead"));
    timed(&server, &one, "rust_one_at_a_time", count / 20, |server| {
        items[..count / 20]
            .iter()
            .try_for_each(|item| server.log(&one, &[item]).map(drop))
    })?;
    timed(&server, &ahead, "rust_64_under_way", count, |server| {
        server.log_many(&ahead, &items, AHEAD)
    })?;
    server.stop()
}
