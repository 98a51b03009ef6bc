//! The scenarios of the clients, by the Rust client. Words: the program, and an empty folder.

#[path = "devices_rust.rs"]
mod devices;
#[path = "ends_rust.rs"]
mod ends;

use dlog::{Error, Extent, Log, Notice, Options, Refused, Reply, Server, Size, Told};
use std::path::{Path, PathBuf};
use std::time::Instant;

const MANY: usize = 100_000;
const AHEAD: usize = 64;

pub type Outcome = Result<(), Error>;

/// Where a scenario works: the program, and a folder of its own.
pub struct Place {
    pub program: PathBuf,
    pub folder: PathBuf,
}

impl Place {
    pub fn serve(&self) -> Result<Server, Error> {
        Server::start(&self.program, &self.folder)
    }
}

/// The number by which a call was refused, or 0.
fn refusal<T>(result: Result<T, Error>) -> u8 {
    match result {
        Err(Error::Refused(refused)) => refused.number(),
        _ => 0,
    }
}

fn sized(size: Size) -> Options {
    Options {
        size: Some(size),
        notify: true,
        ..Options::default()
    }
}

pub fn all(server: &Server, log: &Log) -> Result<Vec<Vec<u8>>, Error> {
    server.items(log).collect()
}

fn items_come_back_in_order(place: &Place) -> Outcome {
    let log = Log::new(1, "words");
    let server = place.serve()?;
    server.open(&log, &Options::default())?;
    server.log(&log, &["first", "second", ""])?;
    assert_eq!(all(&server, &log)?, [b"first".as_slice(), b"second", b""]);
    let Reply::Items {
        next,
        bad: 0,
        items,
    } = server.chunk(&log, None, 2)?
    else {
        panic!("items")
    };
    assert_eq!(items, [b"first".as_slice(), b"second"]);
    let Reply::Items { next, items, .. } = server.chunk(&log, Some(next), 9)? else {
        panic!("items")
    };
    assert_eq!(items, [b""]);
    assert_eq!(server.chunk(&log, Some(next), 9)?, Reply::Eof);
    server.stop()?;
    let server = place.serve()?;
    assert_eq!(server.open(&log, &Options::default())?, Reply::Opened);
    assert_eq!(all(&server, &log)?.len(), 3);
    Ok(())
}

fn a_full_log_refuses_and_tells(place: &Place) -> Outcome {
    let log = Log::new(1, "small");
    let server = place.serve()?;
    server.open(&log, &sized(Size::Bytes(40)))?;
    assert_eq!(refusal(server.log(&log, &["12345678", "9"])), 14);
    let told = server.notices()?;
    assert!(matches!(
        told.as_slice(),
        [
            Notice {
                client: 1,
                what: Told::Full,
                ..
            },
            Notice {
                what: Told::Status(Some(_)),
                ..
            }
        ]
    ));
    assert_eq!(refusal(server.change_size(&log, Size::Bytes(20))), 19);
    server.change_size(&log, Size::Infinity)?;
    server.log(&log, &["9"])?;
    let info = server.info(&log)?;
    assert_eq!((info.size, info.owners), (Size::Infinity, vec![(1, true)]));
    assert!(info
        .writing
        .is_some_and(|it| it.written == 2 && it.extent == Extent::Halt { full: false }));
    Ok(())
}

fn a_wrap_log_rolls(place: &Place) -> Outcome {
    let log = Log::new(1, "ring");
    let size = Size::Wrap {
        bytes: 40,
        files: 2,
    };
    let server = place.serve()?;
    server.open(
        &log,
        &Options {
            head: Some(b"h".to_vec()),
            ..sized(size)
        },
    )?;
    for item in ["one-one-", "two-two-", "three---"] {
        server.log(&log, &[item])?;
    }
    let told = server.notices()?;
    assert!(matches!(
        told.as_slice(),
        [
            Notice {
                what: Told::Wrap(_),
                ..
            },
            Notice {
                what: Told::Wrap(_),
                ..
            }
        ]
    ));
    assert!(server
        .info(&log)?
        .writing
        .is_some_and(|it| matches!(it.extent, Extent::Wrap { file: 1, .. })));
    let Reply::At(place) = server.step(&log, None, 1)? else {
        panic!("a place")
    };
    let Reply::Items { items, next, .. } = server.chunk(&log, Some(place), 9)? else {
        panic!("items")
    };
    assert_eq!(items[0], b"h");
    assert_eq!(refusal(server.step(&log, Some(next), 1)), 0);
    let other = Log::new(1, "ring2");
    server.open(&other, &sized(size))?;
    assert_eq!(refusal(server.step(&other, None, 1)), 22);
    Ok(())
}

fn a_block_keeps_the_calls_of_others(place: &Place) -> Outcome {
    let (log, other) = (Log::new(1, "shared"), Log::new(2, "shared"));
    let server = place.serve()?;
    server.open(&log, &Options::default())?;
    server.open(&other, &Options::default())?;
    server.block(&log, true)?;
    let late = server.send_log(&other, &["late"]);
    server.alog(&other, &["held"])?;
    assert_eq!(refusal(server.log(&log, &["mine"])), 15);
    assert!(all(&server, &log)?.is_empty());
    server.unblock(&log)?;
    server.answer(late)?;
    let mut items = all(&server, &log)?;
    items.sort();
    assert_eq!(items, [b"held", b"late"]);
    server.block(&log, false)?;
    assert_eq!(refusal(server.log(&other, &["no"])), 15);
    server.exit(1)?;
    server.log(&other, &["yes"])?;
    assert_eq!(
        all(&server, &other)?.pop().as_deref(),
        Some(b"yes".as_slice())
    );
    Ok(())
}

fn a_held_log_has_no_more_than_its_blocks(place: &Place) -> Outcome {
    let (log, other) = (Log::new(1, "held"), Log::new(2, "held"));
    let held = |blocks| Options {
        hold: Some(blocks),
        ..Options::default()
    };
    let server = place.serve()?;
    assert_eq!(refusal(server.open(&log, &held(0))), 1);
    server.open(&log, &held(1))?;
    let items: Vec<String> = (0..3).map(|number| format!("{number:03000}")).collect();
    for item in &items {
        server.log(&log, &[item])?;
    }
    assert!(matches!(
        server.open(&other, &held(2)),
        Err(Error::Refused(Refused::Argument(4, "hold")))
    ));
    server.open(&other, &Options::default())?;
    assert!(all(&server, &other)?
        .iter()
        .eq(items.iter().map(String::as_bytes)));
    assert!(server
        .info(&log)?
        .writing
        .is_some_and(|it| it.hold == Some(1)));
    Ok(())
}

fn a_hundred_thousand_items_pipelined(place: &Place) -> Outcome {
    let log = Log::new(1, "many");
    let items: Vec<String> = (0..MANY).map(|number| format!("{number:0100}")).collect();
    let server = place.serve()?;
    server.open(&log, &Options::default())?;
    let start = Instant::now();
    server.log_many(&log, &items, AHEAD)?;
    println!(
        "  {:.0} items of 100 bytes a second",
        MANY as f64 / start.elapsed().as_secs_f64()
    );
    assert!(all(&server, &log)?
        .iter()
        .eq(items.iter().map(String::as_bytes)));
    Ok(())
}

fn what_was_synced_stays_after_a_kill(place: &Place) -> Outcome {
    let log = Log::new(1, "kept");
    let server = place.serve()?;
    server.open(&log, &Options::default())?;
    server.log(&log, &["synced"])?;
    server.sync(&log)?;
    server.log(&log, &["perhaps"])?;
    server.kill()?;
    let server = place.serve()?;
    assert!(matches!(
        server.open(&log, &Options::default())?,
        Reply::Repaired { .. }
    ));
    assert_eq!(all(&server, &log)?[0], b"synced");
    Ok(())
}

fn what_is_no_request_is_told(place: &Place) -> Outcome {
    let log = Log::new(1, "a");
    let server = place.serve()?;
    server.open(&log, &Options::default())?;
    for (number, rest, at) in [(200, "", 4), (2, "", 11), (13, "x", 11)] {
        let tag = server.send(number, &log, |parts| parts.extend(rest.as_bytes()));
        assert!(
            matches!(server.answer(tag), Err(Error::NoRequest(place)) if place == at),
            "{number}"
        );
    }
    server.log(&log, &["still there"])?;
    Ok(())
}

fn many_clients_stop_in_order(place: &Place) -> Outcome {
    let server = place.serve()?;
    for number in 1..50 {
        let log = Log::new(number, &format!("log{number}"));
        server.open(&log, &Options::default())?;
        server.log(&log, &[number.to_string()])?;
    }
    assert_eq!(server.flush_all()?, Reply::Turn(dlog::Turn::Idle));
    server.stop()?;
    let server = place.serve()?;
    for number in 1..50 {
        let log = Log::new(7, &format!("log{number}"));
        assert_eq!(server.open(&log, &Options::default())?, Reply::Opened);
        assert_eq!(all(&server, &log)?, [number.to_string().as_bytes()]);
    }
    Ok(())
}

const SCENARIOS: [(&str, fn(&Place) -> Outcome); 9] = [
    ("items come back in order", items_come_back_in_order),
    ("a full log refuses and tells", a_full_log_refuses_and_tells),
    ("a wrap log rolls", a_wrap_log_rolls),
    (
        "a block keeps the calls of others",
        a_block_keeps_the_calls_of_others,
    ),
    (
        "a held log has no more than its blocks",
        a_held_log_has_no_more_than_its_blocks,
    ),
    (
        "a hundred thousand items pipelined",
        a_hundred_thousand_items_pipelined,
    ),
    (
        "what was synced stays after a kill",
        what_was_synced_stays_after_a_kill,
    ),
    ("what is no request is told", what_is_no_request_is_told),
    ("many clients stop in order", many_clients_stop_in_order),
];

fn main() -> Outcome {
    let words: Vec<String> = std::env::args().collect();
    if let [_, program, folder, "be ended"] =
        words.iter().map(String::as_str).collect::<Vec<_>>()[..]
    {
        return ends::be_ended(program, folder);
    }
    for (number, (name, run)) in SCENARIOS
        .iter()
        .chain(ends::SCENARIOS)
        .chain(devices::SCENARIOS)
        .enumerate()
    {
        let folder = Path::new(&words[2]).join(number.to_string());
        std::fs::create_dir(&folder)?;
        run(&Place {
            program: PathBuf::from(&words[1]),
            folder,
        })?;
        println!("rust: {name}");
    }
    Ok(())
}
