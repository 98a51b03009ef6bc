//! Scenarios of how a server starts and ends, by the Rust client, and of threads that share one.

use crate::{all, Outcome, Place};
use dlog::{Error, Log, Options, Reply, Server, Settings, ITEM_LIMIT};
use std::fs;
use std::io::{Read, Write};
use std::os::unix::process::{CommandExt, ExitStatusExt};
use std::path::Path;
use std::process::{Command, ExitStatus, Stdio};
use std::sync::Arc;
use std::thread;
use std::time::Duration;

const MANY: usize = 1000;
const ROUNDS: usize = 100;
const SHORT: Duration = Duration::from_millis(200);
const PATIENCE: Duration = Duration::from_secs(60);
const KILLED: i32 = 9;

fn patient() -> Settings {
    Settings {
        wait: PATIENCE,
        timeout: Some(PATIENCE),
        ..Settings::default()
    }
}

fn serve(place: &Place, folder: &Path) -> Result<Server, Error> {
    Server::start_with(&place.program, folder, &patient())
}

fn signal(name: &str, process: &str) {
    let mut kill = Command::new("kill");
    assert!(kill
        .args(["-s", name, "--", process])
        .status()
        .is_ok_and(|it| it.success()));
}

/// How the server ended of which a call reports it.
pub fn end_of<T>(result: Result<T, Error>) -> (Option<ExitStatus>, String, bool) {
    match result {
        Err(Error::Gone(ended)) => (ended.status, ended.words, ended.may_be_done),
        Err(error) => panic!("{error}"),
        Ok(_) => panic!("the server goes on"),
    }
}

/// Logs, reports so, and waits for its end.
pub fn be_ended(program: &str, folder: &str) -> Outcome {
    let log = Log::new(1, "kept");
    let server = Server::start(program, folder)?;
    server.open(&log, &Options::default())?;
    server.log_many(&log, (0..MANY).map(|number| number.to_string()), 64)?;
    println!("logged");
    std::io::stdout().flush()?;
    loop {
        thread::park();
    }
}

fn a_signal_to_the_group_spares_the_server(place: &Place) -> Outcome {
    let log = Log::new(1, "kept");
    for name in ["TERM", "KILL"] {
        let folder = place.folder.join(name);
        fs::create_dir(&folder)?;
        let mut victim = Command::new(std::env::current_exe()?)
            .args([
                place.program.as_os_str(),
                folder.as_os_str(),
                "be ended".as_ref(),
            ])
            .stdout(Stdio::piped())
            .process_group(0)
            .spawn()?;
        let mut said = [0; 7];
        victim
            .stdout
            .take()
            .ok_or(Error::Form)?
            .read_exact(&mut said)?;
        signal(name, &format!("-{}", victim.id()));
        assert!(victim.wait()?.signal().is_some());
        let server = serve(place, &folder)?;
        assert_eq!(server.open(&log, &Options::default())?, Reply::Opened);
        assert_eq!(all(&server, &log)?.len(), MANY);
        for name in ["TERM", "INT", "HUP"] {
            signal(name, &server.id().to_string());
            server.log(&log, &["later"])?;
        }
        server.stop()?;
    }
    Ok(())
}

fn a_killed_server_is_reported_to_each_caller(place: &Place) -> Outcome {
    let server = Arc::new(place.serve()?);
    let log = Log::new(1, "busy");
    server.open(&log, &Options::default())?;
    let writers: Vec<_> = (0..8)
        .map(|_| {
            let (server, log) = (Arc::clone(&server), log.clone());
            thread::spawn(move || loop {
                if let Err(error) = server.log(&log, &[[b'x'; 10_000]]) {
                    return end_of::<()>(Err(error)).0;
                }
            })
        })
        .collect();
    thread::sleep(SHORT);
    signal("KILL", &server.id().to_string());
    for writer in writers {
        let status = writer.join().expect("a writer ends");
        assert_eq!(status.and_then(|it| it.signal()), Some(KILLED));
    }
    let server = place.serve()?;
    server.open(&log, &Options::default())?;
    signal("KILL", &server.id().to_string());
    loop {
        if let Err(error) = server.info(&log) {
            assert_eq!(
                end_of::<()>(Err(error)).0.and_then(|it| it.signal()),
                Some(KILLED)
            );
            return Ok(());
        }
    }
}

fn a_server_reports_why_it_does_not_start(place: &Place) -> Outcome {
    let missing = place.folder.join("missing");
    let no_program = Server::start(&missing, &place.folder);
    assert!(
        matches!(no_program, Err(Error::Start(error)) if error.kind() == std::io::ErrorKind::NotFound && error.to_string().contains("missing"))
    );
    let (status, words, _) = end_of(Server::start(&place.program, &missing));
    assert!(
        status.and_then(|it| it.code()) == Some(1) && words.contains("missing"),
        "{words}"
    );
    let server = place.serve()?;
    let (_, words, _) = end_of(place.serve());
    assert!(words.contains("another program"), "{words}");
    let too_many = Settings {
        blocks: u32::MAX,
        ..Settings::default()
    };
    let (status, _, _) = end_of(Server::start_with(&place.program, &place.folder, &too_many));
    assert_eq!(status.and_then(|it| it.code()), Some(2));
    server.stop()
}

fn a_client_refuses_what_no_server_reads(place: &Place) -> Outcome {
    let log = Log::new(1, "a");
    let server = place.serve()?;
    server.open(&log, &Options::default())?;
    let longest = vec![b'x'; ITEM_LIMIT];
    let longer = vec![b'x'; ITEM_LIMIT + 1];
    let refused = |result: Result<Reply, Error>, why: &str| matches!(result, Err(Error::Invalid(words)) if words.contains(why));
    assert!(refused(server.log(&log, &[&longer]), "1048577"));
    assert!(refused(server.log(&log, &vec![&longest; 16]), "16777216"));
    assert!(refused(server.log(&log, &[] as &[&str]), "at least one"));
    assert!(
        matches!(server.alog(&log, &[] as &[&str]), Err(Error::Invalid(words)) if words.contains("at least one"))
    );
    for name in ["", "a b", "a/b", "\u{e4}", &"x".repeat(65)] {
        assert!(refused(
            server.open(&Log::new(1, name), &Options::default()),
            "a name is"
        ));
        let based = Options {
            base: Some(name.to_owned()),
            ..Options::default()
        };
        assert!(refused(server.open(&Log::new(1, "b"), &based), "a name is"));
    }
    server.log(&log, &vec![&longest; 15])?;
    assert_eq!(all(&server, &log)?.len(), 15);
    Ok(())
}

fn two_servers_of_one_program_end_alone(place: &Place) -> Outcome {
    let log = Log::new(1, "a");
    let folders = [place.folder.join("first"), place.folder.join("second")];
    folders.iter().try_for_each(fs::create_dir)?;
    let (first, second) = (serve(place, &folders[0])?, serve(place, &folders[1])?);
    second.open(&log, &Options::default())?;
    first.stop()?;
    second.log(&log, &["still here"])?;
    second.stop()
}

fn a_child_keeps_no_server_open(place: &Place) -> Outcome {
    let server = serve(place, &place.folder)?;
    server.open(&Log::new(1, "a"), &Options::default())?;
    let mut child = Command::new("cat").stdin(Stdio::piped()).spawn()?;
    server.stop()?;
    drop(child.stdin.take());
    assert!(child.wait()?.success());
    Ok(())
}

fn threads_share_a_server(place: &Place) -> Outcome {
    let server = Arc::new(serve(place, &place.folder)?);
    let threads: Vec<_> = (1..9)
        .map(|client| {
            let server = Arc::clone(&server);
            thread::spawn(move || -> Outcome {
                let log = Log::new(client, "shared");
                server.open(&log, &Options::default())?;
                for number in 0..200 {
                    server.log(&log, &[format!("{client} {number}")])?;
                }
                server.sync(&log)?;
                let mut items = all(&server, &log)?;
                items.retain(|item| item.starts_with(format!("{client} ").as_bytes()));
                assert!(items
                    .into_iter()
                    .eq((0..200).map(|number| format!("{client} {number}").into_bytes())));
                Ok(())
            })
        })
        .collect();
    threads
        .into_iter()
        .try_for_each(|it| it.join().expect("a thread ends"))?;
    (0..ROUNDS).try_for_each(|_| short_lives(&server))?;
    server.stop()
}

/// Threads that end soon: whichever reads last, none is left that waits and nobody reads for.
fn short_lives(server: &Server) -> Outcome {
    let live = |client| {
        move || -> Outcome {
            let log = Log::new(client, "shared");
            (0..20).try_for_each(|_| server.log(&log, &["short"]).map(drop))
        }
    };
    thread::scope(|scope| {
        let threads: Vec<_> = (1..9).map(|client| scope.spawn(live(client))).collect();
        threads
            .into_iter()
            .try_for_each(|it| it.join().expect("a thread ends"))
    })
}

fn a_call_ends_at_its_time_limit(place: &Place) -> Outcome {
    let log = Log::new(1, "a");
    let server = place.serve()?;
    server.open(&log, &Options::default())?;
    signal("STOP", &server.id().to_string());
    server.set_timeout(Some(SHORT));
    assert!(matches!(server.log(&log, &["late"]), Err(Error::TimedOut)));
    let large = vec![b'x'; ITEM_LIMIT];
    assert!(matches!(
        server.log(&log, &vec![&large; 10]),
        Err(Error::TimedOut)
    ));
    signal("CONT", &server.id().to_string());
    server.set_timeout(Some(PATIENCE));
    server.log(&log, &["last"])?;
    assert_eq!(all(&server, &log)?.len(), 12);
    signal("STOP", &server.id().to_string());
    server.set_timeout(Some(SHORT));
    assert!(matches!(server.stop(), Err(Error::TimedOut)));
    assert_eq!(
        server.kill()?.status.and_then(|it| it.signal()),
        Some(KILLED)
    );
    Ok(())
}

fn a_place_outlives_its_server(place: &Place) -> Outcome {
    let log = Log::new(1, "a");
    let server = place.serve()?;
    server.open(&log, &Options::default())?;
    server.log(&log, &["one", "two", "three"])?;
    let Reply::Items { next, .. } = server.chunk(&log, None, 2)? else {
        panic!("items")
    };
    let stored = *next.as_bytes();
    server.stop()?;
    let server = place.serve()?;
    server.open(&log, &Options::default())?;
    let from = dlog::Place::from_bytes(stored);
    assert!(
        matches!(server.chunk(&log, Some(from), 9)?, Reply::Items { items, .. } if items == [b"three"])
    );
    Ok(())
}

fn a_server_that_has_ended_starts_again(place: &Place) -> Outcome {
    let log = Log::new(1, "a");
    let server = place.serve()?;
    server.open(&log, &Options::default())?;
    server.log(&log, &["kept"])?;
    server.sync(&log)?;
    let sent = server.send(10, &log, |_| {});
    server.kill()?;
    assert!(end_of(server.answer(sent)).2);
    assert!(!end_of(server.log(&log, &["lost"])).2);
    let server = serve(place, &place.folder)?;
    assert!(matches!(
        server.open(&log, &Options::default())?,
        Reply::Repaired { .. }
    ));
    assert_eq!(all(&server, &log)?, [b"kept"]);
    Ok(())
}

fn a_server_waits_for_its_folder(place: &Place) -> Outcome {
    let first = place.serve()?;
    let impatient = Settings {
        wait: SHORT,
        ..Settings::default()
    };
    end_of(Server::start_with(
        &place.program,
        &place.folder,
        &impatient,
    ));
    let stops = thread::spawn(move || {
        thread::sleep(SHORT);
        first.stop()
    });
    let second = serve(place, &place.folder)?;
    second.open(&Log::new(1, "a"), &Options::default())?;
    stops.join().expect("the first one ends")?;
    second.stop()
}

pub const SCENARIOS: &[(&str, fn(&Place) -> Outcome)] = &[
    (
        "a signal to the group spares the server",
        a_signal_to_the_group_spares_the_server,
    ),
    (
        "a killed server is reported to each caller",
        a_killed_server_is_reported_to_each_caller,
    ),
    (
        "a server reports why it does not start",
        a_server_reports_why_it_does_not_start,
    ),
    (
        "a client refuses what no server reads",
        a_client_refuses_what_no_server_reads,
    ),
    (
        "two servers of one program end alone",
        two_servers_of_one_program_end_alone,
    ),
    ("a child keeps no server open", a_child_keeps_no_server_open),
    ("threads share a server", threads_share_a_server),
    (
        "a call ends at its time limit",
        a_call_ends_at_its_time_limit,
    ),
    ("a place outlives its server", a_place_outlives_its_server),
    (
        "a server that has ended starts again",
        a_server_that_has_ended_starts_again,
    ),
    (
        "a server waits for its folder",
        a_server_waits_for_its_folder,
    ),
];
