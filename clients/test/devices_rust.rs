//! Scenarios of programs that are no server of this version, and of devices that are full, by the Rust client.

use crate::ends::end_of;
use crate::{all, Outcome, Place};
use dlog::{Cause, Error, Log, Options, Refused, Reply, Server, Settings};
use std::fs;
use std::os::unix::fs::PermissionsExt;
use std::path::PathBuf;
use std::process::Command;

const MANY: usize = 1000;

fn write_program(place: &Place, name: &str, text: &str) -> std::io::Result<PathBuf> {
    let path = place.folder.join(name);
    fs::write(&path, text)?;
    fs::set_permissions(&path, PermissionsExt::from_mode(0o700))?;
    Ok(path)
}

fn a_server_of_another_version_is_refused(place: &Place) -> Outcome {
    let hello = r"\0\0\0\024\0\0\0\1\0\0\011\1\0\0\0\0\0\4\0\4dlog";
    let text = format!("#!/bin/sh\nprintf '{hello}'\nexec cat >/dev/null\n");
    let other = write_program(place, "other", &text)?;
    let refused = Server::start(other, &place.folder);
    assert!(matches!(refused, Err(Error::Version(9))));
    Ok(())
}

/// A program whose files become no longer than 4,096 bytes, until its soft limit is raised.
fn limited(place: &Place) -> std::io::Result<PathBuf> {
    let program = place.program.display();
    let text = format!("#!/bin/sh\nulimit -S -f 8\nexec '{program}' \"$@\"\n");
    write_program(place, "full", &text)
}

/// Logs items and syncs each until one is refused, and returns how many were taken, and why the last was not.
fn fill(server: &Server, log: &Log) -> (usize, Refused) {
    for taken in 0..MANY {
        let kept = server
            .log(log, &[[b'x'; 500]])
            .and_then(|_| server.sync(log));
        match kept {
            Err(Error::Refused(refused)) => return (taken, refused),
            other => assert!(other.is_ok(), "{other:?}"),
        }
    }
    panic!("nothing is refused")
}

fn give_room(server: &Server) -> std::io::Result<()> {
    let mut raises = Command::new("prlimit");
    raises.args(["--pid", &server.id().to_string(), "--fsize=unlimited"]);
    assert!(raises.status()?.success());
    Ok(())
}

fn a_full_device_is_an_error_until_it_has_room(place: &Place) -> Outcome {
    let (log, other) = (Log::new(1, "a"), Log::new(2, "b"));
    let small = Settings {
        blocks: 1,
        ..Settings::default()
    };
    let server = Server::start_with(limited(place)?, &place.folder, &small)?;
    server.open(&log, &Options::default())?;
    server.open(&other, &Options::default())?;
    let (taken, refused) = fill(&server, &log);
    let fault = Refused::Device {
        file: "a.log".to_owned(),
        cause: Some(Cause::System(27)), // EFBIG
    };
    assert_eq!(refused, fault);
    assert_eq!(fill(&server, &log), (0, refused));
    server.log(&other, &["has room"])?;
    server.sync(&other)?;
    give_room(&server)?;
    server.log(&log, &["last"])?;
    server.sync(&log)?;
    server.stop()?;
    let server = place.serve()?;
    assert_eq!(server.open(&log, &Options::default())?, Reply::Opened);
    let items = all(&server, &log)?;
    assert!(taken > 0 && items.len() > taken && items.last().is_some_and(|it| it == b"last"));
    Ok(())
}

fn many_logs_are_synced_by_one_call(place: &Place) -> Outcome {
    let server = Server::start(limited(place)?, &place.folder)?;
    let [log, other] = ["a", "b"].map(|name| Log::new(1, name));
    server.open(&log, &Options::default())?;
    server.open(&other, &Options::default())?;
    server.log(&log, &[[b'x'; 10_000]])?;
    server.log(&other, &["has room"])?;
    let left = match server.sync_all(1, &["missing", "b", "a"]) {
        Err(Error::Unsynced(logs)) => logs,
        other => panic!("{other:?}"),
    };
    let said: Vec<_> = left
        .iter()
        .map(|(log, why)| format!("{log}: {why}"))
        .collect();
    assert_eq!(
        said,
        [
            "missing: E2 no_such_log",
            "a: E24 device_fault a.log: File too large (os error 27)"
        ]
    );
    assert_eq!(server.logs()?, ["a", "b"]);
    assert!(matches!(
        server.sync_all(1, &["a b"]),
        Err(Error::Invalid(_))
    ));
    give_room(&server)?;
    server.sync_all(1, &[])?;
    server.kill()?;
    let server = place.serve()?;
    server.open(&log, &Options::default())?;
    assert_eq!(all(&server, &log)?, [[b'x'; 10_000]]);
    Ok(())
}

fn a_loss_at_the_stop_is_an_error(place: &Place) -> Outcome {
    let log = Log::new(1, "a");
    let settings = Settings {
        blocks: 256,
        ..Settings::default()
    };
    let server = Server::start_with(limited(place)?, &place.folder, &settings)?;
    server.open(&log, &Options::default())?;
    server.log(&log, &[[b'x'; 100_000]])?;
    let (status, words, _) = end_of(server.stop());
    assert!(
        status.and_then(|it| it.code()) == Some(1) && words.contains("is lost"),
        "{words}"
    );
    Ok(())
}

pub const SCENARIOS: &[(&str, fn(&Place) -> Outcome)] = &[
    (
        "a server of another version is refused",
        a_server_of_another_version_is_refused,
    ),
    (
        "many logs are synced by one call",
        many_logs_are_synced_by_one_call,
    ),
    (
        "a full device is an error until it has room",
        a_full_device_is_an_error_until_it_has_room,
    ),
    (
        "a loss at the stop is an error",
        a_loss_at_the_stop_is_an_error,
    ),
];
