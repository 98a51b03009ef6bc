//! A day of a broker: four producers publish while a consumer reads, the server is killed and started again, and a consumer that
//! was away for too long finds that messages gave way.
//!
//!     broker_day PROGRAM FOLDER
//!
//! FOLDER has a folder `topics` for the logs, and a folder `places`.

mod broker;

use broker::{Consumer, Found, Outcome, Topic};
use dlog::{Server, Settings};
use std::path::Path;
use std::time::Duration;
use std::{env, thread};

const PRODUCERS: u32 = 4;
const EACH: usize = 100;

/// Four producers publish, while the consumer `bills` reads.
fn morning(server: &Server, places: &Path) -> Outcome<()> {
    let mut bills = Consumer::new(Topic::open(server, 9, "orders")?, places, "bills");
    let taken = thread::scope(|scope| {
        let produce = |number| {
            move || -> Outcome<()> {
                let topic = Topic::open(server, number, "orders")?;
                (0..EACH).try_for_each(|order| topic.publish(&format!("{number} {order:03}")))
            }
        };
        let producers: Vec<_> = (1..=PRODUCERS)
            .map(|number| scope.spawn(produce(number)))
            .collect();
        let taken = bills.take(PRODUCERS as usize * EACH);
        producers
            .into_iter()
            .try_for_each(|it| it.join().expect("a producer ends"))?;
        taken
    })?;
    for number in 1..=PRODUCERS {
        let its = taken
            .iter()
            .filter(|it| it.starts_with(&format!("{number} ")));
        let expected = (0..EACH).map(|order| format!("{number} {order:03}"));
        println!(
            "bills has all of producer {number}, in order: {}",
            its.cloned().eq(expected)
        );
    }
    let first = Consumer::new(Topic::open(server, 8, "orders")?, places, "stock").take(10)?;
    println!("stock has {} and keeps its place", first.len());
    Ok(())
}

/// After the server was killed.
fn evening(server: &Server, places: &Path) -> Outcome<()> {
    let orders = Topic::open(server, 1, "orders")?;
    let mut bills = Consumer::new(Topic::open(server, 9, "orders")?, places, "bills");
    println!("bills goes on: {:?}", bills.next(9)?);
    orders.publish("1 late")?;
    println!("bills goes on: {:?}", bills.next(9)?);
    server.log_many(
        &orders.log,
        (0..1000).map(|order| format!("2 {order:03}")),
        64,
    )?;
    let mut stock = Consumer::new(Topic::open(server, 8, "orders")?, places, "stock");
    println!("stock goes on: {:?}", stock.next(9)?);
    let mut last = None;
    while let Found::Messages(messages) = stock.next(64)? {
        last = messages.last().cloned();
    }
    println!("stock has read to the end: {last:?}");
    Ok(())
}

fn main() -> Outcome<()> {
    let words: Vec<_> = env::args().skip(1).collect();
    let [program, folder] = &words[..] else {
        return Err("broker_day PROGRAM FOLDER".into());
    };
    let [topics, places] = ["topics", "places"].map(|name| Path::new(folder).join(name));
    let server = Server::start(program, &topics)?;
    morning(&server, &places)?;
    server.kill()?;
    let server = Server::start_with(
        program,
        &topics,
        &Settings {
            wait: Duration::from_secs(60),
            ..Settings::default()
        },
    )?;
    evening(&server, &places)?;
    Ok(server.stop()?)
}
