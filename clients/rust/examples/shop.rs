//! A shop at one centre: it inserts an item, sells it by orders that may be sent again, and reads it.
//!
//!     shop CONFIGURATION CENTRE
use mdcc_client::{BeginFault, Client, Configuration, Ending, Item, Part, Record, Settings};
use std::error::Error;
use std::{env, fs, thread, time::Duration};

/// How often an order is begun before it is left to the next look.
const ATTEMPTS: u32 = 20;

/// What came of an order.
#[derive(Debug, PartialEq)]
enum Sold {
    /// It happened just now.
    Now,
    /// It had happened before: its own record is there.
    Before,
    /// It is not known whether it happened; the same order again finds out.
    Unknown,
}

/// An item with this for each number of the cluster.
fn item(configuration: &Configuration, number: i64) -> Item {
    Item { body: Vec::new(), numbers: configuration.bounds.iter().map(|(low, high)| number.clamp(*low, *high)).collect() }
}

/// Writes a record over itself, which makes room for 64 more adds. Whether that succeeds is seen by the next read.
fn rebase(client: &mut Client, record: &Record) -> Result<(), Box<dyn Error>> {
    if let Some(part) = Part::keep(record) {
        client.begin(&[part])?;
    }
    Ok(())
}

/// Sells one piece of an item. With the order's own record beside it the sale happens once, however often it is begun.
fn sell(client: &mut Client, configuration: &Configuration, order: &str, key: &str) -> Result<Sold, Box<dyn Error>> {
    let name = format!("order/{order}");
    for _ in 0..ATTEMPTS {
        let record = client.read(&[key])?.remove(0);
        if record.due {
            rebase(client, &record)?;
            continue;
        }
        let parts = [Part::insert(&name, item(configuration, 1)), Part::add(&record, 1, -1)];
        match client.begin(&parts)? {
            Ending::Committed(_) => return Ok(Sold::Now),
            Ending::Refused { key, fault: BeginFault::Stale { .. } } if key == name => return Ok(Sold::Before),
            Ending::NoTransaction(fault) => return Err(format!("{fault:?}").into()),
            Ending::Aborted(_) | Ending::Refused { .. } | Ending::Unknown => thread::sleep(Duration::from_millis(20)),
        }
    }
    Ok(Sold::Unknown)
}

fn main() -> Result<(), Box<dyn Error>> {
    let words: Vec<String> = env::args().collect();
    let [_, path, centre] = words.as_slice() else {
        return Err("shop CONFIGURATION CENTRE".into());
    };
    let configuration = Configuration::parse(&fs::read_to_string(path)?)?;
    let mut client = Client::connect(&configuration, centre.parse()?, Settings::default())?;
    println!("insert {:?}", client.begin(&[Part::insert("vase", item(&configuration, 100))])?);
    for number in 1..=70 {
        let sold = sell(&mut client, &configuration, &format!("vase-{number}"), "vase")?;
        if number % 35 == 0 {
            println!("order {number} {sold:?}, again {:?}", sell(&mut client, &configuration, &format!("vase-{number}"), "vase")?);
        }
    }
    let vase = client.read(&["vase"])?.remove(0);
    println!("left {:?} at version {}", vase.item.map(|item| item.numbers), vase.version);
    Ok(())
}
