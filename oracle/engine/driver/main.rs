//! Feeds the published engine one event at a time and prints what it did.

mod feed;
mod names;
mod parts;
mod words;

use consensus::aggregation::scheme::{Key, Kind, Trial, trial_tag};
use feed::Driver;
use std::io::{BufRead, Write};
use std::sync::Arc;
use words::{Bad, Words, hex_or_dash};
use world::{Armed, Room};

/// What a line is answered with: its result; the acts before it are in `world`.
type Answer = Result<String, Bad>;

/// One line, taken apart and carried out.
fn line(driver: &mut Driver, words: &mut Words) -> Answer {
    match words.word()? {
        "new" => {
            *driver = Driver::default();
            world::with(|w| *w = world::World::default());
            done(words)
        }
        "provider" => {
            driver.kind = match words.word()? {
                "listed" => Kind::Listed,
                "pooled" => Kind::Pooled,
                _ => return Err(Bad),
            };
            done(words)
        }
        "participants" => participants(driver, words),
        "journal" => journal(words),
        "settings" => settings(driver, words),
        "record" => record(driver, words, true),
        "loose" => record(driver, words, false),
        "arm" => arm(words),
        "cut" => {
            let mask = if words.left() {
                Some(words.mask()?)
            } else {
                None
            };
            words.end()?;
            world::with(|w| match mask {
                None => w.disk.cut(0, |_| true),
                Some(mask) => {
                    let mut mask = mask.into_iter();
                    w.disk.cut(0, |_| mask.next().unwrap_or(false));
                }
            });
            driver.power_off();
            Ok("cut".to_string())
        }
        "state" => {
            words.end()?;
            driver.state();
            Ok("ok".to_string())
        }
        "kept" => {
            words.end()?;
            driver.kept();
            Ok("ok".to_string())
        }
        "records" => {
            words.end()?;
            records();
            Ok("ok".to_string())
        }
        call => event(driver, call, words),
    }
}

/// A call upon the engine. An armed cut waits for this one call only.
fn event(driver: &mut Driver, call: &str, words: &mut Words) -> Answer {
    let answer = match call {
        "open" => {
            let (epoch, clock) = (words.number()?, words.last_number()?);
            driver.open(epoch, clock)
        }
        "epoch" => {
            let (epoch, clock) = (words.number()?, words.last_number()?);
            driver.epoch(epoch, clock)
        }
        "message" => {
            let (key, bytes) = (words.fixed::<32>()?, words.hex()?);
            words.end()?;
            driver.message(key, bytes)
        }
        "ack" => {
            let (key, tip) = (words.fixed::<32>()?, words.number()?);
            let bytes = [parts::uint(tip), ack(words)?].concat();
            words.end()?;
            driver.message(key, bytes)
        }
        "digest" => {
            let (height, digest) = (words.number()?, words.fixed::<32>()?);
            let clock = words.last_number()?;
            driver.digest(height, digest, clock)
        }
        "cancel" => driver.cancel(words.last_number()?),
        "due" => driver.due(words.last_number()?),
        "take" | "close" => {
            words.end()?;
            if call == "take" {
                driver.take()
            } else {
                driver.close()
            }
        }
        _ => return Err(Bad),
    };
    world::with(|w| w.armed = None);
    Ok(answer)
}

fn done(words: &mut Words) -> Answer {
    words.end()?;
    Ok("ok".to_string())
}

fn participants(driver: &mut Driver, words: &mut Words) -> Answer {
    let epoch = words.number()?;
    let own = match words.word()? {
        "-" => None,
        word => Some(words::number(word)? as u32),
    };
    let mut keys = Vec::<Key>::new();
    while words.left() {
        keys.push(words.fixed()?);
    }
    let n = keys.len();
    let participants = commonware_utils::ordered::Set::new(keys).ok_or(Bad)?;
    if !(2..=16).contains(&n) || own.is_some_and(|own| own as usize >= n) {
        return Err(Bad);
    }
    let trial = Trial {
        kind: driver.kind,
        participants,
        own,
    };
    driver.schemes.0.insert(epoch, Arc::new(trial));
    Ok("ok".to_string())
}

fn journal(words: &mut Words) -> Answer {
    let room = match words.word()? {
        "plain" => Room::Plain,
        "byte" => Room::Byte(words.number()? as usize),
        "slot" => Room::Slot(words.number()? as usize),
        _ => return Err(Bad),
    };
    world::with(|w| {
        w.disk = world::Disk {
            room,
            ..Default::default()
        }
    });
    done(words)
}

fn settings(driver: &mut Driver, words: &mut Words) -> Answer {
    let mut six = [0; 6];
    for number in &mut six {
        *number = words.number()?;
    }
    driver.settings = six;
    done(words)
}

/// HEIGHT DIGEST EPOCH SIGNER [SIGNATURE] as bytes; the signature is the right one unless given.
fn ack(words: &mut Words) -> Result<Vec<u8>, Bad> {
    let height = words.number()?;
    let digest = words.fixed::<32>()?;
    let (epoch, signer) = (words.number()?, words.number()?);
    let signature = if words.left() {
        words.fixed::<64>()?
    } else {
        trial_tag(signer, height, &digest.0)
    };
    Ok(parts::ack(height, &digest.0, epoch, signer, &signature.0))
}

/// Puts a record into the journal while the engine is shut.
fn record(driver: &mut Driver, words: &mut Words, durable: bool) -> Answer {
    let section = words.number()?;
    let bytes = match words.word()? {
        "ack" => [vec![0], ack(words)?].concat(),
        "certified" => {
            let (height, digest) = (words.number()?, words.fixed::<32>()?);
            [
                vec![1],
                parts::uint(height),
                digest.0.to_vec(),
                words.hex()?,
            ]
            .concat()
        }
        "tip" => [vec![2], parts::uint(words.number()?)].concat(),
        hex => words::hex(hex)?,
    };
    words.end()?;
    if !driver.is_shut() {
        return Ok(names::refused(2));
    }
    let appended = world::with(|w| {
        w.disk.append(section, bytes).map(|()| {
            if durable {
                w.disk.sync(section);
            }
        })
    });
    Ok(match appended {
        Ok(()) => "ok".to_string(),
        Err(world::Refused::Full) => names::refused(27),
        Err(world::Refused::Pruned) => names::refused(28),
    })
}

fn arm(words: &mut Words) -> Answer {
    let at = words.number()? as usize;
    let armed = match words.left() {
        false => Armed::Before,
        true => words.armed()?,
    };
    world::with(|w| w.armed = Some((at, armed)));
    done(words)
}

/// The journal's value, in the words that put records in.
fn records() {
    world::with(|w| {
        w.acts.push(format!("bound {}", w.disk.bound));
        for (section, held) in &w.disk.sections {
            let line = |word: &str, r: &Vec<u8>| format!("{word} {section} {}", hex_or_dash(r));
            w.acts
                .extend(held.durable.iter().map(|r| line("record", r)));
            w.acts.extend(held.loose.iter().map(|r| line("loose", r)));
        }
    });
}

fn main() {
    std::panic::set_hook(Box::new(|_| {}));
    let mut out = std::io::BufWriter::new(std::io::stdout().lock());
    let mut driver = Driver::default();
    for (number, text) in std::io::stdin().lock().lines().enumerate() {
        let text = text.expect("text");
        let mut words = Words::new(&text);
        if text.starts_with('#') || !words.left() {
            continue;
        }
        world::with(|w| (w.acts, w.written) = (Vec::new(), 0));
        let Ok(result) = line(&mut driver, &mut words) else {
            out.flush().expect("standard output");
            eprintln!("line {}: the oracle takes no such line: {text}", number + 1);
            std::process::exit(2);
        };
        world::with(|w| {
            for act in &w.acts {
                writeln!(out, "{act}").expect("standard output");
            }
            writeln!(out, "{result} {}", w.written).expect("standard output");
        });
    }
    if std::env::args().any(|argument| argument == "--counts") {
        for (log, count) in world::counts() {
            eprintln!("{count} {}", log.replace('\n', " "));
        }
    }
}
