//! Saved set-ups in a file.
//!
//! ```text
//! setups list FILE                     the set-ups in it, as a person reads them
//! setups save FILE < HOST              saves the set-up that the host's bytes leave; the file is made where there is none
//! setups restore FILE NUMBER < HOST    the set-up that a restore leaves after the host's bytes
//! ```
use std::{env, error::Error, io, io::Read, process::ExitCode};
use wy50::{Key, Store, Terminal, COLUMNS, LONGEST_REPLY};

fn main() -> ExitCode {
    let words: Vec<String> = env::args().skip(1).collect();
    let words: Vec<&str> = words.iter().map(String::as_str).collect();
    let done = match words[..] {
        ["list", file] => list(file),
        ["save", file] => save(file),
        ["restore", file, number] => restore(file, number),
        _ => Err("setups list FILE | setups save FILE < HOST | setups restore FILE NUMBER < HOST".into()),
    };
    match done {
        Ok(()) => ExitCode::SUCCESS,
        Err(e) => {
            eprintln!("setups: {e}");
            ExitCode::FAILURE
        }
    }
}

fn list(file: &str) -> Result<(), Box<dyn Error>> {
    let store = opened(file)?;
    for number in store.numbers() {
        let mut terminal = Terminal::new();
        store.restore(&mut terminal, number)?;
        println!("number {number}");
        show(&terminal);
    }
    Ok(())
}

fn save(file: &str) -> Result<(), Box<dyn Error>> {
    let mut store = match opened(file) {
        Err(e) if e.kind() == io::ErrorKind::NotFound => Store::new(),
        other => other?,
    };
    let number = store.save(&fed()?)?;
    store.write(file)?;
    println!("saved as number {number}");
    Ok(())
}

fn restore(file: &str, number: &str) -> Result<(), Box<dyn Error>> {
    let store = opened(file)?;
    let mut terminal = fed()?;
    store.restore(&mut terminal, number.parse()?)?;
    show(&terminal);
    Ok(())
}

// A damaged file is named, and never written.
fn opened(file: &str) -> io::Result<Store> {
    Store::read(file).map_err(|e| io::Error::new(e.kind(), format!("{file}: {e}")))
}

// A terminal after the host's bytes.
fn fed() -> Result<Terminal, Box<dyn Error>> {
    let mut host = Vec::new();
    io::stdin().read_to_end(&mut host)?;
    let mut terminal = Terminal::new();
    let mut rest = &host[..];
    while !rest.is_empty() {
        rest = terminal.feed(rest, &mut [0; LONGEST_REPLY]).rest;
    }
    Ok(terminal)
}

fn show(terminal: &Terminal) {
    let state = terminal.state();
    println!("  tabs       {}", ruler(&state.tabs[..COLUMNS]));
    println!("  features   {}", state.features.map(|code| code as char).iter().collect::<String>());
    println!("  attributes {}", state.attributes.map(|code| format!("{code:02x}")).join(" "));
    for (place, key) in (0..).zip(&state.keys).filter(|(_, key)| key.len != 0) {
        println!("  key {:02x}     {}", if place < 16 { 0x40 + place } else { 0x50 + place }, text(key));
    }
    for (place, label) in (0..).zip(&state.labels).filter(|(_, label)| label.len != 0) {
        println!("  label {:02x}   {}", if place < 8 { 0x30 + place } else { 0x48 + place }, text(label));
    }
}

// A T in each column that has a stop; a set-up holds columns 1 to 80.
fn ruler(tabs: &[u8]) -> String {
    tabs.iter().map(|&stop| if stop == 0 { '-' } else { 'T' }).collect()
}

fn text(key: &Key) -> String {
    key.bytes[..usize::from(key.len)].escape_ascii().to_string()
}
