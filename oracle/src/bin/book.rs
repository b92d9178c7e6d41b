//! The book maker: a JSON array of types, as ciplink's configuration has it, becomes a book.
//! The paragraph "Declaration book" of document 01.

use oracle::book::{self, Places};
use oracle::config::TypeConfig;
use std::io::{self, Read, Write};
use std::process::ExitCode;

fn main() -> ExitCode {
    match make() {
        Ok(book) if io::stdout().write_all(&book).is_ok() => ExitCode::SUCCESS,
        Ok(_) => ExitCode::FAILURE,
        Err(message) => {
            eprintln!("book: {message}");
            ExitCode::FAILURE
        }
    }
}

fn make() -> Result<Vec<u8>, String> {
    let mut text = String::new();
    io::stdin().read_to_string(&mut text).map_err(|e| format!("reading the types: {e}"))?;
    let types: Vec<TypeConfig> = serde_json::from_str(&text).map_err(|e| format!("the types: {e}"))?;
    check_access(&types)?;
    let book = book::encode(&types, Places::Apart)?;
    note_descriptions(&types);
    Ok(book)
}

/// A book has a code for each of the three texts and for no other.
fn check_access(types: &[TypeConfig]) -> Result<(), String> {
    for config in types {
        for member in &config.members {
            let text = &member.external_access;
            if !book::is_access(text) {
                return Err(format!("type {}, member {}: unknown external_access {text:?}", config.name, member.name));
            }
        }
    }
    Ok(())
}

fn note_descriptions(types: &[TypeConfig]) {
    for config in types {
        for member in config.members.iter().filter(|m| m.description.is_some()) {
            eprintln!("book: type {}, member {}: its description is dropped", config.name, member.name);
        }
    }
}
