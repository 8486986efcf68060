//! Prints the canonical form of a key, on how many known targets it is true, and whether it implies cfg(unix).

use nevgrasi::{known_targets, Error, Key};

fn main() -> Result<(), Error> {
    let text = std::env::args().nth(1);
    let text = text.as_deref().unwrap_or(r#"cfg( all(unix,not(target_os = "macos"),) )"#);
    let key: Key = match text.parse() {
        Ok(key) => key,
        Err(error) => {
            let Some(snippet) = error.snippet() else { return Err(error) };
            println!("{snippet}");
            std::process::exit(2);
        }
    };
    println!("{key}");
    println!("true on {} of {} known targets", key.targets()?.len(), known_targets()?.len());
    let answer = key.implies(&"cfg(unix)".parse()?)?;
    println!("implies cfg(unix): {}", if answer.holds { "yes" } else { "no" });
    Ok(())
}
