//! Used by faults.sh to tell a faulty copy of this crate from the sound one.
//!
//! `expose prints PACK` prints fingerprints of the text and of the release
//! list of each run file in a pack that `generate pack` wrote. `expose seek
//! PACK PRINTS` prints the first seed whose text or list has another
//! fingerprint, or where the register stops the run, or `none`.

use std::fs;
use std::panic::catch_unwind;

fn main() {
    let arguments: Vec<String> = std::env::args().collect();
    let words: Vec<&str> = arguments.iter().skip(1).map(String::as_str).collect();
    std::panic::set_hook(Box::new(|_| {}));
    match words[..] {
        ["prints", pack] => {
            for file in unpack(pack) {
                let (text, list) = fingerprints(&file);
                println!("{text} {list}");
            }
        }
        ["seek", pack, prints] => seek(pack, prints),
        _ => std::process::exit(2),
    }
}

/// The files of a pack; each has its length before it.
fn unpack(path: &str) -> Vec<Vec<u8>> {
    let pack = fs::read(path).expect("the pack can be read");
    let mut files = Vec::new();
    let mut rest = &pack[..];
    while !rest.is_empty() {
        let (length, after) = rest.split_at(8);
        let length = u64::from_le_bytes(length.try_into().unwrap()) as usize;
        files.push(after[..length].to_vec());
        rest = &after[length..];
    }
    files
}

/// Where only the register stops the run, another text is sought further on.
fn seek(pack: &str, prints: &str) {
    let prints = fs::read_to_string(prints).expect("the prints can be read");
    let mut found: Vec<String> = Vec::new();
    for (seed, (file, sound)) in unpack(pack).iter().zip(prints.lines()).enumerate() {
        let Some(how) = exposed(file, sound) else {
            continue;
        };
        if how != "register" {
            found.push(format!("seed {seed}: {how}"));
            break;
        }
        if found.is_empty() {
            found.push(format!("seed {seed}: register"));
        }
    }
    if found.is_empty() {
        found.push("none".to_string());
    }
    println!("{}", found.join(", "));
}

/// How the file exposes this program: by its text or its list, or by the
/// register that stops the run, or by both; or a panic elsewhere.
fn exposed(file: &[u8], sound: &str) -> Option<&'static str> {
    let (sound, sound_list) = sound.split_once(' ').expect("two fingerprints");
    let payload = match catch_unwind(|| fingerprints(file)) {
        Ok((text, _)) if text != sound => return Some("text"),
        Ok((_, list)) => return (list != sound_list).then_some("list"),
        Err(payload) => payload,
    };
    let message = payload.downcast_ref::<String>();
    if !message.is_some_and(|message| message.starts_with("register")) {
        return Some("panic");
    }
    match catch_unwind(|| reference::run::run_alone(file)) {
        Ok(text) if fingerprint(&text) == sound => Some("register"),
        _ => Some("text and register"),
    }
}

/// Of the text and of the release list.
fn fingerprints(file: &[u8]) -> (String, String) {
    let ran = reference::ran(file);
    let text = reference::run::print(&ran.lines);
    (fingerprint(&text), fingerprint(&reference::releases(&ran)))
}

/// FNV-1a.
fn fingerprint(text: &[u8]) -> String {
    let mut print: u64 = 0xcbf2_9ce4_8422_2325;
    for byte in text {
        print = (print ^ u64::from(*byte)).wrapping_mul(0x100_0000_01b3);
    }
    format!("{print:016x}")
}
