//! What `keri validate` is timed beside: an ordinary program of the same work, with the usual crates.
//!
//! `peer FILE` reads a stream of the form that `tests/generated.py` makes (inceptions, rotations and interactions in the order of
//! their logs, with `-A` and `-B` groups), takes the digest of each body and the rehearsal's signatures, and prints how many events
//! it accepts. It has no escrow, no report and no limits, and ends with a panic where a stream is of another form.
use serde_json::Value;
use sha2::{Digest, Sha256, Sha512};
use std::collections::{HashMap, HashSet};

type Signature = (usize, [u8; 64]);

struct Message<'a> {
    body: &'a [u8],
    own: Vec<Signature>,
    receipts: Vec<Signature>,
}

struct State {
    keys: Vec<String>,
    next: Vec<String>,
    witnesses: Vec<String>,
    toad: u64,
    sn: u64,
    said: String,
}

fn primitive(code: &str, raw: &[u8]) -> String {
    let lead = (3 - raw.len() % 3) % 3;
    let mut padded = vec![0u8; lead];
    padded.extend_from_slice(raw);
    let text = base64::encode_config(&padded, base64::URL_SAFE_NO_PAD);
    format!("{code}{}", &text[lead..])
}

fn said(code: u8, text: &[u8]) -> String {
    match code {
        b'E' => primitive("E", blake3::hash(text).as_bytes()),
        _ => primitive("I", &Sha256::digest(text)),
    }
}

/// The rehearsal's signature of a key on a body.
fn rehearsed(key: &str, body: &[u8]) -> [u8; 64] {
    let mut hash = Sha512::new();
    hash.update(b"keri rehearsal");
    hash.update(key.as_bytes());
    hash.update(body);
    hash.finalize().into()
}

fn digit(character: u8) -> usize {
    let digit = match character {
        b'A'..=b'Z' => character - b'A',
        b'a'..=b'z' => character - b'a' + 26,
        b'0'..=b'9' => character - b'0' + 52,
        b'-' => 62,
        b'_' => 63,
        _ => panic!("no character of base 64"),
    };
    usize::from(digit)
}

fn signature(text: &[u8]) -> Signature {
    let mut characters = vec![b'A', b'A'];
    characters.extend_from_slice(&text[2..88]);
    let raw = base64::decode_config(&characters, base64::URL_SAFE_NO_PAD).expect("a signature");
    (digit(text[1]), raw[2..66].try_into().expect("64 bytes"))
}

fn messages(bytes: &[u8]) -> Vec<Message<'_>> {
    let mut found: Vec<Message> = Vec::new();
    let mut at = 0;
    while at < bytes.len() {
        if bytes[at] == b'{' {
            let digits = std::str::from_utf8(&bytes[at + 16..at + 22]).expect("a size");
            let size = usize::from_str_radix(digits, 16).expect("a size");
            found.push(Message {
                body: &bytes[at..at + size],
                own: vec![],
                receipts: vec![],
            });
            at += size;
            continue;
        }
        let kind = bytes[at + 1];
        let count = digit(bytes[at + 2]) * 64 + digit(bytes[at + 3]);
        at += 4;
        let message = found.last_mut().expect("a body");
        for _ in 0..count {
            let signature = signature(&bytes[at..at + 88]);
            at += 88;
            match kind {
                b'A' => message.own.push(signature),
                _ => message.receipts.push(signature),
            }
        }
    }
    found
}

fn text(value: &Value) -> &str {
    value.as_str().expect("a text")
}

fn texts(value: &Value) -> Vec<String> {
    value
        .as_array()
        .expect("a list")
        .iter()
        .map(|member| text(member).to_string())
        .collect()
}

fn hex(value: &Value) -> u64 {
    u64::from_str_radix(text(value), 16).expect("a number")
}

fn blank(body: &mut [u8], digest: &str) {
    let at = body
        .windows(44)
        .position(|window| window == digest.as_bytes())
        .expect("the digest");
    body[at..at + 44].fill(b'#');
}

/// The places of the signatures that their keys made.
fn good(signatures: &[Signature], keys: &[String], body: &[u8]) -> HashSet<usize> {
    signatures
        .iter()
        .filter(|(place, raw)| rehearsed(&keys[*place], body) == *raw)
        .map(|(place, _)| *place)
        .collect()
}

/// The state behind the message's event, where it is accepted.
fn accepted(before: Option<&State>, message: &Message, event: &Value) -> Option<State> {
    let digest = text(&event["d"]);
    let kind = text(&event["t"]);
    let mut body = message.body.to_vec();
    blank(&mut body, digest);
    if kind == "icp" {
        blank(&mut body, text(&event["i"]));
    }
    assert_eq!(said(digest.as_bytes()[0], &body), digest);
    let sn = hex(&event["s"]);
    if kind != "icp" && (sn != before?.sn + 1 || text(&event["p"]) != before?.said) {
        return None;
    }
    let keys = if kind == "ixn" {
        before?.keys.clone()
    } else {
        texts(&event["k"])
    };
    let witnesses = if kind == "icp" {
        texts(&event["b"])
    } else {
        before?.witnesses.clone()
    };
    let toad = if kind == "ixn" {
        before?.toad
    } else {
        hex(&event["bt"])
    };
    let next = if kind == "ixn" {
        before?.next.clone()
    } else {
        texts(&event["n"])
    };
    if good(&message.own, &keys, message.body).is_empty() {
        return None;
    }
    if kind == "rot" && said(before?.next[0].as_bytes()[0], keys[0].as_bytes()) != before?.next[0] {
        return None;
    }
    if (good(&message.receipts, &witnesses, message.body).len() as u64) < toad {
        return None;
    }
    Some(State {
        keys,
        next,
        witnesses,
        toad,
        sn,
        said: digest.to_string(),
    })
}

fn validate(bytes: &[u8]) -> usize {
    let mut states: HashMap<String, State> = HashMap::new();
    let mut count = 0;
    for message in messages(bytes) {
        let event: Value = serde_json::from_slice(message.body).expect("JSON");
        let prefix = text(&event["i"]).to_string();
        if let Some(state) = accepted(states.get(&prefix), &message, &event) {
            states.insert(prefix, state);
            count += 1;
        }
    }
    count
}

fn main() {
    let file = std::env::args().nth(1).expect("a FILE");
    println!("{}", validate(&std::fs::read(file).expect("the file")));
}
