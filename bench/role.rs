//! A role on the wire, written plainly in Rust: hash maps, and a scanner by hand.
//!
//!     role NAME ROLE
//!
//! Standard input begins with a protocol without references and the line `%% wire`. Each line after it is a request,
//! and is answered before the next is waited for, as docs/COMMANDS.md says of a live role. The protocol is neither
//! admitted nor judged here.
use std::collections::{HashMap, HashSet};
use std::io::{self, BufRead, BufReader, BufWriter, Write};

const EVENTS: u64 = 65536;
const KEYS: usize = 10000;

struct Message {
    sender: String,
    receiver: String,
    carried: Vec<(String, String)>,
}

impl Message {
    fn valued(&self) -> impl Iterator<Item = &String> {
        self.carried.iter().filter(|c| c.0 != "nil").map(|c| &c.1)
    }
}

/// What is held of a key.
#[derive(Default)]
struct Enactment {
    known: HashMap<String, String>,
    seen: HashSet<String>,
}

struct Role {
    name: String,
    keys: Vec<String>,
    messages: HashMap<String, Message>,
    held: HashMap<Vec<String>, Enactment>,
    clock: u64,
    count: u64,
}

// ---- the protocol

fn words(text: &str) -> Vec<String> {
    let mut spaced = String::new();
    for c in text.replace("->", " > ").chars() {
        if "{}[]():,>".contains(c) {
            spaced.push(' ');
            spaced.push(c);
            spaced.push(' ');
        } else {
            spaced.push(c);
        }
    }
    spaced.split_whitespace().map(str::to_string).collect()
}

fn read_protocol(text: &str, name: &str) -> Role {
    let words = words(text);
    let mut keys = Vec::new();
    let mut messages = HashMap::new();
    for (i, word) in words.iter().enumerate() {
        if word == "key" {
            keys.push(words[i - 1].clone());
        }
        if word == ">" {
            let mut carried = Vec::new();
            let mut at = i + 5;
            while words[at - 1] != "]" {
                carried.push((words[at].clone(), words[at + 1].clone()));
                at += 3;
            }
            let (sender, receiver) = (words[i - 1].clone(), words[i + 1].clone());
            messages.insert(words[i + 3].clone(), Message { sender, receiver, carried });
        }
    }
    Role { name: name.to_string(), keys, messages, held: HashMap::new(), clock: 0, count: 0 }
}

// ---- lines of JSON

enum Json {
    Text(String),
    Number(u64),
    List(Vec<Json>),
    Object(HashMap<String, Json>),
    Other,
}

struct Scanner<'a> {
    bytes: &'a [u8],
    at: usize,
}

impl Scanner<'_> {
    fn skip(&mut self) {
        while self.at < self.bytes.len() && b" \t\r\n".contains(&self.bytes[self.at]) {
            self.at += 1;
        }
    }

    fn peek(&mut self) -> Option<u8> {
        self.skip();
        self.bytes.get(self.at).copied()
    }

    fn take(&mut self, byte: u8) -> Option<()> {
        if self.peek()? != byte {
            return None;
        }
        self.at += 1;
        Some(())
    }

    fn value(&mut self, depth: u32) -> Option<Json> {
        match self.peek()? {
            b'"' => self.text().map(Json::Text),
            b'[' if depth < 127 => self.list(depth + 1),
            b'{' if depth < 127 => self.object(depth + 1),
            b'-' | b'0'..=b'9' => self.number(),
            _ => self.word(),
        }
    }

    fn word(&mut self) -> Option<Json> {
        for word in ["true", "false", "null"] {
            if self.bytes[self.at..].starts_with(word.as_bytes()) {
                self.at += word.len();
                return Some(Json::Other);
            }
        }
        None
    }

    fn number(&mut self) -> Option<Json> {
        let start = self.at;
        while self.at < self.bytes.len() && b"+-.eE0123456789".contains(&self.bytes[self.at]) {
            self.at += 1;
        }
        let digits = std::str::from_utf8(&self.bytes[start..self.at]).ok()?;
        let is_whole = digits.bytes().all(|b| b.is_ascii_digit());
        if is_whole && digits.len() > 1 && digits.starts_with('0') {
            return None;
        }
        match digits.parse::<u64>() {
            Ok(number) if is_whole => Some(Json::Number(number)),
            _ => digits.parse::<f64>().ok().map(|_| Json::Other),
        }
    }

    fn text(&mut self) -> Option<String> {
        self.take(b'"')?;
        let mut text = Vec::new();
        loop {
            let byte = *self.bytes.get(self.at)?;
            self.at += 1;
            match byte {
                b'"' => return String::from_utf8(text).ok(),
                b'\\' => self.escape(&mut text)?,
                0..=0x1f => return None,
                _ => text.push(byte),
            }
        }
    }

    fn escape(&mut self, text: &mut Vec<u8>) -> Option<()> {
        let byte = *self.bytes.get(self.at)?;
        self.at += 1;
        let plain = match byte {
            b'"' | b'\\' | b'/' => byte,
            b'n' => b'\n',
            b't' => b'\t',
            b'r' => b'\r',
            b'b' => 8,
            b'f' => 12,
            b'u' => {
                let code = self.bytes.get(self.at..self.at + 4)?;
                self.at += 4;
                let code = u32::from_str_radix(std::str::from_utf8(code).ok()?, 16).ok()?;
                text.extend(char::from_u32(code)?.to_string().bytes());
                return Some(());
            }
            _ => return None,
        };
        text.push(plain);
        Some(())
    }

    fn list(&mut self, depth: u32) -> Option<Json> {
        self.take(b'[')?;
        let mut items = Vec::new();
        if self.peek()? == b']' {
            self.at += 1;
            return Some(Json::List(items));
        }
        loop {
            items.push(self.value(depth)?);
            if self.peek()? == b']' {
                self.at += 1;
                return Some(Json::List(items));
            }
            self.take(b',')?;
        }
    }

    fn object(&mut self, depth: u32) -> Option<Json> {
        self.take(b'{')?;
        let mut members = HashMap::new();
        if self.peek()? == b'}' {
            self.at += 1;
            return Some(Json::Object(members));
        }
        loop {
            self.skip();
            let name = self.text()?;
            self.take(b':')?;
            members.insert(name, self.value(depth)?);
            if self.peek()? == b'}' {
                self.at += 1;
                return Some(Json::Object(members));
            }
            self.take(b',')?;
        }
    }
}

fn read_json(line: &[u8]) -> Option<Json> {
    let mut scanner = Scanner { bytes: line, at: 0 };
    let value = scanner.value(0)?;
    scanner.skip();
    if scanner.at == line.len() { Some(value) } else { None }
}

// ---- requests

type Refused = &'static str;

fn text_in(body: &mut HashMap<String, Json>, name: &str) -> Result<String, Refused> {
    match body.remove(name) {
        Some(Json::Text(text)) => Ok(text),
        _ => Err("F1"),
    }
}

fn number_in(body: &mut HashMap<String, Json>, name: &str) -> Result<u64, Refused> {
    match body.remove(name) {
        Some(Json::Number(number)) => Ok(number),
        _ => Err("F1"),
    }
}

fn texts_in(body: &mut HashMap<String, Json>, name: &str) -> Result<Vec<String>, Refused> {
    let Some(Json::List(items)) = body.remove(name) else { return Err("F1") };
    items.into_iter().map(|item| if let Json::Text(text) = item { Ok(text) } else { Err("F1") }).collect()
}

fn binding_in(body: &mut HashMap<String, Json>) -> Result<HashMap<String, String>, Refused> {
    let Some(Json::Object(members)) = body.remove("values") else { return Err("F1") };
    members.into_iter().map(|(p, v)| if let Json::Text(text) = v { Ok((p, text)) } else { Err("F1") }).collect()
}

/// Whether the field is the one spelling of a number or of a text.
fn is_value(field: &str) -> bool {
    let bytes = field.as_bytes();
    if bytes.first() != Some(&b'"') {
        let is_whole = !bytes.is_empty() && bytes.iter().all(u8::is_ascii_digit);
        return is_whole && (bytes.len() == 1 || bytes[0] != b'0') && field.parse::<u64>().is_ok();
    }
    if bytes.len() < 2 || bytes[bytes.len() - 1] != b'"' {
        return false;
    }
    let (mut rest, mut len) = (&bytes[1..bytes.len() - 1], 0);
    while let Some(&byte) = rest.first() {
        let is_plain = |b: u8| (0x21..=0x7e).contains(&b) && b != b'"' && b != b'\\';
        if is_plain(byte) {
            rest = &rest[1..];
        } else {
            let digit = |b: u8| (b as char).to_digit(16).filter(|_| !b.is_ascii_uppercase());
            let code = |r: &[u8]| Some(digit(*r.get(1)?)? * 16 + digit(*r.get(2)?)?);
            match code(rest) {
                Some(code) if byte == b'\\' && !is_plain(code as u8) => rest = &rest[3..],
                _ => return false,
            }
        }
        len += 1;
    }
    len <= 32
}

/// The text as JSON has it.
fn quoted(text: &str) -> String {
    let mut out = String::from("\"");
    for c in text.chars() {
        if c == '"' || c == '\\' {
            out.push('\\');
        }
        out.push(c);
    }
    out.push('"');
    out
}

impl Role {
    fn answer(&mut self, line: &[u8]) -> String {
        self.asked(line).unwrap_or_else(|code| format!("{{\"refused\":\"{code}\"}}"))
    }

    fn asked(&mut self, line: &[u8]) -> Result<String, Refused> {
        if line.len() > 65537 || line.last() != Some(&b'\n') {
            return Err("F1");
        }
        let Some(Json::Object(mut asked)) = read_json(line) else { return Err("F1") };
        if asked.len() != 1 {
            return Err("F1");
        }
        if let Some(Json::Object(body)) = asked.remove("receive") {
            return self.receive(body);
        }
        if let Some(Json::Object(body)) = asked.remove("emit") {
            return self.emit(body);
        }
        Err("F1")
    }

    fn held(&mut self, key: &[String], stamp: u64) -> Result<&mut Enactment, Refused> {
        if self.count == EVENTS || (self.held.len() == KEYS && !self.held.contains_key(key)) {
            return Err("F3");
        }
        if self.clock == u64::MAX || stamp == u64::MAX {
            return Err("F4");
        }
        Ok(self.held.entry(key.to_vec()).or_default())
    }

    fn receive(&mut self, mut body: HashMap<String, Json>) -> Result<String, Refused> {
        let (name, number) = (text_in(&mut body, "message")?, number_in(&mut body, "number")?);
        let (stamp, values) = (number_in(&mut body, "stamp")?, binding_in(&mut body)?);
        if !body.is_empty() || number >= 1 << 32 {
            return Err("F1");
        }
        let message = self.messages.get(&name).filter(|m| m.receiver == self.name).ok_or("F2")?;
        let valued: Vec<String> = message.valued().cloned().collect();
        if values.len() != valued.len() || !valued.iter().all(|p| values.get(p).is_some_and(|v| is_value(v))) {
            return Err("F2");
        }
        let key: Vec<String> = self.keys.iter().map(|p| values[p].clone()).collect();
        let enactment = self.held(&key, stamp)?;
        for param in &valued {
            if let Some(kept) = enactment.known.get(param).filter(|kept| **kept != values[param]) {
                let (arrived, kept) = (quoted(&values[param]), quoted(kept));
                return Ok(format!("{{\"arrived\":{arrived},\"kept\":{kept},\"param\":\"{param}\",\"receipt\":\"differs\"}}"));
            }
        }
        if !enactment.seen.insert(name) {
            return Ok("{\"receipt\":\"repeat\"}".to_string());
        }
        enactment.known.extend(values);
        self.clock = self.clock.max(stamp) + 1;
        self.count += 1;
        Ok("{\"receipt\":\"fresh\"}".to_string())
    }

    fn emit(&mut self, mut body: HashMap<String, Json>) -> Result<String, Refused> {
        let (key, name, outs) = (texts_in(&mut body, "key")?, text_in(&mut body, "message")?, texts_in(&mut body, "outs")?);
        if !body.is_empty() {
            return Err("F1");
        }
        let message = self.messages.get(&name).filter(|m| m.sender == self.name).ok_or("F2")?;
        let carried = message.carried.clone();
        let chosen: Vec<&String> =
            carried.iter().filter(|c| c.0 == "out" && !self.keys.contains(&c.1)).map(|c| &c.1).collect();
        let counts_fit = key.len() == self.keys.len() && outs.len() == chosen.len();
        if !counts_fit || !key.iter().chain(&outs).all(|v| is_value(v)) {
            return Err("F2");
        }
        let keys = self.keys.clone();
        let enactment = self.held(&key, 0)?;
        for (adornment, param) in &carried {
            match (adornment.as_str(), enactment.known.get(param)) {
                ("in", None) => return Ok(format!("{{\"blocked\":\"missing\",\"param\":\"{param}\"}}")),
                ("in", Some(_)) | (_, None) => {}
                (_, Some(kept)) => {
                    return Ok(format!("{{\"blocked\":\"bound\",\"kept\":{},\"param\":\"{param}\"}}", quoted(kept)));
                }
            }
        }
        enactment.known.extend(keys.into_iter().zip(key.iter().cloned()));
        enactment.known.extend(chosen.into_iter().cloned().zip(outs));
        enactment.seen.insert(name.clone());
        let mut named: Vec<(&String, &String)> =
            carried.iter().filter(|c| c.0 != "nil").map(|c| (&c.1, &enactment.known[&c.1])).collect();
        named.sort();
        let values: Vec<String> = named.iter().map(|(param, value)| format!("\"{param}\":{}", quoted(value))).collect();
        let number = self.count;
        self.clock += 1;
        self.count += 1;
        Ok(format!(
            "{{\"sent\":{{\"message\":\"{name}\",\"number\":{number},\"stamp\":{},\"values\":{{{}}}}}}}",
            self.clock,
            values.join(",")
        ))
    }
}

fn main() -> io::Result<()> {
    let role = std::env::args().nth(2).unwrap_or_default();
    let mut source = BufReader::with_capacity(1 << 16, io::stdin());
    let mut sink = BufWriter::with_capacity(1 << 16, io::stdout());
    let (mut head, mut line) = (String::new(), Vec::new());
    while source.read_until(b'\n', &mut line)? > 0 && !line.starts_with(b"%% wire") {
        head.push_str(&String::from_utf8_lossy(&line));
        line.clear();
    }
    let mut role = read_protocol(&head, &role);
    line.clear();
    while source.read_until(b'\n', &mut line)? > 0 {
        writeln!(sink, "{}", role.answer(&line))?;
        if source.buffer().is_empty() {
            sink.flush()?;
        }
        line.clear();
    }
    sink.flush()
}
