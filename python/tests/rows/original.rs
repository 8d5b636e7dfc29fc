//! Makes calls of the original crate `cookie`, whose source isn't in this repository. Each line of the input is a call's
//! word and its texts, and each line of the output its answer: `ok` and texts, or `refused` and a name. Tabs part them,
//! and texts are in hexadecimal. A cookie is its name, its value, and its attributes as `Path=/`.
use cookie::prefix::Host;
use cookie::time::{Date, Duration, Month, OffsetDateTime, PrimitiveDateTime, Time};
use cookie::{Cookie, CookieBuilder, CookieJar, Expiration, Key, ParseError, SameSite};
use std::io::{self, BufRead, Write};

type Found = Result<Vec<String>, &'static str>;

fn refusal(error: ParseError) -> &'static str {
    match error {
        ParseError::MissingPair => "MissingPair",
        ParseError::EmptyName => "EmptyName",
        ParseError::Utf8Error(_) => "BadEscape",
        _ => "Other",
    }
}

fn date(words: &str) -> OffsetDateTime {
    let n: Vec<i32> = words.split(' ').map(|number| number.parse().expect("a number")).collect();
    let month = Month::try_from(n[1] as u8).expect("a month");
    let day = Date::from_calendar_date(n[0], month, n[2] as u8).expect("a day");
    let time = Time::from_hms(n[3] as u8, n[4] as u8, n[5] as u8).expect("a time");
    PrimitiveDateTime::new(day, time).assume_utc()
}

fn numbers(date: OffsetDateTime) -> String {
    let (month, day) = (u8::from(date.month()), date.day());
    format!("{} {month} {day} {} {} {}", date.year(), date.hour(), date.minute(), date.second())
}

fn set(cookie: &mut Cookie<'static>, words: &str) {
    let (name, value) = words.split_once('=').unwrap_or((words, ""));
    let is_on = value != "false";
    match name {
        "Path" => cookie.set_path(value.to_owned()),
        "Domain" => cookie.set_domain(value.to_owned()),
        "Secure" => cookie.set_secure(is_on),
        "HttpOnly" => cookie.set_http_only(is_on),
        "Partitioned" => cookie.set_partitioned(is_on),
        "SameSite" => cookie.set_same_site(match value {
            "Strict" => SameSite::Strict,
            "Lax" => SameSite::Lax,
            _ => SameSite::None,
        }),
        "Max-Age" => cookie.set_max_age(Duration::seconds_f64(value.parse().expect("an age"))),
        "Expires" if value == "session" => cookie.set_expires(Expiration::Session),
        "Expires" => cookie.set_expires(date(value)),
        _ => panic!("no attribute {words}"),
    }
}

/// The cookie of a name, a value and attributes.
fn made(words: &[String]) -> Cookie<'static> {
    let mut cookie = Cookie::new(words[0].clone(), words[1].clone());
    words[2..].iter().for_each(|attribute| set(&mut cookie, attribute));
    cookie
}

fn flag(name: &str, value: Option<bool>) -> Option<String> {
    value.map(|is_on| format!("{name}{}", if is_on { "" } else { "=false" }))
}

/// The name, the value and the attributes of a cookie.
fn parts(cookie: &Cookie<'_>) -> Vec<String> {
    let expires = cookie.expires().map(|at| at.datetime().map_or("session".to_owned(), numbers));
    let attributes = [
        cookie.path().map(|path| format!("Path={path}")),
        cookie.domain().map(|domain| format!("Domain={domain}")),
        flag("Secure", cookie.secure()),
        flag("HttpOnly", cookie.http_only()),
        flag("Partitioned", cookie.partitioned()),
        cookie.same_site().map(|site| format!("SameSite={site}")),
        cookie.max_age().map(|age| format!("Max-Age={}", age.whole_seconds())),
        expires.map(|at| format!("Expires={at}")),
    ];
    let pair = [cookie.name().to_owned(), cookie.value().to_owned()];
    pair.into_iter().chain(attributes.into_iter().flatten()).collect()
}

fn one(text: impl ToString) -> Found {
    Ok(vec![text.to_string()])
}

fn pair(item: Result<Cookie<'_>, ParseError>) -> String {
    item.map_or_else(|error| format!("!{}", refusal(error)), |cookie| format!("={}={}", cookie.name(), cookie.value()))
}

/// What a cookie borrows of its text.
fn raw(cookie: &Cookie<'_>) -> Found {
    let parts = [cookie.name_raw(), cookie.value_raw(), cookie.path_raw(), cookie.domain_raw()];
    one(parts.map(|part| part.unwrap_or("-")).join(" | "))
}

fn raw_pairs<'c>(items: impl Iterator<Item = Result<Cookie<'c>, ParseError>>) -> Found {
    let pair = |cookie: Cookie<'c>| Some(format!("{}={}", cookie.name_raw()?, cookie.value_raw()?));
    Ok(items.flatten().filter_map(pair).collect())
}

fn value(cookie: Option<&Cookie<'_>>) -> Found {
    one(cookie.ok_or("NotFound")?.value())
}

/// A call on a jar, or on its copy.
fn on_jar(call: &str, words: &[String], jar: &mut CookieJar, copy: &mut CookieJar) -> Found {
    let text = words.first().map_or("", String::as_str);
    match call {
        "new" => (*jar, *copy) = (CookieJar::new(), CookieJar::new()),
        "originals" => Cookie::split_parse_encoded(text).flatten().for_each(|made| jar.add_original(made.into_owned())),
        "add" => jar.add(Cookie::parse_encoded(text).map_err(refusal)?.into_owned()),
        "remove" => jar.remove(made(words)),
        "force" => jar.force_remove(text),
        "reset" => jar.reset_delta(),
        "copy" => *copy = jar.clone(),
        "swap" => std::mem::swap(jar, copy),
        "host_add" => jar.prefixed_mut(Host).add(made(words)),
        "host_get" => return value(jar.prefixed(Host).get(text).as_ref()),
        "get" => return value(jar.get(text)),
        "delta" => return Ok(jar.delta().map(|cookie| cookie.encoded().to_string()).collect()),
        "all" => return Ok(jar.iter().map(|cookie| cookie.encoded().to_string()).collect()),
        "counts" => return one(format!("{} {}", jar.delta().count(), jar.iter().count())),
        _ => panic!("no call {call} on a jar"),
    }
    Ok(Vec::new())
}

/// A date is read and printed as a cookie's expiry.
fn read_date(text: &str) -> Found {
    let cookie = Cookie::parse(format!("a=1; Expires={text}")).expect("a cookie");
    one(numbers(cookie.expires().and_then(|expires| expires.datetime()).ok_or("NoDate")?))
}

fn print_date(numbers: &str) -> Found {
    let printed = Cookie::build(("a", "1")).expires(date(numbers)).build().to_string();
    one(printed.trim_start_matches("a=1; Expires="))
}

fn on_cookie(call: &str, words: &[String]) -> Found {
    let text = &words[0];
    match call {
        "read" => Cookie::parse(text).map(|cookie| parts(&cookie)).map_err(refusal),
        "read_decoded" => Cookie::parse_encoded(text).map(|cookie| parts(&cookie)).map_err(refusal),
        "pairs" => Ok(Cookie::split_parse(text).map(pair).collect()),
        "pairs_decoded" => Ok(Cookie::split_parse_encoded(text).map(pair).collect()),
        "raw_parse" => raw(&Cookie::parse(text).map_err(refusal)?),
        "raw_parse_encoded" => raw(&Cookie::parse_encoded(text).map_err(refusal)?),
        "split_raw" => raw_pairs(Cookie::split_parse(text)),
        "split_raw_encoded" => raw_pairs(Cookie::split_parse_encoded(text)),
        "sentence" => one(Cookie::parse_encoded(text).expect_err("a refusal")),
        "print" => one(made(words)),
        "print_escaped" => one(made(words).encoded()),
        "print_builder" => one(CookieBuilder::from(made(words))),
        "trimmed" => one(format!("{text}={}", made(words).value_trimmed())),
        "fields" => Ok(parts(&made(words))),
        "equals_parsed" => one(made(&words[1..]) == Cookie::parse(text).map_err(refusal)?),
        "equals" => {
            let (one_cookie, other) = words[1..].split_at(text.parse().expect("a count"));
            one(made(one_cookie) == made(other))
        }
        "read_date" => read_date(text),
        "print_date" => print_date(text),
        _ => panic!("no call {call}"),
    }
}

/// A call with a key, whose bytes come first.
fn on_key(call: &str, key: &[u8], words: &[String]) -> Result<Vec<u8>, &'static str> {
    match call {
        "derive_key" if key.len() < 32 => Err("MasterTooShort"),
        "derive_key" => Ok(Key::derive_from(key).master().to_vec()),
        "signing" => Ok(Key::from(key).signing().to_vec()),
        "encryption" => Ok(Key::from(key).encryption().to_vec()),
        _ => {
            let key = Key::try_from(key).map_err(|_| "KeyTooShort")?;
            let cookie = Cookie::new(words[0].clone(), words[1].clone());
            let opened = CookieJar::new().private(&key).decrypt(cookie).ok_or("NotSealed")?;
            Ok(opened.value().as_bytes().to_vec())
        }
    }
}

fn unhex(field: &str) -> Vec<u8> {
    (0..field.len() / 2).map(|i| u8::from_str_radix(&field[2 * i..2 * i + 2], 16).expect("a byte")).collect()
}

fn hex(bytes: &[u8]) -> String {
    bytes.iter().map(|byte| format!("{byte:02x}")).collect()
}

fn main() {
    let (mut jar, mut copy) = (CookieJar::new(), CookieJar::new());
    let utf8 = |bytes: Vec<u8>| String::from_utf8(bytes).expect("UTF-8");
    for line in io::stdin().lock().lines() {
        let line = line.expect("a line");
        let (call, fields) = line.split_once('\t').unwrap_or((&line, ""));
        let mut words = line.split('\t').skip(1).map(unhex);
        let found = if let Some(call) = call.strip_prefix("key_") {
            let key = words.next().unwrap_or_default();
            on_key(call, &key, &words.map(utf8).collect::<Vec<_>>()).map(|bytes| vec![hex(&bytes)])
        } else {
            let words: Vec<String> = if fields.is_empty() { vec![String::new()] } else { words.map(utf8).collect() };
            let found = match call.strip_prefix("jar_") {
                Some(call) => on_jar(call, &words, &mut jar, &mut copy),
                None => on_cookie(call, &words),
            };
            found.map(|texts| texts.iter().map(|text| hex(text.as_bytes())).collect())
        };
        match found {
            Ok(texts) => println!("{}", [vec!["ok".to_owned()], texts].concat().join("\t")),
            Err(name) => println!("refused\t{name}"),
        }
        io::stdout().flush().expect("a reader");
    }
}
