//! Times of the parts whose cost matters: `bench keeper ROWS`, `bench json BYTES`, `bench values CALLS`, `bench rows CALLS`,
//! `bench like CALLS` and `bench parse CALLS`. It is a program in Rattle, of which `tools/bench-parts` makes a crate.
//!
//! What was done goes to standard output, the times in microseconds to standard error.
#![tactic(auto)]

ghost use Rattle.std.specs.Prelude.{IsTrue};
ghost use Rattle.store_rows.specs.Rows.{data_form};
ghost use Rattle.store_codec.specs.Shapes.{FitsIn};
ghost use Rattle.base_value.specs.Types.{is_type};

use std::alloc::{AllocError, Global};
use std::process::ExitCode;
use std::time::Instant;
use std::{env, io};
use base_json::{Json, Mark, Writer, read};
use store_kv::{Draft, KeepFail, Keeper, MemoryKeeper, all_rows};
use store_rows::{DataRow, RowForm};
use soql::{LikePart, LikePattern, like};
use soql_parser::parse;
use base_value::{Bytes, FieldType, Items, Text, Value, order_key, read_value};

const TABLE: u8 = 7;

const PAGE: usize = 100;

// An odd factor, by which the keys 0, 1, 2 and so on are scattered.
const SCATTERED: u32 = 2_654_435_761;

fn key_of(alloc: Global, number: u32) -> Result<Bytes, AllocError> {
    Bytes::from_slice(alloc, number.to_be_bytes().as_slice())
}

fn put_all<K: Keeper>(
    alloc: Global,
    draft: &mut Draft<'_, K>,
    rows: u32,
    factor: u32,
) -> Result<(), AllocError> {
    for number in 0..rows {
        let key = key_of(alloc, number.wrapping_mul(factor))?;
        draft.put(alloc, TABLE, key, key_of(alloc, number)?)?;
    }
    Ok(())
}

fn walk<K: Keeper>(alloc: Global, draft: &mut Draft<'_, K>) -> Result<usize, KeepFail> {
    Ok(all_rows(alloc, draft, TABLE, &[], &[255; 5], PAGE)?.len())
}

fn tell_time(rt: &HostRuntime, what: &str, start: Instant) -> io::Result<()> {
    let took = start.elapsed(rt)?.as_micros();
    eprintln!(rt; "{what}: {took} us")
}

fn measure_keeper(rt: &HostRuntime, rows: u32, factor: u32) -> io::Result<()> {
    let alloc = rt.alloc();
    let Ok(mut keeper) = MemoryKeeper::new(alloc, &[]) else {
        return println!(rt; "out of memory");
    };
    let mut draft = Draft::new(alloc, &mut keeper);
    let start = Instant::now(rt)?;
    let put = put_all(alloc, &mut draft, rows, factor).is_ok();
    tell_time(rt, "puts", start)?;
    let start = Instant::now(rt)?;
    let committed = draft.commit(alloc).is_ok();
    tell_time(rt, "commit", start)?;
    let mut draft = Draft::new(alloc, &mut keeper);
    let start = Instant::now(rt)?;
    let seen = walk(alloc, &mut draft).unwrap_or(0);
    tell_time(rt, "walk", start)?;
    println!(rt; "put: {put}, committed: {committed}, rows walked: {seen}")
}

// A list of objects, of about so many bytes.
fn written(alloc: Global, bytes: u32) -> Result<Bytes, AllocError> {
    let mut writer = Writer::new(alloc);
    writer.mark(alloc, Mark::OpenList)?;
    for number in 0..bytes / 32 {
        if number != 0 {
            writer.mark(alloc, Mark::Comma)?;
        }
        writer.mark(alloc, Mark::OpenObject)?;
        writer.text(alloc, "Amount__c")?;
        writer.mark(alloc, Mark::Colon)?;
        writer.number(alloc, i128::from(number) * 12_345_678)?;
        writer.mark(alloc, Mark::CloseObject)?;
    }
    writer.mark(alloc, Mark::CloseList)?;
    Ok(writer.finish())
}

fn measure_json(rt: &HostRuntime, bytes: u32) -> io::Result<()> {
    let alloc = rt.alloc();
    let start = Instant::now(rt)?;
    let Ok(text) = written(alloc, bytes) else {
        return println!(rt; "out of memory");
    };
    tell_time(rt, "write", start)?;
    let start = Instant::now(rt)?;
    let value = read(alloc, text.as_slice());
    tell_time(rt, "read", start)?;
    let size = text.as_slice().len();
    match value {
        Ok(Json::List(items)) => {
            let items = items.len();
            println!(rt; "bytes: {size}, items read: {items}")
        }
        _ => println!(rt; "not read"),
    }
}

// How many of so many readings of a text give a value.
fn count_read(alloc: Global, calls: u32, kind: &FieldType, text: &str) -> u32
    requires { IsTrue (is_type kind.now) }
{
    let mut count = 0u32;
    for _ in 0..calls {
        if read_value(alloc, kind, text).is_ok() {
            count = count.saturating_add(1);
        }
    }
    count
}

// How many of so many order keys of a value were made.
fn count_keys(alloc: Global, calls: u32, value: &Value) -> u32 {
    let mut count = 0u32;
    for _ in 0..calls {
        if order_key(alloc, value).is_ok() {
            count = count.saturating_add(1);
        }
    }
    count
}

const NUMBER: FieldType = FieldType::Number {
    digits: 18,
    decimals: 8,
};

fn measure_reading(rt: &HostRuntime, calls: u32) -> io::Result<()> {
    let alloc = rt.alloc();
    let start = Instant::now(rt)?;
    let texts = count_read(alloc, calls, &FieldType::Text(80), "Straße nach Süden 17");
    tell_time(rt, "texts read", start)?;
    let start = Instant::now(rt)?;
    let numbers = count_read(alloc, calls, &NUMBER, "1234567890.12345678");
    tell_time(rt, "numbers read", start)?;
    let start = Instant::now(rt)?;
    let days = count_read(alloc, calls, &FieldType::Day, "2011-04-26");
    tell_time(rt, "days read", start)?;
    let start = Instant::now(rt)?;
    let moments = count_read(
        alloc,
        calls,
        &FieldType::Moment,
        "2011-04-26T13:30:00.5+01:30",
    );
    tell_time(rt, "moments read", start)?;
    println!(rt; "read: {texts} {numbers} {days} {moments}")
}

fn measure_keys(rt: &HostRuntime, calls: u32) -> io::Result<()> {
    let alloc = rt.alloc();
    let Ok(text) = Text::from_str(alloc, "Straße nach Süden 17") else {
        return println!(rt; "out of memory");
    };
    let start = Instant::now(rt)?;
    let texts = count_keys(alloc, calls, &Value::Text(text));
    tell_time(rt, "keys of texts", start)?;
    let start = Instant::now(rt)?;
    let numbers = count_keys(alloc, calls, &Value::Num(123_456_789_012_345_678));
    tell_time(rt, "keys of numbers", start)?;
    println!(rt; "keys: {texts} {numbers}")
}

// The bytes of a data row of 48 slots, of which ten hold a text.
fn data_bytes(alloc: Global) -> Result<Vec<u8>, AllocError> {
    let mut bytes = Vec::from_slice(alloc, b"\x01\x00\x00\x00\x07Deal 17")?;
    bytes.extend_from_slice(b"\x01005000000000017")?;
    bytes.extend_from_slice(&1_300_000_000i64.to_be_bytes())?;
    bytes.extend_from_slice(&1_300_000_001i64.to_be_bytes())?;
    for _ in 0..10 {
        bytes.extend_from_slice(b"\x01\x00\x00\x00\x0812345.67")?;
    }
    for _ in 10..48 {
        bytes.push(0)?;
    }
    Ok(bytes)
}

const DATA_KEY: &[u8] = b"\x00\x00\x00\x07\x00\x03a01000000000017";

// How many of so many readings of a row's bytes give a row.
fn count_rows(alloc: Global, calls: u32, bytes: &[u8]) -> u32 {
    let mut count = 0u32;
    for _ in 0..calls {
        if DataRow::read(alloc, DATA_KEY, bytes).is_ok() {
            count = count.saturating_add(1);
        }
    }
    count
}

// How many of so many writings of a row gave bytes.
fn count_written(alloc: Global, calls: u32, row: &DataRow) -> u32
    requires { FitsIn data_form.rest (data_form.rested row.now) }
{
    let mut count = 0u32;
    for _ in 0..calls {
        if row.write(alloc).is_ok() {
            count = count.saturating_add(1);
        }
    }
    count
}

fn measure_rows(rt: &HostRuntime, calls: u32) -> io::Result<()> {
    let alloc = rt.alloc();
    let Ok(bytes) = data_bytes(alloc) else {
        return println!(rt; "out of memory");
    };
    let start = Instant::now(rt)?;
    let rows = count_rows(alloc, calls, bytes.as_slice());
    tell_time(rt, "data rows read", start)?;
    let Ok(row) = DataRow::read(alloc, DATA_KEY, bytes.as_slice()) else {
        return println!(rt; "not read");
    };
    let start = Instant::now(rt)?;
    let written = count_written(alloc, calls, &row);
    tell_time(rt, "data rows written", start)?;
    println!(rt; "rows: {rows} {written}")
}

// A pattern of 100 runs and then `a`.
fn many_runs(alloc: Global) -> Result<LikePattern, AllocError> {
    let mut parts = vec![in alloc; LikePart::Many; 100]?;
    parts.push(LikePart::Exact('a'))?;
    Ok(LikePattern {
        parts: Items::from_vec(parts),
    })
}

// 255 times `a`, and then `b`.
fn long_text(alloc: Global) -> Result<String, AllocError> {
    let mut text = String::new(alloc);
    for _ in 0..255 {
        text.push('a')?;
    }
    text.push('b')?;
    Ok(text)
}

// How many of so many calls said that a text isn't like a pattern.
fn count_unlike(alloc: Global, calls: u32, pattern: &LikePattern, text: &str) -> u32 {
    let mut count = 0u32;
    for _ in 0..calls {
        if let Ok(false) = like(alloc, pattern, text) {
            count = count.saturating_add(1);
        }
    }
    count
}

fn measure_like(rt: &HostRuntime, calls: u32) -> io::Result<()> {
    let alloc = rt.alloc();
    let (Ok(pattern), Ok(text)) = (many_runs(alloc), long_text(alloc)) else {
        return println!(rt; "out of memory");
    };
    let start = Instant::now(rt)?;
    let unlike = count_unlike(alloc, calls, &pattern, text.as_str());
    tell_time(rt, "like", start)?;
    println!(rt; "not like the pattern: {unlike}")
}

// So many times the same behind a beginning.
fn repeated(alloc: Global, beginning: &str, times: u32, one: &str) -> Result<String, AllocError> {
    let mut text = String::from_str(alloc, beginning)?;
    for _ in 0..times {
        text.push_str(one)?;
    }
    Ok(text)
}

// A query of about so many bytes, by what its rows show.
fn many_items(alloc: Global, bytes: u32) -> Result<String, AllocError> {
    let mut text = repeated(alloc, "SELECT Id", bytes / 17, ", Account__r.Name")?;
    text.push_str(" FROM Deal__c")?;
    Ok(text)
}

// A query of about so many bytes, by the comparisons of its condition.
fn many_comparisons(alloc: Global, bytes: u32) -> Result<String, AllocError> {
    let beginning = "SELECT Id FROM Deal__c WHERE Id != NULL";
    repeated(alloc, beginning, bytes / 26, " AND Stage__c = 'Closed 7'")
}

// A query of 1,000 literals, each of about so many bytes.
fn many_literals(alloc: Global, bytes: u32) -> Result<String, AllocError> {
    let mut literal = repeated(alloc, ", '", bytes.saturating_sub(4), "a")?;
    literal.push('\'')?;
    let beginning = "SELECT Id FROM Deal__c WHERE Name IN ('a'";
    let mut text = repeated(alloc, beginning, 999, literal.as_str())?;
    text.push(')')?;
    Ok(text)
}

// How many of so many readings of a text give a query.
fn count_parsed(alloc: Global, calls: u32, text: &str) -> u32 {
    let mut count = 0u32;
    for _ in 0..calls {
        if parse(alloc, text).is_ok() {
            count = count.saturating_add(1);
        }
    }
    count
}

fn measure_query(
    rt: &HostRuntime,
    calls: u32,
    what: &str,
    text: Result<String, AllocError>,
) -> io::Result<()> {
    let Ok(text) = text else {
        return println!(rt; "out of memory");
    };
    let start = Instant::now(rt)?;
    let queries = count_parsed(rt.alloc(), calls, text.as_str());
    tell_time(rt, what, start)?;
    let bytes = text.len();
    println!(rt; "{what}: {bytes} bytes, queries: {queries}")
}

fn measure_parse(rt: &HostRuntime, calls: u32, bytes: u32) -> io::Result<()> {
    let alloc = rt.alloc();
    measure_query(rt, calls, "items", many_items(alloc, bytes))?;
    measure_query(rt, calls, "comparisons", many_comparisons(alloc, bytes))?;
    measure_query(rt, calls, "literals", many_literals(alloc, bytes / 1000))
}

// Measures the part of this name, if there is one.
fn measure_part(rt: &HostRuntime, part: &str, size: u32) -> io::Result<bool> {
    if part == "keeper" {
        measure_keeper(rt, size, 1)?;
        measure_keeper(rt, size, SCATTERED)?;
    } else if part == "json" {
        measure_json(rt, size)?;
    } else if part == "values" {
        measure_reading(rt, size)?;
        measure_keys(rt, size)?;
    } else if part == "rows" {
        measure_rows(rt, size)?;
    } else if part == "like" {
        measure_like(rt, size)?;
    } else if part == "parse" {
        measure_parse(rt, size, 5_000)?;
        measure_parse(rt, size, 25_000)?;
        measure_parse(rt, size, 50_000)?;
        measure_parse(rt, size, 100_000)?;
    } else {
        return Ok(false);
    }
    Ok(true)
}

fn measure(rt: &HostRuntime) -> io::Result<u8> {
    let words: Vec<String> = match env::args(rt)?.skip(1).collect(rt.alloc()) {
        Ok(words) => words,
        Err(_) => return Ok(71),
    };
    if words.len() == 2 {
        if let Ok(size) = words[1].parse::<u32>() {
            if measure_part(rt, words[0].as_str(), size)? {
                return Ok(0);
            }
        }
    }
    eprintln!(rt;
        "usage: bench keeper ROWS, bench json BYTES, or bench values, rows, like or parse CALLS"
    )?;
    Ok(64)
}

fn main(rt: HostRuntime) -> ExitCode {
    ExitCode::from(measure(&rt).unwrap_or(74))
}
