//! What `make bench` sets the tables beside: the records of the same lines in a list, and for each
//! question a plain sort and sum of them, with its rows printed as the program prints them.
//!
//! `plain_sums LINES TIMES` reads lines of `manual` requests as `bench/tables` makes them, and
//! answers turnovers by month and item so many times on the standard output.
use std::fmt::Write as _;
use std::io::Write as _;

struct Record {
    month: u32,
    item: String,
    expense: bool,
    sums: [i64; 2],
}

/// The text behind a mark and up to the next quotation mark.
fn behind<'a>(text: &'a str, mark: &str) -> Option<(&'a str, &'a str)> {
    let start = text.find(mark)? + mark.len();
    let length = text[start..].find('"')?;
    Some((&text[start..start + length], &text[start + length..]))
}

fn units(text: &str) -> i64 {
    text.replace('.', "").parse().expect("a number")
}

/// The records of a line, each with the month of the line as 12 times the year and the month.
fn read_line(line: &str, records: &mut Vec<Record>) {
    let (date, mut rest) = behind(line, "\"date\":\"").expect("a date");
    let year: u32 = date[0..4].parse().expect("a year");
    let number: u32 = date[5..7].parse().expect("a month");
    while let Some((kind, behind_kind)) = behind(rest, "\"kind\":\"") {
        let (quantity, behind_quantity) = behind(behind_kind, "\"sums\":[\"").expect("a quantity");
        let (amount, behind_amount) = behind(behind_quantity, ",\"").expect("an amount");
        let (item, behind_item) = behind(behind_amount, "\"values\":[\"").expect("an item");
        records.push(Record {
            month: year * 12 + number - 1,
            item: item.to_string(),
            expense: kind == "expense",
            sums: [units(quantity), units(amount)],
        });
        rest = behind_item;
    }
}

fn put_sum(out: &mut String, sum: i64, scale: u32) {
    let one = 10_i64.pow(scale);
    let sign = if sum < 0 { "-" } else { "" };
    let whole = sum.abs() / one;
    let part = sum.abs() % one;
    write!(out, "\"{sign}{whole}.{part:0width$}\"", width = scale as usize).expect("memory");
}

fn put_sums(out: &mut String, name: &str, sums: [i64; 2]) {
    write!(out, "\"{name}\":[").expect("memory");
    put_sum(out, sums[0], 3);
    out.push(',');
    put_sum(out, sums[1], 2);
    out.push_str("],");
}

/// The rows by item and month: the records sorted, and what is the same summed up.
fn answer(records: &[Record], out: &mut String) {
    let mut sorted: Vec<&Record> = records.iter().collect();
    sorted.sort_unstable_by(|a, b| (&a.item, a.month).cmp(&(&b.item, b.month)));
    out.push_str("{\"ok\":{\"rows\":[");
    let mut first = true;
    for group in sorted.chunk_by(|a, b| a.month == b.month && a.item == b.item) {
        let mut receipt = [0, 0];
        let mut expense = [0, 0];
        for record in group {
            let side = if record.expense { &mut expense } else { &mut receipt };
            side[0] += record.sums[0];
            side[1] += record.sums[1];
        }
        if !first {
            out.push(',');
        }
        first = false;
        out.push('{');
        put_sums(out, "expense", expense);
        write!(out, "\"group\":[\"{}\"],", group[0].item).expect("memory");
        put_sums(out, "receipt", receipt);
        put_sums(out, "turnover", [receipt[0] - expense[0], receipt[1] - expense[1]]);
        let month = group[0].month;
        write!(out, "\"unit\":\"{}-{:02}-01T00:00:00\"}}", month / 12, month % 12 + 1).expect("memory");
    }
    out.push_str("]}}\n");
}

fn main() {
    let words: Vec<String> = std::env::args().collect();
    let lines = std::fs::read_to_string(&words[1]).expect("the lines");
    let times: usize = words[2].parse().expect("a number of times");
    let mut records = Vec::new();
    for line in lines.lines() {
        read_line(line, &mut records);
    }
    for _ in 0..times {
        let mut out = String::new();
        answer(&records, &mut out);
        std::io::stdout().write_all(out.as_bytes()).expect("the output");
    }
}
