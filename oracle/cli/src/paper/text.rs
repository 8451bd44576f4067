//! Plays runs that are written down, and prints a line for each call and question (docs/RUNS.md).

use std::io::{self, Write};

use form::{kind, push_number, Answer, Bad, Item, Line, Opening, Reader};

use super::functions::ask_c;
use super::player::Paper;
use super::wrong::Wrong;

/// Plays until the text ends. Whether it was all in the form.
pub fn play(text: &str, wrong: Wrong, to: &mut impl Write) -> io::Result<bool> {
    let mut reader = Reader::new(text);
    let mut lines = Vec::new();
    loop {
        lines.clear();
        let more = one_item(&mut reader, wrong, &mut lines);
        if more.is_err() {
            lines.extend_from_slice(b"Bad input\n");
        }
        to.write_all(&lines)?;
        match more {
            Ok(true) => {}
            Ok(false) => return Ok(true),
            Err(Bad) => return Ok(false),
        }
    }
}

fn one_item(reader: &mut Reader, wrong: Wrong, lines: &mut Vec<u8>) -> Result<bool, Bad> {
    match reader.item()? {
        None => return Ok(false),
        Some(Item::Question(name, arguments)) => question(name, &arguments, wrong, lines),
        Some(Item::Run(opening)) => one_run(reader, &opening, wrong, lines)?,
    }
    Ok(true)
}

fn question(name: &str, arguments: &[u64], wrong: Wrong, lines: &mut Vec<u8>) {
    let push_all = |numbers: &[u64], lines: &mut Vec<u8>| {
        for &number in numbers {
            lines.push(b' ');
            push_number(lines, number);
        }
    };
    lines.extend_from_slice(name.as_bytes());
    push_all(arguments, lines);
    lines.extend_from_slice(b" =");
    match ask_c(name, arguments, wrong) {
        Ok(numbers) => push_all(&numbers, lines),
        Err(number) => {
            lines.push(b' ');
            Answer::Refused(number, None).push(lines);
        }
    }
    lines.push(b'\n');
}

fn push_line(paper: &Paper, number: u64, answer: &Answer, lines: &mut Vec<u8>) {
    let (image, block) = (form::Side::image(paper), form::Side::block(paper));
    Line { number, answer, shown: paper.shown(), image, block }.push(lines);
}

fn one_run(reader: &mut Reader, o: &Opening, wrong: Wrong, lines: &mut Vec<u8>) -> Result<(), Bad> {
    let mut paper = Paper::new(wrong);
    let answer = paper.opened(o);
    push_line(&paper, 0, &answer, lines);
    if answer != Answer::Done {
        // A refused opening leaves no record to call on.
        return if reader.call(o.block_len)?.is_none() { Ok(()) } else { Err(Bad) };
    }
    let mut number = 1;
    while let Some(call) = reader.call(o.block_len)? {
        if call.kind == kind::IMAGE {
            paper.rewrite(&call.writes, call.argument);
            continue;
        }
        let answer = paper.called(&call);
        push_line(&paper, number, &answer, lines);
        number += 1;
    }
    Ok(())
}
