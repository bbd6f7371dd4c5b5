//! The manual page and the shells' completions, made from the command's own definition. The manual's text stands once, in docs/TUZ.md; options stand in main.rs.

use crate::explain;
use anyhow::Result;
use clap::{Arg, Command};
use clap_complete::Shell;
use std::fmt::Write;

/// docs/TUZ.md
const TEXT: &str = include_str!("../../../docs/TUZ.md");

/// What a shell needs to complete the command's words.
pub fn completions(shell: Shell, command: &mut Command) -> Vec<u8> {
    let mut to = Vec::new();
    clap_complete::generate(shell, command, "tuz", &mut to);
    to
}

/// The manual page.
pub fn page(command: &mut Command) -> Result<String> {
    command.build();
    let mut to = String::new();
    let version = env!("CARGO_PKG_VERSION");
    let about = |c: &Command| c.get_about().map_or(String::new(), |a| a.to_string());
    let _ = writeln!(
        to,
        ".TH TUZ 1 \"\" \"tuz {version}\"\n.SH NAME\ntuz \\- {}",
        inline(&about(command))
    );
    to += ".SH SYNOPSIS\n";
    let commands: Vec<_> = command
        .get_subcommands()
        .filter(|c| c.get_name() != "help")
        .collect();
    for sub in &commands {
        let words = inline(&usage(sub));
        let _ = writeln!(to, ".B tuz {}\n{}\\&\n.br", sub.get_name(), words);
    }
    section(&mut to, "DESCRIPTION");
    to += ".SH COMMANDS\n";
    for sub in &commands {
        let _ = writeln!(to, ".SS tuz {}\n{}", sub.get_name(), inline(&about(sub)));
        for arg in sub.get_arguments().filter(|a| a.get_id() != "help") {
            let told = arg.get_help().map_or(String::new(), |h| h.to_string());
            let _ = writeln!(
                to,
                ".TP\n\\fB{}\\fP\n{}{}",
                inline(&words(arg)),
                inline(&told),
                inline(&values(arg))
            );
        }
    }
    section(&mut to, "FORMATS");
    section(&mut to, "FRAMING");
    section(&mut to, "TABLES");
    to += ".SH REFUSALS\n";
    example(&mut to, &explain::told(None)?);
    section(&mut to, "EXIT STATUS");
    Ok(to)
}

/// What an argument is called.
fn words(arg: &Arg) -> String {
    let value = arg.get_value_names().map(|names| names[0].to_string());
    let taken = arg.get_action().takes_values();
    let value = value.filter(|_| taken).unwrap_or_default();
    match (arg.get_short(), arg.get_long()) {
        (Some(short), Some(long)) => format!("-{short}, --{long} {value}"),
        (None, Some(long)) => format!("--{long} {value}"),
        _ => value,
    }
}

/// What it can be, and what it is where nothing is said.
fn values(arg: &Arg) -> String {
    let possible = arg.get_possible_values();
    let names: Vec<_> = possible.iter().map(|v| v.get_name()).collect();
    let mut told = String::new();
    if names.len() > 1 && arg.get_action().takes_values() {
        let _ = write!(told, "; one of {}", names.join(", "));
    }
    let default: Vec<_> = arg
        .get_default_values()
        .iter()
        .map(|v| v.to_string_lossy())
        .collect();
    if !default.is_empty() && arg.get_action().takes_values() {
        let _ = write!(told, "; {} unless told", default.join(" "));
    }
    told
}

/// The words behind a command's name.
fn usage(command: &Command) -> String {
    let mut told = vec![];
    for arg in command.get_arguments().filter(|a| a.get_id() != "help") {
        let words = words(arg);
        told.push(if arg.is_required_set() {
            words
        } else {
            format!("[{}]", words.trim_end())
        });
    }
    told.join(" ")
}

/// A section of the manual's text, as roff.
fn section(to: &mut String, name: &str) {
    let start = format!("\n## {name}\n");
    let text = TEXT.split_once(&start).map_or("", |(_, rest)| rest);
    let text = text.split("\n## ").next().unwrap_or("");
    let _ = writeln!(to, ".SH {name}");
    let mut lines = text.lines();
    while let Some(line) = lines.next() {
        if line.starts_with("```") {
            let block: Vec<_> = lines
                .by_ref()
                .take_while(|l| !l.starts_with("```"))
                .collect();
            example(to, &block.join("\n"));
        } else if let Some(title) = line.strip_prefix("### ") {
            let _ = writeln!(to, ".SS {}", inline(title));
        } else if let Some(item) = line.strip_prefix("- ") {
            let _ = writeln!(to, ".IP \\(bu 2\n{}", inline(item));
        } else if let Some(row) = line.strip_prefix("| ") {
            table_row(to, row);
        } else if line.is_empty() {
            *to += ".PP\n";
        } else if !line.starts_with("|--") && !line.starts_with("![") {
            let _ = writeln!(to, "{}", inline(line));
        }
    }
}

/// A row's first cell stands out, the others follow.
fn table_row(to: &mut String, row: &str) {
    let cells: Vec<_> = row.trim_end_matches(" |").split(" | ").collect();
    let _ = writeln!(
        to,
        ".TP\n{}\n{}",
        inline(cells[0]),
        inline(&cells[1..].join(": "))
    );
}

/// Lines as they stand.
fn example(to: &mut String, lines: &str) {
    *to += ".PP\n.nf\n.RS 2\n";
    for line in lines.lines() {
        let _ = writeln!(to, "{}", escaped(line));
    }
    *to += ".RE\n.fi\n.PP\n";
}

/// A line of Markdown: code is bold, links are their words.
fn inline(line: &str) -> String {
    let mut told = String::new();
    for (i, part) in line.split('`').enumerate() {
        if i % 2 == 1 {
            let _ = write!(told, "\\fB{}\\fP", escaped(part));
        } else {
            told += &escaped(&unlinked(part));
        }
    }
    told
}

fn unlinked(text: &str) -> String {
    let (mut told, mut rest) = (String::new(), text);
    while let Some((before, link)) = rest.split_once('[') {
        told += before;
        match link
            .split_once("](")
            .and_then(|(words, to)| Some((words, to.split_once(')')?.1)))
        {
            Some((words, behind)) => {
                told += words;
                rest = behind;
            }
            None => {
                told.push('[');
                rest = link;
            }
        }
    }
    told + rest
}

fn escaped(text: &str) -> String {
    let text = text
        .replace('\\', "\\e")
        .replace('-', "\\-")
        .replace('\'', "\\(aq");
    if text.starts_with('.') {
        format!("\\&{text}")
    } else {
        text
    }
}
