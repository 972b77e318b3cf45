//! What the requests of one kind met.

use super::counts;
use super::known::{Control, Kind, DISK};
use crate::case::Exchange;
use crate::names::{body_size, call, code, status, stp};
use crate::need;
use crate::request::fis;
use std::collections::BTreeMap;
use std::fmt;

#[derive(Clone, Copy, Default)]
struct Command {
    denied: u64,
    granted: u64,
}

pub struct Met {
    calls: BTreeMap<u32, u64>,
    /// By control code and return code.
    replies: BTreeMap<(Control, u32), u64>,
    /// By status and error of the status FIS.
    disk: BTreeMap<(u8, u8), u64>,
    commands: [Command; 256],
}

impl Default for Met {
    fn default() -> Self {
        Met {
            calls: BTreeMap::new(),
            replies: BTreeMap::new(),
            disk: BTreeMap::new(),
            commands: [Command::default(); 256],
        }
    }
}

impl Met {
    pub fn count(&mut self, exchange: &Exchange) {
        *self.calls.entry(exchange.number).or_default() += 1;
        if exchange.number == call::DONE {
            self.reply(exchange);
        }
    }

    fn reply(&mut self, exchange: &Exchange) {
        let control = exchange.header.control(exchange.request);
        let known = body_size(control).map(|_| control);
        *self.replies.entry((known, exchange.code)).or_default() += 1;
        if known == Some(code::STP_PASSTHRU) {
            self.passthrough(exchange);
        }
    }

    fn passthrough(&mut self, exchange: &Exchange) {
        let granted = need::granted(exchange);
        if !granted && exchange.code != status::WRITE_ATTEMPTED {
            return;
        }
        let header = exchange.header;
        let command = header.body(exchange.request)[stp::COMMAND_FIS + fis::COMMAND];
        let met = &mut self.commands[usize::from(command)];
        if granted {
            met.granted += 1;
            let answer = &header.body(exchange.reply)[stp::STATUS_FIS..];
            let answer = (answer[fis::STATUS], answer[fis::ERROR]);
            *self.disk.entry(answer).or_default() += 1;
        } else {
            met.denied += 1;
        }
    }

    /// What a kind knows and was not met.
    pub fn missing(&self, kind: Kind) -> Vec<String> {
        let calls = kind
            .calls()
            .iter()
            .filter(|&number| !self.calls.contains_key(number))
            .map(|number| format!("call {number}"));
        let replies = kind
            .replies()
            .into_iter()
            .filter(|reply| !self.replies.contains_key(reply))
            .map(|reply| format!("reply {}", name(reply)));
        let answers = DISK
            .iter()
            .filter(|&answer| !self.disk.contains_key(answer))
            .map(|answer| format!("disk {answer:02X?}"));
        let commands = (0..256).flat_map(|command| self.missing_of_command(kind, command));
        calls
            .chain(replies)
            .chain(answers)
            .chain(commands)
            .collect()
    }

    fn missing_of_command(&self, kind: Kind, command: usize) -> Vec<String> {
        let met = self.commands[command];
        let mut missing = Vec::new();
        if met.granted == 0 {
            missing.push(format!("command {command:02X}h granted"));
        }
        if kind.is_denied() && met.denied == 0 {
            missing.push(format!("command {command:02X}h denied"));
        }
        missing
    }

    /// What was met and is unknown to a kind.
    pub fn unknown(&self, kind: Kind) -> Vec<String> {
        let known = kind.replies();
        let calls = self
            .calls
            .keys()
            .filter(|number| !kind.calls().contains(number));
        let replies = self.replies.keys().filter(|reply| !known.contains(reply));
        let answers = self.disk.keys().filter(|answer| !DISK.contains(answer));
        calls
            .map(|number| format!("call {number}"))
            .chain(replies.map(|&reply| format!("reply {}", name(reply))))
            .chain(answers.map(|answer| format!("disk {answer:02X?}")))
            .collect()
    }
}

fn name((control, code): (Control, u32)) -> String {
    match control {
        Some(control) => format!("code {control}: {code}"),
        None => format!("unknown code: {code}"),
    }
}

impl fmt::Display for Met {
    fn fmt(&self, f: &mut fmt::Formatter<'_>) -> fmt::Result {
        writeln!(f, "calls     {}", counts(&self.calls))?;
        for control in std::iter::once(None).chain(code::ALL.map(Some)) {
            let codes = self.replies.iter().filter(|((of, _), _)| *of == control);
            let met: BTreeMap<u32, u64> = codes.map(|(&(_, code), &count)| (code, count)).collect();
            let name = control.map_or("unknown".to_string(), |control| format!("code {control}"));
            writeln!(f, "{name:<9} {}", counts(&met))?;
        }
        for (&(status, error), count) in &self.disk {
            writeln!(f, "disk {status:02X} {error:02X} {count}")?;
        }
        let granted = self.commands.iter().filter(|met| met.granted > 0).count();
        let denied = self.commands.iter().filter(|met| met.denied > 0).count();
        write!(f, "commands  {granted} granted, {denied} denied, of 256")
    }
}
