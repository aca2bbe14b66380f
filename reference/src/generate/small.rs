//! Small histories over small tables: a handful of calls with short lines,
//! for an evaluator that is slow. Seeds that follow each other go through the
//! scenes in turn.

use super::encode;
use super::histories::Host;
use super::parts::{
    self, array, command, digit, double, enumeration, parameter, string, structure,
};
use super::values;
use crate::datainfo::Datainfo;
use crate::history::{Call, History};
use crate::node::{MAX_TIME, MIN_VALUES};
use crate::outbox::MIN_OUTBOX;
use crate::random::Random;
use crate::table::{Accessible, Module, Table};

/// The longest value in a line.
const MAX_VALUE: usize = 20;

const SCENES: [fn(&mut Stage); 17] = [
    identification,
    description,
    ping,
    activation_of_all,
    activation_of_one,
    change_seen_by_two,
    good_change,
    unfit_change,
    read,
    unknown_names,
    good_command,
    reading,
    refused_reading,
    refused_calls,
    cut_lines,
    odd_lines,
    checks,
];

/// A small history.
pub fn history(seed: u64) -> History {
    let mut random = Random::new(seed);
    let table = table(&mut random);
    let host = Host::new(random, &encode::table(&table));
    let mut stage = Stage { host, table };
    stage.host.start();
    stage.open(0);
    SCENES[(seed % SCENES.len() as u64) as usize](&mut stage);
    stage.host.history()
}

/// One or two modules with two to five accessibles; one of them can be
/// changed and one is a command.
fn table(random: &mut Random) -> Table {
    let mut chosen = vec![
        random.pick(&changeable()).clone(),
        random.pick(&commands()).clone(),
    ];
    let mut others = [readonly(), changeable(), commands()].concat();
    others.retain(|one| !chosen.contains(one));
    for _ in 0..random.between(0, 3) {
        chosen.push(others.remove(random.below(others.len())));
    }
    let first = random.below(chosen.len());
    chosen.rotate_left(first);
    let second = chosen.split_off(random.between(1, chosen.len()));
    let mut modules = vec![module("t1", chosen)];
    modules[0].note = random.one_in(4).then(|| b"n".to_vec());
    if !second.is_empty() || random.one_in(4) {
        modules.push(module("mf", second));
    }
    Table {
        edition: random.one_in(3).then(|| b"ISSE,SECoP,x".to_vec()),
        ..parts::table(modules)
    }
}

fn module(name: &str, accessibles: Vec<Accessible>) -> Module {
    Module {
        description: b"d".to_vec(),
        ..parts::module(name, accessibles)
    }
}

fn kelvin() -> Datainfo {
    double((0, 0), (3, 2))
}

fn readonly() -> Vec<Accessible> {
    vec![
        parts::readonly("value", kelvin(), "295.13"),
        parts::readonly("ready", Datainfo::Bool, "false"),
    ]
}

fn changeable() -> Vec<Accessible> {
    let modes = enumeration(&[("off", 0), ("on", 1)]);
    let pair = Datainfo::Tuple(vec![Datainfo::Bool, digit()]);
    let pid = structure(&[("p", digit()), ("q", Datainfo::Bool)]);
    vec![
        parameter("target", kelvin(), "0"),
        parameter("mode", modes, "0"),
        parameter("label", string(0, 8), "\"ok\""),
        parameter("list", array(0, 2, digit()), "[]"),
        parameter("pair", pair, "[true,1]"),
        parameter("pid", pid, "{\"p\":1,\"q\":true}"),
    ]
}

fn commands() -> Vec<Accessible> {
    vec![command("stop", None), command("go", Some(digit()))]
}

/// A host over a small table.
struct Stage {
    host: Host,
    table: Table,
}

impl Stage {
    fn random(&mut self) -> &mut Random {
        &mut self.host.random
    }

    fn open(&mut self, client: u64) {
        self.host.call(Call::Open {
            client,
            values_len: MIN_VALUES,
            time: 1_000,
        });
    }

    /// A whole line from a client.
    fn line(&mut self, client: u64, line: impl AsRef<[u8]>) {
        self.host.receive(client, line.as_ref());
        self.host.receive(client, b"\n");
        let length = self.host.waiting(client);
        self.host.offer_first(client, length);
    }

    /// One of several lines from client 0.
    fn one_of(&mut self, lines: &[&str]) {
        let line = *self.random().pick(lines);
        self.line(0, line);
    }

    /// Some parameter's number, specifier and datainfo.
    fn some_parameter(&mut self, changeable: bool) -> (u64, String, Datainfo) {
        let mut parameters = self.table.parameters();
        parameters.retain(|one| !(changeable && one.readonly));
        let parameter = self.host.random.pick(&parameters);
        (
            parameter.number as u64,
            specifier(parameter.module_name, parameter.name),
            parameter.datainfo.clone(),
        )
    }

    /// Some command's specifier.
    fn some_command(&mut self) -> String {
        let commands = self.table.commands();
        let command = self.host.random.pick(&commands);
        specifier(&self.table.modules[command.module].name, command.name)
    }

    /// A short value of the kind asked for.
    fn short_value(
        &mut self,
        datainfo: &Datainfo,
        make: fn(&mut Random, &Datainfo) -> Vec<u8>,
    ) -> Vec<u8> {
        (0..20)
            .map(|_| make(&mut self.host.random, datainfo))
            .find(|value| value.len() <= MAX_VALUE && !value.contains(&b'\n'))
            .unwrap_or_else(|| b"null".to_vec())
    }

    fn change(&mut self, client: u64, make: fn(&mut Random, &Datainfo) -> Vec<u8>) {
        let (_, specifier, datainfo) = self.some_parameter(true);
        let value = self.short_value(&datainfo, make);
        let request = format!("change {specifier} ");
        self.line(client, [request.as_bytes(), &value].concat());
    }
}

fn specifier(module_name: &[u8], name: &[u8]) -> String {
    let module_name = String::from_utf8_lossy(module_name);
    let name = String::from_utf8_lossy(name);
    format!("{module_name}:{name}")
}

fn identification(stage: &mut Stage) {
    stage.one_of(&["*IDN?", "*IDN? x", "*IDN?\r"]);
    stage.one_of(&["*IDN", "*idn?", "deactivate", "ping 1"]);
}

fn description(stage: &mut Stage) {
    stage.one_of(&["describe", "describe .", "describe x {"]);
}

fn ping(stage: &mut Stage) {
    stage.one_of(&["ping", "ping ", "ping  1", "ping\r"]);
    stage.one_of(&["ping a", "ping 12:3 x", "ping \"\\"]);
    stage.one_of(&["Ping a", " ping", "pin"]);
}

fn activation_of_all(stage: &mut Stage) {
    stage.one_of(&["activate", "activate ", "activate  x"]);
    stage.one_of(&["deactivate", "deactivate t1", "activate t1"]);
}

fn activation_of_one(stage: &mut Stage) {
    stage.one_of(&["activate t1", "activate mf", "activate t1:x"]);
    stage.one_of(&["activate T1", "activate :", "deactivate mf", "activate 1"]);
}

fn change_seen_by_two(stage: &mut Stage) {
    stage.open(3);
    stage.line(3, "activate");
    stage.one_of(&["activate", "activate t1", "activate mf"]);
    stage.change(0, values::sent);
    stage.change(3, values::sent);
}

fn good_change(stage: &mut Stage) {
    stage.change(0, values::sent);
    stage.change(0, values::any);
    let (_, specifier, _) = stage.some_parameter(true);
    stage.line(0, format!("read {specifier}"));
}

fn unfit_change(stage: &mut Stage) {
    let (_, specifier, _) = stage.some_parameter(false);
    for _ in 0..3 {
        let data = *stage.random().pick(&[
            "",
            " ",
            " null",
            " 01",
            " 301",
            " -1e-9",
            " 2",
            " \"on\"",
            " \"123456789\"",
            " \"\\u0080\"",
            " [1,2,3]",
            " [10]",
            " [1,true",
            " [true]",
            " {\"p\":1}",
            " nul",
            " 3e2",
        ]);
        stage.line(0, format!("change {specifier}{data}"));
    }
    stage.change(0, values::any);
}

fn read(stage: &mut Stage) {
    let (_, specifier, _) = stage.some_parameter(false);
    stage.line(0, format!("read {specifier}"));
    stage.line(0, format!("read {specifier}:x y"));
    stage.line(0, format!("read {}", specifier.to_uppercase()));
    stage.one_of(&[
        "read t1",
        "read",
        "read t1:",
        "read :value",
        "read t1::value",
        "read t1:stop",
    ]);
}

fn unknown_names(stage: &mut Stage) {
    stage.one_of(&[
        "read tx:value",
        "change tx:target 1",
        "do tx:stop",
        "activate tx",
    ]);
    stage.one_of(&["read t1:tx", "change t1:tx 1", "do t1:tx", "do t1:value"]);
    stage.one_of(&["read 1:2", "do t1:9", "change t1:a-b 1", "meas:volt?"]);
}

fn good_command(stage: &mut Stage) {
    for _ in 0..4 {
        let specifier = stage.some_command();
        let data = *stage.random().pick(&[
            "", " ", " null", "  null ", " 3", "  4 ", " 10", " x", " 1.0", " [null]", ":x 5", ":",
        ]);
        stage.line(0, format!("do {specifier}{data}"));
    }
}

fn reading(stage: &mut Stage) {
    stage.one_of(&["activate", "activate t1", "activate mf"]);
    let (number, specifier, datainfo) = stage.some_parameter(false);
    let value = stage.short_value(&datainfo, values::sent);
    stage.host.report(number, value);
    stage.line(0, format!("read {specifier}"));
    let value = stage.short_value(&datainfo, values::any);
    stage.host.report(number, value);
    let class = stage.random().between(1, 4) as u64;
    stage.host.fail(number, class);
    stage.line(0, format!("read {specifier}:x"));
}

fn refused_reading(stage: &mut Stage) {
    let (number, specifier, _) = stage.some_parameter(false);
    let unfit = *stage
        .random()
        .pick(&["", " ", "null", "01", "nul", "[[]]", "1\n"]);
    stage.host.report(number, unfit.as_bytes().to_vec());
    let beyond = *stage.random().pick(&[5, 6, 64, 1 << 32, u64::MAX]);
    stage.host.report(beyond, b"1".to_vec());
    let class = *stage.random().pick(&[0, 5, 257]);
    stage.host.fail(number, class);
    stage.host.fail(beyond, 1);
    stage.line(0, format!("read {specifier}"));
}

/// Calls with wrong arguments, then a good one.
fn refused_calls(stage: &mut Stage) {
    let client = *stage.random().pick(&[0, 1, 8, u64::MAX]);
    stage.open(client);
    for _ in 0..2 {
        let table = stage.table.clone();
        stage.host.refused_call(&table);
    }
    let wrong = [
        (0, MIN_VALUES - 1, MIN_OUTBOX, 1),
        (0, MIN_VALUES, MIN_OUTBOX - 1, 1),
        (0, MIN_VALUES, MIN_OUTBOX, MAX_TIME + 1),
        (7, MIN_VALUES, MIN_OUTBOX, MAX_TIME),
    ];
    let (client, values_len, outbox_len, time) = *stage.random().pick(&wrong);
    stage.host.call(Call::Piece {
        client,
        values_len,
        outbox_len,
        time,
        bytes: b"ping\n".to_vec(),
    });
    stage.line(0, "ping");
}

/// Lines cut anywhere, also between return and line feed. What a call doesn't
/// use is offered again.
fn cut_lines(stage: &mut Stage) {
    let line = *stage
        .random()
        .pick(&["ping ab\r\n", "activate\r\n", "read t1:value\n", "\r\n"]);
    let at = stage.random().between(0, line.len());
    stage.host.receive(0, line.as_bytes());
    stage.host.offer_first(0, at);
    stage.host.receive(0, b"ping x\npi");
    while stage.host.waiting(0) > 0 {
        let length = stage.host.waiting(0);
        stage.host.offer_first(0, length);
    }
    stage.host.offer_first(0, 0);
}

fn odd_lines(stage: &mut Stage) {
    stage.one_of(&["", "\r", "\r\r", " ", "  x"]);
    stage.one_of(&["ping \u{7f}", "ping\t1", "\u{80}", "ping x\r\r", "a\0"]);
    stage.one_of(&["x y z", "read  t1:value", " ", "_custom", "error_ x"]);
}

/// Checks of some parameter; without an `ED` record they are unknown.
fn checks(stage: &mut Stage) {
    stage.one_of(&["*IDN?", "*IDN? x"]);
    let (_, specifier, datainfo) = stage.some_parameter(false);
    for make in [values::sent, values::nearly_fitting, values::any] {
        let value = stage.short_value(&datainfo, make);
        let request = format!("check {specifier} ");
        stage.line(0, [request.as_bytes(), &value].concat());
    }
    stage.line(0, format!("read {specifier}"));
    stage.one_of(&["check tx:value 1", "check t1:tx 1", "check", "check t1"]);
}
