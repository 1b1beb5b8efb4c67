//! Tests an emulator with flat files of chipbench-steps, and prints the first difference in each file.
//!
//!     rustc --edition 2021 -o run_steps run_steps.rs && ./run_steps schip/*.txt
//!
//! Your emulator is machine.rs beside this file: a `Machine` with the fields below, `Clone`, `Machine::new(profile)`, and
//! `step(keys, tick, random)`, which takes the random bytes that it uses from the front. Key k is bit k of `keys`.
mod machine;
use machine::Machine;
use std::{env, fs, process};

type Fields<'a> = std::str::SplitWhitespace<'a>;

fn number(fields: &mut Fields) -> usize {
    usize::from_str_radix(fields.next().expect("a field"), 16).expect("a hexadecimal number")
}

fn bytes(fields: &mut Fields) -> Vec<u8> {
    let digits = fields.next().expect("a field");
    (0..digits.len() / 2).map(|at| u8::from_str_radix(&digits[2 * at..2 * at + 2], 16).unwrap()).collect()
}

/// Reads a state over another one, of memory and screen only what the line has. Gives the random bytes.
fn read_state(fields: &mut Fields, machine: &mut Machine) -> Vec<u8> {
    machine.pc = number(fields);
    machine.i = number(fields);
    machine.dt = number(fields) as u8;
    machine.st = number(fields) as u8;
    machine.high = number(fields) == 1;
    machine.v = bytes(fields);
    machine.flags = bytes(fields);
    machine.stack = (0..number(fields)).map(|_| number(fields)).collect();
    for _ in 0..number(fields) {
        let address = number(fields);
        machine.memory[address] = number(fields) as u8;
    }
    for _ in 0..number(fields) {
        let row = number(fields);
        machine.screen[row] = u128::from_str_radix(fields.next().unwrap(), 16).unwrap();
    }
    (0..number(fields)).map(|_| number(fields) as u8).collect()
}

/// The parts of a machine, each with its name.
fn parts(machine: &Machine, random: &[u8]) -> Vec<String> {
    let Machine { pc, i, dt, st, high, stop, stack, flags, .. } = machine;
    let mut parts = vec![format!("stop {stop}, pc {pc}, I {i}, DT {dt}, ST {st}, high {high}, random bytes {random:?}")];
    parts.push(format!("stack {stack:?}, flags {flags:?}"));
    parts.extend(machine.v.iter().enumerate().map(|(number, value)| format!("V{number:X} {value}")));
    parts.extend(machine.memory.iter().enumerate().map(|(address, byte)| format!("memory {address} {byte}")));
    parts.extend(machine.screen.iter().enumerate().map(|(row, pixels)| format!("screen row {row} {pixels:032x}")));
    parts
}

/// What differs first after the step of a case, in words.
fn difference(profile: &str, fields: &mut Fields) -> Option<String> {
    let mut machine = Machine::new(profile);
    machine.memory = vec![0; 4096];
    let (stop, keys, tick) = (number(fields) as u8, number(fields) as u16, number(fields) == 1);
    let mut random = read_state(fields, &mut machine);
    let mut expected = machine.clone();
    let left = read_state(fields, &mut expected);
    expected.stop = stop;
    machine.step(keys, tick, &mut random);
    let mut both = parts(&machine, &random).into_iter().zip(parts(&expected, &left));
    both.find(|(found, wanted)| found != wanted).map(|(found, wanted)| format!("{found}, and has to be {wanted}"))
}

fn main() {
    let texts: Vec<String> = env::args().skip(1).map(|name| fs::read_to_string(name).expect("a file")).collect();
    let found = texts.iter().filter_map(|text| text.lines().find_map(|line| {
        let mut fields = line.strip_prefix("step ")?.split_whitespace();
        assert_eq!(fields.next(), Some("1"), "a file has another format");
        let (profile, row, case) = (fields.next()?, fields.next()?, fields.next()?);
        Some(format!("{row} case {case}: {}", difference(profile, &mut fields)?))
    }));
    process::exit(found.map(|line| println!("{line}")).count().min(1) as i32);
}
