// Tests an emulator with flat files of chipbench-steps, and prints the first difference in each file.
//
//     node run_steps.mjs MACHINE.mjs schip/*.txt
//
// MACHINE.mjs exports your Machine: `new Machine(profile)`, and `step(keys, tick, random)` with an array of keys, a boolean and
// a function that gives the next random byte. `screen` is an array of 64 big integers, one a row of stored pixels.
import { readFileSync } from "node:fs";
import { resolve } from "node:path";
import { pathToFileURL } from "node:url";

const [emulator, ...files] = process.argv.slice(2);
const { Machine } = await import(pathToFileURL(resolve(emulator)));
const hexadecimal = (field) => parseInt(field, 16);
const bytesOf = (field) => Uint8Array.from(field.match(/../g), hexadecimal);

/** Takes the fields of a state from the front, and gives a machine what they say. Gives the random bytes. */
function takeState(fields, machine) {
  const take = () => hexadecimal(fields.shift());
  const list = (item) => Array.from({ length: take() }, item);
  for (const name of ["pc", "i", "dt", "st"]) machine[name] = take();
  machine.high = take() === 1;
  machine.v = bytesOf(fields.shift());
  machine.flags = bytesOf(fields.shift());
  machine.stack = list(take);
  list(() => (machine.memory[take()] = take()));
  list(() => (machine.screen[take()] = BigInt(`0x${fields.shift()}`)));
  return list(take);
}

/** A machine with nothing in its memory, and a dark screen. */
function emptyMachine(profile) {
  const machine = new Machine(profile);
  machine.memory = new Uint8Array(4096);
  machine.screen = Array(64).fill(0n);
  machine.stop = 0;
  return machine;
}

/** The parts of a machine by their names, each as a text; of memory and screen those that aren't 0. */
function partsOf(machine, random) {
  const parts = { stop: String(machine.stop), "random bytes": String(random), stack: String(machine.stack), flags: String(machine.flags) };
  for (const name of ["pc", "i", "dt", "st", "high"]) parts[name] = String(machine[name]);
  machine.v.forEach((value, number) => (parts[`V${number.toString(16).toUpperCase()}`] = String(value)));
  machine.memory.forEach((byte, address) => byte && (parts[`memory ${address.toString(16)}`] = String(byte)));
  machine.screen.forEach((pixels, row) => pixels && (parts[`screen row ${row}`] = pixels.toString(16)));
  return parts;
}

/** What differs first after the step of a case, in words, or undefined. */
function difference(profile, fields) {
  const [stop, keys, tick] = fields.splice(0, 3).map(hexadecimal);
  const before = [...fields];
  const machine = emptyMachine(profile);
  const random = takeState(fields, machine);
  const expected = emptyMachine(profile);
  takeState(before, expected);
  const left = takeState(before, expected);
  expected.stop = stop;
  machine.step([...Array(16).keys()].filter((key) => (keys >> key) & 1), tick === 1, () => random.shift());
  const [found, wanted] = [partsOf(machine, random), partsOf(expected, left)];
  const name = Object.keys({ ...wanted, ...found }).find((part) => found[part] !== wanted[part]);
  return name && `${name} is ${found[name] ?? 0}, and has to be ${wanted[name] ?? 0}`;
}

for (const file of files) {
  for (const line of readFileSync(file, "utf8").split("\n")) {
    const [kind, format, profile, row, number, ...fields] = line.split(" ");
    if (kind === "step" && format !== "1") throw new Error(`${file} has another format`);
    const found = kind === "step" && difference(profile, fields);
    if (found) {
      console.log(`${row} case ${number}: ${found}`);
      process.exitCode = 1;
      break;
    }
  }
}
