// A case for `test` (docs/FORMATS.md): a source, settings, key events, and the answers at some steps.

/** At most so many steps are asked about: the last ones of those that are marked. */
const MOST_STEPS = 50;
/** The line that ends the source in such a file. */
const END = 'end';

/** The steps that a case asks about: those of the key events, and the one looked at. */
export function markedSteps(keys, step) {
  const steps = new Set([...keys.events.map((event) => event.step), step]);
  return [...steps].sort((one, other) => one - other).slice(-MOST_STEPS);
}

/** Whether a case can hold a source: no line of it ends the source. */
export const canHold = (lines) => !lines.includes(END);

/** The bytes of such a file. `exchanges` are commands with their answers. */
export function writeCase({ name, lines, options, exchanges }) {
  const settings = Object.entries(options).map(([option, value]) => `${option} ${value}\n`);
  const asked = exchanges.map(([command, answer]) => `> ${command}\n${answer}`);
  return [`case ${name}\n`, 'source\n', ...lines.map((line) => `${line}\n`), `${END}\n`, ...settings, ...asked].join('');
}
