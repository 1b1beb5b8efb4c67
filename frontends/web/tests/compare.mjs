// Compares the session's module with the program: frontends/web/tests/sessions.py .. | node compare.mjs [MODULE]
// All sessions run in one instance. The last line is 'N passed, M failed'.
import fs from 'node:fs';
import process from 'node:process';
import readline from 'node:readline';
import { load, STATUS } from '../session.mjs';
import { modules } from './modules.mjs';

const MOST_SHOWN = 5;
const bytesOf = (text) => new Uint8Array(Buffer.from(text, 'base64'));

// What is wrong with the module's answers to a session, or nothing.
function difference(session, { source, script, answer, settings, status }) {
  const tape = new Uint8Array(Buffer.from(settings.tape, 'hex'));
  const opened = session.open(bytesOf(source), { ...settings, tape, spacing: settings.every });
  if (opened !== STATUS.done) return status === 0 ? `not opened: ${opened}` : '';
  if (status !== 0) return `opened, where the program ends with ${status}`;
  const answers = session.script(bytesOf(script));
  const expected = bytesOf(answer);
  const first = answers.findIndex((byte, place) => byte !== expected[place]);
  if (first < 0 && answers.length === expected.length) return '';
  return `${answers.length} bytes and not ${expected.length}, which differ first at ${first}`;
}

const session = await load(fs.readFileSync(process.argv[2] ?? modules().session));
const counts = { same: 0, unopened: 0, failed: 0, answered: 0 };
for await (const line of readline.createInterface({ input: process.stdin })) {
  const known = JSON.parse(line);
  const wrong = difference(session, known);
  if (wrong) {
    counts.failed += 1;
    if (counts.failed <= MOST_SHOWN) console.log(`${known.name}: ${wrong}`);
  } else if (known.status !== 0) counts.unopened += 1;
  else counts.same += 1;
  counts.answered += known.answer.length;
}
const memory = session.exports.memory.buffer.byteLength;
console.log(`${counts.same} the same, ${counts.unopened} that don't open; answers of ${counts.answered} characters of base64; memory of ${memory} bytes`);
console.log(`${counts.same + counts.unopened} passed, ${counts.failed} failed`);
process.exit(counts.failed === 0 && counts.same > 0 ? 0 : 1);
