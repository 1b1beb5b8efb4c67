// A document as the browser keeps it: written from the model, and read again, whatever stands there by then.

import { KeyHistory } from './key_history.mjs';
import { KeyScript, readKeys, writeKeys } from './key_script.mjs';
import { lookOf } from './look.mjs';
import { TextHistory } from './text_history.mjs';

/** What is kept of the document that the model has: the text with what can be undone of it, in one piece. */
export function recordOf({ text, form, keys, options, look, step, played, breakLines, textHistory, keyHistory }) {
  return { text, form, keys: writeKeys(keys), options, look, step, played, breakLines, history: { text: textHistory.toJSON(), keys: keyHistory.toJSON() } };
}

/** The kept record, or null. Its unreadable parts are left out. */
export function documentOf(record) {
  if (typeof record?.text !== 'string') return null;
  const { text, history } = record;
  return {
    text,
    form: formOf(record.form),
    known: typeof record.known === 'string' ? record.known : null,
    isSaved: record.isSaved === true,
    keys: keysOf(record.keys),
    options: optionsOf(record.options),
    look: lookOf(record.look),
    step: Number.isSafeInteger(record.step) ? record.step : 0,
    played: Number.isSafeInteger(record.played) && record.played > 0 ? record.played : 0,
    breakLines: Array.isArray(record.breakLines) ? record.breakLines.filter((line) => Number.isSafeInteger(line) && line > 0) : [],
    textHistory: TextHistory.of(history?.text, text),
    keyHistory: KeyHistory.of(history?.keys),
  };
}

/** A record's text as one that is put aside, and why it is. */
export function earlierOf({ text, form, key, name, isFile }, why) {
  const time = Date.now();
  return { text, form: formOf(form), key, name, isFile, why, time, id: `${time} ${Math.random()}` };
}

/** How much room a record takes, in characters. */
export const sizeOf = (record) => JSON.stringify(record).length;

export function formOf(form) {
  return { encoding: form?.encoding === 'latin-1' ? 'latin-1' : 'utf-8', lineEnd: form?.lineEnd === '\r\n' ? '\r\n' : '\n' };
}

function keysOf(text) {
  try {
    return readKeys(text);
  } catch {
    return new KeyScript();
  }
}

function optionsOf(options) {
  if (typeof options !== 'object' || options === null) return {};
  return Object.fromEntries(Object.entries(options).filter(([, value]) => typeof value === 'string' && /^[\w=,+-]{1,8192}$/.test(value)));
}
