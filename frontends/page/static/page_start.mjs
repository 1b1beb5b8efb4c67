// What the page begins with: the settings and the place that the browser kept, as far as the program takes them.

import { BridgeFault } from './bridge.mjs';
import { grouped } from './dom.mjs';
import { KeyScript } from './key_script.mjs';
import { notice } from './notices.mjs';
import { ProgramEnded } from './workbench.mjs';

/** Seeds of new games are as short as these. */
const SEEDS = 9999;

/**
 * The settings of a document: those that were kept of it; of the first document of the page also those that the command line says.
 * A new game has a seed, so that its random bytes aren't all zero.
 */
export function optionsOf({ settings, options }, { kept = undefined, isFirst = false, isNew = false }) {
  const said = isFirst ? settings : {};
  const taken = { rate: '10', ...kept, ...said };
  if ('seed' in said) delete taken.tape;
  if ('tape' in said) delete taken.seed;
  if (isNew && kept === undefined && !('seed' in taken) && !('tape' in taken)) taken.seed = String(1 + Math.floor(SEEDS * Math.random()));
  return Object.fromEntries(Object.entries(taken).filter(([option]) => options.includes(option)));
}

/** Which steps there are has to be known before a step or an event is taken. Settings that are refused are dropped once. */
export async function findLastStep(about, { model, workbench }, isAgain = false) {
  try {
    // without the kept events, which the program refuses where one is past its last step, and without lines that it doesn't open
    const { wanted } = model;
    const lines = wanted.refused.size > 0 ? [] : wanted.lines;
    await workbench.answers({ ...wanted, lines, refused: new Map(), keys: new KeyScript() }, []);
    model.setLastStep(workbench.lastStep);
  } catch (fault) {
    const isRefused = !isAgain && fault.status !== 0 && (fault instanceof ProgramEnded || fault instanceof BridgeFault);
    if (isRefused && JSON.stringify(model.options) !== JSON.stringify({ rate: '10', ...about.settings })) {
      notice('settings', `The settings that this browser kept can't be used: ${fault.message}.`);
      model.setOptions(optionsOf(about, { isFirst: true }));
      return findLastStep(about, { model, workbench }, true);
    }
    // the first question tells what is wrong
  }
  return undefined;
}

/** Takes the step that was kept, and leaves out key events past the last step; nothing where another document than `number` is open by now. */
export function takeKeptPlace(model, number, step) {
  const { document, keys, lastStep } = model;
  if (document !== number) return;
  const past = keys.events.filter((event) => event.step > lastStep);
  if (past.length > 0) {
    notice('past', `Key events after step ${grouped(lastStep)}, the last step of this program, were dropped: ${past.length}.`);
    model.startWithKeys(past.reduce((script, event) => script.without(event.step, event.key), keys));
  }
  model.setStep(step);
}
