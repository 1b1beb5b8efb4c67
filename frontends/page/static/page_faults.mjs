// What goes wrong between the page and the program, as the author is told of it.

import { BridgeFault } from './bridge.mjs';
import { byId } from './dom.mjs';
import { notice, takeAway } from './notices.mjs';
import { ProgramEnded } from './workbench.mjs';

/** The reason why a program ended: its own status, or a signal of the system. */
export function endOf(status) {
  if (status === -9) return ' because the system or a user killed it';
  return status < 0 ? ` by signal ${-status}` : status > 0 ? ` with status ${status}` : '';
}

/** The program ended by itself, and was started again. */
export function tellEnd(status, text) {
  notice('ended', `The program ended${endOf(status)}${text ? `: ${text}` : ''}. It runs again, and nothing is lost.`);
}

/** Tells the author that a question has no answer; `again()` asks it again. */
export function tellFault(fault, again) {
  const kind = fault instanceof BridgeFault ? 'The program refused' : fault instanceof ProgramEnded ? 'No answer' : 'An error of this page';
  notice('fault', `${kind}: ${fault.message}. Nothing is lost; change something, or try again.`, { bad: true, choices: [['Try again', again]] });
  if (!(fault instanceof BridgeFault || fault instanceof ProgramEnded)) console.error(fault);
}

/** What the browser keeps of a document couldn't be read: `again()` reads it again, and `writeOver()` keeps this text in its place. */
export function tellUnread(name, fault, { again, writeOver }) {
  const text = `The text that this browser keeps for ${name} can't be read: ${fault.message}. It stays as it is, and your edits here are kept as another document.`;
  notice('unread', text, { bad: true, choices: [['Read it again', again], ['Write over it', writeOver], ['Go on', () => {}]] });
}

/** The browser has no room for what is to be kept, or has it again. */
export function tellFull(isFull) {
  if (!isFull) {
    takeAway('full');
    return;
  }
  const choices = [['Documents …', () => byId('show-documents').click()], ['Close', () => {}]];
  notice('full', 'This browser has no room left and can\'t keep your text: save or download it, or delete documents.', { bad: true, choices });
}
