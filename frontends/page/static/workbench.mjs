// The state of the running program, and its way to the state that the page wants: the fewest edits, or a new start.

import { BridgeFault, request } from './bridge.mjs';
import { refusal } from './answers.mjs';
import { keyCommands, KeyScript, writeKeys } from './key_script.mjs';
import { lineCommands } from './line_changes.mjs';

/** A session takes 100,000 commands (docs/FORMATS.md: E4); before it has had them, the program is started anew. */
const COMMANDS_A_SESSION = 99_000;
const COMMANDS_A_REQUEST = 20_000;
const LARGEST_STEP = 999_999_999;
/** The greatest step of the program as it is, and the one after it: they are tried first. */
const LIKELY_STEPS = [1_000_000, 1_000_001];
const NO_SUCH_KEY = 16;

/** The program ended and wouldn't do otherwise when it was asked again. */
export class ProgramEnded extends Error {}

export class Workbench {
  #request;
  #onEnded;
  #sent = 0;
  #held = null;
  #turn = Promise.resolve();
  /** The requests on their way that change nothing. */
  #asked = new Set();

  /** The greatest step that the program takes, found by trying. */
  lastStep = 0;
  /** How often the program was started; for tests and the status line. */
  starts = 0;

  /** `onEnded(status, text)` is told when the program ended by itself. `ask` carries out requests. */
  constructor({ onEnded = (_status, _text) => {}, ask = request } = {}) {
    this.#onEnded = onEnded;
    this.#request = ask;
  }

  /**
   * Makes the program hold what is wanted (`lines`, `keys`, `options`) and answers the questions about it. Requests that change
   * what it holds are carried out one after another; questions alone don't wait for the answers of those before. A text that no program
   * opens is refused here.
   */
  answers(wanted, questions) {
    const [code] = wanted.refused?.values() ?? [];
    if (code !== undefined) return Promise.resolve(questions.map(() => `no ${code}\n`));
    const begun = this.#turn.then(() => this.#begin(wanted, questions));
    this.#turn = begun.catch(() => {});
    return begun.then(({ answers }) => answers);
  }

  /** Resolves when the next request may begin, with the answers, which may come later. */
  async #begin(wanted, questions) {
    if (this.#held === wanted && this.#sent + questions.length <= COMMANDS_A_SESSION) {
      return { answers: this.#askOnly(wanted, questions) };
    }
    await Promise.allSettled(this.#asked);
    return { answers: await this.#answer(wanted, questions) };
  }

  /** Asks a program that holds what is wanted. Where it ends, it is started anew in turn, and asked again. */
  async #askOnly(wanted, questions) {
    const sent = this.#send('ask', { commands: questions });
    const forget = () => this.#asked.delete(sent);
    this.#asked.add(sent);
    sent.then(forget, forget);
    const reply = await sent.catch((fault) => this.#throwFault(fault));
    if (!reply.ended) return reply.answers;
    if (this.#held === wanted) {
      this.#held = null;
      this.#onEnded(reply.ended.status, firstPart(reply.ended.text));
    }
    return this.answers(wanted, questions);
  }

  async #answer(wanted, questions) {
    try {
      const edits = this.#editsFor(wanted);
      if (edits === null || this.#sent + edits.length + questions.length > COMMANDS_A_SESSION) {
        await this.#start(wanted);
        return await this.#askStarted(questions);
      }
      return await this.#ask(wanted, edits, questions);
    } catch (fault) {
      return this.#throwFault(fault);
    }
  }

  /** After a fault of a request it isn't known what the program holds. */
  #throwFault(fault) {
    if (fault instanceof BridgeFault) this.#held = null;
    throw fault;
  }

  /** Which steps of a run have something: a question of finder.mjs, which another program answers than the session. */
  async steps(wanted, question) {
    if (wanted.refused?.size > 0) throw new ProgramEnded('there is no run, because a line has a fault');
    const about = { source: sourceOf(wanted), keys: writeKeys(wanted.keys), options: wanted.options };
    const { refused, ...found } = await this.#request('search', { ...about, ...question });
    if (!refused) return found;
    throw new ProgramEnded(refused.status === 1 ? 'there is no run, because a line has a fault' : firstPart(refused.text) || `the program ended with status ${refused.status}`);
  }

  /** The edits from what the program holds to what is wanted, or null where it has to be started anew. */
  #editsFor(wanted) {
    if (this.#held === null || this.#held.options !== wanted.options) return null;
    const lines = this.#held.lines === wanted.lines ? [] : lineCommands(this.#held.lines, wanted.lines);
    const edits = lines === null ? null : [...lines, ...keyCommands(this.#held.keys, wanted.keys)];
    return edits !== null && edits.length > COMMANDS_A_REQUEST ? null : edits;
  }

  async #ask(wanted, edits, questions) {
    const reply = await this.#send('ask', { commands: [...edits, ...questions] });
    const refused = reply.answers.slice(0, edits.length).some((answer) => answer !== 'ok\n');
    if (!reply.ended && !refused) {
      this.#held = wanted;
      return reply.answers.slice(edits.length);
    }
    // what the program holds isn't known any more: it is started anew with what the page holds
    if (reply.ended) this.#onEnded(reply.ended.status, firstPart(reply.ended.text));
    await this.#start(wanted);
    return this.#askStarted(questions);
  }

  /** Asks a program that was just started: it isn't started again where it ends now. */
  async #askStarted(questions) {
    if (questions.length === 0) return [];
    const reply = await this.#send('ask', { commands: questions });
    if (reply.ended) this.#throwEnded(reply.ended);
    return reply.answers;
  }

  async #start(wanted) {
    this.#held = null;
    this.#sent = 0;
    this.starts += 1;
    const source = sourceOf(wanted);
    const events = keyCommands(new KeyScript(), wanted.keys);
    const probes = this.lastStep === 0 ? probesOf(LIKELY_STEPS) : [];
    const reply = await this.#send('open', { source, options: wanted.options, commands: [...events, ...probes] });
    if (reply.ended) this.#throwEnded(reply.ended);
    const answers = reply.answers.slice(0, events.length);
    const place = answers.findIndex((answer) => answer !== 'ok\n');
    if (place >= 0) throw new ProgramEnded(`the program refuses the event '${events[place]}': ${refusal(answers[place])}`);
    this.#held = wanted;
    if (this.lastStep === 0) this.lastStep = await this.#findLastStep(reply.answers.slice(events.length).map(isTaken));
  }

  /** By whether the likely steps are taken. */
  async #findLastStep([isLikely, isOneMore]) {
    if (isLikely && !isOneMore) return LIKELY_STEPS[0];
    let [low, high] = isLikely ? [LIKELY_STEPS[1], LARGEST_STEP] : [0, LIKELY_STEPS[0] - 1];
    while (low < high) {
      const middle = Math.ceil((low + high) / 2);
      const reply = await this.#send('ask', { commands: probesOf([middle]) });
      if (reply.ended) this.#throwEnded(reply.ended);
      if (isTaken(reply.answers[0])) low = middle;
      else high = middle - 1;
    }
    return low;
  }

  #send(name, body) {
    this.#sent += body.commands.length;
    return this.#request(name, body);
  }

  #throwEnded({ status, text }) {
    this.#held = null;
    const how = status < 0 ? `was ended by signal ${-status}` : `ended with status ${status}`;
    const said = firstPart(text);
    throw new ProgramEnded(`the program ${how}${said ? `: ${said}` : ''}`);
  }
}

/** Commands that tell which steps the program takes: no event has a key above 15, so it says N5 of a step that is too large, and else N6. */
const probesOf = (steps) => steps.map((step) => `kdel ${step} ${NO_SUCH_KEY}`);

const isTaken = (answer) => refusal(answer) !== 'N5';

const sourceOf = ({ lines }) => lines.map((line) => `${line}\n`).join('');

/** What a program said at its end, without its usage, which follows after a blank line. */
function firstPart(text) {
  return text.split('\n\n')[0];
}
