// Keeps what is shown up with the model: it asks about the newest step and text, and drops what came between. All that is shown
// of a step is of one text, one script and one step: the answers are shown together, once they all are there.

import { readBytes, readFaults, readListing, readRegisters, readScreen, readSymbols, readWords, refusal } from './answers.mjs';
import { soon } from './dom.mjs';
import { Names } from './names.mjs';
import { SourceMap } from './source_map.mjs';

const MEMORY = 4096;
const IMAGE_START = 512;
const MOST_WORDS = 400;
const WORDS_PAST_IMAGE = 8;
const WORDS_BEFORE = 5;
const WORDS_SHOWN = 15;
const WORDS_NEAR = 3;
/** The findings about a text before it is answered. */
export const NOTHING = { listing: [], faults: new Map(), symbols: [], names: new Names(), image: null, map: new SourceMap() };
const ABOUT_TEXT = ['list', 'faults', 'syms', 'image'];
/** How many questions about steps of one text are on their way at a time: while one is answered, the next is sent. */
const MOST_LOOKS = 2;

export class Viewer extends EventTarget {
  #model;
  #workbench;
  #findings;
  #again = false;
  /** Whether it is about to ask anew. */
  #isDue = false;
  #asked = null;
  /** How many looks are on their way, what the last of them wants, and the numbers of the last one and of the one shown. */
  #looks = 0;
  #wanted = null;
  #last = 0;
  #shown = 0;
  #listed = null;
  #words = { from: IMAGE_START, count: WORDS_SHOWN };
  #firstWord = null;

  /** How long the answers took, in milliseconds, from the change on. */
  took = 0;

  constructor(model, workbench, findings) {
    super();
    this.#model = model;
    this.#workbench = workbench;
    this.#findings = findings;
  }

  /** The machine that was answered last of this document, or null; `code` is that of the refusal where there is no such machine. */
  get machine() {
    return this.#findings.get('shown')?.value.machine ?? null;
  }

  /** The listing, the faults, the names, the image and the map of the lines, as they were answered last of this document. */
  get assembled() {
    return this.#findings.get('shown')?.value.assembled ?? NOTHING;
  }

  /** Asks anew as soon as the questions before are answered, or nearly so. */
  refresh() {
    this.#isDue = false;
    this.#again = true;
    this.#asked = this.#asked ?? performance.now();
    this.#goOn();
  }

  /** Asks anew after what the browser does now: what is typed is drawn first. */
  refreshSoon() {
    this.#asked ??= performance.now();
    if (this.#isDue) return;
    this.#isDue = true;
    soon(() => {
      if (this.#isDue) this.refresh();
    });
  }

  /** The next answers tell of the text again, also where it is the same. */
  forget() {
    this.#listed = null;
  }

  /** Resolves when all that changed is shown. */
  settle() {
    if (this.#looks === 0 && !this.#isDue) return Promise.resolve();
    return new Promise((done) => this.addEventListener('settled', done, { once: true }));
  }

  #goOn() {
    while (this.#again && this.#mayLook) {
      this.#again = false;
      const asked = this.#asked;
      this.#asked = null;
      this.#run(asked);
    }
  }

  /** A changed text, keys and settings are asked about alone. */
  get #mayLook() {
    const { wanted } = this.#model;
    return this.#looks === 0 || (this.#looks < MOST_LOOKS && this.#wanted === wanted && this.#listed === wanted.lines);
  }

  async #run(asked) {
    this.#looks += 1;
    try {
      await this.#look(asked);
    } catch (fault) {
      this.#tell('fault', fault);
    }
    this.#looks -= 1;
    this.#goOn();
    if (this.#looks === 0 && !this.#isDue) this.#tell('settled');
  }

  #tell(name, detail) {
    this.dispatchEvent(new CustomEvent(name, { detail }));
  }

  async #look(asked) {
    const { wanted, step } = this.#model;
    this.#last += 1;
    const number = this.#last;
    this.#wanted = wanted;
    const isNew = this.#listed !== wanted.lines;
    const about = isNew ? ABOUT_TEXT : [];
    const answers = await this.#workbench.answers(wanted, [...about, ...this.#questions(step)]);
    const assembled = isNew ? assembledOf(wanted, answers.splice(0, about.length)) : this.assembled;
    const machine = machineOf(wanted, step, answers);
    if (machine.code === null) await this.#findWords(machine);
    // a newer one may have been answered first
    if (number < this.#shown) return;
    this.#shown = number;
    if (this.#workbench.lastStep > 0) this.#model.setLastStep(this.#workbench.lastStep);
    if (!this.#findings.take('shown', wanted, { machine, assembled })) return;
    if (machine.code === null) this.#findings.take('run', wanted, { machine, assembled });
    this.#listed = wanted.lines;
    if (assembled.image !== null) this.#words = wordsOf(assembled.image, machine.words);
    this.took = performance.now() - asked;
    this.#tell('shown', { isNew });
  }

  /** Asks everything about a step. The step before comes first, so that the program goes on from there. */
  #questions(step) {
    const steps = step > 0 ? [step - 1, step] : [step];
    const { from, count } = this.#words;
    return [...steps.flatMap((at) => [`regs ${at}`, `mem ${at} 0 ${MEMORY}`]), `screen ${step}`, `dis ${step} ${from} ${count}`];
  }

  /** The words around pc, of those that were asked for; asked for anew where pc isn't among them. */
  async #findWords(machine) {
    const { pc } = machine.registers;
    if (!machine.words.some(({ address }) => address === pc)) {
      const from = Math.max(pc & 1, Math.min(pc, MEMORY - 2) - 2 * WORDS_BEFORE);
      const count = Math.min(WORDS_SHOWN, (MEMORY - from) >> 1);
      const [words] = await this.#workbench.answers(machine.wanted, [`dis ${machine.step} ${from} ${count}`]);
      machine.words = refusal(words) === null ? readWords(words) : [];
    }
    const place = machine.words.findIndex(({ address }) => address === pc);
    const shown = machine.words.findIndex(({ address }) => address === this.#firstWord);
    const latest = machine.words.length - WORDS_SHOWN;
    // the words that were shown stay as long as pc isn't near their ends
    const stays = shown >= 0 && (shown === 0 || place >= shown + WORDS_NEAR) && (shown >= latest || place < shown + WORDS_SHOWN - WORDS_NEAR);
    const first = Math.max(0, Math.min(stays ? shown : place - WORDS_BEFORE, latest));
    machine.words = machine.words.slice(first, first + WORDS_SHOWN);
    this.#firstWord = machine.words[0]?.address ?? null;
  }
}

/** The words to ask for at the next step: the whole image, or, where that is long, the words that were shown last. */
function wordsOf(image, words) {
  const count = (image.length >> 1) + WORDS_PAST_IMAGE;
  if (count <= MOST_WORDS) return { from: IMAGE_START, count: Math.min(count, (MEMORY - IMAGE_START) >> 1) };
  const from = words?.[0]?.address ?? IMAGE_START;
  return { from, count: Math.min(WORDS_SHOWN, (MEMORY - from) >> 1) };
}

function machineOf(wanted, step, answers) {
  const code = refusal(answers[0]) ?? refusal(answers.at(-2));
  if (code !== null) return { step, code, wanted };
  const [registers, memory, screen, words] = answers.slice(-4);
  return {
    step,
    code: null,
    wanted,
    registers: readRegisters(registers),
    memory: readBytes(memory),
    screen: readScreen(screen),
    before: step > 0 ? { registers: readRegisters(answers[0]), memory: readBytes(answers[1]) } : null,
    words: refusal(words) === null ? readWords(words) : [],
  };
}

function assembledOf({ refused }, [list, faults, symbols, image]) {
  // a text that no program opens has no listing, and its own faults alone
  if (refused.size > 0) return { ...NOTHING, faults: refused };
  const listing = readListing(list);
  const bytes = refusal(image) === null ? readBytes(image) : null;
  const read = readSymbols(symbols);
  const map = new SourceMap(listing, bytes === null ? 0 : bytes.length);
  return { listing, faults: readFaults(faults), symbols: read, names: new Names(read, listing), image: bytes, map };
}
