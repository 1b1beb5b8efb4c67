// Draws what is known of the document. All parts of a step are drawn in one go, from the findings alone, so that none is of another
// document, text or step than the others.

import { byId, grouped, setAttribute, setText, setTitle } from './dom.mjs';
import { takeAway } from './notices.mjs';
import { fieldsApart } from './registers_view.mjs';
import { pixelsApart } from './screen_view.mjs';
import { decodeText } from './text_form.mjs';
import { NOTHING } from './viewer.mjs';

export class Drawing {
  #page;
  /** The last machine that was drawn, and the last step whose line was brought into sight. */
  #before = null;
  #revealed = null;

  /** `page` has the model, the findings, and the views. */
  constructor(page) {
    this.#page = page;
    const { model, findings } = page;
    model.addEventListener('change', ({ detail }) => this.#changed(detail));
    findings.addEventListener('change', ({ detail }) => {
      if (detail === 'places') this.#drawPlaces();
      if (detail === 'covered') this.#drawCovered();
    });
  }

  #changed(what) {
    if (what === 'document') this.#begin();
    if (['keys', 'options', 'text'].includes(what)) this.#drawCovered();
    // what is shown is of an earlier text until the answers come
    if (['document', 'options', 'text'].includes(what)) document.body.toggleAttribute('data-pending', true);
    if (['played', 'keys'].includes(what)) this.tellPlayed();
  }

  /** Another document: nothing is known of it yet. */
  #begin() {
    this.#before = null;
    this.#revealed = null;
    this.#page.sprite.forget();
    this.tellEffect('');
    this.#drawPlaces();
    this.all({ isNew: true });
  }

  /** Draws the findings about the present text. A faulty text shows the last machine of this document, if there was one. */
  get #known() {
    const { findings } = this.#page;
    const shown = findings.get('shown')?.value ?? null;
    const run = findings.get('run')?.value ?? null;
    return { assembled: shown?.assembled ?? NOTHING, code: shown?.machine.code ?? null, isAnswered: shown !== null, machine: run?.machine ?? null, ran: run?.assembled ?? NOTHING };
  }

  /** All parts, from the answers to the same questions. */
  all({ isNew }) {
    const { screen, registers, editor } = this.#page;
    const { assembled, code, isAnswered, machine, ran } = this.#known;
    document.body.toggleAttribute('data-stale', code !== null);
    if (isAnswered) document.body.toggleAttribute('data-pending', false);
    if (isNew) this.#text(assembled);
    screen.show(machine, code);
    registers.show(machine, ran);
    this.panel();
    editor.showHere(code === null && machine !== null ? ran.map.lineAt(machine.registers.pc) : null);
    if (isAnswered) this.#step({ code, machine });
  }

  #step({ code, machine }) {
    const { viewer, player, sound } = this.#page;
    this.#showStep(viewer.machine.step);
    this.#showEffect(code === null ? machine : null);
    takeAway('fault');
    this.tellPlayed();
    player.setRun(code === null);
    const isRunning = code === null && machine.registers.state === 'run';
    if (!isRunning && player.direction > 0) player.play(0);
    sound.sound(player.direction > 0 && isRunning && machine.registers.st > 0);
  }

  /** The panel that is in sight; the others are drawn when they come into sight. */
  panel() {
    const { appearance, disassembly, propertiesView, callStack, memory, sprite, keypad, events, model } = this.#page;
    const { machine, ran } = this.#known;
    const lineText = (line) => decodeText(machine?.wanted.lines[line - 1] ?? '', model.form.encoding);
    const panels = {
      words: () => disassembly.show(machine, ran, lineText),
      properties: () => propertiesView.show(),
      stack: () => callStack.show(machine, ran),
      memory: () => memory.show(machine, ran),
      sprite: () => sprite.show(machine),
      keys: () => {
        keypad.show(model.keys, model.step);
        events.show(model.step);
      },
    };
    panels[appearance.tab]?.();
  }

  #text({ listing, faults }) {
    const { editor, aboutLine, faultPlaces, search } = this.#page;
    editor.show(listing, faults);
    aboutLine.showFaults();
    if (faults.size > 0) faultPlaces.askLater();
    search.showNames();
  }

  /** Where the faults lie; of an earlier text of this document those whose lines are the same. */
  #drawPlaces() {
    const { editor, findings } = this.#page;
    const places = findings.get('places');
    if (places === null || places.isPresent) editor.showPlaces(places?.value ?? new Map());
  }

  #drawCovered() {
    this.#page.editor.showCovered(this.#page.findings.present('covered') ?? new Map());
  }

  #showStep(step) {
    const { player, editor } = this.#page;
    const field = byId('step');
    if ((document.activeElement !== field || player.direction !== 0) && field.value !== String(step)) field.value = step;
    // the author who types looks at what is typed; who goes to another step looks at its line
    const isAway = document.activeElement === byId('source-text') && this.#revealed === step;
    if (player.direction === 0 && !isAway) {
      editor.revealHere();
      this.#revealed = step;
    }
  }

  tellPlayed() {
    setText(byId('last-step'), `of ${grouped(this.#page.model.playedTo)} played`);
  }

  /** Shows the step that the play has reached. */
  playing() {
    const { player, sound } = this.#page;
    const { direction, hasRun } = player;
    setAttribute(byId('play'), 'aria-disabled', String(!hasRun));
    setAttribute(byId('play'), 'aria-pressed', String(direction > 0));
    setAttribute(byId('play-back'), 'aria-pressed', String(direction < 0));
    setText(byId('play'), direction === 0 ? 'Play' : 'Pause');
    setAttribute(byId('play'), 'aria-label', direction === 0 ? 'Play' : 'Pause');
    if (direction <= 0) sound.sound(false);
  }

  /** Shows what an edit of a line or a key changed at the current step, compared with the last machine. */
  #showEffect(machine) {
    if (machine === null) {
      this.tellEffect('');
      return;
    }
    const before = this.#before;
    this.#before = machine;
    const isEdit = before !== null && before.step === machine.step && before.wanted !== machine.wanted && before.wanted.options === machine.wanted.options;
    if (!isEdit || this.#page.player.direction !== 0) {
      if (before?.step !== machine.step) this.tellEffect('');
      return;
    }
    const apart = fieldsApart(before.registers, machine.registers);
    const pixels = pixelsApart(before.screen, machine.screen);
    if (pixels > 0) {
      apart.unshift(pixels === 1 ? 'a pixel' : `${grouped(pixels)} pixels`);
      this.#page.screen.flash(before.screen);
    }
    this.tellEffect(apart.length === 0 ? 'the edit changed nothing here' : `the edit changed ${apart.join(', ')}`);
  }

  tellEffect(text) {
    setText(byId('edit-effect'), text);
    setTitle(byId('edit-effect'), text);
  }
}
