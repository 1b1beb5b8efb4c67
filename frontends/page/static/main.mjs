// Puts the parts of the page together.

import { AboutLine } from './about_line.mjs';
import { actionsOf } from './actions.mjs';
import { Appearance } from './appearance.mjs';
import { BreakGuard } from './break_guard.mjs';
import { request } from './bridge.mjs';
import { CallStackView } from './call_stack_view.mjs';
import { codeText } from './codes.mjs';
import { Completion } from './completion.mjs';
import { Coverage } from './coverage.mjs';
import { Crashes } from './crashes.mjs';
import { CrashesView } from './crashes_view.mjs';
import { DisassemblyView } from './disassembly_view.mjs';
import { DocumentList } from './document_list.mjs';
import { Documents } from './documents.mjs';
import { byId } from './dom.mjs';
import { Drawing } from './drawing.mjs';
import { Editor } from './editor.mjs';
import { EventsView } from './events_view.mjs';
import { Exports } from './exports.mjs';
import { showExplanation } from './explanation.mjs';
import { FaultHelp } from './fault_help.mjs';
import { FaultPlaces } from './fault_places.mjs';
import { askName, chooseName, FileDialogs } from './file_dialogs.mjs';
import { FindBar } from './find_bar.mjs';
import { Findings } from './findings.mjs';
import { GameExport } from './game_export.mjs';
import { Keypad } from './keypad.mjs';
import { showLicences } from './licences.mjs';
import { pressInMenu } from './menus.mjs';
import { MemoryView } from './memory_view.mjs';
import { Model } from './model.mjs';
import { notice } from './notices.mjs';
import { readNumber } from './numbers.mjs';
import { tellEnd, tellFault } from './page_faults.mjs';
import { findLastStep, optionsOf, takeKeptPlace } from './page_start.mjs';
import { Player } from './player.mjs';
import { RegistersView } from './registers_view.mjs';
import { Properties } from './properties.mjs';
import { PropertiesView } from './properties_view.mjs';
import { RunControl } from './run_control.mjs';
import { ScreenView } from './screen_view.mjs';
import { SearchView } from './search_view.mjs';
import { SettingsView } from './settings_view.mjs';
import { listen } from './shortcuts.mjs';
import { Sound } from './sound.mjs';
import { SpriteView } from './sprite_view.mjs';
import { StartPage } from './start_page.mjs';
import { Timeline } from './timeline.mjs';
import { Viewer } from './viewer.mjs';
import { Workbench } from './workbench.mjs';

class Page {
  #about;
  #act;
  #begun = false;

  constructor(about) {
    this.#about = about;
    this.appearance = new Appearance();
    this.model = new Model();
    this.findings = new Findings(this.model);
    this.workbench = new Workbench({ onEnded: tellEnd });
    this.viewer = new Viewer(this.model, this.workbench, this.findings);
    this.player = new Player(this.model);
    this.model.addEventListener('change', ({ detail }) => {
      if (detail === 'look') this.appearance.showScreen(this.model.look.screen);
    });
    this.#makeSource();
    this.#makeMachine();
    this.#makeSearch();
    this.#makeFiles();
    const isPlaying = () => this.player.direction > 0;
    this.timeline = new Timeline(this.model, { move: (name) => this.#act(name), isPlaying });
    this.#act = actionsOf(this);
    this.drawing = new Drawing(this);
    this.#begin();
  }

  #makeSource() {
    this.editor = new Editor(this.model);
    this.aboutLine = new AboutLine(this.editor, { model: this.model, assembled: () => this.viewer.assembled, explain: (code) => this.explain(code) });
    this.completion = new Completion(this.editor, this.model, () => this.viewer.assembled.symbols);
    this.findBar = new FindBar(this.editor);
    this.faultHelp = new FaultHelp(this.editor, this, (code) => this.explain(code));
    this.faultPlaces = new FaultPlaces(this.model, this.findings);
  }

  #makeMachine() {
    const goToLine = (line) => this.#goToLine(line);
    this.screen = new ScreenView();
    this.registers = new RegistersView();
    this.callStack = new CallStackView(goToLine);
    this.disassembly = new DisassemblyView(goToLine);
    this.memory = new MemoryView((text) => readNumber(text, this.viewer.assembled.symbols));
    this.sprite = new SpriteView(this.editor);
    this.keypad = new Keypad(this.player);
    this.events = new EventsView(this.model);
    this.settings = new SettingsView(this.model, this.appearance);
    this.sound = new Sound();
  }

  #makeSearch() {
    this.search = new SearchView(this.model, {
      ask: (questions) => this.workbench.answers(this.model.wanted, questions),
      scan: (question) => this.workbench.steps(this.model.wanted, question),
      symbols: () => this.viewer.assembled.symbols,
      lineAddress: async () => {
        await this.viewer.settle();
        return this.editor.listing[this.editor.line - 1]?.address ?? null;
      },
    });
    const machine = async () => {
      await this.viewer.settle();
      return this.viewer.machine;
    };
    this.runControl = new RunControl(this.editor, { search: this.search, machine });
    const scan = (question) => this.workbench.steps(this.model.wanted, question);
    this.player.guard = new BreakGuard(this.model, { addresses: () => this.runControl.breakAddresses, scan });
    const hasRun = async () => {
      await this.viewer.settle();
      return this.viewer.machine?.code === null;
    };
    this.#makeBackground(hasRun);
    this.coverage = new Coverage(this, (wanted, questions) => this.workbench.answers(wanted, questions));
  }

  /** The searches that go on beside the author's work. */
  #makeBackground(hasRun) {
    const { model, findings } = this;
    this.crashes = new Crashes({ model, findings, hasRun });
    this.crashesView = new CrashesView(this.crashes, model);
    this.properties = new Properties({ model, findings, hasRun });
    this.propertiesView = new PropertiesView(this.properties, {
      model,
      machine: () => ({ machine: this.viewer.machine, symbols: this.viewer.assembled.symbols }),
      goToLine: (line) => this.#goToLine(line),
      isInSight: () => this.appearance.tab === 'properties',
    });
  }

  #beginBackground() {
    this.crashes.begin();
    this.properties.begin();
  }

  #makeFiles() {
    const asks = this.#about.picks ? chooseName : askName;
    this.documents = new Documents(this.#about, { model: this.model, editor: this.editor, askName: asks, optionsFor: (of) => optionsOf(this.#about, of) });
    const parts = { documents: this.documents, model: this.model, editor: this.editor, workbench: this.workbench };
    this.files = new FileDialogs(this.#about, parts);
    this.documentList = new DocumentList(this.documents);
    this.exports = new Exports(parts);
    this.gameExport = new GameExport(parts);
    this.start = new StartPage({ documents: this.documents, editor: this.editor, settled: () => this.viewer.settle() });
  }

  async #begin() {
    this.#listen();
    const kept = await this.documents.begin();
    const { document: number } = this.model;
    await findLastStep(this.#about, this);
    byId('step').max = this.model.lastStep;
    if (kept !== null) takeKeptPlace(this.model, number, kept.step);
    this.#begun = true;
    this.viewer.refresh();
    this.start.showWhereBlank();
    this.#beginBackground();
  }

  // What changes --------------------------------------------------------------------------------------------------------------

  #listen() {
    this.editor.addEventListener('edit', () => this.model.setText(this.editor.text));
    this.editor.breakpoints.addEventListener('change', () => this.model.setBreakLines(this.editor.breakpoints.lines));
    this.editor.addEventListener('run', ({ detail }) => this.search.toLine(detail));
    this.model.addEventListener('change', ({ detail }) => this.#changed(detail));
    this.viewer.addEventListener('shown', ({ detail }) => this.drawing.all(detail));
    this.viewer.addEventListener('shown', () => performance.mark('first answer'), { once: true });
    this.viewer.addEventListener('fault', ({ detail }) => this.#tellFault(detail));
    this.player.addEventListener('change', () => {
      if (this.player.direction !== 0) this.runControl.forget();
      this.drawing.playing();
      if (this.player.direction === 0 && this.#begun) this.viewer.refresh();
    });
    this.player.addEventListener('told', ({ detail }) => this.runControl.tell(detail));
    this.appearance.addEventListener('tab', () => this.drawing.panel());
    byId('play').addEventListener('click', () => this.#act('play'));
    byId('play-back').addEventListener('click', () => this.player.toggle(-1));
    byId('speed').addEventListener('change', (event) => {
      this.player.speed = Number(event.target.value);
    });
    for (const button of document.querySelectorAll('[data-move]')) button.addEventListener('click', () => this.#act(button.dataset.move));
    for (const button of document.querySelectorAll('[data-click]')) button.addEventListener('click', () => byId(button.dataset.click).click());
    this.#listenToStep(byId('step'));
    byId('show-settings').addEventListener('click', () => this.settings.open());
    byId('show-find').addEventListener('click', () => this.#act('find'));
    byId('show-help').addEventListener('click', () => byId('help').showModal());
    byId('licences').addEventListener('toggle', showLicences);
    for (const menu of document.querySelectorAll('.menu')) this.#listenToMenu(menu);
    const editsKeys = () => this.appearance.tab === 'keys';
    listen({ player: this.player, look: () => this.model.look, act: (name) => this.#act(name), editsKeys });
  }

  #listenToStep(field) {
    field.addEventListener('input', () => {
      if (field.value !== '') this.model.setStep(Number(field.value));
    });
    field.addEventListener('change', () => {
      field.value = this.model.step;
    });
    field.addEventListener('keydown', (event) => {
      if (event.key === 'Enter') this.timeline.focus();
    });
  }

  #listenToMenu(menu) {
    menu.addEventListener('focusout', ({ relatedTarget }) => {
      if (!menu.contains(relatedTarget)) menu.open = false;
    });
    menu.addEventListener('click', ({ target }) => {
      if (target.closest('button') !== null) menu.open = false;
    });
    menu.addEventListener('keydown', (event) => pressInMenu(menu, event));
  }

  #changed(what) {
    if (what === 'text') this.documents.tellState();
    if (what === 'refused') notice('keys', 'The program takes at most 10,000 key events, so nothing was changed.', { bad: true });
    if (what === 'keys') this.keypad.show(this.model.keys, this.model.step);
    if (what === 'document') {
      this.player.play(0);
      this.completion.close();
    }
    // what is told of a play holds while it goes on; what is told of a run isn't of another one
    if (['document', 'text', 'options'].includes(what) || (['step', 'keys'].includes(what) && this.player.direction === 0)) this.runControl.forget();
    if (what === 'lastStep') byId('step').max = this.model.lastStep;
    else if (this.#begun && what === 'text') this.viewer.refreshSoon();
    else if (this.#begun && ['keys', 'options', 'step'].includes(what)) this.viewer.refresh();
  }

  #goToLine(line) {
    this.#act('to-source');
    this.editor.goToLine(line);
  }

  // What goes wrong -----------------------------------------------------------------------------------------------------------

  #tellFault(fault) {
    this.player.play(0);
    document.body.toggleAttribute('data-stale', true);
    // the addresses are of a text that is answered no more
    this.viewer.forget();
    this.editor.show([], new Map());
    tellFault(fault, () => this.viewer.refresh());
  }

  async explain(code) {
    const { status, output } = await request('word', { word: 'explain', code }).catch(() => ({ status: -1 }));
    showExplanation(code, status === 0 ? output : codeText(code));
  }
}

async function begin() {
  try {
    globalThis.chipbenchPage = new Page(await request('about'));
  } catch (fault) {
    notice('fault', `The page can't start: ${fault.message}`, { bad: true });
    console.error(fault);
  }
}

begin();
