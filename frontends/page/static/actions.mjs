// The actions of the keyboard's keys and of the time's buttons, by name.

import { byId, takesText } from './dom.mjs';

/** `page` has the parts of the page. Returns `act(name)`. */
export function actionsOf(page) {
  const { model, player, editor, timeline, documents, appearance, search, runControl } = page;

  /** Where the source is behind a tab, it comes out. */
  const inSource = (action) => {
    if (!byId('source-part').checkVisibility()) appearance.showTab('source');
    action();
  };
  const inTab = (tab, action) => {
    appearance.showTab(tab);
    action();
  };
  const move = (by) => () => {
    player.play(0);
    model.setStep(model.step + by());
  };
  const actions = {
    back: move(() => -1),
    on: move(() => 1),
    'back-frame': move(() => -model.rate),
    'on-frame': move(() => model.rate),
    'back-thousand': move(() => -1000),
    'on-thousand': move(() => 1000),
    first: move(() => -model.step),
    last: move(() => model.lastStep - model.step),
    play: () => {
      player.play(player.direction === 0 ? 1 : 0);
      // the game's keys are to reach it, and not a text or a field
      if (player.direction > 0 && takesText(document.activeElement)) timeline.focus();
    },
    'play-back': () => player.toggle(-1),
    'event-before': () => model.setStep(model.keys.previous(model.step)?.step ?? model.step),
    'event-after': () => model.setStep(model.keys.next(model.step)?.step ?? model.step),
    undo: () => (model.lastChange === 'text' ? editor.undo() : model.undoKeys()),
    redo: () => (model.lastChange === 'text' ? editor.undo(true) : model.redoKeys()),
    'tell-keys': () => runControl.tell('keys are recorded while the game plays; while the tab Keys is shown, they change the current step'),
    breakpoint: () => editor.breakpoints.toggle(editor.line),
    'to-step': () => byId('step').select(),
    'to-source': () => inSource(() => editor.focus()),
    'to-timeline': () => timeline.focus(),
    'to-search': () => inTab('search', () => search.focus()),
    find: () => inSource(() => page.findBar.open()),
    replace: () => inSource(() => page.findBar.open('by')),
    'to-line': () => inSource(() => page.findBar.open('line')),
    'find-on': () => inSource(() => page.findBar.find(true)),
    'find-back': () => inSource(() => page.findBar.find(false)),
    fix: () => page.faultHelp.takeFirst(),
    'to-panel': () => inTab(document.body.dataset.tab, () => document.querySelector('#tabs [aria-selected="true"]').focus()),
    'next-fault': () => inSource(() => editor.goToFault(true)),
    'fault-before': () => inSource(() => editor.goToFault(false)),
    explain: () => (editor.fault === null ? byId('help').showModal() : page.explain(editor.fault)),
    help: () => byId('help').showModal(),
    save: () => documents.save(),
  };
  return (name) => {
    if (name in actions) actions[name]();
    else runControl.run(name);
  };
}
