// How the page looks: its colours, the width of the machine, which panel is shown, and whether the bytes are. The browser keeps it.

import { byId, themeChanged } from './dom.mjs';

const KEPT = 'chipbench-page, appearance';
const THEMES = { system: '(prefers-color-scheme: dark)', light: 'not all', dark: 'all' };
const STEP_PIXELS = 24;
const LEAST_PIXELS = 280;
const MOST_OF_WIDTH = 0.7;
const MACHINE = '--machine-width';
const TABS = ['words', 'stack', 'memory', 'sprite', 'keys', 'crashes', 'properties', 'search'];

const system = matchMedia(THEMES.system);
/** Where the source is behind a tab, as in sizes.css. */
const compact = matchMedia('(max-width: 999px), (max-height: 599px)');

export class Appearance extends EventTarget {
  #kept = kept();
  #tabs = [...document.querySelectorAll('#tabs [role=tab]')];

  constructor() {
    super();
    this.#listenToSplitter(byId('split-source'));
    for (const tab of this.#tabs) tab.addEventListener('click', () => this.showTab(tab.dataset.tab));
    byId('tabs').addEventListener('keydown', (event) => this.#moveTab(event));
    byId('full-screen').addEventListener('click', () => this.#toggleFullScreen());
    byId('switch-theme').addEventListener('click', () => this.#keep({ theme: this.#isDark ? 'light' : 'dark' }));
    byId('bytes').addEventListener('click', () => this.#keep({ bytes: !this.#kept.bytes }));
    system.addEventListener('change', themeChanged);
    compact.addEventListener('change', () => this.#markTab());
    addEventListener('resize', () => this.#apply());
    this.#apply();
    document.body.dataset.tab = this.#kept.tab;
    this.#markTab();
  }

  get theme() {
    return this.#kept.theme;
  }

  get #isDark() {
    return this.#kept.theme === 'dark' || (this.#kept.theme === 'system' && system.matches);
  }

  choose({ theme }) {
    this.#keep({ theme });
  }

  /** The colours of the screen, which are the game's. */
  showScreen(name) {
    document.documentElement.dataset.screen = name;
    themeChanged();
  }

  /** The panel that is in sight; the source hides it where that is one of the tabs. */
  get tab() {
    return compact.matches && document.body.dataset.pane === 'source' ? 'source' : document.body.dataset.tab;
  }

  /** Shows a panel, or the source where that is behind a tab. */
  showTab(name) {
    document.body.dataset.pane = name === 'source' ? 'source' : 'panel';
    if (TABS.includes(name)) {
      document.body.dataset.tab = name;
      this.#keep({ tab: name });
    }
    this.#markTab();
  }

  #markTab() {
    const { tab } = this;
    for (const one of this.#tabs) {
      one.setAttribute('aria-selected', String(one.dataset.tab === tab));
      one.tabIndex = one.dataset.tab === tab ? 0 : -1;
    }
    this.#tabs.find((one) => one.dataset.tab === tab)?.scrollIntoView({ block: 'nearest', inline: 'nearest' });
    this.dispatchEvent(new Event('tab'));
  }

  #moveTab(event) {
    const by = { ArrowLeft: -1, ArrowRight: 1 }[event.key];
    if (by === undefined) return;
    event.preventDefault();
    const tabs = this.#tabs.filter((tab) => tab.checkVisibility());
    const next = tabs[(tabs.indexOf(document.activeElement) + by + tabs.length) % tabs.length];
    this.showTab(next.dataset.tab);
    next.focus();
  }

  #keep(change) {
    this.#kept = { ...this.#kept, ...change };
    try {
      localStorage.setItem(KEPT, JSON.stringify(this.#kept));
    } catch {
      // it then looks so until it is closed
    }
    this.#apply();
  }

  #apply() {
    const { theme, bytes } = this.#kept;
    const root = document.documentElement;
    byId('dark-theme').media = THEMES[theme];
    root.dataset.bytes = bytes ? 'shown' : 'hidden';
    byId('bytes').setAttribute('aria-pressed', String(bytes));
    const pixels = this.#kept[MACHINE];
    if (Number.isFinite(pixels)) root.style.setProperty(MACHINE, `${Math.max(LEAST_PIXELS, Math.min(MOST_OF_WIDTH * innerWidth, pixels))}px`);
    themeChanged();
  }

  /** The border between the columns. */
  #listenToSplitter(splitter) {
    const move = (change) => this.#keep({ [MACHINE]: byId('screen-part').getBoundingClientRect().width - change });
    splitter.addEventListener('pointerdown', (event) => splitter.setPointerCapture(event.pointerId));
    splitter.addEventListener('pointermove', (event) => {
      if (!splitter.hasPointerCapture(event.pointerId)) return;
      const box = splitter.getBoundingClientRect();
      move(event.clientX - box.left - box.width / 2);
    });
    splitter.addEventListener('keydown', (event) => {
      const change = { ArrowLeft: -STEP_PIXELS, ArrowRight: STEP_PIXELS }[event.key];
      if (change === undefined) return;
      event.preventDefault();
      move(change);
    });
  }

  #toggleFullScreen() {
    if (document.fullscreenElement === null) byId('screen-part').requestFullscreen().catch(() => {});
    else document.exitFullscreen();
  }
}

function kept() {
  let read = null;
  try {
    read = JSON.parse(localStorage.getItem(KEPT));
  } catch {
    // as at the start
  }
  const { theme, tab, bytes } = read ?? {};
  return {
    [MACHINE]: read?.[MACHINE],
    theme: theme in THEMES ? theme : 'system',
    tab: TABS.includes(tab) ? tab : 'words',
    bytes: bytes !== false,
  };
}
