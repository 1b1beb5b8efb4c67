// Small helpers for elements.

/** @type {(id: string) => any} an element of the page, which has what its kind has */
export const byId = (id) => document.getElementById(id);

/** An element with properties, and children that are elements or texts. */
export function element(name, properties = {}, ...children) {
  const made = Object.assign(document.createElement(name), properties);
  made.append(...children);
  return made;
}

/** Sets a text where it isn't there yet, so that nothing is drawn anew for it; the node of a text stays. */
export function setText(place, text) {
  const node = place.firstChild;
  if (node instanceof Text && node === place.lastChild) {
    if (node.data !== text) node.data = text;
  } else if (place.textContent !== text) {
    place.textContent = text;
  }
}

/** Sets a property of an element, such as `hidden`, where it isn't so yet. */
export function setProperty(place, name, value) {
  if (place[name] !== value) place[name] = value;
}

/** Sets what the pointer on an element tells, where it isn't so yet. */
export const setTitle = (place, title) => setProperty(place, 'title', title);

/** Sets an attribute where it isn't so yet. */
export function setAttribute(place, name, value) {
  if (place.getAttribute(name) !== value) place.setAttribute(name, value);
}

/** Puts other children in the place of those that an element has; those that stay are left alone, so that only what changes is drawn anew. */
export function setChildren(place, children, wanted) {
  const isNear = children.length === wanted.length;
  const others = [];
  if (isNear) children.forEach((child, at) => { if (child !== wanted[at]) others.push(at); });
  if (isNear && others.every((at) => wanted[at].parentElement !== place)) for (const at of others) children[at].replaceWith(wanted[at]);
  else place.replaceChildren(...wanted);
}

let turns = null;
const acts = [];

/** Calls `act` once what the browser does now is done, and before a timer would. */
export function soon(act) {
  if (turns === null) {
    turns = new MessageChannel();
    turns.port1.onmessage = () => acts.shift()();
  }
  acts.push(act);
  turns.port2.postMessage(null);
}

/** Calls `draw` once before the next picture, however often it is asked for. */
export function oncePerFrame(draw) {
  let waiting = false;
  return () => {
    if (waiting) return;
    waiting = true;
    requestAnimationFrame(() => {
      waiting = false;
      draw();
    });
  };
}

const colours = new Map();

/** The value of a colour of style.css. */
export function colour(name) {
  if (!colours.has(name)) colours.set(name, getComputedStyle(document.documentElement).getPropertyValue(name).trim());
  return colours.get(name);
}

/** Calls `draw` when the colours change. */
export function onTheme(draw) {
  document.addEventListener('theme', draw);
}

/** The colours have changed. */
export function themeChanged() {
  colours.clear();
  document.dispatchEvent(new Event('theme'));
}

const grouping = new Intl.NumberFormat('en-US');

export const grouped = (number) => grouping.format(number);

/** Whether what is typed goes into a text, a number or a choice. */
export const takesText = (target) =>
  target instanceof HTMLTextAreaElement || target instanceof HTMLSelectElement || (target instanceof HTMLInputElement && target.type !== 'radio');
