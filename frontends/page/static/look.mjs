// How a game wants to be played and seen: the colours of its screen, and which of its keys the arrow keys are. It belongs to the
// file, and makes no difference to a run.

export const SCREENS = ['theme', 'white', 'green', 'amber', 'lcd', 'paper'];
export const ARROWS = ['ArrowUp', 'ArrowLeft', 'ArrowDown', 'ArrowRight'];
const LETTERS = ['KeyW', 'KeyA', 'KeyS', 'KeyD'];

/** `arrows` are the game's keys for up, left, down and right, as four hexadecimal digits, or empty; `letters` gives W A S D the same. */
export const USUAL_LOOK = Object.freeze({ screen: 'theme', arrows: '', letters: false });

/** A look of what was kept or read; what can't be read of it is as usual. */
export function lookOf(kept) {
  return {
    screen: SCREENS.includes(kept?.screen) ? kept.screen : USUAL_LOOK.screen,
    arrows: /^[0-9a-f]{4}$/.test(kept?.arrows) ? kept.arrows : USUAL_LOOK.arrows,
    letters: kept?.letters === true,
  };
}

/** The game's key that an arrow, or W A S D, stands for, by its place on the keyboard; null for other keys. */
export function mappedKey({ arrows, letters }, code) {
  if (arrows === '') return null;
  const place = ARROWS.includes(code) ? ARROWS.indexOf(code) : letters ? LETTERS.indexOf(code) : -1;
  return place < 0 ? null : parseInt(arrows[place], 16);
}
