// Menus by the keyboard: arrows go through the buttons, Escape closes.

/** Carries out a key in a menu, a `details` element with a `summary` and buttons. */
export function pressInMenu(menu, event) {
  const summary = menu.querySelector('summary');
  const buttons = [...menu.querySelectorAll('button')].filter((button) => !menu.open || button.checkVisibility());
  const place = buttons.indexOf(document.activeElement);
  const to = { ArrowDown: place + 1, ArrowUp: place < 0 ? buttons.length - 1 : place - 1, Home: 0, End: buttons.length - 1 }[event.key];
  if (event.key === 'Escape' && menu.open) {
    menu.open = false;
    summary.focus();
  } else if (to !== undefined && (menu.open || event.key.startsWith('Arrow'))) {
    menu.open = true;
    buttons[(to + buttons.length) % buttons.length].focus();
  } else return;
  event.preventDefault();
  event.stopPropagation();
}
