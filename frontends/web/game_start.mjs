// The script of the page of one game.
import { Player } from './game.mjs';

const bytes = Uint8Array.from(atob(document.getElementById('session-module').textContent), (byte) => byte.charCodeAt(0));
const about = JSON.parse(document.getElementById('game').textContent);
WebAssembly.compile(bytes).then((module) => {
  globalThis.chipbenchPlayer = new Player(module, about);
});
