// Exports the game as a page in one file that plays it, with its settings and its arrow keys.

import { refusal } from './answers.mjs';
import { request } from './bridge.mjs';
import { byId } from './dom.mjs';
import { download } from './files.mjs';
import { gamePage } from './game_page.mjs';
import { notice, takeAway } from './notices.mjs';

export class GameExport {
  #model;
  #workbench;
  #documents;

  constructor({ model, workbench, documents }) {
    this.#model = model;
    this.#workbench = workbench;
    this.#documents = documents;
    byId('export-game').addEventListener('click', () => this.#export());
  }

  async #export() {
    const { wanted, options, look } = this.#model;
    takeAway('export');
    try {
      const [image] = await this.#workbench.answers(wanted, ['image']);
      if (refusal(image) !== null) {
        notice('export', 'There is no game to export, because a line has a fault.');
        return;
      }
      const { template, module } = await request('game');
      if (template === null) throw new Error('the files for its page are missing');
      const { tape } = options.seed === undefined ? { tape: options.tape ?? '00' } : await request('tape', { seed: options.seed });
      // another document is open by now
      if (wanted.document !== this.#model.document) return;
      const title = this.#documents.name.replace(/\.[^.]*$/, '');
      const source = wanted.lines.map((line) => `${line}\n`).join('');
      download(`${title}.html`, new TextEncoder().encode(gamePage(template, { title, source, options, tape, look, module })));
    } catch (fault) {
      notice('export', `The game wasn't exported: ${fault.message}.`, { bad: true });
    }
  }
}
