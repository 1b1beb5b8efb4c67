// The source of an image, by the program's own `dis`.

import { request } from './bridge.mjs';

/** The source text of an image, both as byte strings. What can't be an image is thrown, with the program's reason. */
export async function sourceOf(image) {
  const { status, output, errors } = await request('word', { word: 'dis', content: image });
  if (status === 0) return output;
  const reason = /^reason: (.*)$/m.exec(errors)?.[1] ?? errors.trim();
  throw new Error(reason || `the program ended with status ${status}`);
}
