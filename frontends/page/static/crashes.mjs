// Whether some key script makes the machine stop, as `explore` finds it beside the author's work.

import { BackgroundSearch } from './background_search.mjs';

/** A cause and the step of a stop, after which the line may be told that it happens in. */
const STOP = /^(S\d) (\d+)(?:, line (\d+): .*)?$/;

/** A stop that could not be excluded: its cause, its address, and the line there. */
const LEFT = /^left (S\d) ([0-9a-f]{4})(?:, line (\d+): .*)?$/;

/** The line below `never` where it holds for more than the keys. */
const FOR_ALL = 'for any keys, random bytes and speed';

/**
 * What `explore` prints: the cause and the step of a stop, up to which step there is none, or that there never is one, and whether
 * that holds for any random bytes and speed too; the other causes that were met, and the stops that could not be excluded. Null for
 * anything else.
 */
export function readExplored(output) {
  const [first, ...rest] = output.split('\n');
  const found = STOP.exec(first);
  const within = /^within (\d+)$/.exec(first);
  if (found === null && within === null && first !== 'never') return null;
  const others = rest.flatMap((line) => {
    const other = STOP.exec(line);
    return other === null ? [] : [{ cause: other[1], step: Number(other[2]) }];
  });
  return {
    crash: found === null ? null : { cause: found[1], step: Number(found[2]), line: found[3] === undefined ? null : Number(found[3]) },
    within: within === null ? null : Number(within[1]),
    isForAll: rest[0] === FOR_ALL,
    left: rest.flatMap((line) => {
      const one = LEFT.exec(line);
      return one === null ? [] : [{ cause: one[1], address: one[2], line: one[3] === undefined ? null : Number(one[3]) }];
    }),
    others,
  };
}

/** What is found has `crash`, `within` and `others`, and `keys`, the script under which it stops. */
export class Crashes extends BackgroundSearch {
  /** An empty source is not searched: it stops at once. */
  constructor({ model, findings, hasRun, ask = undefined }) {
    super({ model, findings, command: 'explore', hindrance: async () => (model.text.trim() === '' ? 'empty' : (await hasRun()) ? null : 'faulty'), ask });
  }

  read({ result }, isWhole) {
    const found = isWhole ? readExplored(result.output) : null;
    return found === null ? null : { ...found, keys: result.keys };
  }
}
