// From the lines that the program has to other lines, by the fewest `ins`, `rep` and `del`.

/** More changes than this are not looked for: the program is then started anew on the new lines. */
const MOST_CHANGES = 1024;

const KEEP = 0;
const REPLACE = 1;
const REMOVE = 2;
const INSERT = 3;

/**
 * The fewest commands that make `before` into `after`, or null where they would be too many. Lines are removed and replaced
 * from the last to the first, so that each number is still that of `before`; then lines are inserted from the first to the last,
 * at their numbers in `after`. So there are never more lines than the longer of the two has.
 */
export function lineCommands(before, after) {
  let front = 0;
  while (front < before.length && front < after.length && before[front] === after[front]) front += 1;
  let back = 0;
  const rest = Math.min(before.length, after.length) - front;
  while (back < rest && before[before.length - 1 - back] === after[after.length - 1 - back]) back += 1;

  const steps = fewestSteps(before.slice(front, before.length - back), after.slice(front, after.length - back));
  if (steps === null) return null;

  const removed = [];
  const inserted = [];
  let old = front;
  let now = front;
  for (const step of steps) {
    if (step === INSERT) inserted.push(`ins ${now + 1} ${after[now]}`);
    if (step === REPLACE) removed.push(`rep ${old + 1} ${after[now]}`);
    if (step === REMOVE) removed.push(`del ${old + 1}`);
    if (step !== INSERT) old += 1;
    if (step !== REMOVE) now += 1;
  }
  return [...removed.reverse(), ...inserted];
}

/** The steps of a least edit distance, first to last. Only a band around the diagonal is looked at, as wide as it has to be. */
function fewestSteps(before, after) {
  const least = Math.abs(before.length - after.length);
  const most = Math.min(MOST_CHANGES, Math.max(before.length, after.length));
  for (let width = Math.max(least, 4); ; width *= 2) {
    const found = stepsInBand(before, after, Math.min(width, most));
    if (found !== null) return found;
    if (width >= most) return null;
  }
}

/** The steps, where at most `width` of them are no KEEP; else null. */
function stepsInBand(before, after, width) {
  const rows = before.length;
  const columns = after.length;
  if (Math.abs(rows - columns) > width) return null;
  const span = 2 * width + 1;
  const far = width + 1;
  const choice = new Uint8Array((rows + 1) * span);
  let above = new Int32Array(span + 1).fill(far);
  let costs = new Int32Array(span + 1).fill(far);
  // the place in a row's band is `column - row + width`; the cell above stands one place further on
  for (let row = 0; row <= rows; row += 1) {
    costs.fill(far);
    const first = Math.max(0, row - width);
    const last = Math.min(columns, row + width);
    for (let column = first; column <= last; column += 1) {
      const place = column - row + width;
      let cost = row === 0 && column === 0 ? 0 : far;
      let step = KEEP;
      if (row > 0 && column > 0) {
        const same = before[row - 1] === after[column - 1];
        const here = above[place] + (same ? 0 : 1);
        if (here < cost) [cost, step] = [here, same ? KEEP : REPLACE];
      }
      if (row > 0 && above[place + 1] + 1 < cost) [cost, step] = [above[place + 1] + 1, REMOVE];
      if (column > 0 && place > 0 && costs[place - 1] + 1 < cost) [cost, step] = [costs[place - 1] + 1, INSERT];
      costs[place] = cost;
      choice[row * span + place] = step;
    }
    [above, costs] = [costs, above];
  }
  return above[columns - rows + width] > width ? null : stepsBack(choice, rows, columns, width);
}

function stepsBack(choice, rows, columns, width) {
  const steps = [];
  let row = rows;
  let column = columns;
  while (row > 0 || column > 0) {
    const step = choice[row * (2 * width + 1) + column - row + width];
    steps.push(step);
    if (step !== INSERT) row -= 1;
    if (step !== REMOVE) column -= 1;
  }
  return steps.reverse();
}
