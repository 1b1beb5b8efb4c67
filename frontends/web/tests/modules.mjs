// Where the modules are: those of release/, or those that frontends/web/build made here, which stand before them. `parts` is for tests
// alone.
import fs from 'node:fs';
import { fileURLToPath } from 'node:url';

const BUILT = new URL('../out/', import.meta.url);
const RELEASED = new URL('../../../release/', import.meta.url);

function found(name) {
  const files = [BUILT, RELEASED].map((folder) => fileURLToPath(new URL(`${name}.wasm`, folder)));
  return files.find((file) => fs.existsSync(file));
}

export const modules = () => ({
  session: found('session'),
  program: found('chipbench'),
  parts: found('parts'),
});
