// Which programs the extension starts, and what to say where one is missing. It knows nothing of VS Code.
'use strict';

const { spawn, spawnSync } = require('child_process');
const fs = require('fs');
const path = require('path');

const PYTHON = 'Python 3.10 or later';
const NOT_FOUND = 127;

/** Each program: its setting, its module in the package of the extension, and its name on the PATH. */
const PROGRAMS = {
  server: { setting: 'server', module: 'python/chipbench_lsp', name: 'chipbench-lsp', what: 'the language server' },
  adapter: { setting: 'debugAdapter', module: 'python/chipbench_dap', name: 'chipbench-dap', what: 'the debug adapter' },
  page: { setting: 'page', module: 'page/bridge.py', name: 'chipbench-page', what: 'the page' },
};

/** The command of a program: the one of the settings, else the one in the package, else the one on the PATH. */
function launcher(kind, settings, folder) {
  const { setting, module, name } = PROGRAMS[kind];
  const named = settings.get(setting);
  if (named) return { kind, command: named, args: [], isPackaged: false };
  const packaged = path.join(folder, 'chipbench', ...module.split('/'));
  if (fs.existsSync(packaged)) return { kind, command: settings.get('python') || 'python3', args: ['-B', packaged], isPackaged: true };
  return { kind, command: name, args: [], isPackaged: false };
}

/** Where a command is on the PATH; undefined where it isn't. */
function onPath(name, environment = process.env) {
  const endings = process.platform === 'win32' ? ['.exe', '.cmd', ''] : [''];
  const folders = (environment.PATH ?? '').split(path.delimiter).filter(Boolean);
  const places = folders.flatMap((folder) => endings.map((ending) => path.join(folder, name + ending)));
  return places.find((place) => fs.existsSync(place));
}

/** The program chipbench: the one of the settings or of $CHIPBENCH, else the one on the PATH; undefined without one. */
function chipbench(settings, environment = process.env) {
  return settings.get('program') || environment.CHIPBENCH || onPath('chipbench', environment);
}

const NO_PROGRAM =
  'chipbench: the program isn\'t there. Install it (docs/INSTALL.md), or name it in the setting chipbench.program. ' +
  'Without it sources have colours and names, and no faults.';

const needsPython = (command) =>
  `chipbench: ${command} isn't there or is older. Install ${PYTHON} (on Debian: sudo apt install python3), or name one in the setting chipbench.python.`;

/** Whether a command is no Python that is new enough. One that takes long on a busy machine is there. */
function isPythonMissing(command, timeout = 10_000) {
  const tried = spawnSync(command, ['-c', 'import sys; sys.exit(sys.version_info < (3, 10))'], { stdio: 'ignore', timeout });
  return tried.status !== 0 && tried.error?.code !== 'ETIMEDOUT';
}

/** What to install where a program can't be started; undefined where it is there, and ended for another reason. A program that a
 * signal has ended, which has no status, was there. */
function missing({ kind, command, isPackaged }, { code, status }) {
  if (code === undefined && status === null) return undefined;
  const { what, setting } = PROGRAMS[kind];
  const python = isPackaged ? command : 'python3';
  if (isPackaged && isPythonMissing(command)) return needsPython(python);
  if (code === 'ENOENT' || code === 'EACCES') {
    return `chipbench: ${what} ${command} isn't there. Install chipbench (docs/INSTALL.md), or name it in the setting chipbench.${setting}.`;
  }
  return status === NOT_FOUND && isPythonMissing(python) ? needsPython(python) : undefined;
}

/** A running page on a source. `onAddress(address)` is called once, `onEnd(end, errors)` where it ends before that. */
function startPage(launched, file, { onAddress, onEnd }) {
  const args = [...launched.args, '--no-open', '--port', '0', file];
  const page = spawn(launched.command, args, { stdio: ['ignore', 'pipe', 'pipe'] });
  let read = '';
  let errors = '';
  let isOpen = false;
  const end = (how) => {
    if (!isOpen) onEnd(how, errors.trim());
    isOpen = true;
  };
  page.stderr.on('data', (text) => {
    errors = (errors + text).slice(-2000);
  });
  page.stdout.on('data', (text) => {
    read += text;
    const found = /http:\/\/127\.0\.0\.1:\d+\/\S*/.exec(read);
    if (found === null || isOpen) return;
    isOpen = true;
    onAddress(found[0]);
  });
  page.on('error', (error) => end({ code: error.code }));
  page.on('exit', (status) => end({ status }));
  return page;
}

module.exports = { NO_PROGRAM, chipbench, isPythonMissing, launcher, missing, onPath, startPage };
