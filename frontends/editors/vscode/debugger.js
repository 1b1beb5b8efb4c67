// The debug adapter in VS Code: which program it is, and a launch of the file that is shown.
'use strict';

const vscode = require('vscode');
const programs = require('./programs.js');

const TYPE = 'chipbench';
const LANGUAGE = 'chip8';
// the settings of a run, which a launch may have too
const SETTINGS = ['profile', 'quirks', 'rate', 'every'];

/** A launch with what it doesn't say itself: the file that is shown, and the settings of a run. */
function resolved(launch, settings, document, folder) {
  const made = { ...launch, type: TYPE, request: 'launch', name: launch.name ?? 'Debug this file' };
  if (made.source === undefined && made.image === undefined) {
    if (document?.languageId !== LANGUAGE) return undefined;
    made.source = document.uri.fsPath;
  }
  for (const name of SETTINGS) made[name] ??= settings.get(name);
  // the program takes a tape or a seed, and not both
  if (made.seed === undefined && made.tape === undefined) {
    if (settings.get('seed')) made.seed = settings.get('seed');
    else made.tape = settings.get('tape');
  }
  made.chipbench ??= programs.chipbench(settings);
  made.cwd ??= folder;
  for (const name of Object.keys(made)) if (made[name] === undefined || made[name] === '') delete made[name];
  return made;
}

/** Registers the adapter, and returns what is to be disposed of. */
function register(folder) {
  const settings = () => vscode.workspace.getConfiguration('chipbench');
  return [
    vscode.debug.registerDebugConfigurationProvider(TYPE, {
      resolveDebugConfiguration: (workspace, launch) => {
        const document = vscode.window.activeTextEditor?.document;
        const made = resolved(launch, settings(), document, workspace?.uri.fsPath);
        if (made === undefined) vscode.window.showErrorMessage('chipbench: open a source (*.ch8asm) to debug it, or name it as "source" in launch.json.');
        return made;
      },
    }),
    vscode.debug.registerDebugAdapterDescriptorFactory(TYPE, {
      createDebugAdapterDescriptor: () => {
        const launched = programs.launcher('adapter', settings(), folder);
        const isThere = launched.command.includes('/') || programs.onPath(launched.command) !== undefined;
        const said = programs.missing(launched, isThere ? {} : { code: 'ENOENT' });
        if (said !== undefined) throw new Error(said);
        return new vscode.DebugAdapterExecutable(launched.command, launched.args);
      },
    }),
  ];
}

module.exports = { register, resolved };
