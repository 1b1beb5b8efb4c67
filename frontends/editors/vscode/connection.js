// One running language server: messages, answers, cancels. It knows nothing of VS Code.
'use strict';

const { spawn } = require('child_process');

const REQUEST_CANCELLED = -32800;
const CONTENT_MODIFIED = -32801;

/** The bytes that came and aren't a whole message yet. */
class Messages {
  #pieces = Buffer.alloc(0);

  /** Takes bytes, and returns the messages that they make whole. */
  take(bytes) {
    this.#pieces = Buffer.concat([this.#pieces, bytes]);
    const found = [];
    for (;;) {
      const end = this.#pieces.indexOf('\r\n\r\n');
      if (end < 0) return found;
      const length = /content-length: *([0-9]+)/i.exec(this.#pieces.subarray(0, end).toString('latin1'));
      const start = end + 4;
      const size = length ? Number(length[1]) : 0;
      if (this.#pieces.length < start + size) return found;
      found.push(JSON.parse(this.#pieces.subarray(start, start + size).toString('utf8')));
      this.#pieces = this.#pieces.subarray(start + size);
    }
  }
}

class ServerError extends Error {
  constructor(error) {
    super(error.message);
    this.code = error.code;
  }
}

class Connection {
  #process;
  #waiting = new Map();
  #last = 0;
  #isOver = false;

  /** Starts a server. `onNotification(method, params)` and `onEnd(reason, how)` are called as they come; `how` has the code or
   * the status with which it ended. */
  constructor(command, args, { onNotification, onEnd }) {
    const messages = new Messages();
    this.#process = spawn(command, args, { stdio: ['pipe', 'pipe', 'pipe'] });
    let errors = '';
    const end = (reason, how) => this.#end(reason, errors, (said) => onEnd(said, how));
    this.#process.stderr.on('data', (text) => {
      errors = (errors + text).slice(-2000);
    });
    this.#process.stdin.on('error', () => {});
    this.#process.stdout.on('data', (bytes) => {
      for (const message of messages.take(bytes)) this.#take(message, onNotification);
    });
    this.#process.on('error', (error) => end(error.message, { code: error.code }));
    this.#process.on('exit', (status, killedBy) => end(`it ended with ${killedBy ?? `status ${status}`}`, { status }));
  }

  get processId() {
    return this.#process.pid;
  }

  #end(reason, errors, onEnd) {
    if (this.#isOver) return;
    this.#isOver = true;
    for (const { reject } of this.#waiting.values()) reject(new Error(`the language server ended: ${reason}`));
    this.#waiting.clear();
    onEnd(errors ? `${reason}\n${errors}` : reason);
  }

  #take(message, onNotification) {
    if (message.method !== undefined) {
      if (message.id === undefined) onNotification(message.method, message.params);
      return;
    }
    const waiting = this.#waiting.get(message.id);
    if (waiting === undefined) return;
    this.#waiting.delete(message.id);
    if (message.error) waiting.reject(new ServerError(message.error));
    else waiting.resolve(message.result);
  }

  #send(message) {
    if (this.#isOver) return;
    const body = Buffer.from(JSON.stringify({ jsonrpc: '2.0', ...message }));
    this.#process.stdin.write(`Content-Length: ${body.length}\r\n\r\n`);
    this.#process.stdin.write(body);
  }

  tell(method, params) {
    this.#send({ method, params });
  }

  /** Asks, and answers with the result; with null where the editor has cancelled it by its token, or an edit has ended it. */
  ask(method, params, token) {
    if (this.#isOver) return Promise.reject(new Error('the language server has ended'));
    this.#last += 1;
    const id = this.#last;
    const cancel = token?.onCancellationRequested?.(() => this.tell('$/cancelRequest', { id }));
    return new Promise((resolve, reject) => {
      this.#waiting.set(id, { resolve, reject });
      this.#send({ id, method, params });
    })
      .catch((error) => {
        if (error.code === REQUEST_CANCELLED || error.code === CONTENT_MODIFIED) return null;
        throw error;
      })
      .finally(() => cancel?.dispose());
  }

  /** Ends the server as the protocol asks. */
  async close() {
    if (this.#isOver) return;
    const isDone = this.ask('shutdown', null).catch(() => {});
    await Promise.race([isDone, new Promise((resolve) => setTimeout(resolve, 1000).unref())]);
    this.tell('exit', null);
    this.#isOver = true;
    this.#process.stdin.end();
  }
}

module.exports = { Connection, Messages, ServerError };
