// A worker of the page: it answers requests on the session or on the program, one after another, and tells how far a long one is.
import { ProgramRequests, SessionRequests } from './requests.mjs';

const KINDS = { session: SessionRequests, program: ProgramRequests };
let requests = null;

globalThis.onmessage = ({ data }) => {
  if (data.module) {
    requests = new KINDS[data.kind](data.module);
    return;
  }
  const tell = (progress) => globalThis.postMessage({ number: data.number, progress });
  // a worker that begins, or has another request before, makes nobody's time shorter
  tell({ isBegun: true });
  try {
    globalThis.postMessage({ number: data.number, reply: requests[data.name](data.body, tell) });
  } catch (error) {
    globalThis.postMessage({ number: data.number, refused: { status: error.status ?? 500, text: error.message } });
  }
};
