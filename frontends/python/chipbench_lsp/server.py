"""The server: takes messages in their order, keeps the documents, and answers.

One thread reads messages, so that a cancelled request is known before its turn. The main thread alone touches documents.
`check` and `run to here` take longer; they run in threads of their own, on copies, and report to the main one.
"""

from __future__ import annotations

import contextlib
import queue
import threading
import time
from collections.abc import Callable
from typing import Any, BinaryIO

import chipbench
from chipbench import Bench, ChipbenchError, Fault
from chipbench_messages import END, BadMessage, Incoming, dig

from . import calls, completion, diagnostics, fixes, hover, layout, names, properties, runs, signatures, tokens
from .document import Document, OverLimits
from .positions import Columns, choose_unit
from .progress import Progress, Work
from .wire import (
    INTERNAL_ERROR,
    INVALID_PARAMS,
    INVALID_REQUEST,
    METHOD_NOT_FOUND,
    NOT_INITIALIZED,
    PARSE_ERROR,
    REQUEST_CANCELLED,
    REQUEST_FAILED,
    Encoded,
    Failed,
    Writer,
)

# The seconds without a typed key before `check` is run.
PAUSE_SECONDS = 0.25
WARNING, INFO = 2, 3
OPTIONS = ("profile", "quirks", "rate", "tape", "seed", "every")
CHECK_OPTIONS = ("profile", "quirks", "tape", "seed")

Message = dict[str, Any]


class Checked:
    """The findings of `check` in a text of a document."""

    def __init__(self, uri: str, edition: int, lines: list[str], faults: list[Fault]) -> None:
        self.uri = uri
        self.edition = edition
        self.lines = lines
        self.faults = faults


def bench_options(settings: Any) -> dict[str, Any]:
    """The options of a bench from the client's settings. Other settings are ignored."""
    if not isinstance(settings, dict):
        return {}
    found: dict[str, Any] = {name: settings[name] for name in OPTIONS if isinstance(settings.get(name), (str, int))}
    if "tape" in found:
        try:
            found["tape"] = bytes.fromhex(str(found["tape"]))
        except ValueError:
            del found["tape"]
    if found.get("quirks") == "":
        del found["quirks"]
    return found


class Server:
    def __init__(self, reader: BinaryIO, writer: BinaryIO, program: str | None) -> None:
        self.writer = Writer(writer)
        self._incoming = Incoming(reader, self._hear)
        self._named = program
        self.program: str | None = None
        self.options: dict[str, Any] = {}
        self.columns = Columns()
        self.documents: dict[str, Document] = {}
        self.places: dict[str, diagnostics.Places] = {}
        self.answers: dict[str, properties.Answers] = {}
        self._refreshes = False
        self._has_progress = False
        self._shown: dict[str, diagnostics.Shown] = {}
        self._unshown: set[str] = set()
        self._unchecked: dict[str, float] = {}
        self._is_checking = False
        self._has_check = True
        self.has_snippets = False
        self.shows_runs = False
        self._state = "new"
        self._is_shut_down = False
        self._lock = threading.Lock()
        self._pending: set[Any] = set()
        self._cancelled: set[Any] = set()
        self._running: dict[Any, Work] = {}

    # -- the loop

    def serve(self) -> int:
        """Serves until the client ends it. The status is 0 if the client shut it down first."""
        self._incoming.start()
        try:
            while self._state != "ended":
                try:
                    self._turn()
                except BrokenPipeError:
                    raise
                except Exception as error:
                    self.say(WARNING, f"an unexpected error: {error!r}")
        except BrokenPipeError:
            return 1
        finally:
            for document in self.documents.values():
                document.close()
        return 0 if self._is_shut_down else 1

    def _hear(self, message: Message) -> None:
        """Notes a request, or cancels one, before its turn."""
        if message.get("method") == "$/cancelRequest":
            self._cancel(message.get("params"))
        elif is_request(message):
            with self._lock:
                self._pending.add(message["id"])

    def _cancel(self, params: Any) -> None:
        request = dig(params, "id")
        with self._lock:
            if not isinstance(request, (int, str)):
                return
            if request in self._running:
                self._running[request].cancel()
            elif request in self._pending:
                self._cancelled.add(request)

    def _turn(self) -> None:
        """Takes one message. If none waits, shows the changes and runs the checks that are due."""
        try:
            message = self._incoming.get_nowait()
        except queue.Empty:
            self._show_changed()
            try:
                message = self._incoming.get(timeout=self._wait())
            except queue.Empty:
                self._check_next()
                return
        self._take(message)

    def _wait(self) -> float | None:
        if not self._unchecked or self._is_checking:
            return None
        return max(0.0, min(self._unchecked.values()) - time.monotonic())

    def _take(self, message: Any) -> None:
        if message is END:
            self._state = "ended"
        elif isinstance(message, BadMessage):
            self.writer.fail(None, PARSE_ERROR, str(message))
        elif isinstance(message, Checked):
            self._take_checked(message)
        elif callable(message):
            message()
        elif not isinstance(message.get("method"), str):
            if "result" not in message and "error" not in message:
                self.writer.fail(message.get("id"), INVALID_REQUEST, "the message has no method")
        elif is_request(message):
            self._take_request(message)
        elif "id" in message:
            self.writer.fail(None, INVALID_REQUEST, "expected a number or a text as the id of the request")
        else:
            self._take_notification(message)

    # -- requests and notifications

    def _take_request(self, message: Message) -> None:
        request, method = message["id"], message["method"]
        # edits are shown before the editor's questions about them are answered
        self._show_changed()
        with self._lock:
            is_cancelled = request in self._cancelled
            self._pending.discard(request)
            self._cancelled.discard(request)
        try:
            if is_cancelled:
                raise Failed(REQUEST_CANCELLED, "cancelled")
            answer = self._answer(method, message.get("params"), request)
        except Failed as failed:
            self.writer.fail(request, failed.code, failed.text)
        except (KeyError, TypeError, ValueError, AttributeError) as error:
            self.writer.fail(request, INVALID_PARAMS, f"the parameters of {method} are wrong: {error!r}")
        except (ChipbenchError, OverLimits) as error:
            self.writer.fail(request, REQUEST_FAILED, str(error))
        except Exception as error:
            self.writer.fail(request, INTERNAL_ERROR, f"{method} failed: {error!r}")
        else:
            if answer is not LATER:
                self.writer.answer(request, answer)

    def _answer(self, method: str, params: Any, request: Any) -> Any:
        if method == "initialize":
            return self._initialize(params)
        if self._state == "new":
            raise Failed(NOT_INITIALIZED, "the server isn't initialized")
        if self._is_shut_down:
            raise Failed(INVALID_REQUEST, "the server is shut down")
        if method == "shutdown":
            self._is_shut_down = True
            return None
        if method == "workspace/executeCommand":
            return self._execute(params, request)
        if method == "workspace/symbol":
            return names.workspace_symbols(self.documents.values(), str(params["query"]))
        handler = REQUESTS.get(method)
        if handler is None:
            raise Failed(METHOD_NOT_FOUND, f"no such request: {method}")
        named = params["item"] if method.startswith("callHierarchy/") else params["textDocument"]
        document = self.documents.get(named["uri"])
        if document is None:
            raise Failed(INVALID_PARAMS, "the document isn't open")
        return handler(self, document, params)

    def _take_notification(self, message: Message) -> None:
        method = message["method"]
        if method == "exit":
            self._state = "ended"
            return
        handler = NOTIFICATIONS.get(method)
        if handler is None or self._state == "new":
            return
        try:
            handler(self, message.get("params"))
        except Exception as error:
            self.say(WARNING, f"{method} is ignored: {error!r}")

    def say(self, kind: int, text: str) -> None:
        self.writer.notify("window/showMessage", {"type": kind, "message": f"chipbench-lsp: {text}"})

    # -- start

    def _initialize(self, params: Any) -> dict[str, Any]:
        if self._state != "new":
            raise Failed(INVALID_REQUEST, "the server is initialized already")
        given = params if isinstance(params, dict) else {}
        capabilities = given.get("capabilities") or {}
        self.columns = Columns(choose_unit(capabilities))
        item = dig(capabilities, "textDocument", "completion", "completionItem")
        self.has_snippets = bool(dig(item, "snippetSupport"))
        self._refreshes = bool(dig(capabilities, "workspace", "codeLens", "refreshSupport"))
        self._has_progress = bool(dig(capabilities, "window", "workDoneProgress"))
        settings = given.get("initializationOptions")
        self.shows_runs = bool(dig(settings, "showsRuns"))
        self._set_program(settings)
        self._state = "running"
        return {"capabilities": self._capabilities(), "serverInfo": {"name": "chipbench-lsp"}}

    def _set_program(self, settings: Any) -> None:
        self.options = bench_options(settings)
        named = dig(settings, "program")
        try:
            self.program = self._named or (named if isinstance(named, str) and named else None) or chipbench.find_program()
        except ChipbenchError:
            self.program = None
        self._has_check = self.program is not None and bool(chipbench.sentences(self.program))

    def _capabilities(self) -> dict[str, Any]:
        return {
            "positionEncoding": self.columns.unit,
            "textDocumentSync": {"openClose": True, "change": 2, "save": True},
            "hoverProvider": True,
            "completionProvider": {"triggerCharacters": []},
            "signatureHelpProvider": {"triggerCharacters": [" ", ","]},
            "definitionProvider": True,
            "referencesProvider": True,
            "documentHighlightProvider": True,
            "renameProvider": {"prepareProvider": True},
            "documentSymbolProvider": True,
            "workspaceSymbolProvider": True,
            "callHierarchyProvider": True,
            "semanticTokensProvider": {"legend": tokens.LEGEND, "full": True, "range": True},
            "inlayHintProvider": True,
            "foldingRangeProvider": True,
            "documentFormattingProvider": True,
            "documentRangeFormattingProvider": True,
            "codeLensProvider": {},
            "codeActionProvider": {"codeActionKinds": ["quickfix", "source"]},
            "executeCommandProvider": {"commands": [runs.COMMAND, properties.COMMAND], "workDoneProgress": True},
        }

    def open_bench(self, source: bytes) -> Bench:
        if self.program is None:
            told = "no program chipbench was found: install it, or name it by --program or by the setting chipbench.program"
            raise ChipbenchError(told)
        try:
            return Bench(source, program=self.program, **self.options)
        except ValueError as error:
            # a setting that can't be an argument, such as one with a lone surrogate
            raise ChipbenchError(f"the program can't take these settings: {error}") from None

    # -- documents

    def initialized(self, params: Any) -> None:
        if self.program is None:
            self.say(WARNING, "no program chipbench was found, so no faults can be shown: install chipbench, or name the program")

    def did_open(self, params: Any) -> None:
        item = params["textDocument"]
        uri, text = item["uri"], item["text"]
        if not isinstance(uri, str) or not isinstance(text, str):
            raise TypeError("the document has no name or no text")
        if uri in self.documents:
            self.documents[uri].set_text(text)
        else:
            self.documents[uri] = Document(uri, item.get("version"), text, self.columns, self.open_bench)
            self.places[uri] = diagnostics.Places()
            self.answers[uri] = properties.Answers()
        self._changed(uri)

    def did_change(self, params: Any) -> None:
        uri = params["textDocument"]["uri"]
        document = self.documents[uri]
        document.change(params["contentChanges"])
        document.version = params["textDocument"].get("version")
        with self._lock:
            for work in self._running.values():
                work.edited(uri)
        self._changed(uri)

    def did_save(self, params: Any) -> None:
        if params["textDocument"]["uri"] in self.documents:
            self._changed(params["textDocument"]["uri"])

    def did_close(self, params: Any) -> None:
        uri = params["textDocument"]["uri"]
        document = self.documents.pop(uri, None)
        if document is None:
            return
        document.close()
        del self.places[uri]
        del self.answers[uri]
        self._unshown.discard(uri)
        self._unchecked.pop(uri, None)
        self._shown.pop(uri, None)
        self.writer.notify("textDocument/publishDiagnostics", {"uri": uri, "diagnostics": []})

    def did_change_settings(self, params: Any) -> None:
        settings = dig(params, "settings", "chipbench")
        if not isinstance(settings, dict):
            return
        self._set_program(settings)
        for uri, document in self.documents.items():
            document.session.close()
            document.edition += 1
            self._changed(uri)

    def _changed(self, uri: str) -> None:
        self._unshown.add(uri)
        self._unchecked[uri] = time.monotonic() + PAUSE_SECONDS

    # -- diagnostics

    def _show_changed(self) -> None:
        while self._unshown:
            uri = self._unshown.pop()
            if uri in self.documents:
                self._show(uri)

    def _show(self, uri: str) -> None:
        document = self.documents[uri]
        found = diagnostics.diagnostics(document, self.places[uri], self.program)
        # the same faults are published again for a new version
        self._shown[uri] = found
        params: dict[str, Any] = {"uri": uri, "diagnostics": found.found}
        if isinstance(document.version, int):
            params["version"] = document.version
        self.writer.notify("textDocument/publishDiagnostics", params)

    def _check_next(self) -> None:
        """Starts `check` on a document whose time has come."""
        now = time.monotonic()
        due = next((uri for uri, at in self._unchecked.items() if at <= now), None)
        if due is None or self._is_checking:
            return
        del self._unchecked[due]
        document = self.documents[due]
        shown = self._shown.get(due)
        program = self.program
        if not self._has_check or program is None or (shown and shown.code in ("O1", "O2", "program")):
            return
        uri, edition, lines, source = due, document.edition, document.lines, document.source
        options = {name: self.options.get(name) for name in CHECK_OPTIONS}

        def work() -> None:
            faults = []
            with contextlib.suppress(Exception):
                faults = chipbench.check(chipbench.join_lines(source), program, **options)
            self._incoming.put(Checked(uri, edition, lines, faults))

        self._is_checking = True
        threading.Thread(target=work, daemon=True).start()

    def _take_checked(self, checked: Checked) -> None:
        self._is_checking = False
        document = self.documents.get(checked.uri)
        if document is None:
            return
        self.places[checked.uri].learn(checked.lines, checked.faults)
        if document.edition == checked.edition and (checked.faults or self._has_shown(checked.uri)):
            self._show(checked.uri)

    def _has_shown(self, uri: str) -> bool:
        shown = self._shown.get(uri)
        return shown is not None and shown.code is not None

    # -- run to here, and prove

    def _execute(self, params: Any, request: Any) -> Any:
        if params["command"] not in (runs.COMMAND, properties.COMMAND):
            raise Failed(INVALID_PARAMS, f"no such command: {params['command']}")
        uri, number = params["arguments"][:2]
        document = self.documents.get(uri)
        if document is None or not isinstance(number, int):
            raise Failed(INVALID_PARAMS, "expected an open document and a line as the command's arguments")
        source = chipbench.join_lines(document.source)
        if params["command"] == runs.COMMAND:
            address, work = runs.address_of(document, number), Work()
            self._begin(request, work, lambda: self._run_to(source, work, address))
            return LATER
        line = document.line(number) if 0 <= number < document.line_count else ""
        if not properties.is_property(line):
            raise Failed(REQUEST_FAILED, "the line has no property: a property begins with `;!`")
        text, edition, work = properties.text_of(line), document.edition, Work(uri)
        progress = self._progress(work, params, request, f"prove {text}")
        self._begin(request, work, lambda: self._prove(source, work, progress, number, edition, text))
        return LATER

    def _begin(self, request: Any, work: Work, carry_out: Callable[[], Any]) -> None:
        """Carries out a request in a separate thread, and answers it."""
        with self._lock:
            self._running[request] = work

        def run() -> None:
            try:
                self.writer.answer(request, carry_out())
            except Failed as failed:
                self.writer.fail(request, failed.code, failed.text)
            except Exception as error:
                self.writer.fail(request, REQUEST_FAILED, str(error))
            finally:
                with self._lock:
                    self._running.pop(request, None)

        threading.Thread(target=run, daemon=True).start()

    def _progress(self, work: Work, params: Any, request: Any, title: str) -> Progress:
        """The progress of a request, under the client's token or under one that the server makes known to the client."""
        work.token = params.get("workDoneToken")
        if work.token is None and self._has_progress:
            work.token = f"request {request}"
            params = {"token": work.token}
            self.writer.write({"id": f"progress {request}", "method": "window/workDoneProgress/create", "params": params})
        return Progress(self.writer, work.token, title)

    def cancel_progress(self, params: Any) -> None:
        with self._lock:
            for work in self._running.values():
                if work.token is not None and work.token == params["token"]:
                    work.cancel()

    def _prove(self, source: bytes, work: Work, progress: Progress, number: int, edition: int, text: str) -> Any:
        if self.program is None:
            raise ChipbenchError("no program chipbench was found")
        with progress:
            result = properties.prove(self.program, source, self.options, number, work, progress.report)
        uri = work.uri or ""
        self._incoming.put(lambda: self._answered(uri, text, edition, result["text"]))
        if not self.shows_runs:
            self.say(INFO, f"{text}: {result['text']}")
        return result

    def _answered(self, uri: str, text: str, edition: int, answer: str) -> None:
        """Keeps an answer, and has the client ask for the lenses again."""
        if uri not in self.answers:
            return
        self.answers[uri].learn(text, edition, answer)
        if self._refreshes:
            self.writer.write({"id": f"lenses of edition {edition}", "method": "workspace/codeLens/refresh"})

    def _run_to(self, source: bytes, work: Work, address: int) -> Any:
        with self.open_bench(source) as bench:
            result = runs.run_to(bench, address, work)
        if not self.shows_runs:
            self.say(INFO, result["text"])
        return result


LATER = object()


def is_request(message: Message) -> bool:
    return isinstance(message.get("method"), str) and type(message.get("id")) in (int, str)


Handler = Callable[[Server, Document, Any], Any]


def placed(feature: Callable[..., Any]) -> Handler:
    """A feature at a position."""
    return lambda server, document, params: feature(document, *document.place(params["position"]))


def whole(feature: Callable[..., Any]) -> Handler:
    return lambda server, document, params: feature(document)


def lines_of(params: Any) -> tuple[int, int]:
    """The lines of a range. A range that ends at a line's start doesn't contain that line."""
    first, last = params["range"]["start"], params["range"]["end"]
    is_past = last["character"] == 0 and last["line"] > first["line"]
    return first["line"], last["line"] - is_past


REQUESTS: dict[str, Handler] = {
    "textDocument/hover": placed(hover.hover),
    "textDocument/definition": placed(names.definition),
    "textDocument/documentHighlight": placed(names.highlights),
    "textDocument/prepareRename": placed(names.prepare_rename),
    "textDocument/documentSymbol": whole(names.symbols),
    "textDocument/foldingRange": whole(layout.folds),
    "textDocument/codeLens": lambda server, document, params: Encoded(
        [*runs.lenses(document), *properties.lenses(document, server.answers[document.uri])]
    ),
    "textDocument/codeAction": lambda server, document, params: [
        *fixes.fixes(document, server.places[document.uri], params["range"]["start"]["line"]),
        *runs.actions(document, params["range"]["start"]["line"]),
    ],
    "textDocument/inlayHint": lambda server, document, params: layout.hints(document, *lines_of(params)),
    "textDocument/signatureHelp": placed(signatures.signature_help),
    "textDocument/prepareCallHierarchy": placed(calls.prepare),
    "callHierarchy/incomingCalls": lambda server, document, params: calls.incoming(document, str(params["item"]["name"])),
    "callHierarchy/outgoingCalls": lambda server, document, params: calls.outgoing(document, str(params["item"]["name"])),
    "textDocument/semanticTokens/full": lambda server, document, params: tokens.tokens(document, 0, document.line_count),
    "textDocument/semanticTokens/range": lambda server, document, params: tokens.tokens(document, *lines_of(params)),
    "textDocument/formatting": lambda server, document, params: layout.format_lines(
        document, 0, document.line_count, server.open_bench
    ),
    "textDocument/rangeFormatting": lambda server, document, params: layout.format_lines(
        document, *lines_of(params), server.open_bench
    ),
    "textDocument/references": lambda server, document, params: names.references(
        document, *document.place(params["position"]), bool(dig(params, "context", "includeDeclaration"))
    ),
    "textDocument/rename": lambda server, document, params: names.rename(
        document, *document.place(params["position"]), str(params["newName"]), server.open_bench
    ),
    "textDocument/completion": lambda server, document, params: completion.complete(
        document, *document.place(params["position"]), server.has_snippets
    ),
}
NOTIFICATIONS: dict[str, Callable[[Server, Any], None]] = {
    "textDocument/didOpen": Server.did_open,
    "textDocument/didChange": Server.did_change,
    "textDocument/didSave": Server.did_save,
    "textDocument/didClose": Server.did_close,
    "workspace/didChangeConfiguration": Server.did_change_settings,
    "window/workDoneProgress/cancel": Server.cancel_progress,
    "initialized": Server.initialized,
}
