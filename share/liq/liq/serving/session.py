"""What the language server answers: documents as the editor holds them, and what is told of each."""
import os
from typing import Any, Callable, Dict, List, Optional

from liq.advising.script import Script
from liq.reading.companion import NoAnswer
from liq.serving import hinting, renaming
from liq.serving.completing import Completing
from liq.serving.documents import NO_WORDS, Document, Refused, changed, path_of
from liq.serving.looking import Look, Span, Told
from liq.serving.naming import binding_at, token_round
from liq.serving.outline import Rows, items, word_round
from liq.serving.saved import Saved, folder_of, holds
from liq.serving.several import faults, uncounted

SEVERITY = {"error": 1, "warning": 2, "information": 3, "hint": 4}
KINDS = {"source": 13, "value": 14, "def": 12, "output": 24}    # of the protocol: variable, constant, function, event
OFFERED = {"value": 6, "parameter": 6, "def": 3, "call": 3, "label": 5, "keyword": 14, "file": 17}
NO_SESSION, NO_METHOD, NO_REQUEST, NOT_DONE = -32002, -32601, -32600, -32803
CAPABILITIES = {"textDocumentSync": {"openClose": True, "change": 2, "save": True}, "hoverProvider": True,
                "documentSymbolProvider": True, "codeActionProvider": {"codeActionKinds": ["quickfix"]},
                "completionProvider": {"triggerCharacters": ['"', "/", "("]}, "definitionProvider": True,
                "signatureHelpProvider": {"triggerCharacters": ["(", ","]}, "referencesProvider": True,
                "documentHighlightProvider": True, "renameProvider": {"prepareProvider": True}}


class Session:
    """A session with one editor; `tell` sends it a message that it did not ask for."""

    def __init__(self, look: Look, saved: Saved, tell: Callable[[str, Any], None], version: str):
        self.look, self.saved, self.tell, self.version = look, saved, tell, version
        self.documents: Dict[str, Document] = {}
        self.roots: List[str] = []
        self.rows = Rows()
        self.is_open, self.is_shut = False, False
        front = "textDocument/"
        self.requests = {"initialize": self.initialize, "shutdown": self.shutdown, front + "hover": self.hover,
                         front + "documentSymbol": self.symbols, front + "codeAction": self.actions,
                         front + "completion": self.completion, front + "signatureHelp": self.signature,
                         front + "definition": self.definition, front + "references": self.references,
                         front + "documentHighlight": self.highlights, front + "prepareRename": self.may_rename,
                         front + "rename": self.rename}
        self.notes = {front + "didOpen": self.opened, front + "didChange": self.changed, front + "didClose": self.closed,
                      front + "didSave": self.was_saved}

    def request(self, method: str, words: Any) -> Any:
        """The answer to a request."""
        if method not in self.requests:
            raise Refused(NO_METHOD, f"{method} is not answered")
        if self.is_shut:
            raise Refused(NO_REQUEST, "the session is shut down")
        if not self.is_open and method != "initialize":
            raise Refused(NO_SESSION, "the session is not initialized")
        try:
            return self.requests[method](words)
        except (KeyError, TypeError, AttributeError, IndexError):
            raise Refused(NO_WORDS, f"the words of {method} are others") from None
        except (NoAnswer, OSError) as error:
            raise Refused(NOT_DONE, str(error)) from None

    def note(self, method: str, words: Any) -> None:
        """Takes a notification; one that does not fit changes nothing."""
        if self.is_open and not self.is_shut and method in self.notes:
            try:
                self.notes[method](words)
            except (KeyError, TypeError, AttributeError, IndexError, Refused):
                return

    def initialize(self, words: Any) -> Any:
        """Begins the session. Scripts are checked in the folder of the workspace that holds them."""
        if self.is_open:
            raise Refused(NO_REQUEST, "the session is initialized already")
        self.is_open = True
        words = words if isinstance(words, dict) else {}
        folders = words.get("workspaceFolders") or [{"uri": words.get("rootUri") or ""}]
        found = (path_of(one["uri"]) for one in folders if isinstance(one, dict) and isinstance(one.get("uri"), str))
        self.roots = [os.path.realpath(root) for root in found if root]
        return {"capabilities": CAPABILITIES, "serverInfo": {"name": "liq-lsp", "version": self.version}}

    def shutdown(self, _words: Any) -> None:
        self.is_shut = True

    # Documents.

    def opened(self, words: Any) -> None:
        document = words["textDocument"]
        if isinstance(document["text"], str) and isinstance(document["uri"], str):
            self.documents[document["uri"]] = Document(document["text"], document.get("version"))
            self.look_at_files(document["uri"])

    def changed(self, words: Any) -> None:
        uri = words["textDocument"]["uri"]
        if uri in self.documents and words["contentChanges"]:
            text = changed(self.documents[uri].text, words["contentChanges"])
            if text is not None:
                self.documents[uri] = Document(text, words["textDocument"].get("version"), self.documents[uri].is_live)

    def closed(self, words: Any) -> None:
        if self.documents.pop(words["textDocument"]["uri"], None):
            self.publish(words["textDocument"]["uri"], None, [])

    def was_saved(self, words: Any) -> None:
        uri = words["textDocument"]["uri"]
        if uri in self.documents:
            self.documents[uri].is_new = True
            self.look_at_files(uri)

    def look_at_files(self, uri: str) -> None:
        """Looks at the files of a text, if it is that of its file, so that its lists and sounds are those that are meant."""
        document, path = self.documents[uri], path_of(uri)
        document.saved, document.is_live = [], False
        if path is None or not holds(path, document.text):
            return
        path = os.path.realpath(path)
        try:
            document.saved, document.is_live = self.saved.at(path, folder_of(path, self.roots), document.text)
        except (NoAnswer, OSError, UnicodeError) as error:
            self.log(uri, error)

    def look_at_new(self) -> None:
        """Looks at each text that was changed, and tells the editor."""
        for uri, document in list(self.documents.items()):
            if document.is_new:
                self.look_at(uri, document)

    def look_at(self, uri: str, document: Document) -> None:
        """Looks at a text: its faults that are certain, or else what is told of its files and of its week."""
        document.is_new = False
        if document.is_live:
            document.told = document.saved
            self.publish(uri, document.version, [self.diagnostic(document, told) for told in document.told])
            return
        try:
            document.told = list(faults(document.text, self.look)) or self.look.at(document.text)
        except (NoAnswer, OSError, UnicodeError) as error:
            document.told = []
            self.log(uri, error)
        if not any(told.sort == "error" for told in document.told):
            document.told = [*document.saved, *document.told]
        self.publish(uri, document.version, [self.diagnostic(document, told) for told in document.told])

    def log(self, uri: str, error: Exception) -> None:
        self.tell("window/logMessage", {"type": 2, "message": f"{uri}: {error}"})

    def publish(self, uri: str, version: Any, found: List[Any]) -> None:
        words = {"uri": uri, "diagnostics": found}
        self.tell("textDocument/publishDiagnostics", {**words, "version": version} if version is not None else words)

    @staticmethod
    def diagnostic(document: Document, told: Told) -> Any:
        """What is told of a text, in the form of the protocol. Numbers of statements and tokens are left out: it has a place."""
        what = uncounted(told.text) if told.sort == "error" else told.text
        text = f"{what}\nhelp: {told.help}" if told.help else what
        return {"range": document.places.range(told.span), "severity": SEVERITY[told.sort], "code": told.code,
                "source": "liq", "message": text}

    # Answers.

    def document(self, words: Any) -> Document:
        document = self.documents.get(words["textDocument"]["uri"])
        if document is None:
            raise Refused(NO_WORDS, "this text is not open")
        return document

    def script(self, document: Document) -> Script:
        """A text with its tokens, as far as they go."""
        data = document.text.encode("utf-8", "surrogateescape")
        return Script(data, self.look.companion.tokens_of(data))

    def hover(self, words: Any) -> Any:
        """What is told of the name at a place that the script binds, or else the row of the word."""
        document = self.document(words)
        at = document.places.at(words["position"])
        word, span = word_round(document.text, at)
        text = hinting.own_name(self.script(document), at) or self.rows.of(word) if word else None
        return {"contents": {"kind": "markdown", "value": text}, "range": document.places.range(span)} if text else None

    def symbols(self, words: Any) -> Any:
        """The outline of a text."""
        document = self.document(words)
        try:
            script = self.script(document)
        except NoAnswer:
            return []
        return [{"name": item.name, "detail": item.detail, "kind": KINDS[item.sort],
                 "range": document.places.range(item.whole), "selectionRange": document.places.range(item.word)}
                for item in items(script)]

    def actions(self, words: Any) -> Any:
        """The edits that the help of the faults in a range names. A text that was changed is looked at first."""
        document, uri = self.document(words), words["textDocument"]["uri"]
        if document.is_new:
            self.look_at(uri, document)
        asked, found = document.places.span(words["range"]), []
        for told in document.told:
            if told.edit and told.span.first <= asked.behind and asked.first <= told.span.behind:
                edit = self.edit(document, Span(told.edit.first, told.edit.behind), told.edit.text)
                found.append({"title": told.help, "kind": "quickfix", "isPreferred": True,
                              "diagnostics": [self.diagnostic(document, told)], "edit": {"changes": {uri: [edit]}}})
        return found

    @staticmethod
    def edit(document: Document, span: Span, text: str) -> Any:
        return {"range": document.places.range(span), "newText": text}

    def completion(self, words: Any) -> Any:
        """What may stand at a place."""
        document, path = self.document(words), path_of(words["textDocument"]["uri"])
        folder = folder_of(os.path.realpath(path), self.roots) if path else None
        at = document.places.at(words["position"])
        found = Completing(self.script(document), at, self.rows.calls, folder).items()
        return {"isIncomplete": False,
                "items": [{"label": one.name, "kind": OFFERED[one.sort], "detail": one.detail, "sortText": f"{number:05}",
                           "filterText": one.text, "textEdit": self.edit(document, one.span, one.text)}
                          for number, one in enumerate(found)]}

    def signature(self, words: Any) -> Any:
        """The call round a place."""
        document = self.document(words)
        found = hinting.signature(self.script(document), document.places.at(words["position"]), self.rows.calls)
        return hinting.as_protocol(found) if found else None

    def places(self, words: Any, with_binding: bool = True) -> List[Any]:
        """The ranges of the name at a place: where it is bound first, and then where it is meant."""
        document = self.document(words)
        script = self.script(document)
        binding = binding_at(script, document.places.at(words["position"]))
        found = (binding.places if with_binding else binding.uses) if binding else []
        tokens = [script.tokens[number] for number in found]
        return [document.places.range(Span(token.at, token.at + len(token.name))) for token in tokens]

    def definition(self, words: Any) -> Any:
        return [{"uri": words["textDocument"]["uri"], "range": one} for one in self.places(words)[:1]]

    def references(self, words: Any) -> Any:
        is_asked = words.get("context", {}).get("includeDeclaration", True)
        return [{"uri": words["textDocument"]["uri"], "range": one} for one in self.places(words, is_asked)]

    def highlights(self, words: Any) -> Any:
        return [{"range": one} for one in self.places(words)]

    def may_rename(self, words: Any) -> Optional[Any]:
        """The range of the name at a place, if the script binds it."""
        document = self.document(words)
        script, at = self.script(document), document.places.at(words["position"])
        if binding_at(script, at) is None:
            return None
        token = script.tokens[token_round(script, at) or 0]
        return document.places.range(Span(token.at, token.at + len(token.name)))

    def rename(self, words: Any) -> Any:
        """The edits that give what is bound another name."""
        document = self.document(words)
        script, at = self.script(document), document.places.at(words["position"])
        try:
            found = renaming.renamed(script, at, words["newName"], self.rows.calls, self.look.companion)
        except renaming.NoName as why:
            raise Refused(NOT_DONE, str(why)) from None
        if found is None:
            return None
        return {"changes": {words["textDocument"]["uri"]: [self.edit(document, Span(one.first, one.behind), one.text)
                                                            for one in found]}}
