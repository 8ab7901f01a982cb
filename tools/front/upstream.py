"""A real rust-analyzer as a server, asked over its protocol for what it lowered.

Each text is the root of a crate of its own (edition 2024, no condition holds, no standard library). It depends on one small crate, which
has nothing but the items that the language itself names, so that `for`, `?`, `try` and `async` are lowered whole.
"""
import json
import os
import pathlib
import queue
import shutil
import subprocess
import tempfile
import threading

from .tree import HOW_TO_GET, ParserError, parser_name

LANG = """#![feature(lang_items, no_core)] #![no_core]
#[lang = "sized"] pub trait Sized {}
#[lang = "range"] pub mod range {
#[lang = "RangeFull"] pub struct RangeFull; #[lang = "Range"] pub struct Range<I> { pub start: I, pub end: I }
#[lang = "RangeFrom"] pub struct RangeFrom<I> { pub start: I } #[lang = "RangeTo"] pub struct RangeTo<I> { pub end: I }
#[lang = "RangeInclusive"] pub struct RangeInclusive<I> { pub start: I, pub end: I }
#[lang = "RangeToInclusive"] pub struct RangeToInclusive<I> { pub end: I }
impl<I> RangeInclusive<I> { #[lang = "range_inclusive_new"] pub const fn new(start: I, end: I) -> Self { loop {} } } }
pub mod option { #[lang = "Option"] pub enum Option<T> { #[lang = "None"] None, #[lang = "Some"] Some(T) } }
pub mod iter {
#[lang = "iterator"] pub trait Iterator { type Item; #[lang = "next"] fn next(&mut self) -> crate::option::Option<Self::Item>; }
pub trait IntoIterator { type Item; type IntoIter; #[lang = "into_iter"] fn into_iter(self) -> Self::IntoIter; } }
pub mod ops {
pub enum ControlFlow<B, C = ()> { #[lang = "Continue"] Continue(C), #[lang = "Break"] Break(B) }
#[lang = "Try"] pub trait Try: FromResidual<Self::Residual> { type Output; type Residual;
#[lang = "from_output"] fn from_output(output: Self::Output) -> Self;
#[lang = "branch"] fn branch(self) -> ControlFlow<Self::Residual, Self::Output>; }
#[lang = "FromResidual"] pub trait FromResidual<R> { #[lang = "from_residual"] fn from_residual(residual: R) -> Self; }
#[lang = "into_try_type"] pub const fn residual_into_try_type<R, O>(residual: R) -> O { loop {} } }
#[lang = "RangeMin"] pub const RANGE_MIN: u8 = 0; #[lang = "RangeMax"] pub const RANGE_MAX: u8 = 0;
#[lang = "RangeSub"] pub const fn range_sub(x: u8) -> u8 { x }
"""
EDITION = "2024"
PATIENCE = 300
AT_ONCE = 64
NOWHERE = "/nonexistent"
OPTIONS = {
    "checkOnSave": False, "procMacro": {"enable": False}, "cachePriming": {"enable": False}, "numThreads": 2,
    "cargo": {"buildScripts": {"enable": False}, "cfgs": [], "sysroot": None, "allTargets": False}, "cfg": {"setTest": False},
    "files": {"watcher": "server"},
}
CAPABILITIES = {
    "general": {"positionEncodings": ["utf-8"]}, "experimental": {"serverStatusNotification": True}, "window": {"workDoneProgress": False},
}


class Server:
    """A server over a folder that it makes and takes away again. Texts are bytes."""

    def __init__(self, texts):
        self.folder, self.texts, self.asked = pathlib.Path(tempfile.mkdtemp(prefix="rust-analyzer-")), texts, 0
        self.answers, self.ready, self.process = queue.Queue(), threading.Event(), None
        self.paths = [self.write(f"crate{number}", text) for number, text in enumerate(texts)]

    def write(self, name, text):
        """The root of a crate."""
        path = self.folder / name / "lib.rs"
        path.parent.mkdir()
        path.write_bytes(text)
        return path

    def project(self):
        """The crates, of which the first is the language's."""
        def crate(path, name, dependencies):
            return {"root_module": str(path), "edition": EDITION, "deps": dependencies, "cfg": [], "is_workspace_member": True,
                    "display_name": name}

        lang = crate(self.write("lang", LANG.encode()), "langcore", [])
        others = [crate(path, f"c{number}", [{"crate": 0, "name": "langcore"}]) for number, path in enumerate(self.paths)]
        return {"crates": [lang, *others]}

    def __enter__(self):
        """Starts it, with nothing on its path, and waits until it has loaded."""
        away = {"PATH": NOWHERE, "RUSTC": "/bin/false", "CARGO": "/bin/false", "RUSTFMT": NOWHERE, "HOME": NOWHERE}
        try:
            self.process = subprocess.Popen([shutil.which(parser_name()) or parser_name()], stdin=subprocess.PIPE, stdout=subprocess.PIPE,
                                            stderr=subprocess.DEVNULL, env={**os.environ, **away})
        except OSError as error:
            self.__exit__()
            raise ParserError(f"`{parser_name()}` can't be run ({error.strerror}); {HOW_TO_GET}") from error
        threading.Thread(target=self.read, daemon=True).start()
        options = {**OPTIONS, "linkedProjects": [self.project()]}
        self.ask("initialize", [{"processId": os.getpid(), "rootUri": self.folder.as_uri(), "workspaceFolders": None,
                                 "initializationOptions": options, "capabilities": CAPABILITIES}])
        self.send({"method": "initialized", "params": {}})
        if not self.ready.wait(PATIENCE):
            self.__exit__()
            raise ParserError(f"`{parser_name()}` isn't ready after {PATIENCE} seconds")
        return self

    def __exit__(self, *_):
        """Ends it."""
        if self.process is not None:
            try:
                self.ask("shutdown", [None])
                self.send({"method": "exit"})
                self.process.wait(20)
            except (ParserError, OSError, subprocess.TimeoutExpired):
                self.process.kill()
                self.process.wait()
        shutil.rmtree(self.folder, ignore_errors=True)

    def send(self, message):
        """Sends a message."""
        content = json.dumps({"jsonrpc": "2.0", **message}).encode()
        self.process.stdin.write(b"Content-Length: %d\r\n\r\n" % len(content) + content)
        self.process.stdin.flush()

    def read(self):
        """Takes what comes: answers, its status, and questions, which are answered with nothing."""
        while (content := self.content()) is not None:
            message = json.loads(content)
            if message.get("method") == "experimental/serverStatus":
                if message["params"].get("quiescent"):
                    self.ready.set()
            elif "method" in message and "id" in message:
                self.send({"id": message["id"], "result": [{}] if message["method"] == "workspace/configuration" else None})
            elif "id" in message:
                self.answers.put(message)
        self.answers.put(None)

    def content(self):
        """The content of one message, or None at the end."""
        length = 0
        while (line := self.process.stdout.readline()) != b"\r\n":
            if not line:
                return None
            if line.lower().startswith(b"content-length"):
                length = int(line.split(b":")[1])
        return self.process.stdout.read(length)

    def ask(self, method, many):
        """The answers to questions of one kind, in order; None for an error."""
        places, answers, sent = {}, {}, 0
        while len(answers) < len(many):
            while sent < len(many) and sent - len(answers) < AT_ONCE:
                self.asked += 1
                places[self.asked] = sent
                self.send({"id": self.asked, "method": method, "params": many[sent]})
                sent += 1
            self.take(places, answers)
        return [answers[at] for at in range(len(many))]

    def take(self, places, answers):
        """Takes one answer."""
        try:
            message = self.answers.get(timeout=PATIENCE)
        except queue.Empty:
            message = None
        if message is None:
            raise ParserError(f"`{parser_name()}` ended, or didn't answer for {PATIENCE} seconds")
        if message["id"] in places:
            answers[places[message["id"]]] = message.get("result")

    def position(self, text, byte):
        """A place in a text, as the protocol has it."""
        before = self.texts[text][:byte]
        place = {"line": before.count(b"\n"), "character": byte - (before.rfind(b"\n") + 1)}
        return {"textDocument": {"uri": self.paths[text].as_uri()}, "position": place}

    def view_hir(self, places):
        """What was lowered of the bodies at these places (text and byte), or of the signatures of the functions named there."""
        return self.ask("rust-analyzer/viewHir", [self.position(*place) for place in places])
