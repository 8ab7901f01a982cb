#!/usr/bin/env python3
"""Times lowering alone: trees that are read already are lowered many times.

    bench/lowering.py [--program PATH] [--shape NAME] [--nodes NODES] [--keep FILE]

Prints nanoseconds and bytes a node for lowering and storing, without reading and listing; and then what it takes to ask again all that is
asked for it, as who keeps a result does: questions and nanoseconds a node, bytes of what a recorder kept, and which part of the time of
lowering it is. The program is made from the text below, in a copy of the repository, without any proof, as `bench/marked.py --bare` makes
one; --keep keeps it for --program. It lowers a tree so often as it is told, and lets each store go or keeps it, or keeps what was asked, or
asks it again so often. Of two runs with more and fewer times the processor's time by the times between is what one takes, with letting go,
and the peak memory by what is kept between is what one store takes with its source map, or one log.

An object answers, so that lowering is built once. Of an expansion its file is compared, since a recorder keeps no more of it; tables find
it by the call's node.
"""

import argparse
import os
import shutil
import subprocess
import sys
import tempfile

from bench import MODES, make

TOP = os.path.dirname(os.path.dirname(os.path.abspath(__file__)))
CRATE = "lowering_again"
STANDS_ON = "lower_json hir_lower hir_recorder hir_tables hir_alias hir_env hir_store hir_syntax hir_base"
SHAPES = ["wide", "calls", "expansions", "splices", "closures", "fors", "arms", "nested", "preludes"]
NODES = 20_000
HEADS = ("shape", "nodes", "ns", "bytes", "questions", "ask ns", "log bytes", "part")
# So many times fewer and more; and so many stores that are kept, of which the fewer fill what reading let go of.
FEW, MANY = 1, 41
LEAST, MOST = 16, 48
PROGRAM = """\
//! Lowers the tree of a document as often as it is told.
#![tactic(auto)]

use hir_base::node::{AstPtr, HirFileId, InFile, NodeId, TextRange};
use hir_env::env::LowerEnv;
use hir_env::expand::Expansion;
use hir_lower::{Body, BodySourceMap, LowerError, lower_body, lower_type_ref};
use hir_recorder::{Asked, Recorder};
use hir_store::ids::ModuleId;
use hir_store::source_map::ExpressionStoreSourceMap;
use hir_store::store::ExpressionStore;
use hir_syntax::ast::MacroCall;
use hir_tables::table::TableEnv;
use lower_json::document::{Document, Root, Tree};
use lower_json::read::read_tree;
use std::alloc::Global;
use std::env;
use std::io::Read;
use std::mem::forget;
use std::process::ExitCode;

#[derive(Drop)]
enum Lowered {
    Body(Body, BodySourceMap),
    Type_(ExpressionStore, ExpressionStoreSourceMap),
}

fn lowered(alloc: Global, document: &Document, env: &dyn LowerEnv) -> Result<Lowered, LowerError> {
    match &document.tree {
        Tree::Fn(item) => {
            let node = AstPtr { node: item.id, range: item.range };
            let inside = match &item.body {
                Some(body) => Some(body.get()),
                None => None,
            };
            let (body, source_map) = lower_body(
                alloc, &env, document.owner, node, HirFileId(0), ModuleId(0), item.params.as_ref(), inside,
                item.async_, item.gen_,
            )?;
            Ok(Lowered::Body(body, source_map))
        }
        Tree::Type_(ty) => {
            let written = InFile { file_id: HirFileId(0), value: ty.as_ref() };
            let (store, source_map, _) = lower_type_ref(alloc, &env, ModuleId(0), written)?;
            Ok(Lowered::Type_(store, source_map))
        }
        _ => Err(LowerError::Memory),
    }
}

fn all(alloc: Global, document: &Document, times: usize, keep: bool) -> Result<usize, LowerError> {
    let mut kept = Vec::new(alloc);
    for _ in 0..times {
        let one = lowered(alloc, document, &document.env)?;
        if keep {
            match kept.push(one) {
                Ok(_) => {}
                Err(_) => return Err(LowerError::Memory),
            }
        }
    }
    Ok(kept.len())
}

/// The log of so many times, one behind the other.
fn logs(alloc: Global, document: &Document, times: usize) -> Result<Vec<Vec<Asked>>, LowerError> {
    let mut kept = Vec::new(alloc);
    for _ in 0..times {
        let recorder = Recorder::new(alloc, &document.env);
        let one = lowered(alloc, document, &recorder);
        let log = recorder.into_asked();
        let _ = one?;
        let Some(log) = log else { return Err(LowerError::Memory) };
        match kept.push(log) {
            Ok(_) => {}
            Err(_) => return Err(LowerError::Memory),
        }
    }
    Ok(kept)
}

/// Whether it is answered alike; never where a call had no file, since that doesn't say what was answered.
fn is_alike(env: &TableEnv, call: &MacroCall, asked: &Asked) -> bool {
    match asked {
        Asked::Expand(node, inside, kind, file) => match env.expand(*node, call, *inside, *kind) {
            Expansion::Expanded(found, _, _) => *file == Some(found),
            _ => false,
        },
        _ => asked.is_answered_alike(env),
    }
}

/// How many questions there are, each of which was answered alike so many times.
fn ask(alloc: Global, document: &Document, times: usize) -> Result<usize, LowerError> {
    let all = logs(alloc, document, 1)?;
    let [log] = all.as_slice() else { return Err(LowerError::Memory) };
    let range = TextRange { start: 0, end: 0 };
    let call = MacroCall { id: NodeId(0), range, path: None };
    let mut alike = 0;
    for _ in 0..times {
        for asked in log.as_slice() {
            if is_alike(&document.env, &call, asked) {
                alike += 1;
            }
        }
    }
    forget(call);
    if alike == times * log.len() { Ok(log.len()) } else { Err(LowerError::Failed) }
}

fn main(rt: HostRuntime) -> ExitCode {
    let alloc = rt.alloc();
    let Ok(words) = env::args(&rt) else { return ExitCode::from(4) };
    let Ok(words) = words.skip(1).collect::<Vec<String>>(alloc) else { return ExitCode::from(5) };
    let [mode, times, keep] = words.as_slice() else { return ExitCode::from(6) };
    let root = if mode.as_str() == "type" { Root::Type_ } else { Root::Fn };
    let Ok(times) = times.as_str().parse::<usize>() else { return ExitCode::from(8) };
    let mut text = Vec::new(alloc);
    let Ok(_) = rt.stdin().lock().read_to_end(&mut text) else { return ExitCode::from(9) };
    let Ok(document) = read_tree(alloc, root, text.as_slice()) else { return ExitCode::from(10) };
    let told = match keep.as_str() {
        "ask" => ask(alloc, &document, times),
        "log" => match logs(alloc, &document, times) {
            Ok(kept) => Ok(kept.len()),
            Err(error) => Err(error),
        },
        word => all(alloc, &document, times, word == "keep"),
    };
    let Ok(told) = told else { return ExitCode::from(3) };
    match println!(rt; "{}", told) {
        Ok(_) => ExitCode::from(0),
        Err(_) => ExitCode::from(2),
    }
}
"""


def built(out):
    """Makes the program in a copy of the repository."""
    with tempfile.TemporaryDirectory() as room:
        copy = os.path.join(room, "copy")
        shutil.copytree(TOP, copy, ignore=shutil.ignore_patterns("out", ".git", "mutants", "golden"), symlinks=True)
        source = os.path.join(copy, "crates", CRATE, "src")
        os.makedirs(source)
        with open(os.path.join(source, "main.rt"), "w", encoding="utf-8") as text:
            text.write(PROGRAM)
        with open(os.path.join(copy, "crates.txt"), "a", encoding="utf-8") as crates:
            crates.write(f"{CRATE}: {STANDS_ON}\n")
        subprocess.run([sys.executable, os.path.join(copy, "bench", "marked.py"), "--bare", CRATE, out], check=True)


def run(program, mode, path, times, task):
    """The processor's seconds and the peak memory in bytes of one run, and what it told."""
    with open(path, "rb") as document:
        child = subprocess.Popen([program, mode, str(times), task], stdin=document, stdout=subprocess.PIPE)
        told = child.stdout.read()
        child.stdout.close()
        _, status, used = os.wait4(child.pid, 0)
    if os.waitstatus_to_exitcode(status) != 0:
        sys.exit("lowering: status %d" % os.waitstatus_to_exitcode(status))
    return used.ru_utime + used.ru_stime, used.ru_maxrss * 1024, int(told)


def line(program, name, nodes):
    with tempfile.TemporaryDirectory() as folder:
        path = os.path.join(folder, "document.json")
        count = make(name, nodes, path)
        mode = MODES[name]

        def seconds(task, few, many):
            least, most = (min(run(program, mode, path, times, task)[0] for _ in range(3)) for times in (few, many))
            return (most - least) / (many - few)

        def memory(task):
            least, most = (run(program, mode, path, times, task)[1] for times in (LEAST, MOST))
            return (most - least) / (MOST - LEAST)

        lowering, asking = seconds("drop", FEW, MANY), seconds("ask", 10 * FEW, 10 * MANY)
        stores, logs = memory("keep"), memory("log")
        questions = run(program, mode, path, FEW, "ask")[2]
    shown = (name, count, 1e9 * lowering / count, stores / count, questions / count, 1e9 * asking / count, logs / count)
    print("%-10s %9d %9.0f %9.0f %9.2f %9.1f %9.0f %9.3f" % (*shown, asking / lowering), flush=True)


def main():
    options = argparse.ArgumentParser(description=__doc__.split("\n")[0])
    options.add_argument("--program", help="a program that was kept")
    options.add_argument("--keep", help="where to keep the program")
    options.add_argument("--shape", choices=SHAPES)
    options.add_argument("--nodes", type=int, default=NODES)
    given = options.parse_args()
    with tempfile.TemporaryDirectory() as folder:
        program = given.program or os.path.abspath(given.keep or os.path.join(folder, CRATE))
        if not given.program:
            built(program)
        print("%-10s %9s %9s %9s %9s %9s %9s %9s" % HEADS)
        for name in [given.shape] if given.shape else SHAPES:
            line(program, name, given.nodes)


if __name__ == "__main__":
    main()
