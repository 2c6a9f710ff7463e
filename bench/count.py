#!/usr/bin/env python3
"""Counts the instructions that crell executes, and compares them with budgets.tsv. It isn't part of the gate: it takes valgrind, and minutes.

usage: bench/count.py [--program PATH] [--only WORD] [--write FILE]

A row of budgets.tsv has, between tabs: its name, an input, a command, a unit (byte or line), a budget (instructions a unit), the peak of
memory in MB, whether the count has to grow linearly (yes or no), and which part counts: all of it, `judging` (what the calls take that ask
whether the modules are well-formed), `reading` (what getting them from their texts takes, but for that)
or `printing` (what putting a module into a text takes). Where a unit is neither byte nor line it is what N counts. A budget or
a peak that isn't set yet is inf. In a command {} stands for the input's file, HINTS for the hints that belong to it, NONE for hints that
say nothing, STEP for one step before the first line, with which facts are kept along the block, BASE for a module of one line. An input is
made by rule: chain:N is a function of N lines of i32, mixed:N one of all operators over integers of several widths, flow:N one of N blocks
that branch, join and loop, clang:N a module of N functions as clang writes them, memory:N one of N lines of slots and addresses, stores:N one of N stores to 64 slots, steps:N a hint file of N steps, blocks:N one of N blocks. Four have HINTS, under which they are valid against
themselves: edges:N, a function of N blocks with a phi each, at whose starts 60 facts are known; ghosts:N, one of N blocks with two ghost
and two same steps each; switch:N, one of a block of 50 lines and a step, which leads to N blocks; differ:N, one of N blocks in
a row, at whose starts the same 400 registers may differ.

Counts are callgrind's totals less those of the same command on an empty input, so they don't depend on the machine's load; two runs
differ by less than 0.2 %. Peak memory is that of a run of its own. Where growth has to be linear the input is made at half its size too,
and the count may at most double (by 5 % more). With --only, each crate's share is shown, by the crates of the symbols, the allocator apart.
"""
import argparse
import os
import re
import subprocess
import sys
import tempfile

HERE = os.path.dirname(os.path.abspath(__file__))
BUILT = os.path.join(HERE, "..", "crates", "crell", "out", "crell")
NO_HINTS = '{"format":1,"functions":{}}'


def picker(state):
    """Numbers below a given one, which look random and are the same everywhere."""
    def pick(among):
        nonlocal state
        state = (state * 6364136223846793005 + 1442695040888963407) % 2**64
        return (state >> 33) % among

    return pick


def chain(count):
    """A function of so many lines, each over some of the last registers; a fixed generator makes it the same text everywhere."""
    pick = picker(7)
    names = ["%x", "%y"]
    lines = ["define i32 @f(i32 %x, i32 %y) {", "entry:"]
    for k in range(count):
        left = names[-1 - pick(min(50, len(names)))]
        right = names[-1 - pick(min(50, len(names)))] if pick(2) else str(pick(1000))
        operator, flags = ("add", "sub")[pick(2)], ("", " nsw", " nuw nsw")[pick(3)]
        lines.append(f"  %v{k} = {operator}{flags} i32 {left}, {right}")
        names.append(f"%v{k}")
    return "\n".join(lines + [f"  ret i32 {names[-1]}", "}", ""])


def mixed(count):
    """A function of so many lines of all operators over i8, i32 and i64, each over some of the last registers of its type."""
    pick = picker(11)
    known = {"i1": ["%c"], "i8": ["%a"], "i32": ["%x", "%y"], "i64": ["%z"]}
    binary = ["add nsw", "sub", "mul nuw", "shl", "udiv exact", "sdiv", "lshr", "ashr exact", "urem", "srem", "and", "or", "xor"]
    predicates = ["eq", "ne", "ugt", "uge", "ult", "ule", "sgt", "sge", "slt", "sle"]
    last = lambda ty: known[ty][-1 - pick(min(50, len(known[ty])))]
    lines = ["define i32 @f(i1 %c, i8 %a, i32 %x, i32 %y, i64 %z) {", "entry:"]
    for k in range(count):
        ty, form = ("i8", "i32", "i64")[pick(3)], pick(8)
        made = ty
        if form < 5:
            right = last(ty) if pick(2) else str(pick(100))
            line = f"{binary[pick(len(binary))]} {ty} {last(ty)}, {right}"
        elif form == 5:
            made, line = "i1", f"icmp {predicates[pick(10)]} {ty} {last(ty)}, {last(ty)}"
        elif form == 6:
            line = f"select i1 {last('i1')}, {ty} {last(ty)}, {ty} {pick(100)}"
        else:
            made, line = ("i64", f"{('zext', 'sext')[pick(2)]} i32 {last('i32')} to i64") if pick(2) else ("i8", f"trunc i32 {last('i32')} to i8")
        lines.append(f"  %v{k} = {line}")
        known[made].append(f"%v{k}")
    return "\n".join(lines + [f"  ret i32 {known['i32'][-1]}", "}", ""])


def flow(count):
    """A function of so many blocks, by four: a loop's head, two arms, and a join from which the loop goes round or on."""
    groups = max(1, count // 4)
    lines = ["define i32 @f(i32 %p0) {", "j0:", "  br label %h1"]
    for k in range(1, groups + 1):
        lines += [f"h{k}:", f"  %q{k} = phi i32 [ %p{k - 1}, %j{k - 1} ], [ %p{k}, %j{k} ]", f"  %c{k} = icmp ult i32 %q{k}, {k}", f"  br i1 %c{k}, label %t{k}, label %e{k}",
                  f"t{k}:", f"  %a{k} = add i32 %q{k}, {k}", f"  br label %j{k}",
                  f"e{k}:", f"  %b{k} = mul i32 %q{k}, 3", f"  br label %j{k}",
                  f"j{k}:", f"  %p{k} = phi i32 [ %a{k}, %t{k} ], [ %b{k}, %e{k} ]", f"  %d{k} = icmp eq i32 %p{k}, {k}", f"  br i1 %d{k}, label %h{k}, label %h{k + 1}"]
    return "\n".join(lines + [f"h{groups + 1}:", f"  ret i32 %p{groups}", "}", ""])


def clang(count):
    """A module of so many functions over memory, structs and calls, with attributes, debugging and metadata, as clang 3.7 writes it."""
    lines = ["; ModuleID = 'input.c'", 'target datalayout = "e-m:e-i64:64-f80:128-n8:16:32:64-S128"', 'target triple = "x86_64-unknown-linux-gnu"', "",
             "%struct.node = type { i32, i8*, %struct.node* }", "", '@.str = private unnamed_addr constant [7 x i8] c"%d %s\\0A\\00", align 1',
             "@head = common global %struct.node* null, align 8", ""]
    for k in range(count):
        lines += ["; Function Attrs: nounwind uwtable", f"define i32 @walk{k}(%struct.node* %start, i32 %limit) #0 {{", "entry:",
                  "  %start.addr = alloca %struct.node*, align 8", "  %sum = alloca i32, align 4", "  store %struct.node* %start, %struct.node** %start.addr, align 8, !tbaa !1",
                  f"  store i32 {k}, i32* %sum, align 4, !tbaa !5", "  br label %while.cond", "",
                  "while.cond:                                       ; preds = %while.body, %entry", "  %0 = load %struct.node*, %struct.node** %start.addr, align 8, !tbaa !1",
                  "  %tobool = icmp ne %struct.node* %0, null", "  br i1 %tobool, label %while.body, label %while.end", "",
                  "while.body:                                       ; preds = %while.cond",
                  "  %value = getelementptr inbounds %struct.node, %struct.node* %0, i32 0, i32 0", "  %1 = load i32, i32* %value, align 8, !tbaa !7",
                  "  %name = getelementptr inbounds %struct.node, %struct.node* %0, i32 0, i32 1", "  %2 = load i8*, i8** %name, align 8, !tbaa !9",
                  "  %call = call i32 (i8*, ...) @printf(i8* getelementptr inbounds ([7 x i8], [7 x i8]* @.str, i32 0, i32 0), i32 %1, i8* %2) #2",
                  "  call void @llvm.dbg.value(metadata i32 %1, i64 0, metadata !12, metadata !13), !dbg !14", "  %3 = load i32, i32* %sum, align 4, !tbaa !5",
                  "  %add = add nsw i32 %3, %1", "  store i32 %add, i32* %sum, align 4, !tbaa !5",
                  "  %next = getelementptr inbounds %struct.node, %struct.node* %0, i32 0, i32 2", "  %4 = load %struct.node*, %struct.node** %next, align 8, !tbaa !10",
                  "  store %struct.node* %4, %struct.node** %start.addr, align 8, !tbaa !1", "  br label %while.cond, !dbg !15", "",
                  "while.end:                                        ; preds = %while.cond", "  %5 = load i32, i32* %sum, align 4, !tbaa !5", "  ret i32 %5, !dbg !16", "}", ""]
    lines += ["declare i32 @printf(i8* nocapture readonly, ...) #1", "", "; Function Attrs: nounwind readnone", "declare void @llvm.dbg.value(metadata, i64, metadata, metadata) #3", "",
              'attributes #0 = { nounwind uwtable "disable-tail-calls"="false" "less-precise-fpmad"="false" }', 'attributes #1 = { nounwind "target-cpu"="x86-64" }',
              "attributes #2 = { nounwind }", "attributes #3 = { nounwind readnone }", "", "!llvm.ident = !{!0}", '!0 = !{!"clang version 3.7.0"}', "!1 = !{!2, !2, i64 0}",
              '!2 = !{!"any pointer", !3, i64 0}', '!3 = !{!"omnipotent char", !4, i64 0}', '!4 = !{!"Simple C/C++ TBAA"}', ""]
    return "\n".join(lines)


def memory(count):
    """A function of so many lines, by four: a slot, a store to it, a load from it, and an address."""
    lines = ["define i32 @f(i32 %x, [8 x i32]* %a) {", "entry:"]
    for k in range(count // 4):
        lines += [f"  %p{k} = alloca i32", f"  store i32 %x, i32* %p{k}", f"  %v{k} = load i32, i32* %p{k}",
                  f"  %e{k} = getelementptr inbounds [8 x i32], [8 x i32]* %a, i64 0, i64 {k % 8}"]
    return "\n".join(lines + [f"  ret i32 %v{count // 4 - 1}" if count >= 4 else "  ret i32 0", "}", ""])


def stores(count):
    """A function of so many stores, in turn to 64 slots that it makes first."""
    lines = ["define i32 @f(i32 %x) {", "entry:"] + [f"  %p{k} = alloca i32" for k in range(64)]
    lines += [f"  store i32 {k}, i32* %p{k % 64}" for k in range(count)]
    return "\n".join(lines + ["  ret i32 %x", "}", ""])


def edges(count):
    """A function of so many blocks in a row, each with a phi, behind a first one whose lines give the facts."""
    lines = ["define i32 @f(i32 %x) {", "b0:"] + [f"  %v{j} = add i32 %x, {j}" for j in range(15)] + ["  %p0 = add i32 %x, 15"]
    for k in range(1, count + 1):
        lines += [f"  br label %b{k}", f"b{k}:", f"  %p{k} = phi i32 [ %p{k - 1}, %b{k - 1} ]"]
    return "\n".join(lines + [f"  ret i32 %p{count}", "}", ""])


def edge_hints(count):
    """Each block but the first states 30 facts of the source and 30 of the target."""
    facts = ",".join(f'["ge","i32 %v{j}","add i32 %x, {j}"],["ge","add i32 %x, {j}","i32 %v{j}"]' for j in range(15))
    return hints([f'{{"at":"%b{k}","src":[{facts}],"tgt":[{facts}]}}' for k in range(1, count + 1)])


def ghosts(count):
    """A function of so many blocks in a row, each of two lines, the second over the first."""
    lines = ["define i32 @f(i32 %x) {", "b0:"]
    for k in range(1, count + 1):
        lines += [f"  br label %b{k}", f"b{k}:", f"  %v{k} = add i32 %x, {k}", f"  %w{k} = sub i32 %v{k}, 1"]
    return "\n".join(lines + ["  ret i32 %x", "}", ""])


def ghost_hints(count):
    """In each block the first line stands apart on the two sides, and its register is related by a step."""
    steps = ('{{"at":2,"same":"%v{0}","by":"add i32 %x, {0}"}},{{"at":2,"ghost":"%g","is":"i32 %v{0}"}},'
             '{{"at":3,"ghost":"%h","is":"add i32 ghost %g, 1"}},{{"at":3,"same":"%w{0}","by":"sub i32 %v{0}, 1"}}')
    return hints([f'{{"at":"%b{k}","lines":"stb","steps":[{steps.format(k)}]}}' for k in range(1, count + 1)])


def differ(count):
    """A function of so many blocks in a row, each of one line."""
    lines = ["define i32 @f(i32 %x) {", "b0:"]
    for k in range(1, count + 1):
        lines += [f"  br label %b{k}", f"b{k}:", f"  %v{k} = add i32 %x, {k}"]
    return "\n".join(lines + ["  ret i32 %x", "}", ""])


def differ_hints(count):
    """In each block but the first the same 400 registers may differ."""
    registers = ",".join(f'"%r{j}"' for j in range(400))
    return hints([f'{{"at":"%b{k}","diff":[{registers}]}}' for k in range(1, count + 1)])


def switch(count):
    """A function whose first block has 50 lines and leads to so many blocks that return."""
    lines = ["define i32 @f(i32 %x) {", "b0:"] + [f"  %v{j} = add i32 %x, {j}" for j in range(50)] + ["  switch i32 %x, label %b1 ["]
    lines += [f"    i32 {k}, label %b{k}" for k in range(2, count + 1)] + ["  ]"]
    for k in range(1, count + 1):
        lines += [f"b{k}:", "  ret i32 %v7"]
    return "\n".join(lines + ["}", ""])


def switch_hints(count):
    """The first block has a step, so it isn't valid at once, and all facts of its lines are known at its end."""
    return hints(['{"at":"%b0","steps":[{"at":0,"rule":"undef_const","side":"src","from":[],"to":["ge","i32 undef","i32 7"]}]}'])


def hints(blocks):
    return '{"format":1,"functions":{"@f":{"blocks":[%s]}}}' % ",".join(blocks)


def steps(count):
    step = '{"at":0,"rule":"zero_right","side":"src","from":[],"to":["ge","add i32 %%x%d, 0","i32 %%x%d"]}'
    return hints(['{"at":"%%entry","steps":[%s]}' % ",".join(step % (k, k) for k in range(count))])


def blocks(count):
    return hints([f'{{"at":"%{k}"}}' for k in range(count)])


ONE_STEP = hints(['{"at":"%entry","steps":[{"at":0,"rule":"undef_const","side":"src","from":[],"to":["ge","i32 undef","i32 7"]}]}'])
RETURN = "define i32 @f() {\n  ret i32 0\n}\n"
MAKERS = {"chain": chain, "mixed": mixed, "flow": flow, "clang": clang, "memory": memory, "stores": stores, "edges": edges, "ghosts": ghosts, "differ": differ, "switch": switch, "steps": steps, "blocks": blocks}
HINTS = {"edges": edge_hints, "ghosts": ghost_hints, "differ": differ_hints, "switch": switch_hints}
EMPTY = {"steps": steps(0), "blocks": blocks(0)}


# The crates that ask whether a module is well-formed.
JUDGES = {"whole_functions", "ir_shape", "whole_shapes", "definedness", "flow_solver"}
# The crates that read modules, any of whose functions may have been inlined into their callers.
READERS = {"ir_reader", "ir_lexer", "module_tokens", "token_context", "derivation_writer", "derivation_cursor", "module_trees", "module_surroundings", "module_walk", "fault_walk", "named_modules"}


def crate_of(symbol):
    return re.split(r"::|\W", symbol)[0]


def in_calls(path, callers, callees):
    """The instructions in calls of these crates by those, where functions tell which crates they are, by callgrind's file."""
    names, total, function, callee, is_call = {}, 0, "", "", False
    with open(path, encoding="utf-8") as lines:
        for line in lines:
            found = re.match(r"(c?fn)=(\(\d+\))(?: (.*))?", line)
            if found:
                name = names.setdefault(found.group(2), found.group(3) or "")
                function, callee = (name, callee) if found.group(1) == "fn" else (function, name)
            elif line.startswith("calls="):
                is_call = True
            elif is_call:
                is_call = False
                if callers(crate_of(function)) and callees(crate_of(callee)):
                    total += int(line.split()[-1])
    return total


def judging(path):
    return in_calls(path, lambda caller: caller == "ir_reader", lambda callee: callee in JUDGES)


def reading(path):
    return in_calls(path, lambda caller: caller in {"crell", "crell_program"}, lambda callee: callee in READERS) - judging(path)


def printing(path):
    return in_calls(path, lambda caller: caller == "crell_program", lambda callee: callee == "ir_printer")


PARTS = {"judging": judging, "reading": reading, "printing": printing}


class Bench:
    def __init__(self, program, folder):
        self.program = program
        self.folder = folder

    def put(self, name, text):
        path = os.path.join(self.folder, name)
        with open(path, "w", encoding="latin-1") as file:
            file.write(text)
        return path

    def words(self, command, kind, count):
        """The words of a command on an input of that kind and size; of size 0 it is a function that returns, or a hint file that says nothing."""
        text = MAKERS[kind](count) if count else EMPTY.get(kind, RETURN)
        belonging = HINTS[kind](count) if kind in HINTS else NO_HINTS
        files = {"{}": self.put("input", text), "HINTS": self.put("hints.json", belonging), "NONE": self.put("none.json", NO_HINTS), "STEP": self.put("step.json", ONE_STEP), "BASE": self.put("base.ll", chain(1))}
        return [self.program] + [files.get(word, word) for word in command.split()]

    def count(self, words, part="all"):
        """The instructions of a run, or of that part of it, its status, and callgrind's file."""
        out = os.path.join(self.folder, "callgrind.out")
        run = subprocess.run(["valgrind", "--tool=callgrind", f"--callgrind-out-file={out}", *words],
                             stdout=subprocess.DEVNULL, stderr=subprocess.PIPE, text=True)
        total = int(re.search(r"Collected : (\d+)", run.stderr).group(1))
        counted = total if part == "all" else PARTS[part](out)
        return counted, run.returncode, out

    def peak(self, words):
        """The peak of memory in MB. A small process of its own measures it: a child's begins at the size of its parent."""
        measure = ("import resource, subprocess, sys; subprocess.run(sys.argv[1:], stdout=-3, stderr=-3);"
                   "print(resource.getrusage(resource.RUSAGE_CHILDREN).ru_maxrss)")
        ran = subprocess.run([sys.executable, "-S", "-c", measure, *words], capture_output=True, text=True)
        return int(ran.stdout) / 1024


def by_crate(path):
    cost = {}
    listing = subprocess.run(["callgrind_annotate", "--threshold=100", path], capture_output=True, text=True).stdout
    for line in listing.splitlines():
        found = re.match(r"\s*([\d,]+) \([^)]*\)\s+(.*?):(?!:)(\S.*)", line)
        if found:
            where, name = found.group(2), found.group(3)
            if "malloc" in where or name.startswith("rattle_"):
                crate = "allocator"
            elif "sysdeps" in where or "string/" in where:
                crate = "libc"
            else:
                crate = crate_of(name)
            cost[crate] = cost.get(crate, 0) + int(found.group(1).replace(",", ""))
    return sorted(cost.items(), key=lambda row: -row[1])


def measure(bench, row, shares):
    """The line that tells of a row, and whether it is within its budgets."""
    name, source, command, unit, budget, memory, linear, part = row.rstrip("\n").split("\t")
    kind, size = source.split(":")
    size = int(size)
    start = bench.count(bench.words(command, kind, 0), part)[0]
    half = bench.count(bench.words(command, kind, size // 2), part)[0] - start if linear == "yes" else 0
    words = bench.words(command, kind, size)
    total, status, out = bench.count(words, part)
    net, units = total - start, len(MAKERS[kind](size)) if unit == "byte" else size
    peak, over = bench.peak(words), []
    if net > float(budget) * units:
        over.append("OVER")
    if peak > float(memory):
        over.append("MEMORY")
    if linear == "yes" and net > 2.1 * half:
        over.append(f"GROWTH {net / half:.2f}")
    told = (f"{name:14} {source:14} {units:9} {unit}s {net:13} instructions {net / units:9.1f} a {unit} (budget {budget})"
            f" {peak:7.1f} MB ({memory}) status {status} {' '.join(over) or 'ok'}")
    lines = [told]
    if shares and part == "all":
        lines += [f"    {crate:20} {n:12} {100 * n / total:5.1f} %" for crate, n in by_crate(out)[:14]]
    return "\n".join(lines), not over


def main():
    parser = argparse.ArgumentParser(description=__doc__, formatter_class=argparse.RawDescriptionHelpFormatter)
    parser.add_argument("--program", default=BUILT)
    parser.add_argument("--only", metavar="WORD")
    parser.add_argument("--write", metavar="FILE")
    options = parser.parse_args()
    told, good = [], True
    with open(os.path.join(HERE, "budgets.tsv"), encoding="utf-8") as rows, tempfile.TemporaryDirectory() as folder:
        bench = Bench(os.path.abspath(options.program), folder)
        for row in rows:
            if row.startswith("#") or not row.strip() or (options.only and options.only not in row.split("\t")[0]):
                continue
            line, within = measure(bench, row, options.only)
            print(line, flush=True)
            told.append(line)
            good = good and within
    if options.write:
        with open(options.write, "w", encoding="utf-8") as file:
            file.write("\n".join(told) + "\n")
    return 0 if good else 1


if __name__ == "__main__":
    sys.exit(main())
