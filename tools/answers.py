#!/usr/bin/env python3
"""Writes the answers of the types that are read and sent by the lists of their rows.

    tools/answers.py CRATE MODULE TYPE..

reads crates/CRATE/src/MODULE.rt (MODULE as `security/http` for a module in a folder) and writes, for each TYPE, the answers of
its `read_plain` and `emit` below crates/CRATE/proofs/MODULE/. Its impls have to have the form of the others: the ghost
`kind` is `named OBJECT_TYPE`, `read_plain` calls `read_table`, or `read_table_alone` of a type that keeps no extensions, and
`emit` calls `emit_table`. The answers say that the rows of the list are those of the type's table, which is found by computing.
"""
import os
import re
import sys

ROOT = os.path.dirname(os.path.dirname(os.path.abspath(__file__)))
READ = """{header}use Rattle.std.proofs.Common.{{refl, arith}}
use Rattle.utoipa_base.specs.Kinds.{{{table}}}
use Rattle.utoipa_base.proofs.RowLists.{{passes_reads, reads_as}}
use {path}.read_plain.Goals as goal

pub returns-in_err-fields : goal.returns-in_err-fields
returns-in_err-fields c = passes_reads _ _ _ _ _ _ _ _ _ _ _ c.from_residual.ensures.1 (c.in_err-fields.ensures {table} refl refl) (λ h. h) (omega arith) (omega arith)

pub returns : goal.returns
returns c = reads_as _ _ _ _ _ _ _ _ refl (c.in_ok-fields.ensures {table} refl refl)
"""
EMITTED = """{header}use Rattle.std.proofs.Common.{{refl}}
use {path}.emit.Goals as goal

pub returns : goal.returns
returns g c = c.emit_table.ensures _ refl
"""


def answers(crate, module, name):
    with open(os.path.join(ROOT, "crates", crate, "src", module + ".rt")) as file:
        source = file.read()
    start = source.index("impl Documented for %s {" % name)
    block = source[start : source.index("\n}\n", start)]
    table = re.search(r"ghost kind = \{ named (\w+) \}", block).group(1)
    for trait, function, text in (("Tree", "read_plain", READ), ("Emit", "emit", EMITTED)):
        values = {
            "header": "-- Written by tools/answers.py %s %s %s\n" % (crate, module, name),
            "path": "Rattle.%s.proofs.%s.%s%s" % (crate, module.replace("/", "."), name, trait),
            "table": table,
        }
        folder = os.path.join(ROOT, "crates", crate, "proofs", module, name + trait, function)
        os.makedirs(folder, exist_ok=True)
        with open(os.path.join(folder, "Answers.antt"), "w") as file:
            file.write(text.format(**values))


def main(words):
    if len(words) < 3:
        sys.exit(__doc__)
    for name in words[2:]:
        answers(words[0], words[1], name)


main(sys.argv[1:])
