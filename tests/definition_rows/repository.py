"""The throw-away repository: the crates' definitions, tables of rows over them, and what the prover says of each."""
import dataclasses
import pathlib
import re
import shutil
import subprocess
import sys
import tempfile

from .sorts import PROJECT

# a multiple of the rows of a table: as many as keep two processors busy for the default numbers of rows
PER_CRATE = 5_000

# the crates of definitions, and those that they need; `evidence` is evidence.txt
CRATES = {
    "wat": "",
    "wat_lines": "",
    "wat_values": "wat",
    "messages": "wat",
    "place": "wat wat_lines",
    "evidence": "wat wat_values",
}


def chunks(items, size):
    return [items[at : at + size] for at in range(0, len(items), size)]


def types(source):
    """The types that a crate declares, without its functions, which would have to be proved."""
    items = re.findall(r"^(?:use [^\n]*;|(?:#\[[^\n]*\]\n)*pub (?:enum|struct) .*?^\})\n", source, flags=re.M | re.S)
    return "// Types alone.\n" + "".join(items)


def write(file, content):
    file.parent.mkdir(parents=True, exist_ok=True)
    file.write_text(content, encoding="utf-8")


def write_crate(folder, module, content):
    write(folder / "src/lib.rt", "// Definitions alone.\n")
    write(folder / "specs/Lib.antt", f"pub mod {module}\n")
    write(folder / f"specs/{module}.antt", content)


class Tables:
    """Tables of rows, by their indices, shared out to crates."""

    def __init__(self):
        self.tables = []
        self.crates = {}

    def add(self, sort, rows):
        for number, group in enumerate(chunks(chunks(rows, sort.per_table), PER_CRATE // sort.per_table), 1):
            self.crates[f"{sort.name}_{number}"] = range(len(self.tables), len(self.tables) + len(group))
            self.tables += [(sort, table) for table in group]

    def write_repository(self, folder):
        needed = {crate for sort, _ in self.tables for crate in sort.needs.split()}
        needs = {crate: named for crate, named in CRATES.items() if crate in needed}
        for crate in needs:
            if crate == "evidence":
                evidence = pathlib.Path(__file__).with_name("evidence.txt").read_text("utf-8")
                write_crate(folder / "crates/evidence", "Evidence", evidence)
            else:
                shutil.copytree(PROJECT / "crates" / crate / "specs", folder / "crates" / crate / "specs")
                source = (PROJECT / "crates" / crate / "src/lib.rt").read_text("utf-8")
                write(folder / "crates" / crate / "src/lib.rt", types(source))
        for crate, indices in self.crates.items():
            sort = self.tables[indices[0]][0]
            needs[crate] = sort.needs
            tables = [sort.table(index, self.tables[index][1]) for index in indices]
            write_crate(folder / "crates" / crate, "Rows", sort.head() + "".join(tables))
        write(folder / "crates.txt", "".join(f"{crate}: {named}\n" for crate, named in needs.items()))

    def check(self):
        """Has the prover check the tables. Gives what it said of those that it refused, by their indices."""
        with tempfile.TemporaryDirectory(prefix="definitions-") as folder:
            self.write_repository(pathlib.Path(folder))
            out = {"stdout": subprocess.PIPE, "stderr": subprocess.STDOUT, "text": True}
            run = subprocess.run(["rt", "all", "check"], cwd=folder, **out)
        said = re.split(r"^\S+: error: `table-(\d+)`: ", run.stdout, flags=re.M)[1:]
        refused = {int(index): told for index, told in zip(said[::2], said[1::2])}
        # the prover goes on after a refused table, so each crate is proved or has one
        proved = set(re.findall(r"^(\w+): ok$", run.stdout, flags=re.M))
        for crate, indices in self.crates.items():
            if crate not in proved and not any(index in refused for index in indices):
                sys.exit(f"{run.stdout}\ntests/definitions: the prover did not get to all rows")
        return refused


def refused_alone(sort, rows):
    """Those of a refused table's rows that are refused alone, and how the model's answer differs."""
    alone = Tables()
    alone.add(dataclasses.replace(sort, per_table=1), rows)
    for index, told in sorted(alone.check().items()):
        differ = re.search(r"computed as far as they go, .*(\n  \(.*)?", told)
        yield rows[index], differ[0].replace("\n ", "") if differ else told.splitlines()[0]
