#!/usr/bin/env python3
"""Says which wrong bodies no longer stand on a line of the sources: each text 'old:' has to be there just once. And it counts
the public functions of each crate that have no clause, and those that no edit turns.

usage: bench/gate/stands.py [CRATE..]         names the functions of these crates too

It proves nothing and takes a moment: run it after a merge, and after a change that takes a line away. The exit status is 1 where
a text is not there, or stands more than once; and where a function that is not listed here lacks a clause or an edit.
"""
import pathlib
import re
import sys
import types

sys.dont_write_bytecode = True
from turned import functions_of, pairs_of

CRATES = pathlib.Path(__file__).resolve().parents[2] / "crates"
PUBLIC = re.compile(r" *pub (?:const )?fn (\w+)")
# Each public function of a crate has a clause and an edit, but for these, of which bench/gate/README.md says why.
LACKING = {
    "acdm_board": {"Desk::core", "Desk::keep_passes", "Desk::row", "Desk::sigs"},
    "acdm_commands": {"Cause::new", "Cause::note", "Noting::new", "standard_streams::is_error_file"},
    "acdm_confirming": {"Confirmed::confirm", "Confirmed::join", "Confirmed::leave", "Confirmed::wait_for_more"},
    "acdm_displays": {"Displays::close", "Displays::start"},
    "acdm_feed": {"telling::pass_next"},
    "acdm_following": {"Course::ask", "Course::end", "Course::new"},
    "acdm_headline": {"headline::the_written_step_is_kept"},
    "acdm_keeping": {
        "BoardTerm::meet",
        "BoardTerm::own",
        "BoardTerm::raise",
        "BoardTerm::replaced_by",
        "BoardTerm::take_over",
        "KeptCount::new",
        "LastingReceipt::receipt",
        "Named::fail",
        "Named::failure",
        "Named::stands",
        "Reach::copy",
        "Reach::latest",
        "Replacement::put_in_place",
        "Replacement::remove",
        "SharedKeeper::reach",
        "file::open",
        "file::renew",
        "replacement::is_same",
        "replacement::is_special",
        "replacement::leads_to",
        "replacement::put_text",
        "replacement::sync_folder",
    },
    "acdm_lines": {"Window::clear"},
    "acdm_partners": {
        "Acceptor::new",
        "Arriving::new",
        "Control::address",
        "Control::open",
        "Door::new",
        "LineQueue::at_file",
        "LineQueue::on_errors",
        "PartnerPlace::count",
        "PartnerPlace::finish",
        "PartnerPlace::new",
        "Patient::new",
        "Reception::begin",
        "Reception::end",
        "Reporter::beside",
        "Reporter::new",
        "Reporter::tell_following",
        "Reporter::tell_parted",
        "Reporter::tell_unreached",
    },
    "acdm_row": {"Publisher::alloc", "Publisher::row", "Row::alloc", "Row::sigs"},
    "acdm_serving": {"peer::peer_term"},
    "acdm_slots": {"Slots::sigs"},
    "acdm_step": {"Answers::none", "Core::sigs", "Schedule::plan"},
    "acdm_watch": {"Watch::board"},
    "bpf_explain": {"Told::write"},
    "bpf_helpers": {"Helper::signature", "Sigs::keep_their_form"},
    "bpf_verifier": {"Checked::program", "Checked::sigs"},
}


def wrong(edit):
    """Returns how often each text of an edit stands in the file that it turns, where that is not once."""
    found, text = [], ""
    for line in edit.read_text().splitlines():
        if line.startswith("file: "):
            text = (edit.parents[1] / line.removeprefix("file: ").strip()).read_text()
        for word in ("old: ", "and old: "):
            if line.startswith(word) and text.count(line.removeprefix(word)) != 1:
                found.append((text.count(line.removeprefix(word)), line.removeprefix(word).strip()))
    return found


def public_of(crate):
    """Returns the public functions of a crate that have a body, each with whether it has a clause."""
    found = {}
    for file in sorted((crate / "src").rglob("*.rt")):
        text = file.read_text()
        lines = text.split("\n")
        for it in functions_of(str(file.relative_to(crate)), text):
            head = next(at for at in range(it.first, -1, -1) if re.match(r" *(pub(\([^)]*\))? )?(const )?fn ", lines[at]))
            if PUBLIC.match(lines[head]):
                clauses = lines[head : it.first + 1]
                found[it.name] = any(line.lstrip().startswith("ensures") for line in clauses)
    return found


def turned_in(crate):
    """Returns the functions that edits of a crate turn."""
    here = types.SimpleNamespace(folder=crate)
    edits = sorted(crate.glob("must-fail*/*.edit"))
    return {pair.function for edit in edits for pair in pairs_of(here, edit)}


def counted(crate):
    """Returns the public functions of a crate, those without a clause and those without an edit."""
    public, turned = public_of(crate), turned_in(crate)
    return public, sorted(it for it in public if not public[it]), sorted(it for it in public if it not in turned)


def report(named):
    """Prints how many public functions have no clause or no edit, and returns whether a whole crate has one that is not listed."""
    total, bare, untouched, wrong = 0, 0, 0, False
    for crate in sorted(it for it in CRATES.iterdir() if (it / "src/lib.rt").exists() and not it.name.endswith("_tests")):
        public, without_clause, without_edit = counted(crate)
        total, bare, untouched = total + len(public), bare + len(without_clause), untouched + len(without_edit)
        lacking = sorted({*without_clause, *without_edit} - LACKING.get(crate.name, set()))
        if crate.name in named:
            print(f"{crate.name}: {len(public)} public functions")
            print(*(f"  no clause: {it}" for it in without_clause), *(f"  no edit: {it}" for it in without_edit), sep="\n")
        if lacking:
            print(f"{crate.name}: no clause or no edit: {', '.join(lacking)}")
            wrong = True
    print(f"{total} public functions, {bare} without a clause, {untouched} without an edit")
    return wrong


def main():
    edits = sorted(CRATES.glob("*/must-fail*/*.edit"))
    fallen = [(edit, *it) for edit in edits for it in wrong(edit)]
    for edit, count, text in fallen:
        print(f"{edit.relative_to(CRATES.parent)}: stands {count} times: {text}")
    print(f"{len(edits)} edits, {len(fallen)} texts that do not stand once")
    return 1 if report(sys.argv[1:]) or fallen else 0


if __name__ == "__main__":
    sys.exit(main())
