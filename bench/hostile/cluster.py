#!/usr/bin/env python3
"""Tries the resource agent of examples/pacemaker as a cluster manager calls it: on loopback, and on two machines.

    python3 bench/hostile/cluster.py [--program PATH]

Two machines are two folders, each with its own parameters. Both boards are begun, one is promoted, killed, and the
other one promoted in its place. The old one follows then, where its file is a beginning of the other's journal, and is
refused else. A planned switch; both begun anew; a board that does not answer, and one that ends at once; wrong
parameters; the description of the agent; another board that is silent, or sends a byte now and then.

Then the agent runs on two namespaces of the network (link.py) with a link between them. The link is cut both ways: the
first board is killed, as by fencing, or serves on and has entries of its own, while the second one has none, or others.
It is cut in one way only, in silence. Seen are the status and the reason of each action on both machines, the terms, and
that neither file changes by the other board. No action may take longer than 30 seconds. Where no such machines can be
made this is left out, with a line.

No Pacemaker is there, and none of the shell's functions of OCF: what the agent tells of promotion is written down by a
program in their place. The last line is `N cases, M failed`; status 1 where one failed.
"""

import contextlib
import os
import pathlib
import pwd
import re
import shutil
import signal
import socket
import subprocess
import sys
import tempfile
import threading
import time
import traceback
import xml.etree.ElementTree
from concurrent.futures import ThreadPoolExecutor

from cases import ALERTS, PLAN, SCHEDULE, Cases, ran, words
from clustered import (
    AGENT,
    BAD,
    BAD_HERE,
    ERROR,
    LIMIT,
    MEMORY,
    MISSING,
    NOT_RUNNING,
    OK,
    PROMOTED,
    UNKNOWN,
    are,
    begun,
    ends,
    follows,
    gets,
    is_later,
    is_same,
    loopback,
    two_boards,
    two_machines,
)
from follow import TICK
from link import FIRST, SECOND, reason_against
from terms import file_of, term_of

# So many scenes at once: all seventeen, with two boards each, are late on a machine with other work.
TOGETHER = 6
ACTIONS = {"start", "stop", "monitor", "promote", "demote", "meta-data", "validate-all"}


def described(cases, program, room):
    """What the agent says of itself, and of wrong parameters."""
    with two_boards(room, program, "described") as (one, two):
        describes(cases, one)
        refuses(cases, two, str(room / "nothing"))
        leaves_others_alone(cases, two)


def describes(cases, one):
    """What is told of the actions and the parameters."""
    status, text = one.act("meta-data")
    tree = xml.etree.ElementTree.fromstring(text)
    cases.expect("its description is XML", status == OK and tree.tag == "resource-agent" and tree.get("name") == "acdm", text)
    cases.expect("all actions are described", {it.get("name") for it in tree.iter("action")} == ACTIONS)
    cases.expect("monitors of both roles", {it.get("role") for it in tree.iter("action")} == {"Promoted", "Unpromoted", None})
    named = {it.get("name") for it in tree.iter("parameter")}
    cases.expect("all parameters are described", named == set(one.parameters) - {"CRM_meta_on_node"}, named)
    shown = {it.get("name"): it.find("content").get("default") for it in tree.iter("parameter")}
    set_in = dict(re.findall(r'"\$\{OCF_RESKEY_(\w+):=(.+?)\}"', AGENT.read_text()))
    cases.expect("with the values that they have", {name: it for name, it in shown.items() if it} == set_in, (shown, set_in))
    cases.expect("valid parameters", one.act("validate-all") == (OK, ""), one.act("validate-all"))
    alone = one.act("validate-all", peer="127.0.0.1:4100", watch="[::1]:4101")
    cases.expect("an address alone, without the name of a machine", alone == (OK, ""), alone)
    cases.expect("no such action", one.act("reload")[0] == UNKNOWN)
    times_of_actions(cases, tree)


def times_of_actions(cases, tree):
    """The page gives the actions to crm with the times of the description, and these are those that the agent keeps."""
    told = [{name: it.get(name) for name in it.keys() if name != "depth"} for it in tree.iter("action")]
    page = (AGENT.parent / "README.md").read_text().replace("\\\n", " ")
    asked = [dict(it.split("=") for it in f"name={name}{rest}".split()) for name, rest in re.findall(r"\bop (\w+)((?: +\w+=\w+)+)", page)]
    mine = [it for it in told if it["name"] not in ("meta-data", "validate-all")]
    cases.expect("the page has their times", sorted(map(str, map(sorted, map(dict.items, asked)))) == sorted(map(str, map(sorted, map(dict.items, mine)))), (asked, mine))
    due = dict(re.findall(r"^    (\S+)\) due=(\d+) ;;$", AGENT.read_text(), re.M))
    kept = all(due.get(it["name"], due["*"]) == it["timeout"].replace("s", "000") for it in mine)
    cases.expect("the agent keeps them", kept, due)


def refuses(cases, two, nothing):
    """Wrong parameters, of this machine alone and of any."""
    for name, value, wanted in (
        ("peer", None, BAD),
        ("watch", None, BAD),
        ("peer", "three=127.0.0.1:4100", BAD_HERE),
        ("peer", "nowhere", BAD_HERE),
        ("words", nothing, BAD_HERE),
        ("keep", f"{nothing}/day.journal", BAD_HERE),
        ("binary", nothing, MISSING),
        ("user", "nobody-of-this-name", MISSING),
    ):
        status, text = two.act("start", **{name: value})
        cases.expect(f"{name} {value}", status == wanted and "ocf-exit-reason:" in text, (status, text))
    for name in ("binary", "words"):
        ends = [two.act(it, **{name: nothing})[0] for it in ("monitor", "stop")]
        cases.expect(f"without its {name} nothing is there", ends == [NOT_RUNNING, OK], ends)


def leaves_others_alone(cases, two):
    """The number of a board that has ended is another process's, whose words have its file's name as a part."""
    two.state.mkdir(exist_ok=True)
    with subprocess.Popen([sys.executable, "-c", "import time; time.sleep(60)", f"{two.kept}.tables"]) as other:
        (two.state / "acdm-board.pid").write_text(f"{other.pid}\n")
        done = [two.act(it)[0] for it in ("monitor", "stop", "monitor")]
        cases.expect("another process is no board", done == [NOT_RUNNING, OK, NOT_RUNNING] and other.poll() is None, done)
        other.kill()


def day(cases, program, room):
    """A day of the cluster: the first board is killed, the second takes over, and so on."""
    with two_boards(room, program, "day") as (one, two):
        taken_over(cases, one, two)
        switched(cases, one, two)


def other_histories(cases, program, room):
    """Files that are no beginning of what the other board sends, and a board that comes with another history."""
    with two_boards(room, program, "histories") as (one, two):
        one.keeps(program, 4)
        cases.expect("one is begun", one.act("start")[0] == OK)
        same_end(cases, program, one, two)
        two.kept.unlink()
        two.keeps(program, 4)
        cases.expect("another one is begun", two.act("start")[0] == OK)
        cases.expect("one is promoted", gets(one, 100) and one.act("promote")[0] == OK)
        ahead(cases, program, one, two)
        another_board(cases, program, one, two)


def taken_over(cases, one, two):
    """Both are begun, the first is promoted and killed, the second takes over, and the first follows it."""
    for machine in (one, two):
        cases.expect("nothing is there yet", machine.act("monitor")[0] == NOT_RUNNING)
        cases.expect("which may be stopped", machine.act("stop")[0] == OK)
    cases.expect("the first is begun", one.act("start")[0] == OK)
    cases.expect("it follows", one.act("monitor")[0] == OK and follows(one), one.status())
    cases.expect("it is not to be promoted alone", one.score() is None, one.score())
    cases.expect("it is begun once", one.act("start")[0] == OK)
    is_bounded(cases, one)
    cases.expect("the second is begun", two.act("start")[0] == OK)
    cases.expect("it has all that there is", gets(two, 100), two.score())
    cases.expect("and the first too", gets(one, 100), one.score())
    cases.expect("the first is promoted", one.act("promote")[0] == OK)
    cases.expect("it serves", one.act("monitor")[0] == PROMOTED and one.score() == 1000, one.score())
    cases.expect("it is promoted once", one.act("promote")[0] == OK)
    cuts_what_it_said(cases, one)
    cases.expect("the second follows", two.act("status")[0] == OK and follows(two))
    airport, network = one.partner(1), one.partner(2)
    cases.expect("partners are answered", [airport.asks(SCHEDULE), network.asks(PLAN)] == ["ok 0", "ok 1"])
    cases.expect("the second has that", two.has(2))
    one.signal(signal.SIGKILL)
    cases.expect("the first is gone", one.comes(lambda: one.act("monitor")[0] == NOT_RUNNING))
    cases.expect("it is stopped", one.act("stop")[0] == OK and one.score() is None)
    cases.expect("the second may be promoted", two.act("monitor")[0] == OK and two.score() == 100, two.score())
    begun = time.monotonic()
    cases.expect("it is promoted", two.act("promote")[0] == OK)
    cases.expect("within seconds", time.monotonic() - begun < 5, time.monotonic() - begun)
    cases.expect("it serves", two.act("monitor")[0] == PROMOTED)
    airport = two.partner(1)
    cases.expect("a partner goes on", airport.asks(TICK) == "ok 2")
    with one.kept.open("ab") as file:
        # (its power was cut while a line was written, which the other one has had otherwise)
        file.write(b"2 9 9")
    status, text = one.act("start")
    cases.expect("the old first one is begun", status == OK, text)
    cases.expect("it follows the second", follows(one) and one.has(3), one.status())
    cases.expect("and has all", gets(one, 100), one.score())
    cases.expect("both files are the same", one.kept.read_bytes() == two.kept.read_bytes())


def is_bounded(cases, one):
    """A board that runs has the limits of acdm.service, and its files are read by its user alone."""
    limits = dict(re.findall(r"^(Max [a-z ]+?) {2,}(\d+|unlimited)", one.about("limits").read_text(), re.M))
    unit = dict(re.findall(r"^(\w+)=(.*)$", (AGENT.parents[1] / "systemd" / "acdm.service").read_text(), re.M))
    memory = str(1024 * int(one.parameters["memory"]))
    found = limits["Max open files"], limits["Max address space"]
    cases.expect("its limits", found == (unit["LimitNOFILE"], memory) == ("4096", memory), found)
    cases.expect("that of memory is the unit's, where none is given", (unit["LimitAS"], MEMORY) == ("2G", str(2 << 20)))
    environment = one.about("environ").read_bytes().split(b"\0")
    cases.expect("one arena of memory", unit["Environment"].encode() in environment, unit["Environment"])
    seen = os.getsid(one.process()), os.readlink(one.about("cwd")), one.kept.stat().st_mode & 0o777
    cases.expect("in a session and a folder of its own", seen == (one.process(), str(one.kept.parent), 0o600), seen)


def cuts_what_it_said(cases, one):
    """What a board says in months does not fill the disk: a monitor cuts it once it has a million bytes."""
    said, sizes = one.state / "acdm-board.said", []
    for size in (900_000, 1_100_000):
        os.truncate(said, size)
        done = one.act("monitor")
        sizes.append(said.stat().st_size)
    cases.expect("what it has said is cut", done[0] == PROMOTED and 900_000 <= sizes[0] and sizes[1] < 10_000, (done, sizes))


def switched(cases, one, two):
    """A planned switch back: the second serves, is demoted and follows, and the first is promoted."""
    cases.expect("the second is demoted", two.act("demote")[0] == OK)
    cases.expect("it follows", two.act("monitor")[0] == OK and follows(two), two.status())
    cases.expect("once more it does already", two.act("demote")[0] == OK)
    cases.expect("the first is promoted", one.act("promote")[0] == OK and one.act("monitor")[0] == PROMOTED)
    cases.expect("a partner goes on", one.partner(1).asks(TICK) == "ok 3")
    cases.expect("the second has that", two.has(4), two.status())
    cases.expect("and all", gets(two, 100), two.score())


def same_end(cases, program, one, two):
    """The second one's file has the same first and last entry as the first one's, and others between."""
    lines = [f"1 29000580 APT {it}" for it in (SCHEDULE, ALERTS, TICK, TICK)]
    ran(program, ["run", "--keep", str(two.kept)], "".join(f"{it}\n" for it in lines).encode())
    files = [it.kept.read_text().splitlines() for it in (one, two)]
    same = [left == right for left, right in zip(*files)]
    cases.expect("entry 1 alone is another one", same == [True, False, True, True], files)
    status, text = two.act("start")
    cases.expect("its start is refused", status == BAD_HERE and "entry 1 is another one" in text, (status, text))
    cases.expect("its file is as it was", two.kept.read_text().splitlines() == files[1])


def ahead(cases, program, one, two):
    """The second one's file has an entry that the first never had."""
    cases.expect("the second is stopped", two.act("stop")[0] == OK and two.act("monitor")[0] == NOT_RUNNING)
    cases.expect("so it can't be demoted", two.act("demote")[0] == NOT_RUNNING and two.act("promote")[0] == NOT_RUNNING)
    done = ran(program, ["run", "--keep", str(two.kept)], f"1 29000581 APT {TICK}\n".encode())
    cases.expect("its file gets an entry", done.stdout == b"ok 4\n", done.stdout)
    own = two.kept.read_bytes()
    status, text = two.act("start")
    cases.expect("it is begun", status == OK, text)
    cases.expect("and says that it follows nobody", "nobody is followed" in text and "5 entries, and 4 there" in text, text)
    cases.expect("nor does it", two.status().startswith("following 127.0.0.1:0 parted\n"), two.status())
    cases.expect("it waits", two.act("monitor")[0] == OK and two.score() is None, two.score())
    cases.expect("the first gets another entry", one.partner(1).asks(ALERTS).startswith("alerts 4 "))
    status, text = two.act("monitor")
    cases.expect("a monitor says that it can't follow", status == BAD_HERE and "entry 4 is another one" in text, (status, text))
    cases.expect("it is stopped again", two.act("stop")[0] == OK)
    status, text = two.act("start")
    cases.expect("its start is refused", status == BAD_HERE and "entry 4 is another one" in text, (status, text))
    cases.expect("it is not there", two.act("monitor")[0] == NOT_RUNNING and two.score() is None)
    cases.expect("its file is as it was", two.kept.read_bytes() == own)
    cases.expect("the first serves on", one.act("monitor")[0] == PROMOTED)
    two.kept.rename(two.kept.with_name("kept-elsewhere"))
    cases.expect("without that file it is begun", two.act("start")[0] == OK)
    cases.expect("and has all", two.has(5) and gets(two, 100), two.score())


def another_board(cases, program, one, two):
    """In the first one's place a board is begun by hand, which has gone on from the same entries otherwise."""
    own, forked = one.kept.read_bytes(), one.kept.with_name("forked")
    one.signal(signal.SIGKILL)
    forked.write_bytes(b"".join(own.splitlines(True)[:-1]))
    ran(program, ["run", "--keep", str(forked)], f"1 29000581 APT {TICK}\n".encode() * 3)
    cases.expect("it has another history", not forked.read_bytes().startswith(own) and forked.read_bytes().count(b"\n") > 5)
    watch = one.parameters["watch"].split()[0].partition("=")[2]
    command = [str(program), "serve", "--again", "--control", str(one.control), "--keep", str(forked), "--watch", watch]
    board = subprocess.Popen([*command, "APT=127.0.0.1:0"], stdout=subprocess.PIPE, stderr=subprocess.DEVNULL)
    board.stdout.readline()
    bars = two.comes(lambda: two.act("monitor")[0] == BAD_HERE)
    cases.expect("the second finds that it is another one", bars and two.score() is None, two.score())
    status, text = two.act("promote")
    cases.expect("and can't be promoted", status == BAD_HERE and "entry 4 is another one" in text, (status, text))
    cases.expect("nor be begun again", two.act("stop")[0] == OK and two.act("start")[0] == BAD_HERE)
    cases.expect("a board begun by hand is found", one.act("monitor")[0] == PROMOTED)
    cases.expect("and stopped", one.act("stop")[0] == OK and board.wait(5) == 0)


def begun_anew(cases, program, one, two):
    """Both were down: each waits for the other, takes what it lacks, and one is promoted."""
    for machine, count in ((one, 2), (two, 3)):
        machine.keeps(program, count)
    whole = two.kept.read_bytes()
    cases.expect("two has one entry more", whole.startswith(one.kept.read_bytes()) and whole.count(b"\n") == 3, whole)
    status, text = one.act("start")
    cases.expect("one is begun alone", status == OK and "nobody is followed" in text, (status, text))
    cases.expect("it is not to be promoted", one.act("monitor")[0] == OK and one.score() is None, one.score())
    status, text = two.act("start")
    cases.expect("the other has more, and waits", status == OK and "3 entries, and 2 there" in text, (status, text))
    cases.expect("one is promoted", one.act("promote")[0] == OK and one.act("monitor")[0] == PROMOTED)
    cases.expect("with what the other had", one.kept.read_bytes() == whole, one.kept.read_bytes())
    cases.expect("and is followed", gets(two, 100) and follows(two), two.status())
    cases.expect("a partner goes on", one.partner(1).asks(TICK) == "ok 3")


def both_serve(cases, one, two):
    """Without fencing both may serve: who is demoted then is refused, and its file is left as it is."""
    cases.expect("the second has all", two.has(4))
    cases.expect("both serve", two.act("promote")[0] == OK and one.act("monitor")[0] == PROMOTED)
    replies = [one.partner(1).asks(TICK), two.partner(1).asks(ALERTS)]
    cases.expect("they have two histories", replies[0] == "ok 4" and replies[1].startswith("alerts 4 "), replies)
    own = one.kept.read_bytes()
    status, text = one.act("demote")
    cases.expect("a demotion is refused", status == BAD_HERE and "entry 4 is another one" in text, (status, text))
    cases.expect("that board has ended", one.act("monitor")[0] == NOT_RUNNING and one.score() is None)
    cases.expect("its file is as it was", one.kept.read_bytes() == own)
    cases.expect("the other serves on", two.act("monitor")[0] == PROMOTED)
    cases.expect("it is stopped", two.act("stop")[0] == OK and two.act("monitor")[0] == NOT_RUNNING)
    one.kept.rename(one.kept.with_name("kept-elsewhere"))


def next_day(cases, one, two):
    """Both are begun where one has no file, as after the change to another journal: it takes the other's."""
    cases.expect("one without a file is begun", one.act("start")[0] == OK and follows(one), one.status())
    status, text = two.act("start")
    cases.expect("the other waits", status == OK and "5 entries, and 0 there" in text, (status, text))
    cases.expect("one takes all", gets(one, 100) and one.kept.read_bytes() == two.kept.read_bytes(), one.status())
    cases.expect("and is followed", gets(two, 100) and follows(two), two.status())
    cases.expect("both are stopped", (one.act("stop")[0], two.act("stop")[0]) == (OK, OK))


def down(cases, program, room):
    """Both were down and are begun; both serve, where nobody fences; the next day; boards that end at once."""
    with two_boards(room, program, "down", loopback()) as (one, two):
        begun_anew(cases, program, one, two)
        both_serve(cases, one, two)
        next_day(cases, one, two)
        ends_at_once(cases, one)


def ends_at_once(cases, one):
    """A board that can't be begun, and one that can't serve."""
    with one.words.open("a") as file:
        file.write("--no-such-word\n")
    before = one.words.read_text()
    status, text = one.act("start")
    cases.expect("a start with a wrong word fails", status == ERROR and "the board has ended" in text, (status, text))
    cases.expect("and nothing is there", one.act("monitor")[0] == NOT_RUNNING)
    one.words.write_text(before.replace("--no-such-word\n", ""))
    cases.expect("with its words it is begun", one.act("start")[0] == OK)
    with socket.create_server(("127.0.0.1", one.ports[0])):
        status, text = one.act("promote")
    cases.expect("a promotion at an address that is taken fails", status == ERROR and "in use" in text, (status, text))
    cases.expect("and nothing is there then", one.act("monitor")[0] == NOT_RUNNING)


def silent(cases, program, room):
    """A board that does not answer: a monitor says so. Another one is begun in its place, or it is stopped all the same."""
    with two_boards(room, program, "silent") as (one, _):
        status, text = one.act("start")
        cases.expect("one is begun", status == OK, (status, text))
        before = one.process()
        one.signal(signal.SIGSTOP)
        status, text = one.act("monitor")
        cases.expect("it does not answer", status == ERROR and "does not answer" in text, (status, text))
        said = one.state / "acdm-board.said"
        with said.open("a") as file:
            file.write("following nobody of this start\n")
        status, text = one.act("start")
        cases.expect("another one is begun", status == OK and one.process() != before and follows(one), (status, text))
        cases.expect("what it says is kept from its last start on", "of this start" not in said.read_text(), said.read_text())
        cases.expect("it is promoted", one.act("promote")[0] == OK and one.act("monitor")[0] == PROMOTED)
        one.signal(signal.SIGSTOP)
        status, text = one.act("demote")
        cases.expect("it is demoted, and killed", status == OK and "killed" in text and follows(one), (status, text))
        one.signal(signal.SIGSTOP)
        # (the manager may number the machines, and that is no part of the board's name)
        one.environment["OCF_RESOURCE_INSTANCE"] = "board:7"
        status, text = one.act("stop")
        cases.expect("it is killed", status == OK and "killed" in text, (status, text))
        cases.expect("it is not there", one.act("monitor")[0] == NOT_RUNNING)
        cases.expect("no number of it is left", [it.name for it in one.state.iterdir()] == [said.name])
        cases.expect("each in time", one.longest[0] < LIMIT / 2, one.longest)


def as_nobody(cases, program, room):
    """As root the agent begins a board as another user, who has its file."""
    reached = ["setpriv", "--reuid=nobody", "--clear-groups", "test", "-x", str(program)]
    if os.geteuid() or subprocess.run(reached, check=False, capture_output=True).returncode:
        print("left out: a board of another user, which takes root, and a program that all may start")
        return
    with two_boards(room, program, "nobody", user="nobody") as (one, _):
        shutil.chown(one.room, "nobody")
        status, text = one.act("start")
        cases.expect("it is begun as another user", status == OK, (status, text))
        owner = os.stat(f"/proc/{one.process()}").st_uid
        cases.expect("who runs it", owner == pwd.getpwnam("nobody").pw_uid == one.kept.stat().st_uid, owner)
        cases.expect("and alone reads its file", one.kept.stat().st_mode & 0o77 == 0)
        user, status = pwd.getpwnam("nobody"), one.about("status").read_text()
        found = [sorted(set(map(int, it.split()))) for it in re.findall(r"^(?:Gid|Groups):(.*)$", status, re.M)]
        wanted = [[user.pw_gid], sorted(os.getgrouplist("nobody", user.pw_gid))]
        cases.expect("in the groups of that user", found == wanted, (found, wanted))
        cases.expect("it is stopped", one.act("stop")[0] == OK and one.act("monitor")[0] == NOT_RUNNING)


def fenced(cases, program, room):
    """The link is cut, the first board is killed, and the second promoted; then all is whole again; a switch back."""
    with two_machines(cases, program, room, "fenced") as (link, one, two):
        term = begun(cases, one, two)
        link.set("down")
        are(cases, "as the link is cut", one, two, (PROMOTED, OK))
        cases.expect("the second finds it cut", two.says("^parted "))
        are(cases, "some time later", one, two, (PROMOTED, OK))
        cases.expect("the second may be promoted as before", two.score() == 100, two.score())
        one.signal(signal.SIGKILL)
        cases.expect("it is promoted", two.act("promote")[0] == OK)
        are(cases, "the first is killed", one, two, (NOT_RUNNING, PROMOTED))
        cases.expect("a partner goes on", two.partner(1).asks(TICK) == "ok 2")
        term = is_later(cases, "the second is promoted", two, term)
        link.set("up")
        status, text = one.act("start")
        cases.expect("the first is begun again", status == OK, (status, text))
        cases.expect("it follows, and has all", one.has(3) and follows(one) and gets(one, 100), (one.status(), text))
        are(cases, "it is not promoted beside the second", one, two, (OK, PROMOTED))
        is_same(cases, "begun again", one, term)
        cases.expect("the second is demoted", two.act("demote")[0] == OK and follows(two), two.status())
        cases.expect("and the first promoted", one.act("promote")[0] == OK)
        term = is_later(cases, "switched back", one, term)
        cases.expect("a partner goes on there", one.partner(1).asks(TICK) == "ok 3")
        cases.expect("the second has that", two.has(4) and gets(two, 100) and follows(two), two.status())
        is_same(cases, "switched back", two, term)
        are(cases, "switched back", one, two, (PROMOTED, OK))
        cases.expect("both files are the same", one.kept.read_bytes() == two.kept.read_bytes())


@contextlib.contextmanager
def both_serving(cases, program, room, name, *entered):
    """The link is cut, and the second board promoted, while the first one has an entry of its own, and is not fenced.

    A partner of the second one enters these lines. Yields the link, the machines and the term of the second one. At the
    end the first one's file is as it was, and the second one's goes on from what it was.
    """
    with two_machines(cases, program, room, name) as (link, one, two):
        term = begun(cases, one, two)
        link.set("down")
        cases.expect("the first one serves on", one.partner(1).asks(TICK) == "ok 2")
        cases.expect("the second is promoted", two.act("promote")[0] == OK)
        replies = [two.partner(1).asks(it) for it in entered]
        cases.expect("and serves", all(it.split()[1].isdigit() for it in replies), replies)
        are(cases, "both serve", one, two, (PROMOTED, PROMOTED))
        later = is_later(cases, "the second is promoted", two, term)
        files = [it.kept.read_bytes() for it in (one, two)]
        yield link, one, two, later
        cases.expect(f"{name}: the first file is as it was", one.kept.read_bytes() == files[0])
        cases.expect(f"{name}: its term too", term_of(one.kept) == term, term_of(one.kept))
        cases.expect(f"{name}: the second file goes on from its own", two.kept.read_bytes().startswith(files[1]))


def second_demoted(cases, program, room):
    """Both boards have entries of their own. The manager demotes the second one."""
    with both_serving(cases, program, room, "second-demoted", ALERTS) as (link, one, two, _):
        link.set("up")
        cases.expect("who serves is promoted already", one.act("promote") == two.act("promote") == (OK, ""))
        ends(cases, "the second one's demotion fails", two.act("demote"), BAD_HERE, "entry 2 is another one")
        ends(cases, "and its start", two.act("start"), BAD_HERE, "entry 2 is another one")
        are(cases, "it has ended", one, two, (PROMOTED, NOT_RUNNING))


def unfenced(cases, program, room):
    """Both boards have entries of their own. The link is whole again, and the manager demotes the first one."""
    with both_serving(cases, program, room, "unfenced", ALERTS) as (link, one, two, _):
        link.set("up")
        time.sleep(2)
        are(cases, "the link is whole", one, two, (PROMOTED, PROMOTED))
        ends(cases, "the first one's demotion fails", one.act("demote"), BAD_HERE, "entry 2 is another one")
        are(cases, "it has ended", one, two, (NOT_RUNNING, PROMOTED))
        cases.expect("and is not to be promoted", one.score() is None, one.score())
        ends(cases, "its promotion fails", one.act("promote"), NOT_RUNNING, "ocf-exit-reason:there is no board")
        ends(cases, "its start fails", one.act("start"), BAD_HERE, "entry 2 is another one")
        cases.expect("the second one serves on", two.partner(1).asks(TICK) == "ok 3")
        are(cases, "in the end", one, two, (NOT_RUNNING, PROMOTED))


def demoted_in_a_cut(cases, program, room):
    """The same, but for a manager that demotes the first one while the link is cut."""
    with both_serving(cases, program, room, "demoted", ALERTS) as (link, one, two, _):
        ends(cases, "the first one is demoted", one.act("demote"), OK, "nobody is followed")
        are(cases, "the first waits", one, two, (OK, PROMOTED))
        cases.expect("it is not to be promoted", one.score() is None, one.score())
        link.set("up")
        ends(cases, "its promotion fails", one.act("promote"), BAD_HERE, "entry 2 is another one")
        ends(cases, "and so does a monitor", one.act("monitor"), BAD_HERE, "entry 2 is another one")
        cases.expect("it has not served", one.status().startswith("following 127.0.0.1:0 parted\n"), one.status())
        cases.expect("the second one serves on", two.partner(1).asks(TICK) == "ok 3")


def replaced(cases, program, room):
    """The second board has taken over, and has no entry of its own: the first one's file goes on from that."""
    with both_serving(cases, program, room, "replaced") as (link, one, two, term):
        link.set("up")
        time.sleep(2)
        told = f"replaced {term}: 3 entries, and 2 there"
        ends(cases, "the first one is demoted, and says that it waits", one.act("demote"), OK, told)
        are(cases, "the first waits", one, two, (OK, PROMOTED))
        ends(cases, "it is not promoted", one.act("promote"), ERROR, f"has taken over: {told}")
        cases.expect("and told not to be", one.score() is None, one.score())
        are(cases, "the first waits on", one, two, (OK, PROMOTED))
        ends(cases, "the second one is demoted", two.act("demote"), OK)
        parted = two.says(rf"^parted term \d+ is there, and {term} here ")
        cases.expect("it does not follow one of an earlier term", parted, two.status())
        are(cases, "both wait", one, two, (OK, OK))
        scores = one.score(), two.score()
        cases.expect("neither is to be promoted", scores == (None, None), scores)
        done = two.act("promote", CRM_meta_timeout="30000")
        ends(cases, "a promotion of the second one ends", done, ERROR, "it has not all: part: 2 entries, and 3 there")
        cases.expect("and says why", f": parted term {term_of(one.kept)} is there, and {term} here " in done[1], done)
        ends(cases, "the first one is not promoted still", one.act("promote"), ERROR, f"replaced {term}")
        mended_by_hand(cases, one, two, term)


def mended_by_hand(cases, one, two, term):
    """A person keeps the first one's file elsewhere: it follows the second one, which can be promoted then."""
    cases.expect("the first one is stopped", one.act("stop")[0] == OK)
    moved, own = one.kept.with_name("kept-elsewhere"), two.kept.read_bytes()
    for file in (one.kept, file_of(one.kept)):
        file.rename(file_of(moved) if file.suffix == ".term" else moved)
    cases.expect("without its file it is begun", one.act("start")[0] == OK and gets(one, 100), one.status())
    cases.expect("it has the other one's journal", one.kept.read_bytes() == own, one.status())
    is_same(cases, "mended", one, term)
    cases.expect("the second one may be promoted", gets(two, 100) and two.act("promote")[0] == OK, two.status())
    cases.expect("a partner goes on", two.partner(1).asks(TICK) == "ok 2" and one.has(3), one.status())
    is_later(cases, "mended", two, term)
    are(cases, "mended", one, two, (OK, PROMOTED))
    cases.expect("it is stopped once more", one.act("stop")[0] == OK)
    for file in (moved, file_of(moved)):
        file.rename(file_of(one.kept) if file.suffix == ".term" else one.kept)


def told_before(cases, program, room):
    """A board that follows is told of a later term, in which it can't be, before the link is cut: it keeps that."""
    with two_machines(cases, program, room, "told") as (link, one, two):
        term = begun(cases, one, two)
        link.set("down")
        one.signal(signal.SIGKILL)
        # (as from an old copy of its disk)
        one.kept.write_bytes(one.kept.read_bytes().splitlines(True)[0])
        begins = one.act("start"), one.act("promote")
        cases.expect("one with an older file is promoted by hand", [it[0] for it in begins] == [OK, OK], begins)
        later = is_later(cases, "by hand", one, term)
        link.set("up")
        cases.expect("the second is told that it is behind", two.says("^parted there are only 1 entries "))
        cases.expect("and is not to be promoted", gets(two, None), two.score())
        link.set("down")
        own, begins = two.kept.read_bytes(), one.kept.read_bytes()
        ends(cases, "nor is it, where nobody is reached", two.act("promote"), ERROR, f": replaced {later}")
        are(cases, "it follows on", one, two, (PROMOTED, OK))
        link.set("up")
        time.sleep(2)
        ends(cases, "nor where it is", two.act("promote"), ERROR, f": replaced {later}: 2 entries, and 1 there")
        cases.expect("neither file is another one", [it.kept.read_bytes() for it in (one, two)] == [begins, own])
        cases.expect("nor its term", two.term() == term, two.term())


def silenced(cases, one, two, lose, find):
    """What one machine sends the other is lost in silence: the second is promoted, and then the first again."""
    term = begun(cases, one, two)
    lose()
    are(cases, "as it begins", one, two, (PROMOTED, OK))
    cases.expect("the second finds nobody", two.says("^parted "))
    are(cases, "nobody is found", one, two, (PROMOTED, OK))
    cases.expect("the second may be promoted as before", two.score() == 100, two.score())
    cases.expect("it is promoted", two.act("promote")[0] == OK)
    are(cases, "both serve, where nobody fences", one, two, (PROMOTED, PROMOTED))
    cases.expect("who serves is promoted already", one.act("promote") == two.act("promote") == (OK, ""))
    term = is_later(cases, "the second is promoted", two, term)
    find()
    cases.expect("the first one is demoted", one.act("demote")[0] == OK)
    cases.expect("it follows the second", gets(one, 100) and follows(one), one.status())
    is_same(cases, "demoted", one, term)
    cases.expect("a partner goes on", two.partner(1).asks(TICK) == "ok 2" and one.has(3), one.status())
    cases.expect("the first has all", gets(one, 100), one.status())
    lose()
    cases.expect("the first finds nobody", one.says("^parted "))
    ends(cases, "the second one is demoted meanwhile", two.act("demote"), OK, "nobody is followed")
    cases.expect("and waits", two.act("monitor")[0] == OK and two.score() is None, two.score())
    cases.expect("the first one is promoted", one.act("promote")[0] == OK)
    cases.expect("a partner goes on there", one.partner(1).asks(TICK) == "ok 3")
    are(cases, "switched in silence", one, two, (PROMOTED, OK))
    find()
    cases.expect("the second one follows then", gets(two, 100) and follows(two) and two.has(4), two.status())
    term = is_later(cases, "switched in silence", one, term)
    is_same(cases, "switched in silence", two, term)
    cases.expect("both files are the same", one.kept.read_bytes() == two.kept.read_bytes())


def first_unheard(cases, program, room):
    with two_machines(cases, program, room, "first-unheard") as (link, one, two):
        silenced(cases, one, two, lambda: link.near.lose(SECOND), lambda: link.near.find(SECOND))


def second_unheard(cases, program, room):
    with two_machines(cases, program, room, "second-unheard") as (link, one, two):
        silenced(cases, one, two, lambda: link.far.lose(FIRST), lambda: link.far.find(FIRST))


def hung(cases, program, room):
    """The other machine takes connections, and is silent: each action ends all the same."""
    with two_boards(room, program, "hung") as (one, two):
        begun(cases, one, two)
        one.signal(signal.SIGSTOP)
        cases.expect("the second finds nobody", two.says("^parted "))
        cases.expect("a monitor ends", two.act("monitor")[0] == OK and two.score() == 100, two.score())
        cases.expect("it is promoted", two.act("promote")[0] == OK)
        ends(cases, "it is demoted, and waits", two.act("demote"), OK, "nobody is followed")
        cases.expect("that takes a part of its time", two.longest[0] < LIMIT / 2, two.longest)
        one.signal(signal.SIGCONT)
        cases.expect("the first one serves on", one.act("monitor")[0] == PROMOTED)
        parted = gets(two, None) and two.says("^parted term ")
        cases.expect("and is not followed, of an earlier term", parted, two.status())


def slow_one(cases, program, room):
    """In the other board's place is one that sends a byte now and then, for ever: a promotion ends all the same."""
    with two_boards(room, program, "slow") as (one, two):
        begun(cases, one, two)
        one.signal(signal.SIGKILL)
        cases.expect("the first one is gone", one.comes(lambda: one.act("monitor")[0] == NOT_RUNNING))
        host, _, port = one.parameters["watch"].split()[0].partition("=")[2].rpartition(":")
        with socket.create_server((host, int(port))) as server, contextlib.ExitStack() as at_end:
            threading.Thread(target=dribble, args=(server, at_end), daemon=True).start()
            ends(cases, "the second is promoted", two.act("promote"), OK)
            cases.expect("and serves", two.act("monitor")[0] == PROMOTED, two.status())
            cases.expect("in time", two.longest[0] < LIMIT / 2, two.longest)


def dribble(server, at_end):
    """Sends each who connects a byte a second."""

    def send(stream):
        with contextlib.suppress(OSError):
            while True:
                stream.sendall(b"t")
                time.sleep(1)

    with contextlib.suppress(OSError):
        while True:
            stream = at_end.enter_context(server.accept()[0])
            threading.Thread(target=send, args=(stream,), daemon=True).start()


# A program that is no board: it answers nothing, or as a board that follows, whatever it is asked, with --answers. With
# --closes it ends four seconds after it was told to, as a board whose displays take nothing.
NO_BOARD = r"""#!/usr/bin/env python3
import socket, sys, time
if "--answers" not in sys.argv:
    time.sleep(1000)
with socket.create_server(("127.0.0.1", int(sys.argv[sys.argv.index("--control") + 1]))) as server:
    while True:
        with server.accept()[0] as stream:
            asked = stream.makefile("rb").readline()
            stream.sendall(b"following nobody\nlast none\n" if asked == b"status\n" else b"promoting\n")
        if asked == b"close\n" and "--closes" in sys.argv:
            time.sleep(4)
            sys.exit(0)
"""


def never_ready(cases, program, room):
    """Boards that never answer, or never serve: the action ends before its time is over, and says why."""
    with two_boards(room, program, "never") as (one, two):
        begins = {"CRM_meta_timeout": "12000"}
        for machine in (one, two):
            no_board = machine.room / "no-board"
            no_board.write_text(NO_BOARD)
            no_board.chmod(0o755)
            machine.parameters["binary"] = str(no_board)
        ends(cases, "a start ends", one.act("start", **begins), ERROR, "does not answer yet")
        cases.expect("in time", one.longest[0] < 12, one.longest)
        cases.expect("a monitor tells it", one.act("monitor")[0] == ERROR)
        ends(cases, "a promotion says so", one.act("promote"), ERROR, "ocf-exit-reason:there is no board")
        cases.expect("it is stopped", one.act("stop")[0] == OK and one.act("monitor")[0] == NOT_RUNNING)
        with two.words.open("a") as file:
            file.write("--answers\n")
        cases.expect("one that answers is begun", two.act("start")[0] == OK)
        ends(cases, "its promotion ends", two.act("promote", **begins), ERROR, "does not serve: promoting")
        ends(cases, "it is stopped, and killed", two.act("stop", CRM_meta_timeout="20000"), OK, "killed")
        with two.words.open("a") as file:
            file.write("--closes\n")
        cases.expect("one that closes late is begun", two.act("start")[0] == OK)
        cases.expect("it is stopped, and not killed", two.act("stop") == (OK, ""), two.longest)
        cases.expect("each in time", two.longest[0] < 20, two.longest)


ON_LOOPBACK = (day, down, other_histories, silent, described, as_nobody, hung, slow_one, never_ready)
ON_MACHINES = (fenced, unfenced, second_demoted, demoted_in_a_cut, replaced, told_before, first_unheard, second_unheard)


def main():
    asked = words(__doc__).parse_args()
    program, cases, why = asked.program.resolve(), Cases(), reason_against()
    if why:
        print(f"left out: all that takes two machines: {why}")
    parts = {it: Cases() for it in (*ON_LOOPBACK, *(() if why else ON_MACHINES))}
    with tempfile.TemporaryDirectory() as made, ThreadPoolExecutor(TOGETHER) as pool:
        room = pathlib.Path(made)
        room.chmod(0o755)
        running = [pool.submit(part, counted, program, room) for part, counted in parts.items()]
        for (part, counted), it in zip(parts.items(), running):
            fault = it.exception()
            seen = fault and "".join(traceback.format_exception(fault))
            counted.expect(f"{part.__name__}: to the end", not fault, seen)
    for part in parts.values():
        cases.count += part.count
        cases.failed += part.failed
    return cases.end()


if __name__ == "__main__":
    sys.exit(main())
