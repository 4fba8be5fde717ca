"""A program that ends where it shouldn't, or says what is no reply: an exception each, and never a short listing."""

import os
import signal
import subprocess
import sys
import time

import pytest
import tstore
from conftest import CLIENT
from fakes import program

STOPS = {
    2: ("Usage", "tstore: usage"),
    3: ("Damaged", "tstore: damaged 00000001.layer"),
    4: ("DiskFault", "tstore: disk fault"),
    5: ("InputFault", "tstore: input fault"),
    6: ("OutputFault", "tstore: output fault"),
    7: ("OutOfMemory", "tstore: want of memory"),
    8: ("InputLimit", "tstore: input limit"),
    70: ("NotBuilt", "tstore: ts_cli failed"),
    0: ("Died", ""),
    1: ("Died", ""),
    9: ("Died", "killed"),
}


@pytest.mark.parametrize("status", STOPS)
@pytest.mark.parametrize("front", ["", "<a> <p> <b> .\n", "<a> <p> <b> .\n<a> <p> <c> .\ntot", "<a> <p> <b> .\ntotal 1"])
def test_each_stop_in_the_middle_of_a_reply(tmp_path, status, front):
    kind, said = STOPS[status]
    fake = program(tmp_path, f"opened()\nnext(lines)\nsay({front!r})\nsys.stderr.write({said!r})\nsys.exit({status})")
    store = tstore.open(tmp_path, program=fake)
    seen = []
    with pytest.raises(tstore.Stopped) as stopped:
        for it in store.list("00000001"):
            seen.append(it)
    assert type(stopped.value) is getattr(tstore, kind) and stopped.value.status == status and stopped.value.said == said
    assert len(seen) <= front.count(" .\n") and store.is_closed
    with pytest.raises(tstore.Closed) as closed:
        store.count("00000001")
    assert closed.value.__cause__ is stopped.value
    store.close()


@pytest.mark.parametrize("status", STOPS)
def test_each_stop_as_the_folder_is_opened(tmp_path, status):
    kind, said = STOPS[status]
    with pytest.raises(getattr(tstore, kind)):
        tstore.open(tmp_path, program=program(tmp_path, f"sys.stderr.write({said!r})\nsys.exit({status})"))


def test_a_damaged_folder(folder):
    (folder / "00000001.layer").write_text("plain 00000001 none\n+ <a> <p> <b>\n")
    with pytest.raises(tstore.Damaged) as damaged:
        tstore.open(folder)
    assert damaged.value.file == "00000001.layer" and damaged.value.status == 3


REPLIES = [
    (lambda it: it.count("00000001"), ["yes", "count", "count x", "count -1", "count 1 ", "count 1\ncount 1", "", "layer 00000001"]),
    (lambda it: it.has("00000001", ("<a>", "<p>", "<b>")), ["Yes", "yes no", "count 1", "yes\nno", ""]),
    (lambda it: it.base([]), ["layer 1", "layer 0000000A", "layer 00000001 ", "count 1", "layer 00000001\nlayer 00000002"]),
    (lambda it: it.label("a"), ["label b 0 none", "label a x none", "label a 0 1", "label a 0", "label a 0 none\nmore"]),
    (lambda it: it.new_label("a"), ["label a 1 none", "label a 0 00000001", "label A 0 none"]),
    (lambda it: it.set_label("a", 3, None), ["label a 3 none", "label a 4 00000001", "label a 5 none"]),
    (lambda it: it.labels(), ["total 1", "label a 0 none\ntotal 0", "total 0\ntotal 0", "label a 0\ntotal 1", "total", "more"]),
    (lambda it: it.layers(), ["layer 00000001 parent none\ntotal 2", "layer 00000001\ntotal 1", "<a> <p> <b> .\ntotal 1"]),
    (lambda it: list(it.list("00000001")), ["total 1", "<a> <p> <b> .\ntotal 2", "<a> <p> <b> .\ntotal", "<a> <p> <b> .\nmore", "total 0\ntotal 0"]),
    (lambda it: list(it.list("00000001")), ["<a> <p> .\ntotal 1", "<a> <p> <b>\ntotal 1", "<a> <p> b .\ntotal 1", "<a> _:p <b> .\ntotal 1", "\ntotal 0"]),
    (lambda it: it.cursor("00000001"), ["cursor c2 open", "cursor c1 closed", "cursor c1 open\nend"]),
]


@pytest.mark.parametrize("call, told", [(call, told) for call, replies in REPLIES for told in replies])
def test_what_is_no_reply(tmp_path, call, told):
    fake = program(tmp_path, f"opened()\nfor line in lines:\n    say({told + chr(10)!r}) if line != '\\n' else None")
    with tstore.open(tmp_path, program=fake) as store:
        with pytest.raises(tstore.BadReply):
            call(store)


@pytest.mark.parametrize("told", ["<a> <p> <b> .\nmore", "end\nend", "more", "total 0", "<a> <p> <b> .\n<a> <p> <b> .\nend", "<a> <p> <b> .\n" * 3 + "more"])
def test_what_is_no_piece_of_a_cursor(tmp_path, told):
    fake = program(tmp_path, f"opened()\nnext(lines)\nsay('cursor c1 open\\n')\nnext(lines)\nsay({told + chr(10)!r})\nnext(lines)")
    with tstore.open(tmp_path, program=fake) as store:
        with pytest.raises(tstore.BadReply):
            store.cursor("00000001", size=2).fetch(2)


def test_a_program_that_does_not_know_the_command(tmp_path):
    """Where a command with a body is none, each line of the body has a reply of its own."""
    fake = program(tmp_path, "opened()\nfor line in lines:\n    say('refused bad-command 2\\n')")
    with tstore.open(tmp_path, program=fake) as store:
        with pytest.raises(tstore.BadCommand):
            store.squash("00000001")
        with pytest.raises(tstore.BadReply):
            store.commit("00000001", [(f"<a{it}>", "<p>", "<b>") for it in range(100_000)])


def test_a_refusal_that_is_new(tmp_path):
    fake = program(tmp_path, "opened()\nfor line in lines:\n    say('refused by-moonlight 7\\n')")
    with tstore.open(tmp_path, program=fake) as store:
        with pytest.raises(tstore.Refused) as refused:
            store.count("00000001")
        assert type(refused.value) is tstore.Refused and refused.value.words == "by-moonlight 7"


def test_a_listing_cut_at_each_byte(tmp_path):
    whole = '<a> <p> <b> .\n<a> <p> "total 1" .\n_:x <p> "more"@en .\ntotal 3\n'
    cut = tmp_path / "cut"
    fake = program(tmp_path, f"opened()\nfor line in lines:\n    say({whole!r}[:int(open({str(cut)!r}).read())])\n    sys.exit(0)")
    for length in range(len(whole) + 1):
        cut.write_text(str(length))
        with tstore.open(tmp_path, program=fake) as store:
            if length < len(whole):
                with pytest.raises(tstore.Died):
                    list(store.list("00000001"))
            else:
                assert len(list(store.list("00000001"))) == 3


def test_the_program_killed_in_the_middle(folder):
    store = tstore.open(folder)
    layer = store.base((f"<http://example.org/subject/{it}>", "<http://example.org/predicate>", f'"value {it}"') for it in range(50_000))
    for start in (lambda it: it.list(layer), lambda it: it.cursor(layer, size=65_536)):
        listing = start(store)
        seen = [next(listing)]
        os.kill(store.pid, signal.SIGKILL)
        with pytest.raises((tstore.Died, tstore.Closed)) as died:
            if isinstance(listing, tstore.Cursor):
                store.count(layer)
            while True:
                seen.append(next(listing))
        assert len(seen) < 50_000 and getattr(died.value, "status", -9) == -9
        store = tstore.open(folder, wait=False)
        assert store.layers() == [(layer, None)]
    store.close()


def test_the_program_killed_in_the_middle_of_a_body(folder):
    store = tstore.open(folder)
    store.base([("<a>", "<p>", "<b>")])
    with pytest.raises(tstore.Died):
        os.kill(store.pid, signal.SIGSTOP)
        subprocess.Popen(["sh", "-c", f"sleep 0.3; kill -9 {store.pid}"])
        store.commit("00000001", [(f"<a{it}>", "<p>", "<b>") for it in range(100_000)])
    with tstore.open(folder) as other:
        assert len(other.layers()) == 1 and other.commit("00000001") == "00000002"


def child(folder, body):
    """Another Python with a store of the folder."""
    text = f"import os, sys, time\nsys.path.insert(0, {str(CLIENT)!r})\nimport tstore\nstore = tstore.open({str(folder)!r})\n{body}"
    return subprocess.Popen([sys.executable, "-c", text], stdout=subprocess.PIPE, text=True)


def test_this_side_killed(folder):
    """The folder is free again, and what was told is there."""
    for _ in range(5):
        it = child(folder, "print(store.base([('<a>', '<p>', '<b>')]), flush=True)\nlisting = store.list('00000001')\ntime.sleep(60)")
        layer = it.stdout.readline().strip()
        it.kill()
        it.wait()
        it.stdout.close()
        with tstore.open(folder) as store:
            assert store.layers()[-1].layer == layer


def test_a_process_that_was_forked(folder):
    """It may not use the store, and leaves it as it is when it ends."""
    it = child(
        folder,
        """
layer = store.base([("<a>", "<p>", "<b>")])
if not os.fork():
    try:
        store.count(layer)
    except tstore.Closed as error:
        print(error, flush=True)
    sys.exit(0)
os.wait()
print(store.count(layer), flush=True)
""",
    )
    assert it.communicate()[0] == "a store isn't shared with a process that was forked\n1\n"


def test_an_interrupt(folder):
    """One that comes in the middle of a reply ends the program: what follows couldn't be told from the rest of the reply."""
    it = child(
        folder,
        """
import signal, threading
store.base([("<a>", "<p>", "<b>")])
os.kill(store.pid, signal.SIGSTOP)
threading.Timer(0.5, lambda: os.kill(os.getpid(), signal.SIGINT)).start()
try:
    store.count("00000001")
except KeyboardInterrupt:
    print(store.is_closed, flush=True)
try:
    store.count("00000001")
except tstore.Closed as error:
    print(type(error.__cause__).__name__, flush=True)
""",
    )
    assert it.communicate()[0] == "True\nKeyboardInterrupt\n"


def test_what_the_launcher_says_goes_to_the_log(folder, store, caplog):
    it = child(folder, "print('open', flush=True)")
    time.sleep(2.5)
    store.close()
    assert it.communicate()[0] == "open\n"
    fake = program(folder, "sys.stderr.write('tstore: no lock on this folder\\n')\nsys.stderr.flush()\nopened()\nnext(lines, None)")
    with tstore.open(folder, program=fake):
        pass
    assert "no lock on this folder" in caplog.text
