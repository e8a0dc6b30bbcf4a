"""Plants bodies that no contract refuses, and sees that a test does: plants.py [WORD..], those whose names have such a word, or all.

Each plant is put into a copy of the crates below a crate of tests, or below a program. There `rt try`, which needs no proof, has to say that
this test failed, or the program has to find this conversation wrong, or to print something else than its `stdout`. What does not compile, or
does not end in time, counts as not refused. Ends with status 1 where a plant was not refused."""

import os
import re
import shutil
import subprocess
import sys
import tempfile

from twins import TOP, below, text, uses

# How many seconds a test or a program may run, once it is built.
SECONDS = "600"

ACTIONS, GATES = "gs_tree_store/src/actions.rt", "gs_gates/src"
SHARED_STORES, SHARED_DOORS = "gs_shared/src/shared_stores.rt", "gs_shared/src/doors.rt"
SERVING, WRITING = "gs_session/src/serving.rt", "gs_session/src/writing.rt"
LINES, WORKERS = "gs_workers/src/lines.rt", "gs_workers/src/workers.rt"
BIRTH = "let birth = books.versions.commit() + 1;\n    let merged"
FREES_NODES, FREES_RECORDS = "reclaim(&mut self.books.pool, &self.books.versions, ", "self.books.records.reclaim(&self.books.versions, "
NODES_FIRST = f"let nodes = {FREES_NODES}count);\n        let left = count - nodes.freed;\n        let records = {FREES_RECORDS}left);"
RECORDS_FIRST = f"let records = {FREES_RECORDS}count);\n        let left = count - records.freed;\n        let nodes = {FREES_NODES}left);"
OF_DEFAULT = "gs_event::Scope::One(gs_term::Target::Default)"
LOCKED = "let asked = EventAsk::by(&event);\n        let form"

# The name of each plant, its file, what stands there once, what takes its place, and who has to refuse it: a crate and one of its
# tests, a program and a conversation of its input, or a program and nothing.
PLANTS = [
    ("a session ends in silence in the place of a 503", "gs_session/src/outcomes.rt",
     "    let mut text = Vec::new(alloc);\n    match push_reply(", "    if status == 503 {\n        return stop(alloc);\n    }\n    let mut text = Vec::new(alloc);\n    match push_reply(",
     [("gs_session_examples", "an upload for whose second triple no node is left")]),
    ("a connection that was served whole ends in a fault", SERVING,
     "Ok(true) => return Ok(()),", "Ok(true) => return Err(ServeFault::Read),",
     [("gs_once_tests", "what_is_asked_for_is_done"), ("gs_session_examples", "put, get, delete and get of a graph")]),
    ("nothing is flushed before a read", SERVING,
     "match writer.flush() {\n        Ok(()) => read_more", "match Ok::<(), std::io::Error>(()) {\n        Ok(()) => read_more",
     [("gs_once_tests", "a_failed_read_write_or_flush_is_said"), ("gs_session_examples", "put, get, delete and get of a graph")]),
    ("a connection has 100,000 rounds", SERVING,
     "for _ in 0..u64::MAX {\n        match round(", "for _ in 0..100_000u64 {\n        match round(",
     [("gs_once_tests", "a_read_that_was_interrupted_is_made_again")]),
    ("a text has 100,000 writes", WRITING,
     "for _ in 0..u64::MAX {", "for _ in 0..100_000u64 {",
     [("gs_once_tests", "a_write_that_was_interrupted_is_made_again")]),
    ("a pin is of the default graph", SHARED_STORES,
     LOCKED, f"let mut event = match event {{\n            Event::Seat(seat, gs_event::Action::Pin(_)) => Event::Seat(seat, gs_event::Action::Pin({OF_DEFAULT})),\n            other => other,\n        }};\n        {LOCKED}",
     [("gs_shared_tests", "write_read_back"), ("gs_lock_tests", "same_answers")]),
    ("a question about all graphs is one about the default graph", SHARED_STORES,
     LOCKED, f"let mut event = match event {{\n            Event::Seat(seat, gs_event::Action::Head(gs_event::Scope::All)) => Event::Seat(seat, gs_event::Action::Head({OF_DEFAULT})),\n            other => other,\n        }};\n        {LOCKED}",
     [("gs_lock_thread_tests", "four_threads_leave_a_page_that_replays")]),
    ("a condition is dropped at the lock", SHARED_STORES,
     LOCKED, f"let mut event = match event {{\n            Event::Seat(seat, gs_event::Action::Open(kind, _)) => Event::Seat(seat, gs_event::Action::Open(kind, None)),\n            other => other,\n        }};\n        {LOCKED}",
     [("gs_lock_tests", "same_answers_on_condition")]),
    ("a door reports another commit number", SHARED_DOORS,
     "self.store.event(self.rt, &mut self.pass, event)",
     "match self.store.event(self.rt, &mut self.pass, event) {\n            Answer::Pinned(status, _) => Answer::Pinned(status, 0),\n            other => other,\n        }",
     [("gs_lock_tests", "same_answers")]),
    ("the store takes what is refused to a pass", SHARED_STORES,
     "return Answer::Refused(Refusal::BadSeat);",
     "let asked = EventAsk::by(&event);\n            let _ = self.lock.lock(rt).event(rt, &self.cell, pass, &mut event, asked, None);\n            return Answer::Refused(Refusal::BadSeat);",
     [("gs_shared_tests", "no_pass_acts_for_another_seat")]),
    ("a reclaimer that does not rest", f"{GATES}/reclaimers.rt",
     "thread::sleep(clock, rest_after(since(clock, start)));", "let _ = rest_after(since(clock, start));",
     [("gs_gates_tests", "each_sweep_is_followed_by_a_rest")]),
    ("a rest that is measured before its sweep", f"{GATES}/reclaimers.rt",
     "    sweep(door);\n    thread::sleep(clock, rest_after(since(clock, start)));", "    let rest = rest_after(since(clock, start));\n    sweep(door);\n    thread::sleep(clock, rest);",
     [("gs_gates_tests", "a_rest_is_measured_over_its_sweep")]),
    ("a worker that looks for notes before its event", f"{GATES}/notes.rt",
     "let answer = self.door.event(event);\n        if awaited.ends_by(&answer) && self.notes.is_empty() {",
     "let none_waits = self.notes.is_empty();\n        let answer = self.door.event(event);\n        if awaited.ends_by(&answer) && none_waits {",
     [("gs_gates_tests", "a_note_that_is_taken_before_the_end_is_followed_by_another")]),
    ("a counter tells at every failure", f"{GATES}/counters.rt",
     "may_tell(told, now)\n            && self", "now >= told\n            && self",
     [("gs_gates_tests", "a_number_is_told_once_a_second"), ("gs_gates_tests", "two_threads_tell_each_failure_once")]),
    ("a counter tells a number again with the next one", f"{GATES}/counters.rt",
     "self.count.swap(0, Ordering::SeqCst)", "self.count.load(Ordering::SeqCst)",
     [("gs_gates_tests", "two_threads_tell_each_failure_once")]),
    ("a worker hears a client for ever after its last reply", f"{GATES}/lingering.rt",
     "let now = Instant::now(clock).ok();", "let now = start;",
     [("gs_gates_tests", "a_client_that_sends_on_is_heard_for_its_time"), ("gs_workers_tests", "a_client_that_sends_on_is_cut_off"),
      ("gs_workers_tests", "a_client_that_sends_on_does_not_keep_its_worker")]),
    ("a worker hears a client for a second though nobody waits", f"{GATES}/lingering.rt",
     "was_heard(start, now, whole, others.has_others())", "was_heard(start, now, whole, true)",
     [("gs_workers_tests", "a_client_that_sends_on_for_less_is_heard_to_its_end")]),
    ("a worker hears no client while others wait", f"{GATES}/lingering.rt",
     "if was_heard(start, now, whole, others.has_others())", "if others.has_others() || was_heard(start, now, whole, false)",
     [("gs_workers_tests", "one_that_sends_on_for_less_while_another_waits_is_heard")]),
    ("the time for a body begins anew with each byte", LINES,
     "if came < WINDOW_BYTES {", "if came < WINDOW_BYTES && came < 1 {",
     [("gs_workers_tests", "a_body_that_comes_byte_by_byte_ends")]),
    ("a head and its body have one time", LINES,
     "if heading.is_over() {\n                self.begin();", "if heading.is_over() {\n                self.state.came.set(0);",
     [("gs_workers_tests", "a_head_and_its_body_have_a_time_each")]),
    ("a body has one time however long it is", LINES,
     "} else {\n            self.begin();", "} else {\n            self.state.came.set(0);",
     [("gs_workers_tests", "each_8_kib_of_a_body_have_their_time")]),
    ("a worker writes on while its client takes nothing", LINES,
     "let left = self.left_since(start);", "let _ = start;\n        let left = self.patience;",
     [("gs_workers_tests", "a_client_that_takes_nothing_is_cut_off")]),
    ("a connection that takes no limits is dropped and not told", WORKERS,
     "gate.failed(Failure::Connection);\n        return None;", "return None;",
     [("gs_workers_tests", "a_dropped_connection_is_told")]),
    ("a server accepts where its gate wants nothing", "gs_servers/src/servers.rt",
     "if gate.ready() {", "if gate.ready() || limit.is_some() {",
     [("gs_servers_tests", "a_server_that_is_not_wanted_accepts_nothing")]),
    ("a worker hears a client for 1,024 reads", f"{GATES}/lingering.rt",
     "for _ in 0..u64::MAX {", "for _ in 0..1_024u64 {",
     [("gs_gates_tests", "a_client_that_sends_on_is_heard_for_its_time")]),
    ("no upload has memory", ACTIONS,
     BIRTH, "if books.request > 0 {\n        return Answer::Refused(Refusal::NoMemory);\n    }\n    " + BIRTH,
     [("gs_schedule_tests", "worked_schedules_print_what_they_must"), ("gs_run_tests", "a_run_over_each_store_answers_as_the_schedule_does")]),
    ("records are freed before nodes", "gs_tree_store/src/stores.rt",
     NODES_FIRST, RECORDS_FIRST,
     [("gs_store_schedules", "")]),
]


def of_program(folder, name):
    """Whether a program finds a conversation wrong, or prints something else than it should, and what it said of its end."""
    given, wanted = text(f"{folder}/stdin") if os.path.exists(f"{folder}/stdin") else "", text(f"{folder}/stdout")
    if name:
        given, wanted = re.search(rf"(?ms)^= {re.escape(name)}\n.*?(?:^\n|\Z)", given)[0], "1 conversations\n"
    ran = subprocess.run(["rt", "try", "--seconds", SECONDS], cwd=folder, input=given.encode(), capture_output=True)
    said, printed = ran.stderr.decode(errors="replace"), ran.stdout.decode(errors="replace")
    if not re.search(r"(?m)^run=ended", said):
        return False, said[-300:]
    other = [it for it in printed.split("\n") if it not in wanted.split("\n")]
    return printed != wanted, f"it prints {other[:1]}" if printed != wanted else "it prints what it should"


def of_test(folder, test):
    """Whether a test failed, and not for want of time; and what was said of it."""
    ran = subprocess.run(["rt", "try", "--test", "--seconds", SECONDS, "--", test], cwd=folder, stdin=subprocess.DEVNULL, capture_output=True)
    said = (ran.stdout + ran.stderr).decode(errors="replace")
    found = re.search(rf"(?ms)^test \S*{test} \.\.\. FAILED(.*?)(?=^test |\Z)", said)
    return (True, "it fails") if found and "no-answer" not in found[1] else (False, said[-300:])


def planted(crate, test, file, old, new, named):
    """Whether a plant is refused there, and how."""
    source = text(f"{TOP}/crates/{file}")
    if source.count(old) != 1:
        return False, f"its place stands {source.count(old)} times in {file}"
    crates = below(crate, named)
    if file.split("/")[0] not in crates:
        return False, f"{crate} does not stand on {file}"
    with tempfile.TemporaryDirectory(prefix="plants-") as room:
        for it in crates:
            shutil.copytree(f"{TOP}/crates/{it}", f"{room}/crates/{it}", ignore=shutil.ignore_patterns("out", "must-fail"))
        shutil.copy2(f"{TOP}/HANDLES", room)
        with open(f"{room}/crates.txt", "w", encoding="utf-8") as to:
            to.writelines(f"{line}\n" for line in text(f"{TOP}/crates.txt").split("\n") if re.match(r"\w*", line)[0] in crates)
        with open(f"{room}/crates/{file}", "w", encoding="utf-8") as to:
            to.write(source.replace(old, new))
        folder = f"{room}/crates/{crate}"
        return of_program(folder, test) if os.path.exists(f"{folder}/stdout") else of_test(folder, test)


def main(words):
    named, others = uses(), 0
    plants = [it for it in PLANTS if not words or any(word in it[0] for word in words)]
    for name, file, old, new, refusers in plants:
        for crate, test in refusers:
            is_refused, how = planted(crate, test, file, old, new, named)
            others += not is_refused
            print(f"{name}: {crate} {test}".rstrip() + (f": refused, {how}" if is_refused else f": NOT REFUSED: {how}"), flush=True)
    print(f"{len(plants)} plants, {others} times not refused")
    return 1 if others or not plants else 0


if __name__ == "__main__":
    sys.exit(main(sys.argv[1:]))
