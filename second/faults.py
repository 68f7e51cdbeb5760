#!/usr/bin/env python3
"""Shows that the comparison tells faulty engines apart.

faults.py [-v] [WORD ..]     every fault, or those whose label holds one of the words; -v: how each was told apart

Each fault is one edit in a copy of engine.c. The copy takes the place of the
engine under test (through shim.c), and the quick comparison must find it. The
engine without a fault must pass. Prints 'N faults, N told apart'.
"""
import concurrent.futures
import os
import pathlib
import shlex
import shutil
import subprocess
import sys
import tempfile

HERE = pathlib.Path(__file__).resolve().parent
CC = shlex.split(os.environ.get("CC") or "gcc")
OBJECTS = ["engine", "case", "make", "shrink", "check", "parts", "part_inputs",
           "part_refusals", "part_calls", "compare"]

# What is wrong, the text in engine.c (it stands there once), and the text instead.
FAULTS = [
    # The book
    ("65 filters pass", "MOST_FILTERS = 64", "MOST_FILTERS = 65"),
    ("513 states pass", "MOST_STATES = 512", "MOST_STATES = 513"),
    ("equal ids pass", "entry_id(b, f - 1) >= entry_id(b, f)", "entry_id(b, f - 1) > entry_id(b, f)"),
    ("a filter without states passes", "if (entry_states(b, f) == 0) return false;", ""),
    ("the end of the book is not checked", "    return at == len;\n}\n\n/* Is this state a row",
     "    return at <= len;\n}\n\n/* Is this state a row"),
    ("a start is not checked", "if (entry_start(b, f) != at) return false;", ""),
    ("TRUE's constant bytes may be anything",
     "two_bytes(s + 2) == 0 && four_bytes(s + 4) == 0;", "two_bytes(s + 2) == 0;"),
    ("a seventh relation passes", "s[1] <= AT_LEAST && ", "s[1] <= AT_LEAST + 1 && "),
    ("LEAF's bytes 2-3 may be anything", "s[1] <= AT_LEAST && two_bytes(s + 2) == 0;", "s[1] <= AT_LEAST;"),
    ("NOT's bytes 6-7 may be anything", "case KIND_NOT: return s[1] == 0 && four_bytes(s + 4) == 0;",
     "case KIND_NOT: return s[1] == 0 && two_bytes(s + 4) == 0;"),
    ("STEP's byte 1 may be anything", "case KIND_STEP: return s[1] == 0 && ", "case KIND_STEP: return "),
    ("AND may lead to itself", "case KIND_AND: return at_2 > k", "case KIND_AND: return at_2 >= k"),
    ("OR's second successor may be lower", "case KIND_OR: return at_2 > k && at_2 < n && at_4 > k",
     "case KIND_OR: return at_2 > k && at_2 < n"),
    ("NOT may lead out of its body", "case KIND_NOT: return at_2 > k && at_2 < n;",
     "case KIND_NOT: return at_2 > k;"),
    ("STEP may lead one state too far", "return at_4 < n;", "return at_4 <= n;"),
    ("STEP must lead higher", "return at_4 < n;", "return at_4 < n && at_4 > k;"),
    ("7 is checked before 6", "if (!all_rows(b, len)) return 6;",
     "if (!all_lead_well(b)) return 7;\n    if (!all_rows(b, len)) return 6;"),
    ("3 is checked before 2", "if (two_bytes(b) > MOST_FILTERS) return 2;",
     "if (!ids_rise(b)) return 3;\n    if (two_bytes(b) > MOST_FILTERS) return 2;"),
    ("constants are unsigned", "if (r.constant > INT32_MAX) r.constant -= INT64_C(4294967296);", ""),
    ("a body's length is its states", "*length = 8 * (uint64_t)entry_states(b, f);",
     "*length = entry_states(b, f);"),
    ("a body of a refused book is given", "    *length = 0;\n    if (refuse_book(b, len) != 0) return;",
     "    *length = 0;\n    if (refuse_book(b, len) % 6 != 0) return;"),
    # The day file
    ("4,097 messages pass", "MOST_MESSAGES = 4096", "MOST_MESSAGES = 4097"),
    ("a byte too many passes", "MOST_DAY_BYTES = 1048576", "MOST_DAY_BYTES = 1048577"),
    ("lengths are added in 32 bits", "uint64_t at = 2 + 8 * (uint64_t)two_bytes(d);",
     "uint32_t at = 2 + 8 * two_bytes(d);"),
    ("bytes after the last message pass", "    return at == len;\n}\n\nstatic unsigned refuse_run",
     "    return at <= len;\n}\n\nstatic unsigned refuse_run"),
    ("one answer number more is wanted", "answers_len < 3 * (size_t)two_bytes(d)",
     "answers_len <= 3 * (size_t)two_bytes(d)"),
    ("12 is checked before 11", "    if (answers_len < 3", "    if (workspace_len < WORKSPACE) return 12;\n    if (answers_len < 3"),
    ("a workspace of 649 passes", "if (workspace_len < WORKSPACE) return 12;",
     "if (workspace_len + 1 < WORKSPACE) return 12;"),
    # Values
    ("CR is not stripped", "c == '\\r' || ", ""),
    ("only the front is stripped", "while (text < end && is_blank(end[-1])) end--;", ""),
    ("a plus is a sign", "bool minus = text < end && *text == '-';\n    if (minus) text++;",
     "bool minus = text < end && *text == '-';\n    if (minus || (text < end && *text == '+')) text++;"),
    ("no digits are 0", "if (text == end) return NO_NUMBER;", ""),
    ("long numbers wrap", "if (size < INT64_C(10000000000)) size = 10 * size + (*text - '0');",
     "size = (int64_t)(10 * (uint64_t)size + (uint64_t)(*text - '0'));"),
    ("too long to be a number is out of range", "if (size < INT64_C(10000000000)) size =",
     "if (size > INT64_C(99999999999)) return OUT_OF_RANGE;\n        size ="),
    ("the least value is refused", "*value < INT32_MIN", "*value <= INT32_MIN"),
    ("2147483648 passes", "*value > INT32_MAX ?", "*value > INT64_C(2147483648) ?"),
    # Messages
    ("a second top element passes", "return is_element(label) && here->first_child == NONE;",
     "return is_element(label);"),
    ("an attribute at the top passes", "return is_element(label) && here->first_child == NONE;",
     "return here->first_child == NONE;"),
    ("an attribute may hold things", "if (is_attribute(here->label)) return false;", ""),
    ("an element after text passes", "    if (here->has_text) return false;\n", ""),
    ("an attribute after a child passes", "return is_element(label) || !here->has_child_element;",
     "return true;"),
    ("a 65th start passes", "if (t->open == MOST_OPEN) return 25;", "if (t->open > MOST_OPEN) return 25;"),
    ("25 is checked before 24", "if (!start_allowed(t, label)) return 24;",
     "if (t->open == MOST_OPEN) return 25;\n    if (!start_allowed(t, label)) return 24;"),
    ("24 is checked before 23", "if (!is_element(label) && !is_attribute(label)) return 23;",
     "if (!start_allowed(t, label)) return 24;\n    if (!is_element(label) && !is_attribute(label)) return 23;"),
    ("a second text passes", "t->at == ROOT || here->has_text || here->has_child_element",
     "t->at == ROOT || here->has_child_element"),
    ("an empty text is no text", "here->has_text = true;", "here->has_text = len > 0;"),
    ("a text after a child passes", "here->has_text || here->has_child_element) return 26;",
     "here->has_text) return 26;"),
    ("27 is checked before 26", "    if (t->at == ROOT || here->has_text",
     "    int64_t v;\n    if (read_value(text, len, &v) == OUT_OF_RANGE) return 27;\n    if (t->at == ROOT || here->has_text"),
    ("any end closes", "if (t->at == ROOT || t->node[t->at].label != label) return 28;",
     "if (t->at == ROOT) return 28;"),
    ("22 is checked before 21", "if (e[0] < 1 || e[0] > 3) return 21;",
     "if (left < 2) return 22;\n    if (e[0] < 1 || e[0] > 3) return 21;"),
    ("a kind of 0 is a start", "if (e[0] < 1 || e[0] > 3) return 21;", "if (e[0] > 3) return 21;"),
    ("a text reads past the body", "if (left < 2 || left < 2 + (size_t)e[1]) return 22;",
     "if (left < 2) return 22;"),
    ("an open message passes", "t->node[ROOT].first_child == NONE || t->at != ROOT ? 29 : 0;",
     "t->node[ROOT].first_child == NONE ? 29 : 0;"),
    ("an empty message passes", "t->node[ROOT].first_child == NONE || t->at != ROOT ? 29 : 0;",
     "t->at != ROOT ? 29 : 0;"),
    ("a message that is read has a place", "if (t->refusal == 0) t->place = 0;", ""),
    # The match rule
    ("any element fits attributes", "if (step_label == ANY_ELEMENT) return is_element(label);",
     "if (step_label == ANY_ELEMENT) return true;"),
    ("any attribute fits none", "if (step_label == ANY_ATTRIBUTE) return is_attribute(label);", ""),
    ("a label of no node fits", "return label > ANY_ATTRIBUTE && label <= LAST_LABEL;",
     "return label > ANY_ATTRIBUTE;"),
    ("at most is less", "case AT_MOST: return value <= constant;", "case AT_MOST: return value < constant;"),
    ("greater is at least", "case GREATER: return value > constant;", "case GREATER: return value >= constant;"),
    ("no value is unequal", "return n->has_value && stands(",
     "return (n->has_value || s->relation == UNEQUAL) && stands("),
    ("AND is its first successor", "yes = matches(m, q->first, n) && matches(m, q->second, n);",
     "yes = matches(m, q->first, n);"),
    ("only the first child is looked at", "c != NONE; c = all[c].next)", "c != NONE; c = NONE)"),
    ("the label of a step is not looked at", "if (fits(s->label, all[c].label) && matches(m, s->first, c))",
     "if (matches(m, s->first, c))"),
    # Questions, counts and slots of the run
    ("a refused message has filters", "t->refusal == 0 ? true_filters(&m) : 0;", "true_filters(&m);"),
    ("a refused message asks nothing", "i < t->closings; i++) add_question",
     "i < (t->refusal ? 0 : t->closings); i++) add_question"),
    ("questions hold only STEP states", "s->kind == KIND_LEAF || s->kind == KIND_STEP;", "s->kind == KIND_STEP;"),
    ("questions hold every state", "s->kind == KIND_LEAF || s->kind == KIND_STEP;", "true;"),
    ("answers do not look at the label", "s->kind == KIND_STEP && fits(s->label, q.number[SET]) && matches",
     "s->kind == KIND_STEP && matches"),
    ("the label is no part of a question", "memcmp(a, b, QUESTION * sizeof *a)", "memcmp(a, b, SET * sizeof *a)"),
    ("more than 4,096 slots", "return memory_len / SLOT < MOST_SLOTS ? memory_len / SLOT : MOST_SLOTS;",
     "return memory_len / SLOT;"),
    ("one slot too few", "first[i] == i && r->filled < slots)", "first[i] == i && r->filled + 1 < slots)"),
    ("every question is anew", "if (first[i] == i || !kept[first[i]]) r->anew++;", "r->anew++;"),
    ("only first askings are anew", "if (first[i] == i || !kept[first[i]]) r->anew++;",
     "if (first[i] == i) r->anew++;"),
    ("answers are not kept", "memcpy(memory + SLOT * r->filled, list->item[i].number, sizeof list->item[i]);",
     "memcpy(memory + SLOT * r->filled, list->item[i].number, QUESTION * sizeof *memory);"),
    ("the run leaves the workspace's last number",
     "count_and_keep(&list, slots_in(memory_len), memory, &r);\n    memset(workspace, 0, WORKSPACE * ",
     "count_and_keep(&list, slots_in(memory_len), memory, &r);\n    memset(workspace, 0, (WORKSPACE - 1) * "),
    ("the run writes past the workspace",
     "count_and_keep(&list, slots_in(memory_len), memory, &r);\n    memset(workspace, 0, WORKSPACE * ",
     "count_and_keep(&list, slots_in(memory_len), memory, &r);\n    memset(workspace, 0, (WORKSPACE + 1) * "),
    # The inner call
    ("the set's own AND, OR and NOT stay", "    for (unsigned k = b->states; k-- > 0;) {\n        const state *s = &b->state[k];\n",
     "    for (unsigned k = b->states; k-- > 0;) {\n        const state *s = &b->state[k];\n"
     "        holds[k] = has(set, k);\n        if (holds[k]) continue;\n"),
    ("the last such slot answers", "for (uint64_t i = 0; i < a->filled; i++) {", "for (uint64_t i = a->filled; i-- > 0;) {"),
    ("slots that are not filled answer", "for (uint64_t i = 0; i < a->filled; i++) {",
     "for (uint64_t i = 0; i < a->slots; i++) {"),
    ("kept answers are worked out again", "memcpy(answer, slot + QUESTION, SET * sizeof *answer);",
     "work_out(a->book, asked, answer);"),
    ("a kept answer counts as anew", "memcpy(answer, slot + QUESTION, SET * sizeof *answer);",
     "memcpy(answer, slot + QUESTION, SET * sizeof *answer);\n            a->anew++;"),
    ("the last slot is never filled", "if (a->filled < a->slots) {", "if (a->filled + 1 < a->slots) {"),
    ("a slot's answer is not written", "memcpy(slot + QUESTION, answer, SET * sizeof *slot);", ""),
    ("a long answer is taken", "answer_len != SET ? 18", "answer_len < SET ? 18"),
    ("19 is not given for counts", "? 14 : anew >= COUNT_END ? 19 : 0", "? 14 : 0"),
    ("14 is given by 19's number", "? 14 : anew >= COUNT_END ? 19 : 0", "? 19 : anew >= COUNT_END ? 19 : 0"),
    ("19 comes before 14", "filled > slots_in(memory_len) ? 14 : anew >= COUNT_END ? 19 : 0",
     "anew >= COUNT_END ? 19 : filled > slots_in(memory_len) ? 14 : 0"),
    ("14 comes before 18", "    r.refusal = asked_len != QUESTION || answer_len",
     "    r.refusal = filled > slots_in(memory_len) ? 14 : 0;\n    if (r.refusal != 0) return r;\n"
     "    r.refusal = asked_len != QUESTION || answer_len"),
    ("full slots are refused", "filled > slots_in(memory_len) ? 14 : anew", "filled >= slots_in(memory_len) ? 14 : anew"),
    # The pass
    ("answers take each other's place", "set[i] |= more[i];", "set[i] = more[i];"),
    ("answers are cut down to the book's states", "join(set[closing->parent], answer);",
     "for (unsigned i = a->book->states; i < 512; i++) answer[i / 64] &= ~(UINT64_C(1) << i % 64);\n"
     "        join(set[closing->parent], answer);"),
    ("the root is not completed", "if (holds[b->top[f]])", "if (has(set, b->top[f]))"),
    ("a text takes the set's place", "put_leaves(a->book, closing, set[t->closed[i]]);",
     "if (closing->has_text) memset(set[t->closed[i]], 0, sizeof set[0]);\n"
     "        put_leaves(a->book, closing, set[t->closed[i]]);"),
    ("the pass counts from 0", "return (esq_result){0, asked, a.anew, a.filled};",
     "return (esq_result){0, asked, a.anew - anew, a.filled};"),
    ("the pass refuses full slots", "r.refusal = filled > slots_in(memory_len) ? 14 : 0;",
     "r.refusal = filled >= slots_in(memory_len) ? 14 : 0;"),
    ("asked of 2 to the 63 passes", "asked < COUNT_END && anew < COUNT_END ? 0 : 19", "anew < COUNT_END ? 0 : 19"),
]


def compile_c(source, target, *flags):
    subprocess.run([*CC, "-std=c11", "-I", str(HERE), *flags, "-c", str(source), "-o", str(target)], check=True)


def put_fault(text, fault):
    label, old, new = fault
    if text.count(old) != 1:
        sys.exit(f"'{label}': its text stands {text.count(old)} times in engine.c")
    return text.replace(old, new)


def compare(room, engine_text):
    """Compares the given engine; gives back whether it passed, and the first line printed."""
    folder = pathlib.Path(tempfile.mkdtemp(dir=room))
    (folder / "engine.c").write_text(engine_text)
    shutil.copy(HERE / "shim.c", folder)
    compile_c(folder / "shim.c", folder / "shim.o", "-O0", "-w")
    program = folder / "compare"
    objects = [str(room / f"{one}.o") for one in OBJECTS]
    subprocess.run([*CC, *objects, str(folder / "shim.o"), "-o", str(program)], check=True)
    done = subprocess.run([str(program), "1", "quick"], capture_output=True, text=True, errors="replace")
    if done.returncode not in (0, 1):
        sys.exit(f"the comparison ended with {done.returncode}: {done.stderr}")
    return done.returncode == 0, done.stdout.split("\n", 1)[0]


def chosen():
    words = [word for word in sys.argv[1:] if word != "-v"]
    return [fault for fault in FAULTS if not words or any(word in fault[0] for word in words)]


def main():
    text = (HERE / "engine.c").read_text()
    faulty = [(fault[0], put_fault(text, fault)) for fault in chosen()]
    missed = []
    with tempfile.TemporaryDirectory() as name, concurrent.futures.ThreadPoolExecutor(os.cpu_count()) as pool:
        room = pathlib.Path(name)
        list(pool.map(lambda one: compile_c(HERE / f"{one}.c", room / f"{one}.o", "-O1"), OBJECTS))
        answers = pool.map(lambda engine_text: compare(room, engine_text), [text] + [changed for _, changed in faulty])
        passed, line = next(answers)
        if not passed:
            pool.shutdown(cancel_futures=True)
            sys.exit(f"the engine without a fault does not pass: {line}")
        for (label, _), (passed, line) in zip(faulty, answers):
            if passed:
                missed.append(label)
            if "-v" in sys.argv[1:]:
                print(f"{label}: {line}", flush=True)
    for label in missed:
        print(f"not told apart: {label}")
    print(f"{len(faulty)} faults, {len(faulty) - len(missed)} told apart")
    sys.exit(1 if missed or not faulty else 0)


if __name__ == "__main__":
    main()
