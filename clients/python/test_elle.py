"""Tests of pgserial.jepsen: Elle's names of anomalies, the forms of histories, and random ones against all orders of their
operations.

    PGSERIAL=path/to/pgserial python3 clients/python/test_elle.py
"""

import itertools
import json
import os
import random
import subprocess
import sys
import tempfile
import unittest
from typing import Any, Dict, Iterator, List, NamedTuple, Optional, Sequence, Tuple

import brute_force
from pgserial import edn, jepsen
from test_jepsen import ANOMALIES, history

HERE = os.path.dirname(os.path.abspath(__file__))


def judged(text: str, words: Sequence[str] = ()) -> jepsen.Judged:
    """What is said of a history."""
    with tempfile.NamedTemporaryFile("w", encoding="utf-8", newline="") as file:
        file.write(text)
        file.flush()
        return jepsen.judged(file.name, words=words)


def op(kind: str, process: int, does: str, value: str) -> str:
    """A line of a history."""
    return f"{{:type :{kind}, :process {process}, :f :{does}, :value {value}}}\n"


class Names(unittest.TestCase):
    """The names of what is forbidden, as Adya and Elle have them."""

    NAMES = {
        "g0": "G0", "g1a": "G1a", "g1b": "G1b", "g1c": "G1c", "g-single": "G-single, read skew", "g2": "G2-item, write skew",
        "lost update": "G-single, lost update", "long fork": "G-nonadjacent, long fork", "incompatible order": "incompatible order",
        "duplicate elements": "duplicate elements", "garbage read": "garbage read", "internal": "internal",
    }  # fmt: skip
    # Of two registers that two have written nobody knows which write came second, where one value of each is read.
    OTHERS = {"g0, registers": "G-single, read skew"}

    def test_each_anomaly_has_its_name(self) -> None:
        for name, (wrong, right) in ANOMALIES.items():
            with self.subTest(name):
                told = judged(history(*wrong))
                self.assertEqual(", ".join(told.anomalies), self.OTHERS.get(name, self.NAMES[name.partition(",")[0]]))
                self.assertIn(f": {', '.join(told.anomalies)}\n", str(told))
                self.assertEqual((told.status, judged(history(*right)).anomalies), (5, ()))

    def named(self, *operations: str) -> str:
        return ", ".join(judged(history(*operations)).anomalies)

    def test_an_element_behind_one_that_was_aborted(self) -> None:
        self.assertEqual(self.named("fail [[:append x 1]]", "[[:append x 2]]", "[[:r x [1 2]]]"), "G1a")

    def test_an_append_between_two_of_another(self) -> None:
        self.assertEqual(self.named("[[:append x 1] [:append x 3]]", "[[:append x 2]]", "[[:r x [1 2 3]]]"), "G0")

    def test_an_append_between_a_read_and_an_append(self) -> None:
        self.assertEqual(self.named("[[:r x []] [:append x 2]]", "[[:append x 1]]", "[[:r x [1 2]]]"), "G-single")

    def test_two_reads_that_differ(self) -> None:
        self.assertEqual(self.named("[[:r x []] [:r x [1]]]", "[[:append x 1]]"), "internal")
        self.assertEqual(self.named("[[:r x nil] [:r x 1]]", "[[:w x 1]]"), "internal")

    def test_three_that_write_in_a_circle(self) -> None:
        three = ["[[:append x 1] [:append y 2]]", "[[:append y 1] [:append z 2]]", "[[:append z 1] [:append x 2]]"]
        self.assertEqual(self.named(*three, "[[:r x [1 2]] [:r y [1 2]] [:r z [2 1]]]"), "")
        self.assertEqual(self.named(*three, "[[:r x [2 1]] [:r y [2 1]] [:r z [2 1]]]"), "G0")

    def test_a_read_of_what_had_been_written_over_in_time(self) -> None:
        text = op("invoke", 0, "txn", "[[:append x 1]]") + op("ok", 0, "txn", "[[:append x 1]]")
        told = judged(text + op("invoke", 1, "txn", "[[:r x nil]]") + op("ok", 1, "txn", "[[:r x []]]"))
        self.assertEqual(told.anomalies, ("G-single-realtime",))

    def test_lines_are_those_of_the_history(self) -> None:
        told = judged(history(*ANOMALIES["g2, lists"][0]))
        self.assertRegex(told.lines[0], r"^[23] \(process-[01], \S+:[34]\) read lists k = ")

    def test_from_the_command_line(self) -> None:
        run = [sys.executable, "-B", "-m", "pgserial.jepsen", "--check", "-"]
        done = subprocess.run(run, input=history(*ANOMALIES["g0, lists"][0]), cwd=HERE, capture_output=True, text=True)
        self.assertEqual((done.returncode, done.stdout.splitlines()[-2:]), (5, ["anomalies: G0", "serializable: no"]), done.stderr)
        done = subprocess.run(run, input=history(*ANOMALIES["g0, lists"][1]), cwd=HERE, capture_output=True, text=True)
        self.assertEqual((done.returncode, done.stdout), (0, "serializable: yes\n"), done.stderr)
        stale = op("invoke", 0, "txn", "[[:w x 1]]") + op("ok", 0, "txn", "[[:w x 1]]") + op("invoke", 1, "txn", "[[:r x nil]]") + op("ok", 1, "txn", "[[:r x nil]]")
        done = subprocess.run([*run, "--no-time"], input=stale, cwd=HERE, capture_output=True, text=True)
        self.assertEqual((done.returncode, done.stdout), (0, "serializable: yes\n"), done.stderr)


# ---- other forms


def as_json(text: str) -> str:
    """A history of EDN as elle-cli reads it."""

    def plain(form: Any) -> Any:
        if isinstance(form, (edn.Keyword, edn.Symbol)):
            return form.name
        if isinstance(form, dict):
            return {str(plain(key)): plain(value) for key, value in form.items()}
        return [plain(each) for each in form] if isinstance(form, tuple) else form

    return json.dumps([plain(form) for form in edn.Reader(text).forms()])


def as_printed(text: str) -> str:
    """The same as Jepsen prints it."""
    told = []
    for form in edn.Reader(text).forms():
        process, kind, does, value = (edn.written(form.get(edn.Keyword(name))) for name in ("process", "type", "f", "value"))
        told.append(f"{process}\t{kind}\t{does}\t{value}\n")
    return "".join(told)


class Forms(unittest.TestCase):
    """A history as JSON and as Jepsen prints it says what it says as EDN."""

    def test_they_say_the_same(self) -> None:
        for name, sides in ANOMALIES.items():
            for operations in sides:
                text = history(*operations)
                with self.subTest(name, text=text):
                    wanted = jepsen.transcript(text)
                    self.assertEqual(jepsen.transcript(as_printed(text)), wanted)
                    self.assertEqual(jepsen.transcript(as_json(text).replace("}, {", "},\n{")), wanted.replace("'x'", "'\"x\"'").replace("'y'", "'\"y\"'"))

    def test_json_of_one_line_of_several_and_without_an_array(self) -> None:
        text = as_json(history("[[:w 1 2] [:append 3 4] [:r 5 nil]]", "[[:r 1 2] [:r 3 [4]] [:r 5 nil]]"))
        wanted = jepsen.transcript(text.replace("}, {", "}\n{").strip("[]"))
        told = json.loads(text)
        for other in (text.replace("}, {", "},\n{"), "\n".join(json.dumps(each, indent=1) for each in told), "[\n" + ",".join(map(json.dumps, told)).replace("}, {", "},\n\n{") + "\n]\n"):
            self.assertEqual([line for line in jepsen.transcript(other).split("\n") if not line.startswith("-- at")],
                             [line for line in wanted.split("\n") if not line.startswith("-- at")])  # fmt: skip
        self.assertEqual(judged(text).answer, "yes")

    def test_values_of_json(self) -> None:
        lines = '{"type": "invoke", "process": 0, "f": "txn", "value": [["w", "k", %s]]}\n{"type": "ok", "process": 0, "f": "txn", "value": [["w", "k", %s], ["r", "k", %s]]}\n'
        for value, other in (("1.5", "2.5"), ("true", "false"), ('"a b"', '"a"'), ("12345678901234567890", "1"), ('["a", 1]', "1"), ("1", "true"), ("1", '"1"')):
            with self.subTest(value):
                self.assertEqual(judged(lines % (value, value, value)).answer if value[0] != "[" else "yes", "yes")
                self.assertEqual(judged(lines % (value, value, other)).answer if value[0] != "[" else "no", "no")

    def test_the_log_of_jepsen_with_other_lines(self) -> None:
        text = as_printed(history("[[:w x 1]]", "[[:r x 1]]"))
        for before in ("INFO  jepsen.util - ", "2023-02-09 12:37:33,498{GMT}\tINFO\t[jepsen worker 0] jepsen.util: ", "INFO [2017-03-31 14:50:36,781] jepsen worker 4 - jepsen.util "):
            log = "a log begins\n" + "".join(before + line + "\n" for line in text.splitlines()) + "2023-02-09 12:37:34 INFO jepsen.core: done\n"
            with self.subTest(before):
                self.assertEqual([line for line in jepsen.transcript(log).split("\n") if not line.startswith("-- at")],
                                 [line for line in jepsen.transcript(text).split("\n") if not line.startswith("-- at")])  # fmt: skip

    def test_an_error_behind_a_value_and_the_nemesis(self) -> None:
        text = "0\t:invoke\t:txn\t[[:w x 1]]\n:nemesis\t:info\t:start\tnil\n0\t:info\t:txn\t[[:w x 1]]\t:timeout\n1\t:invoke\t:txn\t[[:r x nil]]\n1\t:ok\t:txn\t[[:r x 1]]\n"
        self.assertEqual(judged(text).answer, "yes")

    def test_what_is_none_is_refused_with_its_line(self) -> None:
        printed, text = as_printed(history("[[:w x 1]]")), as_json(history("[[:w x 1]]"))
        for bad, line in (
            (printed + "nothing\n", 3), (printed + "0\t:ok\t:txn\t[[:w x\n", 3), ("0\t:done\t:txn\tnil\n" + printed + "0 jepsen.util :ok \n", 4),
            (text.replace("}, {", "},\n{")[:-1], 2), (text[:-2], 1), (text + "\n]", 2), (text + "\n{}", 2), ('{"type": "gone"}', 1), ('[{"type": "ok", "process": {}}]', 1),
            ('[{"type": "ok", "process": 1, "value": [["w", "x"]]}]', 1), ('{"type": "ok", "process": 0, "value": []}\n5', 2), ('[{"a": ' + "[" * 100000, 1),
        ):  # fmt: skip
            with self.subTest(bad[-40:]), self.assertRaisesRegex(edn.Malformed, f"^history line {line}: "):
                jepsen.transcript(bad)

    def test_a_text_over_several_lines_and_a_form_over_several(self) -> None:
        text = '{:type :invoke :process 0\n :value [[:w "a\nb" 1]]}\n{:type :ok, :process 0,\n\n:value [[:w "a\nb"\n1]]}\n'
        self.assertEqual([(one.line, one.micros) for one in jepsen.transactions_of(text)], [(4, (("w", '"a\\nb"', "1"),))])
        with self.assertRaisesRegex(edn.Malformed, "^history line 9: "):
            jepsen.transcript(text + '{:type :ok :process 3 :value "\n\n\n')

    def test_lines_of_one_order_are_read_as_others_are(self) -> None:
        """Once a line has shown the order of entries, those behind it are read by it: what differs isn't."""
        first = op("invoke", 0, "txn", "[[:w x 1]]") + op("ok", 0, "txn", "[[:w x 1]]")
        for line, told in (
            (op("ok", 1, "txn", "[[:w x 02]]"), "can be read"), (op("ok", 1, "txn", "[[:w x +2] [:r x 2]]"), None),
            (op("ok", 1, "txn", "[[:w x 2N] [:r x 2]]"), None), (op("ok", 1, "txn", "[[:w  x,2] [:r x 2]]"), None), (op("ok", 1, "txn", "[[:r x]]"), "a micro-operation"),
            (op("ok", 1, "txn", "[[:w nil 2]]"), "is nil"), (op("ok", 1, "txn", "[[:w x nil]]"), "writes nil"), (op("ok", 1, "txn", "[[:append y nil]]"), "writes nil"),
            (op("ok", 1, "txn", "[[:w x 2]] :type :ok"), "twice"), (op("ok", 1, "txn", "[[:w x 2]] :error [[:r x 3]]"), None),
            (op("ok", 1, "txn", '[[:w x "a b"] [:r x "a b"]]'), None), (op("ok", 1, "txn", '[[:w x "]]"] [:r x "]]"]]'), None), (op("ok", 1, "txn", "([:w x 2])"), None),
        ):  # fmt: skip
            with self.subTest(line):
                if told is None:
                    self.assertEqual(judged(first + line).answer, "yes")
                else:
                    with self.assertRaisesRegex(edn.Malformed, f"^history line 3: .*{told}"):
                        jepsen.transcript(first + line)


class Sessions(unittest.TestCase):
    def test_a_hundred_processes_at_once(self) -> None:
        many = [f"[[:append x {value}]]" for value in range(100)]
        seen = f"[[:r x [{' '.join(map(str, range(100)))}]]]"
        self.assertEqual(judged(history(*many, seen)).answer, "yes")
        self.assertIn("> 101 BEGIN;", jepsen.transcript(history(*many, seen)))

    def test_ten_thousand_whose_end_isnt_known(self) -> None:
        lines = "".join(op("invoke", process, "txn", f"[[:append {process} 1]]") + op("info", process, "txn", f"[[:append {process} 1]]") for process in range(10000))
        read = " ".join(f"[:r {process} [1]]" for process in range(0, 10000, 10))
        told = judged(lines + op("invoke", 10000, "txn", "[]") + op("ok", 10000, "txn", f"[{read}]"))
        self.assertEqual(told.answer, "yes")


# ---- registers and banks


class Registers(unittest.TestCase):
    """Reads, writes and compare-and-sets, of one register or of some that have keys."""

    CASE = [("invoke", 0, "write", "3"), ("ok", 0, "write", "3"), ("invoke", 1, "cas", "[3 4]"), ("invoke", 2, "cas", "[3 5]"), ("ok", 1, "cas", "[3 4]")]

    def answer(self, second: str, read: str, keyed: bool) -> str:
        lines = [*self.CASE, (second, 2, "cas", "[3 5]"), ("invoke", 1, "read", "nil"), ("ok", 1, "read", read)]
        return judged("".join(op(kind, process, does, f"[7 {value}]" if keyed else value) for kind, process, does, value in lines)).answer

    def test_one_of_two_has_set_it(self) -> None:
        for keyed in (False, True):
            with self.subTest(keyed=keyed):
                self.assertEqual([self.answer("fail", read, keyed) for read in ("4", "5", "3", "nil")], ["yes", "no", "no", "no"])
                self.assertEqual([self.answer("info", read, keyed) for read in ("4", "5")], ["yes", "no"])
                self.assertEqual([self.answer("ok", read, keyed) for read in ("4", "5")], ["no", "no"])

    def test_a_cas_that_came_behind_another(self) -> None:
        text = op("invoke", 0, "cas", "[nil 3]") + op("ok", 0, "cas", "[nil 3]") + op("invoke", 0, "cas", "[3 4]") + op("ok", 0, "cas", "[3 4]")
        self.assertEqual(judged(text).answer, "yes")
        self.assertEqual(judged(text.replace("[3 4]", "[2 4]")).answer, "no")

    def test_registers_with_keys_are_told_apart(self) -> None:
        text = op("invoke", 0, "write", "[1 5]") + op("ok", 0, "write", "[1 5]")
        for read, told in (("[1 5]", "yes"), ("[2 5]", "no"), ("[2 nil]", "yes")):
            self.assertEqual(judged(text + op("invoke", 0, "read", read) + op("ok", 0, "read", read)).answer, told)

    def test_what_isnt_of_the_same_kind_is_refused(self) -> None:
        one = op("invoke", 0, "write", "5") + op("ok", 0, "write", "5")
        for other in (op("ok", 0, "write", "[1 5]"), op("ok", 0, "read", "[1 5]"), op("ok", 0, "read", "{1 5}"), op("ok", 0, "cas", "5"), op("ok", 0, "write", "nil"),
                      op("ok", 0, "transfer", "{:from 1 :to 2 :amount 3}"), op("ok", 0, "cas", "[1 nil]"), op("ok", 0, "read", "[{1 2}]")):  # fmt: skip
            with self.subTest(other), self.assertRaisesRegex(edn.Malformed, "^history line 3: "):
                jepsen.transcript(one + other)


class Banks(unittest.TestCase):
    """Transfers, and reads of all accounts. Nobody knows what the accounts had at first."""

    def of(self, *told: Tuple[str, int, str, str]) -> str:
        return judged("".join(op(*each) for each in told)).answer

    MOVE = "{:from 0, :to 1, :amount 5}"

    def test_the_first_read_saw_a_transfer_that_was_under_way_or_didnt(self) -> None:
        began = [("invoke", 0, "transfer", self.MOVE), ("invoke", 1, "read", "nil"), ("ok", 1, "read", "{0 10, 1 10}"), ("ok", 0, "transfer", self.MOVE)]
        for seen, answer in (("{0 10, 1 10}", "yes"), ("{0 5, 1 15}", "yes"), ("{0 10, 1 15}", "no"), ("{0 15, 1 5}", "no")):
            with self.subTest(seen):
                self.assertEqual(self.of(*began, ("invoke", 1, "read", "nil"), ("ok", 1, "read", seen)), answer)

    def test_what_was_surely_done_before_the_first_read(self) -> None:
        done = [("invoke", 0, "transfer", self.MOVE), ("ok", 0, "transfer", self.MOVE), ("invoke", 1, "read", "nil"), ("ok", 1, "read", "{0 10, 1 10}")]
        self.assertEqual(self.of(*done, ("invoke", 1, "read", "nil"), ("ok", 1, "read", "{0 10, 1 10}")), "yes")
        self.assertEqual(self.of(*done, ("invoke", 1, "read", "nil"), ("ok", 1, "read", "{0 5, 1 15}")), "no")

    def test_one_that_failed_was_never_done(self) -> None:
        told = [("invoke", 0, "transfer", self.MOVE), ("invoke", 1, "read", "nil"), ("ok", 1, "read", "{0 10, 1 10}"), ("fail", 0, "transfer", self.MOVE)]
        self.assertEqual(self.of(*told, ("invoke", 1, "read", "nil"), ("ok", 1, "read", "{0 10, 1 10}")), "yes")
        self.assertEqual(self.of(*told, ("invoke", 1, "read", "nil"), ("ok", 1, "read", "{0 5, 1 15}")), "no")

    def test_json_has_texts_as_the_names_of_accounts(self) -> None:
        text = op("invoke", 0, "read", "nil") + op("ok", 0, "read", "{0 10, 1 10}") + op("invoke", 0, "transfer", self.MOVE) + op("ok", 0, "transfer", self.MOVE)
        for seen, answer in (("{0 5, 1 15}", "yes"), ("{0 10, 1 10}", "no")):
            whole = text + op("invoke", 1, "read", "nil") + op("ok", 1, "read", seen)
            self.assertEqual((judged(as_json(whole)).answer, judged(as_printed(whole)).answer), (answer, answer))

    def test_what_cant_be_said_is_refused_with_its_line(self) -> None:
        read = op("invoke", 0, "read", "nil") + op("ok", 0, "read", "{0 10, 1 10}")
        for line, told in (("{:from 0, :to 7, :amount 5}", "account 7"), ("{:from 0, :to 1}", "the value"), ("[0 1 5]", "the value"), ("{:from 0, :to 1, :amount x}", "the value")):
            with self.subTest(line), self.assertRaisesRegex(edn.Malformed, f"^history line 3: .*{told}"):
                jepsen.transcript(read + op("ok", 1, "transfer", line))
        with self.assertRaisesRegex(edn.Malformed, "--no-time"):
            judged(read, ["--no-time"])


# ---- all orders


class Done(NamedTuple):
    """An operation: when it began and ended, whether it was surely done, and what it did, as a function has it."""

    begins: int
    ends: int
    type: str
    does: str
    value: Any


State = Dict[Any, Any]


class World:
    """Histories of one kind at random, and what its operations mean."""

    counts = (2, 5)  # of operations
    stale = 0.4  # how often one sees a state that was

    def __init__(self, chance: random.Random) -> None:
        self.chance = chance
        self.last = 0

    def asked(self) -> Tuple[str, Any]:
        """What an operation asks for."""
        raise NotImplementedError

    def answered(self, state: State, does: str, value: Any) -> Tuple[Any, bool]:
        """What comes of it, which the state has then, and whether it can be done."""
        raise NotImplementedError

    def spelled(self, does: str, value: Any) -> str:
        """A value as EDN."""
        raise NotImplementedError

    def invoked(self, does: str, value: Any) -> Any:
        """What an operation is known to ask for before it ends."""
        return value

    def fits(self, state: State, one: Done) -> bool:
        """Whether an operation, done on a state, has what was recorded. What isn't known to have ended has read nothing."""
        told, can = self.answered(state, one.does, one.value)
        return can and (one.type == "info" or told == one.value)

    def starts(self, order: Sequence[Done]) -> State:
        """The state before an order."""
        return {}


class Transactions(World):
    """Of registers and lists, by their keys."""

    def __init__(self, chance: random.Random, does: str) -> None:
        super().__init__(chance)
        self.does = does

    def asked(self) -> Tuple[str, Any]:
        micros = []
        for _ in range(self.chance.randint(1, 3)):
            self.last += 1
            key = self.chance.choice("xy")
            micros.append(("r", key, None) if self.chance.random() < 0.5 else (self.does, key, self.last))
        return "txn", tuple(micros)

    def answered(self, state: State, does: str, value: Any) -> Tuple[Any, bool]:
        told = []
        for micro, key, each in value:
            if micro == "w":
                state[key] = each
            elif micro == "append":
                state[key] = (*state.get(key, ()), each)
            told.append((micro, key, state.get(key, () if self.does == "append" else None) if micro == "r" else each))
        return tuple(told), True

    def spelled(self, does: str, value: Any) -> str:
        return "[" + " ".join(f"[:{micro} {key} {self._one(each)}]" for micro, key, each in value) + "]"

    def _one(self, value: Any) -> str:
        if isinstance(value, tuple):
            return "[" + " ".join(map(str, value)) + "]"
        return "nil" if value is None else str(value)

    def invoked(self, does: str, value: Any) -> Any:
        return tuple((micro, key, None if micro == "r" else each) for micro, key, each in value)


class OneRegister(World):
    def asked(self) -> Tuple[str, Any]:
        does = self.chance.choice(["read", "write", "cas"])
        return does, {"read": None, "write": self.chance.randint(1, 3), "cas": (self.chance.choice([None, 1, 2, 3]), self.chance.randint(1, 3))}[does]

    def answered(self, state: State, does: str, value: Any) -> Tuple[Any, bool]:
        now = state.get("it")
        if does == "read":
            return now, True
        if does == "cas" and now != value[0]:
            return value, False
        state["it"] = value if does == "write" else value[1]
        return value, True

    def spelled(self, does: str, value: Any) -> str:
        each = ["nil" if one is None else str(one) for one in (value if isinstance(value, tuple) else [value])]
        return f"[{' '.join(each)}]" if does == "cas" else each[0]

    def invoked(self, does: str, value: Any) -> Any:
        return None if does == "read" else value


class Accounts(World):
    """Three accounts; what they have at first is told by the first read of an order."""

    counts = (4, 6)
    stale = 0.9

    def asked(self) -> Tuple[str, Any]:
        if self.chance.random() < 0.6:
            return "read", None
        first, second = self.chance.sample(range(3), 2)
        return "transfer", (first, second, self.chance.randint(1, 2))

    def answered(self, state: State, does: str, value: Any) -> Tuple[Any, bool]:
        if does == "read":
            return tuple(state.get(account, 10) for account in range(3)), True
        first, second, amount = value
        state[first], state[second] = state.get(first, 10) - amount, state.get(second, 10) + amount
        return value, True

    def spelled(self, does: str, value: Any) -> str:
        if does == "transfer":
            return "{{:from {}, :to {}, :amount {}}}".format(*value)
        return "nil" if value is None else "{" + ", ".join(f"{account} {has}" for account, has in enumerate(value)) + "}"

    def invoked(self, does: str, value: Any) -> Any:
        return None if does == "read" else value

    def starts(self, order: Sequence[Done]) -> State:
        moved = {account: 0 for account in range(3)}
        for one in order:
            if one.does == "read" and one.type == "ok":
                return {account: has - moved[account] for account, has in enumerate(one.value)}
            if one.does == "transfer":
                moved[one.value[0]] -= one.value[2]
                moved[one.value[1]] += one.value[2]
        return {}


def orders(done: List[Done]) -> Iterator[Tuple[Done, ...]]:
    """The orders that agree with time, of what was surely done and of some that may have been."""
    sure, perhaps = [one for one in done if one.type == "ok"], [one for one in done if one.type == "info"]
    for count in range(len(perhaps) + 1):
        for some in itertools.combinations(perhaps, count):
            for order in itertools.permutations([*sure, *some]):
                if all(not (later.type == "ok" and later.ends < one.begins) for at, one in enumerate(order) for later in order[at + 1 :]):
                    yield order


def is_explained(world: World, done: List[Done]) -> bool:
    """Whether an order explains what was recorded."""
    for order in orders(done):
        state = world.starts(order)
        if all(world.fits(state, one) for one in order):
            return True
    return False


def made(world: World, chance: random.Random) -> List[Done]:
    """A history of a database that is sometimes serializable: some read a state that was, and some forget what they wrote."""
    count = chance.randint(*world.counts)
    places = sorted(chance.sample(range(100), 2 * count))
    chance.shuffle(places)
    times = [sorted(places[2 * at : 2 * at + 2]) for at in range(count)]
    state: State = {}
    before = [dict(state)]
    done = []
    for begins, ends in sorted(times, key=lambda each: each[1]):
        does, value = world.asked()
        kind = chance.choice(["ok"] * 6 + ["fail", "info"])
        sees = dict(chance.choice(before[-3:])) if chance.random() < world.stale else state
        told, can = world.answered(sees, does, value)
        kind = kind if can or kind != "ok" else "fail"
        if kind == "ok" or chance.random() < 0.2:
            state = {**state, **sees}
        before.append(dict(state))
        done.append(Done(begins, ends, kind, does, told if kind == "ok" else world.invoked(does, value)))
    return done


def text_of(world: World, done: List[Done]) -> str:
    lines = []
    for process, one in enumerate(done):
        lines.append((one.begins, op("invoke", process, one.does, world.spelled(one.does, world.invoked(one.does, one.value)))))
        lines.append((one.ends, op(one.type, process, one.does, world.spelled(one.does, one.value))))
    return "".join(line for _, line in sorted(lines))


class Orders(unittest.TestCase):
    """What is said of random histories is what all orders of their operations say; of their transcripts, too."""

    def tried(self, name: str, worlds: Any, count: int) -> None:
        answers = {"yes": 0, "no": 0}
        for seed in range(count):
            chance = random.Random(f"{name} {seed}")
            world = worlds(chance)
            done = made(world, chance)
            text, answer = text_of(world, done), "yes" if is_explained(world, done) else "no"
            with self.subTest(name, seed=seed, text=text):
                told = judged(text)
                self.assertEqual(told.answer, answer)
                self.assertEqual(brute_force.is_serializable(brute_force.Reader(jepsen.transcript(text)).transcript()), answer == "yes")
            answers[answer] += 1
        self.assertGreater(min(answers.values()), count // 20, answers)

    def test_of_lists(self) -> None:
        self.tried("lists", lambda chance: Transactions(chance, "append"), 60)

    def test_of_registers(self) -> None:
        self.tried("registers", lambda chance: Transactions(chance, "w"), 60)

    def test_of_one_register(self) -> None:
        self.tried("register", OneRegister, 60)

    def test_of_banks(self) -> None:
        self.tried("bank", Accounts, 60)


# ---- speed


class Long(unittest.TestCase):
    def test_a_long_history_is_converted_as_it_is_read(self) -> None:
        """Its memory hardly grows with its length, and its time is of the order of that of the check."""
        program = os.environ.get("PGSERIAL", "pgserial")
        bench = os.path.join(HERE, "../../bench/jepsen")
        done = subprocess.run([sys.executable, bench, program, "8000"], capture_output=True, text=True)
        self.assertEqual((done.returncode, done.stderr, done.stdout.count("status 0")), (0, "", 4))
        for line in done.stdout.splitlines():
            self.assertLess(float(line.split(" MB; ")[0].split(", ")[-1]), 100, line)
            self.assertLess(float(line.rpartition(" ")[2]), 30, line)


if __name__ == "__main__":
    unittest.main()
