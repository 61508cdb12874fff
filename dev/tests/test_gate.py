"""The tests of gate, which want Python 3 alone: python3 -m dev.unit test_gate

`rt`, the C compiler, the programs and what refuses them memory are made up here.
"""

import os
import re
import signal
import subprocess
import sys
import unittest

from dev.beds.trial import Trial
from dev.gate import machine

GB = 1_000_000_000
PASSES = 'echo "a line"; echo "jobs $RT_JOBS"; echo "12 passed, 0 failed"'
FAILS = 'echo "rt: FAILED: below"; echo "11 passed, 1 failed"; exit 1'


def refuses(lines, status):
    return f"import sys\nprint('refused:', sys.argv[3])\nprint({lines!r})\nsys.exit({status})\n"


class Gate(unittest.TestCase):
    def setUp(self):
        self.trial = Trial()
        self.addCleanup(self.trial.folder.cleanup)
        self.trial.rt(PASSES)
        self.trial.write("bin/cc", "#!/bin/sh\n")
        self.trial.write("examples/refusals/run", refuses("4 passed, 0 failed", 0))
        for name in ("warren", "memory_refusals"):
            self.trial.write(f"crates/{name}/out/{name}", "")

    def start_gate(self, *words, jobs="3"):
        environment = {"PATH": f"{self.trial.root}/bin", **({"RT_JOBS": jobs} if jobs else {})}
        command = [sys.executable, "-m", "dev.gate", *words]
        how = {"preexec_fn": lambda: signal.signal(signal.SIGINT, signal.SIG_DFL), "stdout": subprocess.PIPE, "stderr": subprocess.PIPE, "text": True}
        return subprocess.Popen(command, cwd=self.trial.root, env=environment, **how)

    def run_gate(self, *words, jobs="3"):
        running = self.start_gate(*words, jobs=jobs)
        told, said = running.communicate(timeout=120)
        return running.returncode, told.splitlines(), said

    def test_the_last_line_counts_both(self):
        status, told, said = self.run_gate()
        self.assertEqual((status, said), (0, ""))
        self.assertEqual(told[:3] + told[-2:], ["gate: RT_JOBS=3, as set", "a line", "jobs 3", "refused: one", "16 passed, 0 failed"])
        self.assertEqual(self.trial.runs(), ["ci"])

    def test_each_crate_has_its_time(self):
        # a check of a crate, one of an edit of it, and a program of another crate, each of which takes 1.5 seconds
        root = self.trial.root
        self.trial.write("busy", "import time\nwhile time.process_time() < 1.5:\n    pass\n")
        self.trial.write("rt-run-1-x/bin/no", "")
        os.symlink(sys.executable, f"{root}/rt-run-1-x/bin/cases")
        os.mkdir(f"{root}/rt-edit-1-x")
        check = f"{sys.executable} {root}/busy --crate-name below src"
        self.trial.write("bin/rt", f"#!/bin/sh\n{check} &\n(cd {root}/rt-edit-1-x; {check}) &\n{root}/rt-run-1-x/bin/cases {root}/busy &\nwait\necho 12 passed, 0 failed\n")
        status, told, said = self.run_gate()
        self.assertEqual((status, said), (0, ""))
        lines = [line.removeprefix("gate: ").split() for line in told if line.startswith("gate: ")]
        table = {words[0]: words[1:] for words in lines if len(words) == 4 and words[1].isdigit()}
        self.assertEqual({crate: [int(it) > 0 for it in seconds] for crate, seconds in table.items()}, {"below": [True, True, False], "cases": [False, False, True]})
        self.assertIn("gate: crates over 300 seconds: none", told)
        whole = next(line for line in told if "of processor" in line)
        self.assertGreaterEqual(int(re.search(r": (\d+) seconds", whole)[1]), 4)

    def test_a_refusal_that_says_little_fails(self):
        why = "only because a proof file names what the edit took away, so this says little of the contract: change a value and keep the names"
        lines = [f"rt: must-fail below/a.edit: refused, as it must be ({why}): x", "rt: must-fail below/b.edit: refused, as it must be: ./src/lib.rt:1:1: error"]
        self.trial.rt("\n".join(f"echo '{it}'" for it in lines) + '\necho "12 passed, 0 failed"')
        status, told, _ = self.run_gate()
        self.assertEqual((status, told[-1]), (1, "15 passed, 1 failed"))
        self.assertEqual([line for line in told if "says little" in line or "shows nothing" in line and "below/b" in line], lines[:1])
        self.assertTrue(any(line.startswith("gate: below/a.edit ") for line in told))

    def test_without_a_compiler_that_is_told(self):
        os.unlink(f"{self.trial.root}/bin/cc")
        status, told, _ = self.run_gate()
        self.assertEqual((status, told[-1]), (0, "12 passed, 0 failed"))
        self.assertIn("needs cc", told[-2])

    def test_a_growth_that_makes_a_difference_fails(self):
        self.trial.write("examples/refusals/run", refuses("3 passed, 1 failed", 1))
        self.assertEqual(self.run_gate()[:2][0], 1)
        self.assertEqual(self.run_gate()[1][-1], "15 passed, 1 failed")

    def test_what_tells_no_sum_or_another_status_fails(self):
        for lines, status in (("Traceback", 1), ("", 0), ("4 passed, 0 failed", 1), ("3 passed, 1 failed", 0)):
            self.trial.write("examples/refusals/run", refuses(lines, status))
            status, told, _ = self.run_gate()
            self.assertEqual((status, told[-1]), (1, "12 passed, 1 failed"), lines)

    def test_a_program_that_is_not_there_fails(self):
        os.unlink(f"{self.trial.root}/crates/warren/out/warren")
        status, told, _ = self.run_gate()
        self.assertEqual((status, told[-1]), (1, "12 passed, 1 failed"))
        self.assertIn("crates/warren/out/warren is not there", told[-2])

    def test_nothing_is_refused_behind_what_failed(self):
        self.trial.rt(FAILS)
        status, told, _ = self.run_gate()
        self.assertEqual((status, told[:2], told[-1]), (1, ["gate: RT_JOBS=3, as set", "rt: FAILED: below"], "11 passed, 1 failed"))
        self.assertFalse(any(line.startswith("refused:") for line in told))
        self.trial.rt("echo stopped; exit 2")
        status, told, _ = self.run_gate()
        self.assertEqual((status, told[:2], told[-1]), (2, ["gate: RT_JOBS=3, as set", "stopped"], "0 passed, 1 failed"))
        self.trial.rt("kill -9 $$")
        self.assertEqual(self.run_gate()[1][-1], "0 passed, 1 failed")

    def test_the_machine_sets_the_number_of_checks(self):
        status, told, _ = self.run_gate(jobs=None)
        checks = machine.checks_at_once(machine.processors(), machine.free_memory())
        self.assertEqual(status, 0)
        self.assertRegex(told[0], r"^gate: .*\d+ processors, \d+ GB free$")
        self.assertIn(told[2], ("jobs ", *(f"jobs {it}" for it in range(2, (checks or 1) + 2))))

    def test_it_is_ended_with_what_it_runs(self):
        self.trial.rt("echo begun; echo $$; exec /bin/sleep 120")
        for number in (signal.SIGTERM, signal.SIGINT):
            running = self.start_gate()
            self.assertEqual([running.stdout.readline() for _ in range(2)], ["gate: RT_JOBS=3, as set\n", "begun\n"])
            running.send_signal(number)
            # rt holds standard output open until it has ended
            _, said = running.communicate(timeout=60)
            self.assertEqual((running.returncode, said), (128 + number, f"gate: broken off by {number.name[3:]}\n"))

    def test_one_line_each(self):
        self.assertEqual(self.run_gate("more")[0], 3)
        self.assertEqual(self.run_gate("--help")[0], 0)
        os.unlink(f"{self.trial.root}/bin/rt")
        status, _, said = self.run_gate()
        self.assertEqual((status, said), (3, 'gate: rt does not start: No such file or directory (README, "Toolchain")\n'))


class Machine(unittest.TestCase):
    def test_one_check_a_processor_if_memory_allows(self):
        self.assertEqual(machine.checks_at_once(4, 21 * GB), 4)
        self.assertEqual(machine.checks_at_once(2, 15 * GB), 2)

    def test_fewer_if_memory_is_short(self):
        self.assertEqual(machine.checks_at_once(4, 15 * GB), 3)
        self.assertEqual(machine.checks_at_once(16, 30 * GB), 6)

    def test_rt_chooses_if_one_fits_or_memory_is_ample(self):
        for count, memory in ((4, 8 * GB), (1, 15 * GB), (1, 4 * GB), (4, 60 * GB), (2, 30 * GB), (4, 0)):
            self.assertIsNone(machine.checks_at_once(count, memory), (count, memory))

    def test_what_is_here(self):
        self.assertIn(machine.processors(), range(1, os.cpu_count() + 1))
        self.assertGreater(machine.free_memory(), 10_000_000)

    def test_limits_of_a_control_group(self):
        with Trial() as trial:
            for name, text in (("max", "3000000000\n"), ("stat", "anon 1000000000\nfile 7\n"), ("cpu", "100000 100000\n"), ("none", "max 100000\n")):
                trial.write(name, text)
            self.assertEqual(machine.number_in(f"{trial.root}/max", r"^(\d+)") - machine.number_in(f"{trial.root}/stat", r"anon (\d+)"), 2 * GB)
            self.assertIsNone(machine.number_in(f"{trial.root}/none", r"^(\d+)"))
            self.assertIsNone(machine.number_in(f"{trial.root}/nowhere", r"(\d+)"))
            before = machine.MEMORY, machine.TIME
            try:
                machine.MEMORY = ((f"{trial.root}/max", f"{trial.root}/stat", r"anon (\d+)"),)
                machine.TIME = ((f"{trial.root}/cpu", f"{trial.root}/cpu", r" (\d+)"),)
                self.assertEqual((machine.processors(), machine.free_memory()), (1, 2 * GB))
            finally:
                machine.MEMORY, machine.TIME = before


if __name__ == "__main__":
    unittest.main()
