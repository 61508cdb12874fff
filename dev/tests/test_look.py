"""The tests of look, which want Python 3 alone: python3 -m dev.unit test_look

The program is made up here: one that says that it listens, and ones that do not.
"""

import os
import re
import signal
import socket
import unittest

from dev.beds.trial import Trial

SERVES = 'echo "$@" >&2; echo "warren: listening on 127.0.0.1:1"; exec sleep 60'


class Serves(unittest.TestCase):
    def test_until_the_time_is_over(self):
        with Trial() as trial:
            trial.program(SERVES)
            status, out, said = trial.run("look", "--listen", "127.0.0.1:0", "--seconds", "0.5")
            self.assertEqual(status, 0)
            self.assertEqual(out, "listening on 127.0.0.1:1 for 0.5 seconds, over nothing that was proved. `make serve` proves all of it first.\n")
            shop = " ".join(f"{trial.root}/examples/shop/{it}.json" for it in ("definitions", "guarantees", "certificates"))
            self.assertEqual(said, f"serve {shop} --listen 127.0.0.1:0\n")

    def test_it_is_ended(self):
        for number, interrupt in ((signal.SIGTERM, signal.SIG_DFL), (signal.SIGINT, signal.SIG_DFL), (signal.SIGINT, signal.SIG_IGN)):
            with Trial() as trial:
                trial.program(SERVES)
                running = trial.start("look", "--listen", "127.0.0.1:0", interrupt=interrupt)
                self.assertIn("for ten minutes", running.stdout.readline())
                running.send_signal(number)
                _, said = running.communicate(timeout=120)
                self.assertEqual(running.returncode, 128 + number)
                self.assertNotIn("Traceback", said)

    def test_nothing_is_said_of_a_program_that_does_not_listen(self):
        with Trial() as trial:
            trial.program('echo "warren: FILE: refused 5" >&2; exit 3')
            self.assertEqual(trial.run("look", "--listen", "127.0.0.1:0"), (3, "", "warren: FILE: refused 5\n"))

    def test_an_end_before_the_time_is_passed_on(self):
        with Trial() as trial:
            trial.program('echo "warren: listening on 127.0.0.1:1"; exit 4')
            status, out, _ = trial.run("look", "--listen", "127.0.0.1:0")
            self.assertEqual((status, out.count("listening")), (4, 1))

    def test_files_of_ones_own_are_checked_first(self):
        with Trial() as trial:
            trial.program('if [ $1 = check ]; then echo "1 yes states 3"; exit 0; fi; ' + SERVES)
            for it in ("mine.json", "wishes.json"):
                trial.write(it, "{}")
            status, out, said = trial.run("look", "mine.json", "wishes.json", "--listen", "127.0.0.1:0", "--seconds", "0.5")
            self.assertEqual((status, out.count("\n")), (0, 1))
            made = re.fullmatch(r"serve mine\.json wishes\.json (.+/certificates\.json) --listen 127\.0\.0\.1:0\n", said)
            self.assertFalse(made.group(1).startswith(trial.root), "a checkout may be read-only")
            self.assertFalse(os.path.exists(os.path.dirname(made.group(1))), "nothing is left")
            trial.program('echo "1 no key \\"a\\""; exit 1')
            for it in ("mine.json", "wishes.json"):
                trial.write(it, "{}")
            status, out, said = trial.run("look", "mine.json", "wishes.json", "--listen", "127.0.0.1:0")
            self.assertEqual((status, out), (1, '1 no key "a"\n'))
            self.assertEqual(said, "look: not all of wishes.json holds, and warren serves only what holds (`python3 -m warrenctl why` says more)\n")


    def test_what_is_told_of_a_check(self):
        """That not all holds is said of a guarantee that does not, and not of a file that is refused or cannot be written."""
        for status, lines in ((1, 1), (2, 1), (3, 0), (4, 0)):
            with Trial() as trial:
                trial.program(f'echo "1 yes states 3"; exit {status}')
                for it in ("mine.json", "wishes.json"):
                    trial.write(it, "{}")
                found, out, said = trial.run("look", "mine.json", "wishes.json", "--listen", "127.0.0.1:0")
                self.assertEqual((found, out, said.count("\n")), (status, "1 yes states 3\n", lines))

    def test_the_proved_program(self):
        """It is that of the crate, made by `rt run`, and serves until it is ended; names of files may have blanks."""
        with Trial() as trial:
            trial.rt("mkdir -p out; echo '#!/bin/sh' > out/warren; echo 'if [ $1 = serve ]; then echo \"warren: listening on 127.0.0.1:1\"; exec sleep 60; fi; echo \"$2\" >&2' >> out/warren; chmod 755 out/warren; touch out/warren.stamp")
            for it in ("my defs.json", "wishes.json"):
                trial.write(it, "{}")
            running = trial.start("look", "my defs.json", "wishes.json", "--proved", "--listen", "127.0.0.1:0")
            self.assertEqual(running.stdout.readline(), "warren: listening on 127.0.0.1:1\n")
            running.terminate()
            _, said = running.communicate(timeout=60)
            self.assertEqual((running.returncode, said.splitlines()[-1]), (128 + signal.SIGTERM, "look: broken off by TERM"))
            self.assertEqual(said.splitlines()[-2], "my defs.json")
            self.assertEqual(trial.runs(), ["run -- --help"])

    def test_a_program_that_is_given(self):
        """It is taken as it is, and serves until it is ended; nothing is made."""
        with Trial() as trial:
            trial.rt("exit 0")
            trial.write("a b/warren", f'#!/bin/sh\nif [ $1 = --version ]; then echo "warren 7.1"; exit; fi\n{SERVES}\n')
            running = trial.start("look", "--by", f"{trial.root}/a b/warren", "--listen", "127.0.0.1:0")
            self.assertEqual(running.stdout.readline(), "warren: listening on 127.0.0.1:1\n")
            running.terminate()
            _, said = running.communicate(timeout=60)
            self.assertEqual((running.returncode, said.splitlines()[0]), (128 + signal.SIGTERM, f"{trial.root}/a b/warren is taken as it is: warren 7.1"))
            self.assertEqual(trial.runs(), [])


class Bad(unittest.TestCase):
    def test_an_address_that_is_taken_is_told_before_the_build(self):
        with Trial() as trial, socket.create_server(("127.0.0.1", 0)) as other:
            trial.rt("exit 0")
            address = f"127.0.0.1:{other.getsockname()[1]}"
            self.assertEqual(trial.run("look", "--listen", address), (4, "", f"look: {address}: Address already in use\n"))
            self.assertEqual(trial.runs(), [])

    def test_one_line_each(self):
        with Trial() as trial:
            for words in (("one",), ("--listen", "here"), ("--listen", "127.0.0.1:99999"), ("--listen", "256.0.0.1:1"), ("--seconds", "x"), ("--x",), ("--proved", "--by", "x"), ("--by", "/nowhere", "--listen", "127.0.0.1:0"), ("--by", "/bin/true", "--listen", "127.0.0.1:0")):
                status, out, said = trial.run("look", *words)
                self.assertIn(status, (3, 4))
                self.assertEqual((out, said.count("\n")), ("", 1), said)
                self.assertTrue(said.startswith("look: "), said)
            self.assertEqual(trial.run("look", "--help")[0], 0)

    def test_a_folder_that_cannot_be_written(self):
        with Trial() as trial:
            trial.write("out", "")
            status, out, said = trial.run("look", "--listen", "127.0.0.1:0")
            self.assertEqual((status, out, said.splitlines()[1:]), (3, "", [f"look: {trial.root}/out/try: Not a directory"]))


if __name__ == "__main__":
    unittest.main()
