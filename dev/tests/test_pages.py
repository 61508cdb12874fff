"""The tests of dev.pages' reading of blocks, which want Python 3 alone: python3 -m dev.unit test_pages"""

import unittest

from dev.pages.blocks import blocks_of, commands_of, first_missing

PAGE = """# It

```
$ warren check a b            # status 0
1 yes states 3               # a remark
$ ctl set '{"a": 1,
    "b": 2}'
$ warren serve a \\
    b
```

1. One

   ```
   $ cd it
   ```

```json
{"mode": "never"}
```

```
warrenctl why a
warrenctl why b
```

```
`shop`: no message is dropped
```

```python
import pika
print(1)                     # 1
```
"""


class Blocks(unittest.TestCase):
    def test_commands(self):
        found = [[(it.line, it.text, it.shown) for it in commands_of("P.md", block)] for block in blocks_of(PAGE)]
        self.assertEqual(found, [
            [(4, "warren check a b            # status 0", ["1 yes states 3"]),
             (6, "ctl set '{\"a\": 1,\n    \"b\": 2}'", []),
             (8, "warren serve a \\\n    b", [])],
            [(15, "cd it", [])],
            [],
            [(23, "warrenctl why a", []), (24, "warrenctl why b", [])],
            [],
            [(32, "import pika\nprint(1)                     # 1", ["1"])],
        ])


class Shown(unittest.TestCase):
    def test_what_is_shown_is_printed_in_its_order(self):
        self.assertIsNone(first_missing(["a", "c"], "a\nb\nc\n"))
        self.assertIsNone(first_missing(["  a", "..", "c"], "  a\nb\nc\n"))
        self.assertEqual(first_missing(["c", "a"], "a\nb\nc\n"), "a")
        self.assertEqual(first_missing(["a", "a"], "a\n"), "a")
        self.assertEqual(first_missing(["a"], "ab\n"), "a")

    def test_a_time_may_be_another(self):
        self.assertIsNone(first_missing(["open: 3 are, after 0.2 seconds"], "open: 3 are, after 11 seconds\n"))
        self.assertIsNotNone(first_missing(["open: 3 are, after 0.2 seconds"], "open: 4 are, after 0.2 seconds\n"))


if __name__ == "__main__":
    unittest.main()
