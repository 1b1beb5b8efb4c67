"""A few hundred random messages to the server and to the adapter; `random_messages.py COUNT` sends more."""

from __future__ import annotations

import itertools
import sys
import unittest
from pathlib import Path

sys.path.insert(0, str(Path(__file__).resolve().parent))

from programs import NeedsWords  # noqa: E402
from random_messages import Chance, talk_to_adapter, talk_to_server  # noqa: E402

COUNT = 300


class RandomMessages(NeedsWords):
    def test_each_request_to_the_server_is_answered(self) -> None:
        self.assertEqual(talk_to_server(self.program, COUNT, Chance(3)), "")

    def test_the_last_message_to_the_server_is_none(self) -> None:
        seed = next(seed for seed in itertools.count() if Chance(seed).one_in(30))
        self.assertEqual(talk_to_server(self.program, 1, Chance(seed)), "")

    def test_each_request_to_the_adapter_is_answered(self) -> None:
        self.assertEqual(talk_to_adapter(self.program, COUNT, Chance(3)), "")


if __name__ == "__main__":
    unittest.main()
