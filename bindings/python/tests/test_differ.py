"""What the random scripts make of a program's answers."""
import os
import tempfile
import unittest

import differ


class Told:
    """A player that expects one line, and a history of one event."""

    script = ['get a']
    says = ['0 a is 1']

    def play(self):
        pass

    judge = play

    def events(self):
        return 1


class Compared(unittest.TestCase):
    def compare(self, said, status):
        """How many lines agree with a program that says this; 0: some don't."""
        with tempfile.TemporaryDirectory() as folder:
            program = os.path.join(folder, 'program')
            with open(program, 'w') as file:
                file.write(f'#!/bin/sh\nprintf "{said}"\nexit {status}\n')
            os.chmod(program, 0o755)
            try:
                return differ.compare(program, Told(), 1)
            except SystemExit:
                return 0

    def test_lines_history_and_status_are_compared(self):
        right = '0 a is 1\\nhistory 1 legal\\n'
        for said, status, lines in ((right, 0, 1), (right, 1, 0), (right.replace('is 1', 'is 2'), 0, 0), (right.replace('y 1', 'y 2'), 0, 0)):
            self.assertEqual(self.compare(said, status), lines, (said, status))


if __name__ == '__main__':
    unittest.main()
