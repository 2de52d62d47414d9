"""That with --live each moment is written as soon as it is over."""

import select
import subprocess
import sys
import unittest

from tests.running import TOOLS

MOMENT = b'+v 0\n+v 1\n+e 0 1\ncommit\n'


class Live(unittest.TestCase):
    def test_a_moment_is_written_before_the_next_one_is_over(self):
        command = [sys.executable, str(TOOLS / 'stream'), '--live']
        with subprocess.Popen(command, stdin=subprocess.PIPE, stdout=subprocess.PIPE, bufsize=0) as process:
            process.stdin.write(b'time,from,to\n1,a,b\n2,b,c\n')
            self.assertEqual(self.read(process.stdout), MOMENT)
            process.stdin.close()
            self.assertEqual(process.stdout.read(), b'+v 2\n+e 1 2\ncommit\n')
            self.assertEqual(process.wait(), 0)

    def read(self, output):
        """As many bytes as a moment has, or fewer where they don't come within half a minute."""
        text = b''
        while len(text) < len(MOMENT) and select.select([output], [], [], 30)[0]:
            text += output.read(len(MOMENT) - len(text)) or b'the end came first'
        return text
