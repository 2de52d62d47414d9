"""How much memory a million rows take and, where `TIMED` is set in the environment, how much time."""

import os
import random
import subprocess
import sys
import tempfile
import unittest
from datetime import date, timedelta
from pathlib import Path

from tests.running import TOOLS

ROWS = 1_000_000
MOST_SECONDS = 20
MOST_MEGABYTES = 200

WORDS = ['--keep', '30d', '--bands', 'few:1,many:10', '--program', 'mode vertex; size 3; filter true; match true']


class MillionRows(unittest.TestCase):
    def test_a_million_rows_of_a_year(self):
        """Payments between 50,000 accounts on the days of a year, some 80,000 of which are live at a time.

        The time is that of the processor. It is asked only on demand, since a machine's other work slows it down.
        """
        with tempfile.TemporaryDirectory() as folder:
            table = Path(folder) / 'payments.csv'
            write_table(table)
            seconds, megabytes = measure(table)
        print(f'\na million rows: {seconds:.1f} s, {megabytes:.0f} MB')
        self.assertLess(megabytes, MOST_MEGABYTES)
        if 'TIMED' in os.environ:
            self.assertLess(seconds, MOST_SECONDS)


def write_table(path):
    """Most accounts pay rarely, and some often: payers are drawn by a power law."""
    draw = random.Random(1)
    days = [(date(2025, 1, 1) + timedelta(day)).isoformat() for day in range(365)]
    with path.open('w', encoding='utf-8') as file:
        file.write('time,from,to,amount\n')
        for row in range(ROWS):
            payer = int(50_000 * draw.random() ** 3)
            payee = int(50_000 * draw.random())
            file.write(f'{days[row * 365 // ROWS]},account {payer},account {payee},{row % 997}.00\n')


def measure(table):
    """The seconds of processor time and the peak of megabytes of one run."""
    command = [sys.executable, str(TOOLS / 'stream'), str(table), *WORDS]
    process = subprocess.Popen(command, stdout=subprocess.DEVNULL, stderr=subprocess.DEVNULL)
    _, status, usage = os.wait4(process.pid, 0)
    process.returncode = status
    if status:
        raise AssertionError(f'status {status}')
    return usage.ru_utime + usage.ru_stime, usage.ru_maxrss / 1024
