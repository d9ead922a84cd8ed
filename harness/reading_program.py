"""What reads the texts that are judged: the program that replays stored calls on texts, or samples/reading.py."""
import subprocess

from reading import read
from records import reading_records


class Program:
    def __init__(self, replay=None):
        self.replay, self.asked = replay, 0
        self.name = 'the program' if replay else 'samples/reading.py'

    def answers(self, calls):
        """for each text, sheet, name table and expected type the image's bytes, or the three numbers of a refusal"""
        self.asked += len(calls)
        if not self.replay:
            return [read(*call) for call in calls]
        ran = subprocess.run([self.replay], input=b''.join(reading_records(calls)), capture_output=True, check=True)
        lines = ran.stdout.decode().splitlines()
        assert len(lines) == len(calls) and not ran.stderr, (len(lines), len(calls), ran.stderr)
        return [answer(line) for line in lines]


def answer(line):
    """what a line of the program says"""
    word, rest = line.split(' ', 1)
    return bytes.fromhex(rest) if word == 'image' else tuple(map(int, rest.split()))
