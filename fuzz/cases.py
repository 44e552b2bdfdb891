"""The frame of a script that makes cases from a seed: its options, the answers that it counts, and the cases that failed."""

import argparse
import collections
import os
import random

from program import DEFAULT, Hang, Wrong

HERE = os.path.dirname(os.path.abspath(__file__))


def options_of(summary, seed, count=2000, seconds=20, more=()):
    """The options that these scripts share, and some more: pairs of a name and what argparse takes of it."""
    parser = argparse.ArgumentParser(description=summary, formatter_class=argparse.RawDescriptionHelpFormatter)
    parser.add_argument('--program', default=DEFAULT, help='the program; else that of the repository')
    parser.add_argument('--seed', default=seed, help='a word that all cases are made from')
    parser.add_argument('--from', dest='first', type=int, default=0, help='the number of the first case')
    parser.add_argument('--count', type=int, default=count, help='how many cases')
    parser.add_argument('--keep', default=HERE + '/out', help='the folder for the texts of failed cases')
    parser.add_argument('--seconds', type=float, default=seconds, help='the time that each run may take')
    for name, what in more:
        parser.add_argument(name, **what)
    return parser.parse_args()


class Cases:
    """A script has a `case`, which takes a number and a random source, and leaves its text in `text`."""

    def __init__(self, options, name):
        self.options, self.name = options, name
        self.answers, self.failed, self.text = collections.Counter(), 0, b''

    def run(self):
        """Runs the cases, prints how often each answer came, and gives the exit status."""
        options = self.options
        for number in range(options.first, options.first + options.count):
            try:
                self.case(number, random.Random(f'{options.seed}: {number}'))
            except (Wrong, Hang) as why:
                self.fail(number, why)
        for name, times in sorted(self.answers.items()):
            print(f'{times:8} {name}')
        print(f'{sum(self.answers.values())} answers compared')
        print(f'{options.count} cases, {self.failed} failed')
        return 1 if self.failed else 0

    def fail(self, number, why):
        self.failed += 1
        os.makedirs(self.options.keep, exist_ok=True)
        kept = f'{self.options.keep}/{self.name}-{self.options.seed}-{number}'
        with open(kept, 'wb') as file:
            file.write(self.text)
        print(f'FAILED case {number}, text in {kept}: {why}', flush=True)

    def compare(self, words, came, wanted):
        """Counts an answer, and raises Wrong where its status, line and output are not those that are wanted."""
        self.answers[f'{words[0]}: {came.name()}'] += 1
        if (came.status, came.line, came.output) != wanted:
            status, line, output = wanted
            raise Wrong(f'{words} answered {came.status}, {came.line!r}, {came.output[:300]!r}; '
                        f'the plain one {status}, {line!r}, {output[:300]!r}')


def line_of(status, place, most):
    """The line on standard error of a refusal with a line and a number, or without where the text is too long."""
    if status == 0:
        return b''
    if place is None:
        return b'input: more than %d bytes\n' % most
    return (b'invalid: line %d, defect %d\n' if status == 1 else b'input: line %d, kind %d\n') % place
