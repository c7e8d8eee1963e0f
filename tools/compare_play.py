#!/usr/bin/env python3
"""Plays random scripts on the program and on a model, and reports the first difference.

  python3 tools/compare_play.py MODEL [--scripts N] [--calls N] [--seed N] [--panel PROGRAM]

MODEL is the folder that has the model's play.py. The program is crates/panel/out/panel unless another is given.
A script that shows a difference is kept as /tmp/compare_play.script.
"""
import argparse
import collections
import pathlib
import random
import subprocess
import sys

KEPT = '/tmp/compare_play.script'


class Writer:
    """Writes one script. It knows only what it has asked for, not what was answered, so it guesses where a round stands:
    it sends each order often enough that it has most likely arrived, and makes more trace and sweep calls than it needs."""

    def __init__(self, rng, calls):
        self.rng, self.calls = rng, calls
        self.out, self.count = [], 0
        self.kind, self.cells, self.cards = 'events', 1, 1
        # A quiet script has calls and nothing else, so that the program plays many of them together.
        self.quiet = rng.random() < 0.25

    def say(self, *words):
        self.out.append(' '.join(map(str, words)))
        self.count += 1

    def odd(self, chance):
        return self.rng.random() < chance

    def number(self, below, odd=0.02):
        """Mostly a number below the bound; now and then one that is out of range, or far too large for any type."""
        if self.odd(odd):
            return self.rng.choice((below, below + 1, 255, 256, 65536, 2**32, 2**64, 10**30))
        return self.rng.randrange(below)

    def card(self):
        return self.number(self.cards, 0.01)

    def place(self):
        return self.number(8, 0.01)

    def link(self):
        return self.number(4, 0.01)

    def state(self, chance):
        if not self.quiet and self.odd(chance):
            self.out.append('state')

    def contents(self, odd=0.02):
        r = self.rng
        if self.quiet:
            odd = 0
        if self.kind == 'events':
            value = [r.choice((r.randrange(2**32), 0, 2**32 - 1)), r.choice((1, 254, r.randint(1, 254))),
                     r.choice((1, 512, r.randint(1, 512))), r.randint(1, 6)]
            wrong = [2**32, r.choice((0, 255, 65536 + 7, 2**64)), r.choice((0, 513, 65536 + 7)), r.choice((0, 7, 256 + 1, 10**25))]
        else:
            value = [r.choice((1, 64, r.randint(1, 64))), r.choice((0, 600, r.randint(0, 600)))]
            wrong = [r.choice((0, 65, 65536 + 7, 2**64)), r.choice((601, 65536 + 7, 10**25))]
        if self.odd(odd):
            at = r.randrange(len(value))
            value[at] = wrong[at]
        return value

    def make(self, good=False):
        r, before = self.rng, self.kind
        self.kind = r.choice(('events', 'effects'))
        cells = r.choice((1, 2, 3, 4, 5, 6, 7, 8, 10, 12, 16, 20, 30)) if self.odd(0.96) else r.choice((150, 4096))
        cards = r.randint(1, r.choice((2, 3, 8)))
        first = r.choice((1, 1, 1, 1, r.randint(1, 2**32 - 2), 2**32 - 2, 2**32 - 2 - r.randint(1, 12)))
        rounds = r.choice((0, 0, 0, 0, r.randint(0, 2**30 - 1), 2**30 - 1, 2**30 - 2))
        sizes, refused = [cells, cards, first, rounds], False
        contents = self.contents(0)
        if not good and self.odd(0.5):
            refused = True
            if self.odd(0.3):
                contents = self.contents(1)
            else:
                at = r.randrange(4)
                sizes[at] = (r.choice((0, 4097, 65536, 2**32 + 1, 2**64, 10**30)), r.choice((0, 9, 256, 257, 2**64 + 1)),
                             r.choice((0, 2**32 - 1, 2**32, 2**64 + 1)), r.choice((2**30, 2**32, 2**64)))[at]
        self.out.append(' '.join(map(str, ['make', self.kind] + sizes + contents)))
        if refused:
            self.kind = before
        else:
            self.cells, self.cards = cells, cards

    def line(self):
        r = self.rng
        if self.odd(0.4):
            self.out.append('line direct')
        else:
            pattern = r.choice((0, 1, 5, r.getrandbits(32) & r.getrandbits(32), r.getrandbits(32), 1 << r.randrange(32),
                                0xffffffff & ~(1 << r.randrange(32)), r.getrandbits(70)))
            self.out.append(f'line leaky {pattern}')

    def update(self, c):
        """A whole update, or some steps of one, with other things between."""
        self.say('look', c, self.place(), self.link(), self.place())
        for word in ('note', 'store'):
            if self.odd(0.15):
                self.card_call()
            if self.odd(0.95):
                self.say(word, c)

    def hang(self, c):
        """A new record, hung somewhere that is most likely not blank."""
        p = self.rng.randrange(1, 8)
        self.say('new', c, p, *self.contents())
        self.say('look', c, self.rng.choice((0, 0, self.place())), self.link(), p)
        self.say('note', c)
        self.say('store', c)
        if self.odd(0.5):
            self.say('drop', c, p)

    def card_call(self):
        r, c = self.rng, self.card()
        word = r.choice(('new', 'new', 'load', 'load', 'load', 'copy', 'drop', 'drop', 'read', 'read', 'look', 'note', 'store', 'store'))
        if word == 'new':
            self.say(word, c, self.place(), *self.contents())
        elif word in ('load', 'look'):
            self.say(word, c, r.choice((0, self.place())), self.link(), self.place())
        elif word == 'copy':
            self.say(word, c, self.place(), self.place())
        elif word in ('drop', 'read'):
            self.say(word, c, self.place())
        else:
            self.say(word, c)

    def work(self, much=1.0):
        for _ in range(self.rng.randrange(4)):
            if self.odd(0.3 * much):
                self.hang(self.card())
            elif self.odd(0.3):
                self.update(self.card())
            else:
                self.card_call()
            if self.odd(0.02):
                self.any_call()

    def any_call(self):
        word = self.rng.choice(('open', 'knock', 'attend', 'hear', 'trace', 'sweep', 'settle'))
        self.say(*((word, self.card()) if word in ('knock', 'attend', 'hear') else (word,)))

    def orders(self):
        """One order to every card."""
        cards = list(range(self.cards))
        self.rng.shuffle(cards)
        for c in cards:
            for _ in range(self.rng.choice((1, 1, 1, 2, 4))):
                self.say('knock', c)
                if self.odd(0.2):
                    self.work(0.5)
                if self.odd(0.25):
                    self.say('note', c)
                    self.say('store', c)
                self.say('attend', c)
                if self.odd(0.1):
                    self.say('attend', c)
                self.say('hear', c)
        self.state(0.3)

    def round(self):
        self.say('open')
        for phase in range(3):
            for _ in range(self.rng.choice((1, 1, 2))):
                self.orders()
                self.work(0.5)
        for _ in range(min(self.cells, 40) + 1):
            self.say('trace')
            if self.odd(0.25):
                self.work(0.3)
        self.state(0.3)
        for _ in range(self.rng.choice((1, 2, 3))):
            self.orders()
        for _ in range(min(self.cells, 40)):
            self.say('sweep')
            if self.odd(0.15):
                self.work(0.3)
        self.state(0.3)
        self.say('settle')

    def noise(self):
        self.out.append(self.rng.choice(('', '# nothing', '   ', 'state', 'state # all of it')))

    def script(self):
        if self.odd(0.1):
            self.out += ['open', 'state', 'knock 0', 'read 0 0']
        if self.odd(0.7):
            self.line()
        self.make(good=True)
        while self.count < self.calls:
            for _ in range(self.rng.randrange(6)):
                self.work()
            if not self.quiet and self.odd(0.1):
                self.noise()
            if not self.quiet and self.odd(0.1):
                self.line()
            if not self.quiet and self.odd(0.1):
                self.make()
            if self.odd(0.3):
                self.any_call()
            if self.odd(0.8):
                self.round()
        self.out.append('state')
        return self.out


def play(command, text):
    done = subprocess.run(command, input=text.encode(), stdout=subprocess.PIPE, stderr=subprocess.PIPE)
    return done.returncode, done.stdout.decode().split('\n'), done.stderr.decode()


def main():
    here = pathlib.Path(__file__).resolve().parent.parent
    take = argparse.ArgumentParser()
    take.add_argument('model')
    take.add_argument('--scripts', type=int, default=200)
    take.add_argument('--calls', type=int, default=400)
    take.add_argument('--seed', type=int, default=1)
    take.add_argument('--panel', default=str(here / 'crates/panel/out/panel'))
    take.add_argument('--count', action='store_true', help='only plays the model, and says how much the scripts reach')
    args = take.parse_args()
    model = [sys.executable, str(pathlib.Path(args.model) / 'play.py')]
    calls, answers = 0, collections.Counter()
    for k in range(args.scripts):
        script = Writer(random.Random(f'{args.seed} {k}'), args.calls).script()
        text = '\n'.join(script) + '\n'
        status, wanted, said = play(model, text)
        if status:
            sys.exit(f'script {k}: the model gives up: {said[-400:]}')
        if not args.count:
            status, got, said = play([args.panel, 'play'], text)
            if status or got != wanted:
                pathlib.Path(KEPT).write_text(text)
                for at, (a, b) in enumerate(zip(got + ['(nothing)'], wanted + ['(nothing)'])):
                    if a != b:
                        sys.exit(f'script {k} (kept as {KEPT}), line {at + 1} of the output:\n  program {a}\n  model   {b}\n'
                                 f'status {status} {said}')
                sys.exit(f'script {k} (kept as {KEPT}): status {status} {said}')
        for row in wanted:
            words, arrow, answer = row.partition(' -> ')
            if arrow:
                calls += 1
                answers[answer if answer.startswith('refused') or answer in ('made', 'ready', 'no store') else 'answered'] += 1
                word = words.split()[0]
                if not answer.startswith('refused'):
                    answers['done: ' + word] += 1
                    if word == 'sweep' and answer != '0':
                        answers['records freed'] += 1
    for what, count in sorted(answers.items()):
        print(f'{count:8} {what}')
    print(f'{args.scripts} scripts, {calls} lines with an answer' + ('' if args.count else ': program and model agree'))


if __name__ == '__main__':
    main()
