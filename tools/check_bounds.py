#!/usr/bin/env python3
"""Asks the program ask_bounds random questions, and checks every answer by plain enumeration, apart from the definitions and
the code in crates/. Prints how many answers of each stack of bounds agreed; at the first that does not, shows the question
and ends with status 1. crates/ask_bounds/src/questions.rt says how a question is written.

usage: tools/check_bounds.py [--count QUESTIONS] [--seed NUMBER] [--program PATH]"""
import argparse
import random
import subprocess
import sys
from itertools import product
from pathlib import Path
from typing import NamedTuple

# A stack is named by its layers, from the top. Each stands after the stack that it lies on.
STACKS = ['bare', 'decided', 'flow bare', 'flow decided', 'flow flow decided']


class Question(NamedTuple):
    cap: int
    weights: list
    lots: list
    links: list  # from, to, strength


class Answer(NamedTuple):
    number: int
    charges: list


# Random questions.

# The short path from 0 to 1 blocks two longer ones: for the most to flow, what went from 2 to 3 must be sent back.
CROSSED = [(0, 2), (2, 3), (3, 1), (0, 4), (4, 5), (5, 3), (2, 6), (6, 7), (7, 1)]


def random_links(rng, households, pairs):
    """Links of these pairs and of others, some of them again, some only of neighbours; of small or of large strengths."""
    reach, strongest, pairs = rng.choice([2, households]), rng.choice([1, 3, 20, 1000]), list(pairs)
    near = [(f, t) for f in range(households) for t in range(f) if f - t <= reach]
    count = rng.choice([rng.randrange(15), 14]) if near else 0
    while len(pairs) < count:
        pairs.append(rng.choice(pairs if pairs and rng.random() < 0.2 else near))
    rng.shuffle(pairs)
    return [(*rng.sample(pair, 2), rng.randint(1, strongest)) for pair in pairs]


def random_lots(rng, households):
    """Each lot by chance, at times of one group only; or the first household in A, the second or the last in B, and few others
    set."""
    lots = rng.choices([0, 1, 2], rng.choice([(1, 1, 1), (3, 1, 1), (8, 1, 1), (1, 1, 0), (1, 0, 1), (0, 1, 1)]), k=households)
    if households > 1 and rng.random() < 0.7:
        lots = [lot if rng.random() < 0.2 else 0 for lot in lots]
        lots[0], lots[rng.choice([1, -1])] = 1, 2
    return lots


def spoilt(rng, lots):
    """The list too short, too long, or with a lot above 2."""
    return rng.choice([lots[1:] if lots else [0], lots + [rng.randrange(3)], [rng.randint(3, 9)] + lots[1:]])


def random_question(rng):
    crossed = rng.random() < 0.3
    households = rng.randint(8, 10) if crossed else rng.choice([rng.randrange(11), rng.randint(4, 10)])
    heaviest = rng.choice([0, 1, 5, 10000])
    weights = [rng.randint(0, heaviest) for _ in range(households)]
    half = -(-sum(weights) // 2)
    cap = rng.choice([half, half + half // 20, sum(weights), rng.randint(0, sum(weights)), 2 ** 32 - 1])
    lots = random_lots(rng, households)
    links = random_links(rng, households, CROSSED if crossed else [])
    return Question(cap, weights, spoilt(rng, lots) if rng.random() < 0.03 else lots, links)


# What an answer must be. Each check answers what is wrong, or nothing.

def cuts(question):
    """Every bisection that extends the lots, with the links that it cuts."""
    for way in product(*[(1, 2) if lot == 0 else (lot,) for lot in question.lots]):
        yield way, [k for k, (f, t, _) in enumerate(question.links) if way[f] != way[t]]


def check_bare(question, ways, below, answer):
    if answer != Answer(0, [0] * len(question.links)):
        return 'bare is 0 everywhere'


def check_decided(question, ways, below, answer):
    charges = [s if {question.lots[f], question.lots[t]} == {1, 2} else 0 for f, t, s in question.links]
    if answer != Answer(sum(charges), charges):
        return f'decided is {sum(charges)}: {charges}'


def is_flow(question, amounts, value):
    """Whether the amounts can be given directions so that as much leaves each unset household as comes in, and `value` more
    leaves A than comes in. Goes from link to link with all balances that some directions so far give."""
    lots = question.lots
    sums = {(0,) * (len(lots) + 1)}
    last = {household: k for k, (f, t, _) in enumerate(question.links) for household in (f, t)}
    for k, ((f, t, _), amount) in enumerate(zip(question.links, amounts)):
        # the households of A share the last place, and those of B have none
        places = [(h if lots[h] == 0 else -1, sign) for h, sign in ((f, 1), (t, -1)) if lots[h] != 2]
        sums = {moved(balances, places, way * amount) for balances in sums for way in (1, -1)}
        done = [h for h in (f, t) if lots[h] == 0 and last[h] == k]
        sums = {balances for balances in sums if not any(balances[h] for h in done)}
    return any(balances[-1] == value for balances in sums)


def moved(balances, places, amount):
    after = list(balances)
    for place, sign in places:
        after[place] += sign * amount
    return tuple(after)


def check_flow(question, ways, below, answer):
    left = [s - charge for (_, _, s), charge in zip(question.links, below.charges)]
    least = min(sum(left[k] for k in cut) for _, cut in ways)
    if answer.number != below.number + least:
        return f'the least cut of what is left is {least}, over {below.number}'
    amounts = [charge - under for charge, under in zip(answer.charges, below.charges)]
    if not all(0 <= amount <= rest for amount, rest in zip(amounts, left)):
        return f'the amounts {amounts} are not within {left}'
    if not {1, 2} <= set(question.lots) and any(amounts):
        return f'a group is empty, and the amounts are {amounts}'
    if not is_flow(question, amounts, least):
        return f'the amounts {amounts} are those of no flow of {least}'


def check_law(question, ways, answer):
    if not all(0 <= charge <= s for charge, (_, _, s) in zip(answer.charges, question.links)):
        return 'a charge exceeds its strength'
    if answer.number > sum(answer.charges):
        return 'the number exceeds the sum of the charges'
    for way, cut in ways:
        weighs = [sum(w for w, lot in zip(question.weights, way) if lot == side) for side in (1, 2)]
        if max(weighs) <= question.cap and sum(answer.charges[k] for k in cut) < answer.number:
            return f'the cut links of {way} do not pay for the number'


CHECKS = {'bare': check_bare, 'decided': check_decided, 'flow': check_flow}


# Asking.

def written(stack, question):
    weights = ' '.join(map(str, question.weights))
    lots = ''.join(map(str, question.lots))
    links = ','.join(f'{f} {t} {s}' for f, t, s in question.links)
    return f'{stack};{question.cap};{weights};{lots};{links}'


def read(line):
    number, colon, charges = line.partition(':')
    return Answer(int(number), [int(charge) for charge in charges.split()]) if colon else None


def check_question(question, lines):
    """The first stack whose answer is wrong, and why, or nothing. `lines` has the answer of each stack."""
    if len(question.lots) != len(question.weights) or max(question.lots, default=0) > 2:
        return next(((stack, 'the list is to be refused') for stack in STACKS if lines[stack] != 'refused 3'), None)
    ways, answers = list(cuts(question)), {}
    for stack in STACKS:
        top, _, under = stack.partition(' ')
        answers[stack] = answer = read(lines[stack])
        if answer is None or len(answer.charges) != len(question.links):
            return stack, 'there is not a charge for each link'
        fault = CHECKS[top](question, ways, answers.get(under), answer) or check_law(question, ways, answer)
        if fault:
            return stack, fault


def ask(program, questions):
    """For each question the answer of each stack, as written."""
    text = ''.join(written(stack, question) + '\n' for question in questions for stack in STACKS)
    ran = subprocess.run([program], input=text, stdout=subprocess.PIPE, text=True, check=True)
    lines = iter(ran.stdout.splitlines())
    return [{stack: next(lines) for stack in STACKS} for _ in questions]


def main():
    parser = argparse.ArgumentParser(description='Checks lower bounds by enumeration.')
    parser.add_argument('--count', type=int, default=2000, help='how many questions')
    parser.add_argument('--seed', type=int, default=1)
    parser.add_argument('--program', type=Path, default=Path(__file__).parent.parent / 'crates/ask_bounds/out/ask_bounds')
    options = parser.parse_args()
    if not options.program.exists():
        sys.exit(f'{options.program} is not there yet: tools/built ask_bounds makes it')
    rng = random.Random(options.seed)
    questions = [random_question(rng) for _ in range(options.count)]
    for question, lines in zip(questions, ask(options.program, questions)):
        wrong = check_question(question, lines)
        if wrong:
            stack, fault = wrong
            sys.exit(f'{written(stack, question)}\n{lines[stack]}\n{fault}')
    for stack in STACKS:
        print(f'{stack}: {options.count} answers agreed')


if __name__ == '__main__':
    main()
