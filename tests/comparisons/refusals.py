"""Words that are no request, and texts that are refused."""

import random_cases
from comparisons.runner import Difference, lines, status_of, switch_words
from oracle import texts, usage


def check_words(runner, _problem, _words, rng):
    for _ in range(3):
        words = random_cases.random_words(rng)
        kind = usage.fault_of(words)
        if kind:
            runner.same(words, 2, f"usage {kind}\n")
            continue
        code, text = runner.run(words)
        if code == 2:
            raise Difference(f"words: {' '.join(words)}\nwanted: no usage fault\ngot: {text}")


def check_damaged(runner, problem, _words, rng):
    check_text(runner, random_cases.damaged(rng, problem.text.encode(), random_cases.TEXT_PIECES), problem.switches)


def check_limits(runner, problem, _words, rng):
    """Now and then a text at a limit."""
    if rng.random() < 0.05:
        check_text(runner, random_cases.text_at_limit(rng), problem.switches)


def check_text(runner, data, switches):
    runner.hold("p", data)
    words = switch_words(switches)
    try:
        problem = texts.read_problem(data, switches)
    except texts.Fault as fault:
        line, kind = fault.args
        runner.same(["align", "in=p"] + words, 1, f"refused {line} {kind}\n")
        return
    if len(problem.names) <= 6:
        worlds = problem.finish().worlds()
        runner.same(["align", "in=p"] + words, status_of(worlds), lines(worlds, f"complete {len(worlds)}"))
