"""Listings: whole, with certificates, cut by limits and gone on with, and from tokens that may be none."""

import random_cases
from comparisons.certificates import check_written
from comparisons.runner import Difference, lines, status_of
from oracle import texts


def check_listing(runner, problem, words, rng):
    worlds = problem.worlds()
    whole = lines(worlds, f"complete {len(worlds)}")
    runner.same(["align", "in=p"] + words, status_of(worlds), whole)
    runner.drop("c")
    runner.same(["align", "in=p", "cert=c"] + words, status_of(worlds), whole)
    check_written(runner, problem, words, rng, "from .\n" + lines(worlds, "to -") + f"accepted {len(worlds)}\n")


def random_limits(rng, nodes):
    limits = {}
    if rng.random() < 0.7:
        limits["nodes"] = rng.choice([1, 2, 3, rng.randint(1, nodes + 1), nodes])
    if rng.random() < 0.6 or not limits:
        limits["worlds"] = rng.randint(1, 4)
    return limits


def check_cuts(runner, problem, words, rng):
    """Two listings that are cut by limits, and gone on with from their tokens, some of them with certificates."""
    nodes = len(problem.nodes_from(""))
    for _ in range(2):
        limits, start = random_limits(rng, nodes), ""
        for _ in range(5):
            given = [f"{k}={v}" for k, v in limits.items()] + ["token=t"]
            if start:
                runner.hold("r", texts.print_token(problem, start).encode())
                given.append("resume=r")
            worlds, cut = problem.listing(start, limits.get("nodes"), limits.get("worlds"))
            runner.drop("t")
            if cut is None:
                runner.same(["align", "in=p"] + given + words, status_of(worlds, start), lines(worlds, f"complete {len(worlds)}"))
                if runner.held("t") is not None:
                    raise Difference("a token without a cut")
                break
            with_certificate = ["cert=c"] if rng.random() < 0.3 else []
            runner.same(["align", "in=p"] + given + with_certificate + words, 5, lines(worlds, f"cut {len(worlds)}"))
            if runner.held("t") != texts.print_token(problem, cut).encode():
                raise Difference(f"another token: {runner.held('t')}, wanted {texts.print_token(problem, cut)}")
            if with_certificate:
                accepted = f"from {start or '.'}\n" + lines(worlds, f"to {cut or '.'}") + f"accepted {len(worlds)}\n"
                check_written(runner, problem, words, rng, accepted)
            start = cut


def check_tokens(runner, problem, words, rng):
    for _ in range(2):
        token = random_cases.random_token(rng, problem)
        runner.hold("r", token)
        start, kind = texts.read_token(problem, token)
        if kind:
            runner.same(["align", "in=p", "resume=r"] + words, 7, f"token {kind}\n")
        else:
            worlds, _ = problem.listing(start)
            runner.same(["align", "in=p", "resume=r"] + words, status_of(worlds, start), lines(worlds, f"complete {len(worlds)}"))
