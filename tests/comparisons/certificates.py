"""Certificates: both checkers answer the same of any bytes, and what is accepted is so."""

import random_cases
from comparisons.runner import Difference
from oracle import certificate_writer, model, parts, statements


def same_check(runner, problem, words, data):
    """Both checkers must answer the same of these bytes; it is the answer."""
    code, text = parts.checked(problem, data)
    runner.hold("d", data)
    try:
        runner.same(["check", "in=p", "cert=d"] + words, code, text)
    except Difference as difference:
        raise Difference(f"{difference}\nof the certificate\n{data.decode('utf-8', 'backslashreplace')}")
    if code == 0 and not is_so(problem, text.split("\n")[:-1]):
        raise Difference(f"accepted, and not so:\n{text}of the certificate\n{data.decode()}")
    return code, text


def is_so(problem, rows):
    """Whether what an accepted certificate says is so, by its worlds."""
    worlds = problem.worlds()
    if rows[0].startswith("from "):
        start, end = rows[0][5:].replace(".", ""), rows[-2][3:].replace(".", "")
        between = lambda w: model.rank(w) >= model.rank(start) and (end == "-" or model.rank(w) < model.rank(end))
        return rows[1:-2] == [w for w in worlds if between(w)] and rows[-1] == f"accepted {len(rows) - 3}"
    for row in rows[:-1]:
        said, kind, *rest = row.split(" ")
        if kind == "m":
            holds = any(w[int(rest[0])] == rest[1] for w in worlds)
        else:
            holds = statements.is_consistent(problem, rest[0].replace(".", ""))
        if holds != (said == "some"):
            return False
    return rows[-1] == f"accepted {len(rows) - 1}"


def check_written(runner, problem, words, rng, text=None):
    """The certificate `c`, that the program wrote, must be accepted, with this text; and both checkers say the same of damaged ones."""
    data = runner.held("c")
    code, got = same_check(runner, problem, words, data)
    if code != 0 or text not in (None, got):
        raise Difference(f"a written certificate: {code}\n{got}\nwanted: {text}\n{data.decode()}")
    for _ in range(2):
        same_check(runner, problem, words, random_cases.damaged_certificate(rng, data))
    return got.split("\n")[:-2]


def check_other_certificates(runner, problem, words, rng):
    """Certificates that no solver wrote."""
    for kind in ("listing", "claims"):
        try:
            data = getattr(certificate_writer.Writer(problem, rng), kind)()
        except model.TooMany:
            continue
        except certificate_writer.NotShown as fault:
            raise Difference(f"no point lies in a need, which the given clauses don't show: {fault}")
        if same_check(runner, problem, words, data)[0] != 0:
            raise Difference(f"a certificate of the oracle is not accepted:\n{data.decode()}")
        for _ in range(3):
            same_check(runner, problem, words, random_cases.damaged_certificate(rng, data))
