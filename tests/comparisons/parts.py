"""Parts of a listing, and what joins."""

import random_cases
from comparisons.certificates import same_check
from comparisons.runner import Difference, rows_text
from oracle import certificate_writer, model, parts, texts


def check_beginnings(runner, problem, words, rng):
    """Where the parts begin, and their tokens; nothing else is written."""
    count = rng.choice([1, 2, 3, rng.randint(1, 20), rng.randint(1, 200), rng.randint(1, 1000)])
    positions = parts.beginnings(problem, count)
    names = [f"t{number}" for number in range(1, len(positions) + 2)]
    for name in names:
        runner.drop(name)
    runner.same(["parts", "in=p", f"count={count}", "token=t"] + words, 0, rows_text(parts.parts_lines(positions)))
    for name, position in zip(names, positions + [None]):
        wanted = None if position is None else texts.print_token(problem, position).encode()
        if runner.held(name) != wanted:
            raise Difference(f"another token {name}: {runner.held(name)}, wanted {wanted}")
    return positions


def token_of(problem, position, rng):
    """A token of a position, and where it may be one of the older form now and then."""
    if len(problem.taxonomies) == 2 and rng.random() < 0.2:
        return f"token 1 {problem.digest()} {position or '.'}\n".encode()
    return texts.print_token(problem, position).encode()


def check_part(runner, problem, words, start, end, rng):
    """A part from one position on and below another; its certificate, or None where it has nothing to list."""
    given = ["part", "in=p", "cert=c"]
    if start or rng.random() < 0.3:
        runner.hold("r", token_of(problem, start, rng))
        given.append("resume=r")
    if end is not None:
        runner.hold("u", token_of(problem, end, rng))
        given.append("until=u")
    runner.hold("c", b"what it held\n")
    code, rows = parts.part_answer(problem, start, end)
    runner.same(given + words, code, rows_text(rows))
    data = runner.held("c")
    if code != 0:
        if data != b"what it held\n":
            raise Difference(f"an empty part from {start} below {end}, and the certificate is {data}")
        return None
    node = parts.node_at(problem, end)
    wanted = [f"from {start or '.'}", *rows[:-1], f"to {'-' if node is None else node or '.'}", f"accepted {len(rows) - 1}"]
    got = same_check(runner, problem, words, data)
    if got != (0, rows_text(wanted)):
        raise Difference(f"the certificate of a part: {got[0]}\n{got[1]}wanted: {wanted}\n{data.decode()}")
    return data


def check_join(runner, problem, words, files, numbers):
    """A join of files by their numbers; the exit code. What is joined must be what the certificates list together."""
    for number in set(numbers):
        runner.hold(f"j{number}", files[number])
    given = [files[number] for number in numbers]
    code, rows = parts.join_answer(problem, given)
    runner.same(["join", "in=p", "certs=" + ",".join(f"j{number}" for number in numbers)] + words, code, rows_text(rows))
    if code in (0, 6) and {world for data in given for world in parts.part_of(problem, data)[0].worlds} != set(problem.worlds()):
        raise Difference(f"joined, and not listed by these certificates: {rows}")
    return code


def random_cuts(problem, beginnings, rng):
    """Some positions, ascending: where parts begin, nodes, worlds, and others, that no node need have."""
    nodes = [node for node, _ in problem.nodes_from("")]
    chosen = rng.sample(beginnings, min(len(beginnings), rng.randint(0, 2))) + rng.sample(nodes, min(len(nodes), rng.randint(0, 2)))
    chosen += rng.sample(problem.worlds(), min(len(problem.worlds()), rng.randint(0, 1)))
    chosen += [random_cases.random_position(rng, len(problem.pairs)) for _ in range(rng.randint(0, 1))]
    return sorted(set(chosen) - {""}, key=model.rank)


def check_parts(runner, problem, words, rng):
    """A listing is cut into parts, and these are joined: all of them, some, with others that overlap, and with one that is damaged."""
    cuts = random_cuts(problem, check_beginnings(runner, problem, words, rng), rng)
    files = [check_part(runner, problem, words, start, end, rng) for start, end in zip([""] + cuts, cuts + [None])]
    for _ in range(rng.choice([0, 1, 1])):
        start, end = (rng.choice([*cuts, *problem.worlds(), "", random_cases.random_position(rng, len(problem.pairs))]) for _ in range(2))
        data = check_part(runner, problem, words, start, end, rng)
        files += [data] if data else []
    numbers = list(range(len(files)))
    given = numbers + rng.choices(numbers, k=rng.choice([0, 0, 1, 2]))
    rng.shuffle(given)
    if check_join(runner, problem, words, files, given) not in (0, 6):
        raise Difference("all parts together don't join")
    lost = rng.randrange(len(cuts) + 1)
    check_join(runner, problem, words, files, [number for number in given if number != lost] or [lost])
    for _ in range(rng.choice([1, 1, 2])):
        files.append(other_certificate(problem, rng.choice(files[: len(numbers)]), rng))
        given.insert(rng.randrange(len(given) + 1), len(files) - 1)
    check_join(runner, problem, words, files, given)
    check_join(runner, problem, words, files, rng.sample(given, rng.randint(1, len(given))))


def other_certificate(problem, data, rng):
    """One that is damaged, mostly, or lists nothing, or is of claims, or of a listing that begins and ends anywhere."""
    draw = rng.random()
    if draw < 0.6:
        return random_cases.damaged_certificate(rng, data)
    writer = certificate_writer.Writer(problem, rng)
    if draw < 0.7:
        # it ends before it begins, or there
        writer.header("certificate", rng.choice(["", random_cases.random_position(rng, len(problem.pairs))]) or ".")
        writer.put("end .")
        return writer.text()
    try:
        return writer.claims() if draw < 0.8 else writer.listing()
    except model.TooMany:
        return b""


def check_tokens_of_part(runner, problem, words, rng):
    """Tokens that may be none: that of the beginning is judged first, and before the certificate's file is there."""
    tokens = [random_cases.random_token(rng, problem) for _ in range(2)]
    for name, token in zip("ru", tokens):
        runner.hold(name, token)
    code, rows = parts.part_by_tokens(problem, *tokens)
    runner.drop("c")
    runner.same(["part", "in=p", "cert=c", "until=u", "resume=r"] + words, code, rows_text(rows))
    if (runner.held("c") is not None) != (code == 0):
        raise Difference(f"exit code {code}, and the certificate is {runner.held('c')}")
