#!/usr/bin/env python3
"""Times the reading and the preparing of queries up to the longest that is accepted.

Usage: bench/queries.py [--runs N] [--only WORD]

What reads is `sparql_read::read_query`, and what prepares `sparql_algebra::prepare`, in a small program, bench/query_reader.txt,
which building.py builds. Each query is made by a fixed rule, of as many pieces as fit into 65,536, 131,072 and 262,144 bytes. The
table has the answer, the processor seconds of the best of three runs at each size, the growth from size to size (2 where the time is
linear), and the peak memory at the last size; then what preparing answers at the last size, its seconds, and how many readings these
are. A query that is read otherwise than its rule says stops the benchmark. Below the table stand the queries that miss an aim: one
second for reading 262,144 bytes, and three readings, or a twentieth of a second, for preparing. Only Python's standard library is
used.
"""

import argparse
import os
import subprocess
import sys
import tempfile

from building import built

STANDS_ON = ["term_core", "xsd_num", "sparql_tree", "sparql_lex", "sparql_symbol", "sparql_grammar", "sparql_scope", "sparql_read",
             "nt_text", "value_table", "sparql_value", "sparql_print", "sparql_translation", "sparql_algebra"]

SIZES = [65_536, 131_072, 262_144]
AIM = 1.0
READINGS = 3.0
LEAST = 0.05
ACCEPTED = "accepted"
NO_QUERY = "not a query"
MEMORY = "memory"


def filled(size, head, piece, tail):
    """A text of that many bytes: as many pieces as fit between head and tail, then blanks. A piece is a text of its number."""
    text, room, number = [head], size - len(head) - len(tail), 0
    while len(made := piece(number)) <= room:
        text.append(made)
        room -= len(made)
        number += 1
    return "".join(text) + " " * room + tail


def paired(size, head, first, middle, second, tail):
    """As `filled`, of two runs of as many pieces each."""
    room, number, length = size - len(head) - len(middle) - len(tail), 0, 0
    while length + len(first(number)) + len(second(number)) <= room:
        length += len(first(number)) + len(second(number))
        number += 1
    firsts, seconds = "".join(map(first, range(number))), "".join(map(second, range(number)))
    return head + firsts + " " * (room - length) + middle + seconds + tail


def in_group(piece):
    """A rule: the pieces in one group."""
    return lambda size: filled(size, "SELECT * {", piece, "}")


def in_filter(head, piece, tail):
    """A rule: the pieces in the condition of a filter."""
    return lambda size: filled(size, "SELECT * { FILTER(" + head, piece, tail + ") }")


def prefixes(size):
    return paired(size, "", lambda n: f"PREFIX p{n}: <http://e/{n}/>\n", "SELECT * {", lambda n: f"p{n}:s p{n}:p p{n}:o .\n", "}")


def wide_row(name):
    """A rule: a row with a value for each of many variables."""
    return lambda size: paired(size, "SELECT * { VALUES (", name, ") { (", lambda n: "1 ", ") } }")


def lexical_fault(size):
    return in_group(triple)(size)[:-1] + "`"


def missing_brace(size):
    return in_group(triple)(size)[:-1] + ")"


def triple(n):
    return f"?s{n} <a:p> ?o{n} . "


def names(bytes_of):
    """A rule: one prefix, whose IRI has so many bytes in a text of this size, and its name again and again."""
    return lambda size: filled(size, f"PREFIX p:<a:{'x' * bytes_of(size)}> SELECT * {{", lambda n: "p: p: p: .", "}")


def objects(bytes_of):
    """A rule: one subject, and objects behind commas."""
    return lambda size: filled(size, f"SELECT * {{ <a:{'x' * bytes_of(size)}> ?p ?o", lambda n: ",?o", "}")


def objects_of_verb(bytes_of):
    """A rule: one verb, and objects behind commas."""
    return lambda size: filled(size, f"SELECT * {{ ?s <a:{'x' * bytes_of(size)}> ?o", lambda n: ",?o", "}")


def verbs(bytes_of):
    """A rule: one subject, and verbs behind semicolons."""
    return lambda size: filled(size, f"SELECT * {{ <a:{'x' * bytes_of(size)}> ?p ?o", lambda n: ";?p ?o", "}")


def cells(bytes_of):
    """A rule: one variable, and its values in a table."""
    return lambda size: filled(size, f"SELECT * {{ VALUES ?{'x' * bytes_of(size)} {{", lambda n: "1 ", "} }")


def half(size):
    return size // 2


PARENTHESES = "FILTER(" + "(" * 254 + "?a" + ")" * 255 + " "
GROUPS = "{" * 255 + "}" * 255

# a name, the rule, and the answer: one text for all sizes, or a function of the size
QUERIES = [
    ("one long graph pattern", in_group(triple), ACCEPTED),
    ("one triple written again and again", in_group(lambda n: "?s ?p ?o ."), ACCEPTED),
    ("objects after commas", lambda size: filled(size, "SELECT * { ?s ?p ?o", lambda n: f",?o{n}", "}"), ACCEPTED),
    ("many prefixes and prefixed names", prefixes, ACCEPTED),
    ("one prefix declared again and again", lambda size: filled(size, "", lambda n: f"PREFIX p: <a:{n}>\n", "SELECT * { p:a p:b p:c }"), ACCEPTED),
    ("a chain of alternatives", in_filter("?a", lambda n: f"||?a{n}", ""), ACCEPTED),
    ("a chain of summands", in_filter("?a", lambda n: f"+?a{n}", ""), ACCEPTED),
    ("a chain of numbers with signs", in_filter("1", lambda n: "+1", ""), ACCEPTED),
    ("a chain of negations, which is none", in_filter("", lambda n: "!", "?a"), NO_QUERY),
    ("members of IN", in_filter("?a IN (?a", lambda n: f",?a{n}", ")"), ACCEPTED),
    ("parentheses, 256 deep, again and again", in_group(lambda n: PARENTHESES), ACCEPTED),
    ("groups, 256 deep, again and again", in_group(lambda n: GROUPS), ACCEPTED),
    ("a union of many groups", lambda size: filled(size, "SELECT * {", lambda n: "{}UNION", "{}}"), ACCEPTED),
    ("many OPTIONAL", in_group(lambda n: "OPTIONAL{}"), ACCEPTED),
    ("many MINUS", in_group(lambda n: "MINUS{}"), ACCEPTED),
    ("90 patterns of long IRIs", lambda size: filled(size, "SELECT * {", lambda n: f"<a:{'x' * (size // 100)}> ?p ?o{n} ." if n < 90 else " " * size, "}"), ACCEPTED),
    ("40 tables of long strings behind OPTIONAL", lambda size: filled(size, "SELECT * {", lambda n: f"OPTIONAL {{ VALUES ?v{n} {{ '{'x' * (size // 45)}' }} }}" if n < 40 else " " * size, "}"), ACCEPTED),
    ("a table of 1,000 strings", lambda size: filled(size, "SELECT * { VALUES ?v {", lambda n: f"'{'x' * (size // 1100)}' " if n < 1000 else " " * size, "} }"), ACCEPTED),
    ("many VALUES rows of one variable", lambda size: filled(size, "SELECT * { VALUES ?a {", lambda n: f"{n} ", "} }"), ACCEPTED),
    ("many VALUES rows of two variables", lambda size: filled(size, "SELECT * { VALUES (?a ?b) {", lambda n: f"({n} UNDEF)", "} }"), ACCEPTED),
    ("a VALUES row of many variables, in order", wide_row(lambda n: f"?v{n:06}"), ACCEPTED),
    ("a VALUES row of many variables, backwards", wide_row(lambda n: f"?v{999_999 - n:06}"), ACCEPTED),
    ("many BIND of different variables", in_group(lambda n: f"BIND(1 AS ?v{n})"), ACCEPTED),
    ("many selected variables", lambda size: filled(size, "SELECT ", lambda n: f"?v{n} ", "{}"), ACCEPTED),
    ("many selected values", lambda size: filled(size, "SELECT ", lambda n: f"(1 AS ?v{n})", "{}"), ACCEPTED),
    ("many keys to group by", lambda size: filled(size, "SELECT (COUNT(*) AS ?n) {} GROUP BY", lambda n: f" ?v{n}", ""), ACCEPTED),
    ("many keys to order by", lambda size: filled(size, "SELECT * {} ORDER BY", lambda n: f" ?v{n}", ""), ACCEPTED),
    ("blank nodes in alternating graph patterns", in_group(lambda n: f"_:b{n} ?p _:c{n} {{}}"), ACCEPTED),
    ("a long string with escapes", in_filter('?a = "', lambda n: "\\n\\u00e9", '"'), ACCEPTED),
    ("a string in three quotes", in_filter('?a = """', lambda n: 'a"b""c', 'd"""'), ACCEPTED),
    ("three quotes that do not end", in_group(lambda n: "'''\\" if n == 0 else "'a'\\"), "lex"),
    ("a long IRI", lambda size: filled(size, "SELECT * { ?s ?p <a:", lambda n: "b", ">}"), ACCEPTED),
    ("signs that begin no IRI", in_filter("?a", lambda n: "<?a" if n == 0 else "||?a<?a", ""), ACCEPTED),
    ("a long name", lambda size: filled(size, "SELECT * { ?s ?p ?", lambda n: "n", "}"), ACCEPTED),
    ("a long name with points behind its prefix", lambda size: filled(size, "PREFIX p: <a:> SELECT * { ?s ?p p:", lambda n: "n..n", "}"), ACCEPTED),
    ("words with points between, and no colon", in_group(lambda n: "a."), NO_QUERY),
    ("words with signs between, and no colon", in_group(lambda n: "a-"), NO_QUERY),
    ("points behind a name", in_group(lambda n: "_:a" if n == 0 else "."), NO_QUERY),
    ("a long number, out of range", lambda size: filled(size, "SELECT * { ?s ?p ", lambda n: "7", "}"), "unsupported"),
    ("a long number of zeros", lambda size: filled(size, "SELECT * { ?s ?p ", lambda n: "0", "7}"), ACCEPTED),
    ("a long decimal, out of range", lambda size: filled(size, "SELECT * { ?s ?p 0.", lambda n: "7", "}"), "unsupported"),
    ("only comments", lambda size: filled(size, "", lambda n: f"# {n}\n", ""), NO_QUERY),
    ("only blanks", lambda size: " " * size, NO_QUERY),
    ("only open braces, 256", lambda size: filled(size, "SELECT *" + "{" * 256, triple, ""), NO_QUERY),
    ("braces that close none", lambda size: "}" * size, NO_QUERY),
    ("names that abbreviate much", names(lambda size: 208), ACCEPTED),
    ("objects that abbreviate much", objects(lambda size: 185), ACCEPTED),
    ("objects of a verb that abbreviate much", objects_of_verb(lambda size: 185), ACCEPTED),
    ("verbs that abbreviate much", verbs(lambda size: 370), ACCEPTED),
    ("cells that abbreviate much", cells(lambda size: 125), ACCEPTED),
    ("names that abbreviate more than is held, at the last two sizes", names(half), lambda size: MEMORY if size > 100_000 else ACCEPTED),
    ("the last token is no token", lexical_fault, "lex"),
    ("the last token is wrong", missing_brace, NO_QUERY),
    ("the last variable is bound before", lambda size: filled(size, "SELECT * {", lambda n: f"BIND(1 AS ?v{n})", "BIND(1 AS ?v0)}"), "scope"),
    ("the last label stands in the first pattern", lambda size: filled(size, "SELECT * {", lambda n: f"_:b{n} ?p ?o {{}}", "_:b0 ?p ?o}"), "scope"),
    ("the last word is not supported", lambda size: filled(size, "SELECT * {", triple, "SERVICE"), "unsupported"),
]


def told(program, path, *words):
    """What the program tells of a text, its processor seconds, and its peak memory in bytes."""
    with open(path, "rb") as text:
        child = subprocess.Popen([program, *words], stdin=text, stdout=subprocess.PIPE)
        line = child.stdout.read().decode(errors="replace").strip()
        _, status, usage = os.wait4(child.pid, 0)
    child.returncode = os.waitstatus_to_exitcode(status)
    if child.returncode != 0:
        sys.exit(f"{program} ended with {child.returncode} on {path}")
    return line, usage.ru_utime + usage.ru_stime, usage.ru_maxrss * 1024


def row(program, path, name, rule, answer, runs):
    """Prints the row of a query, and gives which aims it misses."""
    seconds = []
    for size in SIZES:
        text = rule(size).encode()
        assert len(text) == size, f"{name}: {len(text)} bytes"
        with open(path, "wb") as file:
            file.write(text)
        told_runs = [told(program, path) for _ in range(runs)]
        line, best, memory = min(told_runs, key=lambda run: run[1])
        wanted = answer(size) if callable(answer) else answer
        if line != wanted:
            sys.exit(f"{name}: {line}, and not {wanted}")
        seconds.append(best)
    prepared, longer, _ = min([told(program, path, "prepare") for _ in range(runs)], key=lambda run: run[1])
    growths = [f"{later / max(before, 0.001):.1f}" for before, later in zip(seconds, seconds[1:])]
    cells = [f"{seconds[0]:.3f}", f"{seconds[1]:.3f}", growths[0], f"{seconds[2]:.3f}", growths[1], f"{memory / 1e6:.0f}",
             prepared, f"{longer:.3f}", f"{longer / max(seconds[2], 0.001):.1f}"]
    print(f"| {name} | {line} | " + " | ".join(cells) + " |", flush=True)
    missed = [f"one second for reading: {name}"] * (seconds[-1] >= AIM)
    return missed + [f"three readings for preparing: {name}"] * (longer > max(READINGS * seconds[-1], LEAST))


def table(program, path, given):
    """Prints the rows of queries, and gives which aims are missed at the last size."""
    print(f"| Query | Answer | {SIZES[0]:,} | {SIZES[1]:,} | Growth | {SIZES[2]:,} | Growth | Memory in MB | Prepared | {SIZES[2]:,} | Readings |")
    print("|---|---|---:|---:|---:|---:|---:|---:|---|---:|---:|")
    chosen = [query for query in QUERIES if given.only in query[0]]
    return [missed for name, rule, answer in chosen for missed in row(program, path, name, rule, answer, given.runs)]


def main():
    parser = argparse.ArgumentParser(description=__doc__.split("\n")[0])
    parser.add_argument("--runs", type=int, default=3)
    parser.add_argument("--only", default="", help="the queries with this in their name")
    given = parser.parse_args()
    program = built("query_reader", STANDS_ON, [], text=b"SELECT * {}")
    with tempfile.TemporaryDirectory() as scratch:
        path = os.path.join(scratch, "query.rq")
        for missed in table(program, path, given):
            print(f"misses the aim of {missed}")


if __name__ == "__main__":
    main()
