#!/usr/bin/env python3
"""Runs programs of clauses, each at two sizes: with the proved program of crates/chipbool, or with the one whose path is
the first word, and with SWI-Prolog (swipl), where it is installed: as it is, and with its occurs check, which chipbool
always makes. Times are processor seconds of a whole run, the best of three, and `mb` is the greatest memory of one;
`-` stands where a run took more than the limit (LIMIT, in seconds), `?` where it didn't print what it should, and a
blank where there is nothing to run.

  answers   n variables of two bits each: 2^n lines
  reverse   naive reverse of a list of n names, by clauses
  queens    all boards of n queens, by unification alone
  deep      a numeral of 2^n made by doubling, and walked down, with a clause left to try at each step
  choices   2^n ways through n pairs of clauses, none of which ends
  parity    parity of n bits that are constants, as a function; beside it library(clpb)
"""
import os
import pathlib
import resource
import shutil
import subprocess
import sys
import tempfile

HERE = pathlib.Path(__file__).resolve().parent
CRATE = HERE.parent / "crates" / "chipbool"
LIMIT = float(os.environ.get("LIMIT", "60"))


def numeral(n):
    return "s(" * n + "z" + ")" * n


def names_list(n):
    text = "nil"
    for k in range(n, 0, -1):
        text = f"cons(n{k}, {text})"
    return text


# Each gives the clauses that both take, the directives of chipbool, those of SWI-Prolog, the query, the variables that are
# printed, and how many answers there are.
def answers(n):
    xs = [f"X{k}" for k in range(n)]
    return "p(0).\np(1).\n", ":- sorts p(bool).\n", "", ", ".join(f"p({x})" for x in xs), xs, 2 ** n


def reverse(n):
    # A text's nesting ends at 256, so the list is made by clauses, a hundred names at a time.
    clauses = ("app(nil, L, L).\napp(cons(H, T), L, cons(H, R)) :- app(T, L, R).\n"
               "rev(nil, nil).\nrev(cons(H, T), R) :- rev(T, S), app(S, cons(H, nil), R).\n"
               "times(z, nil).\ntimes(s(N), L) :- times(N, M), hundred(H), app(H, M, L).\n"
               f"hundred({names_list(100)}).\n")
    return clauses, "", "", f"times({numeral(n // 100)}, _L), rev(_L, _R), _R = cons(X, _)", ["X"], 1


def queens(n):
    clauses = ("queens(nil, _, _, _).\n"
               "queens(cons(I, Is), Cs, Us, cons(_, Ds)) :- queens(Is, Cs, cons(_, Us), Ds), place(I, Cs, Us, Ds).\n"
               "place(I, cons(I, _), cons(I, _), cons(I, _)).\n"
               "place(I, cons(_, Cs), cons(_, Us), cons(_, Ds)) :- place(I, Cs, Us, Ds).\n")
    board = "nil"
    for k in range(n):
        board = f"cons(C{k}, {board})"
    cs = [f"C{k}" for k in range(n)]
    boards = {4: 2, 5: 10, 6: 4, 7: 40, 8: 92, 9: 352}
    return clauses, "", "", f"queens({names_list(n)}, {board}, _, _)", cs, boards[n]


def deep(n):
    clauses = ("twice(z, z).\ntwice(s(X), s(s(Y))) :- twice(X, Y).\npower(z, s(z)).\n"
               "power(s(N), X) :- power(N, Y), twice(Y, X).\ndown(z).\ndown(s(X)) :- down(X).\n")
    return clauses, "", "", f"power({numeral(n)}, _X), down(_X), Y = done", ["Y"], 1


def choices(n):
    clauses = "c(one).\nc(two).\n" + "w(z).\nw(s(N)) :- c(X), w(N).\n"
    return clauses, "", "", f"w({numeral(n)}), fail", [], 0


def parity(n):
    cs = ", ".join(f"c{k}" for k in range(n))
    clauses = f":- constants {cs}.\n:- sorts par(bus, bool).\npar([], 0).\npar([X|T], P) :- par(T, Q), P = X # Q.\n"
    theirs = ":- use_module(library(clpb)).\npar([], 0).\npar([X|T], P) :- par(T, Q), sat(P =:= X # Q).\n"
    return (clauses, theirs), "", "", f"par([{cs}], P)", ["P"], 1


CASES = [(answers, (12, 16)), (reverse, (200, 400)), (queens, (6, 8)), (deep, (14, 17)), (choices, (14, 17)), (parity, (12, 16))]


def swi_text(clauses, query, printed, occurs):
    """The same for SWI-Prolog: each answer a line, and then `end` or `no`."""
    shown = ", ".join(f"{x} = ~w" for x in printed) or "yes"
    values = f"[{', '.join(printed)}]" if "clpb" not in clauses else "['..']"
    flag = ":- set_prolog_flag(occurs_check, true).\n" if occurs else ""
    singles = ":- style_check(-singleton).\n"
    return (f"{flag}{singles}{clauses}main :- nb_setval(found, no), ( {query}, format(\"{shown}~n\", {values}), "
            "nb_setval(found, end), fail ; true ), nb_getval(found, F), writeln(F).\n:- main.\n:- halt.\n")


def measured(words, stdin, lines):
    """The best time of three, and the greatest memory, of a run that prints so many lines before the last."""
    best, most = None, 0
    for _ in range(3):
        with open(stdin) as given, tempfile.TemporaryFile() as out:
            before = resource.getrusage(resource.RUSAGE_CHILDREN)
            try:
                run = subprocess.Popen(words, stdin=given, stdout=out, stderr=subprocess.DEVNULL)
                _, _, used = wait(run)
            except subprocess.TimeoutExpired:
                return "-", ""
            out.seek(0)
            got = out.read().decode().splitlines()
        if len(got) != lines + 1 or got[-1] not in ("end", "no"):
            return "?", ""
        seconds = used.ru_utime + used.ru_stime
        best = seconds if best is None else min(best, seconds)
        most = max(most, used.ru_maxrss // 1024)
        if best > 5:
            break
    return f"{best:.2f}", str(most)


def wait(run):
    """Waits for a run, at most for the limit; its use of the processor and of memory."""
    import threading
    ended = threading.Timer(LIMIT, run.kill)
    ended.start()
    pid, status, used = os.wait4(run.pid, 0)
    timed_out = not ended.is_alive()
    ended.cancel()
    run.returncode = os.waitstatus_to_exitcode(status)
    if timed_out:
        raise subprocess.TimeoutExpired(run.args, LIMIT)
    return pid, status, used


def main():
    program = pathlib.Path(sys.argv[1]).resolve() if sys.argv[1:] else CRATE / "out" / "chipbool"
    if not sys.argv[1:]:
        subprocess.run(["rt", "run", "--", "check"], cwd=CRATE, capture_output=True)
    swi = shutil.which("swipl")
    if not swi:
        print("SWI-Prolog isn't installed: no comparison")
    print(f"{'program':10} {'size':>5} {'answers':>8} {'chipbool':>9} {'mb':>5} {'swipl':>8} {'mb':>5} {'occurs':>8} {'ratio':>6}")
    with tempfile.TemporaryDirectory() as folder:
        for make, sizes in CASES:
            for size in sizes:
                clauses, ours, _, query, printed, count = make(size)
                mine, theirs = clauses if isinstance(clauses, tuple) else (clauses, clauses)
                file, stdin, prolog = (pathlib.Path(folder) / x for x in ("p.cb", "q.txt", "p.pl"))
                file.write_text(ours + mine)
                stdin.write_text(query + ".\n")
                row = list(measured([str(program), "run", str(file), "10000000", "max"], stdin, count))
                row += ["", "", ""]
                if swi:
                    for at, occurs in ((2, False), (4, True)):
                        prolog.write_text(swi_text(theirs, query, printed, occurs))
                        seconds, memory = measured([swi, "-q", "--stack-limit=4g", str(prolog)], stdin, count)
                        row[at] = seconds
                        if at == 2:
                            row[3] = memory
                ratio = ""
                try:
                    ratio = f"{float(row[0]) / float(row[2]):.2f}"
                except ValueError:
                    pass
                print(f"{make.__name__:10} {size:>5} {count:>8} {row[0]:>9} {row[1]:>5} {row[2]:>8} {row[3]:>5} {row[4]:>8} {ratio:>6}", flush=True)


main()
