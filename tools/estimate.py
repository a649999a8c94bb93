#!/usr/bin/env python3
"""Takes estimates with errors, and figures, from reports of `glass run`.

    python3 tools/estimate.py means report.txt --skip 2000 --run run.toml --plot means.png
    python3 tools/estimate.py reweight seed_*.txt --skip 2000 --run run.toml --at 1.05 1.1019 1.15
    python3 tools/estimate.py overlaps report.txt --slot 0 --below 0.2 --plot overlaps.png
    python3 tools/estimate.py equilibration report.txt --slot 0
    python3 tools/estimate.py bracket up_*.txt --random random_*.txt --slot 0
    python3 tools/estimate.py times report.txt --skip 2000
    python3 tools/estimate.py walks report.txt --skip 2000 --run run.toml --feedback
    python3 tools/estimate.py lengths lines_1.txt lines_2.txt --plot lengths.png
    python3 tools/estimate.py export seed_*.txt --hdf5 study.h5
    python3 tools/estimate.py cross copies_*.txt --run run.toml --csv copies.csv

means          energy per site, q^2, spin-glass susceptibility V [q^2] and Binder ratio of each slot, and the specific
               heat where temperatures are known
reweight       the same at temperatures between the slots, by reweighting; refused where the energies don't reach
overlaps       P(q) of a slot, made symmetric, and P(|q| < q0); with --each FILE sample by sample
equilibration  energy and q^2 over parts of the run that double, the step from part to part with its error, and the
               samples that move most
bracket        the same parts of runs from ordered spins beside those of runs with the same couplings from random ones
times          autocorrelation times of the walks in temperature, sample by sample, and of the energy and of q^2
walks          acceptance by pair, round trips through the slots by label, and temperatures optimised by feedback
lengths        of what `glass lines` prints: link overlap and coherence length xi_12 of each slot
export         the rows as arrays for numpy.load, in an HDF5 file, or as comma-separated text

Of texts of sums over runs by bins of epochs (docs/specification/measure.md), with errors over seeds and over samples:

sums           energy, specific heat, link overlap, susceptibility, xi/L, R12, U4 and its slope of each slot, and P(q)
bins           the same bin by bin, with the step to the next bin in its own errors: whether a run is equilibrated
scaling        xi/L, R12 and U4 of several sizes, their crossings, and with --collapse T_c and nu of all sizes together
squares        of two runs of equal couplings: U22, and variances of the samples' means, by products without bias

Of texts of four copies (docs/specification/quench.md), with errors over pairs of runs and over samples:

cross          U111, U1111, U22 and U4; of one pair chi, xi/L, R12 and the link overlap

Errors are jackknife errors. Of several reports, which must differ in their seeds alone, each is a block; those
whose manifests (tools/manifest.py) name couplings files are one block for each file. Of one report its samples
are blocks, or --blocks groups of them: they share each random number, so that error is over the disorder
and lacks what the samples have in common. Several seeds have all of it. Reports are read one after the other.

A report that no run prints is refused with the number of its first such line. numpy, scipy and matplotlib are
needed, and h5py for HDF5: sudo apt-get install python3-numpy python3-scipy python3-matplotlib python3-h5py
"""
from __future__ import annotations

import argparse
import importlib
import sys
from typing import Optional, Sequence

sys.dont_write_bytecode = True
from exit_status import status_of  # noqa: E402
from make_tables import OneLineParser, Refusal  # noqa: E402
from run_temperatures import add_run  # noqa: E402

NEEDED = "numpy, scipy and matplotlib are needed: sudo apt-get install python3-numpy python3-scipy python3-matplotlib"
# The module that has each command.
MODULES = {"means": "estimate_means", "reweight": "estimate_means", "overlaps": "estimate_means",
           "equilibration": "estimate_runs", "bracket": "estimate_runs", "times": "estimate_runs", "walks": "estimate_runs",
           "lengths": "estimate_files", "export": "estimate_files",
           "sums": "estimate_sums", "bins": "estimate_sums", "scaling": "estimate_sums",
           "squares": "estimate_copies", "cross": "estimate_copies"}
# Those of texts of sums over runs, which are no reports, and of texts of four copies.
OF_SUMS = ("sums", "bins", "scaling", "squares")
OF_STATES = ("cross",)


def add_own_words(command: str, words: argparse.ArgumentParser) -> None:
    """The words of one command or two."""
    if command in ("overlaps", "equilibration", "bracket"):
        words.add_argument("--slot", type=int, nargs="+", default=[0], metavar="N", help="these slots (0, the coldest)")
    if command in ("equilibration", "bracket", "times"):
        words.add_argument("--worst", type=int, default=10 if command == "times" else 5, metavar="N",
                           help="tell so many of the worst samples")
    if command == "overlaps":
        words.add_argument("--bins", type=int, metavar="N", help="the number of bins of q (65)")
        words.add_argument("--below", type=float, nargs="+", default=[], metavar="Q0", help="also P(|q| < Q0)")
        words.add_argument("--each", metavar="FILE", help="write them sample by sample, as comma-separated text")
    if command == "reweight":
        at = words.add_mutually_exclusive_group(required=True)
        at.add_argument("--at", nargs="+", metavar="T", help="these temperatures")
        at.add_argument("--at-betas", nargs="+", metavar="B", help="these inverse temperatures")
        words.add_argument("--from-slot", type=int, metavar="N", help="from the energies of this slot alone")
    if command == "bracket":
        words.add_argument("--random", nargs="+", metavar="FILE", help="the reports from random spins, in the order of the others")
    if command == "times":
        words.add_argument("--shorter", metavar="FILE", help="list the samples whose run is too short, as comma-separated text")
    if command == "walks":
        words.add_argument("--feedback", action="store_true", help="tell temperatures between which walks are faster")
    if command == "export":
        words.add_argument("--npz", metavar="FILE", help="arrays of one report for numpy.load")
        words.add_argument("--csv", metavar="FILE", help="comma-separated rows of one report under a line of names")
        words.add_argument("--hdf5", metavar="FILE", help="arrays of all reports, a group each")


def add_words_of_sums(command: str, words: argparse.ArgumentParser) -> None:
    words.add_argument("--run", nargs="+", default=[], metavar="FILE",
                       help="run files, one for each size, whose rule tables tell the temperatures")
    words.add_argument("--plot", metavar="FILE", help="write a figure: .png, .svg or .pdf")
    if command in ("sums", "bins"):
        words.add_argument("--slot", type=int, nargs="+", default=[], metavar="N",
                           help="these slots (0)" if command == "bins" else "also P(q) of these slots")
    if command in ("sums", "scaling", "squares"):
        words.add_argument("--from-bin", type=int, default=0, metavar="K", help="leave out the bins before this one")
        words.add_argument("--to-bin", type=int, metavar="K", help="leave out the bins behind this one")
    if command == "squares":
        words.add_argument("--second", nargs="+", metavar="FILE", help="texts of the same couplings and other seeds, in the order of the others")
        add_csv(words)
    if command == "scaling":
        words.add_argument("--collapse", type=float, nargs=2, metavar=("T", "NU"),
                           help="also a collapse of all sizes, looked for from T_c and nu on")


def add_csv(words: argparse.ArgumentParser) -> None:
    words.add_argument("--csv", metavar="FILE", help="also write all figures as comma-separated text")


def add_words_of_states(words: argparse.ArgumentParser) -> None:
    add_run(words)
    words.add_argument("--plot", metavar="FILE", help="write a figure: .png, .svg or .pdf")
    add_csv(words)


def parser_of_words() -> argparse.ArgumentParser:
    parser = OneLineParser(prog="estimate", description=__doc__, allow_abbrev=False,
                           formatter_class=argparse.RawDescriptionHelpFormatter)
    commands = parser.add_subparsers(dest="command", metavar="COMMAND", required=True, parser_class=OneLineParser)
    for command in MODULES:
        words = commands.add_parser(command, allow_abbrev=False)
        words.add_argument("reports", nargs="*", default=["-"], metavar="FILE",
                           help="files, or - for standard input (the default)")
        words.set_defaults(blocks=None, plot=None)
        if command in OF_SUMS:
            add_words_of_sums(command, words)
            continue
        if command in OF_STATES:
            add_words_of_states(words)
            continue
        if command != "lengths":
            words.add_argument("--skip", type=int, default=0, metavar="EPOCH", help="leave out the epochs before this one")
        if command not in ("times", "export"):
            words.add_argument("--blocks", type=int, metavar="K", help="of one file: the number of blocks of its samples")
            words.add_argument("--plot", metavar="FILE", help="write a figure: .png, .svg or .pdf")
        add_run(words)
        add_own_words(command, words)
    return parser


def main(words: Optional[Sequence[str]] = None) -> int:
    try:
        options = parser_of_words().parse_args(words)
        try:
            import matplotlib, numpy, scipy  # noqa: E401, F401
        except ImportError:
            raise Refusal(NEEDED) from None
        command = getattr(importlib.import_module(MODULES[options.command]), options.command)
        if options.command in ("lengths", *OF_SUMS, *OF_STATES):
            command(options)
        else:
            from estimate_words import Words
            command(Words(options), options)
    except Refusal as refusal:
        print(f"estimate: {refusal}", file=sys.stderr)
        return 2
    return 0


if __name__ == "__main__":
    sys.exit(status_of("estimate", main))
