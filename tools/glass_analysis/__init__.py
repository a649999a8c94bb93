"""Reports of `glass run` as numpy arrays, estimators with errors over them, and figures.

    import sys; sys.path.insert(0, "tools")
    from glass_analysis import read_report, blocks, jackknife, binder

The modules: `reports` reads, `errors` is the jackknife, `observables` has means, Binder ratio and the
distribution of overlaps, `times` autocorrelation and equilibration, `walks` the walks in temperature, `lines` the
coherence length, `figures` draws, `export` writes arrays. `tools/estimate.py` is the command line over them.
"""
import sys
from pathlib import Path

# The reader of analyse.py, which knows each line that no run prints, lies beside this folder.
sys.path.insert(0, str(Path(__file__).resolve().parent.parent))

from .distributions import Distribution, below, densities, distribution, overlap_edges  # noqa: E402
from .equilibrium import doubling_bins, equilibration  # noqa: E402
from .errors import Estimate, bootstrap, jackknife  # noqa: E402
from .lines import axis_correlations, coherence_length, link_overlap, read_lines  # noqa: E402
from .observables import (binder, blocks, energy_moments, moments, specific_heat,  # noqa: E402
                          susceptibility)
from .reports import Records, of_each_report, read_report, read_reports  # noqa: E402
from .reweighting import reweighted  # noqa: E402
from .times import autocorrelation_time  # noqa: E402
from .walk_times import WalkTimes, walk_times  # noqa: E402
from .walks import acceptance, feedback_temperatures, positions, round_trips  # noqa: E402

__all__ = ["Distribution", "Estimate", "Records", "WalkTimes", "acceptance", "autocorrelation_time", "axis_correlations",
           "below", "binder", "blocks", "bootstrap", "coherence_length", "densities", "distribution", "doubling_bins",
           "energy_moments", "equilibration", "feedback_temperatures", "jackknife", "link_overlap", "moments",
           "of_each_report", "overlap_edges", "positions", "read_lines", "read_report", "read_reports", "reweighted",
           "round_trips", "specific_heat", "susceptibility", "walk_times"]
