#!/usr/bin/env bash
# Runs the tests of tools/glass_analysis with the first Python that has what they need. Where none has, and this is root
# on a machine of the gate (CI=true), it installs Debian's packages before, so that a new machine runs them too.
#
# Status: 0 where they pass, or where no Python has numpy, scipy, matplotlib and pytest; else that of pytest.
set -u
cd "$(dirname "$0")/.." || exit 1

run_where_there_is_all() {
    for python in python3 /usr/bin/python3; do
        if "$python" -c 'import matplotlib, numpy, pytest, scipy' 2>/dev/null; then
            exec "$python" -m pytest -q -p no:cacheprovider tests/analysis
        fi
    done
}

run_where_there_is_all
if [ "$(id -u)" = 0 ] && [ "${CI:-}" = true ] && command -v apt-get >/dev/null; then
    export DEBIAN_FRONTEND=noninteractive
    { apt-get update && apt-get install -y --no-install-recommends python3-numpy python3-scipy python3-matplotlib \
        python3-h5py python3-pytest; } >/dev/null 2>&1 || echo "apt-get installs no numpy, scipy, matplotlib and pytest here."
    run_where_there_is_all
fi
echo "The tests of tools/glass_analysis are skipped: no Python has numpy, scipy, matplotlib and pytest."
