"""Makes the tools importable, and reports of the independent program in tools/reference."""
import sys
from pathlib import Path
from typing import Dict, List, Tuple

import pytest

sys.dont_write_bytecode = True
sys.path.insert(0, str(Path(__file__).resolve().parent.parent.parent / "tools"))

from analyse_test import true_report  # noqa: E402


@pytest.fixture(scope="session")
def made_reports() -> Dict[Tuple[int, bool], Tuple[List[str], dict]]:
    """Lines and records of runs of eight epochs, by interval of records and whether there are spins."""
    return {(every, spins): true_report(20240611, 8, every, spins) for every, spins in ((1, True), (1, False), (2, False))}
