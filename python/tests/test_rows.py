"""The rows of crates/cookie_vectors/data, played through the library; and, if the variable ORIGINAL names the folder of
the crate `cookie` 0.18.2, through that crate too."""
import os

import pytest
import rows
from rows import original
from rows.player import PASSED, faults_of
from rows.rowfile import DATA

FILES = rows.SUBJECTS if DATA.exists() else []


@pytest.mark.parametrize("name", FILES)
def test_rows(name):
    """Each step returns what its row says."""
    played, faults = rows.through_library(name)
    assert played and faults == []


def is_noticed(row, place, player):
    """Whether another answer of the step is said to be wrong, or can't be read as an answer."""
    step = row.steps[place]
    steps = [*row.steps[:place], step._replace(wanted="other=answer"), *row.steps[place + 1 :]]
    try:
        return faults_of(row._replace(steps=steps), player) != []
    except (AssertionError, AttributeError, LookupError, ValueError):
        return True


@pytest.mark.parametrize("name", FILES)
def test_wrong_rows(name):
    """The last answer that is looked at can be wrong."""
    calls, looked = rows.Library(), 0
    for row in rows.rows_of(name, "library"):
        player = rows.SUBJECTS[name](calls)
        looks = [player.play(step) is not PASSED and step.wanted != "done" for step in row.steps]
        if any(looks):
            looked += 1
            last = max(place for place, is_one in enumerate(looks) if is_one)
            assert is_noticed(row, last, rows.SUBJECTS[name](calls)), row.title
    assert looked


if "ORIGINAL" in os.environ:

    @pytest.fixture(scope="module")
    def calls(tmp_path_factory):
        return original.Original(original.built(tmp_path_factory.mktemp("original")))

    @pytest.mark.parametrize("name", original.SUBJECTS)
    def test_original(name, calls):
        """The crate returns it too."""
        played, faults = original.through_original(name, calls)
        assert played and faults == []
