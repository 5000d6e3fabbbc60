"""Station and guard are killed at random while callers ask: nothing is lost, and nothing is signed that the guard's
file doesn't have. `--station-kills 2000` kills them as often, and `bench/killed` does so outside of pytest."""
import random

import pytest

from killing import Killing


@pytest.mark.slow
@pytest.mark.once
@pytest.mark.timeout(7200)
def test_station_and_guard_are_killed_while_callers_ask(served, sshstation, programs, request, room):
    kills = request.config.getoption("--station-kills")
    chance = random.Random(f"station {request.config.option.hypothesis_seed}")
    killing = Killing(served, sshstation, programs, chance, room / "said")
    for number in range(kills):
        killing.once()
        assert set() == killing.unkept, f"kill {number}"
    found = killing.outcome()
    print(f"{kills} kills, {found.certificates} certificates, {found.signatures} signatures on their way")
    assert ([], [], [], [], []) == (found.lost, found.twice, found.unkept, found.false, found.faults)
    assert found.certificates > kills
