"""A boot loader's own test with pytest: what a power cut leaves, and what must come of it.

    scripts/build-library && PYTHONPATH=bindings pytest bindings/test_example.py

`boot` stands in for the boot loader under test: a real test loads the flash into an emulator, starts the real boot loader there, and
reads the flash back.
"""
import pathlib

import mcsim

EXAMPLES = pathlib.Path(__file__).resolve().parent.parent / "examples"
LAYOUT = dict(sector=256, unit=8, max_sectors=4, chunk=128, primary=4, secondary=3)
OLD, NEW = (EXAMPLES / "a.img").read_bytes(), (EXAMPLES / "b.img").read_bytes()
SWAP = mcsim.Source(**LAYOUT, kind=mcsim.TEST, a=OLD, b=NEW)


def boot(flash):
    """The boot loader under test: the flash that a boot of this one leaves."""
    return mcsim.Source(**LAYOUT, kind=mcsim.FLASH, a=flash).flash_left()


def test_every_single_cut():
    rows = [row for row in SWAP.rows(bound=1) if row[0]]
    assert len(rows) == 18
    for cuts, outcome in rows:
        assert outcome[0] == "boot"
        assert boot(SWAP.flash_at_cut(cuts)) == SWAP.flash_left(cuts)


def test_a_cut_in_the_second_boot():
    outcome = SWAP.outcome([9, 4])
    assert outcome["result"] == "boot" and outcome["ops"] == "5"
    assert outcome["primary"].startswith("2.0.0+0 ")
    assert SWAP.sectors([9, 4])["primary"] == ["b0", "a0", "-", "*"]


def test_no_sequence_of_cuts_is_lost():
    census = SWAP.census(16)
    assert census["first-not-boot"] == "none" and census["boot"] == census["schedules"]


def test_what_is_refused():
    try:
        SWAP.outcome([18])
    except mcsim.Refused as refused:
        assert refused.status == 1 and refused.line == "mcsim: E53 CannotOccur at 0\n"
    else:
        assert False
