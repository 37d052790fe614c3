"""Shows that the drivers of calls on many arenas complain, single ones or in runs: each has to see every fault."""

from support import driver, teeth


def compare(chosen):
    """Every faulty program; the last line counts them."""
    return f"all {teeth.check_drivers(teeth.ARENAS, chosen.seed)} faulty programs were seen"


if __name__ == "__main__":
    driver.finish("test_teeth_arenas", compare, driver.options(__doc__, 1, named=()))
