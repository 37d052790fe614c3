"""Shows that the drivers of pictures, of batches and of the words asked for complain: they have to see every fault."""

from support import driver, teeth


def compare(chosen):
    """Every faulty program; the last line counts them."""
    trials = teeth.PICTURES + teeth.BATCHES + teeth.ASKED
    return f"all {teeth.check_drivers(trials, chosen.seed)} faulty programs were seen"


if __name__ == "__main__":
    driver.finish("test_teeth_pictures", compare, driver.options(__doc__, 1, named=()))
