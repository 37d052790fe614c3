"""Shows that the drivers of plans and of the lesson on the three fits complain: they have to see every spoiled copy."""

from support import driver, spoiled_fits, spoiled_not_run, spoiled_plans
from support.spoiling import check_driver

# So many random lists or calls are enough, the folders that the drivers do not look at, and how many copies are tried
# at a time.
FEW = "1"
UNSEEN = ["bench", "crates", "tests"]
AT_ONCE = 2


def compare(chosen):
    """Every spoiled copy; the last line counts them."""
    words = ["--seed", str(chosen.seed), "--count", FEW]
    tried = [check_driver(spoiled.DRIVER, spoiled.SPOILED, words, UNSEEN, AT_ONCE)
             for spoiled in (spoiled_fits, spoiled_not_run, spoiled_plans)]
    return f"all {sum(tried)} spoiled copies were seen"


if __name__ == "__main__":
    driver.finish("test_teeth_fits", compare, driver.options(__doc__, 1, named=()))
