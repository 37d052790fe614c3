"""Shows that the drivers of the header, the calls for C, batches and the desk tool complain, of spoiled copies."""

from support import c_programs, driver, spoiled_batch, spoiled_c, spoiled_desk, spoiled_headers
from support.spoiling import check_driver

# So many calls, batches or files are enough to see each fault of a program.
FEW = {spoiled_c: "300", spoiled_batch: "2", spoiled_desk: "4"}

# The folders that these drivers do not look at.
UNSEEN = ["proofs", "must-fail"]


def missing_tools():
    """What is missing here for each language that cannot be compiled; for any other the library is then built."""
    missing = {}
    for language in spoiled_headers.COMPILED:
        try:
            c_programs.build_text("teeth_" + language, language, "int main(void) { return 0; }\n")
        except c_programs.NotHere as told:
            missing[language] = f"copies that take {language} ({told})"
    return missing


def compare(chosen):
    """Every copy that can be tried here; the last line counts them."""
    missing = missing_tools()
    here = [language for language in spoiled_headers.COMPILED if language not in missing]
    compiled = [pair for language in here for pair in spoiled_headers.COMPILED[language]]
    headers = check_driver(spoiled_headers.DRIVER, spoiled_headers.SPOILED + compiled, without=UNSEEN)
    told = f"all {headers} spoiled headers were seen"
    if "c99" in here:
        tried = [check_driver(spoiled.DRIVER, spoiled.SPOILED, ["--seed", str(chosen.seed), "--count", few], UNSEEN)
                 for spoiled, few in FEW.items()]
        told += f", and all {sum(tried)} spoiled C programs"
    return told + c_programs.skipped(missing.values())


if __name__ == "__main__":
    driver.finish("test_teeth_c", compare, driver.options(__doc__, 1, named=()))
