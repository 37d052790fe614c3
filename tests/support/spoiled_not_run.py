"""What spoils what tools/fits says where a list is not run, or where what comes of it cannot be written."""

from .spoiled_fits import tool

DRIVER = "test_fits_not_run"

# What spoils a copy, and what the driver then has to tell.
SPOILED = [
    (tool('sys.exit(f"{chosen.list} is not run: {told}")', "pass"), "of the list b'' with"),
    (tool("enumerate(content.splitlines(), 1)", "enumerate(content.splitlines())"), "of the list b'A 12\\n' with"),
    (tool("words % 2 == 1 or", ""), "of the list b'97 words\\n' with"),
    (tool("(?!free |report |words )", ""), "of the list b'96 words\\nfree 12\\n' with"),
    (tool("asked > MOST_ASKED", "False"), "of the list b'96 words\\nA 4294967296\\n' with"),
    (tool("if ask and name in asked_for:", "if False:"), "of the list b'96 words\\nA 2\\n\\nA 4\\n' with"),
    (tool("if give_back and name not in asked_for:", "if False:"), "of the list b'96 words\\nfree A\\n' with"),
    (tool("OSError, UnicodeDecodeError)", "OSError)"), "of the list b'96 words\\n\\xff 12\\n' with"),
    (tool('raise NotRun("the program cases gives no whole reply")', "return bytes(count)"),
     "of the list b'96 words\\nA 12\\n' with"),
    (tool("if not words:", "if False:"), "['--program', ''] came"),
    (tool("except ValueError as fault:", "except KeyError as fault:"), "\"cases 'of words\"] came"),
    (tool("if reply[0] == FRAME:", "if False:"), "chr(7)"),
    (tool("if reply[0] not in (DONE, *REASONS):", "if False:"), "chr(9)"),
    (tool("if not any(select", "if False and any(select"), "of the list b'16384 words\\n' with"),
    (tool("drawing, chosen.drawing, chosen.drawing", "drawing, chosen.drawing, chosen.list"), "'--drawing', '/no/such"),
    (tool("except OSError as fault:", "except KeyError as fault:"), "'--drawing', '/no/such"),
    (tool('put(table_of(listed, rows), STANDARD_OUTPUT, "standard output")',
          "sys.stdout.write(table_of(listed, rows))"), "OSError: [Errno 9]"),
]
