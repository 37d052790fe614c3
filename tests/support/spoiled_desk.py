"""What spoils the desk tool: each copy does something wrong in one place."""

from .spoiling import replaced

DRIVER = "test_desk"


def tool(old, new):
    """The tool has other words in one place."""
    return replaced("desk/check.c", old, new)


def script(old, new):
    """The script that builds the tool and runs it has other words in one place."""
    return replaced("desk/run", old, new)


# What spoils a copy, and what the driver then has to tell.
SPOILED = [
    (tool("read_file(name, LONGEST_ARENA + 1)", "read_file(name, LONGEST_ARENA)"), "written=b'1: no arena has"),
    (tool("read_file(name, LONGEST_PICTURE + 1)", "read_file(name, LONGEST_PICTURE)"), "written=b'7: these lines"),
    (tool("read_file(name, LONGEST_PICTURE + 1)", "read_file(name, LONGEST_ARENA + 1)"), "written=b'0: a sound arena"),
    (tool("LINE_WORDS - 1) / LINE_WORDS", "0) / LINE_WORDS"), "written=b'1: no arena has"),
    (tool("MOST_WORDS = 0xFFFF", "MOST_WORDS = ZV_GREATEST_WORDS"), "written=b'1: no arena has"),
    (tool("bytes / WORD_BYTES", "bytes"), "written=b'0: a sound arena"),
    (tool("zv_check(content, bytes)", "zv_check(content, bytes / 4 * 4)"), "written=b'1: no arena has"),
    (tool('fopen(name, "rb")', 'fopen(name, "a+b")'), "No such file or directory"),
    (tool("fclose(file);", 'fclose(file == stdin ? file : fopen(name, "wb"));'), "with ['FILE'] changed the file"),
    (tool("file == NULL || ferror(file)", "file == NULL"), "Is a directory"),
    (tool('strcmp(name, "-") == 0 ? stdin : ', ""), "with ['-']"),
    (tool("these %zu words are no", "these %zu words are a"), "written=b'2: these"),
    (tool("return (int)found.code;", "return found.code != ZV_DONE;"), "Ended(status=2"),
    (tool("if (fflush(stdout) != 0)", "if (false)"), "standard output: Bad file descriptor"),
    (tool("NOT_TOLD = 64", "NOT_TOLD = 1"), "with []: expected Ended(status=64"),
    (tool("NOT_READ = 66", "NOT_READ = 2"), "expected Ended(status=66"),
    (tool('fprintf(stderr, "desk/check', 'fprintf(stdout, "desk/check'), "with []: expected Ended(status=64"),
    (tool("if (count == 0)", "if (count < 0)"), "with []: expected Ended(status=64"),
    (tool("if (count > 1)", "if (count > 2)"), "one file at a time"),
    (script('run desk_check "$@"', 'run desk_check "$1"'), "with ['--picture', '-']"),
]
