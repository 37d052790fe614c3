"""The model in the place of a program, with one fault or none.

In the folder of the tests: python3 -m support.stand_in board|cases|picture_cases|batch_cases [FAULT].
"""

import struct
import sys

from . import batches, cases, lines, model, picture_cases
from .asked_faults import ASKED_FAULTS, CHECK_FAULTS
from .batch_faults import BATCH_FAULTS
from .fit_faults import FIT_FAULTS, see_only
from .picture_faults import PICTURE_FAULTS

# The reply, counted from 0, that a fault of replies spoils.
SPOILED_REPLY = 3

# The fault of a board that holds each reply back until the next line.
LATE = "late"


def digit(reply):
    """One digit changed."""
    return reply[:-2] + (b"1" if reply[-2:-1] == b"0" else b"0") + reply[-1:]


def word(reply):
    """One bit of the last word changed."""
    return reply[:-4] + bytes([reply[-4] ^ 1]) + reply[-3:]


REPLY_FAULTS = {"digit": digit, "word": word, "missing": lambda reply: b"", "extra": lambda reply: reply + reply}


def split_from(least):
    """Splits off so many words that are over, or more."""
    model.taken_from = lambda room, need: need if room - need >= least else room


def split_only_in(rule, least, when=lambda *given: True):
    """Splits off so many words that are over, or more, but only in this rule of the model, where `when` holds."""
    true_rule, true_taken = getattr(model, rule), model.taken_from

    def spoiled(*given):
        if when(*given):
            split_from(least)
        try:
            return true_rule(*given)
        finally:
            model.taken_from = true_taken

    setattr(model, rule, spoiled)


def cut_tail_of_two():
    """Cuts off a tail of two words as a chunk."""
    split_from(2)


def cut_tail_in_place():
    """Cuts off a tail of two words as a chunk, but only of a block that stays where it stands."""
    split_only_in("stayed", 2)


def split_off_four():
    """Splits off four words or more, as before item 6 of document 02."""
    split_from(4)


def split_off_six():
    """Splits off six words, which are too few."""
    split_from(6)


def grant_eight_over():
    """Splits off ten words or more, and grants eight with the need."""
    split_from(10)


def split_off_four_in_alloc():
    """Splits off four words or more, but only of a chunk that is granted by alloc, or to a block that moves."""
    split_only_in("alloc_rule", 4)


def split_off_four_in_best():
    """Splits off four words or more, but only of a chunk that best fit finds."""
    split_only_in("alloc_best_rule", 4)


def split_off_four_in_next():
    """Splits off four words or more, but only of a chunk that next fit finds."""
    split_only_in("alloc_next_rule", 4)


def split_off_four_in_grow():
    """Splits off four words or more, but only of the room of a block that grows."""
    split_only_in("kept_of", 4, lambda size, room, need: need > size)


def split_off_four_in_shrink():
    """Splits off four words or more, but only of a block that shrinks."""
    split_only_in("kept_of", 4, lambda size, room, need: need <= size)


def keep_beside_gap():
    """Keeps two, four or six words that are over in a shrink, beside a gap too."""
    def kept_of(size, room, need):
        return model.taken_from(size if need <= size else room, need)

    model.kept_of = kept_of


def take_whole_room():
    """Takes the whole room of a block where fewer than eight words of that are over, in a shrink too."""
    model.kept_of = lambda size, room, need: model.taken_from(room, need)


def refuse_small_chunks():
    """Holds an arena with a chunk of four words, or six, to be damaged."""
    model.LEAST_CHUNK = 8


def skip_small_gaps():
    """Passes over free chunks of four words, and six, where a request would fit them."""
    see_only("alloc_rule", lambda gaps, need: [(gap, room) for gap, room in gaps if room >= 8])


def skip_exact_gaps():
    """Passes over free chunks that have exactly the need."""
    see_only("alloc_rule", lambda gaps, need: [(gap, room) for gap, room in gaps if room != need])


def every_fit_sees(seen):
    """Each of the three fits sees no other gaps than `seen` leaves of them, given the need."""
    for rule in ("alloc_rule", "alloc_best_rule", "alloc_next_rule"):
        see_only(rule, seen)


def keep_largest_gap():
    """Never grants a word of the largest free chunk, under any fit."""
    def others(gaps, need):
        largest = max((room for gap, room in gaps), default=0)
        return [(gap, room) for gap, room in gaps if room < largest]

    every_fit_sees(others)


def share_free_words():
    """Refuses a need that is more than each free chunk would have if they all had as many words, under any fit."""
    every_fit_sees(lambda gaps, need: gaps if need * len(gaps) <= sum(room for gap, room in gaps) else [])


def need_two_more():
    """Wants two words more than a request needs."""
    true_need = model.need_of
    model.need_of = lambda asked, length: true_need(asked, length) + 2


def spoil_shrink(spoil):
    """Spoils the words once a block gave some to the gap right above it.

    `spoil` is given the arena, the word that names this gap, and where the gap began.
    """
    true_stayed = model.stayed

    def stayed(lent, block, asked):
        outcome = true_stayed(lent, block, asked)
        (old_asked, granted), nothing = model.size_rule(lent, block)
        end = block + granted
        starts = [start for start, size in lent.chunks()[1]]
        if not outcome or outcome[0][1] >= granted or end not in starts:
            return outcome
        place = starts.index(end)
        link = starts[place - 1] + 1 if place > 0 else 1
        return outcome[0], [*outcome[1], (spoil, link, end)]

    model.stayed = stayed


def leave_link():
    """Leaves the link at the old start of a gap that took words of the block before it."""
    spoil_shrink(lambda lent, link, end: store(lent, link, [end]))


def clear_old_header():
    """Clears the old header of a gap that took words of the block before it."""
    spoil_shrink(lambda lent, link, end: store(lent, end, [0] * model.HEADER))


def store(lent, at, words):
    """Stores words into an arena, from this one on."""
    lent.words[at:at + len(words)] = words


def believe_words_before():
    """Believes the two words before b where they look like a live chunk's header, and not the walk."""
    true_size = model.size_rule

    def size_rule(lent, block):
        lent.chunks()
        if 4 <= block < len(lent.words):
            size, second = lent.words[block - 2:block]
            if model.could_ask(second - model.LIVE_MARK, size):
                return (second - model.LIVE_MARK, size - 2), []
        return true_size(lent, block)

    model.size_rule = size_rule


def clear_swallowed_header():
    """Clears the second word of a chunk that is freed and swallowed by the one before it."""
    true_free = model.free_rule

    def clear(lent, block):
        if lent.words[block - 1] >= model.LIVE_MARK:
            lent.words[block - 1] = 0

    def free_rule(lent, block):
        fields, changes = true_free(lent, block)
        return fields, [*changes, (clear, block)]

    model.free_rule = free_rule


def free_before_move():
    """Frees the old block of a move before its room is sure."""
    def move_rule(lent, block, asked):
        (old_asked, granted), nothing = model.size_rule(lent, block)
        model.need_of(asked, len(lent.words))
        old_words = lent.words[block:block + granted]
        model.free(lent, block)
        grant, changes = model.alloc_rule(lent, asked)
        return grant, [*changes, (store, grant[0], old_words[:grant[1]])]

    model.move_rule = move_rule


def copy_in_move(count_of):
    """Copies as many words in a move as `count_of` makes of the old granted words, the new ones and those asked for."""
    def move_rule(lent, block, asked):
        (old_asked, granted), nothing = model.size_rule(lent, block)
        (new_block, new_granted), alloc_changes = model.alloc_rule(lent, asked)
        nothing, free_changes = model.free_rule(lent, block)
        count = min(count_of(granted, new_granted, asked), len(lent.words) - new_block)
        copy = (store, new_block, lent.words[block:block + count])
        return (new_block, new_granted), [*alloc_changes, *free_changes, copy]

    model.move_rule = move_rule


def copy_one_word_less():
    """Copies one word less in a move than the shorter block has."""
    copy_in_move(lambda granted, new_granted, asked: min(granted, new_granted) - 1)


def copy_all_old_words():
    """Copies all the old words in a move, to a shorter block too."""
    copy_in_move(lambda granted, new_granted, asked: granted)


def copy_words_asked():
    """Copies no more words in a move than were asked for."""
    copy_in_move(lambda granted, new_granted, asked: min(granted, asked))


def copy_count_of_a_byte():
    """Counts the words to copy in a move in one byte."""
    copy_in_move(lambda granted, new_granted, asked: min(granted, new_granted) % 256)


def move_elsewhere():
    """Passes over the free chunks right below and right above the old block of a move."""
    true_move = model.move_rule

    def move_rule(lent, block, asked):
        live, gaps = lent.chunks()
        start, size = live[model.place_of(live, block)]
        apart = model.Lent(lent.words)
        apart.kept = live, [(gap, room) for gap, room in gaps if gap + room != start and gap != start + size]
        return true_move(apart, block, asked)

    model.move_rule = move_rule


def stay_in_move():
    """Leaves the block of a move where it is, if it can stay there."""
    true_move = model.move_rule
    model.move_rule = lambda *given: model.stayed(*given) or true_move(*given)


def move_in_resize():
    """Moves the block in a resize that ought to be refused."""
    model.resize_rule = model.realloc_rule


def never_move():
    """Refuses a realloc with 8 where it ought to move."""
    model.realloc_rule = model.resize_rule


def refuse_resize(wrongly):
    """Refuses a resize with what `wrongly` makes of the right code, the arena and the numbers."""
    true_resize = model.resize_rule

    def resize_rule(lent, block, asked):
        try:
            return true_resize(lent, block, asked)
        except model.Refused as refusal:
            raise model.Refused(wrongly(refusal.code, lent, block, asked)) from refusal

    model.resize_rule = resize_rule


def would_move_first():
    """Refuses a resize with 8 before it is looked at whether the request is too large."""
    def wrongly(code, lent, block, asked):
        return model.WOULD_MOVE if code == model.TOO_LARGE else code

    refuse_resize(wrongly)


def no_room_to_resize():
    """Refuses a resize with 6 where a move would lack room."""
    def wrongly(code, lent, block, asked):
        return model.on_words(model.relocate, lent.words, block, asked).code or code

    refuse_resize(wrongly)


def store_size_early():
    """Stores the new size of a block before the resize is sure of its room."""
    def wrongly(code, lent, block, asked):
        if code == model.WOULD_MOVE:
            lent.words[block - 2] = model.need_of(asked, len(lent.words))
        return code

    refuse_resize(wrongly)


def count_in_report(counted=list, largest=max, header=model.HEADER):
    """Reports what `counted` leaves of the sizes along the free list, and the `largest` of these less `header`."""
    def report_rule(lent):
        live, gaps = lent.chunks()
        sizes = counted([size for start, size in gaps])
        request = largest(sizes) - header if sizes else 0
        return (sum(sizes), request, len(live), len(sizes)), []

    model.report_rule = report_rule


def leave_list_early():
    """Leaves the free list one link early in a report."""
    count_in_report(counted=lambda sizes: sizes[:-1])


def leave_long_list():
    """Follows no more than 255 links of the free list in a report."""
    count_in_report(counted=lambda sizes: sizes[:255])


def last_for_largest():
    """Takes the last chunk of the free list for the largest in a report."""
    count_in_report(largest=lambda sizes: sizes[-1])


def largest_with_header():
    """Reports the largest free chunk with its header."""
    count_in_report(header=0)


def count_other_chunks(told):
    """Reports what `told` makes of the live blocks and the free chunks."""
    true_report = model.report_rule

    def report_rule(lent):
        (words, largest, *chunks), nothing = true_report(lent)
        return (words, largest, *told(*chunks)), nothing

    model.report_rule = report_rule


def leave_last_gap():
    """Counts the words of the last free chunk in a report, but not the chunk."""
    count_other_chunks(lambda live, free: (live, max(free - 1, 0)))


def leave_last_block():
    """Does not count the last live block in a report."""
    count_other_chunks(lambda live, free: (max(live - 1, 0), free))


RULE_FAULTS = {"tail": cut_tail_of_two, "cut": cut_tail_in_place, "four": split_off_four, "six": split_off_six,
               "ten": grant_eight_over, "alloc": split_off_four_in_alloc, "best": split_off_four_in_best,
               "next": split_off_four_in_next, "grow": split_off_four_in_grow, "shrink": split_off_four_in_shrink,
               "keeps": keep_beside_gap, "room": take_whole_room, "small": refuse_small_chunks,
               "skips": skip_small_gaps, "exact": skip_exact_gaps, "hoards": keep_largest_gap,
               "shares": share_free_words, "needs": need_two_more, "link": leave_link, "wipe": clear_old_header,
               "believe": believe_words_before, "clear": clear_swallowed_header, "early": free_before_move,
               "less": copy_one_word_less, "all": copy_all_old_words, "asked": copy_words_asked,
               "byte": copy_count_of_a_byte, "elsewhere": move_elsewhere, "stays": stay_in_move,
               "moves": move_in_resize, "never": never_move, "order": would_move_first, "lacks": no_room_to_resize,
               "stores": store_size_early}

REPORT_FAULTS = {"lastlink": leave_list_early, "manylinks": leave_long_list, "last": last_for_largest,
                 "header": largest_with_header, "lastgap": leave_last_gap, "lastblock": leave_last_block}


def board_replies(fault):
    """Replies to the lines of standard input, one by one; with a broken rule each line reads the words anew."""
    board = lines.Board()
    for line in sys.stdin.buffer:
        yield board.reply(line[:-1] if line.endswith(b"\n") else line) + b"\n"
        if fault in RULE_FAULTS:
            board.lent.kept = None


def cases_replies():
    """Replies to the cases of standard input, until one is cut short or too long."""
    source = sys.stdin.buffer
    while True:
        head = source.read(16)
        if len(head) < 16:
            return
        call, block, asked, length = struct.unpack("<4I", head)
        arena = source.read(4 * length) if length <= cases.LONGEST_CASE else b""
        if len(arena) < 4 * length:
            return
        words = list(struct.unpack(f"<{length}I", arena))
        yield cases.reply_bytes(cases.answer_to(cases.Case(call, block, asked, words)))


def picture_replies():
    """Replies to the cases on pictures of standard input."""
    for case in picture_cases.cases_in(sys.stdin.buffer.read()):
        yield picture_cases.reply_bytes(picture_cases.answer_to(case))


def batch_replies():
    """Replies to the batches of standard input."""
    for case in batches.cases_in(sys.stdin.buffer.read()):
        yield batches.reply_bytes(batches.answer_to(case))


def main(name, fault=None):
    """Answers as the program would, but for the fault."""
    own_faults = {"picture_cases": {**PICTURE_FAULTS, **CHECK_FAULTS}, "batch_cases": BATCH_FAULTS}
    calls_faults = {**RULE_FAULTS, **REPORT_FAULTS, **FIT_FAULTS, **ASKED_FAULTS}
    own_faults.get(name, calls_faults).get(fault, lambda: None)()
    held_back = b""
    replies = {"board": lambda: board_replies(fault), "cases": cases_replies, "picture_cases": picture_replies,
               "batch_cases": batch_replies}
    for number, reply in enumerate(replies[name]()):
        spoil = fault in REPLY_FAULTS and number == SPOILED_REPLY
        written = REPLY_FAULTS[fault](reply) if spoil else reply
        if fault == LATE:
            written, held_back = held_back, written
        sys.stdout.buffer.write(written)
        if name == "board":
            sys.stdout.buffer.flush()
    sys.stdout.buffer.write(held_back)


if __name__ == "__main__":
    main(*sys.argv[1:])
