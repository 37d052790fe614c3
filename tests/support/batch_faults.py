"""What a stand-in for the program `batch_cases` can do wrong: each fault puts a wrong function into the cases."""

from . import batches, model

true_answer = batches.answer_to


def spoil_answers(spoil):
    """Makes of each batch what `spoil` makes of the case and the true answer."""
    batches.answer_to = lambda case: spoil(case, true_answer(case))


def clear_words_over():
    """Clears the words that are left over behind the records."""
    spoil_answers(lambda case, answer: answer._replace(over=[0] * len(answer.over)))


def refused_at(records):
    """The place of the first record that is refused, or how many records there are."""
    codes = [record.code != model.DONE for record in records]
    return codes.index(True) if True in codes else len(codes)


def stop_at_refusal():
    """Leaves the records behind the first one that is refused as they came."""
    def spoil(case, answer):
        end = refused_at(answer.records) + 1
        return answer._replace(records=answer.records[:end] + case.records[end:])

    spoil_answers(spoil)


def told_of_size(record, told):
    """A record, or where it is one of a size that was done, with `told` for its block and its granted words."""
    done = record.kind == batches.SIZE and record.code == model.DONE
    return record._replace(**dict(zip(("block", "granted"), told(record)))) if done else record


def answer_sizes(told):
    """Fills in what `told` makes of the true record in the records of sizes."""
    spoil_answers(lambda case, answer: answer._replace(
        records=[told_of_size(record, told) for record in answer.records]))


def leave_out_asked():
    """Leaves the words asked for out of the record of a size."""
    answer_sizes(lambda record: (0, record.granted))


def asked_for_granted():
    """Has the words asked for in the place of the granted words, too."""
    answer_sizes(lambda record: (record.block, record.block))


def granted_for_asked():
    """Has the granted words in the place of the words asked for, too."""
    answer_sizes(lambda record: (record.granted, record.granted))


def block_for_asked():
    """Has the block's number in the place of the words asked for."""
    answer_sizes(lambda record: (record.b, record.granted))


BATCH_FAULTS = {"over": clear_words_over, "stop": stop_at_refusal, "unasked": leave_out_asked,
                "askedtwice": asked_for_granted, "grantedtwice": granted_for_asked, "blockasked": block_for_asked}
