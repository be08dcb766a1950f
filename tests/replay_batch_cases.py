"""Made-up mistakes in calls of several texts, which the judge of replay_model.py must find, written
as in replay_cases.py."""
from replay_cases import MADE, REPLIES, SENT_TOO, call, part


def letter(mtype, tag):
    return f"KeptLetter {{ mtype: {mtype}, tag: {tag}, length: 3 }}"


def listed(values):
    return f"[{', '.join(values)}]"


def send_texts(letters, how_long="NoWait"):
    return f"SendTexts {{ id: 0, how_long: {how_long}, letters: {listed(letters)} }}"


def sent_texts(first, left, ended):
    return f"SentTexts({first}, {listed(left)}, {ended})"


def receive_texts(selection, most, how_long="NoWait"):
    return (f"ReceiveTexts {{ id: 0, selection: {selection}, size: 65536, noerror: false, "
            f"most: {most}, how_long: {how_long} }}")


def handed_texts(messages, ended):
    """The messages are printed by entry, type and tag."""
    return "HandedTexts({}, {})".format(listed(
        f"Handed {{ entry: {entry}, mtype: {mtype}, sender: 1, tag: {tag}, length: 3, came: 3, "
        "as_sent: true }" for entry, mtype, tag in messages), ended)


def sent_by_1(mtype, tag):
    return f"Sent {{ seat: 1, moment: 11, tag: {tag}, mtype: {mtype}, length: 3 }}"


def received_by_2(moment, place, selection):
    return (f"Received {{ seat: 2, moment: {moment}, place: {place}, selection: {selection}, "
            "size: 65536, noerror: false }")


LETTERS = [letter(1, 31), letter(2, 32), letter(1, 33), letter(0, 34), letter(1, 35)]
OF_NO_TYPE, NO_MORE = "Refused(EINVAL, None)", "Refused(ENOMSG, Some(6))"
SENDING_FIVE, RECEIVING_NINE = send_texts(LETTERS), receive_texts("Exact(1)", 9)
FIRST_AND_THIRD = [(4, 1, 31), (5, 1, 33)]

# In slot 0 a queue is made; of five letters the fourth has no type; those of type 1 are received,
# and then any one.
BATCHES = {
    "pages": "Pages(1024)",
    "seat 1": "Seat(1, [4, 0, 0])",
    "making": REPLIES["making"],
    "sending": call(11, SENDING_FIVE, sent_texts("Some(1)", LETTERS[3:], OF_NO_TYPE)),
    "seat 2": "Seat(2, [3, 0, 0])",
    "receiving": call(21, RECEIVING_NINE, handed_texts(FIRST_AND_THIRD, NO_MORE)),
    "receiving one": call(22, receive_texts("Any", 1), handed_texts([(6, 2, 32)], "All")),
    "end": part("End", 0, 0, [], [
        MADE, sent_by_1(1, 31), sent_by_1(2, 32), sent_by_1(1, 33),
        received_by_2(21, 1, "Exact(1)"), received_by_2(21, 3, "Exact(1)"),
        received_by_2(22, 2, "Any")], 0),
    "end 1": "End(1, 0, 0, [], [], 0)",
    "end 2": "End(2, 0, 0, [], [], 0)",
}

# One more letter than a call sends, and all of them sent by one.
TOO_MANY = [letter(1, tag) for tag in range(100, 165)]


def sending(answer, asked=SENDING_FIVE):
    return {"sending": call(11, asked, answer)}


def receiving(messages, ended, asked=RECEIVING_NINE):
    return {"receiving": call(21, asked, handed_texts(messages, ended))}


def receiving_none(ended, asked=RECEIVING_NINE):
    """What is printed where the second seat receives nothing, but calls once."""
    return {**receiving([], ended, asked), "receiving one": "", "seat 2": "Seat(2, [0, 0, 0])",
            "end": part("End", 0, 0, [], [MADE, *map(sent_by_1, (1, 2, 1), (31, 32, 33))], 3)}


BATCH_CASES = (
    (BATCHES, {}, None),
    # The fourth letter is out of memory; so is a list of what is received.
    (BATCHES, sending(sent_texts("Some(1)", [letter(1, 35)], "Refused(ENOMEM, Some(4))"),
                      send_texts([*LETTERS[:3], letter(1, 35)])), None),
    (BATCHES, receiving_none("Refused(ENOMEM, None)"), None),
    (BATCHES, receiving_none("Refused(EINVAL, None)", receive_texts("Exact(0)", 9)), None),
    # A batch skips a message, takes one of another type, or one twice.
    (BATCHES, receiving([(4, 1, 33)], "Refused(ENOMSG, Some(5))"), "seat 2, call 0: other message"),
    (BATCHES, {**receiving([(4, 1, 31), (5, 2, 32)], NO_MORE), "receiving one": ""},
     "seat 2, call 0: other message"),
    (BATCHES, receiving([(4, 1, 31), (5, 1, 31)], NO_MORE), "twice"),
    # Its entries are not consecutive, are others, or there are none.
    (BATCHES, receiving([(4, 1, 31), (6, 1, 33)], NO_MORE), "seat 2, call 0: not in turn"),
    (BATCHES, receiving(FIRST_AND_THIRD, "Refused(ENOMSG, Some(7))"),
     "seat 2, call 0: not in turn"),
    (BATCHES, sending(sent_texts("Some(2)", LETTERS[3:], OF_NO_TYPE)),
     "seat 1, call 1: other event"),
    (BATCHES, sending(sent_texts("None", LETTERS[3:], OF_NO_TYPE)), "seat 1, call 1: not in turn"),
    (BATCHES, {"end": part("End", 0, 0, [], [
        MADE, sent_by_1(1, 31), SENT_TOO, sent_by_1(2, 32), sent_by_1(1, 33)], 4)},
     "seat 1, call 1: other event"),
    # It counts one too many, or one too few.
    (BATCHES, {"seat 1": "Seat(1, [5, 0, 0])"}, "seat 1, slot 0: counts"),
    (BATCHES, {"seat 2": "Seat(2, [2, 0, 0])"}, "seat 2, slot 0: counts"),
    # It loses the rest of a list, some of it, or its order; or returns what it sent.
    (BATCHES, sending(sent_texts("Some(1)", [], OF_NO_TYPE)), "seat 1, call 1: was refused"),
    (BATCHES, sending(sent_texts("Some(1)", LETTERS[4:], OF_NO_TYPE)),
     "seat 1, call 1: was refused"),
    (BATCHES, sending(sent_texts("Some(1)", LETTERS[3:4], OF_NO_TYPE)),
     "seat 1, call 1: other rest"),
    (BATCHES, sending(sent_texts("Some(1)", LETTERS[:2:-1], OF_NO_TYPE)),
     "seat 1, call 1: other rest"),
    (BATCHES, sending(sent_texts("Some(1)", LETTERS[2:], OF_NO_TYPE)),
     "seat 1, call 1: not early"),
    # It returns the first refusal as success, another one, or one where there was none.
    (BATCHES, sending(sent_texts("Some(1)", LETTERS[3:], "All")), "seat 1, call 1: other count"),
    (BATCHES, receiving(FIRST_AND_THIRD, "All"), "seat 2, call 0: other count"),
    (BATCHES, sending(sent_texts("Some(1)", LETTERS[3:], "Refused(EAGAIN, Some(4))")),
     "seat 1, call 1: not early"),
    (BATCHES, receiving(FIRST_AND_THIRD, "Refused(E2BIG, Some(6))"),
     "seat 2, call 0: other refusal"),
    (BATCHES, receiving(FIRST_AND_THIRD, NO_MORE, receive_texts("Exact(1)", 2)),
     "seat 2, call 0: other count"),
    (BATCHES, receiving_none("Refused(ENOMSG, Some(4))"), "seat 2, call 0: other refusal"),
    (BATCHES, receiving_none("Refused(EINVAL, None)"), "seat 2, call 0: not early"),
    # It waits for none but the first, and for that one it does.
    (BATCHES, receiving(FIRST_AND_THIRD, NO_MORE, receive_texts("Exact(1)", 9, "Forever")), None),
    (BATCHES, receiving_none("Refused(ENOMSG, Some(4))", receive_texts("Exact(3)", 9, "Within(5)")),
     None),
    (BATCHES, receiving_none("Refused(ENOMSG, Some(4))", receive_texts("Exact(3)", 9, "Forever")),
     "seat 2, call 0: did not wait"),
    # It does more than it was asked for, or than one call does.
    (BATCHES, receiving(FIRST_AND_THIRD, "All", receive_texts("Exact(1)", 1)),
     "seat 2, call 0: other count"),
    (BATCHES, {**sending(sent_texts("Some(1)", [], "All"), send_texts(TOO_MANY)),
               "seat 1": "Seat(1, [66, 0, 0])", "seat 2": "", "receiving": "", "receiving one": "",
               "end": part("End", 0, 0, [], [MADE, *(sent_by_1(1, tag) for tag in range(100, 165))],
                           65)},
     "seat 1, call 1: other count"),
    (BATCHES, {**sending(sent_texts("Some(1)", TOO_MANY[64:], "All"), send_texts(TOO_MANY)),
               "seat 1": "Seat(1, [65, 0, 0])", "seat 2": "", "receiving": "", "receiving one": "",
               "end": part("End", 0, 0, [], [MADE, *(sent_by_1(1, tag) for tag in range(100, 164))],
                           64)},
     None),
)
