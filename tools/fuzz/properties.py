"""The properties, and which one the case of a number has. Each makes a case by chance, runs the program on it, and raises `Wrong`
if the answer isn't what is expected."""
from checks import check
from completed import completed
from ends import ends
from leaves import leaves, repairs
from merged import merged
from places import places
from precedences import precedences
from sentences import sentences


def same(case):
    """the same answers when all is run once more"""
    case.is_repeated = True
    case.chance.choice((ends, leaves, repairs, places, check, sentences))(case)


# By name, in the order of README.md.
PROPERTIES = {
    "ends": ends, "same": same, "leaves": leaves, "repairs": repairs, "places": places, "check": check, "sentences": sentences,
    "completed": completed, "precedences": precedences, "merged": merged,
}
# Which property a case has, by its number.
PLAN = ("ends", "leaves", "repairs", "places", "check", "sentences", "ends", "repairs", "places", "sentences", "same", "ends", "completed", "precedences", "merged")
