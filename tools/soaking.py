"""The soak of reg_tests, which takes its numbers from its environment."""
from building import built

CRATE = "reg_tests"
TEST = "sessions::soak::sessions_at_random_are_gathered_and_each_hive_is_its_journals"


def tests():
    """The program of the tests. It is proved and built first where it isn't there."""
    return built(CRATE, tests=True)


def numbered(seed, rounds, sessions, calls, many=1_500):
    """The environment in which the soak has other numbers than the gate's: the first seed, how often it is done, by how many sessions, of how
    many calls each, and more than how many entries are to be left each time."""
    numbers = {"SEED": seed, "ROUNDS": rounds, "SESSIONS": sessions, "CALLS": calls, "MANY": many}
    return {f"SOAK_{name}": str(number) for name, number in numbers.items()}


def told(seed, rounds, sessions, calls, many=1_500):
    """What the soak says of its numbers, once all went well: so it took these."""
    return f"{rounds} rounds of {sessions} sessions with {calls} calls, from seed {seed} on, each of more than {many} entries\n"
