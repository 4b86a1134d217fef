"""A planner in Python, as docs/PYTHON.md has it: a car drives in, is parked through a jam, and is fetched."""

from station import Event, Number, Outcome, Refused, Station, apart_drawing

garage = Station.start()


def show():
    print(f"cars: {garage.record.cars()}")
    print(garage.record.drawing(), end="")


def look():
    """Somebody looks at what is set apart, and sends what is there: here nothing had moved."""
    print(apart_drawing(garage.apart), end="")
    garage.image(garage.record)
    print("image: accepted")


def drive(what, begins):
    garage.event(begins)
    garage.event(Event.END_DONE)
    print(f"{what}: accepted")


def step(words, outcome, ended):
    """The motor's report comes from the garage; here it is told beforehand."""
    try:
        issue = garage.request(words)
    except Refused as refused:
        if refused.number is not Number.SET_APART:
            raise
        print(f"{words}: {refused.number}")
        look()
        issue = garage.request(words)
    garage.result(issue, 0, outcome)
    print(f"{words}: {ended}")


drive("in", Event.BEGIN_IN)
step("lift basement", Outcome.DONE, "done")
step("belts row 1 left lift, lower, full", Outcome.STUCK, "stuck")
step("belts row 1 left lift, lower, full", Outcome.DONE, "done")
show()
step("belts row 1 left lift, higher, full", Outcome.DONE, "done")
step("lift street", Outcome.DONE, "done")
drive("out", Event.BEGIN_OUT)
show()
